//! Scripts for the desk: one to read, others made by hand for each rule, and random ones.

use crate::boards::random_board;
use crate::calls::{habits, other_line, random_call, Habits};
use crate::cases::{greatest_board, longest_board, longest_cycle, DOUBLED, DOWN_AGAIN, LONGEST, MISFIT, S, T, TAIL};
use crate::damage::damaged;
use crate::desk::{Desk, LONGEST_LINE};
use crate::player::{Call, Player};
use crate::programs::{hint_line, line_of};
use crate::random::Random;
use crate::scripts::lines;
use crate::text::{write, Network};

/// A board with an idle cycle, which is drained.
const IDLE: &str = "B,3,3,1,0 C,0,1,4 C,1,2,3 C,2,1,3 W,1,4 ";

/// The script to read, piece by piece, with a blank for each line feed.
const EXAMPLE: [&str; 22] = [
    // Document 01's board T. As the first board it prints nothing.
    T,
    // Its text; no sheet before a finish, and nothing to undo.
    "W S U ",
    // The first terminal's way to the source, with carries that are refused: over an edge elsewhere, not open, no such terminal or edge.
    "K,0,0 K,1,2 K,2,0 K,0,4 K,0,2 K,0,0 K,0,1 ",
    // No cycle: empty, not closed, an edge twice; no such edge. The hint's cycle, and the hint behind it.
    "T T,0,D,2,D T,0,D,0,U T,7,D H T,0,D,2,D,3,U,1,U H ",
    // Undone, a turn comes too early: a carry is open. Done again.
    "U U T,0,D,2,D,3,U,1,U K,0,0 T,0,D,2,D,3,U,1,U K,1,3 ",
    // A finish, and its sheet. Play is over, and nothing but undo goes on.
    "F S K,1,1 T H F W ",
    // The finish taken back: there is no sheet any more. The last carry by hand, and a finish of no moves.
    "U S H K,1,1 H F S ",
    // Lines of another form change nothing.
    "k,1,1 K,1 K,01,1 T,0 N B X,0  U ",
    // Another board on top of the play, which prints its 0: no move of the last one is left to undo, and the text is this board's.
    DOUBLED,
    "U W ",
    // An up-step on an edge that is not singular; then turns and carries up to the end, one over an edge at 0, and a turn with such an edge.
    "T,0,D,1,U H T,2,D,3,U K,0,2 K,0,3 T,2,D,3,U H T,0,D,1,U K,0,1 H F S ",
    // Boards that are refused: each gives the closed board, and the script goes on. An edge's tail is its head.
    "B,2,1,1,0 C,1,1,5 W,1,5 ",
    "K,0,0 T U H F S W ",
    // A terminal at the source; a vertex out of balance.
    "B,2,1,1,0 C,0,1,5 W,0,5 ",
    "B,2,1,1,0 C,0,1,4 W,1,5 ",
    // A number outside its range, though a line breaks the layout behind it; and a leading zero.
    "B,2,1,1,0 C,0,2,5 nonsense ",
    "B,2,1,1,0 C,0,1,05 W,1,5 ",
    // The opening line is refused itself: what follows are lines of the script.
    "B,2,1,1,2 C,0,1,5 W,1,5 ",
    // A board with an idle cycle: the text has its flow, the sheet has not. A turn of edges at 0.
    IDLE,
    "W K,0,0 T,1,D,2,D F S ",
    // Document 01's board S, by its hints.
    S,
    "H K,0,0 H F S U U U ",
];

/// The script to read.
pub fn example() -> Vec<u8> {
    lines(&EXAMPLE.concat())
}

/// A refused board of three lines, and every line that a board answers.
const OUT_OF_BALANCE: &str = "B,2,1,1,0 C,0,1,4 W,1,5 ";
const EVERY_LINE: &str = "K,0,0 T T,0,D,2,D,3,U,1,U U H S W F S W H U S ";

/// Scripts made by hand, in pieces, with a blank for each line feed.
const MADE: [&[&str]; 39] = [
    // No line; a line feed alone; lines that open the first board because they are first.
    &[""],
    &[" ", EVERY_LINE],
    &["S ", EVERY_LINE],
    &["K,0,0 ", S, EVERY_LINE],
    &["B ", S, "B ", EVERY_LINE],
    &["\0 \0", "B,\0 ", T, EVERY_LINE],
    // A first board, accepted and refused, with lines behind it.
    &[S, EVERY_LINE],
    &[T, EVERY_LINE, EVERY_LINE],
    &[OUT_OF_BALANCE, EVERY_LINE, T, EVERY_LINE],
    // Opening lines that are refused themselves, first and later.
    &["B,2,1,1,2 C,0,1,5 W,1,5 ", EVERY_LINE],
    &["B,33,1,1,0 ", S, "B,2,1,1,0,0 C,0,1,5 W,1,5 ", EVERY_LINE],
    &[T, "F B,2,65,1,0 ", S, "F S B,, ", EVERY_LINE],
    &[T, "B,1,1,1,0 B,2,0,1,0 B,2,1,0,0 B,2,1,17,0 B,33,1,1,0 B,02,1,1,0 B,2,1,1,0\r B,2,1,1 U ", S, "U "],
    // Texts that take the lines behind them: boards, calls, empty lines; and one line too many.
    &["B,2,1,1,0 B,2,1,1,0 C,0,1,5 W,1,5 U ", S, "U "],
    &[T, "K,0,2 B,2,1,1,0 F U S W ", S, "W "],
    &[T, "B,2,1,1,0   S B,2,1,1,0 C,0,1,5  S ", T, "U "],
    &[S, "B,2,1,1,0 C,0,1,5 W,1,5 W,1,5 K,0,0 F S "],
    &["B,2,1,1,0 C,0,2,5 x B,2,1,1,0 x C,0,2,5 B,2,1,1,0 C,1,1,5 W,2,5 ", EVERY_LINE],
    // Texts that the end of the input cuts off, and unended lines.
    &[T, "K,0,2 ", "B,2,1,1,0 C,0,1,5 W,1,5"],
    &[T, "F S B,32,64,16,31 K,0,2 U S W H F "],
    &[S, "B,2,1,1,0 C,0,2,"],
    &[S, "B,2,1,1,0 C,0,1,1000001"],
    &[S, "B,99"],
    &[S, "B,99,"],
    &[S, "B,2,1,1,0"],
    &[S, "B,"],
    &[S, "F B"],
    &[S, "F S W"],
    &[T, "K,0,2 S F"],
    // Boards on top of the play, of a finish, of the closed board; every number that a board prints.
    &[T, "K,0,2 K,0,0 ", S, "U W K,0,0 ", T, "U H F ", S, "S U F S "],
    &[T, "F ", OUT_OF_BALANCE, EVERY_LINE, OUT_OF_BALANCE, "W ", T, "S U H "],
    &[S, "B,2,1,1,0 C,0,1,5 W,0,5 B,2,1,1,0 C,1,1,5 W,1,5 ", OUT_OF_BALANCE, "B,2,1,1,0 C,0,1,1000001 W,1,5 ", T, S],
    // Hints fed back; finishes taken back from every board on the way; sheets and texts at every stage.
    &[T, "W S H K,0,2 W S H K,0,0 H T,0,D,2,D,3,U,1,U W S H K,1,3 H K,1,1 S H N F S W H "],
    &[TAIL, "H K,0,0 F S U H K,0,3 F S U H K,0,4 H T,2,D,1,D,0,U,3,U F S U U H T,0,U,3,U,2,D,1,D H K,1,0 F S W "],
    &[DOWN_AGAIN, "H T,1,D,2,U,3,D F S U H T,0,D,1,D,2,U,4,U F S U K,0,2 F S U K,0,4 H F S U U U U U U F S "],
    &[MISFIT, "H K,0,0 H T,0,D,1,U S F S U U W ", IDLE, "K,0,0 T,1,D,2,D W F S "],
    &[DOUBLED, "T,0,D,1,U H T,2,D,3,U K,0,2 K,0,3 T,2,D,3,U H T,0,D,1,U K,0,1 K,0,1 H F S U U U U U U "],
    // The refusals of the moves, and lines of another form.
    &[T, "K,0,0 K,1,2 K,2,0 K,0,4 K,256,2 T T,0,D T,4,D T,128,D T,9999999,U,0,D T,0,D,2,D,3,U,1,U K,0,2 K,0,0 K,0,1 "],
    &[T, "b,2,1,1,0 s w f h A P,A G,A X,0 O,0 P,\0 S, W, W,3,2 SS F\r S\r \r S\0 \0S K,0,2\0 B\0,2 K,0,2\rU \t \u{7f}  U "],
];

/// A turn whose line has so many bytes: steps over edge 0, and at the end up to three over edge 10, to make up the length.
fn turn_of_length(length: usize) -> Vec<u8> {
    let (longer, pairs) = ((length - 1) % 4, (length - 1) / 4);
    format!("T{}{}\n", ",0,D".repeat(pairs - longer), ",10,D".repeat(longer)).into_bytes()
}

/// Lengths around the greatest that a call's line may have, and far greater ones.
const LENGTHS: [usize; 8] =
    [LONGEST_LINE - 6, LONGEST_LINE - 1, LONGEST_LINE, LONGEST_LINE + 1, LONGEST_LINE + 5, 2 * LONGEST_LINE + 1, 65_537, 200_000];

/// Calls in lines as long as they may be and longer, and lines that are a call, or open a board, behind the greatest length.
fn long_calls() -> Vec<Vec<u8>> {
    let turns: Vec<u8> = LENGTHS.iter().flat_map(|length| turn_of_length(*length)).collect();
    let tail = |tail: &str| format!("{}{tail}\n", "x".repeat(LONGEST_LINE)).into_bytes();
    let tails = ["K,0,2", "F", "U", "B,2,1,1,0", "\0"].map(tail).concat();
    let behind = |board: &[u8]| [board, &turns, &tails, b"U\nF\nS\n", &turns, b"W"].concat();
    vec![behind(T.as_bytes()), behind(&write(&greatest_board())), behind(b"B,\n")]
}

/// Boards with long lines, first and later: the opening line, a line of an edge, the last line.
fn long_boards() -> Vec<Vec<u8>> {
    let (digits, others) = ("7".repeat(LONGEST_LINE), "\0".repeat(70_000));
    let boards = [
        format!("B,{digits}\n{S}"),
        format!("B,99,{others}\n{S}"),
        format!("{others}\n{S}"),
        format!("B,2,1,1,0\nC,0,1,{digits}\nW,1,5\n"),
        format!("B,2,1,1,0\nC,0,2,{others}\nW,1,5\n"),
        format!("B,2,1,1,0\n{others}\n{others}\n"),
        format!("B,2,1,1,0\nC,0,1,5\nW,1,5{others}\n"),
        format!("B,2,1,1,0\nC,0,1,5\nW,2,{digits}\n"),
        format!("B,2,1,1,0\nC,0,1,5\nW,1,{digits}"),
    ];
    boards.iter().flat_map(|board| [format!("{board}U\nW\n"), format!("{T}F\n{board}U\nW\n")]).map(String::into_bytes).collect()
}

/// The longest text, and with a byte too many in its last line; then boards with the longest hint and with long routes.
fn great_boards() -> Vec<Vec<u8>> {
    let longest = write(&longest_board());
    let spoiled = [LONGEST - 13, LONGEST - 8, LONGEST - 1].map(|at| [&longest[..at], b"0", &longest[at..]].concat());
    let mut scripts: Vec<Vec<u8>> = spoiled.iter().map(|text| [&longest[..], b"F\n", text, b"W\nS\n"].concat()).collect();
    let lines = b"W\nH\nF\nS\nW\nU\nS\n";
    scripts.push([&longest_cycle(), &greatest_board(), &longest_board()].map(|network| [&write(network), &lines[..]].concat()).concat());
    scripts
}

/// All scripts made by hand.
pub fn made_scripts() -> Vec<Vec<u8>> {
    let made = MADE.iter().map(|pieces| lines(&pieces.concat()));
    made.chain(long_calls()).chain(long_boards()).chain(great_boards()).collect()
}

/// Lines of another form at the desk, or boards that are refused in their opening line, parted by bars.
const OTHER_LINES: &str = "|B|B,|B,2|B,2,1,1,2|B,2,1,1,0,|b,2,1,1,0|N|s|w|f|h|k,0,0|A|P,A|G,A|X,0|O,0|S,|W,|W,1,5|S\r|W\0|\0|\r|F\0F|B\0,2";

/// A random script in the making, and the player that its lines so far lead to.
struct Draft<'a> {
    rng: &'a mut Random,
    script: Vec<u8>,
    player: Player,
}

impl Draft<'_> {
    /// Bytes of any kind: they may open a board, or be taken into the text of the one before.
    fn push_any(&mut self, bytes: &[u8]) {
        self.script.extend(bytes);
        self.player = Desk::after(&self.script).player;
    }

    fn push_call(&mut self, call: &Call) {
        self.script.extend(line_of(call));
        self.player.call(call);
    }

    /// A board: random or by hand, and in one of four cases damaged, at times in its opening line.
    fn push_board(&mut self) {
        let by_hand = [S, T, TAIL, MISFIT, DOWN_AGAIN, DOUBLED, IDLE];
        if self.rng.chance(1, 3) {
            let text = lines(self.rng.pick(&by_hand));
            return self.push_any(&text);
        }
        let network = random_board(self.rng);
        let text = if self.rng.chance(3, 8) { self.damaged_board(&network) } else { write(&network) };
        self.push_any(&text);
    }

    fn damaged_board(&mut self, network: &Network) -> Vec<u8> {
        let text = damaged(self.rng, network);
        if self.rng.chance(3, 4) {
            return text;
        }
        // A long line in the text: some byte, often a digit, over and over.
        let (at, count) = (self.rng.below(text.len() + 1), self.rng.pick(&LENGTHS[..6]));
        let fill = vec![self.rng.pick(b"0123456789,\0\rBx"); count];
        [&text[..at], &fill, &text[at..]].concat()
    }

    /// A line that is long, of another form, or a board refused in its opening line; at times a board that takes the lines behind it.
    fn push_odd(&mut self) {
        let line = match self.rng.below(8) {
            0 => turn_of_length(self.rng.pick(&LENGTHS[..6])),
            1 => {
                let length = self.rng.pick(&LENGTHS[..6]);
                let tail = self.rng.pick(&["", "K,0,0", "B,2,1,1,0", "F", "\0"]);
                format!("{}{tail}\n", self.rng.pick(&["x", "\0", "F", "B", "B,"]).repeat(length)).into_bytes()
            }
            2..=4 => format!("{}\n", self.rng.pick(&OTHER_LINES.split('|').collect::<Vec<_>>())).into_bytes(),
            _ => other_line(self.rng),
        };
        self.push_any(&line);
    }

    /// A hint, and its move as the next line, as the desk prints it.
    fn push_hint(&mut self) {
        let hint = self.player.hint();
        self.push_call(&Call::Hint);
        if let Ok(hinted) = hint {
            let line = hint_line(hinted.as_ref());
            self.push_any(&line);
        }
    }

    /// A call on the board that there is, loaded or closed.
    fn push_random_call(&mut self, habits: Habits) {
        if self.player.network().is_none() {
            let line = lines(self.rng.pick(&["K,0,0 ", "K,99,99 ", "T ", "T,0,D ", "T,200,U ", "U ", "H ", "F "]));
            return self.push_any(&line);
        }
        let call = random_call(self.rng, habits, &self.player);
        self.push_call(&call);
    }

    /// Any line. Where a finish stands, an undo or the sheet in half of the cases.
    fn push_line(&mut self, habits: Habits) {
        match (self.player.is_over(), self.rng.below(24)) {
            (_, 0) => self.push_odd(),
            (_, 1) | (true, 8..=11) => self.script.extend(b"S\n"),
            (_, 2) => self.script.extend(b"W\n"),
            (_, 3) => self.push_call(&Call::Finish),
            (_, 4..=6) => self.push_hint(),
            (true, 12..=18) => self.push_call(&Call::Undo),
            _ => self.push_random_call(habits),
        }
    }

    /// The end of the input where it falls: without the last line feed, or anywhere in one more board.
    fn cut_off(&mut self) {
        if self.rng.chance(1, 2) {
            self.script.pop();
            return;
        }
        let start = self.script.len();
        self.push_board();
        let length = self.rng.between(start, self.script.len());
        self.script.truncate(length);
    }
}

/// A random script of one board or several, each with lines behind it.
pub fn random_script(rng: &mut Random) -> Vec<u8> {
    let mut draft = Draft { rng, script: Vec::new(), player: Player::closed() };
    if draft.rng.chance(1, 16) {
        draft.push_odd();
    }
    for _ in 0..draft.rng.between(1, 5) {
        draft.push_board();
        let (count, habits) = (draft.rng.pick(&[0, 3, 10, 25]), habits(draft.rng));
        for _ in 0..draft.rng.below(count + 1) {
            draft.push_line(habits);
        }
    }
    if draft.rng.chance(1, 4) {
        draft.cut_off();
    }
    draft.script
}
