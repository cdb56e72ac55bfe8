//! Inputs of the programs, made by hand and at random, for the program `replay`, which does with each what `sheet`, `play` or a caller does.

use crate::boards::random_board;
use crate::calls::random_input;
use crate::cases::{greatest_board, longest_board, longest_cycle, smallest_board, star, texts, DOWN_AGAIN, MISFIT, S, T, TAIL};
use crate::damage::damaged;
use crate::player::Player;
use crate::programs::{play, sheet};
use crate::random::Random;
use crate::text::write;

/// What is done with an input.
pub enum Use {
    /// The program `sheet`.
    Sheet,
    /// The program `play`, the input coming in pieces of so many bytes.
    Play(u8),
    /// The call `sheet` before a finish, with a buffer that is too short, and with one that is not.
    Calls,
}

pub type Script = (Use, Vec<u8>);

/// Boards, written with a blank for each line feed: the unstarred cases and "Boards to try", flow 0 and the greatest.
const BOARDS: [&str; 12] = [
    "B,2,1,1,0 C,1,1,5 W,1,5 ",
    "B,2,1,1,0 C,0,1,5 W,0,5 ",
    "B,2,1,1,0 C,0,1,4 W,1,5 ",
    "B,2,1,1,0 C,0,1,5 W,1,5",
    "B,2,1,1,0 C,0,1,1000000 W,1,1000000 ",
    "B,2,1,1,0 C,0,1,1000001 W,1,1000001 ",
    "B,2,1,1,0 C,0,1,05 W,1,5 ",
    "B,3,3,1,0 C,0,1,4 C,1,2,3 C,2,1,3 W,1,4 ",
    "B,3,4,1,0 C,0,2,0 C,2,1,0 C,0,1,1 C,1,0,0 W,1,1 ",
    "B,2,4,1,1 C,1,0,1 C,1,0,2 C,1,0,1 C,1,0,1 W,0,5 ",
    "B,2,1,3,0 C,0,1,6 W,1,1 W,1,2 W,1,3 ",
    MISFIT,
];

/// Boards with lines, in the same way: each refusal of the lines, document 01's cases, lines of another form, lines
/// after a finish, a last line without its line feed, boards that are refused though lines follow, boards finished by
/// their hints, with `N`, which is no line to read, and finishes taken back.
const PLAYS: [(&str, &str); 29] = [
    (T, "K,0,0 K,1,2 K,2,0 K,0,4 U T F U"),
    (T, "K,0,2 K,0,0 K,0,1 T,0,D,2,D,3,U,1,U U H F K,0,0 T,200,D H U F "),
    (T, "T,0,D,2,D,3,U,1,U T,0,D T,0,D,0,U T,4,D T,128,D T,9999999,U,0,D K,256,0 K,0,256 K,9999999,9999999 "),
    (T, "K,0,2 K,0,0 T,0,U,1,D,3,D,2,U T,1,D,3,D,2,U,0,U T,0,D,2,D,3,U,1,U K,1,3 K,1,1 H F "),
    ("B,3,3,1,0 C,0,1,4 C,1,2,3 C,2,1,3 W,1,4 ", "K,0,0 T,1,D,2,D H K,0,0 U K,0,0 F F "),
    ("B,2,4,1,1 C,1,0,1 C,1,0,2 C,1,0,1 C,1,0,1 W,0,5 ", "T,1,D,2,U,3,D,0,U T,1,D,0,U H U U F "),
    (MISFIT, "H K,0,0 H T,0,D,1,U U F "),
    (T, "X  T, T,0 T,0,D, T,0,d T,00,D T,,D T,12345678,D K K,0 K,0, K,0,0,0 K,00,2 H, HH F, u F"),
    (T, "\r K,0,2\r F\t F\0 \u{7f} F F"),
    ("B,2,1,1,0 C,1,1,5 W,1,5 ", "F "),
    ("B,2,1,1,0 C,0,1,5 W,0,5 ", "F "),
    ("B,2,1,1,0 C,0,1,4 W,1,5 ", "K,0,0 F "),
    ("B,99 ", "K,0,0 "),
    ("B,2,1,1,2 ", "C,0,1,5 "),
    ("B,4,4,2,0 C,0,1,3 ", "F "),
    ("B,2,1,1,0 C,0,1,5 W,1,5", ""),
    (T, "H K,0,2 H K,0,0 H T,0,D,2,D,3,U,1,U H K,1,3 H K,1,1 H N F H N H"),
    (TAIL, "H K,0,0 H K,0,3 H K,0,4 H T,2,D,1,D,0,U,3,U H U H T,0,U,3,U,2,D,1,D H K,1,0 K,1,3 K,1,4 H F H "),
    (DOWN_AGAIN, "H T,1,D,2,U,3,D H T,0,D,1,D,2,U,4,U H K,0,2 H K,0,4 H U H F H "),
    // A finish taken back, with nothing behind it to undo; twice.
    (S, "F U U F U H F U"),
    (T, "F U H U F K,0,2 T T,0,D,2,D,3,U,1,U H F X U H F "),
    // Behind moves, which are undone one by one, a finish from each board on the way.
    (T, "K,0,2 K,0,0 T,0,D,2,D,3,U,1,U K,1,3 F U H U F U U F U U F U U F U U "),
    // Of no moves: the next undo takes the last carry back.
    (S, "K,0,0 H F U H F H U U H U K,0,0 F F "),
    (T, "K,0,2 K,0,0 T,0,D,2,D,3,U,1,U K,1,3 K,1,1 F U H F U U H U U F "),
    // Another way after it, to another sheet, over edges that the turn of the finish had marked; and the same way again.
    (T, "F U K,0,3 H F U K,0,1 H F U U U H F "),
    (T, "K,0,2 K,0,0 F U K,1,3 K,1,1 H T,0,D,2,D,3,U,1,U F U U F "),
    ("B,3,3,1,0 C,0,1,4 C,1,2,3 C,2,1,3 W,1,4 ", "F U T,1,D,2,D K,0,0 T,1,D,2,D F U U U F "),
    (TAIL, "F U H K,0,0 F U K,0,3 F U K,0,4 F U H T,2,D,1,D,0,U,3,U F U K,1,0 U U F "),
    (DOWN_AGAIN, "F U T,1,D,2,U,3,D F U T,0,D,1,D,2,U,4,U F U K,0,2 F U K,0,4 F U U U U U U F "),
];

/// The text with a line feed for each blank.
pub fn lines(text: &str) -> Vec<u8> {
    text.replace(' ', "\n").into_bytes()
}

/// A line far longer than any buffer: 6 before 7, and 7 where every edge is there; a field and a first line without an end.
fn long_inputs() -> Vec<Vec<u8>> {
    let turn = |last: &str| format!("{T}T{}{last}\nF\n", ",0,D".repeat(5_000)).into_bytes();
    let digits = |start: &str| format!("{start}{}\nF\n", "7".repeat(20_000)).into_bytes();
    vec![turn(",9,U"), turn(",3,U"), turn(",3"), digits(&format!("{T}K,0,")), digits("B,"), digits("B,2,1,1,0\nC,0,1,")]
}

/// All scripts. The last one prints a sheet, so that what goes before it is seen to have been read to its end.
pub fn scripts() -> Vec<Script> {
    let networks = [longest_board(), greatest_board(), smallest_board(), star()];
    let mut boards: Vec<Vec<u8>> = networks.iter().map(write).collect();
    boards.extend(BOARDS.iter().map(|text| lines(text)));
    boards.extend([S.into(), Vec::new(), b"\n".to_vec(), b"nonsense".to_vec(), [T.as_bytes(), b"F\n"].concat()]);
    boards.extend(texts().into_iter().filter(|text| text.len() > 1_200).take(24));
    let mut scripts: Vec<Script> = boards.iter().map(|text| (Use::Sheet, text.clone())).collect();
    scripts.extend(boards.iter().map(|text| (Use::Calls, text.clone())).take(12));
    scripts.extend(PLAYS.iter().map(|(board, calls)| (Use::Play(200), [lines(board), lines(calls)].concat())));
    scripts.push((Use::Play(200), [&write(&longest_cycle())[..], b"H\nF\nH\n"].concat()));
    scripts.extend([1, 2, 7].map(|piece| (Use::Play(piece), [lines(PLAYS[1].0), lines(PLAYS[1].1)].concat())));
    scripts.extend(long_inputs().into_iter().map(|input| (Use::Play(251), input)));
    for index in 0..120 {
        let mut rng = Random::of_input(7, index);
        let network = random_board(&mut rng);
        let text = write(&network);
        scripts.push((Use::Sheet, if index % 4 == 0 { damaged(&mut rng, &network) } else { text.clone() }));
        let count = rng.below(40);
        let input = random_input(&mut rng, &text, count);
        scripts.push((Use::Play(1 + rng.below(255) as u8), input));
    }
    scripts.push((Use::Sheet, T.into()));
    scripts
}

/// What the call `sheet` answers before a finish, the finish, and what `sheet` answers then with ten bytes of room and with enough; and the report.
fn calls(text: &[u8]) -> Vec<u8> {
    let (loading, mut player) = Player::load(text);
    let number = |written: Result<usize, u32>| written.err().unwrap_or(0);
    let mut buffer = vec![0; 9_000];
    let before = number(player.sheet(&mut buffer));
    let finish = player.finish().err().unwrap_or(0);
    let short = number(player.sheet(&mut buffer[..10]));
    let mut output = String::new();
    [loading, before, finish, short, number(player.sheet(&mut buffer))].iter().for_each(|number| output.push_str(&format!("{number}\n")));
    [output.into_bytes(), player.sheet_text().unwrap_or_default()].concat()
}

/// How many scripts there are; their bytes in the input of `replay`: for each a letter, the size of its pieces, its length in four bytes, the high
/// byte first, and its bytes; and what it prints: what was printed for each, and a line with a dash behind it.
pub fn stored() -> (usize, Vec<u8>, Vec<u8>) {
    let scripts = scripts();
    let count = scripts.len();
    let (mut input, mut output) = (Vec::new(), Vec::new());
    for (made_for, bytes) in scripts {
        let (letter, piece, printed) = match made_for {
            Use::Sheet => (b'S', 0, sheet(&bytes)),
            Use::Play(piece) => (b'P', piece, play(&bytes)),
            Use::Calls => (b'C', 0, calls(&bytes)),
        };
        input.extend([letter, piece]);
        input.extend((bytes.len() as u32).to_be_bytes());
        input.extend(bytes);
        output.extend(printed);
        output.extend(b"-\n");
    }
    (count, input, output)
}
