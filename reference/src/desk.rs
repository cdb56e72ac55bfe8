//! What the desk prints for a script, over document 01's calls: README.md, "The desk". In quotes stand the sentences that it was asked for with.

use crate::player::{Call, Player};
use crate::programs::{board_lines, call_lines, line, lines_of, number_line};
use crate::text::Refusal;

/// "A call's line of up to 4,096 bytes is read, a longer one prints 1." The line feed ends a line and is not counted.
pub const LONGEST_LINE: usize = 4_096;

/// A line that opens no board.
enum Line {
    Call(Call),
    Sheet,
    Write,
}

/// A desk: the board on it, and what it has printed.
pub struct Desk {
    pub player: Player,
    pub output: Vec<u8>,
}

/// All that the desk prints for a script.
pub fn desk(input: &[u8]) -> Vec<u8> {
    Desk::after(input).output
}

impl Desk {
    /// The desk at the end of a script: "A script is a board and then lines."
    pub fn after(input: &[u8]) -> Desk {
        let mut desk = Desk { player: Player::closed(), output: Vec::new() };
        let lines = lines_of(input);
        // "The first line of a script always opens a board", however it begins. No line at all is the empty text, which is refused 1.
        let (first, mut rest) = lines.split_at(board_lines(&lines));
        let refusal = desk.load(first);
        // "The first board prints its number if it is refused and nothing if it is accepted"
        if refusal != 0 {
            desk.output.extend(number_line(refusal));
        }
        while let Some(next) = rest.first() {
            if !opens_board(next) {
                desk.answer(next);
                rest = &rest[1..];
                continue;
            }
            let (text, behind) = rest.split_at(board_lines(rest));
            let refusal = desk.load(text);
            // "every later board prints 0 or its number"
            desk.output.extend(number_line(refusal));
            rest = behind;
        }
        desk
    }

    /// A load of the text that these lines are, "on top of the play": no move of a board before it stays. "A refused board gives the closed board".
    fn load(&mut self, text: &[&[u8]]) -> Refusal {
        let (refusal, player) = Player::load(&text.concat());
        self.player = player;
        refusal
    }

    /// "Every other line prints its number, and behind a 0: .." what it asks for. A line of another form prints 1 on the closed board, too.
    fn answer(&mut self, bytes: &[u8]) {
        let printed = match desk_line(bytes) {
            // "`K,mill,channel`, `T,channel,way,..`, `U` nothing more .. `H` the move as `play` prints it, or `N`; `F` nothing more"
            Some(Line::Call(call)) => call_lines(&mut self.player, &call).1,
            // "`S` the route sheet; `W` the board text"
            Some(Line::Sheet) => text_lines(self.player.sheet_text()),
            Some(Line::Write) => text_lines(self.player.board_text()),
            None => number_line(1),
        };
        self.output.extend(printed);
    }
}

/// "`B,` opens a board". The two bytes alone decide: with nothing behind them, without a line feed, and in a line of any length. So an unended last
/// line that begins with them is a board whose text "is what there is", and "`B` alone" opens none.
fn opens_board(bytes: &[u8]) -> bool {
    bytes.starts_with(b"B,")
}

/// A line that opens no board, as it is read; none if it is of another form: too long, or "an unended last line", whatever it says. "A line is
/// bytes, a zero byte like any other", and so is a carriage return. The letters of requests to come are of another form until they land.
fn desk_line(bytes: &[u8]) -> Option<Line> {
    let bytes = bytes.strip_suffix(b"\n")?;
    if bytes.len() > LONGEST_LINE {
        return None;
    }
    match bytes {
        b"S" => Some(Line::Sheet),
        b"W" => Some(Line::Write),
        _ => line(bytes).map(Line::Call),
    }
}

/// A 0 with the text behind it, or the refusal.
fn text_lines(text: Result<Vec<u8>, Refusal>) -> Vec<u8> {
    text.map_or_else(number_line, |text| [number_line(0), text].concat())
}
