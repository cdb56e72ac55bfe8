//! What the programs `sheet` and `play` print for an input: document 01, "Route sheet", and document 02, E3.

use crate::moves::{Move, Step};
use crate::player::{Call, Player};
use crate::text::{line_count, number, Refusal};

/// "Program `sheet` reads a board on standard input, finishes it and prints the sheet, or the refusal number alone on a line."
pub fn sheet(input: &[u8]) -> Vec<u8> {
    let (refusal, mut player) = Player::load(input);
    if refusal != 0 {
        return number_line(refusal);
    }
    player.finish().expect("a loaded board is in play");
    player.sheet_text().expect("a finished board has a sheet")
}

/// "lines `K,mill,channel`, `T` with pairs of channel and way (D or U) as in `T,0,D,3,U`, `H`, `U`, `F`. `T` alone is the empty turn. Numbers
/// are written as in the board text". The line comes without its line feed; none if it is of another form.
pub fn line(bytes: &[u8]) -> Option<Call> {
    let fields: Vec<&[u8]> = bytes.split(|byte| *byte == b',').collect();
    match fields[..] {
        [b"K", terminal, edge] => Some(Call::Carry { terminal: number(terminal)?, edge: number(edge)? }),
        [b"T", ref pairs @ ..] => Some(Call::Turn(pairs.chunks(2).map(step).collect::<Option<_>>()?)),
        [b"H"] => Some(Call::Hint),
        [b"U"] => Some(Call::Undo),
        [b"F"] => Some(Call::Finish),
        _ => None,
    }
}

/// A pair of edge and way. "a channel too large for a step is one the board doesn't have"
fn step(pair: &[&[u8]]) -> Option<Step> {
    match pair {
        [edge, b"D"] => Some(Step { edge: number(edge)? as usize, is_up: false }),
        [edge, b"U"] => Some(Step { edge: number(edge)? as usize, is_up: true }),
        _ => None,
    }
}

/// The line that is read as a call, with its line feed.
pub fn line_of(call: &Call) -> Vec<u8> {
    let mut text = match call {
        Call::Carry { terminal, edge } => format!("K,{terminal},{edge}"),
        Call::Turn(steps) => {
            let pairs = steps.iter().map(|step| format!(",{},{}", step.edge, if step.is_up { "U" } else { "D" }));
            format!("T{}", pairs.collect::<String>())
        }
        Call::Hint => "H".to_string(),
        Call::Undo => "U".to_string(),
        Call::Finish => "F".to_string(),
    };
    text.push('\n');
    text.into_bytes()
}

/// The move of a hint. Document 02, E3: "`play` prints it after its 0, as a line it would read, or `N` where no move is left."
pub fn hint_line(hint: Option<&Move>) -> Vec<u8> {
    hint.map_or(b"N\n".to_vec(), |made| line_of(&Call::of_move(made)))
}

/// A number alone on a line.
pub fn number_line(number: Refusal) -> Vec<u8> {
    format!("{number}\n").into_bytes()
}

/// The number of a call, and what is printed for it in `play` and at the desk alike: the number, and by E3 the move of a hint.
pub fn call_lines(player: &mut Player, call: &Call) -> (Refusal, Vec<u8>) {
    let refusal = player.call(call);
    let mut output = number_line(refusal);
    if *call == Call::Hint && refusal == 0 {
        output.extend(hint_line(player.hint().expect("a hint that was answered 0").as_ref()));
    }
    (refusal, output)
}

/// "It prints 0 or the refusal number for each, 1 for a line of another form, and the sheet after an accepted `F`."
fn answer(player: &mut Player, call: Option<Call>) -> Vec<u8> {
    let Some(call) = call else {
        return number_line(1);
    };
    let (refusal, mut output) = call_lines(player, &call);
    if call == Call::Finish && refusal == 0 {
        output.extend(player.sheet_text().expect("a finished board has a sheet"));
    }
    output
}

/// The lines of an input, each with its line feed, which the last one may lack.
pub fn lines_of(input: &[u8]) -> Vec<&[u8]> {
    input.split_inclusive(|byte| *byte == b'\n').collect()
}

/// How many of these lines are the text of the board that the first one opens: "as many lines as its first line's counts say", or what there is. A
/// first line that is refused itself says no counts, and the text is that line alone; its number is the one that the line alone is refused with.
pub fn board_lines(lines: &[&[u8]]) -> usize {
    let count = lines.first().map_or(0, |opening| line_count(opening).unwrap_or(1));
    count.min(lines.len())
}

/// "Program `play` reads a board, as many lines as its first line's counts say, and then lines .. A refused board prints its number only."
pub fn play(input: &[u8]) -> Vec<u8> {
    let lines = lines_of(input);
    let (board, calls) = lines.split_at(board_lines(&lines));
    let (refusal, mut player) = Player::load(&board.concat());
    if refusal != 0 {
        return number_line(refusal);
    }
    let mut output = Vec::new();
    for bytes in calls {
        // A last line without its line feed is of another form.
        let call = bytes.strip_suffix(b"\n").and_then(line);
        output.extend(answer(&mut player, call));
    }
    output
}
