//! Inputs through the programs themselves: `sheet` and `play`, and the desk.

use crate::tally::{same, Tally};
use reference::boards::random_board;
use reference::calls::random_input;
use reference::damage::damaged;
use reference::old_sheets::old_sheets;
use reference::programs::{play, sheet};
use reference::random::Random;
use reference::text::write;
use std::io::Write;
use std::process::{Child, Command, Stdio};

/// The stack that each program is run in, in KiB; with sanitizers as much as there is.
fn stack(program: &str) -> Option<usize> {
    match program {
        "sheet" => Some(128),
        "play" => Some(160),
        "desk" => Some(1_024),
        _ => None,
    }
}

/// A program started in that stack, with pipes to it and from it. It gets no environment, which would lie on the stack, too.
pub fn started(program: &str) -> Result<Child, String> {
    let limit = stack(program).map_or(String::new(), |stack| format!("ulimit -s {stack}; "));
    let command = format!("{limit}exec env -i target/bin/{program}");
    let mut shell = Command::new("sh");
    let spawned = shell.args(["-c", &command]).stdin(Stdio::piped()).stdout(Stdio::piped()).stderr(Stdio::piped()).spawn();
    spawned.map_err(|error| format!("{program} does not start: {error}"))
}

/// What a program prints for an input.
fn printed(program: &str, input: &[u8]) -> Result<Vec<u8>, String> {
    let mut child = started(program)?;
    let mut pipe = child.stdin.take().expect("the input is a pipe");
    let bytes = input.to_vec();
    // A program that has refused its board reads no further, and what is left has no reader.
    let feeding = std::thread::spawn(move || drop(pipe.write_all(&bytes)));
    let output = child.wait_with_output().map_err(|error| format!("{program} does not end: {error}"))?;
    feeding.join().expect("the input is written");
    match output.status.success() {
        true => Ok(output.stdout),
        false => Err(format!("{program} ends with {}: {}", output.status, String::from_utf8_lossy(&output.stderr))),
    }
}

pub fn compare_program(program: &str, input: &[u8], wanted: Vec<u8>, tally: &mut Tally) -> Result<(), String> {
    let told = |text: Vec<u8>| String::from_utf8_lossy(&text).into_owned();
    same(input, told(wanted), told(printed(program, input)?)).map_err(|difference| format!("{program}: {difference}"))?;
    tally.count(&format!("runs of {program}"));
    Ok(())
}

/// A random board, good or damaged, through `sheet`, and lines on it through `play`.
pub fn compare_programs(rng: &mut Random, tally: &mut Tally) -> Result<(), String> {
    let network = random_board(rng);
    let good = write(&network);
    let text = if rng.chance(2, 3) { good.clone() } else { damaged(rng, &network) };
    compare_program("sheet", &text, sheet(&text), tally)?;
    let count = rng.pick(&[0, 3, 20, 60]);
    let mut input = random_input(rng, &good, count);
    let lines = &input[good.len().min(input.len())..];
    if lines.windows(3).any(|bytes| bytes.starts_with(b"F\n")) {
        tally.count("runs of play with lines behind F");
    }
    if rng.chance(1, 8) {
        input.splice(..good.len().min(input.len()), text);
    }
    compare_program("play", &input, play(&input), tally)
}

/// "The old sheets are compared again with this field changed and no other": through `play`, and where no move stands through `sheet`.
pub fn compare_old_sheets(tally: &mut Tally) -> Result<(), String> {
    old_sheets().iter().try_for_each(|old| {
        if old.moves.is_empty() {
            compare_program("sheet", old.board.as_bytes(), old.changed().into_bytes(), tally)?;
        }
        compare_program("play", &old.input(), old.output(), tally)?;
        tally.count("old sheets");
        Ok(())
    })
}

/// Lines of 400,000 bytes, and nothing.
pub fn compare_long_lines(board: &str, tally: &mut Tally) -> Result<(), String> {
    let turn = |last: &str| format!("{board}T{}{last}\nF\n", ",0,D".repeat(100_000)).into_bytes();
    let inputs = [turn(",9,U"), turn(",3,U"), turn(","), vec![b'7'; 400_000], Vec::new()];
    inputs.iter().try_for_each(|input| {
        compare_program("play", input, play(input), tally)?;
        compare_program("sheet", input, sheet(input), tally)
    })
}
