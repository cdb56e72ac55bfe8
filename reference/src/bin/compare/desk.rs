//! Scripts through the desk, and through the same program built with sanitizers.

use crate::programs::compare_program;
use crate::session::Session;
use crate::tally::{same, Tally};
use reference::desk::desk;
use reference::desk_scripts::{made_scripts, random_script};
use reference::random::Random;
use reference::text::line_count;

/// The program, and the one with sanitizers.
const DESKS: [&str; 2] = ["desk", "desk_checked"];

fn compare_script(program: &'static str, script: &[u8], tally: &mut Tally) -> Result<(), String> {
    compare_program(program, script, desk(script), tally)
}

/// A random script; with sanitizers, too, where `is_checked`.
pub fn compare_random_script(rng: &mut Random, is_checked: bool, tally: &mut Tally) -> Result<(), String> {
    let script = random_script(rng);
    DESKS.iter().take(if is_checked { 2 } else { 1 }).try_for_each(|program| compare_script(program, &script, tally))
}

/// The parts of a script that have one answer: the lines of a board, and every other line alone.
fn parts(script: &[u8]) -> Vec<Vec<&[u8]>> {
    let mut lines = script.split_inclusive(|byte| *byte == b'\n');
    let mut parts = Vec::new();
    while let Some(first) = lines.next() {
        let opens_board = parts.is_empty() || first.starts_with(b"B,");
        let more = if opens_board { line_count(first).map_or(0, |count| count - 1) } else { 0 };
        parts.push([first].into_iter().chain(lines.by_ref().take(more)).collect());
    }
    parts
}

/// A script whose last line is ended and whose last board is whole, line by line: each answer is awaited before the next line is written.
fn compare_by_line(program: &'static str, script: &[u8], tally: &mut Tally) -> Result<(), String> {
    let mut session = Session::start(program)?;
    let (mut so_far, mut printed) = (Vec::new(), 0);
    for part in parts(script) {
        so_far.extend(part.concat());
        let wanted = desk(&so_far);
        let (last, lines) = part.split_last().expect("a part has a line");
        lines.iter().try_for_each(|line| session.give(line))?;
        session.ask(last, &wanted[printed..])?;
        printed = wanted.len();
    }
    tally.count(&format!("runs of {program}, line by line"));
    session.end()
}

fn file(name: &str) -> Result<Vec<u8>, String> {
    std::fs::read(name).map_err(|error| format!("{name}: {error}"))
}

/// The scripts made by hand, and the stored one, line by line, too.
pub fn compare_scripts(tally: &mut Tally) -> Result<(), String> {
    let (stored, output) = (file("examples/desk.in")?, file("examples/desk.out")?);
    let told = |text: Vec<u8>| String::from_utf8_lossy(&text).into_owned();
    same(&stored, told(desk(&stored)), told(output)).map_err(|difference| format!("examples/desk.out: {difference}"))?;
    for program in DESKS {
        compare_script(program, &stored, tally)?;
        compare_by_line(program, &stored, tally)?;
        made_scripts().iter().try_for_each(|script| compare_script(program, script, tally))?;
    }
    Ok(())
}
