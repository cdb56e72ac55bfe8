//! What include/vulprow.h says of numbers, held to the engine's answers and to what is known of it here.

use crate::tally::Tally;
use reference::engine::{EDGES, MOVES, SHEET_MAX, STEPS, STEP_UP, TERMINALS, TEXT_MAX, VERSION, VERTICES};
use std::collections::{BTreeMap, BTreeSet};

const HEADER: &str = concat!(env!("CARGO_MANIFEST_DIR"), "/../include/vulprow.h");

const MACROS: [(&str, usize); 9] = [
    ("VULPROW_VERSION", VERSION as usize),
    ("VULPROW_MAX_POOLS", VERTICES),
    ("VULPROW_MAX_CHANNELS", EDGES),
    ("VULPROW_MAX_MILLS", TERMINALS),
    ("VULPROW_MAX_STEPS", STEPS),
    ("VULPROW_MAX_MOVES", MOVES),
    ("VULPROW_TEXT_MAX", TEXT_MAX),
    ("VULPROW_SHEET_MAX", SHEET_MAX),
    ("VULPROW_STEP_UP", STEP_UP as usize),
];

/// The numbers in a text.
fn numbers(text: &str) -> BTreeSet<u32> {
    text.split(|letter: char| !letter.is_ascii_digit()).filter_map(|digits| digits.parse().ok()).collect()
}

/// What stands between two marks.
fn between<'a>(text: &'a str, start: &str, end: &str) -> Option<&'a str> {
    let rest = &text[text.find(start)? + start.len()..];
    Some(&rest[..rest.find(end)?])
}

/// The numbers of `enum vulprow_answer`.
fn answers_of_enum(header: &str) -> BTreeSet<u32> {
    let lines = between(header, "enum vulprow_answer {", "};").unwrap_or_default().lines();
    lines.filter_map(|line| between(line, "= ", " ").map(|number| number.trim_end_matches(','))?.parse().ok()).collect()
}

/// For each function the numbers of the sentence that starts with "Answers".
fn answers_of_functions(header: &str) -> BTreeMap<String, BTreeSet<u32>> {
    let sentences = header.split("* Answers").skip(1);
    let of_sentence = |rest: &str| Some((between(rest, "uint32_t vulprow_", "(")?.to_string(), numbers(rest.split("*/").next()?)));
    sentences.filter_map(of_sentence).collect()
}

/// The answers that were got are just those that the header names, of each function and of all; and its macros are those known here.
pub fn compare_header(tallies: &[Tally]) -> Result<(), String> {
    let header = std::fs::read_to_string(HEADER).map_err(|error| format!("{HEADER}: {error}"))?;
    let mut got: BTreeMap<String, BTreeSet<u32>> = BTreeMap::new();
    for (call, answer) in tallies.iter().flat_map(|tally| tally.answers.keys()) {
        got.entry(call.to_string()).or_default().insert(*answer);
    }
    let named = answers_of_functions(&header);
    if named != got {
        return Err(format!("the header names other answers than the functions gave\nheader: {named:?}\nengine: {got:?}"));
    }
    let (in_enum, in_all) = (answers_of_enum(&header), got.into_values().flatten().collect());
    if in_enum != in_all {
        return Err(format!("enum vulprow_answer has other numbers than were answered\nheader: {in_enum:?}\nengine: {in_all:?}"));
    }
    MACROS.iter().try_for_each(|(name, number)| match between(&header, &format!("#define {name} "), "\n") {
        Some(text) if text.parse() == Ok(*number) => Ok(()),
        other => Err(format!("{name} is {number} here, and {other:?} in the header")),
    })
}
