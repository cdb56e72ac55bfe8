//! The catalog: its rule, and what docs/CATALOG.md says of its boards.

use reference::catalog::{counts, write, BOARDS};
use reference::text::{read, write as write_text};
use std::collections::BTreeSet;

const DOCUMENT: &str = include_str!("../../docs/CATALOG.md");

#[test]
fn every_entry_is_an_accepted_board() {
    for (number, text) in BOARDS.iter().enumerate() {
        let network = read(text.as_bytes()).unwrap_or_else(|refusal| panic!("board {number} is refused {refusal}"));
        assert_eq!(write_text(&network), text.as_bytes(), "board {number}");
    }
}

#[test]
fn enough_numbers_and_no_two_boards_alike() {
    let numbers: usize = BOARDS.iter().map(|text| text.matches(',').count()).sum();
    assert!(numbers >= 1_500, "{numbers} numbers");
    assert_eq!(BOARDS.iter().collect::<BTreeSet<_>>().len(), BOARDS.len());
    let sizes: BTreeSet<[usize; 5]> = BOARDS.iter().map(|text| counts(text)).collect();
    assert_eq!(sizes.len(), BOARDS.len(), "two boards agree in size and moves");
}

#[test]
fn refusals() {
    let mut buffer = [7; 1_300];
    assert_eq!(write(40, &mut buffer), Err(2));
    assert_eq!(write(u32::MAX, &mut []), Err(2));
    for (number, text) in BOARDS.iter().enumerate() {
        assert_eq!(write(number as u32, &mut buffer[..text.len() - 1]), Err(8));
    }
    assert_eq!(buffer, [7; 1_300]);
    assert_eq!(write(39, &mut buffer), Ok(BOARDS[39].len()));
    assert_eq!(buffer[BOARDS[39].len()], 7);
}

/// A row of the document: number, size, carries and turns.
fn stated(row: &str) -> Vec<usize> {
    let cells = row.split('|').skip(1).take(4).flat_map(|cell| cell.split('/'));
    cells.map(|cell| cell.trim().parse().unwrap_or_else(|_| panic!("no number: {row}"))).collect()
}

#[test]
fn the_document_is_true() {
    let rows: Vec<Vec<usize>> = DOCUMENT.lines().filter(|line| line.starts_with("| ") && !line.starts_with("| board")).map(stated).collect();
    assert_eq!(rows.len(), BOARDS.len());
    for (number, (row, text)) in rows.iter().zip(BOARDS).enumerate() {
        assert_eq!(row[0], number);
        assert_eq!(row[1..], counts(text), "board {number}");
    }
}
