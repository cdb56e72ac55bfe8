//! "The old sheets are compared again with this field changed and no other": document 02, E4.

use reference::cases::{S, T};
use reference::old_sheets::{old_sheets, OldSheet};
use reference::programs::{play, sheet};

#[test]
fn made_again() {
    for old in old_sheets() {
        let told = String::from_utf8_lossy(&old.input()).into_owned();
        assert_eq!(play(&old.input()), old.output(), "{}:\n{told}", old.name);
        if old.moves.is_empty() {
            assert_eq!(sheet(old.board.as_bytes()), old.changed().into_bytes(), "{}:\n{told}", old.name);
        }
    }
}

/// The file is the one that was stored: so many sheets, those of the catalog as it was first, some behind moves, some changed and most not.
#[test]
fn as_stored() {
    let sheets = old_sheets();
    let count = |is: fn(&&OldSheet) -> bool| sheets.iter().filter(is).count();
    assert_eq!((sheets.len(), count(|old| !old.moves.is_empty()), count(|old| old.changed() != old.text())), (192, 49, 62));
    assert!(sheets.iter().take(40).enumerate().all(|(number, old)| old.name == format!("catalog {number}") && old.moves.is_empty()));
}

/// Document 01's S and T keep their sheets; that of the board with a cycle changes in two lines.
#[test]
fn on_boards_of_document_01() {
    let sheets = old_sheets();
    let of = |board: &str| sheets.iter().find(|old| old.board == board && old.moves.is_empty()).expect("the sheet was stored");
    for board in [S, T] {
        assert_eq!(of(board).changed(), of(board).text());
    }
    let with_cycle = of("B,3,3,1,0\nC,0,1,4\nC,1,2,3\nC,2,1,3\nW,1,4\n");
    assert_eq!(with_cycle.text(), "R,1,3\nM,0,1,0\nL,0,4,4\nL,1,3,0\nL,2,3,0\n");
    assert_eq!(with_cycle.changed(), "R,1,3\nM,0,1,0\nL,0,4,4\nL,1,0,0\nL,2,0,0\n");
}
