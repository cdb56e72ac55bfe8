//! Document 01, "The shelf".

use crate::cancelling::acyclic_flows;
use crate::moves::{Board, Move};
use crate::player::{put, Written};
use crate::programs::sheet;
use crate::solver::finishing_moves;
use crate::text::read;

macro_rules! texts {
    ($($number:literal)*) => { [$(include_str!(concat!("../../boards/catalog/", $number, ".txt"))),*] };
}

/// "Forty boards of the team's making", as the files of `boards/catalog/` have them. "Boards are numbered from 0".
pub const BOARDS: [&str; 40] = texts!(
    "00" "01" "02" "03" "04" "05" "06" "07" "08" "09" "10" "11" "12" "13" "14" "15" "16" "17" "18" "19"
    "20" "21" "22" "23" "24" "25" "26" "27" "28" "29" "30" "31" "32" "33" "34" "35" "36" "37" "38" "39"
);

/// "the shelf writes the text of the one named, refused 2 for a number above 39, then 8."
pub fn write(number: u32, buffer: &mut [u8]) -> Written {
    put(BOARDS.get(number as usize).ok_or(2u32)?.as_bytes(), buffer)
}

/// The numbers of a text, line by line.
fn rows(text: &str) -> Vec<Vec<&str>> {
    text.lines().map(|line| line.split(',').skip(1).collect()).collect()
}

/// "one constant table of at least 1,500 numbers, fields as in the board text", in the engine's source.
pub fn source_table() -> String {
    let numbers: Vec<&str> = BOARDS.iter().flat_map(|text| rows(text).concat()).collect();
    // As the formatter lays them out: as many to a line as 99 columns hold.
    let mut lines = vec![String::from("   ")];
    for number in &numbers {
        if lines[lines.len() - 1].len() + number.len() + 2 > 99 {
            lines.push(String::from("   "));
        }
        let last = lines.len() - 1;
        lines[last].push_str(&format!(" {number},"));
    }
    let lines: String = lines.iter().map(|line| format!("{line}\n")).collect();
    format!(
        "// The boards of the catalog, one after the other. `tools/stored` makes this file from `boards/catalog/`;\n\
         // `specs/Table.antt` has the same numbers line by line.\n\
         pub const TABLE: [u32; {}] = [\n{lines}];\n",
        numbers.len()
    )
}

/// The same table as the engine's definitions have it.
pub fn definition_table() -> String {
    let mut lines = String::new();
    for (number, text) in BOARDS.iter().enumerate() {
        lines.push_str(&format!("    -- {number}\n"));
        for row in rows(text) {
            lines.push_str(&format!("    {} ∷\n", row.join(" ∷ ")));
        }
    }
    format!(
        "-- The boards of the catalog, one after the other, numbered from 0, each with the fields of its text line by line: \"fields as in the board text\".\n\
         -- `tools/stored` makes this file from `boards/catalog/`.\n\
         use Rattle.std.specs.Prelude.{{List, [], ◌∷◌, ℕ}}\n\n\
         unfoldable pub table : List ℕ\n\
         table =\n{lines}    []\n"
    )
}

/// A board in numbers: vertices, edges, terminals, and the carries and turns of its finish. "every entry, written as text, is an accepted board".
pub fn counts(text: &str) -> [usize; 5] {
    let network = read(text.as_bytes()).unwrap_or_else(|refusal| panic!("a board of the catalog is refused {refusal}:\n{text}"));
    let moves = finishing_moves(&network, &Board::first(&network, &acyclic_flows(&network)));
    let carries = moves.iter().filter(|made| matches!(made, Move::Carry { .. })).count();
    [network.vertices, network.edges.len(), network.terminals.len(), carries, moves.len() - carries]
}

/// How many numbers `replay` is asked for, and what it prints: for each board a line with its number and its counts, its text and its sheet; then the
/// answers to the two numbers behind the last.
pub fn listing() -> (usize, Vec<u8>) {
    let mut output = Vec::new();
    for (number, text) in BOARDS.iter().enumerate() {
        let counts = counts(text).map(|count| count.to_string()).join(",");
        output.extend(format!("N,{number},{counts}\n{text}").bytes());
        output.extend(sheet(text.as_bytes()));
    }
    output.extend(b"2\n2\n");
    (BOARDS.len() + 2, output)
}
