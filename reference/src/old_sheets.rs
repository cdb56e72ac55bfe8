//! Document 02, E4: "The third field of an L line becomes the drained first flow. The old sheets are compared again with this field changed and no
//! other." `old_sheets.txt` has the sheets of the catalog and of every stored play as they were before, each behind its board, the standing moves and
//! `F`. That file stays as it is.

use crate::cancelling::acyclic_flows;
use crate::text::read;

const FILE: &str = include_str!("../old_sheets.txt");

/// A sheet as it was stored: where it was, the text of its board, the standing moves as lines of `play`, and its lines.
pub struct OldSheet {
    pub name: &'static str,
    pub board: String,
    pub moves: Vec<&'static str>,
    lines: Vec<&'static str>,
}

/// The sheets of the file. A line with a `#` before one of a board names the sheet; the lines are told apart by their letters.
pub fn old_sheets() -> Vec<OldSheet> {
    let mut sheets: Vec<OldSheet> = Vec::new();
    let mut name = "";
    for line in FILE.lines() {
        if let Some(remark) = line.strip_prefix("# ") {
            name = remark;
            continue;
        }
        if line.starts_with('B') {
            sheets.push(OldSheet { name, board: String::new(), moves: Vec::new(), lines: Vec::new() });
        }
        let sheet = sheets.last_mut().expect("a board comes first");
        match line.as_bytes()[0] {
            b'B' | b'C' | b'W' => sheet.board += &format!("{line}\n"),
            b'K' | b'T' => sheet.moves.push(line),
            b'F' => {}
            b'R' | b'M' | b'L' => sheet.lines.push(line),
            _ => panic!("no line of an old sheet: {line}"),
        }
    }
    sheets
}

impl OldSheet {
    /// The sheet as it was.
    pub fn text(&self) -> String {
        self.lines.iter().map(|line| format!("{line}\n")).collect()
    }

    /// The sheet "with this field changed and no other".
    pub fn changed(&self) -> String {
        let network = read(self.board.as_bytes()).unwrap_or_else(|refusal| panic!("the board of {} is refused {refusal}", self.name));
        let mut flows = acyclic_flows(&network).into_iter();
        let mut text = String::new();
        for line in &self.lines {
            let mut fields: Vec<String> = line.split(',').map(str::to_string).collect();
            if fields[0] == "L" {
                fields[2] = flows.next().expect("a line for each edge and no more").to_string();
            }
            text += &format!("{}\n", fields.join(","));
        }
        assert_eq!(flows.next(), None, "{}: a line for each edge", self.name);
        text
    }

    /// The input of `play` that leads to the sheet.
    pub fn input(&self) -> Vec<u8> {
        let moves: String = self.moves.iter().map(|line| format!("{line}\n")).collect();
        format!("{}{moves}F\n", self.board).into_bytes()
    }

    /// What `play` is to print for it: a 0 for each move and for the finish, and the sheet with its field changed.
    pub fn output(&self) -> Vec<u8> {
        format!("{}{}", "0\n".repeat(self.moves.len() + 1), self.changed()).into_bytes()
    }
}
