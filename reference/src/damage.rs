//! Damaged texts.

use crate::random::Random;
use crate::text::{write, Network};

/// A field of a text: its bytes, and the byte that ends it.
#[derive(Clone)]
struct Field {
    body: Vec<u8>,
    end: Vec<u8>,
}

fn is_end(byte: &u8) -> bool {
    *byte == b',' || *byte == b'\n'
}

fn cut(text: &[u8]) -> Vec<Field> {
    let parts = text.split_inclusive(is_end);
    parts
        .map(|part| {
            let (body, end) = part.split_at(part.len() - usize::from(part.last().is_some_and(is_end)));
            Field { body: body.to_vec(), end: end.to_vec() }
        })
        .collect()
}

fn join(fields: &[Field]) -> Vec<u8> {
    fields.iter().flat_map(|field| [&field.body[..], &field.end[..]].concat()).collect()
}

/// Numbers at the ends of the ranges and one past them, and numbers that would wrap or that have too many digits.
const NUMBERS: &str = "0 1 2 3 4 15 16 17 31 32 33 63 64 65 127 128 255 256 65536 999999 1000000 1000001 9999999 10000000 \
    4294967297 18446744073709551617";

fn numbers() -> Vec<Vec<u8>> {
    NUMBERS.split(' ').map(|number| number.as_bytes().to_vec()).collect()
}

/// Bodies that are no numbers, made of the body that stood there.
fn malformed(body: &[u8]) -> Vec<Vec<u8>> {
    let around: [(&[u8], &[u8]); 12] = [
        (b"0", b""),
        (b"00000000", b""),
        (b"+", b""),
        (b"-", b""),
        (b" ", b""),
        (b"", b" "),
        (b"", b"x"),
        (b"\"", b"\""),
        (b"", b".0"),
        (b"0x", b""),
        (b"", b"\0"),
        (b"", b"\r"),
    ];
    let mut bodies: Vec<Vec<u8>> = around.iter().map(|(before, after)| [before, body, after].concat()).collect();
    let others = ["", "-0", "00", "B", "C", "W", "b", "\u{663}"];
    bodies.extend(others.iter().map(|other| other.as_bytes().to_vec()));
    bodies
}

const ENDS: [&[u8]; 10] = [b"", b",", b"\n", b",,", b"\n\n", b"\r\n", b"\r", b";", b" ", b"\0"];

/// Every kind of damage at every field of a text.
pub fn at_every_field(text: &[u8]) -> Vec<Vec<u8>> {
    let fields = cut(text);
    let mut texts = Vec::new();
    for at in 0..fields.len() {
        let mut bodies = malformed(&fields[at].body);
        bodies.extend(numbers());
        for body in bodies {
            let mut changed = fields.clone();
            changed[at].body = body;
            texts.push(join(&changed));
        }
        for end in ENDS {
            let mut changed = fields.clone();
            changed[at].end = end.to_vec();
            texts.push(join(&changed));
        }
        let mut dropped = fields.clone();
        dropped.remove(at);
        texts.push(join(&dropped));
        let mut doubled = fields.clone();
        doubled.insert(at, fields[at].clone());
        texts.push(join(&doubled));
    }
    texts
}

/// Every start of a text.
pub fn every_start(text: &[u8]) -> Vec<Vec<u8>> {
    (0..text.len()).map(|length| text[..length].to_vec()).collect()
}

/// A text with something behind it.
pub fn surplus(text: &[u8]) -> Vec<Vec<u8>> {
    let more: [&[u8]; 9] = [b"\n", b" ", b"\0", b"0", b",", b"\xff", b"W,1,5\n", b"C,0,1,0\n", text];
    more.iter().map(|more| [text, more].concat()).collect()
}

/// One field of a network changed, so that the layout stays good: refusals 2 to 5, or another good board.
fn change_number(rng: &mut Random, network: &Network) -> Vec<u8> {
    let mut changed = network.clone();
    let edge = rng.below(network.edges.len());
    let terminal = rng.below(network.terminals.len());
    let vertex = rng.below(network.vertices + 1);
    let other = rng.below(network.edges.len());
    match rng.below(12) {
        0 => changed.edges[edge].flow += 1,
        1 => changed.edges[edge].flow = changed.edges[edge].flow.saturating_sub(1),
        2 => changed.edges[edge].tail = vertex,
        3 => changed.edges[edge].head = vertex,
        4 => changed.edges[edge].head = changed.edges[edge].tail,
        5 => changed.terminals[terminal].home = network.source,
        6 => changed.terminals[terminal].home = vertex,
        7 => changed.terminals[terminal].demand += 1,
        8 => changed.terminals[terminal].demand -= 1,
        9 => changed.source = vertex,
        // Two edges or two terminals in each other's place: another good board.
        10 => changed.edges.swap(edge, other),
        _ => changed.vertices = rng.between(0, 34),
    }
    write(&changed)
}

/// A line dropped, doubled, or in the place of another.
fn move_line(rng: &mut Random, text: &[u8]) -> Vec<u8> {
    let mut lines: Vec<&[u8]> = text.split_inclusive(|byte| *byte == b'\n').collect();
    let (one, two) = (rng.below(lines.len()), rng.below(lines.len()));
    match rng.below(3) {
        0 => drop(lines.remove(one)),
        1 => lines.insert(two, lines[one]),
        _ => lines.swap(one, two),
    }
    lines.concat()
}

/// A byte changed, dropped or put in.
fn change_byte(rng: &mut Random, text: &mut Vec<u8>) {
    let byte = if rng.chance(1, 2) { rng.next() as u8 } else { rng.pick(b"0123456789,\nBCW-\r ") };
    let at = rng.below(text.len() + 1);
    match rng.below(3) {
        0 if at < text.len() => text[at] = byte,
        1 if at < text.len() => drop(text.remove(at)),
        _ => text.insert(at, byte),
    }
}

/// A text with random damage; now and then still a good one.
pub fn damaged(rng: &mut Random, network: &Network) -> Vec<u8> {
    let mut text = write(network);
    match rng.below(16) {
        0 => text.truncate(rng.below(text.len())),
        1 => text = rng.pick(&surplus(&text)),
        2..=4 => text = change_number(rng, network),
        5 => text = move_line(rng, &text),
        6 => {
            // Bytes of any value behind some start.
            text.truncate(rng.below(text.len() + 1));
            let count = rng.below(60);
            text.extend(rng.bytes(count));
        }
        7..=10 => {
            // One or two fields damaged, so that the order of the refusals shows.
            let mut fields = cut(&text);
            for _ in 0..rng.between(1, 2) {
                let at = rng.below(fields.len());
                match rng.below(4) {
                    0 => fields[at].end = rng.pick(&ENDS).to_vec(),
                    1 => fields[at].body = rng.pick(&malformed(&fields[at].body)),
                    _ => fields[at].body = rng.pick(&numbers()),
                }
            }
            text = join(&fields);
        }
        _ => {
            for _ in 0..rng.between(1, 3) {
                change_byte(rng, &mut text);
            }
        }
    }
    text
}
