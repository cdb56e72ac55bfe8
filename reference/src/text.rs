//! Document 01, "Board text": read, or refused with its number, and written.

use std::ops::RangeInclusive;

/// What a board text says.
#[derive(Clone, Debug, PartialEq, Eq)]
pub struct Network {
    pub vertices: usize,
    pub edges: Vec<Edge>,
    pub terminals: Vec<Terminal>,
    pub source: usize,
}

/// `C,tail,head,flow`.
#[derive(Clone, Copy, Debug, PartialEq, Eq)]
pub struct Edge {
    pub tail: usize,
    pub head: usize,
    pub flow: u64,
}

/// `W,pool,need`.
#[derive(Clone, Copy, Debug, PartialEq, Eq)]
pub struct Terminal {
    pub home: usize,
    pub demand: u64,
}

/// A number of "Turned down because of the input" or "because of the state".
pub type Refusal = u32;

// "Pools 2 to 32 .. Channels 1 to 64. Mills 1 to 16. Flow 0 to 1,000,000. Need 1 to 1,000,000."
pub const VERTICES: RangeInclusive<u64> = 2..=32;
pub const EDGES: RangeInclusive<u64> = 1..=64;
pub const TERMINALS: RangeInclusive<u64> = 1..=16;
pub const FLOW: RangeInclusive<u64> = 0..=1_000_000;
pub const DEMAND: RangeInclusive<u64> = 1..=1_000_000;

/// "Numbers are decimal, one to seven digits, no sign, no leading zero ("0" itself is good)."
pub fn number(bytes: &[u8]) -> Option<u64> {
    let is_decimal = bytes.iter().all(u8::is_ascii_digit);
    let has_leading_zero = bytes.len() > 1 && bytes[0] == b'0';
    if bytes.is_empty() || bytes.len() > 7 || !is_decimal || has_leading_zero {
        return None;
    }
    Some(bytes.iter().fold(0, |value, digit| 10 * value + u64::from(digit - b'0')))
}

/// The fields of a text, taken off one after another. "1 or 2, the earlier in the file, 1 before 2 in one field, and a field takes in the
/// comma or line feed that must end it."
struct Fields<'a> {
    rest: &'a [u8],
}

impl Fields<'_> {
    /// The letter that opens a line.
    fn letter(&mut self, letter: u8) -> Result<(), Refusal> {
        if !self.rest.starts_with(&[letter, b',']) {
            return Err(1);
        }
        self.rest = &self.rest[2..];
        Ok(())
    }

    fn number(&mut self, range: RangeInclusive<u64>, end: u8) -> Result<u64, Refusal> {
        let digits = self.rest.iter().take_while(|byte| byte.is_ascii_digit()).count();
        let value = number(&self.rest[..digits]).ok_or(1u32)?;
        if self.rest.get(digits) != Some(&end) {
            return Err(1);
        }
        if !range.contains(&value) {
            return Err(2);
        }
        self.rest = &self.rest[digits + 1..];
        Ok(value)
    }

    /// "a pool field is below their count"
    fn vertex(&mut self, vertices: usize, end: u8) -> Result<usize, Refusal> {
        Ok(self.number(0..=vertices as u64 - 1, end)? as usize)
    }
}

/// What the first line says.
struct Header {
    vertices: usize,
    edges: usize,
    terminals: usize,
    source: usize,
}

/// "One line `B,pools,channels,mills,spring`."
fn header(fields: &mut Fields) -> Result<Header, Refusal> {
    fields.letter(b'B')?;
    let vertices = fields.number(VERTICES, b',')? as usize;
    let edges = fields.number(EDGES, b',')? as usize;
    let terminals = fields.number(TERMINALS, b',')? as usize;
    let source = fields.vertex(vertices, b'\n')?;
    Ok(Header { vertices, edges, terminals, source })
}

/// How many lines the text has whose first line this is.
pub fn line_count(first_line: &[u8]) -> Result<usize, Refusal> {
    let header = header(&mut Fields { rest: first_line })?;
    Ok(1 + header.edges + header.terminals)
}

/// The refusals 1 and 2.
fn layout(text: &[u8]) -> Result<Network, Refusal> {
    let mut fields = Fields { rest: text };
    let Header { vertices, edges: edge_count, terminals: terminal_count, source } = header(&mut fields)?;
    // "One line `C,tail,head,flow` per channel, numbered from 0 in file order."
    let mut edges = Vec::new();
    for _ in 0..edge_count {
        fields.letter(b'C')?;
        let tail = fields.vertex(vertices, b',')?;
        let head = fields.vertex(vertices, b',')?;
        let flow = fields.number(FLOW, b'\n')?;
        edges.push(Edge { tail, head, flow });
    }
    // "One line `W,pool,need` per mill, numbered from 0 in file order."
    let mut terminals = Vec::new();
    for _ in 0..terminal_count {
        fields.letter(b'W')?;
        let home = fields.vertex(vertices, b',')?;
        let demand = fields.number(DEMAND, b'\n')?;
        terminals.push(Terminal { home, demand });
    }
    // "Nothing follows the last line."
    if !fields.rest.is_empty() {
        return Err(1);
    }
    Ok(Network { vertices, edges, terminals, source })
}

/// "A pool balances when the flow entering equals the flow leaving plus the needs of its mills", here with the flows and the places of the
/// terminals given, so that it can be asked of any board.
pub fn balances(network: &Network, flows: &[u64], places: &[usize], vertex: usize) -> bool {
    let edges = || network.edges.iter().zip(flows);
    let entering: u64 = edges().filter(|(edge, _)| edge.head == vertex).map(|(_, flow)| flow).sum();
    let leaving: u64 = edges().filter(|(edge, _)| edge.tail == vertex).map(|(_, flow)| flow).sum();
    let terminals = network.terminals.iter().zip(places);
    let needed: u64 = terminals.filter(|(_, place)| **place == vertex).map(|(terminal, _)| terminal.demand).sum();
    entering == leaving + needed
}

/// "then 3, 4, 5": "3 a channel's tail is its head. 4 a mill at the spring. 5 a pool out of balance."
fn rules(network: &Network) -> Result<(), Refusal> {
    if network.edges.iter().any(|edge| edge.tail == edge.head) {
        return Err(3);
    }
    if network.terminals.iter().any(|terminal| terminal.home == network.source) {
        return Err(4);
    }
    // "Every pool but the spring must balance."
    let flows = flows(network);
    let homes = homes(network);
    let mut others = (0..network.vertices).filter(|vertex| *vertex != network.source);
    if !others.all(|vertex| balances(network, &flows, &homes, vertex)) {
        return Err(5);
    }
    Ok(())
}

/// What loading a text answers: the network, or the refusal.
pub fn read(text: &[u8]) -> Result<Network, Refusal> {
    let network = layout(text)?;
    rules(&network)?;
    Ok(network)
}

/// The text of a network.
pub fn write(network: &Network) -> Vec<u8> {
    let Network { vertices, edges, terminals, source } = network;
    let mut text = format!("B,{vertices},{},{},{source}\n", edges.len(), terminals.len());
    for Edge { tail, head, flow } in edges {
        text += &format!("C,{tail},{head},{flow}\n");
    }
    for Terminal { home, demand } in terminals {
        text += &format!("W,{home},{demand}\n");
    }
    text.into_bytes()
}

/// The flows in the text.
pub fn flows(network: &Network) -> Vec<u64> {
    network.edges.iter().map(|edge| edge.flow).collect()
}

/// Each terminal's vertex in the text.
pub fn homes(network: &Network) -> Vec<usize> {
    network.terminals.iter().map(|terminal| terminal.home).collect()
}
