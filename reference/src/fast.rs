//! Load, carry, undo, finish and report once more, made to be fast, as a yardstick of the engine's speed: fixed arrays, sets of edges and of vertices
//! as bits, nothing copied and nothing allocated. The rules are document 01's, as the plain modules beside this one have them.

use crate::player::Written;
use crate::text::Refusal;

const VERTICES: usize = 32;
const EDGES: usize = 64;
const TERMINALS: usize = 16;
/// The places of the journal.
pub const MOVES: usize = 1_056;

/// A place of the journal.
#[derive(Clone, Copy, Debug, PartialEq, Eq)]
pub enum Entry {
    Carry { terminal: u32, edge: u32 },
    Turn { amount: u32, down: u64, up: u64, marked: u64 },
}

/// What the places past the standing moves hold.
const BLANK: Entry = Entry::Carry { terminal: 0, edge: 0 };

#[derive(Clone, Copy, PartialEq, Eq)]
enum Stage {
    Closed,
    Play,
    /// With how many moves stood before the finish.
    Finished(usize),
}

/// A board, loaded and played in place. Places past the counts hold anything but in the journal, which holds blanks there.
pub struct Board {
    stage: Stage,
    vertices: usize,
    edges: usize,
    terminals: usize,
    source: usize,
    tails: [u8; EDGES],
    heads: [u8; EDGES],
    homes: [u8; TERMINALS],
    demands: [u32; TERMINALS],
    /// The edges that leave each vertex, and those that enter it.
    leaving: [u64; VERTICES],
    entering: [u64; VERTICES],
    /// The flow without its cycles, and the flow now.
    acyclic: [u32; EDGES],
    flows: [u32; EDGES],
    positive: u64,
    marks: u64,
    places: [u8; TERMINALS],
    /// The terminals that are not at the source.
    away: u32,
    journal: [Entry; MOVES],
    moves: usize,
}

/// The numbers of a set, lowest first.
struct Bits(u64);

impl Iterator for Bits {
    type Item = usize;

    #[inline]
    fn next(&mut self) -> Option<usize> {
        if self.0 == 0 {
            return None;
        }
        let lowest = self.0.trailing_zeros() as usize;
        self.0 &= self.0 - 1;
        Some(lowest)
    }
}

/// A text read from its start on.
struct Reader<'a> {
    text: &'a [u8],
    at: usize,
}

impl Reader<'_> {
    #[inline]
    fn letter(&mut self, letter: u8) -> Result<(), Refusal> {
        if self.text.get(self.at) != Some(&letter) || self.text.get(self.at + 1) != Some(&b',') {
            return Err(1);
        }
        self.at += 2;
        Ok(())
    }

    #[inline]
    fn number(&mut self, low: u32, high: u32, end: u8) -> Result<u32, Refusal> {
        let (start, mut value) = (self.at, 0);
        let last = loop {
            let byte = *self.text.get(self.at).ok_or(1u32)?;
            if !byte.is_ascii_digit() {
                break byte;
            }
            if self.at - start == 7 {
                return Err(1);
            }
            value = 10 * value + u32::from(byte - b'0');
            self.at += 1;
        };
        let digits = self.at - start;
        if last != end || digits == 0 || (digits > 1 && self.text[start] == b'0') {
            return Err(1);
        }
        if value < low || value > high {
            return Err(2);
        }
        self.at += 1;
        Ok(value)
    }
}

impl Board {
    pub fn closed() -> Board {
        Board {
            stage: Stage::Closed,
            vertices: 0,
            edges: 0,
            terminals: 0,
            source: 0,
            tails: [0; EDGES],
            heads: [0; EDGES],
            homes: [0; TERMINALS],
            demands: [0; TERMINALS],
            leaving: [0; VERTICES],
            entering: [0; VERTICES],
            acyclic: [0; EDGES],
            flows: [0; EDGES],
            positive: 0,
            marks: 0,
            places: [0; TERMINALS],
            away: 0,
            journal: [BLANK; MOVES],
            moves: 0,
        }
    }

    /// Reads a text and makes it ready to be played; 0, or its refusal and the closed board. The journal is cleared.
    pub fn load(&mut self, text: &[u8]) -> Refusal {
        self.stage = Stage::Closed;
        if let Err(refusal) = self.read(text).and_then(|()| self.judge()) {
            return refusal;
        }
        self.index();
        self.cancel();
        self.acyclic = self.flows;
        self.marks = 0;
        self.places = self.homes;
        self.away = ((1u64 << self.terminals) - 1) as u32;
        self.journal.fill(BLANK);
        self.moves = 0;
        self.stage = Stage::Play;
        0
    }

    /// 1 or 2.
    fn read(&mut self, text: &[u8]) -> Result<(), Refusal> {
        let mut reader = Reader { text, at: 0 };
        reader.letter(b'B')?;
        let vertices = reader.number(2, 32, b',')?;
        self.vertices = vertices as usize;
        self.edges = reader.number(1, 64, b',')? as usize;
        self.terminals = reader.number(1, 16, b',')? as usize;
        self.source = reader.number(0, vertices - 1, b'\n')? as usize;
        for edge in 0..self.edges {
            reader.letter(b'C')?;
            self.tails[edge] = reader.number(0, vertices - 1, b',')? as u8;
            self.heads[edge] = reader.number(0, vertices - 1, b',')? as u8;
            self.flows[edge] = reader.number(0, 1_000_000, b'\n')?;
        }
        for terminal in 0..self.terminals {
            reader.letter(b'W')?;
            self.homes[terminal] = reader.number(0, vertices - 1, b',')? as u8;
            self.demands[terminal] = reader.number(1, 1_000_000, b'\n')?;
        }
        if reader.at == text.len() {
            Ok(())
        } else {
            Err(1)
        }
    }

    /// 3, 4 or 5.
    fn judge(&self) -> Result<(), Refusal> {
        let mut surplus = [0i32; VERTICES];
        for edge in 0..self.edges {
            if self.tails[edge] == self.heads[edge] {
                return Err(3);
            }
            surplus[self.heads[edge] as usize & 31] += self.flows[edge] as i32;
            surplus[self.tails[edge] as usize & 31] -= self.flows[edge] as i32;
        }
        for terminal in 0..self.terminals {
            if self.homes[terminal] as usize == self.source {
                return Err(4);
            }
            surplus[self.homes[terminal] as usize & 31] -= self.demands[terminal] as i32;
        }
        surplus[self.source & 31] = 0;
        if surplus[..self.vertices].iter().any(|rest| *rest != 0) {
            return Err(5);
        }
        Ok(())
    }

    /// The sets of edges at each vertex, and that of the positive ones.
    fn index(&mut self) {
        self.leaving = [0; VERTICES];
        self.entering = [0; VERTICES];
        self.positive = 0;
        for edge in 0..self.edges {
            self.leaving[self.tail(edge)] |= 1 << edge;
            self.entering[self.head(edge)] |= 1 << edge;
            self.positive |= u64::from(self.flows[edge] > 0) << edge;
        }
    }

    #[inline]
    fn tail(&self, edge: usize) -> usize {
        self.tails[edge] as usize & 31
    }

    #[inline]
    fn head(&self, edge: usize) -> usize {
        self.heads[edge] as usize & 31
    }

    #[inline]
    fn out(&self, vertex: usize) -> u64 {
        self.leaving[vertex & 31] & self.positive
    }

    #[inline]
    fn into(&self, vertex: usize) -> u64 {
        self.entering[vertex & 31] & self.positive
    }

    #[inline]
    fn set_flow(&mut self, edge: usize, flow: u32) {
        self.flows[edge] = flow;
        self.positive = self.positive & !(1 << edge) | u64::from(flow > 0) << edge;
    }

    /// The vertices left once those are taken away, again and again, that no positive edge leaves to another that is left: none without a cycle.
    fn core(&self) -> u32 {
        let mut next = [0u32; VERTICES];
        for edge in Bits(self.positive) {
            next[self.tail(edge)] |= 1 << self.head(edge);
        }
        let mut left = ((1u64 << self.vertices) - 1) as u32;
        loop {
            let before = left;
            for vertex in Bits(u64::from(left)) {
                if next[vertex & 31] & left == 0 {
                    left &= !(1 << vertex);
                }
            }
            if left == before {
                return left;
            }
        }
    }

    /// The vertices from which one can be reached over positive edges, itself among them.
    fn reaching(&self, goal: usize) -> u32 {
        let (mut seen, mut fresh) = (1u32 << goal, 1u32 << goal);
        while fresh != 0 {
            let vertex = fresh.trailing_zeros() as usize;
            fresh &= fresh - 1;
            for edge in Bits(self.into(vertex)) {
                let tail = 1 << self.tail(edge);
                fresh |= tail & !seen;
                seen |= tail;
            }
        }
        seen
    }

    /// The lowest positive edge from a vertex into a set of vertices.
    fn onward(&self, vertex: usize, set: u32) -> Option<usize> {
        Bits(self.out(vertex)).find(|edge| set >> self.head(*edge) & 1 == 1)
    }

    fn cancel(&mut self) {
        loop {
            let core = self.core();
            let start = Bits(u64::from(core)).find_map(|vertex| {
                let reaching = self.reaching(vertex);
                self.onward(vertex, reaching).map(|_| (vertex, reaching))
            });
            let Some((start, reaching)) = start else { return };
            let mut walk = [0u8; VERTICES];
            let mut met_at = [u8::MAX; VERTICES];
            let (mut here, mut count) = (start, 0);
            while met_at[here & 31] == u8::MAX {
                met_at[here & 31] = count as u8;
                let edge = self.onward(here, reaching).expect("the start can be reached from every vertex of the walk");
                walk[count] = edge as u8;
                count += 1;
                here = self.head(edge);
            }
            let cycle = &walk[met_at[here & 31] as usize..count];
            let least = cycle.iter().map(|edge| self.flows[*edge as usize & 63]).min().expect("a cycle has an edge");
            for at in met_at[here & 31] as usize..count {
                let edge = walk[at] as usize & 63;
                self.set_flow(edge, self.flows[edge] - least);
            }
        }
    }

    #[inline]
    fn is_open(&self, terminal: usize, edge: usize) -> bool {
        let (flow, demand) = (self.flows[edge], self.demands[terminal]);
        if self.marks >> edge & 1 == 1 {
            flow == demand
        } else {
            flow >= demand
        }
    }

    /// The lowest terminal, from one on, that has an open carry, with the edge of it: marked edges first, then the lowest.
    #[inline]
    fn open_carry(&self, first: usize) -> Option<(usize, usize)> {
        for terminal in Bits(u64::from(self.away) >> first << first) {
            let terminal = terminal & 15;
            let into = self.into(self.places[terminal] as usize);
            let (flow, marked) = (self.demands[terminal], into & self.marks);
            let edge = Bits(marked).find(|edge| self.flows[*edge] == flow).or_else(|| Bits(into & !marked).find(|edge| self.flows[*edge] >= flow));
            if let Some(edge) = edge {
                return Some((terminal, edge));
            }
        }
        None
    }

    #[inline]
    fn record(&mut self, entry: Entry) {
        self.journal[self.moves] = entry;
        self.moves += 1;
    }

    #[inline]
    fn relocate(&mut self, terminal: usize, edge: usize) {
        self.set_flow(edge, self.flows[edge] - self.demands[terminal]);
        self.places[terminal] = self.tails[edge];
        if self.tail(edge) == self.source {
            self.away &= !(1 << terminal);
        }
        self.record(Entry::Carry { terminal: terminal as u32, edge: edge as u32 });
    }

    /// "Carry: 20, 6, 21, 22, 23."
    pub fn carry(&mut self, terminal: u32, edge: u32) -> Refusal {
        let (terminal, edge) = (terminal as usize, edge as usize);
        if self.stage != Stage::Play {
            return 20;
        }
        if terminal >= self.terminals || edge >= self.edges {
            return 6;
        }
        if self.places[terminal] as usize == self.source {
            return 21;
        }
        if self.heads[edge] != self.places[terminal] {
            return 22;
        }
        if !self.is_open(terminal, edge) {
            return 23;
        }
        self.relocate(terminal, edge);
        0
    }

    /// "Undo: 20, 27." A finish is taken back at once, with all its moves.
    pub fn undo(&mut self) -> Refusal {
        let left = match self.stage {
            Stage::Closed => return 20,
            Stage::Play if self.moves == 0 => return 27,
            Stage::Play => self.moves - 1,
            Stage::Finished(standing) => standing,
        };
        while self.moves > left {
            self.take_back();
        }
        self.stage = Stage::Play;
        0
    }

    /// Takes the last move back.
    #[inline]
    fn take_back(&mut self) {
        self.moves -= 1;
        match std::mem::replace(&mut self.journal[self.moves], BLANK) {
            Entry::Carry { terminal, edge } => {
                let (terminal, edge) = (terminal as usize, edge as usize);
                self.set_flow(edge, self.flows[edge] + self.demands[terminal]);
                self.places[terminal] = self.heads[edge];
                self.away |= 1 << terminal;
            }
            Entry::Turn { amount, down, up, marked } => {
                self.shift(amount, up, down);
                self.marks -= marked;
            }
        }
    }

    /// The flows fall on one set of edges and rise on another.
    fn shift(&mut self, amount: u32, down: u64, up: u64) {
        for edge in Bits(down) {
            self.set_flow(edge, self.flows[edge] - amount);
        }
        for edge in Bits(up) {
            self.set_flow(edge, self.flows[edge] + amount);
        }
    }

    /// The edges that are positive and singular: those whose head leads to no vertex that two or more positive edges leave.
    fn singular(&self) -> u64 {
        let mut parting = 0u32;
        for vertex in 0..self.vertices {
            let out = self.out(vertex);
            parting |= u32::from(out & out.wrapping_sub(1) != 0) << vertex;
        }
        let (mut fresh, mut singular) = (parting, self.positive);
        while fresh != 0 {
            let vertex = fresh.trailing_zeros() as usize;
            fresh &= fresh - 1;
            for edge in Bits(self.into(vertex)) {
                singular &= !(1 << edge);
                let tail = 1 << self.tail(edge);
                fresh |= tail & !parting;
                parting |= tail;
            }
        }
        singular
    }

    /// The steps of the ring as sets: down and up.
    fn cycle(&self) -> (u64, u64) {
        let mut steps = [(0u8, false); VERTICES];
        let mut met_at = [u8::MAX; VERTICES];
        let (mut here, mut count) = (self.source, 0);
        let (mut last, mut is_up) = (0u64, false);
        while met_at[here & 31] == u8::MAX {
            met_at[here & 31] = count as u8;
            let out = self.out(here);
            let goes_up = if is_up { out & (out - 1) == 0 } else { out == 0 };
            let choice = if goes_up { self.into(here) } else { out } & !last;
            let edge = choice.trailing_zeros() as usize & 63;
            steps[count] = (edge as u8, goes_up);
            count += 1;
            (last, is_up) = (1 << edge, goes_up);
            here = if goes_up { self.tail(edge) } else { self.head(edge) };
        }
        let (mut down, mut up) = (0, 0);
        for (edge, goes_up) in &steps[met_at[here & 31] as usize..count] {
            *if *goes_up { &mut up } else { &mut down } |= 1u64 << edge;
        }
        (down, up)
    }

    fn turn(&mut self) {
        let (down, up) = self.cycle();
        let mut amount = Bits(down).map(|edge| self.flows[edge]).min().expect("a cycle has a down-step");
        for edge in Bits(up) {
            for terminal in 0..self.terminals {
                let (flow, demand) = (self.flows[edge], self.demands[terminal]);
                if self.places[terminal] == self.heads[edge] && demand > flow {
                    amount = amount.min(demand - flow);
                }
            }
        }
        let marked = self.singular() & !self.marks;
        self.marks |= marked;
        self.shift(amount, down, up);
        self.record(Entry::Turn { amount, down, up, marked });
    }

    /// Plays to the end; how many moves it made, or 20.
    pub fn finish(&mut self) -> Result<usize, Refusal> {
        if self.stage != Stage::Play {
            return Err(20);
        }
        let before = self.moves;
        // A carry opens no carry of a lower terminal: its edge's flow falls, and to 0 where the edge is marked.
        let mut first = 0;
        while self.away != 0 {
            match self.open_carry(first) {
                Some((terminal, edge)) => {
                    self.relocate(terminal, edge);
                    first = terminal;
                }
                None => {
                    self.turn();
                    first = 0;
                }
            }
        }
        self.stage = Stage::Finished(before);
        Ok(self.moves - before)
    }

    /// The route report: "29, 28, 8."
    pub fn report(&self, buffer: &mut [u8]) -> Written {
        match self.stage {
            Stage::Closed => return Err(29),
            Stage::Play => return Err(28),
            Stage::Finished(_) => {}
        }
        let mut routes = [[0u8; VERTICES]; TERMINALS];
        let mut counts = [0usize; TERMINALS];
        let mut loads = [0u32; EDGES];
        for entry in &self.journal[..self.moves] {
            if let Entry::Carry { terminal, edge } = *entry {
                let terminal = terminal as usize & 15;
                routes[terminal][counts[terminal]] = edge as u8;
                counts[terminal] += 1;
                loads[edge as usize & 63] += self.demands[terminal];
            }
        }
        // No report has more than 2,948 bytes.
        let mut text = [0u8; 4_096];
        let mut at = line(&mut text, 0, b'R', &[self.terminals as u32, self.edges as u32]);
        for terminal in 0..self.terminals {
            at = line(&mut text, at, b'M', &[terminal as u32, counts[terminal] as u32]);
            text[at - 1] = b',';
            for edge in routes[terminal][..counts[terminal]].iter().rev() {
                at = put_number(&mut text, at, u32::from(*edge), b',');
            }
            text[at - 1] = b'\n';
        }
        for edge in 0..self.edges {
            at = line(&mut text, at, b'L', &[edge as u32, self.acyclic[edge], loads[edge]]);
        }
        buffer.get_mut(..at).ok_or(8u32)?.copy_from_slice(&text[..at]);
        Ok(at)
    }

    /// What play changes, for a comparison: flows, places, marks, and the whole journal.
    pub fn state(&self) -> (&[u32], &[u8], u64, &[Entry; MOVES], usize) {
        (&self.flows[..self.edges], &self.places[..self.terminals], self.marks, &self.journal, self.moves)
    }
}

/// A number and the byte behind it, from a place on; the place after them.
fn put_number(text: &mut [u8], at: usize, number: u32, end: u8) -> usize {
    let mut digits = [0u8; 10];
    let (mut first, mut rest) = (10, number);
    loop {
        first -= 1;
        digits[first] = b'0' + (rest % 10) as u8;
        rest /= 10;
        if rest == 0 {
            break;
        }
    }
    let count = 10 - first;
    text[at..at + count].copy_from_slice(&digits[first..]);
    text[at + count] = end;
    at + count + 1
}

/// A line of numbers behind a letter.
fn line(text: &mut [u8], at: usize, letter: u8, numbers: &[u32]) -> usize {
    text[at..at + 2].copy_from_slice(&[letter, b',']);
    let mut next = at + 2;
    for number in numbers {
        next = put_number(text, next, *number, b',');
    }
    text[next - 1] = b'\n';
    next
}
