//! Random boards. Flow goes along random ways from the source to the ends, and what arrives at an end is cut into demands: a demand is thus fed
//! over several ways, and the flow splits. Cycles of idle flow and zero edges are added; then everything is shuffled.

use crate::random::Random;
use crate::text::{read, write, Edge, Network, Terminal};

/// What a board is made to be.
struct Shape {
    vertices: usize,
    edges: usize,
    terminals: usize,
    /// The greatest amount on one way.
    greatest: u64,
    ways: usize,
    /// Whether edges of ways go on in one order of the vertices, so that they close no cycle.
    is_ordered: bool,
    idle_cycles: usize,
    /// In how many of ten steps a way takes an edge that is there, if there is one.
    reuse: usize,
}

fn size(rng: &mut Random) -> (usize, usize, usize) {
    match rng.below(40) {
        0 => (2, 1, 1),
        1 => (32, 64, 16),
        2 => (rng.between(2, 4), 64, rng.between(1, 16)),
        3 => (32, rng.between(16, 64), rng.between(1, 16)),
        4..=6 => (rng.between(12, 32), rng.between(24, 64), rng.between(4, 16)),
        7..=20 => (rng.between(2, 6), rng.between(1, 12), rng.between(1, 5)),
        _ => (rng.between(3, 12), rng.between(3, 24), rng.between(1, 8)),
    }
}

fn shape(rng: &mut Random, (vertices, edges, terminals): (usize, usize, usize)) -> Shape {
    // Many thin ways to few terminals make boards that need many turns.
    let is_thin = rng.chance(1, 3);
    Shape {
        vertices,
        edges,
        terminals: if is_thin { rng.between(1, terminals.min(4)) } else { terminals },
        greatest: rng.pick(&[1, 2, 3, 9, 50, 1_000, 60_000, 1_000_000]),
        ways: if is_thin { edges } else { rng.between(1, terminals + edges / 2) },
        is_ordered: rng.chance(3, 4),
        idle_cycles: if rng.chance(1, 2) { 0 } else { rng.between(1, 5) },
        reuse: rng.pick(&[2, 5, 8]),
    }
}

/// A board in the making.
struct Draft<'a> {
    rng: &'a mut Random,
    shape: Shape,
    /// The vertices in the order that ways keep, the source first.
    order: Vec<usize>,
    ends: Vec<usize>,
    edges: Vec<Edge>,
}

impl Draft<'_> {
    fn rank(&self, vertex: usize) -> usize {
        self.order.iter().position(|other| *other == vertex).unwrap()
    }

    fn may_join(&self, tail: usize, head: usize) -> bool {
        tail != head && head != self.order[0] && (!self.shape.is_ordered || self.rank(tail) < self.rank(head))
    }

    /// The number of an edge between two vertices: one that is there, or a new one.
    fn edge(&mut self, tail: usize, head: usize) -> Option<usize> {
        let there: Vec<usize> = (0..self.edges.len()).filter(|edge| self.edges[*edge].tail == tail && self.edges[*edge].head == head).collect();
        let is_full = self.edges.len() == self.shape.edges;
        if !there.is_empty() && (is_full || self.rng.chance(self.shape.reuse, 10)) {
            return Some(self.rng.pick(&there));
        }
        if is_full {
            return None;
        }
        self.edges.push(Edge { tail, head, flow: 0 });
        Some(self.edges.len() - 1)
    }

    /// A way from the source to an end, as edges, with the end; none where the edges did not do.
    fn way(&mut self) -> Option<(Vec<usize>, usize)> {
        let mut here = self.order[0];
        let mut way = Vec::new();
        for _ in 0..self.shape.vertices {
            if self.ends.contains(&here) && self.rng.chance(1, 2) {
                break;
            }
            let there: Vec<usize> = (0..self.edges.len()).filter(|edge| self.edges[*edge].tail == here).collect();
            let edge = if !there.is_empty() && self.rng.chance(self.shape.reuse, 10) {
                self.rng.pick(&there)
            } else {
                let heads: Vec<usize> = self.order.iter().copied().filter(|head| self.may_join(here, *head)).collect();
                if heads.is_empty() {
                    break;
                }
                let head = self.rng.pick(&heads);
                match self.edge(here, head) {
                    Some(edge) => edge,
                    None if !there.is_empty() => self.rng.pick(&there),
                    None => break,
                }
            };
            way.push(edge);
            here = self.edges[edge].head;
        }
        while !self.ends.contains(&here) {
            // Back to the last end passed.
            here = self.edges[way.pop()?].tail;
        }
        Some((way, here))
    }

    fn amount(&mut self) -> u64 {
        if self.rng.chance(1, 4) {
            return self.shape.greatest;
        }
        1 + self.rng.next() % self.shape.greatest
    }

    /// Flow that goes round and feeds nothing, at times through the source.
    fn idle_cycle(&mut self) {
        let mut vertices = self.order.clone();
        self.rng.shuffle(&mut vertices);
        let length = self.rng.between(2, self.shape.vertices.min(5));
        let amount = self.amount();
        let cycle: Option<Vec<usize>> = (0..length).map(|at| self.edge(vertices[at], vertices[(at + 1) % length])).collect();
        for edge in cycle.into_iter().flatten() {
            self.edges[edge].flow += amount;
        }
    }

    /// A number cut into at most `count` parts above 0.
    fn parts(&mut self, whole: u64, count: usize) -> Vec<u64> {
        let is_even = self.rng.chance(1, 3);
        let mut cuts: Vec<u64> = (1..count as u64).map(|part| if is_even { whole * part / count as u64 } else { self.rng.next() % whole }).collect();
        cuts.extend([0, whole]);
        cuts.sort();
        cuts.dedup();
        cuts.windows(2).map(|cut| cut[1] - cut[0]).collect()
    }
}

/// A board that balances, of this size or smaller. Its counts and numbers may be past the limits.
fn attempt(rng: &mut Random, size: (usize, usize, usize)) -> Network {
    let shape = shape(rng, size);
    let mut order: Vec<usize> = (0..shape.vertices).collect();
    rng.shuffle(&mut order);
    let end_count = rng.between(1, shape.terminals.min(shape.vertices - 1));
    let mut ends = order[1..].to_vec();
    rng.shuffle(&mut ends);
    ends.truncate(end_count);
    let mut draft = Draft { rng, shape, order, ends, edges: Vec::new() };
    let mut arrived = vec![0; draft.shape.vertices];
    for _ in 0..draft.shape.ways {
        if let Some((way, end)) = draft.way() {
            let amount = draft.amount();
            arrived[end] += amount;
            for edge in way {
                draft.edges[edge].flow += amount;
            }
        }
    }
    for _ in 0..draft.shape.idle_cycles {
        draft.idle_cycle();
    }
    let fed: Vec<usize> = (0..draft.shape.vertices).filter(|vertex| arrived[*vertex] > 0).collect();
    let mut terminals = Vec::new();
    for (at, end) in fed.iter().enumerate() {
        let spare = draft.shape.terminals - terminals.len() - (fed.len() - at);
        let count = if at + 1 == fed.len() { 1 + spare } else { 1 + draft.rng.below(spare + 1) };
        let demands = draft.parts(arrived[*end], count);
        terminals.extend(demands.into_iter().map(|demand| Terminal { home: *end, demand }));
    }
    // Zero edges up to the count, of any direction, parallel ones among them.
    while draft.edges.len() < draft.shape.edges && draft.rng.chance(9, 10) {
        let tail = draft.rng.below(draft.shape.vertices);
        let head = (tail + draft.rng.between(1, draft.shape.vertices - 1)) % draft.shape.vertices;
        draft.edges.push(Edge { tail, head, flow: 0 });
    }
    let Draft { rng, shape, order, mut edges, .. } = draft;
    rng.shuffle(&mut edges);
    rng.shuffle(&mut terminals);
    Network { vertices: shape.vertices, edges, terminals, source: order[0] }
}

/// A random board that is accepted.
pub fn random_board(rng: &mut Random) -> Network {
    loop {
        let size = size(rng);
        let network = attempt(rng, size);
        if read(&write(&network)).is_ok() {
            return network;
        }
    }
}

/// A random board with just so many vertices, edges and terminals.
pub fn random_board_of(rng: &mut Random, size: (usize, usize, usize)) -> Network {
    loop {
        let network = attempt(rng, size);
        let made = (network.vertices, network.edges.len(), network.terminals.len());
        if made == size && read(&write(&network)).is_ok() {
            return network;
        }
    }
}
