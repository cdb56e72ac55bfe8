//! Document 01, "Moves": the board, when a carry is open, and what a carry and a turn do to it.

use crate::cancelling::{leaving, reachable};
use crate::text::{homes, Network};
use std::collections::BTreeSet;

/// What play changes.
#[derive(Clone, Debug, PartialEq, Eq)]
pub struct Board {
    pub flows: Vec<u64>,
    pub marks: BTreeSet<usize>,
    /// The vertex that each terminal is at.
    pub places: Vec<usize>,
    /// For each terminal the edges it was carried over, "last one first".
    pub routes: Vec<Vec<usize>>,
}

/// "Each standing move is a carry or a turn."
#[derive(Clone, Debug, PartialEq, Eq)]
pub enum Move {
    Carry { terminal: usize, edge: usize },
    Turn(Vec<Step>),
}

/// A down-step goes from tail to head; "an up-step, that is from head to tail".
#[derive(Clone, Copy, Debug, PartialEq, Eq)]
pub struct Step {
    pub edge: usize,
    pub is_up: bool,
}

impl Step {
    /// "one byte each: channel number, plus 128 for an up-step"
    pub fn of_byte(byte: u8) -> Step {
        Step { edge: usize::from(byte % 128), is_up: byte >= 128 }
    }

    pub fn from(self, network: &Network) -> usize {
        let edge = network.edges[self.edge];
        if self.is_up {
            edge.head
        } else {
            edge.tail
        }
    }

    pub fn to(self, network: &Network) -> usize {
        let edge = network.edges[self.edge];
        if self.is_up {
            edge.tail
        } else {
            edge.head
        }
    }
}

/// "A channel is single when its head, and every pool that can be reached from the head over wet channels, has at most one wet channel
/// leaving."
pub fn is_singular(network: &Network, flows: &[u64], edge: usize) -> bool {
    let vertices = reachable(network, flows, network.edges[edge].head);
    vertices.iter().all(|vertex| leaving(network, flows, *vertex).len() <= 1)
}

/// "A mill at a pool moves over a channel entering that pool to its tail. It is open when the channel is unmarked with flow at or above the
/// need, or marked with flow equal to the need."
pub fn is_open(network: &Network, board: &Board, terminal: usize, edge: usize) -> bool {
    let demand = network.terminals[terminal].demand;
    let flow = board.flows[edge];
    let is_marked = board.marks.contains(&edge);
    let enters = network.edges[edge].head == board.places[terminal];
    enters && ((!is_marked && flow >= demand) || (is_marked && flow == demand))
}

/// The open carries, by terminal and then by edge.
pub fn open_carries(network: &Network, board: &Board) -> Vec<(usize, usize)> {
    let terminals = 0..network.terminals.len();
    let pairs = terminals.flat_map(|terminal| (0..network.edges.len()).map(move |edge| (terminal, edge)));
    pairs.filter(|(terminal, edge)| is_open(network, board, *terminal, *edge)).collect()
}

/// "The amount is the smaller of the least flow on a down-step and the least (need minus flow) over up-step channels and mills at their heads
/// whose need exceeds the flow. .. If no such mill exists, the down-steps alone decide."
pub fn amount(network: &Network, board: &Board, steps: &[Step]) -> u64 {
    let mut amounts = Vec::new();
    for step in steps {
        let flow = board.flows[step.edge];
        if !step.is_up {
            amounts.push(flow);
            continue;
        }
        for (terminal, place) in network.terminals.iter().zip(&board.places) {
            if *place == network.edges[step.edge].head && terminal.demand > flow {
                amounts.push(terminal.demand - flow);
            }
        }
    }
    amounts.into_iter().min().expect("a cycle has a down-step")
}

impl Board {
    /// "drained first flows, no marks, each mill at its pool in the text, empty routes"
    pub fn first(network: &Network, acyclic_flows: &[u64]) -> Board {
        Board { flows: acyclic_flows.to_vec(), marks: BTreeSet::new(), places: homes(network), routes: vec![Vec::new(); network.terminals.len()] }
    }

    /// The board after an accepted move.
    pub fn after(&self, network: &Network, made: &Move) -> Board {
        let mut board = self.clone();
        match made {
            // "The flow falls by the need and the channel joins the mill's route."
            Move::Carry { terminal, edge } => {
                board.flows[*edge] -= network.terminals[*terminal].demand;
                board.places[*terminal] = network.edges[*edge].tail;
                board.routes[*terminal].insert(0, *edge);
            }
            Move::Turn(steps) => {
                // "An accepted turn first marks every channel that is wet and single at that moment."
                for edge in 0..network.edges.len() {
                    if self.flows[edge] > 0 && is_singular(network, &self.flows, edge) {
                        board.marks.insert(edge);
                    }
                }
                // "Down-steps fall and up-steps rise by it."
                let amount = amount(network, self, steps);
                for step in steps {
                    if step.is_up {
                        board.flows[step.edge] += amount;
                    } else {
                        board.flows[step.edge] -= amount;
                    }
                }
            }
        }
        board
    }

    pub fn is_home(&self, network: &Network) -> bool {
        self.places.iter().all(|place| *place == network.source)
    }
}
