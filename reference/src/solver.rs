//! Document 01, "Moves": the move that finish makes next, and the ring.

use crate::cancelling::{entering, leaving};
use crate::moves::{open_carries, Board, Move, Step};
use crate::text::Network;

/// "Standing moves plus those of finish never exceed channels + 2 × mills × (pools − 1)".
pub fn bound_of_moves(network: &Network) -> usize {
    network.edges.len() + 2 * network.terminals.len() * (network.vertices - 1)
}

/// The next move, none if every terminal is at the source. "While a carry is open: lowest mill that has one; of its open carries, marked
/// channels first, then lowest channel. Otherwise the ring found below is turned."
pub fn next_move(network: &Network, board: &Board) -> Option<Move> {
    if board.is_home(network) {
        return None;
    }
    let carries = open_carries(network, board);
    let first = carries.into_iter().min_by_key(|(terminal, edge)| (*terminal, !board.marks.contains(edge), *edge));
    match first {
        Some((terminal, edge)) => Some(Move::Carry { terminal, edge }),
        None => Some(Move::Turn(cycle(network, &board.flows))),
    }
}

/// The step that the walk takes next, given the step that led here, if any.
fn next_step(network: &Network, flows: &[u64], here: usize, last: Option<Step>) -> Step {
    let leaving = leaving(network, flows, here);
    let entering = entering(network, flows, here);
    let down = |edge: Option<&usize>| Step { edge: *edge.expect("an edge leaves"), is_up: false };
    let up = |edge: Option<&usize>| Step { edge: *edge.expect("an edge enters"), is_up: true };
    match last {
        // "start at the spring. Go down along the lowest wet channel."
        None => down(leaving.first()),
        Some(Step { edge: used, is_up: false }) => {
            if leaving.is_empty() {
                // "Where none leaves, go up the lowest wet channel entering other than the one just used."
                up(entering.iter().find(|edge| **edge != used))
            } else {
                down(leaving.first())
            }
        }
        Some(Step { edge: climbed, is_up: true }) => {
            if leaving.len() == 1 {
                // "Keep going up by the lowest entering channel while exactly one wet channel leaves the pool reached."
                up(entering.first())
            } else {
                // "Where two or more leave, go down by the lowest except the one just climbed."
                down(leaving.iter().find(|edge| **edge != climbed))
            }
        }
    }
}

/// "Stop at the first pool seen before. The ring is the walk since that pool was first met."
pub fn cycle(network: &Network, flows: &[u64]) -> Vec<Step> {
    let mut seen = vec![network.source];
    let mut walk: Vec<Step> = Vec::new();
    loop {
        let step = next_step(network, flows, *seen.last().unwrap(), walk.last().copied());
        walk.push(step);
        let here = step.to(network);
        if let Some(first_met) = seen.iter().position(|vertex| *vertex == here) {
            return walk.split_off(first_met);
        }
        seen.push(here);
    }
}

/// "Finish plays to the end": the moves that it makes, and the board then.
pub fn finished(network: &Network, board: &Board) -> (Vec<Move>, Board) {
    let mut board = board.clone();
    let mut moves = Vec::new();
    while let Some(next) = next_move(network, &board) {
        board = board.after(network, &next);
        moves.push(next);
        assert!(moves.len() <= bound_of_moves(network), "finish exceeds the bound of moves");
    }
    (moves, board)
}

/// The moves alone.
pub fn finishing_moves(network: &Network, board: &Board) -> Vec<Move> {
    finished(network, board).0
}
