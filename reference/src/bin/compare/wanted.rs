//! What the interface has to give, as the reference works it out: the move of a hint, the view of a board, and the entries of its journal.

use reference::encoded::number;
use reference::engine::{Advice, Entry, View, CARRY, EDGES, FINISHED, PLAY, STEP_UP, TURN};
use reference::fast;
use reference::moves::{amount, Board, Move, Step};
use reference::player::{Item, Player};
use reference::text::Network;

/// The move of a hint.
pub fn advice_of(hint: Option<&Move>) -> Advice {
    match hint {
        Some(Move::Carry { terminal, edge }) => Advice { kind: CARRY, terminal: number(*terminal), edge: number(*edge), ..Advice::NONE },
        Some(Move::Turn(steps)) => {
            let mut advice = Advice { kind: TURN, length: number(steps.len()), ..Advice::NONE };
            let byte = |step: &Step| step.edge as u8 + if step.is_up { STEP_UP } else { 0 };
            advice.steps.iter_mut().zip(steps).for_each(|(place, step)| *place = byte(step));
            advice
        }
        None => Advice::NONE,
    }
}

/// The entry of a turn: its steps by edge, and the edges that it newly marked, both ascending.
fn turn_entry(amount: u32, steps: &[Step], marked: &[usize]) -> Entry {
    let mut entry = Entry { kind: TURN, amount, length: number(steps.len()), marks: number(marked.len()), ..Entry::NONE };
    let mut ascending = steps.to_vec();
    ascending.sort_by_key(|step| step.edge);
    for (at, step) in ascending.iter().enumerate() {
        entry.edges[at] = number(step.edge);
        entry.ways[at] = u32::from(step.is_up);
    }
    entry.marked.iter_mut().zip(marked).for_each(|(place, edge)| *place = number(*edge));
    entry
}

fn carry_entry(terminal: u32, edge: u32) -> Entry {
    Entry { kind: CARRY, terminal, edge, ..Entry::NONE }
}

/// The entry that a move leaves, from the boards before and after it.
fn entry_of(network: &Network, before: &Board, after: &Board, made: &Move) -> Entry {
    match made {
        Move::Carry { terminal, edge } => carry_entry(number(*terminal), number(*edge)),
        Move::Turn(steps) => {
            let marked: Vec<usize> = after.marks.difference(&before.marks).copied().collect();
            turn_entry(number(amount(network, before, steps)), steps, &marked)
        }
    }
}

fn put<T: Copy + TryInto<u32>>(places: &mut [u32], numbers: impl IntoIterator<Item = T>) {
    places.iter_mut().zip(numbers).for_each(|(place, n)| *place = number(n));
}

/// All that a game is: its view and its journal, and how many moves stood before a finish.
#[derive(Clone, Debug, PartialEq, Eq)]
pub struct Whole {
    pub view: View,
    pub entries: Vec<Entry>,
    pub before_finish: Option<usize>,
}

fn view_of(network: &Network, acyclic_flows: &[u64], board: &Board) -> View {
    let mut view = View {
        vertices: number(network.vertices),
        edges: number(network.edges.len()),
        terminals: number(network.terminals.len()),
        source: number(network.source),
        ..View::CLOSED
    };
    put(&mut view.tails, network.edges.iter().map(|edge| edge.tail));
    put(&mut view.heads, network.edges.iter().map(|edge| edge.head));
    put(&mut view.acyclic, acyclic_flows.iter().copied());
    put(&mut view.flows, board.flows.iter().copied());
    board.marks.iter().for_each(|edge| view.marked[*edge] = 1);
    put(&mut view.homes, network.terminals.iter().map(|terminal| terminal.home));
    put(&mut view.places, board.places.iter().copied());
    put(&mut view.demands, network.terminals.iter().map(|terminal| terminal.demand));
    view
}

/// The player's board and its moves, those of a finish among them; the closed view and no moves where nothing was loaded.
pub fn whole_of(player: &Player) -> Whole {
    let Some(network) = player.network() else {
        return Whole { view: View::CLOSED, entries: Vec::new(), before_finish: None };
    };
    let mut board = Board::first(network, player.acyclic_flows());
    let mut entries = Vec::new();
    for made in player.moves() {
        let after = board.after(network, &made);
        entries.push(entry_of(network, &board, &after, &made));
        board = after;
    }
    let stage = if player.is_over() { FINISHED } else { PLAY };
    let moves_of_its_own = player.standing().iter().filter(|item| **item != Item::Finish).count();
    let before_finish = player.is_over().then_some(moves_of_its_own);
    Whole { view: View { stage, moves: number(entries.len()), ..view_of(network, player.acyclic_flows(), &board) }, entries, before_finish }
}

/// The numbers of a set, lowest first.
fn ascending(set: u64) -> Vec<usize> {
    (0..EDGES).filter(|edge| set >> edge & 1 == 1).collect()
}

fn entry_of_fast(entry: &fast::Entry) -> Entry {
    match *entry {
        fast::Entry::Carry { terminal, edge } => carry_entry(terminal, edge),
        fast::Entry::Turn { amount, down, up, marked } => {
            let steps = |set, is_up| ascending(set).into_iter().map(move |edge| Step { edge, is_up });
            let steps: Vec<Step> = steps(down, false).chain(steps(up, true)).collect();
            turn_entry(amount, &steps, &ascending(marked))
        }
    }
}

/// What the fast program has at the end of a finish of a loaded board; the rest of the view is as given.
pub fn whole_of_fast(board: &fast::Board, rest: &View) -> Whole {
    let (flows, places, marks, entries, moves) = board.state();
    let mut view = View { stage: FINISHED, moves: number(moves), flows: [0; EDGES], marked: [0; EDGES], places: View::CLOSED.places, ..*rest };
    put(&mut view.flows, flows.iter().copied());
    put(&mut view.places, places.iter().copied());
    ascending(marks).into_iter().for_each(|edge| view.marked[edge] = 1);
    Whole { view, entries: entries[..moves].iter().map(entry_of_fast).collect(), before_finish: Some(0) }
}
