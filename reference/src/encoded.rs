//! Calls with the numbers and bytes that the engine takes; and calls and journals in numbers, as the program `replay` takes and gives them.

use crate::calls::{habits, random_call, Habits};
use crate::moves::{amount, Board, Move, Step};
use crate::player::{Call, Player};
use crate::random::Random;
use crate::text::Network;

/// A call as the engine takes it: any numbers, and any bytes for steps.
#[derive(Clone, Debug, PartialEq, Eq)]
pub enum EngineCall {
    Carry(u32, u32),
    Turn(Vec<u8>),
    Undo,
    Hint,
    Finish,
}

/// Three numbers a call: 0, terminal and edge; 1, and where its steps begin and end; 2 for an undo; 3 for a hint; 4 for
/// a finish. And the steps of all turns.
pub fn codes_of(calls: &[EngineCall]) -> (Vec<u32>, Vec<u8>) {
    let (mut codes, mut steps) = (Vec::new(), Vec::new());
    for call in calls {
        match call {
            EngineCall::Carry(terminal, edge) => codes.extend([0, *terminal, *edge]),
            EngineCall::Turn(bytes) => {
                let start = steps.len();
                steps.extend(bytes);
                codes.extend([1, start as u32, steps.len() as u32]);
            }
            EngineCall::Undo => codes.extend([2, 0, 0]),
            EngineCall::Hint => codes.extend([3, 0, 0]),
            EngineCall::Finish => codes.extend([4, 0, 0]),
        }
    }
    (codes, steps)
}

/// A number of a board in play, as the engine has it.
pub fn number<T: TryInto<u32>>(n: T) -> u32 {
    n.try_into().ok().expect("a number of a board in play fits")
}

/// The edges as bits.
pub fn set_of(edges: impl Iterator<Item = usize>) -> u64 {
    edges.fold(0, |set, edge| set | 1 << edge)
}

/// A place of the journal in numbers: 0, terminal, edge, 0, 0; or 1, amount, and the sets that fell, rose and were marked.
pub const ENTRY: usize = 5;

/// The entry that a move leaves, from the boards before and after it.
fn entry_of(network: &Network, before: &Board, after: &Board, made: &Move) -> [u64; ENTRY] {
    match made {
        Move::Carry { terminal, edge } => [0, *terminal as u64, *edge as u64, 0, 0],
        Move::Turn(steps) => {
            let edges = |is_up| set_of(steps.iter().filter(move |step| step.is_up == is_up).map(|step| step.edge));
            let fresh = set_of(after.marks.difference(&before.marks).copied());
            [1, amount(network, before, steps), edges(false), edges(true), fresh]
        }
    }
}

/// The entries of the player's moves, those of a finish included.
pub fn entries(player: &Player) -> Vec<[u64; ENTRY]> {
    let mut entries = Vec::new();
    if let Some(network) = player.network() {
        let mut before = Board::first(network, player.acyclic_flows());
        for made in player.moves() {
            let after = before.after(network, &made);
            entries.push(entry_of(network, &before, &after, &made));
            before = after;
        }
    }
    entries
}

/// A call on the reference player: its number.
pub fn call_by_reference(player: &mut Player, call: &EngineCall) -> u32 {
    match call {
        EngineCall::Carry(terminal, edge) => player.carry(u64::from(*terminal), u64::from(*edge)),
        EngineCall::Turn(bytes) => player.turn(&bytes.iter().map(|byte| Step::of_byte(*byte)).collect::<Vec<_>>()),
        EngineCall::Undo => player.undo(),
        EngineCall::Hint => player.hint().err().unwrap_or(0),
        EngineCall::Finish => player.finish().err().unwrap_or(0),
    }
}

/// The call for the engine. A step whose edge is past what a byte holds becomes one that no board has.
pub fn engine_call(call: &Call) -> EngineCall {
    let byte = |step: &Step| step.edge.min(127) as u8 + if step.is_up { 128 } else { 0 };
    match call {
        Call::Carry { terminal, edge } => EngineCall::Carry(number(*terminal), number(*edge)),
        Call::Turn(steps) => EngineCall::Turn(steps.iter().map(byte).collect()),
        Call::Undo => EngineCall::Undo,
        Call::Hint => EngineCall::Hint,
        Call::Finish => EngineCall::Finish,
    }
}

/// The next call: as a rule one with a purpose, at times any numbers or any bytes.
fn next_call(rng: &mut Random, habits: Habits, player: &Player) -> EngineCall {
    match rng.below(40) {
        0 => EngineCall::Carry(rng.below(1 << 32) as u32, rng.below(1 << 32) as u32),
        1 => {
            let count = rng.below(6);
            EngineCall::Turn(rng.bytes(count))
        }
        2 | 3 => EngineCall::Hint,
        _ => engine_call(&random_call(rng, habits, player)),
    }
}

/// A list of calls on the board of a text that is accepted, made as the reference plays along.
pub fn random_list(rng: &mut Random, text: &[u8]) -> Vec<EngineCall> {
    let (_, mut player) = Player::load(text);
    let habits = habits(rng);
    let count = rng.pick(&[1, 4, 12, 30, 60]);
    let mut calls = Vec::new();
    for _ in 0..count {
        let call = next_call(rng, habits, &player);
        call_by_reference(&mut player, &call);
        calls.push(call);
    }
    calls
}

/// Lists of calls with finishes on document 01's T: taken back and made again; behind moves, with every call after it; and
/// of no moves.
pub fn finishing_lists() -> Vec<Vec<EngineCall>> {
    use EngineCall::{Carry, Finish, Hint, Turn, Undo};
    let around = Turn(vec![0, 2, 131, 129]);
    let moves = [Carry(0, 2), Carry(0, 0), around.clone(), Carry(1, 3), Carry(1, 1)];
    let refused = [Carry(0, 2), Carry(99, 99), Turn(vec![]), around, Turn(vec![100]), Hint, Finish];
    let back = [Finish, Undo, Hint, Finish, Finish, Undo, Undo, Finish];
    let behind = (0..=moves.len()).flat_map(|count| {
        let with = |calls: &[EngineCall]| [&moves[..count], calls].concat();
        [with(&[Finish]), with(&back), with(&[&[Finish], &refused[..], &[Undo, Hint, Undo]].concat())]
    });
    // Another way after a finish was taken back.
    behind.chain([[Finish, Undo, Carry(0, 3), Finish, Undo, Carry(0, 1), Hint, Finish].to_vec()]).collect()
}
