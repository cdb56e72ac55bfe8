//! Lists of calls, played along on a reference player so that many are accepted, with refused ones of every number among them.

use crate::moves::{is_singular, open_carries, Board, Move, Step};
use crate::player::{Call, Player};
use crate::programs::{line, line_of};
use crate::random::Random;
use crate::solver::next_move;
use crate::text::Network;

/// A random closed trail of steps that may be taken, with no edge twice; vertices may come twice. None where a few tries found none.
pub fn closed_trail(rng: &mut Random, network: &Network, may_take: &dyn Fn(Step) -> bool) -> Option<Vec<Step>> {
    let both_ways = |edge| [Step { edge, is_up: false }, Step { edge, is_up: true }];
    let all: Vec<Step> = (0..network.edges.len()).flat_map(both_ways).filter(|step| may_take(*step)).collect();
    for _ in 0..4 {
        // A walk until nothing leads on, and the vertices that it passes.
        let mut walk: Vec<Step> = Vec::new();
        let mut passed = vec![rng.below(network.vertices)];
        loop {
            let here = *passed.last().unwrap();
            let is_new = |step: &Step| walk.iter().all(|taken| taken.edge != step.edge);
            let onward: Vec<Step> = all.iter().copied().filter(|step| step.from(network) == here && is_new(step)).collect();
            if onward.is_empty() || (walk.len() > 3 && rng.chance(1, 8)) {
                break;
            }
            walk.push(rng.pick(&onward));
            passed.push(walk.last().unwrap().to(network));
        }
        // The part between any two visits of one vertex is closed.
        let pairs = (0..passed.len()).flat_map(|last| (0..last).map(move |first| (first, last)));
        let closed: Vec<(usize, usize)> = pairs.filter(|(first, last)| passed[*first] == passed[*last]).collect();
        if !closed.is_empty() {
            let longest = *closed.iter().max_by_key(|(first, last)| last - first).unwrap();
            let (first, last) = if rng.chance(1, 3) { longest } else { rng.pick(&closed) };
            return Some(walk[first..last].to_vec());
        }
    }
    None
}

/// A move that is accepted on the board; none if every terminal is at the source.
fn good_move(rng: &mut Random, network: &Network, board: &Board) -> Option<Move> {
    let carries = open_carries(network, board);
    if !carries.is_empty() {
        let (terminal, edge) = rng.pick(&carries);
        return Some(Move::Carry { terminal, edge });
    }
    let singular: Vec<bool> = (0..network.edges.len()).map(|edge| is_singular(network, &board.flows, edge)).collect();
    let may_take = |step: Step| board.flows[step.edge] > 0 && (!step.is_up || singular[step.edge]);
    let trail = if rng.chance(3, 4) { closed_trail(rng, network, &may_take) } else { None };
    trail.map(Move::Turn).or_else(|| next_move(network, board))
}

/// Numbers that name nothing on the board, and numbers that would if they were cut to a byte or to fewer bits.
fn no_such(rng: &mut Random, count: usize) -> u64 {
    let count = count as u64;
    rng.pick(&[count, count + 1, 64, 127, 128, 255, 256, 256 + count - 1, 65_536, 9_999_999])
}

fn odd_carry(rng: &mut Random, network: &Network, board: &Board) -> Call {
    let mut terminal = rng.below(network.terminals.len()) as u64;
    let mut edge = rng.below(network.edges.len()) as u64;
    match rng.below(8) {
        0 => terminal = no_such(rng, network.terminals.len()),
        1 => edge = no_such(rng, network.edges.len()),
        2 => {
            terminal = no_such(rng, network.terminals.len());
            edge = no_such(rng, network.edges.len());
        }
        // An edge that enters the terminal's vertex, open or not.
        3..=6 => {
            let place = board.places[terminal as usize];
            let entering: Vec<usize> = (0..network.edges.len()).filter(|edge| network.edges[*edge].head == place).collect();
            if !entering.is_empty() {
                edge = rng.pick(&entering) as u64;
            }
        }
        _ => (),
    }
    Call::Carry { terminal, edge }
}

/// Steps that are no closed trail any more, as a rule.
fn spoil(rng: &mut Random, network: &Network, steps: &mut Vec<Step>) {
    if steps.is_empty() {
        return;
    }
    let (at, other) = (rng.below(steps.len()), rng.below(steps.len()));
    match rng.below(8) {
        0 => drop(steps.remove(at)),
        1 => steps.insert(other, steps[at]),
        2 => steps[at].is_up = !steps[at].is_up,
        3 => steps.swap(at, other),
        4 => steps[at].edge = no_such(rng, network.edges.len()) as usize,
        5 => steps.extend(steps.clone()),
        // The same trail from another start, which changes nothing.
        6 => steps.rotate_left(at),
        // The other way round.
        _ => {
            steps.reverse();
            steps.iter_mut().for_each(|step| step.is_up = !step.is_up);
        }
    }
}

fn odd_turn(rng: &mut Random, network: &Network, board: &Board) -> Call {
    let is_positive = |step: Step| board.flows[step.edge] > 0;
    let trail = match rng.below(10) {
        0 => None,
        1..=3 => closed_trail(rng, network, &|_| true),
        4 => closed_trail(rng, network, &|step| !step.is_up || is_positive(step)),
        5 => good_move(rng, network, board).and_then(|made| if let Move::Turn(steps) = made { Some(steps) } else { None }),
        _ => closed_trail(rng, network, &is_positive),
    };
    let mut steps = trail.unwrap_or_default();
    if rng.chance(1, 3) {
        spoil(rng, network, &mut steps);
    }
    if steps.is_empty() && rng.chance(1, 2) {
        // Steps at random, at times more than there are edges.
        let count = rng.pick(&[1, 2, 3, 64, 65, 200]);
        steps = (0..count).map(|_| Step { edge: rng.below(network.edges.len()), is_up: rng.chance(1, 2) }).collect();
    }
    Call::Turn(steps)
}

/// What a list of calls is made to be.
#[derive(Clone, Copy)]
pub struct Habits {
    /// In how many of a hundred calls a move that is accepted, and an undo.
    pub moves: usize,
    pub undos: usize,
    /// In how many of a hundred calls a finish; with 0 there is none.
    pub finishes: usize,
}

pub fn habits(rng: &mut Random) -> Habits {
    let moves = rng.pick(&[20, 50, 75]);
    Habits { moves, undos: rng.pick(&[2, 10, 17]), finishes: rng.pick(&[0, 4, 8]) }
}

/// A call where every terminal is at the source: a finish of no moves where play goes on, or an undo.
fn call_at_source(rng: &mut Random, habits: Habits, player: &Player) -> Call {
    if habits.finishes > 0 && !player.is_over() && rng.chance(1, 4) {
        return Call::Finish;
    }
    Call::Undo
}

/// The next call of a list, with the player as the calls before it left it. A finish may stand: every call but an undo
/// is refused then.
pub fn random_call(rng: &mut Random, habits: Habits, player: &Player) -> Call {
    let network = player.network().expect("a board was loaded");
    let board = player.board().expect("a board was loaded");
    let kind = rng.below(100);
    if kind < habits.moves {
        let made = good_move(rng, network, &board);
        return made.map_or_else(|| call_at_source(rng, habits, player), |made| Call::of_move(&made));
    }
    if kind < habits.moves + habits.undos {
        return Call::Undo;
    }
    if kind >= 100 - habits.finishes {
        return Call::Finish;
    }
    match rng.below(10) {
        0 => Call::Hint,
        1..=4 => odd_carry(rng, network, &board),
        _ => odd_turn(rng, network, &board),
    }
}

/// A list of calls after a load of the network's text.
pub fn random_calls(rng: &mut Random, text: &[u8], count: usize) -> Vec<Call> {
    let (_, mut player) = Player::load(text);
    let habits = habits(rng);
    let mut calls = Vec::new();
    for _ in 0..count {
        let call = random_call(rng, habits, &player);
        player.call(&call);
        calls.push(call);
    }
    calls
}

/// Lines that are nearly calls, parted by bars.
const OTHER_LINES: &str = "|T,|T,0|T,0,|T,0,D,|T,0,d|T,0,D,1|T,00,D|T,,D|T,12345678,D|T,-1,D|T,0,DU|T 0,D|TT|K|K,|K,0|K,0,|K,0,0,|K,0,0,0\
    |K,00,0|K,,0|K,0,10000000|k,0,0|K,0;0|H,|H | H|HH|U,0|F\r|F,|X|B,2,1,1,0";

/// A line of another form, with its line feed.
pub fn other_line(rng: &mut Random) -> Vec<u8> {
    loop {
        let mut bytes = if rng.chance(3, 4) {
            rng.pick(&OTHER_LINES.split('|').collect::<Vec<_>>()).as_bytes().to_vec()
        } else {
            let count = rng.below(12);
            let mut bytes = rng.bytes(count);
            bytes.retain(|byte| *byte != b'\n');
            bytes
        };
        if line(&bytes).is_none() {
            bytes.push(b'\n');
            return bytes;
        }
    }
}

/// An input of `play`: a text, calls and lines of another form, at times without the last line feed.
pub fn random_input(rng: &mut Random, text: &[u8], count: usize) -> Vec<u8> {
    let mut input = text.to_vec();
    for call in random_calls(rng, text, count) {
        if rng.chance(1, 10) {
            input.extend(other_line(rng));
        }
        input.extend(line_of(&call));
    }
    if rng.chance(1, 3) {
        input.extend(b"F\n");
    }
    if rng.chance(1, 8) {
        input.pop();
    }
    input
}
