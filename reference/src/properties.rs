//! What document 01 and the requests of document 02 that were met claim of every board, tried on random ones: the reference is checked by itself.

use crate::boards::random_board;
use crate::calls::{habits, random_call, random_input};
use crate::cancelling::{acyclic_flows, is_on_cycle};
use crate::moves::{amount, open_carries, Board, Move};
use crate::player::{Call, Item, Player};
use crate::programs::{hint_line, line, line_of, play, sheet};
use crate::random::Random;
use crate::report::load;
use crate::solver::{bound_of_moves, finished};
use crate::text::{balances, flows, homes, read, write, Network};
use std::collections::{BTreeMap, BTreeSet};

/// What was tried, for a person to see that it was enough.
#[derive(Default, Debug)]
pub struct Tally {
    pub boards: u64,
    /// Boards reached by play, each finished.
    pub reached: u64,
    pub cancelled: u64,
    /// How often each call got each answer.
    pub answers: BTreeMap<(&'static str, u32), u64>,
    /// Finishes of no moves, and finishes taken back.
    pub empty_finishes: u64,
    pub taken_back: u64,
    /// Turns over a trail that passes a vertex twice.
    pub twice: u64,
    pub most_turns: usize,
    /// The greatest part of the bound of moves, in thousandths.
    pub most_of_bound: usize,
    /// Edges whose load was above the acyclic flow at the end.
    pub excess: u64,
}

impl Tally {
    pub fn add(&mut self, other: Tally) {
        self.boards += other.boards;
        self.reached += other.reached;
        self.cancelled += other.cancelled;
        for (key, count) in other.answers {
            *self.answers.entry(key).or_default() += count;
        }
        self.empty_finishes += other.empty_finishes;
        self.taken_back += other.taken_back;
        self.twice += other.twice;
        self.most_turns = self.most_turns.max(other.most_turns);
        self.most_of_bound = self.most_of_bound.max(other.most_of_bound);
        self.excess += other.excess;
    }
}

type Checked = Result<(), String>;

fn check(holds: bool, fact: &str) -> Checked {
    if holds {
        Ok(())
    } else {
        Err(fact.to_string())
    }
}

fn name_of(call: &Call) -> &'static str {
    match call {
        Call::Carry { .. } => "carry",
        Call::Turn(_) => "turn",
        Call::Hint => "hint",
        Call::Undo => "undo",
        Call::Finish => "finish",
    }
}

/// "Every pool but the spring must balance", on any board of play.
fn is_balanced(network: &Network, flows: &[u64], places: &[usize]) -> bool {
    (0..network.vertices).all(|vertex| vertex == network.source || balances(network, flows, places, vertex))
}

fn check_cancelling(network: &Network, tally: &mut Tally) -> Checked {
    let acyclic = acyclic_flows(network);
    let drawn = flows(network);
    check((0..network.vertices).all(|vertex| !is_on_cycle(network, &acyclic, vertex)), "a cycle is left")?;
    check(acyclic.iter().zip(&drawn).all(|(now, before)| now <= before), "cancelling raised a flow")?;
    check(is_balanced(network, &acyclic, &homes(network)), "cancelling broke the balance")?;
    tally.cancelled += u64::from(acyclic != drawn);
    Ok(())
}

/// "It is simple when it starts at the spring, each next channel starts where the one before ended, it ends at the mill's pool in the text, and
/// no pool comes twice."
fn is_simple(network: &Network, route: &[usize], home: usize) -> bool {
    let mut here = network.source;
    let mut met = BTreeSet::from([here]);
    for edge in route {
        let starts_here = network.edges[*edge].tail == here;
        here = network.edges[*edge].head;
        if !starts_here || !met.insert(here) {
            return false;
        }
    }
    here == home
}

/// A board is complete: every terminal is at the source, the routes are simple, "load less its largest" is below the
/// acyclic flow on every edge in use, and the moves, those of the finish among them, keep their bound.
fn check_complete(network: &Network, acyclic: &[u64], end: &Board, moves: usize, tally: &mut Tally) -> Checked {
    check(end.is_home(network), "finish leaves a terminal away")?;
    for (route, terminal) in end.routes.iter().zip(&network.terminals) {
        check(is_simple(network, route, terminal.home), "a route is not simple")?;
    }
    for edge in 0..network.edges.len() {
        let users = network.terminals.iter().zip(&end.routes).filter(|(_, route)| route.contains(&edge));
        if let Some(largest) = users.map(|(terminal, _)| terminal.demand).max() {
            let load = load(network, &end.routes, edge);
            check(load - largest < acyclic[edge], "the strict bound is broken")?;
            tally.excess += u64::from(load > acyclic[edge]);
        }
    }
    let bound = bound_of_moves(network);
    check(moves <= bound, "the bound of moves is broken")?;
    tally.most_of_bound = tally.most_of_bound.max(1000 * moves / bound);
    Ok(())
}

/// "Finish completes a board", from a board in play with so many standing moves.
fn check_finish(network: &Network, acyclic: &[u64], board: &Board, standing: usize, tally: &mut Tally) -> Checked {
    let (moves, end) = finished(network, board);
    check_complete(network, acyclic, &end, standing + moves.len(), tally)?;
    let turns = moves.iter().filter(|made| matches!(made, Move::Turn(_))).count();
    tally.most_turns = tally.most_turns.max(turns);
    tally.reached += 1;
    Ok(())
}

/// "Undo takes back the last standing move: flows, marks, place and route": the board before a move, worked out from the board after it
/// and from what a journal would hold.
fn taken_back(network: &Network, after: &Board, made: &Move, amount: u64, marked: &BTreeSet<usize>) -> Board {
    let mut board = after.clone();
    match made {
        Move::Carry { terminal, edge } => {
            board.flows[*edge] += network.terminals[*terminal].demand;
            board.places[*terminal] = network.edges[*edge].head;
            board.routes[*terminal].remove(0);
        }
        Move::Turn(steps) => {
            for step in steps {
                board.flows[step.edge] = if step.is_up { board.flows[step.edge] - amount } else { board.flows[step.edge] + amount };
            }
            board.marks = &board.marks - marked;
        }
    }
    board
}

fn check_move(network: &Network, before: &Board, after: &Board, made: &Move, tally: &mut Tally) -> Checked {
    check(is_balanced(network, &after.flows, &after.places), "a move broke the balance")?;
    check(before != after, "a move changes nothing")?;
    let marked = &after.marks - &before.marks;
    let amount = match made {
        Move::Carry { .. } => 0,
        Move::Turn(steps) => amount(network, before, steps),
    };
    if let Move::Turn(steps) = made {
        check(amount > 0, "a turn of amount 0")?;
        let vertices: BTreeSet<usize> = steps.iter().map(|step| step.from(network)).collect();
        tally.twice += u64::from(vertices.len() < steps.len());
        let is_dry = after.flows.iter().zip(&before.flows).any(|(now, was)| *now == 0 && *was > 0);
        check(is_dry || !open_carries(network, after).is_empty(), "a turn neither dries an edge nor opens a carry")?;
    }
    check(taken_back(network, after, made, amount, &marked) == *before, "undo gives another board")
}

/// The line of a hint's move is read as that very move. A cycle that was walked passes no vertex twice, so it has at most as many steps as there are
/// vertices, and a step takes at most five bytes.
fn check_hint_line(network: &Network, hinted: &Move) -> Checked {
    let text = hint_line(Some(hinted));
    let is_read = text.strip_suffix(b"\n").and_then(line) == Some(Call::of_move(hinted));
    check(is_read, "a hint's line is not read as its move")?;
    check(text.len() <= 2 + 5 * network.vertices, "a hint's line is too long")
}

/// Document 02, E3: "The hint shall give the move that finish would make next on this board": with that move made, finish makes the others and ends
/// in the same board. So document 01's rule holds: "Hint gives some move that would be accepted. It gives none only if every mill is at the spring."
pub fn check_hint(player: &Player) -> Checked {
    let (Some(network), Some(board)) = (player.network(), player.board()) else {
        return Err("no board was loaded".to_string());
    };
    let (moves, end) = finished(network, &board);
    let hint = player.hint().map_err(|refusal| format!("a hint is refused {refusal} in play"))?;
    let Some(hinted) = hint else {
        check(board.is_home(network), "no hint while a terminal is away")?;
        return check(moves.is_empty(), "no hint while finish makes a move");
    };
    check_hint_line(network, &hinted)?;
    let mut after = player.clone();
    check(after.call(&Call::of_move(&hinted)) == 0, "a hint's move is refused")?;
    let (rest, same_end) = finished(network, &after.board().expect("a board was loaded"));
    check(rest.len() + 1 == moves.len(), "finish after the hint's move does not count one less")?;
    check([player.moves(), moves].concat() == [after.moves(), rest].concat(), "finish after the hint's move makes other moves")?;
    check(end == same_end, "finish after the hint's move ends in another board")
}

/// A play on its way: the player, and the boards that its standing items went through, kept apart from the player, who
/// makes each afresh.
struct Play<'a> {
    network: &'a Network,
    acyclic: Vec<u64>,
    player: Player,
    boards: Vec<Board>,
}

impl Play<'_> {
    fn board(&self) -> &Board {
        self.boards.last().expect("the first board is never taken back")
    }

    /// The board of the item that has just joined the list. Document 02, E1: "A finish not taken back stands like a
    /// move, and its board is complete already, within the overfill limit." Each of its moves can be taken back alone,
    /// too.
    fn check_joined(&self, tally: &mut Tally) -> Result<Board, String> {
        let moves = match self.player.standing().last() {
            Some(Item::Move(made)) => vec![made.clone()],
            _ => finished(self.network, self.board()).0,
        };
        let mut board = self.board().clone();
        for made in &moves {
            let after = board.after(self.network, made);
            check_move(self.network, &board, &after, made, tally)?;
            board = after;
        }
        if self.player.is_over() {
            check(self.player.sheet_text().is_ok(), "a finished board has no sheet")?;
            check_complete(self.network, &self.acyclic, &board, self.player.moves().len(), tally)?;
            tally.empty_finishes += u64::from(moves.is_empty());
        }
        Ok(board)
    }

    /// The board, and what a finish and a hint make of it where it is in play.
    fn check_board(&self, tally: &mut Tally) -> Checked {
        if self.player.is_over() {
            return Ok(());
        }
        check(self.player.sheet_text() == Err(28), "a board in play has a sheet")?;
        check_finish(self.network, &self.acyclic, self.board(), self.player.standing().len(), tally)?;
        check_hint(&self.player)
    }

    /// A call, what it answers, and the board that it leads to.
    fn check_call(&mut self, call: &Call, tally: &mut Tally) -> Checked {
        let before = self.player.clone();
        let refusal = self.player.call(call);
        *tally.answers.entry((name_of(call), refusal)).or_default() += 1;
        if before.is_over() {
            // "Refusal 20 on undo remains only where no board was loaded."
            let wanted = if *call == Call::Undo { 0 } else { 20 };
            check(refusal == wanted, "a call after a finish is answered otherwise")?;
        }
        match (call, refusal) {
            (Call::Undo, 0) => {
                self.boards.pop();
                tally.taken_back += u64::from(before.is_over());
            }
            (Call::Carry { .. } | Call::Turn(_) | Call::Finish, 0) => self.boards.push(self.check_joined(tally)?),
            _ => check(self.player == before, "a refused call or a hint changes the standing moves")?,
        }
        check(self.player.board().as_ref() == Some(self.board()), "the board is not the one of the standing moves")?;
        let is_new = refusal == 0 && *call != Call::Hint;
        if is_new {
            self.check_board(tally)
        } else {
            Ok(())
        }
    }
}

/// Plays a list of calls, and checks every board that it reaches.
fn check_play(rng: &mut Random, network: &Network, calls: &mut Vec<Call>, tally: &mut Tally) -> Checked {
    let acyclic = acyclic_flows(network);
    let boards = vec![Board::first(network, &acyclic)];
    let mut play = Play { network, acyclic, player: Player::load(&write(network)).1, boards };
    let habits = habits(rng);
    let count = if rng.chance(1, 20) { 60 } else { rng.between(1, 10) };
    play.check_board(tally)?;
    while calls.len() < count {
        let call = random_call(rng, habits, &play.player);
        calls.push(call.clone());
        play.check_call(&call, tally)?;
    }
    Ok(())
}

/// "It prints 0 or the refusal number for each, 1 for a line of another form, and the sheet after an accepted `F`", and by E3 a line after the 0 of `H`.
fn check_programs(rng: &mut Random, text: &[u8]) -> Checked {
    let count = rng.between(1, 12);
    let input = random_input(rng, text, count);
    let lines = |bytes: &[u8]| bytes.split_inclusive(|byte| *byte == b'\n').map(<[u8]>::to_vec).collect::<Vec<_>>();
    let calls = lines(&input[text.len()..]);
    let output = lines(&play(&input));
    let (answers, printed): (Vec<_>, Vec<_>) = output.iter().partition(|line| line[0].is_ascii_digit());
    let (hints, sheets): (Vec<_>, Vec<_>) = printed.into_iter().partition(|line| b"KTN".contains(&line[0]));
    check(answers.len() == calls.len(), "play does not answer each line once")?;
    let accepted = |wanted: &[u8]| calls.iter().zip(&answers).filter(|(call, answer)| *call == wanted && **answer == b"0\n").count();
    check(hints.len() == accepted(b"H\n"), "play prints a move without a hint, or none after one")?;
    let sheet_lines = lines(&sheet(text)).len();
    check(sheets.len() == accepted(b"F\n") * sheet_lines, "play prints a sheet without a finish, or none after one")
}

/// Checks one random board. A fault is told with the text and the calls.
pub fn check_board(rng: &mut Random, tally: &mut Tally) -> Checked {
    let network = random_board(rng);
    let text = write(&network);
    let mut calls = Vec::new();
    tally.boards += 1;
    check(read(&text).as_ref() == Ok(&network), "a text written is read as another board")
        .and_then(|_| check_cancelling(&network, tally))
        .and_then(|_| check_play(rng, &network, &mut calls, tally))
        .and_then(|_| if rng.chance(1, 8) { check_programs(rng, &text) } else { Ok(()) })
        .map_err(|fault| {
            let lines: Vec<u8> = calls.iter().flat_map(line_of).collect();
            format!("{fault}\n{}{}", String::from_utf8_lossy(&text), String::from_utf8_lossy(&lines))
        })
}
