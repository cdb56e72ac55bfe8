//! Document 01, "The player who never strayed", with document 02's E1, and the refusals of every call in their order.

use crate::cancelling::acyclic_flows;
use crate::moves::{is_open, is_singular, open_carries, Board, Move, Step};
use crate::report::report;
use crate::solver::{finished, finishing_moves, next_move};
use crate::text::{read, write, Network, Refusal};

/// "This player is fed the loaded text and the calls with their arguments, no answers. The state is a list of moves, the standing ones, empty
/// at first."
#[derive(Clone, Debug, PartialEq, Eq)]
pub struct Player {
    /// None where nothing was loaded.
    loaded: Option<Loaded>,
    standing: Vec<Item>,
}

/// What stands. "A finish not taken back stands like a move" (document 02, E1); behind it no call but undo is accepted,
/// so it is the last of the list. Which moves it makes, the board before it decides.
#[derive(Clone, Debug, PartialEq, Eq)]
pub enum Item {
    Move(Move),
    Finish,
}

/// A call with its arguments.
#[derive(Clone, Debug, PartialEq, Eq)]
pub enum Call {
    Carry { terminal: u64, edge: u64 },
    Turn(Vec<Step>),
    Hint,
    Undo,
    Finish,
}

impl Call {
    /// The call that makes a move.
    pub fn of_move(made: &Move) -> Call {
        match made {
            Move::Carry { terminal, edge } => Call::Carry { terminal: *terminal as u64, edge: *edge as u64 },
            Move::Turn(steps) => Call::Turn(steps.clone()),
        }
    }
}

/// What the text says, and its drained first flows, which the text alone decides.
#[derive(Clone, Debug, PartialEq, Eq)]
struct Loaded {
    network: Network,
    acyclic_flows: Vec<u64>,
}

/// The answer of a call that writes into a buffer: the length of the text, or the refusal.
pub type Written = Result<usize, Refusal>;

/// "8 the buffer is too short for the text; bytes past a written text are kept."
pub(crate) fn put(text: &[u8], buffer: &mut [u8]) -> Written {
    if buffer.len() < text.len() {
        return Err(8);
    }
    buffer[..text.len()].copy_from_slice(text);
    Ok(text.len())
}

impl Player {
    /// "A refused load gives the closed board, with no pools, on which every call but load is refused."
    pub fn closed() -> Player {
        Player { loaded: None, standing: Vec::new() }
    }

    /// A load: its answer, and the player after it.
    pub fn load(text: &[u8]) -> (Refusal, Player) {
        match read(text) {
            Ok(network) => {
                let acyclic_flows = acyclic_flows(&network);
                (0, Player { loaded: Some(Loaded { network, acyclic_flows }), ..Player::closed() })
            }
            Err(refusal) => (refusal, Player::closed()),
        }
    }

    /// "20 play is over (a finish was accepted), or no board was loaded."
    fn in_play(&self) -> Result<&Network, Refusal> {
        match &self.loaded {
            Some(loaded) if !self.is_over() => Ok(&loaded.network),
            _ => Err(20),
        }
    }

    pub fn network(&self) -> Option<&Network> {
        self.loaded.as_ref().map(|loaded| &loaded.network)
    }

    /// The drained first flows, one for each edge; none where nothing was loaded.
    pub fn acyclic_flows(&self) -> &[u64] {
        self.loaded.as_ref().map_or(&[], |loaded| &loaded.acyclic_flows)
    }

    pub fn is_over(&self) -> bool {
        self.standing.last() == Some(&Item::Finish)
    }

    pub fn standing(&self) -> &[Item] {
        &self.standing
    }

    /// "The player's board is made afresh from both: .. then the listed moves in order, as under Moves." With the board
    /// all moves that led to it, those of a finish among them.
    fn made(&self) -> Option<(Vec<Move>, Board)> {
        let Loaded { network, acyclic_flows } = self.loaded.as_ref()?;
        let (mut moves, mut board) = (Vec::new(), Board::first(network, acyclic_flows));
        for item in &self.standing {
            match item {
                Item::Move(made) => {
                    board = board.after(network, made);
                    moves.push(made.clone());
                }
                Item::Finish => {
                    let (finishing, end) = finished(network, &board);
                    board = end;
                    moves.extend(finishing);
                }
            }
        }
        Some((moves, board))
    }

    pub fn board(&self) -> Option<Board> {
        self.made().map(|(_, board)| board)
    }

    /// The moves of the board, those of a finish included: "The finishing moves go into the journal".
    pub fn moves(&self) -> Vec<Move> {
        self.made().map_or(Vec::new(), |(moves, _)| moves)
    }

    /// A board in play, made afresh, with its network.
    fn in_play_board(&self) -> Result<(&Network, Board), Refusal> {
        let network = self.in_play()?;
        Ok((network, self.board().unwrap()))
    }

    /// "Carry: 20, 6, 21, 22, 23."
    fn judge_carry(&self, terminal: u64, edge: u64) -> Result<Move, Refusal> {
        let (network, board) = self.in_play_board()?;
        // "6 a mill or channel the board doesn't have."
        if terminal >= network.terminals.len() as u64 || edge >= network.edges.len() as u64 {
            return Err(6);
        }
        let (terminal, edge) = (terminal as usize, edge as usize);
        // "21 the mill is at the spring."
        if board.places[terminal] == network.source {
            return Err(21);
        }
        // "22 the channel doesn't enter the mill's pool."
        if network.edges[edge].head != board.places[terminal] {
            return Err(22);
        }
        // "23 that carry isn't open."
        if !is_open(network, &board, terminal, edge) {
            return Err(23);
        }
        Ok(Move::Carry { terminal, edge })
    }

    /// "Turn: 20, 6, 7, 24, 25, 26."
    fn judge_turn(&self, steps: &[Step]) -> Result<Move, Refusal> {
        let (network, board) = self.in_play_board()?;
        if steps.iter().any(|step| step.edge >= network.edges.len()) {
            return Err(6);
        }
        if !is_cycle(network, steps) {
            return Err(7);
        }
        // "24 a turn while a carry is open."
        if !open_carries(network, &board).is_empty() {
            return Err(24);
        }
        // "25 a dry channel in a turn."
        if steps.iter().any(|step| board.flows[step.edge] == 0) {
            return Err(25);
        }
        // "26 an up-step on a channel that isn't single."
        if steps.iter().any(|step| step.is_up && !is_singular(network, &board.flows, step.edge)) {
            return Err(26);
        }
        Ok(Move::Turn(steps.to_vec()))
    }

    /// "if refused, the number is the answer and the list stays. Else the answer is 0 and the move joins the list's end."
    fn make(&mut self, judged: Result<Move, Refusal>) -> Refusal {
        match judged {
            Ok(made) => {
                self.standing.push(Item::Move(made));
                0
            }
            Err(refusal) => refusal,
        }
    }

    pub fn carry(&mut self, terminal: u64, edge: u64) -> Refusal {
        let judged = self.judge_carry(terminal, edge);
        self.make(judged)
    }

    pub fn turn(&mut self, steps: &[Step]) -> Refusal {
        let judged = self.judge_turn(steps);
        self.make(judged)
    }

    /// "Undo: 20, 27." "27 on an empty list. Else 0, and the last move leaves the list." By E1 a finish leaves it like
    /// a move: "Undo after an accepted finish shall bring back the board just before it, all earlier moves still
    /// standing", and "Refusal 20 on undo remains only where no board was loaded".
    pub fn undo(&mut self) -> Refusal {
        if self.loaded.is_none() {
            return 20;
        }
        self.standing.pop().map_or(27, |_| 0)
    }

    /// Document 02, E3: "The hint shall give the move that finish would make next on this board." None "where no move is left".
    pub fn hint(&self) -> Result<Option<Move>, Refusal> {
        let (network, board) = self.in_play_board()?;
        Ok(next_move(network, &board))
    }

    /// "Finish plays to the end and answers how many moves it made."
    pub fn finish(&mut self) -> Result<usize, Refusal> {
        let (network, board) = self.in_play_board()?;
        let count = finishing_moves(network, &board).len();
        self.standing.push(Item::Finish);
        Ok(count)
    }

    /// A call, and 0 or its refusal.
    pub fn call(&mut self, call: &Call) -> Refusal {
        match call {
            Call::Carry { terminal, edge } => self.carry(*terminal, *edge),
            Call::Turn(steps) => self.turn(steps),
            Call::Hint => self.hint().err().unwrap_or(0),
            Call::Undo => self.undo(),
            Call::Finish => self.finish().err().unwrap_or(0),
        }
    }

    /// "Sheet: 29, 28, 8."
    pub fn sheet(&self, buffer: &mut [u8]) -> Written {
        put(&self.sheet_text()?, buffer)
    }

    /// "28 not finished. 29 nothing was loaded."
    pub fn sheet_text(&self) -> Result<Vec<u8>, Refusal> {
        let Loaded { network, acyclic_flows } = self.loaded.as_ref().ok_or(29u32)?;
        if !self.is_over() {
            return Err(28);
        }
        Ok(report(network, acyclic_flows, &self.board().unwrap().routes))
    }

    /// "Board writer: 29, 8."
    pub fn write(&self, buffer: &mut [u8]) -> Written {
        put(&self.board_text()?, buffer)
    }

    /// "The board writer gives the loaded text at every stage of play." "29 nothing was loaded."
    pub fn board_text(&self) -> Result<Vec<u8>, Refusal> {
        self.network().map(write).ok_or(29)
    }
}

/// "7 the steps are no ring: empty, a channel twice, a step elsewhere, not closed."
fn is_cycle(network: &Network, steps: &[Step]) -> bool {
    let is_twice = |at: usize| steps[..at].iter().any(|step| step.edge == steps[at].edge);
    // "Each step starts where the last one ended, the last ends where the first began, no channel occurs twice."
    let next = |at: usize| steps[(at + 1) % steps.len()];
    let leads_on = |at: usize| steps[at].to(network) == next(at).from(network);
    !steps.is_empty() && !(0..steps.len()).any(is_twice) && (0..steps.len()).all(leads_on)
}
