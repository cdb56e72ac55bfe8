//! A game of the engine's and the reference's player side by side: both get the same calls, one at a time, and after each of them what it answers and
//! gives is compared, and the game's bytes are held to the header's promises.

use crate::fault;
use crate::tally::{same, Tally};
use crate::wanted::{advice_of, whole_of, Whole};
use reference::encoded::{call_by_reference, engine_call, number, EngineCall};
use reference::engine::{Advice, Entry, Game, MOVES};
use reference::player::{Call, Item, Player, Written};
use reference::random::Random;
use std::rc::Rc;

/// Fills memory as a load may find it: with noise, with one byte all over, or with what another game has left there.
pub fn make_noise(rng: &mut Random, game: &mut Game) {
    match rng.below(4) {
        0 => (),
        1 => game.bytes_mut().fill(rng.pick(&[0, 1, 0xff])),
        _ => game.fill(rng),
    }
}

/// Calls that only read a game, where it `is_sealed` in memory that may only be read.
pub fn reading<T>(game: &Game, is_sealed: bool, calls: impl FnOnce(&Game) -> T) -> T {
    if !is_sealed {
        return calls(game);
    }
    game.allow_writing(false);
    let given = calls(game);
    game.allow_writing(true);
    given
}

/// What a call answers; with a finish its moves, with a hint its move.
#[derive(Debug, PartialEq, Eq)]
pub struct Given {
    pub answer: u32,
    pub moves: u32,
    advice: Advice,
}

impl Given {
    fn number(answer: u32) -> Given {
        Given { answer, moves: 0, advice: Advice::NONE }
    }

    fn hint(game: &Game) -> Given {
        let (answer, advice) = game.hint();
        Given { advice, ..Given::number(answer) }
    }
}

pub fn given_by_engine(game: &mut Game, call: &EngineCall) -> Given {
    match call {
        EngineCall::Carry(terminal, edge) => Given::number(game.carry(*terminal, *edge)),
        EngineCall::Turn(steps) => Given::number(game.turn(steps)),
        EngineCall::Undo => Given::number(game.undo()),
        EngineCall::Hint => Given::hint(game),
        EngineCall::Finish => {
            let (answer, moves) = game.finish();
            Given { moves, ..Given::number(answer) }
        }
    }
}

fn given_by_player(player: &mut Player, call: &EngineCall) -> Given {
    match call {
        EngineCall::Hint => match player.hint() {
            Ok(hint) => Given { advice: advice_of(hint.as_ref()), ..Given::number(0) },
            Err(refusal) => Given::number(refusal),
        },
        EngineCall::Finish => match player.finish() {
            Ok(count) => Given { moves: number(count), ..Given::number(0) },
            Err(refusal) => Given::number(refusal),
        },
        _ => Given::number(call_by_reference(player, call)),
    }
}

fn name(call: &EngineCall) -> &'static str {
    match call {
        EngineCall::Carry(..) => "carry",
        EngineCall::Turn(_) => "turn",
        EngineCall::Undo => "undo",
        EngineCall::Hint => "hint",
        EngineCall::Finish => "finish",
    }
}

/// A call that writes a text: its name, the engine's function and the reference's.
pub struct Writer {
    name: &'static str,
    engine: fn(&Game, &mut [u8]) -> (u32, usize),
    reference: fn(&Player, &mut [u8]) -> Written,
}

pub const REPORT: Writer = Writer { name: "sheet", engine: Game::sheet, reference: Player::sheet };
pub const BOARD_TEXT: Writer = Writer { name: "write", engine: Game::write, reference: Player::write };

/// What a call that writes a text answered, the length of the text, and the buffer then.
#[derive(Debug, PartialEq, Eq)]
pub struct Answered {
    pub answer: u32,
    pub used: usize,
    pub buffer: Vec<u8>,
}

impl Answered {
    pub fn by_engine(mut buffer: Vec<u8>, call: impl FnOnce(&mut [u8]) -> (u32, usize)) -> Answered {
        let (answer, used) = call(&mut buffer);
        Answered { answer, used, buffer }
    }

    pub fn by_reference(mut buffer: Vec<u8>, call: impl FnOnce(&mut [u8]) -> Written) -> Answered {
        let (answer, used) = match call(&mut buffer) {
            Ok(used) => (0, used),
            Err(refusal) => (refusal, 0),
        };
        Answered { answer, used, buffer }
    }
}

/// The whole view and the whole journal of a game that was loaded, or of the closed board, which refuses with 29. Past the standing moves the journal
/// refuses with 2; the places there "all hold the same fixed blank", which is zeros.
pub fn compare_shown(text: &[u8], game: &Game, refusal: u32, whole: &Whole, tally: &mut Tally) -> Result<(), String> {
    same(text, (refusal, whole.view), game.look())?;
    tally.answer("look", refusal);
    for (place, entry) in whole.entries.iter().enumerate() {
        let told = |difference| format!("the journal at {place}: {difference}");
        same(text, (0, *entry), game.journal(place as u32)).map_err(told)?;
        tally.answer("journal", 0);
    }
    let moves = number(whole.entries.len());
    let is_blank = game.places()[whole.entries.len()..].iter().all(|place| *place == [0; 5]);
    same(text, true, is_blank).map_err(|difference| format!("whether the places past the {moves} standing moves are blank: {difference}"))?;
    let past = if refusal == 0 { 2 } else { refusal };
    [moves, moves + 1, MOVES as u32, 1 << 31, u32::MAX].into_iter().try_for_each(|place| {
        let told = |difference| format!("the journal at {place}, past the standing moves: {difference}");
        same(text, (past, Entry::NONE), game.journal(place)).map_err(told)?;
        tally.answer("journal", past);
        Ok(())
    })
}

#[derive(Clone)]
pub struct Driven<'a> {
    pub text: &'a [u8],
    pub game: Game,
    pub player: Player,
    /// The game's bytes before each standing move, and before a finish that stands.
    before: Vec<Rc<[u8]>>,
    /// Whether a call that only reads a game finds it in memory that may only be read.
    is_sealed: bool,
}

impl<'a> Driven<'a> {
    /// Both load the text. A refused one leaves zeros.
    pub fn load(rng: &mut Random, text: &'a [u8], tally: &mut Tally) -> Result<Driven<'a>, String> {
        let mut game = Game::anywhere();
        make_noise(rng, &mut game);
        fault::loads(text);
        let (loading, player) = Player::load(text);
        same(text, loading, game.load(text)).map_err(|difference| format!("load: {difference}"))?;
        tally.answer("load", loading);
        let driven = Driven { text, game, player, before: Vec::new(), is_sealed: rng.chance(1, 8) };
        driven.hold(loading == 0 || driven.game.bytes().iter().all(|byte| *byte == 0), "a refused load leaves something")?;
        Ok(driven)
    }

    fn hold(&self, is_kept: bool, fault: &str) -> Result<(), String> {
        if is_kept {
            return Ok(());
        }
        let (standing, text) = (self.player.standing(), String::from_utf8_lossy(self.text));
        Err(format!("{fault}\nbehind the standing moves {standing:?}\nas text:\n{text}"))
    }

    /// Calls that only read the game: not a byte of it is another after them.
    fn read<T>(&self, calls: impl FnOnce(&Game) -> Result<T, String>) -> Result<T, String> {
        let before = self.game.bytes().to_vec();
        let given = reading(&self.game, self.is_sealed, calls);
        self.hold(before == self.game.bytes(), "a call that only reads the game changed it")?;
        given
    }

    /// A call by both.
    pub fn call(&mut self, call: &EngineCall, tally: &mut Tally) -> Result<Given, String> {
        let before: Rc<[u8]> = self.game.bytes().into();
        let by_engine = match call {
            EngineCall::Hint => reading(&self.game, self.is_sealed, Given::hint),
            _ => given_by_engine(&mut self.game, call),
        };
        let given = same(self.text, given_by_player(&mut self.player, call), by_engine)?;
        tally.answer(name(call), given.answer);
        self.hold_bytes(call, given.answer, before)?;
        Ok(given)
    }

    /// A refused call and a hint have changed nothing, and an undo has brought back the very bytes from before the move. Any other call has changed
    /// something.
    fn hold_bytes(&mut self, call: &EngineCall, answer: u32, before: Rc<[u8]>) -> Result<(), String> {
        let is_as_before = *before == *self.game.bytes();
        match (call, answer) {
            (EngineCall::Hint, _) => self.hold(is_as_before, "a hint changed the game"),
            (EngineCall::Undo, 0) => {
                let wanted = self.before.pop().expect("what is undone was made");
                self.hold(*wanted == *self.game.bytes(), "an undo gave other bytes than those from before")
            }
            (_, 0) => {
                self.before.push(before);
                self.hold(!is_as_before, "an accepted move changed nothing")
            }
            _ => self.hold(is_as_before, "a refused call changed the game"),
        }
    }

    pub fn move_now_and_then(&mut self, rng: &mut Random) {
        if rng.chance(1, 6) {
            self.game.move_elsewhere();
        }
    }

    /// The whole view and the whole journal.
    pub fn compare_whole(&self, tally: &mut Tally) -> Result<Whole, String> {
        let whole = whole_of(&self.player);
        let refusal = if self.player.network().is_some() { 0 } else { 29 };
        self.read(|game| compare_shown(self.text, game, refusal, &whole, tally))?;
        Ok(whole)
    }

    /// A text of the board into a buffer, which holds something else before.
    pub fn compare_text(&self, writer: &Writer, buffer: Vec<u8>, tally: &mut Tally) -> Result<Answered, String> {
        let by_reference = Answered::by_reference(buffer.clone(), |buffer| (writer.reference)(&self.player, buffer));
        let by_engine = self.read(|game| Ok(Answered::by_engine(buffer, |buffer| (writer.engine)(game, buffer))))?;
        let answered = same(self.text, by_reference, by_engine).map_err(|difference| format!("{}: {difference}", writer.name))?;
        tally.answer(writer.name, answered.answer);
        Ok(answered)
    }

    /// Another game, loaded afresh into other noise and given the standing moves alone, has the very same bytes.
    pub fn compare_standing(&self, rng: &mut Random) -> Result<(), String> {
        let mut fresh = Game::anywhere();
        make_noise(rng, &mut fresh);
        fresh.load(self.text);
        for item in self.player.standing() {
            let call = match item {
                Item::Move(made) => engine_call(&Call::of_move(made)),
                Item::Finish => EngineCall::Finish,
            };
            same(self.text, 0, given_by_engine(&mut fresh, &call).answer).map_err(|difference| format!("{call:?} made afresh: {difference}"))?;
        }
        self.hold(fresh.bytes() == self.game.bytes(), "a fresh load and the standing moves alone gave other bytes")
    }
}

/// Games of one text, each with its bytes.
#[derive(Default)]
pub struct Seen {
    games: Vec<(Whole, Rc<[u8]>)>,
}

impl Seen {
    /// A game beside all that were seen: equal ones have equal bytes, others have not.
    pub fn compare(&mut self, driven: &Driven, whole: Whole, tally: &mut Tally) -> Result<(), String> {
        let bytes = driven.game.bytes();
        for (other, other_bytes) in &self.games {
            let is_equal = whole == *other;
            let fault = if is_equal { "equal games have other bytes" } else { "other games have equal bytes" };
            driven.hold(is_equal == (**other_bytes == *bytes), fault)?;
            tally.count(if is_equal { "pairs of equal games" } else { "pairs of other games" });
        }
        self.games.push((whole, bytes.into()));
        Ok(())
    }
}
