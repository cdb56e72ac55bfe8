//! Lists of carries, turns, undos, hints and finishes through engine and reference, call by call; the view and the journal on the way and at the end,
//! the board that a finish makes of it, and the texts of both boards.

use crate::driven::{Driven, Given, Seen, BOARD_TEXT, REPORT};
use crate::tally::{same, Tally};
use reference::encoded::EngineCall;
use reference::engine::SHEET_MAX;
use reference::random::Random;

/// A buffer of this length with something in it.
fn buffer(length: usize) -> Vec<u8> {
    (0..length).map(|at| at as u8 ^ 0xa5).collect()
}

/// "The board writer gives the loaded text at every stage of play": into a buffer that is too short by a byte, one that fits, and one with bytes
/// behind the text.
fn compare_board_text(driven: &Driven, tally: &mut Tally) -> Result<(), String> {
    let length = driven.text.len();
    [length.saturating_sub(1), length, length + 7].into_iter().try_for_each(|room| {
        let answered = driven.compare_text(&BOARD_TEXT, buffer(room), tally)?;
        match answered.answer {
            0 => same(driven.text, driven.text, &answered.buffer[..answered.used]).map(drop),
            _ => Ok(()),
        }
    })
}

/// The report into a buffer that is too short by a byte, one that fits, one with bytes behind the text, and one that is never too short.
fn compare_report(driven: &Driven, tally: &mut Tally) -> Result<(), String> {
    let length = driven.player.sheet_text().map_or(1, |report| report.len());
    [length - 1, length, length + 7, SHEET_MAX].into_iter().try_for_each(|room| driven.compare_text(&REPORT, buffer(room), tally).map(drop))
}

/// The report and the board text before a finish and after it, which is refused where one stands already, and the whole board then. A finish that was
/// accepted is taken back.
fn compare_finish(mut driven: Driven, tally: &mut Tally) -> Result<(), String> {
    driven.compare_text(&REPORT, buffer(SHEET_MAX), tally)?;
    compare_board_text(&driven, tally)?;
    let finish = driven.call(&EngineCall::Finish, tally)?;
    tally.add("moves of finishes", u64::from(finish.moves));
    driven.compare_whole(tally)?;
    compare_board_text(&driven, tally)?;
    compare_report(&driven, tally)?;
    if finish.answer == 0 {
        driven.call(&EngineCall::Undo, tally)?;
    }
    Ok(())
}

/// A list of calls on its way.
struct Trial<'a> {
    driven: Driven<'a>,
    seen: Seen,
    /// Whether all is compared behind every call, or now and then.
    is_thorough: bool,
}

impl Trial<'_> {
    /// The board reached: its view and its journal, the game beside those before it, and a finish of a copy.
    fn compare_here(&mut self, tally: &mut Tally) -> Result<(), String> {
        let whole = self.driven.compare_whole(tally)?;
        self.seen.compare(&self.driven, whole, tally)?;
        if self.is_thorough {
            compare_finish(self.driven.clone(), tally)?;
        }
        Ok(())
    }

    fn call(&mut self, rng: &mut Random, call: &EngineCall, tally: &mut Tally) -> Result<(), String> {
        let was_over = self.driven.player.is_over();
        let given = self.driven.call(call, tally)?;
        tally_call(call, &given, was_over, tally);
        self.driven.move_now_and_then(rng);
        if self.is_thorough || rng.chance(1, 8) {
            self.compare_here(tally)?;
        }
        Ok(())
    }

    /// The end of the list: a fresh game with the standing moves alone, and a finish.
    fn end(mut self, rng: &mut Random, tally: &mut Tally) -> Result<(), String> {
        self.compare_here(tally)?;
        self.driven.compare_standing(rng)?;
        if self.driven.player.is_over() {
            tally.count("lists that end in a finish");
        }
        compare_finish(self.driven, tally)
    }
}

/// What becomes of the finishes of a list.
fn tally_call(call: &EngineCall, given: &Given, was_over: bool, tally: &mut Tally) {
    match call {
        EngineCall::Finish if given.answer == 0 && given.moves == 0 => tally.count("finishes of no moves"),
        EngineCall::Undo if was_over && given.answer == 0 => tally.count("finishes taken back"),
        _ => (),
    }
}

/// A text loaded, a list of calls made by both, and a finish after them; where it `is_thorough`, all that is compared at the end is compared at every
/// board on the way, too.
pub fn compare_play(rng: &mut Random, text: &[u8], calls: &[EngineCall], is_thorough: bool, tally: &mut Tally) -> Result<(), String> {
    let told = |at: usize, difference: String| format!("behind the first {at} of the calls {calls:?}\n{difference}");
    let mut trial = Trial { driven: Driven::load(rng, text, tally)?, seen: Seen::default(), is_thorough };
    if is_thorough {
        trial.compare_here(tally).map_err(|difference| told(0, difference))?;
    }
    for (at, call) in calls.iter().enumerate() {
        trial.call(rng, call, tally).map_err(|difference| told(at + 1, difference))?;
    }
    tally.count("lists");
    if calls.contains(&EngineCall::Finish) {
        tally.count("lists with a finish");
    }
    trial.end(rng, tally).map_err(|difference| told(calls.len(), difference))
}
