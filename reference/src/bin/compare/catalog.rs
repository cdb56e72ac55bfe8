//! The catalog: every board written into buffers of several lengths, its text loaded, and lists of calls made on it.

use crate::driven::Answered;
use crate::play::compare_play;
use crate::tally::{same, Tally};
use crate::texts::compare_load;
use reference::catalog::{write, BOARDS};
use reference::encoded::{random_list, EngineCall};
use reference::engine::{self, TEXT_MAX};
use reference::random::Random;

/// Random lists of calls for each board.
const LISTS: usize = 5;
/// A list for each: a finish, taken back and made again.
const TWICE: [EngineCall; 5] = [EngineCall::Finish, EngineCall::Undo, EngineCall::Hint, EngineCall::Finish, EngineCall::Hint];

/// A number, and a buffer of this length, which held something else before.
fn compare_write(rng: &mut Random, number: u32, length: usize, tally: &mut Tally) -> Result<(), String> {
    let buffer = rng.bytes(length);
    let input = format!("catalog, board {number}, {length} bytes of room");
    let by_reference = Answered::by_reference(buffer.clone(), |buffer| write(number, buffer));
    let by_engine = Answered::by_engine(buffer, |buffer| engine::catalog(number, buffer));
    let answered = same(input.as_bytes(), by_reference, by_engine)?;
    tally.answer("catalog", answered.answer);
    Ok(())
}

pub fn compare_catalog(rng: &mut Random, tally: &mut Tally) -> Result<(), String> {
    for (number, text) in BOARDS.iter().enumerate() {
        let lengths = [0, rng.below(text.len()), text.len() - 1, text.len(), text.len() + 1 + rng.below(2_000), TEXT_MAX];
        lengths.into_iter().try_for_each(|length| compare_write(rng, number as u32, length, tally))?;
        compare_load(rng, text.as_bytes(), text.len(), tally)?;
        compare_play(rng, text.as_bytes(), &TWICE, true, tally)?;
        for list in 0..LISTS {
            let calls = random_list(rng, text.as_bytes());
            compare_play(rng, text.as_bytes(), &calls, list == 0, tally)?;
        }
    }
    [40, 41, 255, 256, 65_536, 1 << 31, u32::MAX].into_iter().try_for_each(|number| compare_write(rng, number, 1_300, tally))?;
    compare_write(rng, 40, 0, tally)
}
