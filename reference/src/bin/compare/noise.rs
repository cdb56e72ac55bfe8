//! Memory that no load wrote: every call answers as on the closed board and gives zeros, and every byte stays. And games with words changed.

use crate::driven::{given_by_engine, reading, Answered};
use crate::tally::{same, Tally};
use reference::encoded::random_list;
use reference::engine::{Advice, Entry, Game, Memory, View, MOVES, SHEET_MAX, STEPS, VERSION};
use reference::random::Random;
use std::mem::offset_of;

/// The calls that answer 20, with what they give.
fn refused_play(rng: &mut Random, game: &mut Game, tally: &mut Tally) -> Result<(), String> {
    let numbers = if rng.chance(1, 2) { (0, 0) } else { (rng.next() as u32, rng.next() as u32) };
    same(b"carry", 20, game.carry(numbers.0, numbers.1))?;
    let count = rng.pick(&[0, 1, 4, 64, 100]);
    same(b"turn", 20, game.turn(&rng.bytes(count)))?;
    same(b"empty turn", 20, game.turn(&[]))?;
    same(b"undo", 20, game.undo())?;
    same(b"hint", (20, Advice::NONE), game.hint())?;
    same(b"finish", (20, 0), game.finish())?;
    ["carry", "turn", "turn", "undo", "hint", "finish"].into_iter().for_each(|call| tally.answer(call, 20));
    Ok(())
}

/// The calls that answer 29.
fn refused_look(rng: &mut Random, game: &Game, tally: &mut Tally) -> Result<(), String> {
    let writers: [(&'static str, fn(&Game, &mut [u8]) -> (u32, usize)); 2] = [("sheet", Game::sheet), ("write", Game::write)];
    for (name, writer) in writers {
        for room in [0, rng.below(100), 3_000] {
            let buffer = rng.bytes(room);
            let by_engine = Answered::by_engine(buffer.clone(), |buffer| writer(game, buffer));
            same(name.as_bytes(), Answered { answer: 29, used: 0, buffer }, by_engine)?;
            tally.answer(name, 29);
        }
    }
    same(b"look", (29, View::CLOSED), game.look())?;
    tally.answer("look", 29);
    [0, 1, rng.below(2_000) as u32, rng.next() as u32].into_iter().try_for_each(|place| {
        tally.answer("journal", 29);
        same(b"journal", (29, Entry::NONE), game.journal(place)).map(drop)
    })
}

/// Every call but load on memory that holds no board.
pub fn compare_unloaded(rng: &mut Random, game: &mut Game, tally: &mut Tally) -> Result<(), String> {
    let before = game.bytes().to_vec();
    let numbers = *game.numbers_mut();
    let told = |difference: String| format!("memory that no load wrote, with the first numbers {numbers:?}: {difference}");
    refused_play(rng, game, tally).map_err(told)?;
    reading(game, rng.chance(1, 8), |game| refused_look(rng, game, tally)).map_err(told)?;
    tally.count("memory that no load wrote");
    match before == game.bytes() {
        true => Ok(()),
        false => Err(told("a call wrote into it".into())),
    }
}

/// A real game, a few calls behind its load, spoilt so that it is surely none any more: another version, a stage that a loaded board never has, or
/// more or fewer vertices, edges or terminals than any board has. All these stand in the first numbers.
fn spoil(rng: &mut Random, text: &[u8], game: &mut Game) {
    game.load(text);
    for call in random_list(rng, text).iter().take(6) {
        given_by_engine(game, call);
    }
    let any = rng.next() as u32 | 1 << 20;
    let (place, wrong) = match rng.below(5) {
        0 => (0, [0, VERSION + 1, 1 << 24, any]),
        1 => (1, [0, 3, 1 << 24, any]),
        2 => (2, [0, 1, 33, any]),
        3 => (3, [0, 65, 1 << 24, any]),
        _ => (4, [0, 17, 1 << 24, any]),
    };
    game.numbers_mut()[place] = rng.pick(&wrong);
}

/// Random bytes, random bytes behind small numbers, a real game that was spoilt, and zeros.
pub fn compare_noise(rng: &mut Random, text: &[u8], tally: &mut Tally) -> Result<(), String> {
    let mut game = Game::anywhere();
    match rng.below(8) {
        0 | 1 => game.fill(rng),
        2 | 3 => {
            game.fill(rng);
            let below = rng.pick(&[3, 20, 70]);
            game.numbers_mut().iter_mut().for_each(|number| *number = rng.below(below) as u32);
            if rng.chance(1, 2) {
                game.numbers_mut()[..2].copy_from_slice(&[VERSION, rng.between(1, 2) as u32]);
            }
        }
        4 => game.bytes_mut().fill(0),
        _ => spoil(rng, text, &mut game),
    }
    compare_unloaded(rng, &mut game, tally)
}

/// The answers that each call may give, on a board or on none; and whether it only reads.
const CALLS: [(&str, &[u32], bool); 9] = [
    ("carry", &[0, 20, 6, 21, 22, 23], false),
    ("turn", &[0, 20, 6, 7, 24, 25, 26], false),
    ("undo", &[0, 20, 27], false),
    ("hint", &[0, 20], true),
    ("finish", &[0, 20], false),
    ("sheet", &[0, 29, 28, 8], true),
    ("write", &[0, 29, 8], true),
    ("look", &[0, 29], true),
    ("journal", &[0, 29, 2], true),
];

/// The answer of a call of this name with any arguments, and whether what it gives is as after a refusal.
fn any_call(rng: &mut Random, game: &mut Game, name: &str) -> (u32, bool) {
    let buffer = vec![7; rng.pick(&[0, 100, SHEET_MAX])];
    let texted = |(answer, used): (u32, usize), after: &[u8]| (answer, used == 0 && after == buffer);
    let mut after = buffer.clone();
    match name {
        "carry" => (game.carry(rng.below(17) as u32, rng.below(65) as u32), true),
        "turn" => {
            let (_, advice) = game.hint();
            let length = if rng.chance(3, 4) { advice.length as usize } else { rng.below(STEPS + 1) };
            (game.turn(&advice.steps[..length.min(STEPS)]), true)
        }
        "undo" => (game.undo(), true),
        "hint" => given(game.hint(), Advice::NONE),
        "finish" => given(game.finish(), 0),
        "sheet" => texted(game.sheet(&mut after), &after),
        "write" => texted(game.write(&mut after), &after),
        "look" => given(game.look(), View::CLOSED),
        _ => given(game.journal(rng.below(MOVES + 1) as u32), Entry::NONE),
    }
}

fn given<T: PartialEq>((answer, given): (u32, T), nothing: T) -> (u32, bool) {
    (answer, given == nothing)
}

/// A few words of a game changed, anywhere: in the board, or in the journal's first places.
fn change_words(rng: &mut Random, game: &mut Game) {
    let of_board = offset_of!(Memory, journal) / 4;
    for _ in 0..rng.between(1, 4) {
        let word = if rng.chance(3, 4) { rng.below(of_board) } else { of_board + rng.below(200) };
        let bytes = &mut game.bytes_mut()[4 * word..][..4];
        let old = u32::from_ne_bytes([bytes[0], bytes[1], bytes[2], bytes[3]]);
        let new = match rng.below(4) {
            0 => old.wrapping_add(1),
            1 => old ^ 1 << rng.below(32),
            2 => rng.pick(&[0, 1, 2, 16, 31, 32, 33, 64, 1_000_000, 1_000_001, u32::MAX]),
            _ => rng.next() as u32,
        };
        bytes.copy_from_slice(&new.to_ne_bytes());
    }
}

/// A real game with words changed, so that it may be a board's memory or none, and no play may have led there. Little is known of what calls do with
/// it: their answers are the header's; a refused one and one that only reads keep every byte of the game; a refused one gives zeros; and nothing else
/// is touched.
pub fn compare_changed(rng: &mut Random, text: &[u8], tally: &mut Tally) -> Result<(), String> {
    let mut game = Game::anywhere();
    game.load(text);
    for call in random_list(rng, text).iter().take(8) {
        given_by_engine(&mut game, call);
    }
    change_words(rng, &mut game);
    for _ in 0..12 {
        let (name, answers, reads) = rng.pick(&CALLS);
        let before = game.bytes().to_vec();
        let (answer, gives_nothing) = any_call(rng, &mut game, name);
        let is_kept = before == game.bytes();
        let is_right = answers.contains(&answer) && (is_kept || !reads && answer == 0) && (gives_nothing || answer == 0);
        if !is_right {
            let text = String::from_utf8_lossy(text);
            return Err(format!(
                "a game with words changed: {name} answers {answer}, is kept: {is_kept}, gives nothing: {gives_nothing}\nas text:\n{text}"
            ));
        }
        tally.count(if answer == 0 { "calls on changed games, accepted" } else { "calls on changed games, refused" });
    }
    Ok(())
}
