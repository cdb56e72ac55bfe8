//! A board through engine, reference and fast program: loaded, finished and reported.

use crate::driven::compare_shown;
use crate::fault;
use crate::tally::{same, Tally};
use crate::wanted::{whole_of, whole_of_fast, Whole};
use reference::boards::random_board;
use reference::encoded::number;
use reference::engine::Game;
use reference::fast::Board;
use reference::player::Player;
use reference::random::Random;
use reference::text::write;

/// What the reference makes of a board: how many moves its finish makes, the board then, and its report.
struct Finished {
    count: usize,
    whole: Whole,
    report: Vec<u8>,
}

fn finished_by_reference(text: &[u8]) -> Result<Finished, String> {
    let told = |refusal| format!("the reference refuses a good board with {refusal}");
    let (_, mut player) = Player::load(text);
    let count = player.finish().map_err(told)?;
    Ok(Finished { count, whole: whole_of(&player), report: player.sheet_text().map_err(told)? })
}

fn compare_fast(fast: &mut Board, text: &[u8], wanted: &Finished) -> Result<(), String> {
    same(text, 0, fast.load(text))?;
    same(text, &Ok(wanted.count), &fast.finish())?;
    same(text, &wanted.whole, &whole_of_fast(fast, &wanted.whole.view))?;
    let mut buffer = vec![0; wanted.report.len()];
    same(text, &Ok(buffer.len()), &fast.report(&mut buffer))?;
    same(text, &wanted.report, &buffer).map(drop)
}

fn compare_engine(game: &mut Game, text: &[u8], wanted: &Finished, tally: &mut Tally) -> Result<(), String> {
    fault::loads(text);
    same(text, 0, game.load(text))?;
    let loaded = game.bytes().to_vec();
    same(text, (0, number(wanted.count)), game.finish())?;
    compare_shown(text, game, 0, &wanted.whole, tally)?;
    let mut buffer = vec![0; wanted.report.len()];
    same(text, (0, buffer.len()), game.sheet(&mut buffer))?;
    same(text, &wanted.report, &buffer)?;
    same(text, 0, game.undo())?;
    ["load", "finish", "sheet", "undo"].into_iter().for_each(|call| tally.answer(call, 0));
    match loaded == game.bytes() {
        true => Ok(()),
        false => Err(format!("the undo of a finish gave other bytes than those from before\nas text:\n{}", String::from_utf8_lossy(text))),
    }
}

/// A board that is accepted: the whole board at the end, its report, and by the engine the undo.
fn compare_board(game: &mut Game, fast: &mut Board, text: &[u8], tally: &mut Tally) -> Result<(), String> {
    let wanted = finished_by_reference(text)?;
    compare_fast(fast, text, &wanted).map_err(|difference| format!("the fast program, not the engine:\n{difference}"))?;
    compare_engine(game, text, &wanted, tally)?;
    tally.count("boards");
    tally.add("moves of finishes", wanted.count as u64);
    Ok(())
}

/// So many random boards of a seed, each loaded on top of the one before.
pub fn compare_boards(seed: u64, count: u64, tally: &mut Tally) -> Result<(), String> {
    let (mut game, mut fast) = (Game::anywhere(), Board::closed());
    for index in 0..count {
        fault::compares(seed, Some(index));
        let mut rng = Random::of_input(seed, index);
        let text = write(&random_board(&mut rng));
        compare_board(&mut game, &mut fast, &text, tally).map_err(|difference| format!("board {index} of seed {seed}: {difference}"))?;
    }
    Ok(())
}
