//! Boards finished move by move: the program `play` is asked for a hint and given its line back, again and again until it prints `N`; and the engine
//! is asked for a hint and given the very bytes back.

use crate::driven::{compare_shown, make_noise};
use crate::fault;
use crate::programs::compare_program;
use crate::session::Session;
use crate::tally::{same, Tally};
use crate::wanted::{advice_of, whole_of};
use reference::engine::{Advice, Game, CARRY};
use reference::moves::{Board, Move};
use reference::player::Player;
use reference::programs::{hint_line, sheet};
use reference::random::Random;
use reference::solver::next_move;

/// Feeds every hint of `play` back to it until `N`, which it answers with 1. Each line is the reference's hint. Gives the moves.
fn fed_back(session: &mut Session, text: &[u8]) -> Result<Vec<Move>, String> {
    let (_, player) = Player::load(text);
    let network = player.network().expect("the board is accepted");
    let mut board = Board::first(network, player.acyclic_flows());
    let mut moves = Vec::new();
    session.give(text)?;
    loop {
        // The player's hint, on a board that goes along with the moves.
        let hint = next_move(network, &board);
        let line = session.ask(b"H\n", &[b"0\n", &hint_line(hint.as_ref())[..]].concat())?;
        let Some(hinted) = hint else {
            session.ask(&line, b"1\n")?;
            return Ok(moves);
        };
        session.ask(&line, b"0\n")?;
        board = board.after(network, &hinted);
        moves.push(hinted);
    }
}

/// A board whose terminals are all at the source, the last by this move: `F` prints the sheet, and there is no hint any
/// more. The finish of no moves is taken back, then the move, and from there `F` prints the sheet again.
fn finished_twice(session: &mut Session, last: Option<&Move>, finish: &[u8]) -> Result<(), String> {
    session.ask(b"F\n", finish)?;
    session.ask(b"H\n", b"20\n")?;
    session.ask(b"U\n", b"0\n")?;
    session.ask(b"H\n", b"0\nN\n")?;
    session.ask(b"U\n", if last.is_some() { b"0\n" } else { b"27\n" })?;
    session.ask(b"H\n", &[b"0\n", &hint_line(last)[..]].concat())?;
    session.ask(b"F\n", finish).map(drop)
}

/// The move of a hint, given back just as it came.
fn give_back(game: &mut Game, advice: &Advice) -> u32 {
    match advice.kind {
        CARRY => game.carry(advice.terminal, advice.edge),
        _ => game.turn(&advice.steps[..advice.length as usize]),
    }
}

/// A game in play, given back its own hints until there is none. Each is the reference's, field by field. Gives the game's bytes before each move.
fn played_by_hints(rng: &mut Random, game: &mut Game, text: &[u8], moves: &[Move]) -> Result<Vec<Vec<u8>>, String> {
    let mut before = Vec::new();
    for made in moves {
        before.push(game.bytes().to_vec());
        let (_, advice) = same(text, (0, advice_of(Some(made))), game.hint())?;
        same(text, 0, give_back(game, &advice))?;
        if rng.chance(1, 6) {
            game.move_elsewhere();
        }
    }
    same(text, (0, Advice::NONE), game.hint())?;
    Ok(before)
}

/// The game of the hints: the finish behind them finds nothing left to do, and the board is then the one that a finish alone gives, yet another game,
/// since its undo takes back less. All moves are taken back one by one, each to the very bytes before it.
fn compare_hinted_game(rng: &mut Random, text: &[u8], moves: &[Move], tally: &mut Tally) -> Result<(), String> {
    let mut game = Game::anywhere();
    make_noise(rng, &mut game);
    fault::loads(text);
    same(text, 0, game.load(text))?;
    let mut alone = game.clone();
    let mut before = played_by_hints(rng, &mut game, text, moves)?;
    before.push(game.bytes().to_vec());
    same(text, (0, 0), game.finish())?;
    same(text, (0, moves.len() as u32), alone.finish())?;
    let (_, mut player) = Player::load(text);
    player.finish().expect("a loaded board is in play");
    let whole = whole_of(&player);
    compare_shown(text, &game, 0, &whole, tally)?;
    compare_shown(text, &alone, 0, &whole, tally)?;
    let told = |fault: &str| Err(format!("{fault}, of the board's own hints\nas text:\n{}", String::from_utf8_lossy(text)));
    if game.bytes() == alone.bytes() {
        return told("a finish behind all its moves has the bytes of one that made them");
    }
    while let Some(wanted) = before.pop() {
        same(text, 0, game.undo())?;
        if wanted != game.bytes() {
            return told("an undo gave other bytes than those from before");
        }
    }
    same(text, 27, game.undo()).map(drop)
}

/// An accepted board finished by its hints. `F` then prints the very sheet that it prints alone, and once more when it
/// was taken back.
pub fn compare_hinted(rng: &mut Random, text: &[u8], tally: &mut Tally) -> Result<(), String> {
    let finish = [b"0\n", &sheet(text)[..]].concat();
    compare_program("play", &[text, b"F\nU\nF\n"].concat(), [&finish[..], b"0\n", &finish].concat(), tally)?;
    let mut session = Session::start("play")?;
    let moves = fed_back(&mut session, text)?;
    finished_twice(&mut session, moves.last(), &finish)?;
    session.end()?;
    compare_hinted_game(rng, text, &moves, tally).map_err(|difference| format!("the engine, given its own hints: {difference}"))?;
    tally.count("boards finished by hints");
    tally.add("hints fed back", moves.len() as u64);
    Ok(())
}
