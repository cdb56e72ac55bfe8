//! Document 02, E3: "The hint shall give the move that finish would make next on this board .. and `play` prints it after its 0, as a line it
//! would read, or `N` where no move is left." The lines below are worked out by hand from document 01's rules.

use reference::boards::random_board;
use reference::calls::random_calls;
use reference::cases::{longest_cycle, DOWN_AGAIN, S, T, TAIL};
use reference::catalog::BOARDS;
use reference::player::{Call, Player};
use reference::programs::{hint_line, play, sheet};
use reference::properties::check_hint;
use reference::random::Random;
use reference::text::write;

/// A board is finished by these lines, each hinted and then given back; then no move is left. `N` is no line that `play` reads, the sheet is that of
/// a finish alone, and once play is over there is no hint.
fn finished_by(board: &str, hints: &[&str]) {
    let board = board.replace(' ', "\n");
    let given: String = hints.iter().map(|hint| format!("H\n{hint}\n")).collect();
    let answered: String = hints.iter().map(|hint| format!("0\n{hint}\n0\n")).collect();
    let sheet = String::from_utf8(sheet(board.as_bytes())).unwrap();
    let printed = play(format!("{board}{given}H\nN\nF\nH\n").as_bytes());
    assert_eq!(String::from_utf8(printed).unwrap(), format!("{answered}0\nN\n1\n0\n{sheet}20\n"), "{board}");
}

#[test]
fn boards_of_document_01() {
    finished_by(S, &["K,0,0"]);
    // Edges 1 and 2 have no flow left.
    finished_by("B,3,3,1,0 C,0,1,4 C,1,2,3 C,2,1,3 W,1,4 ", &["K,0,0"]);
    // Terminal 1 needs 4 and has no open carry over flows of 3, so terminal 0 goes first, by edge 2 of 2 and 3. Then the flows are 1, 3, 1, 3 and no
    // carry is open: down 0 and 2 to vertex 3, which no flow leaves, up 3, up 1 to the source. The amount is 1, and both edges of terminal 1 then
    // have just 4.
    finished_by(T, &["K,0,2", "K,0,0", "T,0,D,2,D,3,U,1,U", "K,1,3", "K,1,1"]);
}

/// The board counts, however it came about.
#[test]
fn behind_other_moves() {
    // Terminal 0 over edge 3, and the hint goes on from there. An undo brings the hint of before back.
    assert_eq!(play(format!("{T}K,0,3\nH\nU\nH\n").as_bytes()), b"0\n0\nK,0,1\n0\n0\nK,0,2\n");
    // The turn is the same from any start, and the hint after it, too.
    assert_eq!(play(format!("{T}K,0,2\nK,0,0\nT,3,U,1,U,0,D,2,D\nH\n").as_bytes()), b"0\n0\n0\n0\nK,1,3\n");
}

/// "The ring is the walk since that pool was first met": edge 4 leads from the source to vertex 1, the walk goes on by 2 and 1 to vertex 4, up by 0 to
/// vertex 2, which one edge leaves, and up by 3 to vertex 1, seen before. So edge 4 is no part, the steps begin at vertex 1 and not with the lowest
/// edge, and they are not sorted.
#[test]
fn a_walk_with_a_tail() {
    finished_by(TAIL, &["K,0,0", "K,0,3", "K,0,4", "T,2,D,1,D,0,U,3,U", "K,1,0", "K,1,3", "K,1,4"]);
}

/// No carry is open on the loaded board: the one terminal needs 5, over flows of 3 and 2. The walk goes down 0 and 1, up 2 to vertex 3, which two edges
/// leave, and down 3, the one not just climbed, to vertex 1, seen before: edge 0 is no part. The amount is 1, the flow of edge 3. Then one edge leaves
/// vertex 3, and the walk climbs on by 4 to the source: here all of it is the cycle.
#[test]
fn a_walk_that_goes_down_again() {
    finished_by(DOWN_AGAIN, &["T,1,D,2,U,3,D", "T,0,D,1,D,2,U,4,U", "K,0,2", "K,0,4"]);
}

/// The walk stops at the first vertex seen before, so a hint's cycle has at most 32 steps, and its line at most 162 bytes. (A turn that a player gives
/// may pass a vertex twice: 64 steps and 322 bytes.)
#[test]
fn the_longest_line() {
    let (_, player) = Player::load(&write(&longest_cycle()));
    let down: String = (10..26).map(|edge| format!(",{edge},D")).collect();
    let up: String = (26..42).rev().map(|edge| format!(",{edge},U")).collect();
    let line = hint_line(player.hint().unwrap().as_ref());
    assert_eq!(String::from_utf8(line.clone()).unwrap(), format!("T{down}{up}\n"));
    assert_eq!(line.len(), 162);
    assert_eq!(check_hint(&player), Ok(()));
}

/// Every hint from the player's board on until there is none, each checked on its board and then made; on the board with the longest finish, of 529
/// moves, every fifth is checked.
fn check_to_the_end(mut player: Player, told: &str) {
    let every = if player.clone().finish().unwrap() > 500 { 5 } else { 1 };
    while let Some(hinted) = player.hint().unwrap() {
        if player.standing().len() % every == 0 {
            assert_eq!(check_hint(&player), Ok(()), "{told}, {:?}", player.standing());
        }
        assert_eq!(player.call(&Call::of_move(&hinted)), 0);
    }
    assert_eq!(check_hint(&player), Ok(()), "{told}");
    assert_eq!(player.finish(), Ok(0), "{told}");
}

#[test]
fn on_the_catalog() {
    for (number, text) in BOARDS.iter().enumerate() {
        check_to_the_end(Player::load(text.as_bytes()).1, &format!("board {number}"));
    }
}

/// From the loaded board, and from the board that a list of calls leads to.
#[test]
fn on_random_boards() {
    for index in 0..150 {
        let mut rng = Random::of_input(11, index);
        let text = write(&random_board(&mut rng));
        let (_, mut player) = Player::load(&text);
        check_to_the_end(player.clone(), &format!("board {index}"));
        let calls = random_calls(&mut rng, &text, 20);
        for call in calls.iter().filter(|call| **call != Call::Finish) {
            player.call(call);
        }
        check_to_the_end(player, &format!("board {index} after {calls:?}"));
    }
}
