//! Document 02, E1: "Undo after an accepted finish shall bring back the board just before it, all earlier moves still
//! standing; the next undo takes the last of those." The boards are document 01's, worked out by hand.

use reference::cases::{DOWN_AGAIN, S, T, TAIL};
use reference::encoded::{codes_of, entries, EngineCall};
use reference::moves::Step;
use reference::player::{Call, Item, Player};
use reference::programs::play;
use std::collections::BTreeSet;

/// The sheet that a finish of T as loaded gives, and of T behind the carries of terminal 0 that the finish makes, too.
const SHEET_OF_T: &str = "R,2,4\nM,0,2,0,2\nM,1,2,1,3\nL,0,3,2\nL,1,3,4\nL,2,3,2\nL,3,3,4\n";
/// The sheet where terminal 0 went by edges 3 and 1, which leaves the flows 3, 1, 3, 1. The ring is the same, down 0
/// and 2 and up 3 and 1; the amount is 3, all that the down-steps have and what edge 3 lacks for terminal 1, which goes
/// by 3 and 1, too.
const OTHER_SHEET_OF_T: &str = "R,2,4\nM,0,2,1,3\nM,1,2,1,3\nL,0,3,0\nL,1,3,6\nL,2,3,0\nL,3,3,6\n";

fn loaded(text: &str) -> Player {
    let (refusal, player) = Player::load(text.replace(' ', "\n").as_bytes());
    assert_eq!(refusal, 0);
    player
}

fn steps(bytes: &[u8]) -> Vec<Step> {
    bytes.iter().copied().map(Step::of_byte).collect()
}

/// What a play of these lines prints.
fn printed(board: &str, lines: &str) -> String {
    let input = format!("{board}{lines}").replace(' ', "\n");
    String::from_utf8(play(input.as_bytes())).unwrap()
}

/// Carry, turn, hint and finish stay refused, "20 play is over", whatever their arguments, and change nothing.
fn is_over(player: &mut Player) {
    let before = player.clone();
    assert_eq!((player.carry(0, 2), player.carry(99, 99)), (20, 20));
    assert_eq!((player.turn(&[]), player.turn(&steps(&[0, 2, 131, 129])), player.turn(&steps(&[100]))), (20, 20, 20));
    assert_eq!((player.hint(), player.finish()), (Err(20), Err(20)));
    assert_eq!(*player, before);
}

/// A finish of so many moves; the refusals behind it; and its undo, which brings back the very board of before.
fn finished_and_back(player: &mut Player, count: usize) {
    let (before, journal, mut buffer) = (player.clone(), entries(player), [0; 200]);
    assert_eq!(player.sheet(&mut buffer), Err(28));
    assert_eq!(player.finish(), Ok(count));
    assert_eq!(player.standing(), [before.standing(), &[Item::Finish]].concat());
    assert_eq!(entries(player).len(), journal.len() + count);
    assert!(player.sheet(&mut buffer).is_ok());
    is_over(player);
    assert_eq!(player.undo(), 0);
    assert_eq!((&*player, player.board(), entries(player)), (&before, before.board(), journal));
    assert_eq!(player.sheet(&mut buffer), Err(28));
}

/// The finish of T makes five moves: two carries, a turn, and two carries. All are taken back at once, and nothing is
/// left to undo. The next finish makes them again.
#[test]
fn on_t_as_loaded() {
    let mut player = loaded(T);
    finished_and_back(&mut player, 5);
    assert_eq!(player.board().unwrap().flows, [3, 3, 3, 3]);
    assert_eq!(player.board().unwrap().places, [3, 3]);
    assert!(player.board().unwrap().marks.is_empty());
    assert_eq!(player.undo(), 27);
    finished_and_back(&mut player, 5);
    assert_eq!(player.finish(), Ok(5));
    assert_eq!(player.sheet_text(), Ok(SHEET_OF_T.into()));
}

/// "all earlier moves still standing; the next undo takes the last of those": two carries and the turn stand, flows 0,
/// 4, 0, 4 and all four edges marked, and the finish makes the two carries of terminal 1.
#[test]
fn behind_moves_of_t() {
    let mut player = loaded(T);
    assert_eq!((player.carry(0, 2), player.carry(0, 0), player.turn(&steps(&[0, 2, 131, 129]))), (0, 0, 0));
    finished_and_back(&mut player, 2);
    let board = player.board().unwrap();
    assert_eq!((board.flows, board.places), (vec![0, 4, 0, 4], vec![0, 3]));
    assert_eq!((board.marks, board.routes), (BTreeSet::from([0, 1, 2, 3]), vec![vec![0, 2], vec![]]));
    // The turn, with its marks; then each carry; then nothing.
    assert_eq!(player.undo(), 0);
    assert_eq!((player.board().unwrap().flows, player.board().unwrap().marks), (vec![1, 3, 1, 3], BTreeSet::new()));
    finished_and_back(&mut player, 3);
    assert_eq!((player.undo(), player.board().unwrap().places), (0, vec![1, 3]));
    finished_and_back(&mut player, 4);
    assert_eq!((player.undo(), player.undo()), (0, 27));
}

/// A finish of no moves is a finish: taken back, it leaves the last earlier move standing.
#[test]
fn of_no_moves() {
    let mut player = loaded(S);
    assert_eq!(player.carry(0, 0), 0);
    finished_and_back(&mut player, 0);
    finished_and_back(&mut player, 0);
    assert_eq!((player.board().unwrap().flows, player.hint()), (vec![0], Ok(None)));
    assert_eq!((player.undo(), player.board().unwrap().flows), (0, vec![5]));
    assert_eq!(player.undo(), 27);
    finished_and_back(&mut player, 1);
}

/// The board whose edges 1 and 2 drain to 0: undo brings back the drained flows, not those of the text.
#[test]
fn on_the_board_that_drains() {
    let mut player = loaded("B,3,3,1,0 C,0,1,4 C,1,2,3 C,2,1,3 W,1,4 ");
    finished_and_back(&mut player, 1);
    assert_eq!(player.board().unwrap().flows, [4, 0, 0]);
    assert_eq!(player.undo(), 27);
}

/// "a finish taken back leaves no trace": other moves go on from the board before, and the next finish is theirs.
#[test]
fn played_on_otherwise() {
    let mut player = loaded(T);
    assert_eq!((player.finish(), player.undo()), (Ok(5), 0));
    assert_eq!((player.carry(0, 3), player.carry(0, 1)), (0, 0));
    let mut never_strayed = loaded(T);
    assert_eq!((never_strayed.carry(0, 3), never_strayed.carry(0, 1)), (0, 0));
    assert_eq!(player, never_strayed);
    finished_and_back(&mut player, 3);
    assert_eq!(player.finish(), Ok(3));
    assert_eq!(player.sheet_text(), Ok(OTHER_SHEET_OF_T.into()));
}

/// "Refusal 20 on undo remains only where no board was loaded."
#[test]
fn the_closed_board() {
    for text in ["", "B,2,1,1,0 C,0,1,4 W,1,5 "] {
        let (_, mut player) = Player::load(text.replace(' ', "\n").as_bytes());
        assert_eq!((player.undo(), player.finish(), player.undo()), (20, Err(20), 20));
        assert_eq!(player.sheet(&mut [0; 200]), Err(29));
    }
    assert_eq!(Player::closed().undo(), 20);
}

#[test]
fn lines_of_play() {
    // Finish, undo, nothing left to undo, finish.
    assert_eq!(printed(T, "F U U F "), format!("0\n{SHEET_OF_T}0\n27\n0\n{SHEET_OF_T}"));
    // Behind a finish all but undo is 20, a line of another form 1; then the hint is the one of before.
    let over = "20\n20\n20\n20\n1\n";
    assert_eq!(printed(T, "K,0,2 F K,0,0 T H F X U H U U "), format!("0\n0\n{SHEET_OF_T}{over}0\n0\nK,0,0\n0\n27\n"));
    // By hand to the source, and a finish of no moves, twice; then the last carry is undone and made again.
    let by_hand = "K,0,2 K,0,0 T,0,D,2,D,3,U,1,U K,1,3 K,1,1 F U H F U U H K,1,1 F ";
    let answers = format!("0\n0\n0\n0\n0\n0\n{SHEET_OF_T}0\n0\nN\n0\n{SHEET_OF_T}0\n0\n0\nK,1,1\n0\n0\n{SHEET_OF_T}");
    assert_eq!(printed(T, by_hand), answers);
    // Another way after the finish was taken back, which gives another sheet.
    assert_eq!(printed(T, "F U K,0,3 F U K,0,1 F "), format!("0\n{SHEET_OF_T}0\n0\n0\n{OTHER_SHEET_OF_T}0\n0\n0\n{OTHER_SHEET_OF_T}"));
    // An undo without its line feed is none.
    assert_eq!(printed(S, "F U"), "0\nR,1,1\nM,0,1,0\nL,0,5,5\n1\n");
}

/// The moves that a finish makes are those that the hints give, as many at every stage (reference/tests/hints.rs has
/// them by hand): TAIL is finished by seven moves with a turn in the middle, DOWN_AGAIN by two turns and two carries.
#[test]
fn at_every_stage() {
    for (board, count) in [(TAIL, 7), (DOWN_AGAIN, 4)] {
        let mut player = loaded(board);
        for made in 0..=count {
            finished_and_back(&mut player, count - made);
            if let Some(hinted) = player.hint().unwrap() {
                assert_eq!(player.call(&Call::of_move(&hinted)), 0);
            }
        }
        (0..count).for_each(|_| assert_eq!(player.undo(), 0));
        assert_eq!(player.undo(), 27);
    }
}

/// In numbers a finish is kind 4.
#[test]
fn in_numbers() {
    let calls = [EngineCall::Finish, EngineCall::Undo];
    assert_eq!(codes_of(&calls), (vec![4, 0, 0, 2, 0, 0], vec![]));
}
