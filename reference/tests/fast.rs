//! The fast program agrees with the plain one.

use reference::boards::random_board;
use reference::damage::damaged;
use reference::encoded::{entries, set_of, ENTRY};
use reference::fast::{Board, Entry};
use reference::moves::Move;
use reference::player::Player;
use reference::random::Random;
use reference::text::write;

fn numbers(entry: &Entry) -> [u64; ENTRY] {
    match *entry {
        Entry::Carry { terminal, edge } => [0, u64::from(terminal), u64::from(edge), 0, 0],
        Entry::Turn { amount, down, up, marked } => [1, u64::from(amount), down, up, marked],
    }
}

/// Both boards are the same: flows, places, marks and the whole journal.
fn same_board(fast: &Board, player: &Player, told: &str) {
    let Some(board) = player.board() else { return };
    let (flows, places, marks, journal, moves) = fast.state();
    assert_eq!(flows.iter().map(|flow| u64::from(*flow)).collect::<Vec<_>>(), board.flows, "{told}");
    assert_eq!(places.iter().map(|place| usize::from(*place)).collect::<Vec<_>>(), board.places, "{told}");
    assert_eq!(marks, set_of(board.marks.iter().copied()), "{told}");
    assert_eq!(journal[..moves].iter().map(numbers).collect::<Vec<_>>(), entries(player), "{told}");
    assert!(journal[moves..].iter().all(|entry| numbers(entry) == [0; ENTRY]), "{told}");
}

fn same_report(fast: &Board, player: &Player, told: &str) {
    let (mut by_fast, mut by_plain) = (vec![7; 4_096], vec![7; 4_096]);
    assert_eq!(fast.report(&mut by_fast), player.sheet(&mut by_plain), "{told}");
    assert_eq!(by_fast, by_plain, "{told}");
}

/// The board as loaded, a carry and its undo, and the carry again where `carries`; a finish, taken back, and once more.
fn agree(fast: &mut Board, text: &[u8], carries: bool) {
    let (refusal, mut player) = Player::load(text);
    let told = String::from_utf8_lossy(text).into_owned();
    assert_eq!(fast.load(text), refusal, "{told}");
    same_board(fast, &player, &told);
    if let Ok(Some(Move::Carry { terminal, edge })) = player.hint() {
        assert_eq!(fast.carry(terminal as u32, edge as u32), player.carry(terminal as u64, edge as u64), "{told}");
        same_board(fast, &player, &told);
        assert_eq!(fast.undo(), player.undo(), "{told}");
        same_board(fast, &player, &told);
        if carries {
            assert_eq!(fast.carry(terminal as u32, edge as u32), player.carry(terminal as u64, edge as u64), "{told}");
        }
    }
    for _ in 0..2 {
        assert_eq!(fast.finish(), player.finish(), "{told}");
        same_board(fast, &player, &told);
        same_report(fast, &player, &told);
        assert_eq!((fast.carry(0, 0), fast.finish()), (player.carry(0, 0), player.finish()), "{told}");
        assert_eq!(fast.undo(), player.undo(), "{told}");
        same_board(fast, &player, &told);
        same_report(fast, &player, &told);
    }
    assert_eq!(fast.undo(), player.undo(), "{told}");
    same_board(fast, &player, &told);
}

#[test]
fn the_fast_program_agrees() {
    let mut fast = Board::closed();
    for index in 0..4_000 {
        let mut rng = Random::of_input(3, index);
        let network = random_board(&mut rng);
        agree(&mut fast, &write(&network), index % 2 == 0);
        agree(&mut fast, &damaged(&mut rng, &network), index % 2 == 0);
    }
}
