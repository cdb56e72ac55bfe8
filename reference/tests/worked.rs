//! Document 01's worked boards, and what it says of them.

use reference::cancelling::acyclic_flows;
use reference::cases::{S, T};
use reference::moves::{amount, Step};
use reference::player::Player;
use reference::programs::{play, sheet};
use reference::scripts::{scripts, Use};
use reference::text::read;

fn text(lines: &str) -> Vec<u8> {
    lines.replace(' ', "\n").into_bytes()
}

fn loaded(text: &[u8]) -> Player {
    let (refusal, player) = Player::load(text);
    assert_eq!(refusal, 0);
    player
}

fn steps(bytes: &[u8]) -> Vec<Step> {
    bytes.iter().copied().map(Step::of_byte).collect()
}

#[test]
fn the_sheet_of_t() {
    let wanted = "R,2,4\nM,0,2,0,2\nM,1,2,1,3\nL,0,3,2\nL,1,3,4\nL,2,3,2\nL,3,3,4\n";
    assert_eq!(sheet(T.as_bytes()), wanted.as_bytes());
}

#[test]
fn the_sheet_of_s() {
    assert_eq!(sheet(S.as_bytes()), b"R,1,1\nM,0,1,0\nL,0,5,5\n");
}

#[test]
fn s_changed() {
    let cases = [
        ("B,2,1,1,0 C,1,1,5 W,1,5 ", 3),
        ("B,2,1,1,0 C,0,1,5 W,0,5 ", 4),
        ("B,2,1,1,0 C,0,1,4 W,1,5 ", 5),
        ("B,2,1,1,0 C,0,1,1000000 W,1,1000000 ", 0),
        ("B,2,1,1,0 C,0,1,1000001 W,1,1000001 ", 2),
        ("B,2,1,1,0 C,0,1,05 W,1,5 ", 1),
        ("B,2,1,1,0 C,0,1,5 W,1,5", 1),
    ];
    for (lines, answer) in cases {
        assert_eq!(Player::load(&text(lines)).0, answer, "{lines}");
    }
}

#[test]
fn the_board_that_drains() {
    let board = text("B,3,3,1,0 C,0,1,4 C,1,2,3 C,2,1,3 W,1,4 ");
    assert_eq!(acyclic_flows(&read(&board).unwrap()), [4, 0, 0]);
    assert_eq!(sheet(&board), b"R,1,3\nM,0,1,0\nL,0,4,4\nL,1,0,0\nL,2,0,0\n");
    let mut player = loaded(&board);
    assert_eq!(player.carry(0, 0), 0);
    assert_eq!(player.turn(&steps(&[1, 2])), 25);
}

#[test]
fn calls_on_t() {
    let mut player = loaded(T.as_bytes());
    assert_eq!(player.carry(0, 0), 22);
    assert_eq!(player.carry(1, 2), 23);
    assert_eq!(player.carry(2, 0), 6);
    assert_eq!(player.undo(), 27);
    assert_eq!(player.turn(&[]), 7);
}

#[test]
fn the_turn_of_t() {
    let mut player = loaded(T.as_bytes());
    assert_eq!(player.carry(0, 2), 0);
    assert_eq!(player.carry(0, 0), 0);
    let cycle = steps(&[0, 2, 128 + 3, 128 + 1]);
    assert_eq!(amount(player.network().unwrap(), &player.board().unwrap(), &cycle), 1);
    assert_eq!(player.turn(&cycle), 0);
    assert_eq!(player.board().unwrap().flows, [0, 4, 0, 4]);
    assert_eq!(player.undo(), 0);
    assert_eq!(player.board().unwrap().flows, [1, 3, 1, 3]);
    assert!(player.board().unwrap().marks.is_empty());
}

#[test]
fn lines_of_play() {
    let calls = "K,0,2\nK,0,0\nT,0,D,2,D,3,U,1,U\nU\nH\nX\n\nT,\nT,0\nT,0,D,\nK,0\nT,128,D\nK,256,0\nT\nF\nT,200,D\nU";
    let output = play(&[T, calls].concat().into_bytes());
    let wanted = ["0\n0\n0\n0\n0\nT,0,D,2,D,3,U,1,U\n1\n1\n1\n1\n1\n1\n6\n6\n7\n0\n", &String::from_utf8(sheet(T.as_bytes())).unwrap(), "20\n1\n"];
    assert_eq!(String::from_utf8(output).unwrap(), wanted.concat());
}

#[test]
fn a_long_line_of_play() {
    // 6 before 7, however long the line; 7 where every edge is there.
    let long = |last: &str| format!("{T}T{}{last}\n", ",0,D".repeat(100_000)).into_bytes();
    assert_eq!(play(&long(",9,U")), b"6\n");
    assert_eq!(play(&long(",3,U")), b"7\n");
}

#[test]
fn a_refused_board_of_play() {
    for (input, answer) in [("", "1\n"), ("B,99\nK,0,0\n", "1\n"), ("B,99,x", "2\n"), ("B,2,1,1,0\nC,0,1,4\nW,1,5\nK,0,0\n", "5\n")] {
        assert_eq!(play(input.as_bytes()), answer.as_bytes(), "{input}");
    }
}

#[test]
fn a_trail_that_passes_a_vertex_twice() {
    let board = text("B,2,4,1,1 C,1,0,1 C,1,0,2 C,1,0,1 C,1,0,1 W,0,5 ");
    let mut player = loaded(&board);
    assert_eq!(player.turn(&steps(&[1, 128 + 2, 3, 128])), 0);
}

#[test]
fn closed_and_finished_boards() {
    let (refusal, mut player) = Player::load(b"B,2");
    let mut buffer = [7; 100];
    assert_eq!(refusal, 1);
    assert_eq!((player.carry(99, 99), player.turn(&[]), player.undo()), (20, 20, 20));
    assert_eq!((player.hint().err(), player.finish().err()), (Some(20), Some(20)));
    assert_eq!((player.sheet(&mut buffer), player.write(&mut buffer)), (Err(29), Err(29)));
    let mut player = loaded(S.as_bytes());
    assert_eq!(player.sheet(&mut []), Err(28));
    assert_eq!(player.finish(), Ok(1));
    assert_eq!((player.carry(99, 99), player.turn(&[]), player.hint(), player.finish()), (20, 20, Err(20), Err(20)));
    assert_eq!((player.sheet(&mut buffer[..21]), player.write(&mut buffer[..23])), (Err(8), Err(8)));
    assert_eq!(buffer, [7; 100]);
    assert_eq!((player.sheet(&mut buffer), buffer[22]), (Ok(22), 7));
    assert_eq!(player.write(&mut buffer), Ok(S.len()));
}

#[test]
fn every_refusal_is_played() {
    let plays = scripts().into_iter().filter(|(made_for, _)| matches!(made_for, Use::Play(_)));
    let printed: Vec<u8> = plays.flat_map(|(_, input)| play(&input)).collect();
    let lines: Vec<String> = String::from_utf8(printed).unwrap().lines().map(str::to_string).collect();
    for number in (0..=7).chain(20..=27) {
        assert!(lines.contains(&number.to_string()), "{number}");
    }
}
