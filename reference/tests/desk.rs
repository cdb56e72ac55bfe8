//! Scripts of the desk, and what it prints for them, worked out by hand from document 01 and from what was asked of the desk. In both, a blank stands
//! for each line feed.

use reference::boards::random_board;
use reference::calls::random_calls;
use reference::cases::{DOUBLED, S, T};
use reference::desk::desk;
use reference::desk_scripts::{example, made_scripts, random_script};
use reference::player::Call;
use reference::programs::{line_of, play};
use reference::random::Random;
use reference::text::write;
use std::collections::BTreeSet;

const SHEET_OF_T: &str = "R,2,4 M,0,2,0,2 M,1,2,1,3 L,0,3,2 L,1,3,4 L,2,3,2 L,3,3,4 ";

fn lines(text: &str) -> String {
    text.replace(' ', "\n")
}

fn printed(script: &str) -> String {
    String::from_utf8(desk(script.as_bytes())).unwrap()
}

fn holds(script: &str, wanted: &str) {
    assert_eq!(printed(&lines(script)), lines(wanted), "{script:?}");
}

/// The script behind the board T, which prints nothing.
fn holds_behind_t(script: &str, wanted: &str) {
    holds(&format!("{T}{script}"), wanted);
}

#[test]
fn an_empty_input_is_an_empty_board() {
    holds("", "1 ");
    holds(" ", "1 ");
}

#[test]
fn a_first_board_that_is_accepted_prints_nothing() {
    holds(S, "");
    holds(T, "");
    holds(&format!("{S}U "), "27 ");
}

#[test]
fn the_first_line_always_opens_a_board() {
    for first in ["S ", "K,0,0 ", "B ", "U ", "nonsense ", "b,2,1,1,0 ", "\0 ", "W,1,5"] {
        holds(first, "1 ");
    }
    // Later ones are lines of the script, and the next board is a later one.
    holds(&format!("K,0,0 K,0,0 W S {S}W "), "1 20 29 29 0 0 B,2,1,1,0 C,0,1,5 W,1,5 ");
}

#[test]
fn a_first_board_that_is_refused_and_lines_behind_it() {
    holds("B,2,1,1,0 C,0,1,4 W,1,5 K,0,0 K,99,99 T T,0,D U H F S W X  ", "5 20 20 20 20 20 20 20 29 29 1 1 ");
    holds(&format!("B,2,1,1,0 C,0,1,4 W,1,5 {S}U "), "5 0 27 ");
}

#[test]
fn an_opening_line_that_is_refused_is_the_whole_text() {
    holds("B,2,1,1,2 C,0,1,5 W,1,5 K,0,0 ", "2 1 1 20 ");
    holds("B,33,1,1,0 B,2,1,1,0 C,0,1,5 W,1,5 U ", "2 0 27 ");
    holds("B,2,1,1,0,0 C,0,1,5 W,1,5 ", "1 1 1 ");
    holds_behind_t("B,2,1,1 C,0,1,5 W,1,5 U ", "1 1 1 20 ");
    holds_behind_t("B,2,65,1,0 B,2,1,17,0 B,1,1,1,0 B,2,1,1,9 B,02,1,1,0 B,, W ", "2 2 2 2 1 1 29 ");
}

#[test]
fn a_text_takes_as_many_lines_as_its_counts_say() {
    // The second line, which might open a board, is the first one's: `W,1,5` is left over.
    holds("B,2,1,1,0 B,2,1,1,0 C,0,1,5 W,1,5 U ", "1 1 20 ");
    // Calls, and empty lines.
    holds_behind_t("B,2,1,1,0 F U S ", "1 29 ");
    holds_behind_t("B,2,1,1,0   S ", "1 29 ");
    // A line too many is a line of the script, on the board that was loaded.
    holds_behind_t("B,2,1,1,0 C,0,1,5 W,1,5 W,1,5 K,0,0 ", "0 1 0 ");
    // A bad line in the middle takes nothing from the count: 2 in the first edge, and `W,1,5` is still the text's.
    holds_behind_t("B,2,1,1,0 C,0,2,5 W,1,5 H ", "2 20 ");
}

#[test]
fn a_second_board_on_top_of_the_play() {
    let script = format!("K,0,2 K,0,0 {S}U W K,0,0 H F S U U U ");
    holds_behind_t(&script, "0 0 0 27 0 B,2,1,1,0 C,0,1,5 W,1,5 0 0 N 0 0 R,1,1 M,0,1,0 L,0,5,5 0 0 27 ");
    // On top of a finish: the play goes on, on the new board.
    holds_behind_t(&format!("F {T}S U H "), "0 0 28 27 0 K,0,2 ");
}

#[test]
fn a_second_board_that_is_refused_gives_the_closed_board() {
    let refused = "B,2,1,1,0 C,1,1,5 W,1,5 ";
    holds_behind_t(&format!("K,0,2 F {refused}K,0,0 T U H F S W {T}S U "), "0 0 3 20 20 20 20 20 29 29 0 28 27 ");
}

#[test]
fn later_boards_print_0_or_their_numbers() {
    let boards = "B,2,1,1,0 C,0,1,05 W,1,5 B,2,1,1,0 C,0,1,1000001 W,1,1000001 B,2,1,1,0 C,1,1,5 W,1,5 B,2,1,1,0 C,0,1,5 W,0,5 \
        B,2,1,1,0 C,0,1,4 W,1,5 B,2,1,1,0 C,0,1,1000000 W,1,1000000 ";
    holds_behind_t(boards, "1 2 3 4 5 0 ");
}

#[test]
fn finish_sheet_undo_sheet() {
    holds_behind_t("S F S S U S U F F U U ", &format!("28 0 0 {SHEET_OF_T}0 {SHEET_OF_T}0 28 27 0 20 0 27 "));
}

#[test]
fn hints_fed_back() {
    let script = "H K,0,2 H K,0,0 H T,0,D,2,D,3,U,1,U H K,1,3 H K,1,1 H N F H S ";
    let wanted = "0 K,0,2 0 0 K,0,0 0 0 T,0,D,2,D,3,U,1,U 0 0 K,1,3 0 0 K,1,1 0 0 N 1 0 20 0 ";
    holds_behind_t(script, &format!("{wanted}{SHEET_OF_T}"));
}

#[test]
fn turns_on_the_board_with_doubled_ways() {
    // Edge 1's head has two positive edges leaving; edges 2 and 3 lead to the terminal, and the turn brings edge 3 to its demand, 2.
    let script = "T,0,D,1,U H T,2,D,3,U K,0,2 K,0,3 T,2,D,3,U H T,0,D,1,U K,0,1 H F S U U U U U U ";
    let wanted = "26 0 T,2,D,3,U 0 23 0 25 0 T,0,D,1,U 0 0 0 N 0 0 R,1,4 M,0,2,1,3 L,0,1,0 L,1,1,2 L,2,1,0 L,3,1,2 0 0 0 0 0 27 ";
    holds(&format!("{DOUBLED}{script}"), wanted);
    // Finish makes the same moves.
    holds(&format!("{DOUBLED}F S "), "0 0 R,1,4 M,0,2,1,3 L,0,1,0 L,1,1,2 L,2,1,0 L,3,1,2 ");
}

#[test]
fn refusals_of_the_moves() {
    let script = "K,0,0 K,1,2 K,2,0 K,0,4 K,256,2 U T T,0,D T,0,D,0,U T,4,D T,128,D T,9999999,U,0,D T,0,D,2,D,3,U,1,U K,0,2 K,0,0 K,0,1 ";
    holds_behind_t(script, "22 23 6 6 6 27 7 7 7 6 6 6 24 0 0 21 ");
}

#[test]
fn the_board_text_shows_first_flows_and_the_sheet_drained_ones() {
    let board = "B,3,3,1,0 C,0,1,4 C,1,2,3 C,2,1,3 W,1,4 ";
    holds(&format!("{board}W K,0,0 T,1,D,2,D W F W S "), &format!("0 {board}0 25 0 {board}0 0 {board}0 R,1,3 M,0,1,0 L,0,4,4 L,1,0,0 L,2,0,0 "));
}

#[test]
fn lines_of_another_form() {
    let others = "|B|b,2,1,1,0|B;2,1,1,0| B,2,1,1,0|BB,2,1,1,0|N|X,0|O,0|P,A|G,A|A|f|h|s|w|k,0,2|S,|S |SS|W,|W,3,2|C,0,1,3|SW|F,|F\r|H,0|U,|U U|K\
        |K,0|K,0,|K,0,2,|K,00,2|K,0,10000000|T,|T,0|T,0,D,|T,0,d|T,0,D,1|T,,D|\u{7f}|R,2,4|\t|0";
    for other in others.split('|') {
        assert_eq!(printed(&format!("{T}{other}\nU\n")), "1\n27\n", "{other:?}");
        // On the closed board, too.
        assert_eq!(printed(&format!("\n{other}\nU\n")), "1\n1\n20\n", "{other:?}");
    }
}

#[test]
fn a_zero_byte_is_like_any_other() {
    for other in ["\0", "\0\0", "S\0", "\0S", "K,0,2\0", "K,0\0,2", "B\0", "B\0,2,1,1,0", "H\0H", "U\0F"] {
        assert_eq!(printed(&format!("{T}{other}\nU\n")), "1\n27\n", "{other:?}");
    }
    // In an opening line the text is that line alone; in another one the text goes on.
    holds_behind_t("B,\0 W ", "1 29 ");
    holds_behind_t("B,2,1,1,0\0 C,0,1,5 W,1,5 U ", "1 1 1 20 ");
    holds_behind_t("B,2,1,1,0 C,0,1,5\0 W,1,5 S ", "1 29 ");
    holds_behind_t("B,2,1,1,0 C,0,2,\0 W,1,5 S ", "2 29 ");
}

#[test]
fn a_carriage_return_ends_no_line() {
    holds("B,2,1,1,0\r C,0,1,5\r W,1,5\r U\r U ", "1 1 1 1 20 ");
    holds_behind_t("K,0,2\rK,0,2 U ", "1 27 ");
}

#[test]
fn an_unended_last_line() {
    for other in ["K,0,2", "T", "U", "H", "F", "S", "W", "B", "X", "\0"] {
        holds_behind_t(other, "1 ");
        holds_behind_t(&format!("K,0,2 {other}"), "0 1 ");
    }
    // It opens a board: "1 before 2 in one field, and a field takes in the comma or line feed that must end it".
    for (board, number) in [("B,", 1), ("B,99", 1), ("B,99,", 2), ("B,2,1,1,0", 1), ("B,2,1,1,2", 1), ("B,2,1,17,", 2), ("B,x", 1)] {
        holds(board, &format!("{number} "));
        holds_behind_t(board, &format!("{number} "));
    }
}

#[test]
fn a_board_that_the_end_of_input_cuts_off() {
    let cut = [
        ("B,2,1,1,0 ", 1),
        ("B,2,1,1,0 C,0,1,5", 1),
        ("B,2,1,1,0 C,0,1,5 ", 1),
        ("B,2,1,1,0 C,0,1,5 W", 1),
        ("B,2,1,1,0 C,0,1,5 W,1,5", 1),
        ("B,2,1,1,0 C,0,1,5 W,1,0", 1),
        ("B,2,1,1,0 C,0,2", 1),
        ("B,2,1,1,0 C,0,2,", 2),
        ("B,2,1,1,0 C,0,1,1000001 ", 2),
        ("B,2,1,1,0 C,1,1,5 W,2,", 2),
        ("B,32,64,16,31 K,0,2 U ", 1),
    ];
    for (board, number) in cut {
        holds(board, &format!("{number} "));
        holds_behind_t(&format!("K,0,2 {board}"), &format!("0 {number} "));
    }
}

/// A turn of edges 0 and then one last edge, of so many digits.
fn long_turn(edges: usize, digits: usize) -> String {
    format!("T{},{},D\n", ",0,D".repeat(edges), "1".repeat(digits))
}

#[test]
fn long_lines_of_calls() {
    // 1 byte, 4 for each edge 0, and 3 more than the digits for the last one: 4,093, 4,095, 4,096 and 4,097 bytes.
    assert_eq!(
        [long_turn(1022, 1), long_turn(1022, 3), long_turn(1022, 4), long_turn(1022, 5)].map(|turn| turn.len() - 1),
        [4_093, 4_095, 4_096, 4_097]
    );
    let turns = [long_turn(1022, 1), long_turn(1022, 3), long_turn(1022, 4), long_turn(1022, 5), long_turn(50_000, 1)].concat();
    holds_behind_t(&turns, "7 6 6 1 1 ");
    holds_behind_t(&format!("B, {turns}"), "1 20 20 20 1 1 ");
    // What stands behind the first 4,096 bytes of a line is no line by itself.
    for tail in ["K,0,2", "F", "B,2,1,1,0", "U\0U"] {
        for count in [4_095, 4_096, 4_097, 8_192, 65_536] {
            let long = "x".repeat(count);
            holds_behind_t(&format!("{long}{tail} U "), "1 27 ");
            // As a line of its own it is an unended last one.
            holds_behind_t(&format!("{long} {tail}"), "1 1 ");
            holds_behind_t(&format!("{long}{tail}"), "1 ");
        }
    }
}

#[test]
fn long_lines_of_boards() {
    let (digits, others) = ("2".repeat(5_000), "x".repeat(70_000));
    holds(&format!("B,{digits} {S}U "), "1 0 27 ");
    holds(&format!("{others} {S}U "), "1 0 27 ");
    holds_behind_t(&format!("B,{digits} C,0,1,5 W,1,5 U "), "1 1 1 20 ");
    holds_behind_t(&format!("B,99,{others} U "), "2 20 ");
    // Not the opening line: the text goes on behind it.
    holds(&format!("B,2,1,1,0 C,0,1,{digits} W,1,5 W "), "1 29 ");
    holds(&format!("B,2,1,1,0 C,0,2,{others} W,1,5 U "), "2 20 ");
    holds_behind_t(&format!("B,2,1,1,0 {others} W,1,5 U "), "1 20 ");
    holds_behind_t(&format!("B,2,1,1,0 C,0,1,5 W,1,5{others} U "), "1 20 ");
    holds_behind_t(&format!("B,2,1,1,0 C,0,1,5 W,2,{others}"), "2 ");
}

#[test]
fn as_play_but_for_the_sheet() {
    for index in 0..200 {
        let mut rng = Random::of_input(28, index);
        let text = write(&random_board(&mut rng));
        let calls = random_calls(&mut rng, &text, 30);
        // `play` prints behind an accepted `F` what `S` prints here behind its 0.
        let of_play: Vec<u8> = calls.iter().flat_map(line_of).collect();
        let without_finish: Vec<u8> = calls.iter().filter(|call| **call != Call::Finish).flat_map(line_of).collect();
        let [all, some] = [of_play, without_finish].map(|calls| [&text[..], &calls].concat());
        assert_eq!(desk(&some), play(&some));
        let sheetless: Vec<u8> =
            play(&all).split_inclusive(|byte| *byte == b'\n').filter(|line| !b"RML".contains(&line[0])).flatten().copied().collect();
        assert_eq!(desk(&all), sheetless);
    }
}

/// The numbers that stand alone on a line in what the scripts print: no line of a text or of a hint is one.
fn numbers(scripts: &[Vec<u8>]) -> BTreeSet<u32> {
    let printed: Vec<u8> = scripts.iter().flat_map(|script| desk(script)).collect();
    String::from_utf8(printed).unwrap().lines().filter_map(|line| line.parse().ok()).collect()
}

#[test]
fn every_number_is_printed() {
    // All but 8: the desk has room for every text.
    let all: BTreeSet<u32> = (0..=7).chain(20..=29).collect();
    let random: Vec<Vec<u8>> = (0..400).map(|index| random_script(&mut Random::of_input(28, index))).collect();
    for scripts in [&[example()][..], &made_scripts(), &random] {
        assert_eq!(numbers(scripts), all);
    }
}
