//! properties SEED COUNT: checks the reference by itself on COUNT random boards, two threads at a time.

use reference::properties::{check_board, Tally};
use reference::random::Random;
use std::panic::{catch_unwind, AssertUnwindSafe};

fn argument(at: usize) -> u64 {
    std::env::args().nth(at).and_then(|word| word.parse().ok()).unwrap_or_else(|| {
        eprintln!("usage: properties SEED COUNT");
        std::process::exit(2)
    })
}

fn check_all(seed: u64, boards: impl Iterator<Item = u64>) -> Tally {
    let mut tally = Tally::default();
    for board in boards {
        // A rule that cannot go on panics, which is a fault too.
        let checked = catch_unwind(AssertUnwindSafe(|| check_board(&mut Random::of_input(seed, board), &mut tally)));
        if let Err(fault) = checked.unwrap_or_else(|_| Err("a rule could not go on".to_string())) {
            println!("seed {seed}, board {board}: {fault}");
            std::process::exit(1);
        }
    }
    tally
}

fn main() {
    let (seed, count) = (argument(1), argument(2));
    let odd = std::thread::spawn(move || check_all(seed, (1..count).step_by(2)));
    let mut tally = check_all(seed, (0..count).step_by(2));
    tally.add(odd.join().expect("a thread ends"));
    println!("seed {seed}: {} boards, {} with cycles to cancel, without a fault", tally.boards, tally.cancelled);
    println!("boards reached by play, each finished: {}", tally.reached);
    println!("most turns of a finish: {}; most of the bound of moves: {}/1000", tally.most_turns, tally.most_of_bound);
    println!("turns over a trail that passes a vertex twice: {}; edges with excess at the end: {}", tally.twice, tally.excess);
    println!("finishes of no moves: {}; finishes taken back: {}", tally.empty_finishes, tally.taken_back);
    for ((call, answer), times) in &tally.answers {
        println!("{call} answered {answer}: {times}");
    }
}
