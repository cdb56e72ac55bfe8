//! bench: the time of the engine, through its C interface, and of the fast program in one run, as tables. bench calls: the stack and the longest time
//! of each function of the interface. bench run PROGRAM OPERATION SET TIMES: one operation over one set of boards, so many times, for a tool that
//! counts instructions. bench boards OPERATION SET: how many boards of the set that is made on. `tools/bench` puts them together.

mod calls;

use reference::boards::random_board_of;
use reference::catalog::BOARDS;
use reference::engine::exported::{vulprow_carry, vulprow_finish, vulprow_load, vulprow_sheet, vulprow_undo};
use reference::engine::Memory;
use reference::fast::Board;
use reference::moves::Move;
use reference::player::Player;
use reference::random::Random;
use reference::text::write;
use std::hint::black_box;
use std::time::Instant;

/// The random boards of a size, and of which seed.
const COUNT: usize = 40;
const SEED: u64 = 9;
/// How often a measurement is made; its median is told.
const ROUNDS: usize = 21;
/// How many pairs of a carry and its undo are made in one go.
const PAIRS: usize = 500;

const SETS: [&str; 4] = ["8/16/4", "16/32/8", "32/64/16", "catalog"];
const OPERATIONS: [&str; 4] = ["load", "finish", "report", "pair"];
const PROGRAMS: [&str; 2] = ["engine", "fast"];

/// A board, and the carry that its finish makes first; 0 and 0 where that is a turn.
struct Sample {
    text: Vec<u8>,
    carry: (u32, u32),
}

fn first_carry(text: &[u8]) -> Option<(u32, u32)> {
    match Player::load(text).1.hint() {
        Ok(Some(Move::Carry { terminal, edge })) => Some((terminal as u32, edge as u32)),
        _ => None,
    }
}

fn texts(set: &str) -> Vec<Vec<u8>> {
    let counts: Vec<usize> = set.split('/').filter_map(|count| count.parse().ok()).collect();
    if let [vertices, edges, terminals] = counts[..] {
        let mut rng = Random::new(SEED);
        return (0..COUNT).map(|_| write(&random_board_of(&mut rng, (vertices, edges, terminals)))).collect();
    }
    BOARDS.iter().map(|text| text.as_bytes().to_vec()).collect()
}

/// The boards of a set that an operation is made on: a carry with its undo on those that start with one.
fn samples(operation: &str, set: &str) -> Vec<Sample> {
    let carries = texts(set).into_iter().map(|text| (first_carry(&text), text));
    let wanted = carries.filter(|(carry, _)| operation != "pair" || carry.is_some());
    wanted.map(|(carry, text)| Sample { text, carry: carry.unwrap_or_default() }).collect()
}

/// One operation on one board by the fast program. Finish and report start with a load; a pair is made PAIRS times behind a load.
fn by_fast(board: &mut Board, operation: &str, sample: &Sample, buffer: &mut [u8]) -> usize {
    let loading = board.load(black_box(&sample.text));
    assert_eq!(loading, 0);
    match operation {
        "load" => 0,
        "finish" => board.finish().expect("the board is in play"),
        "report" => {
            board.finish().expect("the board is in play");
            board.report(buffer).expect("the buffer is long enough")
        }
        _ => {
            let (terminal, edge) = sample.carry;
            (0..PAIRS).map(|_| (board.carry(black_box(terminal), edge) + board.undo()) as usize).sum()
        }
    }
}

/// What the operations write into; not cleared between them.
struct Buffers {
    board: Board,
    game: Box<Memory>,
    report: Vec<u8>,
}

impl Buffers {
    fn new() -> Buffers {
        Buffers { board: Board::closed(), game: Box::new(Memory::CLOSED), report: vec![0; 4_096] }
    }
}

/// The same by the engine, one call at a time.
fn by_engine(Buffers { game, report, .. }: &mut Buffers, operation: &str, sample: &Sample) -> usize {
    let text = black_box(&sample.text[..]);
    let game: *mut Memory = &mut **game;
    let (mut count, mut used) = (0, 0);
    let mut refused = unsafe { vulprow_load(game, text.as_ptr(), text.len()) };
    match operation {
        "load" => (),
        "finish" => refused += unsafe { vulprow_finish(game, &mut count) },
        "report" => unsafe {
            refused += vulprow_finish(game, &mut count);
            refused += vulprow_sheet(game, report.as_mut_ptr(), report.len(), &mut used);
        },
        _ => {
            let (terminal, edge) = sample.carry;
            refused += (0..PAIRS).map(|_| unsafe { vulprow_carry(game, black_box(terminal), edge) + vulprow_undo(game) }).sum::<u32>();
        }
    }
    assert_eq!(refused, 0);
    count as usize + used
}

/// One operation over all boards.
fn run(program: &str, operation: &str, samples: &[Sample], buffers: &mut Buffers) -> usize {
    let mut sum = 0;
    for sample in samples {
        sum += match program {
            "engine" => by_engine(buffers, operation, sample),
            _ => by_fast(&mut buffers.board, operation, sample, &mut buffers.report),
        };
    }
    black_box(sum)
}

/// Nanoseconds for a board, as the median of the rounds.
fn median(mut times: Vec<f64>) -> f64 {
    times.sort_by(f64::total_cmp);
    times[times.len() / 2]
}

fn times() {
    let mut buffers = Buffers::new();
    for operation in OPERATIONS {
        println!("\n| {operation} | engine | fast | ratio |\n|---|---|---|---|");
        for set in SETS {
            let samples = samples(operation, set);
            let repeats = if operation == "pair" { 1 } else { 20 };
            let mut measured = [Vec::new(), Vec::new()];
            for _ in 0..ROUNDS {
                for (program, times) in PROGRAMS.iter().zip(&mut measured) {
                    let start = Instant::now();
                    for _ in 0..repeats {
                        run(program, operation, &samples, &mut buffers);
                    }
                    times.push(start.elapsed().as_nanos() as f64 / (repeats * samples.len()) as f64);
                }
            }
            let [engine, fast] = measured.map(median);
            let per = if operation == "pair" { PAIRS as f64 } else { 1.0 };
            println!("| {set} | {:.2} µs | {:.2} µs | {:.2} |", engine / per / 1e3, fast / per / 1e3, engine / fast);
        }
    }
}

fn main() {
    let words: Vec<String> = std::env::args().skip(1).collect();
    match words.iter().map(String::as_str).collect::<Vec<_>>()[..] {
        [] => times(),
        ["calls"] => calls::table(),
        ["run", program, operation, set, count] if PROGRAMS.contains(&program) && OPERATIONS.contains(&operation) && SETS.contains(&set) => {
            let samples = samples(operation, set);
            let mut buffers = Buffers::new();
            for _ in 0..count.parse().expect("a count") {
                run(program, operation, &samples, &mut buffers);
            }
        }
        ["boards", operation, set] if OPERATIONS.contains(&operation) && SETS.contains(&set) => println!("{}", samples(operation, set).len()),
        _ => {
            eprintln!("usage: bench [calls | boards OPERATION SET | run engine|fast load|finish|report|pair 8/16/4|16/32/8|32/64/16|catalog TIMES]");
            std::process::exit(2);
        }
    }
}
