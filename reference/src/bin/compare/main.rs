//! compare [SEED COUNT]: random inputs through the engine, call by call through its C interface, and through the reference, whose answers must be the
//! same. Without a seed, a fixed one and a fresh one, which is printed, side by side; the answers are then held to the header, too. compare boards
//! SEED COUNT: random boards alone, loaded, finished and reported by engine, reference and fast program. The first difference of each is printed with
//! its input, and the exit status is 1.

mod boards;
mod catalog;
mod desk;
mod driven;
mod fault;
mod header;
mod hinted;
mod noise;
mod play;
mod programs;
mod session;
mod tally;
mod texts;
mod wanted;

use boards::compare_boards;
use catalog::compare_catalog;
use desk::{compare_random_script, compare_scripts};
use header::compare_header;
use hinted::compare_hinted;
use noise::{compare_changed, compare_noise};
use play::compare_play;
use programs::{compare_long_lines, compare_old_sheets, compare_programs};
use reference::boards::random_board;
use reference::cases::{longest_cycle, texts, DOWN_AGAIN, MISFIT, S, T, TAIL};
use reference::catalog::BOARDS as CATALOG;
use reference::damage::{at_every_field, damaged, every_start, surplus};
use reference::encoded::{finishing_lists, random_list, EngineCall};
use reference::random::Random;
use reference::text::write;
use std::thread;
use std::time::{Instant, SystemTime};
use tally::Tally;
use texts::compare_load;

const FIXED_SEED: u64 = 1;
const INPUTS: u64 = 60_000;
/// For each so many inputs, one through the programs.
const PROGRAMS: u64 = 150;
/// For each so many inputs, one board through the fast program, too.
const BOARDS: u64 = 10;
/// For each so many inputs, one board finished move by move by its hints.
const HINTED: u64 = 600;
/// For each so many inputs, one script through the desk, every other one with sanitizers, too.
const DESK: u64 = 300;
/// Memory that no load wrote, before the random inputs.
const NOISE: usize = 400;

/// A random text, good or damaged, and a buffer of any length around the text's.
fn compare_random(rng: &mut Random, tally: &mut Tally) -> Result<(), String> {
    let network = random_board(rng);
    let good = write(&network);
    let text = if rng.chance(1, 4) { good.clone() } else { damaged(rng, &network) };
    let length = match rng.below(8) {
        0 => 0,
        1 => good.len() - 1,
        2 => rng.below(good.len()),
        3 => 1_500,
        4 => good.len() + rng.below(9),
        _ => text.len(),
    };
    compare_load(rng, &text, length, tally)?;
    // Lists of calls: on good boards as a rule, and on those that a damaged text leaves.
    if rng.chance(1, 16) {
        let calls = random_list(rng, &good);
        let is_thorough = rng.chance(1, 8);
        let played = if rng.chance(7, 8) { &good } else { &text };
        compare_play(rng, played, &calls, is_thorough, tally)?;
    }
    if rng.chance(1, 16) {
        compare_noise(rng, &good, tally)?;
        compare_changed(rng, &good, tally)?;
    }
    Ok(())
}

/// The texts made by hand, and for T and a few random boards every kind of damage at every field, every start and surplus.
fn made_texts(rng: &mut Random) -> Vec<Vec<u8>> {
    let mut texts = texts();
    let mut boards = vec![T.as_bytes().to_vec()];
    boards.extend((0..4).map(|_| write(&random_board(rng))));
    for board in boards {
        texts.extend([at_every_field(&board), every_start(&board), surplus(&board)].concat());
    }
    texts
}

/// Document 01's calls on T: the refusals, the turn with amount 1 and its undo, the empty turn; and a hint before each move. And lists with finishes.
fn made_lists() -> Vec<Vec<EngineCall>> {
    let to_source = [EngineCall::Carry(0, 2), EngineCall::Carry(0, 0)];
    let around = EngineCall::Turn(vec![0, 2, 131, 129]);
    let lists = [
        vec![EngineCall::Carry(0, 0), EngineCall::Carry(1, 2), EngineCall::Carry(2, 0), EngineCall::Undo, EngineCall::Turn(vec![])],
        [&to_source[..], &[around.clone()]].concat(),
        [&to_source[..], &[around.clone(), EngineCall::Undo, EngineCall::Turn(vec![])]].concat(),
        [EngineCall::Hint].into_iter().chain(to_source.clone()).flat_map(|call| [call, EngineCall::Hint]).chain([around, EngineCall::Hint]).collect(),
    ];
    lists.into_iter().chain(finishing_lists()).collect()
}

fn compare_made(seed: u64, tally: &mut Tally) -> Result<(), String> {
    let mut rng = Random::new(seed);
    made_texts(&mut rng).iter().try_for_each(|text| compare_load(&mut rng, text, text.len(), tally))?;
    made_lists().iter().try_for_each(|calls| compare_play(&mut rng, T.as_bytes(), calls, true, tally))?;
    (0..NOISE).try_for_each(|_| compare_noise(&mut rng, T.as_bytes(), tally))?;
    compare_catalog(&mut rng, tally)?;
    compare_old_sheets(tally)?;
    compare_hinted_boards(&mut rng, tally)?;
    compare_scripts(tally)?;
    compare_long_lines(T, tally)
}

/// The catalog and boards made by hand, finished by their hints.
fn compare_hinted_boards(rng: &mut Random, tally: &mut Tally) -> Result<(), String> {
    let made = [S, T, MISFIT, TAIL, DOWN_AGAIN].map(|text| text.replace(' ', "\n").into_bytes());
    let catalog = CATALOG.iter().map(|text| text.as_bytes().to_vec());
    catalog.chain(made).chain([write(&longest_cycle())]).try_for_each(|text| compare_hinted(rng, &text, tally))
}

fn compare_inputs(seed: u64, count: u64, tally: &mut Tally) -> Result<(), String> {
    fault::compares(seed, None);
    compare_made(seed, tally)?;
    for index in 0..count {
        fault::compares(seed, Some(index));
        let mut rng = Random::of_input(seed, index);
        let mut compared = compare_random(&mut rng, tally);
        if index % PROGRAMS == 0 {
            compared = compared.and_then(|()| compare_programs(&mut rng, tally));
        }
        if index % DESK == 0 {
            compared = compared.and_then(|()| compare_random_script(&mut rng, index % (2 * DESK) == 0, tally));
        }
        if index % HINTED == 0 {
            let text = write(&random_board(&mut rng));
            compared = compared.and_then(|()| compare_hinted(&mut rng, &text, tally));
        }
        compared.map_err(|difference| format!("input {index} of seed {seed}: {difference}"))?;
    }
    // Boards of the seed behind those of the inputs.
    compare_boards(!seed, count / BOARDS, tally)
}

/// What is to be compared, with a seed and a count.
enum Run {
    Inputs(u64, u64),
    Boards(u64, u64),
}

impl Run {
    fn title(&self) -> String {
        match self {
            Run::Inputs(seed, count) => format!("seed {seed}: {count} inputs and those made by hand through engine and reference"),
            Run::Boards(seed, count) => format!("seed {seed}: {count} boards through engine, reference and fast program"),
        }
    }

    fn compare(&self, tally: &mut Tally) -> Result<(), String> {
        match *self {
            Run::Inputs(seed, count) => compare_inputs(seed, count, tally),
            Run::Boards(seed, count) => compare_boards(seed, count, tally),
        }
    }

    /// What the comparison tallied, or the first difference. How long it took is printed.
    fn answer(&self) -> Result<Tally, String> {
        let start = Instant::now();
        let mut tally = Tally::default();
        self.compare(&mut tally)?;
        println!("no difference in {:.1} s ({})", start.elapsed().as_secs_f64(), tally.told());
        Ok(tally)
    }
}

fn runs() -> Option<Vec<Run>> {
    let words: Vec<String> = std::env::args().skip(1).collect();
    match words.iter().map(String::as_str).collect::<Vec<_>>()[..] {
        [] => {
            let now = SystemTime::now().duration_since(SystemTime::UNIX_EPOCH).expect("the clock is past 1970");
            Some(vec![Run::Inputs(FIXED_SEED, INPUTS), Run::Inputs(now.as_nanos() as u64, INPUTS)])
        }
        ["boards", seed, count] => Some(vec![Run::Boards(seed.parse().ok()?, count.parse().ok()?)]),
        [seed, count] => Some(vec![Run::Inputs(seed.parse().ok()?, count.parse().ok()?)]),
        _ => None,
    }
}

/// All runs at once; behind the two of the gate the header.
fn compare(runs: &[Run]) -> Result<(), String> {
    let answers: Vec<Result<Tally, String>> = thread::scope(|scope| {
        let threads: Vec<_> = runs.iter().map(|run| scope.spawn(|| run.answer())).collect();
        threads.into_iter().map(|thread| thread.join().expect("a run ends")).collect()
    });
    let differences: Vec<String> = answers.iter().filter_map(|answer| answer.as_ref().err().cloned()).collect();
    if !differences.is_empty() {
        return Err(differences.join("\n"));
    }
    let tallies: Vec<Tally> = answers.into_iter().flatten().collect();
    if runs.len() > 1 {
        compare_header(&tallies)?;
    }
    Ok(())
}

fn main() {
    let Some(runs) = runs() else {
        eprintln!("usage: compare [[boards] SEED COUNT]");
        std::process::exit(2);
    };
    fault::watch();
    runs.iter().for_each(|run| println!("{}", run.title()));
    if let Err(difference) = compare(&runs) {
        println!("the engine differs from the reference\n{difference}");
        std::process::exit(1);
    }
}
