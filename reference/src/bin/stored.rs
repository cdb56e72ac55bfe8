//! stored FOLDER: writes FOLDER/crates/NAME/stdin and FOLDER/crates/NAME/stdout for each program crate NAME, the outputs worked out by the reference;
//! the table of the crate `catalog`, in both its forms; and FOLDER/examples/desk.in, a script of the desk, with what is printed for it, desk.out.

use reference::boards::random_board;
use reference::calls::random_input;
use reference::cases::{texts, GREATEST, S, T};
use reference::catalog::{definition_table, listing, source_table};
use reference::desk::desk;
use reference::desk_scripts::example;
use reference::encoded::{call_by_reference, codes_of, entries, finishing_lists, random_list, EngineCall};
use reference::player::{Call, Player};
use reference::programs::{hint_line, play, sheet};
use reference::random::Random;
use reference::scripts;
use reference::text::write;
use std::path::Path;

/// A part of the input of `replay`: its letter, how many pieces it has, their bytes, and what is printed for them.
type Part = (u8, usize, Vec<u8>, Vec<u8>);

/// Texts: for each its length in two bytes, the high byte first, and the text; what loading it answers, and after a 0 the text written back.
fn corpus() -> Part {
    let texts = texts();
    let (mut input, mut output) = (Vec::new(), Vec::new());
    for text in &texts {
        assert!(text.len() <= GREATEST);
        input.extend((text.len() as u16).to_be_bytes());
        input.extend(text);
        let (refusal, player) = Player::load(text);
        output.extend(format!("{refusal}\n").bytes());
        if refusal == 0 {
            let mut buffer = vec![0; text.len()];
            player.write(&mut buffer).expect("the text fits its own length");
            output.extend(buffer);
        }
    }
    (b'T', texts.len(), input, output)
}

/// A board text and a list of calls.
type Trial = (Vec<u8>, Vec<EngineCall>);

/// Document 01's calls on T and S, a text that is refused, finishes, and random lists on random boards.
fn made_trials() -> Vec<Trial> {
    let to_source = [EngineCall::Carry(0, 2), EngineCall::Hint, EngineCall::Carry(0, 0), EngineCall::Hint];
    let around = [EngineCall::Turn(vec![0, 2, 131, 129]), EngineCall::Hint];
    let refused = [EngineCall::Carry(0, 0), EngineCall::Carry(1, 2), EngineCall::Carry(2, 0), EngineCall::Undo, EngineCall::Turn(vec![])];
    let mut trials = vec![
        (S.into(), vec![]),
        (T.into(), vec![]),
        (T.into(), refused.to_vec()),
        (T.into(), [&to_source[..], &around].concat()),
        (T.into(), [&to_source[..], &around, &[EngineCall::Undo, EngineCall::Undo]].concat()),
        (b"B,2,1,1,0\nC,0,1,4\nW,1,5\n".to_vec(), vec![EngineCall::Carry(0, 0), EngineCall::Undo, EngineCall::Hint, EngineCall::Finish]),
    ];
    trials.extend(finishing_lists().into_iter().map(|calls| (T.into(), calls)));
    for index in 0..60 {
        let mut rng = Random::of_input(6, index);
        let text = write(&random_board(&mut rng));
        let calls = random_list(&mut rng, &text);
        trials.push((text, calls));
    }
    trials
}

/// Lists of calls: for each the text, the steps and the calls, each behind its length or count in two bytes; a call is
/// its kind and two numbers of four bytes. The answers of load, calls and of a finish behind them, which is refused
/// where one stands; its count, and the journal, a move a line.
fn trials() -> Part {
    let trials = made_trials();
    let (mut input, mut output) = (Vec::new(), String::new());
    for (text, calls) in &trials {
        let (codes, steps) = codes_of(calls);
        for bytes in [text, &steps] {
            input.extend((bytes.len() as u16).to_be_bytes());
            input.extend(bytes);
        }
        input.extend((calls.len() as u16).to_be_bytes());
        for code in codes.chunks(3) {
            input.push(code[0] as u8);
            input.extend([code[1].to_be_bytes(), code[2].to_be_bytes()].concat());
        }
        let (loading, mut player) = Player::load(text);
        let mut numbers = vec![loading];
        numbers.extend(calls.iter().map(|call| call_by_reference(&mut player, call)));
        numbers.extend(match player.finish() {
            Ok(count) => [0, count as u32],
            Err(refusal) => [refusal, 0],
        });
        let entries = entries(&player);
        numbers.push(entries.len() as u32);
        numbers.iter().for_each(|number| output.push_str(&format!("{number}\n")));
        for entry in entries {
            output.push_str(&entry.map(|number| number.to_string()).join(","));
            output.push('\n');
        }
    }
    (b'L', trials.len(), input, output.into_bytes())
}

/// Boards that no load gave, four in play, four finished and four of a stage that there is not; on each a carry, the
/// empty turn, a turn of one step, an undo, a hint, a finish, a sheet and the board writer, each made a thousand times
/// after the first. Their numbers are document 01's: "20 .. no board was loaded", "29 nothing was loaded".
fn unloaded() -> Part {
    let of_a_board = [20, 20, 20, 20, 20, 20, 29, 29].map(|number| format!("{number}\n")).concat();
    (b'U', 1000, Vec::new(), of_a_board.repeat(12).into_bytes())
}

/// The program `replay`: parts of five kinds, each behind its letter and its count in four bytes, the highest first.
fn replay() -> (Vec<u8>, Vec<u8>) {
    let (scripts, played, printed) = scripts::stored();
    let (boards, listed) = listing();
    let (mut input, mut output) = (Vec::new(), Vec::new());
    for (letter, count, bytes, answers) in [corpus(), trials(), (b'P', scripts, played, printed), (b'C', boards, Vec::new(), listed), unloaded()] {
        input.push(letter);
        input.extend((count as u32).to_be_bytes());
        input.extend(bytes);
        output.extend(answers);
    }
    (input, output)
}

/// Each hint from the loaded board on with its move as the next line, until no move is left; a hint then, and what it
/// prints, which is no line to read. A finish of no moves is taken back, and the moves are undone again.
fn hinted_lines(text: &[u8]) -> Vec<u8> {
    let (_, mut player) = Player::load(text);
    let mut lines = Vec::new();
    while let Some(hinted) = player.hint().expect("a board in play has a hint") {
        lines.extend([b"H\n", &hint_line(Some(&hinted))[..]].concat());
        player.call(&Call::of_move(&hinted));
    }
    [&lines[..], b"H\n", &hint_line(None), b"F\nU\n", &b"U\n".repeat(player.standing().len())].concat()
}

/// The program `play`: a long run on a great board: its hints up to the end and back, lines of another form among the
/// calls; a finish, lines after it, undos that take it and moves before it back, more finishes, and a line without its
/// line feed.
fn long_run() -> Vec<u8> {
    let mut rng = Random::new(7);
    let mut network = random_board(&mut rng);
    while network.terminals.len() < 12 {
        network = random_board(&mut rng);
    }
    let text = write(&network);
    let lines = random_input(&mut rng, &text, 400).split_off(text.len());
    [&text[..], &hinted_lines(&text), &lines, b"\nF\nH\nU\nH\nU\nF\nF\nU\nF\nU\nU\nF\nH"].concat()
}

fn main() -> std::io::Result<()> {
    let folder = std::env::args().nth(1).expect("usage: stored FOLDER");
    let run = long_run();
    let programs = [("replay", replay()), ("sheet", (T.into(), sheet(T.as_bytes()))), ("play", (run.clone(), play(&run)))];
    let mut files = vec![
        ("crates/catalog/src/table.rt".to_string(), source_table().into_bytes()),
        ("crates/catalog/specs/Table.antt".to_string(), definition_table().into_bytes()),
        ("examples/desk.in".to_string(), example()),
        ("examples/desk.out".to_string(), desk(&example())),
    ];
    for (name, (input, output)) in programs {
        files.push((format!("crates/{name}/stdin"), input));
        files.push((format!("crates/{name}/stdout"), output));
    }
    for (file, bytes) in files {
        let path = Path::new(&folder).join(file);
        std::fs::create_dir_all(path.parent().expect("a file in a folder"))?;
        std::fs::write(path, bytes)?;
    }
    Ok(())
}
