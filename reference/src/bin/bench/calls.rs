//! The stack and the longest time of each function of the interface, over the catalog, texts made by hand, and random boards with play on them.

use reference::boards::random_board;
use reference::cases::{greatest_board, longest_cycle, texts, DOWN_AGAIN, MISFIT, TAIL};
use reference::catalog::BOARDS;
use reference::encoded::{engine_call, random_list, EngineCall};
use reference::engine::{exported, Advice, Entry, Memory, View, SHEET_MAX};
use reference::guarded::Guarded;
use reference::player::{Call, Player};
use reference::random::Random;
use reference::text::write;
use std::arch::asm;
use std::time::Instant;

const RANDOM_BOARDS: u64 = 1_000;
const SEED: u64 = 10;
/// How often a call is made; its shortest time counts.
const REPEATS: usize = 7;
/// The stack that calls are made on, far more than any takes, and what it is painted with.
const STACK: usize = 256 * 1_024;
const PAINT: u64 = 0x5a5a_a5a5_c3c3_3c3c;

const NAMES: [&str; 11] = ["load", "carry", "turn", "undo", "hint", "finish", "sheet", "write", "catalog", "look", "journal"];

/// The function's address.
fn function(name: &str) -> usize {
    match name {
        "load" => exported::vulprow_load as *const () as usize,
        "carry" => exported::vulprow_carry as *const () as usize,
        "turn" => exported::vulprow_turn as *const () as usize,
        "undo" => exported::vulprow_undo as *const () as usize,
        "hint" => exported::vulprow_hint as *const () as usize,
        "finish" => exported::vulprow_finish as *const () as usize,
        "sheet" => exported::vulprow_sheet as *const () as usize,
        "write" => exported::vulprow_write as *const () as usize,
        "catalog" => exported::vulprow_catalog as *const () as usize,
        "look" => exported::vulprow_look as *const () as usize,
        _ => exported::vulprow_journal as *const () as usize,
    }
}

/// Calls a function of at most four arguments, all numbers or addresses, on the stack that ends here.
unsafe fn call_on(end: *mut u8, function: usize, [first, second, third, fourth]: [usize; 4]) -> u32 {
    let answer: usize;
    unsafe {
        asm!(
            "mov r12, rsp",
            "mov rsp, {end}",
            "call {function}",
            "mov rsp, r12",
            end = in(reg) end,
            function = in(reg) function,
            in("rdi") first,
            in("rsi") second,
            in("rdx") third,
            in("rcx") fourth,
            out("rax") answer,
            out("r12") _,
            clobber_abi("C"),
        );
    }
    answer as u32
}

/// The most that a function took.
#[derive(Clone, Copy, Default)]
struct Most {
    stack: usize,
    nanoseconds: u128,
}

/// A game, what calls on it give, and what they took.
struct Bench {
    stack: Guarded,
    game: Box<Memory>,
    before: Box<Memory>,
    buffer: Vec<u8>,
    view: View,
    entry: Entry,
    advice: Advice,
    moves: u32,
    length: usize,
    most: [Most; NAMES.len()],
}

impl Bench {
    fn new() -> Bench {
        let closed = || Box::new(Memory::CLOSED);
        Bench {
            stack: Guarded::new(STACK),
            game: closed(),
            before: closed(),
            buffer: vec![0; SHEET_MAX],
            view: View::CLOSED,
            entry: Entry::NONE,
            advice: Advice::NONE,
            moves: 0,
            length: 0,
            most: Default::default(),
        }
    }

    /// The stack's words.
    fn words(&mut self) -> &mut [u64] {
        unsafe { std::slice::from_raw_parts_mut(self.stack.last(STACK).cast(), STACK / 8) }
    }

    /// A call, made again and again on the same game, first on a painted stack.
    fn measure(&mut self, name: &str, arguments: [usize; 4]) -> u32 {
        let (function, end) = (function(name), self.stack.last(0));
        *self.before = (*self.game).clone();
        self.words().fill(PAINT);
        let answer = unsafe { call_on(end, function, arguments) };
        let untouched = self.words().iter().take_while(|word| **word == PAINT).count();
        let mut least = u128::MAX;
        for _ in 0..REPEATS {
            *self.game = (*self.before).clone();
            let start = Instant::now();
            let again = unsafe { call_on(end, function, arguments) };
            least = least.min(start.elapsed().as_nanos());
            assert_eq!(again, answer);
        }
        let most = &mut self.most[NAMES.iter().position(|other| *other == name).expect("a function")];
        most.stack = most.stack.max(STACK - 8 * untouched);
        most.nanoseconds = most.nanoseconds.max(least);
        answer
    }

    fn game(&mut self) -> usize {
        &raw mut *self.game as usize
    }

    /// A call of a play.
    fn play(&mut self, call: &EngineCall) -> u32 {
        let (game, advice, moves) = (self.game(), &raw mut self.advice as usize, &raw mut self.moves as usize);
        match call {
            EngineCall::Carry(terminal, edge) => self.measure("carry", [game, *terminal as usize, *edge as usize, 0]),
            EngineCall::Turn(steps) => self.measure("turn", [game, steps.as_ptr() as usize, steps.len(), 0]),
            EngineCall::Undo => self.measure("undo", [game, 0, 0, 0]),
            EngineCall::Hint => self.measure("hint", [game, advice, 0, 0]),
            EngineCall::Finish => self.measure("finish", [game, moves, 0, 0]),
        }
    }

    /// A text into the buffer: the report or the board's text, with the game first, or a board of the catalog, with its number.
    fn text(&mut self, name: &str, first: usize) {
        let (buffer, room, length) = (self.buffer.as_mut_ptr() as usize, self.buffer.len(), &raw mut self.length as usize);
        self.measure(name, [first, buffer, room, length]);
    }

    /// The calls that only read.
    fn read(&mut self) {
        let (game, view, entry) = (self.game(), &raw mut self.view as usize, &raw mut self.entry as usize);
        self.text("write", game);
        self.text("sheet", game);
        self.measure("look", [game, view, 0, 0]);
        for place in 0..=self.view.moves as usize {
            self.measure("journal", [game, place, entry, 0]);
        }
    }

    /// A text, calls on its board, and a finish, which is taken back.
    fn board(&mut self, text: &[u8], calls: &[EngineCall]) {
        let game = self.game();
        if self.measure("load", [game, text.as_ptr() as usize, text.len(), 0]) != 0 {
            return;
        }
        for call in calls {
            self.play(call);
        }
        self.read();
        while self.play(&EngineCall::Finish) != 0 {
            self.play(&EngineCall::Undo);
        }
        self.read();
        self.play(&EngineCall::Undo);
    }
}

/// The moves that a finish of the board makes, with a hint before each, and all undone.
fn hinted(text: &[u8]) -> Vec<EngineCall> {
    let (_, mut player) = Player::load(text);
    let _ = player.finish();
    let moves = player.moves();
    let made = moves.iter().flat_map(|made| [EngineCall::Hint, engine_call(&Call::of_move(made))]);
    made.chain([EngineCall::Hint]).chain(vec![EngineCall::Undo; moves.len()]).collect()
}

/// The catalog and texts made by hand.
fn made_texts() -> Vec<Vec<u8>> {
    let mut made: Vec<Vec<u8>> = BOARDS.iter().map(|text| text.as_bytes().to_vec()).collect();
    made.extend(texts());
    made.extend([MISFIT, TAIL, DOWN_AGAIN].map(|text| text.replace(' ', "\n").into_bytes()));
    made.extend([longest_cycle(), greatest_board()].iter().map(write));
    made
}

/// A table for docs/LIBRARY.md.
pub fn table() {
    let mut bench = Bench::new();
    (0..=BOARDS.len()).for_each(|number| bench.text("catalog", number));
    for text in made_texts() {
        bench.board(&text, &hinted(&text));
    }
    for index in 0..RANDOM_BOARDS {
        let mut rng = Random::of_input(SEED, index);
        let text = write(&random_board(&mut rng));
        let calls = random_list(&mut rng, &text);
        bench.board(&text, &[&calls[..], &hinted(&text)].concat());
    }
    println!("\n| call | stack | longest time |\n|---|---|---|");
    for (name, most) in NAMES.iter().zip(bench.most) {
        println!("| `vulprow_{name}` | {:.1} KiB | {:.2} µs |", most.stack as f64 / 1024.0, most.nanoseconds as f64 / 1e3);
    }
}
