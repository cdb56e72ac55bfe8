//! Where the engine touches memory that is not its own, the program ends; this tells with which input.

use std::cell::{Cell, RefCell};

const SEGMENT: i32 = 11;
const BUS: i32 = 7;

extern "C" {
    fn signal(number: i32, handler: extern "C" fn(i32)) -> usize;
    fn _exit(status: i32) -> !;
}

thread_local! {
    static INPUT: Cell<(u64, Option<u64>)> = const { Cell::new((0, None)) };
    static TEXT: RefCell<Vec<u8>> = const { RefCell::new(Vec::new()) };
}

extern "C" fn tell(_: i32) {
    let input = match INPUT.get() {
        (seed, Some(index)) => format!("input {index} of seed {seed}"),
        (seed, None) => format!("an input made by hand, seed {seed}"),
    };
    let text = TEXT.with(|text| text.try_borrow().map(|text| String::from_utf8_lossy(&text).into_owned()).unwrap_or_default());
    println!("the engine touched memory that is not its own: {input}; the text before was\n{text}");
    unsafe { _exit(1) }
}

pub fn watch() {
    unsafe {
        signal(SEGMENT, tell);
        signal(BUS, tell);
    }
}

/// Which input is compared: of a seed this one, or one of those made by hand.
pub fn compares(seed: u64, index: Option<u64>) {
    INPUT.set((seed, index));
}

/// Which text is loaded.
pub fn loads(text: &[u8]) {
    TEXT.with_borrow_mut(|last| {
        last.clear();
        last.extend_from_slice(text);
    });
}
