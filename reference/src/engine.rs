//! The engine through its C interface, include/vulprow.h, one call at a time. A game lies in pages of its own and ends where a page begins that may
//! not be touched; so do text, steps and buffer, and the place of what a call gives.

use crate::guarded::Guarded;
use crate::random::Random;
use std::cell::RefCell;

/// The header's macros.
pub const VERSION: u32 = 1;
pub const VERTICES: usize = 32;
pub const EDGES: usize = 64;
pub const TERMINALS: usize = 16;
pub const STEPS: usize = 64;
pub const MOVES: usize = 1_056;
pub const TEXT_MAX: usize = 1_246;
pub const SHEET_MAX: usize = 2_948;
pub const STEP_UP: u8 = 128;

/// The kinds of a move.
pub const CARRY: u32 = 1;
pub const TURN: u32 = 2;

/// The stages of a board that was loaded.
pub const PLAY: u32 = 1;
pub const FINISHED: u32 = 2;

/// `vulprow_game`.
#[repr(C)]
#[derive(Clone)]
pub struct Memory {
    pub numbers: [u32; 8],
    pub edges: [[u32; EDGES]; 5],
    pub terminals: [[u32; TERMINALS]; 3],
    pub marks: u64,
    pub journal: [[u64; 5]; MOVES],
}

pub const GAME: usize = size_of::<Memory>();

impl Memory {
    /// The closed board.
    pub const CLOSED: Memory = Memory { numbers: [0; 8], edges: [[0; EDGES]; 5], terminals: [[0; TERMINALS]; 3], marks: 0, journal: [[0; 5]; MOVES] };
}

/// `vulprow_move`.
#[repr(C)]
#[derive(Clone, Copy, Debug, PartialEq, Eq)]
pub struct Advice {
    pub kind: u32,
    pub terminal: u32,
    pub edge: u32,
    pub length: u32,
    pub steps: [u8; STEPS],
}

/// `vulprow_view`.
#[repr(C)]
#[derive(Clone, Copy, Debug, PartialEq, Eq)]
pub struct View {
    pub stage: u32,
    pub vertices: u32,
    pub edges: u32,
    pub terminals: u32,
    pub source: u32,
    pub moves: u32,
    pub tails: [u32; EDGES],
    pub heads: [u32; EDGES],
    pub acyclic: [u32; EDGES],
    pub flows: [u32; EDGES],
    pub marked: [u32; EDGES],
    pub homes: [u32; TERMINALS],
    pub places: [u32; TERMINALS],
    pub demands: [u32; TERMINALS],
}

/// `vulprow_entry`.
#[repr(C)]
#[derive(Clone, Copy, Debug, PartialEq, Eq)]
pub struct Entry {
    pub kind: u32,
    pub terminal: u32,
    pub edge: u32,
    pub amount: u32,
    pub length: u32,
    pub marks: u32,
    pub edges: [u32; EDGES],
    pub ways: [u32; EDGES],
    pub marked: [u32; EDGES],
}

// The sizes that the header's types have in C.
const _: () = assert!(GAME == 43_752 && size_of::<Advice>() == 80 && size_of::<View>() == 1_496 && size_of::<Entry>() == 792);

impl Advice {
    pub const NONE: Advice = Advice { kind: 0, terminal: 0, edge: 0, length: 0, steps: [0; STEPS] };
}

impl View {
    pub const CLOSED: View = View {
        stage: 0,
        vertices: 0,
        edges: 0,
        terminals: 0,
        source: 0,
        moves: 0,
        tails: [0; EDGES],
        heads: [0; EDGES],
        acyclic: [0; EDGES],
        flows: [0; EDGES],
        marked: [0; EDGES],
        homes: [0; TERMINALS],
        places: [0; TERMINALS],
        demands: [0; TERMINALS],
    };
}

impl Entry {
    pub const NONE: Entry =
        Entry { kind: 0, terminal: 0, edge: 0, amount: 0, length: 0, marks: 0, edges: [0; EDGES], ways: [0; EDGES], marked: [0; EDGES] };
}

/// The functions themselves.
pub mod exported {
    use super::{Advice, Entry, Memory, View};

    #[link(name = "vulprow", kind = "static")]
    extern "C" {
        pub fn vulprow_load(game: *mut Memory, text: *const u8, length: usize) -> u32;
        pub fn vulprow_carry(game: *mut Memory, terminal: u32, edge: u32) -> u32;
        pub fn vulprow_turn(game: *mut Memory, steps: *const u8, length: usize) -> u32;
        pub fn vulprow_undo(game: *mut Memory) -> u32;
        pub fn vulprow_hint(game: *const Memory, advice: *mut Advice) -> u32;
        pub fn vulprow_finish(game: *mut Memory, moves: *mut u32) -> u32;
        pub fn vulprow_sheet(game: *const Memory, buffer: *mut u8, room: usize, length: *mut usize) -> u32;
        pub fn vulprow_write(game: *const Memory, buffer: *mut u8, room: usize, length: *mut usize) -> u32;
        pub fn vulprow_catalog(number: u32, buffer: *mut u8, room: usize, length: *mut usize) -> u32;
        pub fn vulprow_look(game: *const Memory, view: *mut View) -> u32;
        pub fn vulprow_journal(game: *const Memory, place: u32, entry: *mut Entry) -> u32;
    }
}

/// What the place of what a call gives is filled with before.
const POISON: u8 = 0xa5;

thread_local! {
    static INPUT: RefCell<Guarded> = RefCell::new(Guarded::new(4_096));
    static BUFFER: RefCell<Guarded> = RefCell::new(Guarded::new(4_096));
    static GIVEN: Guarded = Guarded::new(size_of::<View>());
    /// Memory of games that are no more.
    static SPARE: RefCell<Vec<Guarded>> = const { RefCell::new(Vec::new()) };
    /// How to hand in nothing.
    static EMPTY: RefCell<Random> = RefCell::new(Random::new(0));
}

/// The address of so many bytes at the end of the area; for none, NULL in about every other case.
fn address(area: &RefCell<Guarded>, length: usize) -> *mut u8 {
    if length == 0 && EMPTY.with_borrow_mut(|choice| choice.chance(1, 2)) {
        return std::ptr::null_mut();
    }
    if area.borrow().room() < length {
        *area.borrow_mut() = Guarded::new(length);
    }
    area.borrow().last(length)
}

/// A call that is handed bytes.
fn with_input(bytes: &[u8], call: impl FnOnce(*const u8, usize) -> u32) -> u32 {
    INPUT.with(|area| unsafe {
        let place = address(area, bytes.len());
        if !bytes.is_empty() {
            place.copy_from_nonoverlapping(bytes.as_ptr(), bytes.len());
        }
        let answer = call(place, bytes.len());
        assert!(bytes.is_empty() || std::slice::from_raw_parts(place, bytes.len()) == bytes, "the engine wrote into what it was to read");
        answer
    })
}

/// A call that is handed a buffer, which gets this one's bytes before and gives them back after.
fn with_buffer<T>(buffer: &mut [u8], call: impl FnOnce(*mut u8, usize) -> T) -> T {
    BUFFER.with(|area| unsafe {
        let place = address(area, buffer.len());
        if buffer.is_empty() {
            return call(place, 0);
        }
        place.copy_from_nonoverlapping(buffer.as_ptr(), buffer.len());
        let given = call(place, buffer.len());
        place.copy_to_nonoverlapping(buffer.as_mut_ptr(), buffer.len());
        given
    })
}

/// What a call answers, and what it gives. T is made of numbers.
fn given<T>(call: impl FnOnce(*mut T) -> u32) -> (u32, T) {
    GIVEN.with(|area| unsafe {
        let place = area.last(size_of::<T>());
        place.write_bytes(POISON, size_of::<T>());
        let place = place.cast::<T>();
        let answer = call(place);
        (answer, place.read())
    })
}

/// A game of its own. The calls are the header's.
pub struct Game {
    /// There until the game is dropped.
    place: Option<Guarded>,
}

impl Game {
    /// Memory for a game. It holds what was left there, or zeros.
    pub fn anywhere() -> Game {
        let spare = SPARE.with(|spare| spare.borrow_mut().pop());
        Game { place: Some(spare.unwrap_or_else(|| Guarded::new(GAME))) }
    }

    fn address(&self) -> *mut Memory {
        self.place.as_ref().expect("a game has its memory").last(GAME).cast()
    }

    pub fn bytes(&self) -> &[u8] {
        unsafe { std::slice::from_raw_parts(self.address().cast(), GAME) }
    }

    pub fn bytes_mut(&mut self) -> &mut [u8] {
        unsafe { std::slice::from_raw_parts_mut(self.address().cast(), GAME) }
    }

    /// The places of the journal.
    pub fn places(&self) -> &[[u64; 5]; MOVES] {
        unsafe { &(*self.address()).journal }
    }

    /// The numbers before all others.
    pub fn numbers_mut(&mut self) -> &mut [u32; 8] {
        unsafe { &mut (*self.address()).numbers }
    }

    /// Fills the memory with random bytes.
    pub fn fill(&mut self, noise: &mut Random) {
        self.bytes_mut().chunks_exact_mut(8).for_each(|bytes| bytes.copy_from_slice(&noise.next().to_ne_bytes()));
    }

    /// Moves the game to another address; the old place gets other bytes.
    pub fn move_elsewhere(&mut self) {
        let moved = self.clone();
        self.bytes_mut().fill(POISON);
        *self = moved;
    }

    /// Whether the memory may be written, or read alone.
    pub fn allow_writing(&self, is_allowed: bool) {
        self.place.as_ref().expect("a game has its memory").allow_writing(is_allowed);
    }

    pub fn load(&mut self, text: &[u8]) -> u32 {
        with_input(text, |text, length| unsafe { exported::vulprow_load(self.address(), text, length) })
    }

    pub fn carry(&mut self, terminal: u32, edge: u32) -> u32 {
        unsafe { exported::vulprow_carry(self.address(), terminal, edge) }
    }

    pub fn turn(&mut self, steps: &[u8]) -> u32 {
        with_input(steps, |steps, length| unsafe { exported::vulprow_turn(self.address(), steps, length) })
    }

    pub fn undo(&mut self) -> u32 {
        unsafe { exported::vulprow_undo(self.address()) }
    }

    pub fn hint(&self) -> (u32, Advice) {
        given(|advice| unsafe { exported::vulprow_hint(self.address(), advice) })
    }

    pub fn finish(&mut self) -> (u32, u32) {
        given(|moves| unsafe { exported::vulprow_finish(self.address(), moves) })
    }

    pub fn sheet(&self, buffer: &mut [u8]) -> (u32, usize) {
        with_buffer(buffer, |buffer, room| given(|length| unsafe { exported::vulprow_sheet(self.address(), buffer, room, length) }))
    }

    pub fn write(&self, buffer: &mut [u8]) -> (u32, usize) {
        with_buffer(buffer, |buffer, room| given(|length| unsafe { exported::vulprow_write(self.address(), buffer, room, length) }))
    }

    pub fn look(&self) -> (u32, View) {
        given(|view| unsafe { exported::vulprow_look(self.address(), view) })
    }

    pub fn journal(&self, place: u32) -> (u32, Entry) {
        given(|entry| unsafe { exported::vulprow_journal(self.address(), place, entry) })
    }
}

/// A board of the catalog.
pub fn catalog(number: u32, buffer: &mut [u8]) -> (u32, usize) {
    with_buffer(buffer, |buffer, room| given(|length| unsafe { exported::vulprow_catalog(number, buffer, room, length) }))
}

impl Clone for Game {
    /// The same game at another address.
    fn clone(&self) -> Game {
        let mut copy = Game::anywhere();
        copy.bytes_mut().copy_from_slice(self.bytes());
        copy
    }
}

impl Drop for Game {
    fn drop(&mut self) {
        // At the end of a thread the spare memory may be gone, and this goes, too.
        let place = self.place.take();
        let _ = SPARE.try_with(|spare| spare.borrow_mut().extend(place));
    }
}
