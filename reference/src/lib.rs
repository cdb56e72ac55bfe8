//! The reference program: document 01, with the requests of document 02 that were met, written down plainly, to compare the engine with.
//!
//! It was written from these papers and never from the engine's code or definitions. Speed and memory are no concern: it uses growable
//! vectors and sets, and every call makes the board afresh from the text and the standing moves. Each rule stands under the sentence that
//! it follows, in quotes.
//!
//! The code has the field's words. Document 01's are: vertex (pool), edge (channel), source (spring), terminal (mill), demand (need),
//! positive (wet), cycle (ring), singular (single), acyclic flow (drained first flow).

// The rules, in document 01's order.
pub mod cancelling;
pub mod catalog;
pub mod desk;
pub mod moves;
pub mod player;
pub mod programs;
pub mod report;
pub mod solver;
pub mod text;

// The same for speed.
pub mod fast;

// The engine, where it is linked.
#[cfg(feature = "engine")]
pub mod engine;
#[cfg(feature = "engine")]
pub mod guarded;

// Inputs for the engine and for the rules themselves, and sheets of before.
pub mod boards;
pub mod calls;
pub mod cases;
pub mod damage;
pub mod desk_scripts;
pub mod encoded;
pub mod old_sheets;
pub mod properties;
pub mod random;
pub mod scripts;
