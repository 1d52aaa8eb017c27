//! A real-time garbage-collected heap, over the installed archive of `metronome.h`. This crate is plain Rust, and
//! nothing is proved of it. docs/CONTRACTS.md of the library says what is proved of the calls below it.
//!
//! A [`Heap`] goes from thread to thread, but is used in one at a time. A [`Mutator`] is a row of slots, and a [`Root`]
//! is one of these slots. The object that a root holds is kept. When the root goes out of scope, its slot holds null
//! and is free again.
//!
//! ```
//! use metronome::{Heap, Refusal, Settings};
//!
//! fn main() -> Result<(), Refusal> {
//!     let heap = Heap::new(&Settings::new(64, 1, 16))?; // pages, mutators, slots of each
//!     let mutator = heap.mutator(0)?;
//!     let cell = mutator.new_plain(1, 2)?; // one reference, two words
//!     cell.put(1, 42)?;
//!     heap.begin();
//!     heap.quantum(1000)?; // a quantum of the collector: at most 1000 units
//!     assert_eq!(cell.get(1)?, 42);
//!     Ok(())
//! }
//! ```
//!
//! A heap that threads share is a [`Shared`]: each thread has a [`Seat`] at it, and makes its calls in a [`Turn`].
//!
//! A heap takes one call at a time, so it isn't `Sync`:
//!
//! ```compile_fail,E0277
//! fn shared<T: Sync>() {}
//! shared::<metronome::Heap>();
//! ```
//!
//! A root doesn't outlive its mutator, nor a mutator its heap:
//!
//! ```compile_fail,E0505
//! use metronome::{Heap, Settings};
//!
//! let heap = Heap::new(&Settings::new(64, 1, 16)).unwrap();
//! let mutator = heap.mutator(0).unwrap();
//! drop(heap);
//! mutator.null().unwrap();
//! ```
#![warn(missing_docs)]

mod calls;
mod commands;
mod flow;
mod heap;
mod log;
mod mutator;
mod record;
mod refusal;
mod root;
mod seat;
mod walk;

pub use calls::{version, Counts, CycleLimit, Page, Settings};
pub use flow::{Flow, Work};
pub use heap::{Cycle, Heap, Pacing, Phase, Spent};
pub use log::{Command, Entry, Logged, Reply};
pub use mutator::Mutator;
pub use record::Recording;
pub use refusal::{Refusal, Result};
pub use root::{Compared, Description, Root, Shape};
pub use seat::{Seat, Shared, Turn};
pub use walk::Objects;
