//! Heaps that threads share: the seats at them, and turns.
use std::ops::Deref;
use std::sync::{Arc, Mutex, MutexGuard, PoisonError, TryLockError};

use crate::calls::{call, Settings};
use crate::flow::Flow;
use crate::heap::Heap;
use crate::refusal::{Refusal, Result};

/// A heap that threads share. It calls for the mutators that it gave to no [`Seat`]; each thread that has a seat calls for its own. Clones
/// are of the same heap, which gives its memory back when the last clone and the last seat are gone.
///
/// ```
/// use metronome::{Refusal, Settings, Shared};
///
/// fn main() -> Result<(), Refusal> {
///     let shared = Shared::new(&Settings::new(64, 2, 16))?;
///     let mut seat = shared.seat(1)?; // it calls for mutator 1
///     let other = std::thread::spawn(move || {
///         let turn = seat.enter();
///         turn.new_plain(1, 3, 1, 2)?; // into slot 3: one reference and two words
///         turn.put(1, 3, 1, 42)?;
///         turn.get(1, 3, 1)
///     });
///     shared.enter().new_words(0, 3, 5)?;
///     assert_eq!(other.join().unwrap()?, 42);
///     Ok(())
/// }
/// ```
#[derive(Clone, Debug)]
pub struct Shared {
    /// The lock that the seats of a heap share, at which they wait for the turn. The heap's first seat is under it.
    gate: Arc<Mutex<Heap>>,
}

/// A seat at a shared heap, for a range of its mutators. It may go to another thread. Once it is dropped nobody calls for its mutators.
#[derive(Debug)]
pub struct Seat {
    heap: Heap,
    gate: Arc<Mutex<Heap>>,
}

/// The turn of a seat: until it is dropped, no other seat's calls come between. All calls of a [`Heap`] may be made in it, for the seat's
/// mutators. Slots keep their references from turn to turn; a root lives in one turn.
///
/// A turn is of one thread:
///
/// ```compile_fail,E0277
/// fn sent<T: Send>() {}
/// sent::<metronome::Turn<'static>>();
/// ```
#[derive(Debug)]
pub struct Turn<'s> {
    /// The seat, unless it is the heap's first one.
    seat: Option<&'s Heap>,
    /// Held as long as the turn, and given back after it.
    held: MutexGuard<'s, Heap>,
}

/// Waits for the lock. A thread that panicked in its turn gave the turn back, and the heap is whole.
fn lock(gate: &Mutex<Heap>) -> MutexGuard<'_, Heap> {
    gate.lock().unwrap_or_else(PoisonError::into_inner)
}

/// Returns the length of the log that a seat sees outside of its turn.
fn place_of(heap: &Heap) -> u64 {
    let mut place = 0;
    call!(heap, metronome_place, &mut place);
    place
}

impl Shared {
    /// Makes a heap. Refused: `BadSetting`, `BadSchedule`, `NoMemory`, `OtherVersion`.
    pub fn new(settings: &Settings) -> Result<Shared> {
        Shared::opened(Heap::shared(settings, 0, None))
    }

    /// Makes a heap that keeps the last `log` events, as [`Heap::logged`] does.
    pub fn logged(settings: &Settings, log: usize) -> Result<Shared> {
        Shared::opened(Heap::shared(settings, log, None))
    }

    /// Makes a heap that keeps a plan, too, by the calls of all seats together, as [`Heap::planned`] does.
    pub fn planned(settings: &Settings, log: usize, flow: &Flow) -> Result<Shared> {
        Shared::opened(Heap::shared(settings, log, Some(flow)))
    }

    fn opened(made: Result<Heap>) -> Result<Shared> {
        Ok(Shared { gate: Arc::new(Mutex::new(made?)) })
    }

    /// Makes a seat that calls for the mutators from number `from` on that no seat has yet. It waits for the turn.
    /// Refused: `NotYours` if a seat has `from`, or if neither that mutator nor the one before it exists; `NoMemory`.
    pub fn seat(&self, from: u32) -> Result<Seat> {
        Ok(Seat { heap: lock(&self.gate).sit(from)?, gate: Arc::clone(&self.gate) })
    }

    /// Waits for the turn, to call for the mutators that no seat has.
    pub fn enter(&self) -> Turn<'_> {
        Turn::entered(None, lock(&self.gate))
    }

    /// Returns the length of the log: how many commands, beginnings and quanta were done. It waits for the turn, which
    /// [`Seat::place`] doesn't.
    pub fn place(&self) -> u64 {
        place_of(&lock(&self.gate))
    }
}

impl Seat {
    /// Makes one more seat, which calls for this one's mutators from number `from` on. Refused: `NotYours` if these
    /// aren't this seat's; `NoMemory`.
    pub fn another(&mut self, from: u32) -> Result<Seat> {
        Ok(Seat { heap: self.heap.sit(from)?, gate: Arc::clone(&self.gate) })
    }

    /// Waits for the turn.
    pub fn enter(&mut self) -> Turn<'_> {
        Turn::entered(Some(&self.heap), lock(&self.gate))
    }

    /// Takes the turn, and never waits. Refused: `Taken` if another seat has it.
    pub fn try_enter(&mut self) -> Result<Turn<'_>> {
        let held = match self.gate.try_lock() {
            Ok(held) => held,
            Err(TryLockError::Poisoned(poisoned)) => poisoned.into_inner(),
            Err(TryLockError::WouldBlock) => return Err(Refusal::Taken),
        };
        Ok(Turn::entered(Some(&self.heap), held))
    }

    /// Returns the length of the log: how many commands, beginnings and quanta were done, without those of another
    /// seat's turn that hasn't ended. It never waits.
    pub fn place(&mut self) -> u64 {
        place_of(&self.heap)
    }
}

impl<'s> Turn<'s> {
    /// Returns the turn of a seat, under the lock of its heap.
    fn entered(seat: Option<&'s Heap>, held: MutexGuard<'s, Heap>) -> Turn<'s> {
        let turn = Turn { seat, held };
        assert!(call!(turn, metronome_enter) == crate::calls::OK, "whoever has the lock gets the turn");
        turn
    }
}

impl Deref for Turn<'_> {
    type Target = Heap;

    fn deref(&self) -> &Heap {
        self.seat.unwrap_or(&self.held)
    }
}

impl Drop for Turn<'_> {
    fn drop(&mut self) {
        call!(self, metronome_exit);
    }
}
