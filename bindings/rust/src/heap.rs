//! The heap, and its collector.
use std::cell::{Cell, UnsafeCell};
use std::fmt;

use crate::calls::{self, call, done, BlockTold, Counts, Handle, Page, Settings, SpentTold};
use crate::flow::{Flow, Work};
use crate::log::{EventTold, Logged};
use crate::mutator::Mutator;
use crate::refusal::{Refusal, Result};

/// A heap of one thread, or that of a [`Turn`](crate::Turn). It may go to another thread, and gives its memory back when it is dropped.
pub struct Heap {
    handle: UnsafeCell<Handle>,
    slots: u32,
    /// A bit for each number of which there is a `Mutator`.
    used: Cell<u64>,
}

// SAFETY: the library keeps nothing of a thread. A heap isn't `Sync`, so that its calls come one at a time.
unsafe impl Send for Heap {}

/// The phases of a cycle of the collector.
#[derive(Clone, Copy, Debug, PartialEq, Eq)]
pub enum Phase {
    /// No cycle is running.
    Idle,
    /// Slots and statics are scanned.
    Roots,
    /// The objects to which they lead are marked.
    Marking,
    /// Unmarked objects are freed.
    Sweeping,
    /// Sparse pages are emptied.
    Moving,
}

impl Phase {
    pub(crate) fn of(number: u32) -> Phase {
        const PHASES: [Phase; 5] = [Phase::Idle, Phase::Roots, Phase::Marking, Phase::Sweeping, Phase::Moving];
        PHASES[number as usize]
    }
}

/// The outcome of a quantum.
#[derive(Clone, Copy, Debug, PartialEq, Eq)]
pub struct Spent {
    /// Units of work.
    pub units: u32,
    /// The phase at the end.
    pub phase: Phase,
}

/// A cycle that has ended.
#[repr(C)]
#[derive(Clone, Copy, Debug, Default, PartialEq, Eq)]
pub struct Cycle {
    /// Its number, from 1.
    pub number: u64,
    /// How many quanta found it running.
    pub quanta: u64,
    /// The units that these quanta spent.
    pub units: u64,
    /// The most units that a quantum spent.
    pub longest: u64,
    /// Free pages when it began.
    pub free_before: u64,
    /// Free pages when it had ended.
    pub free_after: u64,
}

/// A pace of the collector: as `metronome_pacing` of metronome_over_calls.h, which says how to choose its numbers.
#[derive(Clone, Copy, Debug, PartialEq, Eq)]
pub struct Pacing {
    pub(crate) begin_below: u64,
    pub(crate) words: u64,
    pub(crate) budget: u32,
    pub(crate) owed: u64,
}

impl Pacing {
    /// A cycle begins if fewer pages than `begin_below` are free. A quantum of `budget` units is spent each time that
    /// `words` words were made.
    pub const fn new(begin_below: u64, words: u64, budget: u32) -> Pacing {
        Pacing { begin_below, words, budget, owed: 0 }
    }
}

impl Heap {
    /// Makes a heap, with all the memory that it will ever use; a page is cleared when it is first used, or by `touch`.
    /// Refused: `BadSetting`, `BadSchedule`, `NoMemory`, `OtherVersion`.
    pub fn new(settings: &Settings) -> Result<Heap> {
        // SAFETY: both live through the call, and the handle is closed.
        Heap::opened(settings.slots as u32, |made| unsafe { calls::metronome_create_for(made, settings, calls::VERSION) })
    }

    /// Makes a heap as [`Heap::new`] does, that keeps the last `log` events, for [`Heap::entry`] and for a
    /// [`Recording`](crate::Recording). They take 72 bytes each.
    pub fn logged(settings: &Settings, log: usize) -> Result<Heap> {
        Heap::shared(settings, log, None)?.entered()
    }

    /// Makes a heap as [`Heap::logged`] does, that keeps a plan ([`Heap::keep`]). Refused also as `NoPlan`.
    pub fn planned(settings: &Settings, log: usize, flow: &Flow) -> Result<Heap> {
        Heap::shared(settings, log, Some(flow))?.entered()
    }

    /// Makes a heap that seats share. It doesn't have the turn.
    pub(crate) fn shared(settings: &Settings, log: usize, flow: Option<&Flow>) -> Result<Heap> {
        // SAFETY: as above.
        Heap::opened(settings.slots as u32, |made| unsafe {
            match flow {
                None => calls::metronome_create_shared_for(made, settings, log, calls::VERSION),
                Some(flow) => calls::metronome_create_shared_kept_for(made, settings, log, flow, calls::VERSION),
            }
        })
    }

    /// Returns the heap, in its turn for ever.
    fn entered(self) -> Result<Heap> {
        done(call!(self, metronome_enter))?;
        Ok(self)
    }

    /// Makes one more seat at a shared heap, which calls for this one's mutators from number `from` on.
    pub(crate) fn sit(&self, from: u32) -> Result<Heap> {
        Heap::opened(self.slots, |made| call!(self, metronome_sit, made, from))
    }

    /// Returns the heap that a call makes, with this many slots of each mutator.
    fn opened(slots: u32, create: impl FnOnce(&mut Handle) -> u32) -> Result<Heap> {
        let mut handle = Handle::CLOSED;
        done(create(&mut handle))?;
        Ok(Heap { handle: UnsafeCell::new(handle), slots, used: Cell::new(0) })
    }

    /// Returns the handle for a call.
    pub(crate) fn handle(&self) -> *mut Handle {
        self.handle.get()
    }

    /// Returns what a call stores. Only a heap that is closed, or not in its turn, could refuse it.
    fn told<T: Default>(&self, call: impl FnOnce(&mut T) -> u32) -> T {
        let mut told = T::default();
        call(&mut told);
        told
    }

    /// Clears the first `pages` pages, or all if there are fewer, so that no later call has to: `usize::MAX` for all.
    /// Nothing else changes. Refused: `InUse` if the heap isn't one of [`Heap::new`], and its log has an event already.
    pub fn touch(&self, pages: usize) -> Result<()> {
        done(call!(self, metronome_touch, pages))
    }

    /// Makes mutator `number` live, until it goes out of scope. Refused: `AlreadyLive` if there is a [`Mutator`] of that
    /// number, `NoMutator`, `NotYours`.
    pub fn mutator(&self, number: u32) -> Result<Mutator<'_>> {
        let bit = 1u64.checked_shl(number).ok_or(Refusal::NoMutator)?;
        if self.used.get() & bit != 0 {
            return Err(Refusal::AlreadyLive);
        }
        let mutator = Mutator::join(self, number, self.slots)?;
        self.used.set(self.used.get() | bit);
        Ok(mutator)
    }

    /// Lets a mutator's number be used again.
    pub(crate) fn release(&self, number: u32) {
        self.used.set(self.used.get() & !(1 << number));
    }

    /// Makes the heap keep a plan from here on: before each new object the collector works as much as the plan requires. As long
    /// as live objects keep to `live_words`, no object is refused for lack of space. metronome_keep.h says what is proved.
    /// Refused: `NoPlan` if the heap was used already, or the plan doesn't fit in it, or doesn't last; `IsShared` if it isn't one
    /// of [`Heap::new`].
    pub fn keep(&self, flow: &Flow) -> Result<()> {
        done(call!(self, metronome_keep, flow))
    }

    /// Returns the work that the collector did for the plan since [`Heap::keep`]. Refused: `NoPlan` if none is kept.
    pub fn kept(&self) -> Result<Work> {
        let mut work = Work::default();
        done(call!(self, metronome_kept, &mut work))?;
        Ok(work)
    }

    /// Works ahead for new objects that take `words` words of blocks in all: it begins a cycle, or spends one quantum, if
    /// that is required. Returns how many more such calls are needed at most. If none is, these objects wait for no
    /// quantum, until the program begins a cycle. Refused: `AbovePlan` if a cycle has fewer words, `NoPlan` if no plan is
    /// kept.
    pub fn prepare(&self, words: u64) -> Result<u64> {
        let mut left = 0;
        done(call!(self, metronome_prepare, words, &mut left))?;
        Ok(left)
    }

    /// Begins a cycle. Returns whether one began: none was running.
    pub fn begin(&self) -> bool {
        call!(self, metronome_begin) == calls::OK
    }

    /// Spends at most `budget` units, 256 to 1000000, on the cycle that is running. Refused: `BadBudget`.
    pub fn quantum(&self, budget: u32) -> Result<Spent> {
        let mut told = SpentTold::default();
        done(call!(self, metronome_quantum, budget, &mut told))?;
        Ok(Spent { units: told.units, phase: Phase::of(told.phase) })
    }

    /// Ends the cycle that is running, if one is, and does two more, in quanta of `budget` units. The first of the two frees
    /// all objects that are unreachable now. The second frees the pages that the first emptied by moving. Refused:
    /// `BadBudget`.
    pub fn whole_cycle(&self, budget: u32) -> Result<()> {
        let mut ends = u32::from(self.phase() == Phase::Idle);
        while ends < 3 {
            self.begin();
            ends += u32::from(self.quantum(budget)?.phase == Phase::Idle);
        }
        Ok(())
    }

    /// Lets the collector work before `words` words are made, as the pace says: an object of n cells takes n + 4. Threads at
    /// one heap share one pace, behind a lock that is taken only in a turn; or each has a pace for the words that it makes
    /// itself. Refused: `BadBudget`.
    pub fn pace(&self, pacing: &mut Pacing, words: u64) -> Result<()> {
        if pacing.words == 0 {
            return Err(Refusal::BadBudget);
        }
        pacing.owed += words;
        while pacing.owed >= pacing.words {
            if self.phase() == Phase::Idle {
                if self.free_pages() >= pacing.begin_below {
                    pacing.owed %= pacing.words;
                    return Ok(());
                }
                self.begin();
            }
            self.quantum(pacing.budget)?;
            pacing.owed -= pacing.words;
        }
        Ok(())
    }

    /// Returns the event at a place of the log, from 0, as [`Seat::place`](crate::Seat::place) counts them. Refused: `NotShared` if
    /// the heap is one of [`Heap::new`].
    pub fn entry(&self, place: u64) -> Result<Logged> {
        let mut told = EventTold::default();
        done(call!(self, metronome_entry, place, &mut told))?;
        Ok(Logged::of(&told))
    }

    /// Returns the phase of the collector.
    pub fn phase(&self) -> Phase {
        Phase::of(self.told(|phase| call!(self, metronome_phase, phase)))
    }

    /// Returns the units that were spent since the last cycle began.
    pub fn units(&self) -> u64 {
        self.told(|units| call!(self, metronome_units, units))
    }

    /// Returns how many pages are free.
    pub fn free_pages(&self) -> u64 {
        self.told(|pages| call!(self, metronome_free_pages, pages))
    }

    /// Counts the pages, roots, objects and parts. It looks at each block, so its time grows with the heap's size.
    pub fn count(&self) -> Counts {
        self.told(|counts| call!(self, metronome_count, counts))
    }

    /// Returns the last cycle that ended, for a program's log; `None` before one has.
    pub fn last_cycle(&self) -> Option<Cycle> {
        let cycle: Cycle = self.told(|cycle| call!(self, metronome_last_cycle, cycle));
        (cycle.number > 0).then_some(cycle)
    }

    /// Returns a page, by its number from 0. A page that doesn't exist is reported as free.
    pub fn page(&self, number: usize) -> Page {
        self.told(|page| call!(self, metronome_page, number, page))
    }

    /// Returns a block of a page.
    pub(crate) fn block(&self, page: usize, number: u32) -> BlockTold {
        self.told(|block| call!(self, metronome_block, page, number as usize, block))
    }
}

impl fmt::Debug for Heap {
    fn fmt(&self, out: &mut fmt::Formatter<'_>) -> fmt::Result {
        out.debug_struct("Heap").field("slots", &self.slots).finish_non_exhaustive()
    }
}

impl Drop for Heap {
    fn drop(&mut self) {
        call!(self, metronome_destroy);
    }
}
