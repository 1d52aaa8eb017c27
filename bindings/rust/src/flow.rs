//! Plans, by which the collector of a heap paces itself.
use crate::calls::{self, done, Settings};
use crate::refusal::{Refusal, Result};

/// A plan: how many words of blocks may be made while the collector works. [`Settings::plan`] calculates it, and a heap
/// keeps it by [`crate::Heap::keep`].
#[repr(C)]
#[derive(Clone, Copy, Debug, Default, PartialEq, Eq)]
pub struct Flow {
    /// The most words of live objects' blocks whenever a cycle begins. The program must keep to it.
    pub live_words: u64,
    /// The most words that are made for each quantum of a cycle.
    pub quantum_words: u64,
    /// The most words that are made from a cycle's beginning until the next begins. No object of more words can be
    /// made.
    pub cycle_words: u64,
    /// The fewest pages with such a plan; 0 if no number of pages has one.
    pub least_pages: u64,
    /// The units of a quantum.
    pub budget: u32,
}

/// The work that the collector did for a plan.
#[repr(C)]
#[derive(Clone, Copy, Debug, Default, PartialEq, Eq)]
pub struct Work {
    /// Quanta.
    pub quanta: u64,
    /// Cycles that were begun.
    pub cycles: u64,
    /// The most quanta that one call spent: for a new object, or by [`crate::Heap::prepare`].
    pub most_quanta: u64,
}

impl Settings {
    /// Returns the settings of [`Settings::new`], except that moving follows each sweep and may empty all pages, as a
    /// plan requires.
    pub const fn moving(pages: i64, mutators: i64, slots: i64) -> Settings {
        Settings { defrag_below: pages + 1, defrag_pages: pages, ..Settings::new(pages, mutators, slots) }
    }

    /// Returns a plan for a heap of these settings, if live objects take at most `live_words` words of blocks whenever
    /// a cycle begins. It has as many words for a cycle as fit, and the most for a quantum with which they last until a
    /// whole cycle has ended. If there is none, or the settings don't move as those of [`Settings::moving`], it has no words
    /// for a quantum, and says how many pages have one.
    /// Refused: `BadSetting`, `BadSchedule`.
    pub fn plan(&self, live_words: u64) -> Result<Flow> {
        // SAFETY: both live through the call.
        Settings::told(|flow| unsafe { calls::metronome_plan(self, live_words, flow) })
    }

    /// Returns the same of the plans that leave room for an object of `largest_words` words of blocks
    /// ([`Shape::block_words`](crate::Shape::block_words)). Under it an object of w words, at most these, waits for at most
    /// w / `quantum_words` quanta, rounded up.
    pub fn plan_for(&self, live_words: u64, largest_words: u64) -> Result<Flow> {
        // SAFETY: both live through the call.
        Settings::told(|flow| unsafe { calls::metronome_plan_for(self, live_words, largest_words, flow) })
    }

    /// Returns the plan that a call stores. If there is none, it stores how many pages have one.
    fn told(call: impl FnOnce(&mut Flow) -> u32) -> Result<Flow> {
        let mut flow = Flow::default();
        match done(call(&mut flow)) {
            Err(Refusal::NoPlan) | Ok(()) => Ok(flow),
            Err(why) => Err(why),
        }
    }
}
