//! Mutators: rows of slots.
use std::cell::RefCell;

use crate::heap::Heap;
use crate::refusal::{Refusal, Result};
use crate::root::{Compared, Root};

/// A mutator of a heap, live until it goes out of scope. Then each of its slots holds null.
#[derive(Debug)]
pub struct Mutator<'h> {
    pub(crate) heap: &'h Heap,
    pub(crate) number: u32,
    /// The slots that aren't roots.
    free: RefCell<Vec<u32>>,
}

impl<'h> Mutator<'h> {
    pub(crate) fn join(heap: &'h Heap, number: u32, slots: u32) -> Result<Mutator<'h>> {
        match heap.join(number) {
            Ok(()) | Err(Refusal::AlreadyLive) => Ok(Mutator { heap, number, free: RefCell::new((0..slots).rev().collect()) }),
            // The command names no slot.
            Err(Refusal::BadSlot) => Err(Refusal::NoMutator),
            Err(refusal) => Err(refusal),
        }
    }

    /// Makes a slot, which holds null, free for another root.
    pub(crate) fn give_back(&self, slot: u32) {
        self.free.borrow_mut().push(slot);
    }

    /// Makes a root that holds null. Refused: `SlotsUsed`.
    pub fn null(&self) -> Result<Root<'_>> {
        let slot = self.free.borrow_mut().pop().ok_or(Refusal::SlotsUsed)?;
        Ok(Root::new(self, slot))
    }

    /// Makes a root, into whose slot a command writes.
    fn written<T>(&self, write: impl FnOnce(u32) -> Result<T>) -> Result<Root<'_>> {
        let root = self.null()?;
        write(root.slot_of(self)?)?;
        Ok(root)
    }

    /// Makes an object of `refs` reference cells, all null, and `words` word cells, all 0: at most 252 cells. Refused:
    /// `SlotsUsed`, `TooLarge`, `IdentitiesSpent`, `NoSpace`, `AbovePlan`.
    pub fn new_plain(&self, refs: u32, words: u32) -> Result<Root<'_>> {
        self.written(|dst| self.heap.new_plain(self.number, dst, refs, words))
    }

    /// Does as [`Mutator::new_plain`], into an existing root.
    pub fn new_plain_into(&self, refs: u32, words: u32, into: &Root<'_>) -> Result<()> {
        self.heap.new_plain(self.number, into.slot_of(self)?, refs, words).map(drop)
    }

    /// Makes an object of `refs` reference cells and `words` word cells, at most 252 together. The first reference cells hold
    /// the objects of these roots, the first word cells these words. Refused as [`Mutator::new_plain`], and as `BadIndex` if
    /// there are fewer cells.
    pub fn new_with(&self, refs: u32, words: u32, held: &[&Root<'_>], contents: &[u64]) -> Result<Root<'_>> {
        let slots = held.iter().map(|it| it.slot_of(self)).collect::<Result<Vec<_>>>()?;
        self.written(|dst| self.heap.new_with(self.number, dst, refs, words, &slots, contents))
    }

    /// Makes an array of this many reference cells, all null: at most 4000000. Refused as [`Mutator::new_plain`].
    pub fn new_refs(&self, refs: u32) -> Result<Root<'_>> {
        self.written(|dst| self.heap.new_refs(self.number, dst, refs))
    }

    /// Makes an array of this many word cells, all 0: at most 4000000. Refused as [`Mutator::new_plain`].
    pub fn new_words(&self, words: u32) -> Result<Root<'_>> {
        self.written(|dst| self.heap.new_words(self.number, dst, words))
    }

    /// Loads static `k` into a new root. Refused: `SlotsUsed`, `BadStatic`.
    pub fn load_static(&self, k: u32) -> Result<Root<'_>> {
        self.written(|dst| self.heap.load_static(self.number, dst, k))
    }

    /// Stores the reference in a root into static `k`. Refused: `OtherMutator`, `BadStatic`.
    pub fn store_static(&self, k: u32, from: &Root<'_>) -> Result<()> {
        self.heap.store_static(self.number, k, from.slot_of(self)?)
    }

    /// Stores the reference in `replacement` into static `k`, if that holds the same as `expect`. Refused: `OtherMutator`,
    /// `BadStatic`.
    pub fn compare_static(&self, k: u32, expect: &Root<'_>, replacement: &Root<'_>) -> Result<Compared> {
        self.heap.compare_static(self.number, k, expect.slot_of(self)?, replacement.slot_of(self)?)
    }
}

impl Drop for Mutator<'_> {
    fn drop(&mut self) {
        // It may have left already, by its number.
        let _ = self.heap.leave(self.number);
        self.heap.release(self.number);
    }
}
