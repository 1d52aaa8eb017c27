//! Roots: slots that give themselves back.
use std::ptr;

use crate::calls::{self, ShapeTold};
use crate::heap::Heap;
use crate::mutator::Mutator;
use crate::refusal::{Refusal, Result};

/// A slot of a mutator, which belongs only to this root until it is dropped. It holds null or an object, which is kept.
///
/// A root is used with others of its own mutator. A call with a root of another mutator is refused as `OtherMutator`.
#[derive(Debug)]
pub struct Root<'m> {
    mutator: &'m Mutator<'m>,
    slot: u32,
}

/// The outcome of a comparison.
#[derive(Clone, Copy, Debug, PartialEq, Eq)]
pub enum Compared {
    /// The comparison held, and the cell was written.
    Stored,
    /// The comparison failed: the word, or the identity of the object (0 for null), that stands there.
    Kept(u64),
}

/// The shape of an object.
#[derive(Clone, Copy, Debug, PartialEq, Eq)]
pub enum Shape {
    /// Reference cells and word cells.
    Plain {
        /// How many references.
        refs: u32,
        /// How many words.
        words: u32,
    },
    /// An array of this many references.
    Refs(u32),
    /// An array of this many words.
    Words(u32),
}

impl Shape {
    pub(crate) fn of(told: &ShapeTold) -> Shape {
        match told.kind {
            0 => Shape::Plain { refs: told.refs, words: told.words },
            1 => Shape::Refs(told.refs),
            _ => Shape::Words(told.words),
        }
    }

    /// Returns the words of the blocks that an object of this shape takes, with its headers, as a plan counts them. They are
    /// 0 if the shape is too large.
    pub fn block_words(self) -> u64 {
        let (kind, refs, words) = match self {
            Shape::Plain { refs, words } => (0, refs, words),
            Shape::Refs(refs) => (1, refs, 0),
            Shape::Words(words) => (2, 0, words),
        };
        // SAFETY: the call reads only these numbers.
        unsafe { calls::metronome_block_words(kind, refs, words) }
    }
}

/// The identity and the shape of an object.
#[derive(Clone, Copy, Debug, PartialEq, Eq)]
pub struct Description {
    /// Its identity: 1 for the first object that was made in its heap, and so on.
    pub identity: u64,
    /// Its shape.
    pub shape: Shape,
}

impl<'m> Root<'m> {
    pub(crate) fn new(mutator: &'m Mutator<'m>, slot: u32) -> Root<'m> {
        Root { mutator, slot }
    }

    /// Returns the slot, if the root is one of this mutator.
    pub(crate) fn slot_of(&self, mutator: &Mutator<'_>) -> Result<u32> {
        if ptr::eq(self.mutator, mutator) {
            Ok(self.slot)
        } else {
            Err(Refusal::OtherMutator)
        }
    }

    fn heap(&self) -> &Heap {
        self.mutator.heap
    }

    /// Returns the number of its mutator.
    fn m(&self) -> u32 {
        self.mutator.number
    }

    /// Loads reference cell `i` of this root's object into a new root. Refused: `SlotsUsed`, `NullSlot`, `WrongKind`,
    /// `BadIndex`.
    pub fn load(&self, i: u32) -> Result<Root<'m>> {
        let root = self.mutator.null()?;
        self.load_into(i, &root)?;
        Ok(root)
    }

    /// Does as [`Root::load`], into an existing root, which may be this one.
    pub fn load_into(&self, i: u32, into: &Root<'_>) -> Result<()> {
        self.heap().load(self.m(), into.slot_of(self.mutator)?, self.slot, i).map(drop)
    }

    /// Stores the reference in another root into reference cell `i` of this root's object. Refused as [`Root::load`].
    pub fn store(&self, i: u32, from: &Root<'_>) -> Result<()> {
        self.heap().store(self.m(), self.slot, i, from.slot_of(self.mutator)?)
    }

    /// Stores the reference in `replacement` into reference cell `i`, if that holds the same as `expect`. Refused as
    /// [`Root::load`].
    pub fn compare_store(&self, i: u32, expect: &Root<'_>, replacement: &Root<'_>) -> Result<Compared> {
        self.heap().compare_store(self.m(), self.slot, i, expect.slot_of(self.mutator)?, replacement.slot_of(self.mutator)?)
    }

    /// Reads word cell `i` of this root's object. Refused: `NullSlot`, `WrongKind`, `BadIndex`.
    pub fn get(&self, i: u32) -> Result<u64> {
        self.heap().get(self.m(), self.slot, i)
    }

    /// Writes word cell `i` of this root's object. Refused as [`Root::get`].
    pub fn put(&self, i: u32, word: u64) -> Result<()> {
        self.heap().put(self.m(), self.slot, i, word)
    }

    /// Writes word cell `i`, if that is `old`. Refused as [`Root::get`].
    pub fn compare_put(&self, i: u32, old: u64, replacement: u64) -> Result<Compared> {
        self.heap().compare_put(self.m(), self.slot, i, old, replacement)
    }

    /// Reads words as [`Heap::get_words`] does.
    pub fn get_words(&self, first: u32, words: &mut [u64]) -> Result<()> {
        self.heap().get_words(self.m(), self.slot, first, words)
    }

    /// Writes words as [`Heap::put_words`] does.
    pub fn put_words(&self, first: u32, words: &[u64]) -> Result<()> {
        self.heap().put_words(self.m(), self.slot, first, words)
    }

    /// Copies references of this root's object into another root's, as [`Heap::copy_refs`] does.
    pub fn copy_refs(&self, first: u32, to: &Root<'_>, to_first: u32, count: u32, through: &Root<'_>) -> Result<()> {
        let (by, into) = (through.slot_of(self.mutator)?, to.slot_of(self.mutator)?);
        self.heap().copy_refs(self.m(), by, self.slot, first, into, to_first, count)
    }

    /// Moves the reference in another root into this one, and sets that one to null. Refused: `OtherMutator`.
    pub fn take(&self, from: &Root<'_>) -> Result<()> {
        self.heap().take(self.m(), self.slot, from.slot_of(self.mutator)?)
    }

    /// Copies the reference in another root into this one. Refused: `OtherMutator`.
    pub fn assign(&self, from: &Root<'_>) -> Result<()> {
        self.heap().copy(self.m(), self.slot, from.slot_of(self.mutator)?)
    }

    /// Makes another root of the same object. Refused: `SlotsUsed`.
    pub fn another(&self) -> Result<Root<'m>> {
        let root = self.mutator.null()?;
        root.assign(self)?;
        Ok(root)
    }

    /// Sets this root to null.
    pub fn clear(&self) {
        // It is refused only if the mutator left, by its number: then the slot holds null.
        let _ = self.heap().clear(self.m(), self.slot);
    }

    /// Returns whether both hold the same object, or null. Refused: `OtherMutator`.
    pub fn is_same(&self, other: &Root<'_>) -> Result<bool> {
        self.heap().is_same(self.m(), self.slot, other.slot_of(self.mutator)?)
    }

    /// Returns the object that the root holds, None for null.
    pub fn describe(&self) -> Option<Description> {
        self.heap().describe(self.m(), self.slot).ok()
    }

    /// Returns whether the root holds null.
    pub fn is_null(&self) -> bool {
        self.describe().is_none()
    }
}

impl Drop for Root<'_> {
    fn drop(&mut self) {
        self.clear();
        self.mutator.give_back(self.slot);
    }
}
