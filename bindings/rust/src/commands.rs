//! The commands of mutators, by the numbers of mutators and slots: those in which a [`Root`](crate::Root) has its name.
use crate::calls::{call, ShapeTold};
use crate::heap::Heap;
use crate::refusal::Result;
use crate::root::{Compared, Description, Shape};

/// Defines commands: each with the function of the library that does it, its parameters, and the part of its answer that is returned.
macro_rules! commands {
    ($($(#[$doc:meta])* $name:ident = $function:ident($($given:ident: $type:ty),*) -> $answer:ident: $result:ty;)*) => {
        $($(#[$doc])*
        #[allow(clippy::too_many_arguments)]
        pub fn $name(&self, mutator: u32 $(, $given: $type)*) -> Result<$result> {
            call!(self, $function, mutator $(, $given)*).$answer()
        })*
    };
}

/// Commands that name mutators and slots by their numbers. A slot holds its reference until it is written again; at a shared heap it
/// stays from turn to turn. They should leave those slots alone that are roots of a [`Mutator`](crate::Mutator). Each is refused as
/// `NotYours` for a mutator of another seat, as `NotLive` for one that isn't live, and as `BadSlot` if there is no such mutator or slot.
impl Heap {
    commands! {
        /// Makes an object of `refs` reference cells, all null, and `words` word cells, all 0, in a slot: at most 252 cells. Returns
        /// its identity. Refused: `TooLarge`, `IdentitiesSpent`, `NoSpace`, `AbovePlan`.
        new_plain = metronome_new_plain(dst: u32, refs: u32, words: u32) -> number: u64;
        /// Makes an array of this many reference cells, all null: at most 4000000. Refused as [`Heap::new_plain`].
        new_refs = metronome_new_refs(dst: u32, refs: u32) -> number: u64;
        /// Makes an array of this many word cells, all 0: at most 4000000. Refused as [`Heap::new_plain`].
        new_words = metronome_new_words(dst: u32, words: u32) -> number: u64;
        /// Loads reference cell `i` of an object into a slot. Returns its identity, 0 for null. Refused: `NullSlot`, `WrongKind`,
        /// `BadIndex`.
        load = metronome_load(dst: u32, obj: u32, i: u32) -> number: u64;
        /// Stores the reference in a slot into reference cell `i` of an object. Refused as [`Heap::load`].
        store = metronome_store(obj: u32, i: u32, src: u32) -> done: ();
        /// Stores the reference in slot `replacement` into reference cell `i`, if that holds the same as slot `expect`. Refused as
        /// [`Heap::load`].
        compare_store = metronome_compare_store(obj: u32, i: u32, expect: u32, replacement: u32) -> compared: Compared;
        /// Copies `count` reference cells of an object, at most 252, from cell `first` on, into those of the object in slot `to`, from cell
        /// `to_first` on, one after the other by way of slot `through`. Refused as [`Heap::load`], and as `TooLarge`.
        copy_refs = metronome_copy_refs(through: u32, from: u32, first: u32, to: u32, to_first: u32, count: u32) -> all: ();
        /// Reads word cell `i` of an object. Refused as [`Heap::load`].
        get = metronome_get(obj: u32, i: u32) -> number: u64;
        /// Writes word cell `i` of an object. Refused as [`Heap::load`].
        put = metronome_put(obj: u32, i: u32, word: u64) -> done: ();
        /// Writes word cell `i` of an object, if that is `old`. Refused as [`Heap::load`].
        compare_put = metronome_compare_put(obj: u32, i: u32, old: u64, replacement: u64) -> compared: Compared;
        /// Copies the reference in slot `src` into slot `dst`.
        copy = metronome_copy(dst: u32, src: u32) -> done: ();
        /// Copies the reference in slot `src` into slot `dst`, and sets slot `src` to null, unless they are the same.
        take = metronome_move(dst: u32, src: u32) -> all: ();
        /// Sets a slot to null.
        clear = metronome_clear(dst: u32) -> done: ();
        /// Sets `count` slots to null, from slot `first` on.
        clear_slots = metronome_clear_slots(first: u32, count: u32) -> all: ();
        /// Loads static `k` into a slot. Returns its identity, 0 for null. Refused: `BadStatic`.
        load_static = metronome_load_static(dst: u32, k: u32) -> number: u64;
        /// Stores the reference in a slot into static `k`. Refused: `BadStatic`.
        store_static = metronome_store_static(k: u32, src: u32) -> done: ();
        /// Stores the reference in slot `replacement` into static `k`, if that holds the same as slot `expect`. Refused: `BadStatic`.
        compare_static = metronome_compare_static(k: u32, expect: u32, replacement: u32) -> compared: Compared;
        /// Makes a mutator live, with null in each slot. Refused: `AlreadyLive`.
        join = metronome_join() -> done: ();
        /// Sets each slot of a mutator to null; the mutator is then no longer live.
        leave = metronome_leave() -> done: ();
    }

    /// Makes an object as [`Heap::new_plain`] does, with the references of these slots in its first reference cells, and these words
    /// in its first word cells. Refused also as `BadIndex` if there are fewer cells.
    pub fn new_with(&self, mutator: u32, dst: u32, refs: u32, words: u32, slots: &[u32], contents: &[u64]) -> Result<()> {
        let (row, cells) = (slots.as_ptr(), contents.as_ptr());
        call!(self, metronome_new_from, mutator, dst, refs, words, row, slots.len(), cells, contents.len()).all()
    }

    /// Reads as many word cells as `words` has room for, at most 252, from cell `first` on. Words that aren't read keep their old
    /// value. Refused as [`Heap::load`], and as `TooLarge`.
    pub fn get_words(&self, mutator: u32, obj: u32, first: u32, words: &mut [u64]) -> Result<()> {
        call!(self, metronome_get_words_into, mutator, obj, first, words.as_mut_ptr(), words.len()).all()
    }

    /// Writes at most 252 words, from cell `first` on. Words before a refused one are written. Refused as [`Heap::get_words`].
    pub fn put_words(&self, mutator: u32, obj: u32, first: u32, words: &[u64]) -> Result<()> {
        call!(self, metronome_put_words_from, mutator, obj, first, words.as_ptr(), words.len()).all()
    }

    /// Returns whether two slots hold the same object, or null.
    pub fn is_same(&self, mutator: u32, a: u32, b: u32) -> Result<bool> {
        call!(self, metronome_same, mutator, a, b).number().map(|is| is != 0)
    }

    /// Returns the object that a slot holds. Refused: `NullSlot`.
    pub fn describe(&self, mutator: u32, a: u32) -> Result<Description> {
        let mut told = ShapeTold::default();
        let identity = call!(self, metronome_describe, mutator, a, &mut told).number()?;
        Ok(Description { identity, shape: Shape::of(&told) })
    }
}
