//! The calls of metronome.h and of the headers that it includes, and their types.
use std::ffi::c_void;
use std::os::raw::c_char;

use crate::flow::{Flow, Work};
use crate::heap::Cycle;
use crate::log::EventTold;
use crate::refusal::{Refusal, Result};
use crate::root::Compared;

/// The version of metronome.h that these declarations are for.
pub(crate) const VERSION: u32 = 3;

pub(crate) const OK: u32 = 0;

/// A handle that holds a heap, or none.
#[repr(C)]
pub(crate) struct Handle {
    at: *mut c_void,
    check: u64,
}

impl Handle {
    pub(crate) const CLOSED: Handle = Handle { at: std::ptr::null_mut(), check: 0 };
}

/// The settings of a heap, each with its range.
#[repr(C)]
#[derive(Clone, Copy, Debug, PartialEq, Eq)]
pub struct Settings {
    /// 1 to 1048576: pages of 2048 words of 8 bytes. A configuration file goes up to 4096.
    pub pages: i64,
    /// How many mutators there are: 1 to 64.
    pub mutators: i64,
    /// How many slots each mutator has: 1 to 256.
    pub slots: i64,
    /// How many statics there are: 0 to 256.
    pub statics: i64,
    /// The greatest identity that is given to an object: 1 to `i64::MAX`.
    pub identities: i64,
    /// Moving follows each sweep that leaves fewer free pages: 0 to 1048577.
    pub defrag_below: i64,
    /// The most pages that a cycle empties: 0 to 1048576.
    pub defrag_pages: i64,
    /// 1 to 1000000. This and the next two are a schedule. `collector_ticks * rate` is also the budget of a plan.
    pub collector_ticks: i64,
    /// 1 to 1000000. The library only checks its range.
    pub mutator_ticks: i64,
    /// 1 to 1000000; `collector_ticks * rate` is 256 to 1000000.
    pub rate: i64,
    /// How many mutators are live before a [`crate::Mutator`] of them is made: 0 to `mutators`.
    pub live: i64,
}

impl Settings {
    /// Returns settings with these numbers of pages, of mutators and of slots of each, and the defaults of the others.
    pub const fn new(pages: i64, mutators: i64, slots: i64) -> Settings {
        Settings {
            pages,
            mutators,
            slots,
            statics: 0,
            identities: i64::MAX,
            defrag_below: 0,
            defrag_pages: 0,
            collector_ticks: 10,
            mutator_ticks: 12,
            rate: 100,
            live: mutators,
        }
    }

    /// Returns the most units and quanta of a cycle in a heap of these settings. Refused: `BadSetting`, `BadSchedule`.
    pub fn cycle_limit(&self) -> Result<CycleLimit> {
        let mut limit = CycleLimit::default();
        // SAFETY: both live through the call.
        done(unsafe { metronome_cycle_limit(self, &mut limit) })?;
        Ok(limit)
    }
}

/// Returns the version of metronome.h that the installed library is for.
pub fn version() -> u32 {
    // SAFETY: it may be called at any time.
    unsafe { metronome_version() }
}

/// Calls a function of the library on a heap, with further parameters.
macro_rules! call {
    ($heap:expr, $name:ident $(, $given:expr)*) => {
        // SAFETY: the heap is open, and it and the places to which parameters point live through the call. No other call uses it: a
        // heap isn't `Sync`, and the library calls nothing back.
        unsafe { $crate::calls::$name($heap.handle() $(, $given)*) }
    };
}
pub(crate) use call;

/// How a command ends.
#[repr(C)]
#[derive(Default)]
pub(crate) struct Answer {
    pub(crate) kind: u32,
    pub(crate) number: u64,
}

/// Kinds of answers.
const REFUSED: u32 = 0;
const STORED: u32 = 5;

impl Answer {
    /// Returns the number of the answer, unless the command is refused.
    pub(crate) fn number(&self) -> Result<u64> {
        match self.kind {
            REFUSED => Err(Refusal::of(self.number as u32)),
            _ => Ok(self.number),
        }
    }

    /// Returns why the command is refused, if it is.
    pub(crate) fn done(&self) -> Result<()> {
        self.number().map(drop)
    }

    /// Returns the outcome of a comparison.
    pub(crate) fn compared(&self) -> Result<Compared> {
        self.number().map(|number| if self.kind == STORED { Compared::Stored } else { Compared::Kept(number) })
    }
}

/// How far a list of commands was done.
#[repr(C)]
pub(crate) struct ProgressTold {
    done: u32,
    status: u32,
}

impl ProgressTold {
    /// Returns why a command was refused, if one was.
    pub(crate) fn all(&self) -> Result<()> {
        done(self.status)
    }
}

/// A status as a result.
pub(crate) fn done(status: u32) -> Result<()> {
    match status {
        OK => Ok(()),
        status => Err(Refusal::of(status)),
    }
}

#[repr(C)]
#[derive(Default)]
pub(crate) struct ShapeTold {
    pub(crate) kind: u32,
    pub(crate) refs: u32,
    pub(crate) words: u32,
}

#[repr(C)]
#[derive(Default)]
pub(crate) struct SpentTold {
    pub(crate) units: u32,
    pub(crate) phase: u32,
}

/// The counts of a heap.
#[repr(C)]
#[derive(Clone, Copy, Debug, Default, PartialEq, Eq)]
pub struct Counts {
    /// All pages.
    pub pages: u64,
    /// Free pages.
    pub free_pages: u64,
    /// Slots of all mutators, and statics.
    pub root_cells: u64,
    /// Root cells that don't hold null.
    pub roots_used: u64,
    /// Objects that lie in the heap: all that can be reached, and garbage that isn't freed yet.
    pub objects: u64,
    /// The parts that they are cut into.
    pub parts: u64,
    /// Blocks that were moved and aren't freed yet.
    pub old_copies: u64,
}

/// A page: 2048 words in blocks of one size. Each number of a free page is 0.
#[repr(C)]
#[derive(Clone, Copy, Debug, Default, PartialEq, Eq)]
pub struct Page {
    /// The words of a block; the page has 2048 / `size` of them.
    pub size: u32,
    /// How many blocks hold parts of objects, or old copies of parts.
    pub held: u32,
    /// 1 if its blocks are being moved away, and it gets no new one; else 0.
    pub leaving: u32,
    /// 1 if a block was moved to it since the last sweep; else 0.
    pub receiving: u32,
}

#[repr(C)]
#[derive(Default)]
pub(crate) struct BlockTold {
    pub(crate) identity: u64,
    pub(crate) shape: ShapeTold,
    pub(crate) part: u32,
    pub(crate) held: u32,
    pub(crate) old: u32,
}

/// The most units and quanta of a cycle.
#[repr(C)]
#[derive(Clone, Copy, Debug, Default, PartialEq, Eq)]
pub struct CycleLimit {
    /// Units.
    pub units: u64,
    /// Quanta of `collector_ticks * rate` units each, or of more.
    pub quanta: u64,
}

extern "C" {
    pub(crate) fn metronome_create_for(heap: *mut Handle, settings: *const Settings, version: u32) -> u32;
    pub(crate) fn metronome_create_shared_for(heap: *mut Handle, settings: *const Settings, log: usize, version: u32) -> u32;
    pub(crate) fn metronome_create_shared_kept_for(
        heap: *mut Handle, settings: *const Settings, log: usize, flow: *const Flow, version: u32,
    ) -> u32;
    pub(crate) fn metronome_sit(heap: *mut Handle, made: *mut Handle, from: u32) -> u32;
    pub(crate) fn metronome_enter(heap: *mut Handle) -> u32;
    pub(crate) fn metronome_exit(heap: *mut Handle) -> u32;
    pub(crate) fn metronome_place(heap: *mut Handle, place: *mut u64) -> u32;
    pub(crate) fn metronome_entry(heap: *mut Handle, place: u64, event: *mut EventTold) -> u32;
    pub(crate) fn metronome_touch(heap: *mut Handle, pages: usize) -> u32;
    pub(crate) fn metronome_destroy(heap: *mut Handle);
    pub(crate) fn metronome_new_plain(heap: *mut Handle, mutator: u32, dst: u32, refs: u32, words: u32) -> Answer;
    pub(crate) fn metronome_new_refs(heap: *mut Handle, mutator: u32, dst: u32, refs: u32) -> Answer;
    pub(crate) fn metronome_new_words(heap: *mut Handle, mutator: u32, dst: u32, words: u32) -> Answer;
    pub(crate) fn metronome_load(heap: *mut Handle, mutator: u32, dst: u32, obj: u32, i: u32) -> Answer;
    pub(crate) fn metronome_store(heap: *mut Handle, mutator: u32, obj: u32, i: u32, src: u32) -> Answer;
    pub(crate) fn metronome_compare_store(
        heap: *mut Handle, mutator: u32, obj: u32, i: u32, expect: u32, replacement: u32,
    ) -> Answer;
    pub(crate) fn metronome_get(heap: *mut Handle, mutator: u32, obj: u32, i: u32) -> Answer;
    pub(crate) fn metronome_put(heap: *mut Handle, mutator: u32, obj: u32, i: u32, word: u64) -> Answer;
    pub(crate) fn metronome_compare_put(heap: *mut Handle, mutator: u32, obj: u32, i: u32, old: u64, replacement: u64) -> Answer;
    pub(crate) fn metronome_copy(heap: *mut Handle, mutator: u32, dst: u32, src: u32) -> Answer;
    pub(crate) fn metronome_clear(heap: *mut Handle, mutator: u32, dst: u32) -> Answer;
    pub(crate) fn metronome_load_static(heap: *mut Handle, mutator: u32, dst: u32, k: u32) -> Answer;
    pub(crate) fn metronome_store_static(heap: *mut Handle, mutator: u32, k: u32, src: u32) -> Answer;
    pub(crate) fn metronome_compare_static(heap: *mut Handle, mutator: u32, k: u32, expect: u32, replacement: u32) -> Answer;
    pub(crate) fn metronome_same(heap: *mut Handle, mutator: u32, a: u32, b: u32) -> Answer;
    pub(crate) fn metronome_describe(heap: *mut Handle, mutator: u32, a: u32, shape: *mut ShapeTold) -> Answer;
    pub(crate) fn metronome_join(heap: *mut Handle, mutator: u32) -> Answer;
    pub(crate) fn metronome_leave(heap: *mut Handle, mutator: u32) -> Answer;
    #[allow(dead_code)] // a command is refused for the same reason
    pub(crate) fn metronome_check_slot(heap: *mut Handle, mutator: u32, slot: u32) -> u32;
    pub(crate) fn metronome_clear_slots(heap: *mut Handle, mutator: u32, first: u32, count: u32) -> ProgressTold;
    pub(crate) fn metronome_move(heap: *mut Handle, mutator: u32, dst: u32, src: u32) -> ProgressTold;
    pub(crate) fn metronome_get_words_into(
        heap: *mut Handle, mutator: u32, obj: u32, first: u32, words: *mut u64, count: usize,
    ) -> ProgressTold;
    pub(crate) fn metronome_put_words_from(
        heap: *mut Handle, mutator: u32, obj: u32, first: u32, words: *const u64, count: usize,
    ) -> ProgressTold;
    pub(crate) fn metronome_copy_refs(
        heap: *mut Handle, mutator: u32, through: u32, from: u32, from_first: u32, to: u32, to_first: u32, count: u32,
    ) -> ProgressTold;
    pub(crate) fn metronome_new_from(
        heap: *mut Handle, mutator: u32, dst: u32, refs: u32, words: u32, slots: *const u32, slot_count: usize,
        contents: *const u64, word_count: usize,
    ) -> ProgressTold;
    pub(crate) fn metronome_begin(heap: *mut Handle) -> u32;
    pub(crate) fn metronome_quantum(heap: *mut Handle, budget: u32, spent: *mut SpentTold) -> u32;
    pub(crate) fn metronome_phase(heap: *mut Handle, phase: *mut u32) -> u32;
    pub(crate) fn metronome_units(heap: *mut Handle, units: *mut u64) -> u32;
    pub(crate) fn metronome_free_pages(heap: *mut Handle, free_pages: *mut u64) -> u32;
    pub(crate) fn metronome_count(heap: *mut Handle, counts: *mut Counts) -> u32;
    pub(crate) fn metronome_last_cycle(heap: *mut Handle, cycle: *mut Cycle) -> u32;
    pub(crate) fn metronome_page(heap: *mut Handle, number: usize, page: *mut Page) -> u32;

    pub(crate) fn metronome_block(heap: *mut Handle, page: usize, number: usize, block: *mut BlockTold) -> u32;
    pub(crate) fn metronome_cycle_limit(settings: *const Settings, limit: *mut CycleLimit) -> u32;
    pub(crate) fn metronome_plan(settings: *const Settings, live_words: u64, flow: *mut Flow) -> u32;
    pub(crate) fn metronome_plan_for(settings: *const Settings, live_words: u64, largest_words: u64, flow: *mut Flow) -> u32;
    pub(crate) fn metronome_block_words(kind: u32, refs: u32, words: u32) -> u64;
    pub(crate) fn metronome_keep(heap: *mut Handle, flow: *const Flow) -> u32;
    pub(crate) fn metronome_kept(heap: *mut Handle, work: *mut Work) -> u32;
    pub(crate) fn metronome_prepare(heap: *mut Handle, words: u64, left: *mut u64) -> u32;
    pub(crate) fn metronome_text_into(status: u32, text: *mut c_char, length: usize) -> usize;
    pub(crate) fn metronome_version() -> u32;
}
