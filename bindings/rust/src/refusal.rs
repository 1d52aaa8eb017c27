//! Why a call was refused.
use std::error::Error;
use std::fmt;

use crate::calls::metronome_text_into;

/// What a call answers.
pub type Result<T> = std::result::Result<T, Refusal>;

/// Defines the refusals from their numbers in metronome.h.
macro_rules! refusals {
    ($($(#[$doc:meta])* $name:ident = $number:literal,)*) => {
        /// Why a call was refused. Nothing has changed then, with two exceptions. The collector may have worked for a plan. If a call
        /// does several commands, those before the refused one are done.
        #[derive(Clone, Copy, Debug, PartialEq, Eq, Hash)]
        #[non_exhaustive]
        pub enum Refusal {
            $($(#[$doc])* $name,)*
            /// The setting at this place, 0 (`pages`) to 10 (`live`), is out of its range.
            BadSetting(u32),
            /// A status of the library for which this crate has no other name.
            Other(u32),
        }

        const NUMBERED: &[(u32, Refusal)] = &[$(($number, Refusal::$name)),*];
    };
}

refusals! {
    /// No such slot or mutator, of a call that names it by its number.
    BadSlot = 1,
    /// The root that names the object holds null.
    NullSlot = 2,
    /// The object has no cell of that number.
    BadIndex = 3,
    /// The object has no cells of that kind.
    WrongKind = 4,
    /// More than 252 cells, or than 4000000 of an array.
    TooLarge = 5,
    /// The next identity is above the setting.
    IdentitiesSpent = 6,
    /// No room for the object: [`crate::Heap::whole_cycle`] may make some.
    NoSpace = 7,
    /// No such static.
    BadStatic = 8,
    /// The allocator refused.
    NoMemory = 9,
    /// The budget of a quantum isn't 256 to 1000000, or a pace has no words.
    BadBudget = 12,
    /// The mutator isn't live.
    NotLive = 14,
    /// The mutator is live already, or there is a [`crate::Mutator`] of that number.
    AlreadyLive = 15,
    /// `collector_ticks * rate` isn't 256 to 1000000.
    BadSchedule = 18,
    /// The installed library is of another version than this crate.
    OtherVersion = 40,
    /// Another seat has the turn.
    Taken = 41,
    /// The mutator isn't one of the seat's, or of those that no seat has.
    NotYours = 44,
    /// No plan fits, or the heap isn't one that can keep this one, or it keeps none.
    NoPlan = 46,
    /// The object has, or [`crate::Heap::prepare`] asks for, more words than the plan has for a whole cycle.
    AbovePlan = 47,
    /// No such mutator.
    NoMutator = 48,
    /// Each slot of the mutator is a root already: drop one, or make the heap with more slots (256 at most).
    SlotsUsed = 49,
    /// The root is one of another mutator.
    OtherMutator = 50,
    /// The heap keeps no log: it is one of [`crate::Heap::new`].
    NotShared = 51,
    /// The heap isn't one of [`crate::Heap::new`].
    IsShared = 52,
    /// The heap has events in its log already.
    InUse = 53,
}

const FIRST_SETTING: u32 = 20;
const SETTINGS: u32 = 11;

impl Refusal {
    /// The refusal of a status.
    pub(crate) fn of(status: u32) -> Refusal {
        match status.checked_sub(FIRST_SETTING) {
            Some(place) if place < SETTINGS => Refusal::BadSetting(place),
            _ => NUMBERED.iter().find(|(number, _)| *number == status).map_or(Refusal::Other(status), |(_, it)| *it),
        }
    }

    /// Returns the status of metronome.h.
    pub fn status(self) -> u32 {
        match self {
            Refusal::BadSetting(place) => FIRST_SETTING + place,
            Refusal::Other(status) => status,
            named => NUMBERED.iter().find(|(_, it)| *it == named).map_or(0, |(number, _)| *number),
        }
    }
}

impl fmt::Display for Refusal {
    fn fmt(&self, out: &mut fmt::Formatter<'_>) -> fmt::Result {
        if *self == Refusal::OtherVersion {
            return out.write_str("the library is of another version");
        }
        let mut text = [0u8; 64];
        // SAFETY: `text` has that many bytes, and nothing else uses it while the call runs.
        let length = unsafe { metronome_text_into(self.status(), text.as_mut_ptr().cast(), text.len()) };
        out.write_str(&String::from_utf8_lossy(&text[..length.min(text.len() - 1)]))
    }
}

impl Error for Refusal {}
