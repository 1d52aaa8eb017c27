//! The log of a heap: its last events.
use std::fmt;

use crate::calls::{Answer, ShapeTold};
use crate::heap::{Phase, Spent};
use crate::refusal::{Refusal, Result};
use crate::root::Shape;

/// An event at a place of a log, or why there is none.
#[derive(Clone, Copy, Debug, PartialEq, Eq)]
pub enum Logged {
    /// The event is gone: it isn't one of the last that are kept.
    Gone,
    /// A command.
    Entered(Entry),
    /// A beginning, for which the program or a plan asked: whether a cycle began, because none was running.
    Begin(bool),
    /// A quantum of this budget: its outcome, or that it is refused as `BadBudget`.
    Quantum(u32, Result<Spent>),
    /// No event yet: this is the place behind the last one.
    NotYet,
}

/// A command that was done, or that the heap refused.
#[derive(Clone, Copy, Debug, PartialEq, Eq)]
pub struct Entry {
    /// The mutator that gave the command.
    pub mutator: u32,
    /// The command.
    pub command: Command,
    /// Its reply.
    pub reply: Reply,
}

/// The reply to a command.
#[derive(Clone, Copy, Debug, PartialEq, Eq)]
pub enum Reply {
    /// It was refused.
    Refused(Refusal),
    /// The identity of a new object.
    Made(u64),
    /// The identity that was loaded, 0 for null.
    Ref(u64),
    /// The word that was read.
    Word(u64),
    /// It was done.
    Done,
    /// The comparison held, and the cell was written.
    Stored,
    /// The comparison failed: the identity in the cell, 0 for null.
    Kept(u64),
    /// The comparison failed: the word in the cell.
    KeptWord(u64),
    /// Whether two slots hold the same.
    Is(bool),
    /// The identity and the shape of an object.
    Described(u64, Shape),
}

/// A command of a mutator. Objects are named by their slots: `dst` is the slot that gets a value, `obj` the slot of the
/// object that has cell `i`.
#[allow(missing_docs)] // the fields
#[derive(Clone, Copy, Debug, PartialEq, Eq)]
pub enum Command {
    /// Makes an object.
    New { dst: u32, shape: Shape },
    /// Loads a reference cell into a slot.
    Load { dst: u32, obj: u32, i: u32 },
    /// Stores a slot into a reference cell.
    Store { obj: u32, i: u32, src: u32 },
    /// Stores a slot into a reference cell, if that holds the same as another slot.
    CompareStore { obj: u32, i: u32, expect: u32, replacement: u32 },
    /// Reads a word cell.
    Get { obj: u32, i: u32 },
    /// Writes a word cell.
    Put { obj: u32, i: u32, word: u64 },
    /// Writes a word cell, if it holds a word.
    ComparePut { obj: u32, i: u32, old: u64, replacement: u64 },
    /// Copies a slot into another.
    Copy { dst: u32, src: u32 },
    /// Sets a slot to null.
    Clear { dst: u32 },
    /// Loads a static into a slot.
    LoadStatic { dst: u32, k: u32 },
    /// Stores a slot into a static.
    StoreStatic { k: u32, src: u32 },
    /// Stores a slot into a static, if that holds the same as another slot.
    CompareStatic { k: u32, expect: u32, replacement: u32 },
    /// Compares two slots.
    Same { a: u32, b: u32 },
    /// Returns the identity and the shape of an object.
    Describe { a: u32 },
    /// Makes the mutator live.
    Join,
    /// Sets each slot of the mutator to null; the mutator is then no longer live.
    Leave,
}

/// Requests to the collector, among the kinds of commands.
const BEGIN: u32 = 16;
const QUANTUM: u32 = 17;

#[repr(C)]
#[derive(Default)]
struct CommandTold {
    kind: u32,
    first: u32,
    second: u32,
    third: u32,
    fourth: u32,
    first_word: u64,
    second_word: u64,
}

#[repr(C)]
#[derive(Default)]
pub(crate) struct EventTold {
    kind: u32,
    mutator: u32,
    command: CommandTold,
    answer: Answer,
    shape: ShapeTold,
}

impl Logged {
    pub(crate) fn of(told: &EventTold) -> Logged {
        let CommandTold { kind, first, second, third, .. } = told.command;
        match (told.kind, kind) {
            (0, _) => Logged::Gone,
            (1, BEGIN) => Logged::Begin(told.answer.done().is_ok()),
            (1, QUANTUM) => Logged::Quantum(first, told.answer.done().map(|()| Spent { units: second, phase: Phase::of(third) })),
            (1, _) => Logged::Entered(Entry {
                mutator: told.mutator,
                command: Command::of(&told.command),
                reply: Reply::of(&told.answer, &told.shape),
            }),
            _ => Logged::NotYet,
        }
    }
}

impl Reply {
    fn of(told: &Answer, shape: &ShapeTold) -> Reply {
        let number = told.number;
        match told.kind {
            0 => Reply::Refused(Refusal::of(number as u32)),
            1 => Reply::Made(number),
            2 => Reply::Ref(number),
            3 => Reply::Word(number),
            4 => Reply::Done,
            5 => Reply::Stored,
            6 => Reply::Kept(number),
            7 => Reply::KeptWord(number),
            8 => Reply::Is(number != 0),
            _ => Reply::Described(number, Shape::of(shape)),
        }
    }
}

impl Command {
    fn of(told: &CommandTold) -> Command {
        let (a, b, c, d) = (told.first, told.second, told.third, told.fourth);
        match told.kind {
            0 => Command::New { dst: a, shape: Shape::of(&ShapeTold { kind: b, refs: c, words: d }) },
            1 => Command::Load { dst: a, obj: b, i: c },
            2 => Command::Store { obj: a, i: b, src: c },
            3 => Command::CompareStore { obj: a, i: b, expect: c, replacement: d },
            4 => Command::Get { obj: a, i: b },
            5 => Command::Put { obj: a, i: b, word: told.first_word },
            6 => Command::ComparePut { obj: a, i: b, old: told.first_word, replacement: told.second_word },
            7 => Command::Copy { dst: a, src: b },
            8 => Command::Clear { dst: a },
            9 => Command::LoadStatic { dst: a, k: b },
            10 => Command::StoreStatic { k: a, src: b },
            11 => Command::CompareStatic { k: a, expect: b, replacement: c },
            12 => Command::Same { a, b },
            13 => Command::Describe { a },
            14 => Command::Join,
            _ => Command::Leave,
        }
    }
}

/// Writes a command as a line of a trace ends.
impl fmt::Display for Command {
    fn fmt(&self, out: &mut fmt::Formatter<'_>) -> fmt::Result {
        match self {
            Command::New { dst, shape } => write!(out, "new {dst} {shape}"),
            Command::Load { dst, obj, i } => write!(out, "load {dst} {obj} {i}"),
            Command::Store { obj, i, src } => write!(out, "store {obj} {i} {src}"),
            Command::CompareStore { obj, i, expect, replacement } => write!(out, "cas {obj} {i} {expect} {replacement}"),
            Command::Get { obj, i } => write!(out, "get {obj} {i}"),
            Command::Put { obj, i, word } => write!(out, "put {obj} {i} {word}"),
            Command::ComparePut { obj, i, old, replacement } => write!(out, "casput {obj} {i} {old} {replacement}"),
            Command::Copy { dst, src } => write!(out, "copy {dst} {src}"),
            Command::Clear { dst } => write!(out, "clear {dst}"),
            Command::LoadStatic { dst, k } => write!(out, "loadstatic {dst} {k}"),
            Command::StoreStatic { k, src } => write!(out, "storestatic {k} {src}"),
            Command::CompareStatic { k, expect, replacement } => write!(out, "casstatic {k} {expect} {replacement}"),
            Command::Same { a, b } => write!(out, "same {a} {b}"),
            Command::Describe { a } => write!(out, "describe {a}"),
            Command::Join => out.write_str("join"),
            Command::Leave => out.write_str("leave"),
        }
    }
}

/// Writes a reply as a line of a history ends.
impl fmt::Display for Reply {
    fn fmt(&self, out: &mut fmt::Formatter<'_>) -> fmt::Result {
        match self {
            Reply::Refused(why) => write!(out, "refused {}", why.status()),
            Reply::Made(identity) => write!(out, "made {identity}"),
            Reply::Ref(identity) => write!(out, "ref {identity}"),
            Reply::Word(word) => write!(out, "word {word}"),
            Reply::Done => out.write_str("done"),
            Reply::Stored => out.write_str("stored"),
            Reply::Kept(identity) => write!(out, "kept {identity}"),
            Reply::KeptWord(word) => write!(out, "keptword {word}"),
            Reply::Is(is) => out.write_str(if *is { "is yes" } else { "is no" }),
            Reply::Described(identity, shape) => write!(out, "described {identity} {shape}"),
        }
    }
}

/// Writes a shape as a line of a trace has it.
impl fmt::Display for Shape {
    fn fmt(&self, out: &mut fmt::Formatter<'_>) -> fmt::Result {
        match self {
            Shape::Plain { refs, words } => write!(out, "plain {refs} {words}"),
            Shape::Refs(refs) => write!(out, "refs {refs}"),
            Shape::Words(words) => write!(out, "words {words}"),
        }
    }
}
