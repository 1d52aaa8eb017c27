//! Recordings: the events of a heap, as lines that the program `metronome` plays.
use std::fmt;
use std::io::{self, Write};

use crate::calls::Settings;
use crate::heap::Heap;
use crate::log::Logged;

/// A recording of a heap that keeps a log: its settings as a configuration, and each command, beginning and quantum, also those that the
/// collector does for a plan, as a line of a trace of version 2. `metronome pages run.toml run.trace` then prints how many pages the
/// program needs, `inspect` and `draw` show its heap, and `play` repeats the run. A quantum that is refused is no line.
///
/// ```
/// use metronome::{Heap, Recording, Settings};
///
/// fn main() -> Result<(), Box<dyn std::error::Error>> {
///     let settings = Settings::new(64, 1, 16);
///     let mut recording = Recording::begin(&settings, Vec::new(), Vec::new())?; // or files
///     let heap = Heap::logged(&settings, 4096)?;
///     heap.mutator(0)?.new_plain(1, 2)?;
///     recording.record(&heap)?; // once in at most 4096 events
///     assert_eq!(recording.lost(), 0);
///     Ok(())
/// }
/// ```
pub struct Recording {
    trace: Box<dyn Write + Send>,
    history: Option<Box<dyn Write + Send>>,
    /// The place in the log of the event that comes next.
    next: u64,
    lost: u64,
}

impl Recording {
    /// Begins a recording. The settings go to the first of these, and a line for each event to the second. Many short lines are
    /// written, so give a file in a `BufWriter`.
    pub fn begin(of: &Settings, mut settings: impl Write, mut trace: impl Write + Send + 'static) -> io::Result<Recording> {
        let Settings { pages, mutators, slots, statics, identities, defrag_below, defrag_pages, .. } = of;
        let Settings { collector_ticks, mutator_ticks, rate, live, .. } = of;
        writeln!(settings, "pages = {pages}\nmutators = {mutators}\nslots = {slots}\nstatics = {statics}")?;
        writeln!(settings, "identities = {identities}\ndefrag_below = {defrag_below}\ndefrag_pages = {defrag_pages}")?;
        writeln!(settings, "collector_ticks = {collector_ticks}\nmutator_ticks = {mutator_ticks}\nrate = {rate}\nlive = {live}")?;
        settings.flush()?;
        writeln!(trace, "version 2")?;
        Ok(Recording { trace: Box::new(trace), history: None, next: 0, lost: 0 })
    }

    /// Writes each command here too, with its reply, as `metronome play --history` does.
    pub fn with_history(self, mut history: impl Write + Send + 'static) -> io::Result<Recording> {
        writeln!(history, "version 2")?;
        Ok(Recording { history: Some(Box::new(history)), ..self })
    }

    /// Writes the events that weren't written yet, and flushes. Those that are gone from the log are counted as lost. Err if a line
    /// wasn't taken, after which nothing should be recorded, or if the heap keeps no log.
    pub fn record(&mut self, heap: &Heap) -> io::Result<()> {
        loop {
            match heap.entry(self.next).map_err(|why| io::Error::new(io::ErrorKind::Other, why))? {
                Logged::NotYet => break,
                Logged::Gone => self.lost += 1,
                Logged::Begin(_) => writeln!(self.trace, "begin")?,
                Logged::Quantum(budget, Ok(_)) => writeln!(self.trace, "quantum {budget}")?,
                Logged::Quantum(_, Err(_)) => {}
                Logged::Entered(it) => {
                    writeln!(self.trace, "{} {}", it.mutator, it.command)?;
                    if let Some(history) = &mut self.history {
                        writeln!(history, "{} {} => {}", it.mutator, it.command, it.reply)?;
                    }
                }
            }
            self.next += 1;
        }
        self.trace.flush()?;
        self.history.as_mut().map_or(Ok(()), |history| history.flush())
    }

    /// Returns how many events were gone before they were recorded. If there are any, the trace isn't whole.
    pub fn lost(&self) -> u64 {
        self.lost
    }
}

impl fmt::Debug for Recording {
    fn fmt(&self, out: &mut fmt::Formatter<'_>) -> fmt::Result {
        out.debug_struct("Recording").field("next", &self.next).field("lost", &self.lost).finish_non_exhaustive()
    }
}
