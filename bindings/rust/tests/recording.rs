//! The recording of a heap.
use std::io::{self, Write};
use std::sync::{Arc, Mutex};

use metronome::{Heap, Recording, Refusal, Result, Settings};

/// Bytes that were written, of which the test keeps a copy.
#[derive(Clone, Default)]
struct Page(Arc<Mutex<Vec<u8>>>);

impl Page {
    fn text(&self) -> String {
        String::from_utf8(self.0.lock().unwrap().clone()).unwrap()
    }
}

impl Write for Page {
    fn write(&mut self, bytes: &[u8]) -> io::Result<usize> {
        self.0.lock().unwrap().write(bytes)
    }

    fn flush(&mut self) -> io::Result<()> {
        Ok(())
    }
}

/// A sink that takes no more than a number of lines.
struct Full(usize);

impl Write for Full {
    fn write(&mut self, bytes: &[u8]) -> io::Result<usize> {
        let lines = bytes.iter().filter(|byte| **byte == b'\n').count();
        self.0 = self.0.checked_sub(lines).ok_or_else(|| io::Error::new(io::ErrorKind::Other, "full"))?;
        Ok(bytes.len())
    }

    fn flush(&mut self) -> io::Result<()> {
        Ok(())
    }
}

/// A mutator of four slots, and one static.
const SMALL: Settings = Settings { statics: 1, ..Settings::new(8, 1, 4) };

/// Each command, and the collector.
fn run(heap: &Heap) -> Result<()> {
    let mutator = heap.mutator(0)?;
    let (plain, words) = (mutator.new_plain(1, 2)?, mutator.new_words(300)?);
    plain.put(1, 42)?;
    plain.get(1)?;
    plain.compare_put(1, 42, 43)?;
    plain.compare_put(1, 42, 44)?;
    plain.store(0, &words)?;
    plain.compare_store(0, &plain, &words)?;
    plain.load_into(0, &words)?;
    mutator.store_static(0, &plain)?;
    mutator.compare_static(0, &plain, &words)?;
    drop(mutator.load_static(0)?);
    words.is_same(&plain)?;
    words.describe();
    heap.begin();
    assert_eq!(heap.quantum(1).err(), Some(Refusal::BadBudget));
    heap.quantum(1000)?;
    drop(mutator.new_refs(0)?);
    assert_eq!(plain.get(2).err(), Some(Refusal::BadIndex));
    plain.assign(&words)
}

/// The lines of `run`.
const LINES: &str = "0 join => refused 15
0 new 0 plain 1 2 => made 1
0 new 1 words 300 => made 2
0 put 0 1 42 => done
0 get 0 1 => word 42
0 casput 0 1 42 43 => stored
0 casput 0 1 42 44 => keptword 43
0 store 0 0 1 => done
0 cas 0 0 0 1 => kept 2
0 load 1 0 0 => ref 2
0 storestatic 0 0 => done
0 casstatic 0 0 1 => stored
0 loadstatic 2 0 => ref 2
0 clear 2 => done
0 same 1 0 => is no
0 describe 1 => described 2 words 300
begin
quantum 1000
0 new 2 refs 0 => made 3
0 clear 2 => done
0 get 0 2 => refused 3
0 copy 0 1 => done
0 clear 1 => done
0 clear 0 => done
0 leave => done
";

/// The lines, with the replies or without, of the commands or of all.
fn lines(with_replies: bool, with_collector: bool) -> String {
    let kept = LINES.lines().filter(|line| with_collector || line.contains(" => "));
    let cut = |line: &str| line.split(" => ").next().unwrap_or_default().to_owned();
    let written = kept.map(|line| if with_replies { line.to_owned() } else { cut(line) });
    std::iter::once("version 2".to_owned()).chain(written).map(|line| line + "\n").collect()
}

#[test]
fn each_event_is_a_line() -> io::Result<()> {
    let (settings, trace, history) = (Page::default(), Page::default(), Page::default());
    let mut recording = Recording::begin(&SMALL, settings.clone(), trace.clone())?.with_history(history.clone())?;
    let heap = Heap::logged(&SMALL, 100).expect("a heap");
    run(&heap).expect("a run");
    recording.record(&heap)?;
    heap.begin();
    assert_eq!((trace.text(), history.text()), (lines(false, true), lines(true, false)));
    recording.record(&heap)?;
    recording.record(&heap)?;
    assert_eq!((trace.text(), recording.lost()), (lines(false, true) + "begin\n", 0));
    let keys = "pages = 8\nmutators = 1\nslots = 4\nstatics = 1\nidentities = 9223372036854775807\ndefrag_below = 0\n\
        defrag_pages = 0\ncollector_ticks = 10\nmutator_ticks = 12\nrate = 100\nlive = 1\n";
    assert_eq!(settings.text(), keys);
    Ok(())
}

#[test]
fn a_line_that_is_not_taken_is_told() -> io::Result<()> {
    assert!(Recording::begin(&SMALL, Page::default(), Full(0)).is_err());
    for taken in 1..27 {
        let mut recording = Recording::begin(&SMALL, Page::default(), Full(taken))?;
        let heap = Heap::logged(&SMALL, 100).expect("a heap");
        run(&heap).expect("a run");
        assert_eq!(recording.record(&heap).is_ok(), taken == 26);
    }
    Ok(())
}

/// Lists are recorded command by command, and events that are gone are counted.
#[test]
fn lists_are_recorded() -> io::Result<()> {
    let trace = Page::default();
    let mut recording = Recording::begin(&SMALL, Page::default(), trace.clone())?;
    let heap = Heap::logged(&SMALL, 4).expect("a heap");
    heap.new_with(0, 0, 1, 2, &[1], &[7, 8]).expect("an object");
    assert_eq!(heap.get_words(0, 0, 1, &mut [0; 2]).err(), Some(Refusal::BadIndex));
    recording.record(&heap)?;
    assert_eq!(recording.lost(), 2);
    assert_eq!(trace.text(), "version 2\n0 put 0 0 7\n0 put 0 1 8\n0 get 0 1\n0 get 0 2\n");
    Ok(())
}

/// Each quantum for a plan is a line.
#[test]
fn the_work_for_a_plan_is_recorded() -> io::Result<()> {
    let (settings, trace) = (Settings::moving(200, 1, 4), Page::default());
    let mut recording = Recording::begin(&settings, Page::default(), trace.clone())?;
    let heap = Heap::planned(&settings, 1 << 16, &settings.plan(4000).expect("a plan")).expect("a heap");
    for _ in 0..1000 {
        heap.new_words(0, 0, 1000).expect("an object");
    }
    recording.record(&heap)?;
    let (work, lines) = (heap.kept().expect("a plan"), trace.text());
    assert!(work.cycles > 0 && lines.matches("begin\n").count() as u64 == work.cycles);
    assert_eq!(lines.matches("quantum 1000\n").count() as u64, work.quanta);
    Ok(())
}

#[test]
fn a_heap_without_a_log_is_told() -> io::Result<()> {
    let mut recording = Recording::begin(&SMALL, Page::default(), Page::default())?;
    let heap = Heap::new(&SMALL).expect("a heap");
    assert_eq!(heap.entry(0).err(), Some(Refusal::NotShared));
    assert!(recording.record(&heap).is_err());
    Ok(())
}
