//! A run that is recorded: a chain of cells that grows and loses its first ones, into run.toml, run.trace and run.history.
use std::error::Error;
use std::fs::File;
use std::io::BufWriter;

use metronome::{Heap, Recording, Settings};

/// A file to be written.
fn written(name: &str) -> std::io::Result<BufWriter<File>> {
    File::create(name).map(BufWriter::new)
}

fn main() -> Result<(), Box<dyn Error>> {
    let settings = Settings::new(16, 1, 8);
    let mut recording =
        Recording::begin(&settings, written("run.toml")?, written("run.trace")?)?.with_history(written("run.history")?)?;
    let heap = Heap::logged(&settings, 64)?;
    let mutator = heap.mutator(0)?;
    let first = mutator.new_plain(1, 1)?;
    let last = first.another()?;
    for n in 1..3000 {
        let cell = mutator.new_plain(1, 1 + n % 7)?;
        cell.put(0, u64::from(n))?;
        last.store(0, &cell)?;
        last.assign(&cell)?;
        if n > 100 {
            first.load_into(0, &first)?;
        }
        if n % 16 == 0 {
            heap.begin();
            heap.quantum(1000)?;
        }
        recording.record(&heap)?;
    }
    drop((first, last));
    drop(mutator);
    recording.record(&heap)?;
    let lost = recording.lost();
    println!("{} passed, {lost} failed", u32::from(lost == 0));
    Ok(())
}
