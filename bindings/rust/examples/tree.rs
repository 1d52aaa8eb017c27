//! A sorted tree of words in the heap, which goes from thread to thread in a static.
use std::process::ExitCode;
use std::thread;

use metronome::{Heap, Mutator, Refusal, Result, Root, Settings};

/// The static that holds the root of the tree. A node has a word, and refers to the nodes of lesser words and of greater ones.
const TREE: u32 = 0;

/// Finds the place of a word, present or not: the side of the node that `here` holds in the end, None if that has the word itself.
fn find(here: &Root<'_>, word: u64) -> Result<Option<u32>> {
    loop {
        let found = here.get(0)?;
        if found == word {
            return Ok(None);
        }
        let side = u32::from(found < word);
        if here.load(side)?.is_null() {
            return Ok(Some(side));
        }
        here.load_into(side, here)?;
    }
}

/// Adds a word, unless it is there.
fn insert(mutator: &Mutator<'_>, word: u64) -> Result<()> {
    let here = mutator.load_static(TREE)?;
    let node = mutator.new_plain(2, 1)?;
    node.put(0, word)?;
    if here.is_null() {
        return mutator.store_static(TREE, &node);
    }
    match find(&here, word)? {
        Some(side) => here.store(side, &node),
        None => Ok(()),
    }
}

/// Whether a word is there.
fn contains(mutator: &Mutator<'_>, word: u64) -> Result<bool> {
    Ok(find(&mutator.load_static(TREE)?, word)?.is_none())
}

/// Inserts words, with a quantum of the collector each eighth time.
fn fill(heap: Heap) -> Result<Heap> {
    let mutator = heap.mutator(0)?;
    for n in 0..20000 {
        insert(&mutator, n * 7919 % 2000)?;
        if n % 8 == 0 {
            heap.begin();
            assert!(heap.quantum(1000)?.units <= 1000);
        }
    }
    drop(mutator);
    Ok(heap)
}

fn main() -> Result<ExitCode> {
    let settings = Settings { statics: 1, ..Settings::new(16, 1, 4) };
    let heap = Heap::new(&settings)?;
    let heap = thread::spawn(move || fill(heap)).join().expect("the thread ends")?;
    let mutator = heap.mutator(0)?;
    let all: Result<Vec<bool>> = (0..2000).map(|word| contains(&mutator, word)).collect();
    let checks = [
        all?.into_iter().all(|is| is),
        !contains(&mutator, 2000)?,
        Heap::new(&Settings { slots: 0, ..settings }).err() == Some(Refusal::BadSetting(2)),
    ];
    let failed = checks.iter().filter(|holds| !**holds).count();
    println!("{} passed, {} failed", checks.len() - failed, failed);
    Ok(ExitCode::from(u8::from(failed > 0)))
}
