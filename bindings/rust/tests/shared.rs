//! Heaps that threads share: seats, turns, and what each call finds.
use std::panic::{catch_unwind, AssertUnwindSafe};
use std::sync::mpsc;
use std::thread;

use metronome::{
    Command, Compared, Description, Entry, Logged, Pacing, Page, Phase, Refusal, Reply, Result, Seat, Settings, Shape, Shared,
};

/// Four mutators of four slots, and one static.
const SMALL: Settings = Settings { statics: 1, ..Settings::new(16, 4, 4) };

const ROUNDS: u64 = 5000;

#[test]
fn mutators_go_to_seats() -> Result<()> {
    let shared = Shared::new(&SMALL)?;
    let mut last = shared.seat(2)?;
    assert_eq!(shared.seat(3).err(), Some(Refusal::NotYours));
    let mut very_last = last.another(3)?;
    assert_eq!(last.another(1).err(), Some(Refusal::NotYours));
    for (seat, own, strange) in [(&mut last, 2, 3), (&mut very_last, 3, 2)] {
        let turn = seat.enter();
        turn.clear(own, 0)?;
        assert_eq!(turn.clear(strange, 0).err(), Some(Refusal::NotYours));
        assert_eq!(turn.clear(0, 0).err(), Some(Refusal::NotYours));
    }
    shared.enter().clear(1, 0)?;
    assert_eq!(shared.enter().clear(2, 0).err(), Some(Refusal::NotYours));
    assert_eq!((shared.place(), last.place()), (3, 3));
    Ok(())
}

#[test]
fn the_last_entries_are_logged() -> Result<()> {
    let shared = Shared::logged(&SMALL, 4)?;
    let mut seat = shared.seat(1)?;
    let shape = Shape::Plain { refs: 1, words: 2 };
    let turn = seat.enter();
    assert_eq!(turn.entry(0)?, Logged::NotYet);
    turn.clear(1, 3)?;
    turn.new_plain(1, 0, 1, 2)?;
    assert_eq!(turn.compare_put(1, 0, 1, 5, 6)?, Compared::Kept(0));
    drop(turn);
    let turn = shared.enter();
    assert_eq!(turn.describe(0, 2).err(), Some(Refusal::NullSlot));
    assert!(turn.begin() && !turn.begin());
    assert_eq!(turn.quantum(255).err(), Some(Refusal::BadBudget));
    assert_eq!((turn.entry(2)?, turn.entry(7)?), (Logged::Gone, Logged::NotYet));
    assert_eq!((turn.entry(4)?, turn.entry(5)?), (Logged::Begin(true), Logged::Begin(false)));
    assert_eq!(turn.entry(6)?, Logged::Quantum(255, Err(Refusal::BadBudget)));
    let spent = turn.quantum(256)?;
    assert_eq!(turn.entry(7)?, Logged::Quantum(256, Ok(spent)));
    drop(turn);
    let turn = seat.enter();
    turn.new_plain(1, 0, 1, 2)?;
    assert_eq!(turn.compare_put(1, 0, 1, 5, 6)?, Compared::Kept(0));
    assert_eq!(turn.describe(1, 2).err(), Some(Refusal::NullSlot));
    turn.describe(1, 0)?;
    let entries = [
        (Command::New { dst: 0, shape }, Reply::Made(2)),
        (Command::ComparePut { obj: 0, i: 1, old: 5, replacement: 6 }, Reply::KeptWord(0)),
        (Command::Describe { a: 2 }, Reply::Refused(Refusal::NullSlot)),
        (Command::Describe { a: 0 }, Reply::Described(2, shape)),
    ];
    for (place, (command, reply)) in (8..).zip(entries) {
        assert_eq!(turn.entry(place)?, Logged::Entered(Entry { mutator: 1, command, reply }));
    }
    assert_eq!((turn.entry(7)?, turn.entry(12)?), (Logged::Gone, Logged::NotYet));
    drop(turn);
    assert_eq!(Shared::new(&SMALL)?.enter().entry(0)?, Logged::NotYet);
    assert_eq!(Shared::logged(&SMALL, usize::MAX).err(), Some(Refusal::NoMemory));
    Ok(())
}

/// A heap that keeps a plan refuses no object, whichever seats make them, and its log has the collector's work.
#[test]
fn a_plan_is_kept_by_all_seats() -> Result<()> {
    let settings = Settings::moving(200, 2, 4);
    let flow = settings.plan(4000)?;
    assert_eq!(Shared::planned(&SMALL, 0, &flow).err(), Some(Refusal::NoPlan));
    let shared = Shared::planned(&settings, 1 << 16, &flow)?;
    assert_eq!(shared.enter().keep(&flow).err(), Some(Refusal::IsShared));
    let mut seat = shared.seat(1)?;
    for _ in 0..2000 {
        seat.enter().new_words(1, 0, 1000)?;
        shared.enter().new_words(0, 0, 1000)?;
    }
    let turn = shared.enter();
    assert_eq!(turn.new_words(0, 0, 4_000_000).err(), Some(Refusal::AbovePlan));
    let (kept, last) = (turn.kept()?, turn.last_cycle().expect("a cycle has ended"));
    assert!(kept.cycles > 1 && kept.quanta >= kept.most_quanta && last.number + 1 >= kept.cycles && last.quanta > 0);
    let log: Vec<Logged> = (0..).map_while(|place| turn.entry(place).ok()).take_while(|entry| *entry != Logged::NotYet).collect();
    assert_eq!(log.iter().filter(|entry| **entry == Logged::Begin(true)).count() as u64, kept.cycles);
    assert_eq!(log.iter().filter(|entry| matches!(entry, Logged::Quantum(1000, Ok(_)))).count() as u64, kept.quanta);
    assert_eq!(Shared::new(&SMALL)?.enter().kept().err(), Some(Refusal::NoPlan));
    Ok(())
}

#[test]
fn the_turn_is_one_seats() -> Result<()> {
    let shared = Shared::new(&SMALL)?;
    let mut seat = shared.seat(1)?;
    let turn = shared.enter();
    let taken = thread::scope(|scope| scope.spawn(|| seat.try_enter().err()).join().expect("the thread ends"));
    assert_eq!(taken, Some(Refusal::Taken));
    assert_eq!(Refusal::Taken.status(), 41);
    assert_eq!(seat.place(), 0);
    drop(turn);
    seat.try_enter()?.clear(1, 0)?;
    assert_eq!(seat.place(), 1);
    Ok(())
}

#[test]
fn who_panics_gives_the_turn_back() -> Result<()> {
    let shared = Shared::new(&SMALL)?;
    let mut seat = shared.seat(1)?;
    let panicked = catch_unwind(AssertUnwindSafe(|| {
        let _turn = seat.enter();
        std::panic::resume_unwind(Box::new(()));
    }));
    assert!(panicked.is_err());
    seat.try_enter()?.clear(1, 0)?;
    shared.enter().clear(0, 0)?;
    Ok(())
}

#[test]
fn cells_are_read_and_written() -> Result<()> {
    let shared = Shared::new(&SMALL)?;
    let turn = shared.enter();
    assert_eq!((turn.new_plain(0, 0, 2, 1)?, turn.new_refs(0, 1, 300)?, turn.new_words(0, 2, 1)?), (1, 2, 3));
    assert_eq!(turn.describe(0, 0)?, Description { identity: 1, shape: Shape::Plain { refs: 2, words: 1 } });
    assert_eq!(turn.describe(0, 1)?.shape, Shape::Refs(300));
    assert_eq!(turn.describe(0, 3).err(), Some(Refusal::NullSlot));
    turn.put(0, 0, 0, u64::MAX)?;
    assert_eq!(turn.compare_put(0, 0, 0, 1, 2)?, Compared::Kept(u64::MAX));
    assert_eq!(turn.compare_put(0, 0, 0, u64::MAX, 2)?, Compared::Stored);
    turn.store(0, 0, 1, 1)?;
    assert_eq!((turn.load(0, 3, 0, 1)?, turn.load(0, 3, 0, 0)?), (2, 0));
    assert_eq!(turn.compare_store(0, 0, 0, 1, 2)?, Compared::Kept(0));
    assert_eq!(turn.compare_store(0, 0, 0, 3, 0)?, Compared::Stored);
    assert_eq!(turn.compare_static(0, 0, 3, 0)?, Compared::Stored);
    turn.store_static(0, 0, 2)?;
    assert_eq!(turn.load_static(0, 3, 0)?, 3);
    assert!(turn.is_same(0, 2, 3)? && !turn.is_same(0, 0, 3)?);
    turn.copy(0, 3, 0)?;
    assert_eq!((turn.get(0, 3, 0)?, turn.get(0, 3, 1).err()), (2, Some(Refusal::BadIndex)));
    turn.leave(0)?;
    assert_eq!(turn.clear(0, 0).err(), Some(Refusal::NotLive));
    turn.join(0)?;
    assert_eq!(turn.describe(0, 0).err(), Some(Refusal::NullSlot));
    Ok(())
}

/// Roots live in a turn, and what statics hold stays.
#[test]
fn a_turn_has_mutators_and_lists() -> Result<()> {
    let shared = Shared::new(&SMALL)?;
    let mut seat = shared.seat(1)?;
    let turn = seat.enter();
    assert_eq!(turn.mutator(0).err(), Some(Refusal::NotYours));
    let mutator = turn.mutator(1)?;
    let (cell, other) = (mutator.new_with(1, 2, &[], &[7, 8])?, mutator.new_refs(1)?);
    cell.store(0, &other)?;
    mutator.store_static(0, &cell)?;
    drop((cell, other));
    drop(mutator);
    drop(turn);
    let turn = shared.enter();
    let mut words = [0; 2];
    turn.load_static(0, 3, 0)?;
    turn.get_words(0, 3, 0, &mut words)?;
    assert_eq!((words, turn.objects().count()), ([7, 8], 2));
    turn.clear_slots(0, 0, 4)?;
    assert_eq!(turn.touch(usize::MAX).err(), Some(Refusal::InUse));
    Shared::new(&SMALL)?.enter().touch(usize::MAX)?;
    Ok(())
}

#[test]
fn cycles_go_by_quanta() -> Result<()> {
    let shared = Shared::new(&SMALL)?;
    let turn = shared.enter();
    assert_eq!((turn.phase(), turn.units(), turn.free_pages()), (Phase::Idle, 0, 16));
    assert!(turn.begin() && !turn.begin());
    assert_eq!(turn.quantum(255).err(), Some(Refusal::BadBudget));
    let spent = turn.quantum(256)?;
    assert!(spent.units > 0 && u64::from(spent.units) == turn.units() && spent.phase == turn.phase());
    assert_eq!((turn.count().objects, turn.page(0)), (0, Page::default()));
    Ok(())
}

#[test]
fn nothing_is_refused_at_a_pace() -> Result<()> {
    let shared = Shared::new(&SMALL)?;
    let mut pacing = Pacing::new(16, (1000 - 255) / 20, 1000);
    let mut seat = shared.seat(0)?;
    for _ in 0..20_000 {
        let turn = seat.enter();
        turn.pace(&mut pacing, 6)?;
        turn.new_plain(0, 0, 1, 1)?;
    }
    let turn = seat.enter();
    assert_eq!(turn.pace(&mut Pacing::new(16, 0, 1000), 6).err(), Some(Refusal::BadBudget));
    turn.clear(0, 0)?;
    turn.whole_cycle(1000)?;
    assert_eq!((turn.free_pages(), turn.phase()), (16, Phase::Idle));
    Ok(())
}

#[test]
fn a_whole_cycle_in_a_turn_frees_the_pages_that_moving_emptied() -> Result<()> {
    let shared = Shared::new(&Settings { defrag_below: 5, defrag_pages: 4, ..Settings::new(4, 1, 64) })?;
    let turn = shared.enter();
    assert!(turn.begin());
    for slot in 0..24 {
        turn.new_plain(0, slot, 0, 252)?;
    }
    for slot in (0..24).filter(|slot| slot % 8 != 0) {
        turn.clear(0, slot)?;
    }
    turn.new_plain(0, 1, 0, 100)?;
    assert_eq!(turn.new_plain(0, 2, 0, 60).err(), Some(Refusal::NoSpace));
    turn.whole_cycle(1000)?;
    assert!(turn.new_plain(0, 2, 0, 60).is_ok());
    Ok(())
}

#[test]
fn nobody_calls_for_a_dropped_seats_mutators() -> Result<()> {
    let shared = Shared::new(&SMALL)?;
    drop(shared.seat(2)?);
    assert_eq!(shared.enter().clear(2, 0).err(), Some(Refusal::NotYours));
    assert_eq!(Shared::new(&Settings { slots: 0, ..SMALL }).err(), Some(Refusal::BadSetting(2)));
    Ok(())
}

/// Adds to the word of an object that a static holds, two commands in a turn, and makes garbage.
fn add(seat: &mut Seat, mutator: u32) -> Result<()> {
    seat.enter().load_static(mutator, 0, 0)?;
    for _ in 0..ROUNDS {
        let turn = seat.enter();
        let word = turn.get(mutator, 0, 0)?;
        turn.put(mutator, 0, 0, word + 1)?;
        turn.new_plain(mutator, 1, 1, 1)?;
    }
    Ok(())
}

/// A beginning and a quantum in each turn, until what ends it is told. How many calls these were.
fn collect(mut seat: Seat, ends: &mpsc::Receiver<()>) -> Result<u64> {
    let mut calls = 0;
    while ends.try_recv() == Err(mpsc::TryRecvError::Empty) {
        let turn = seat.enter();
        turn.begin();
        turn.quantum(1000)?;
        calls += 2;
    }
    Ok(calls)
}

/// There are pages for all objects, also where the collector's thread gets no turn.
#[test]
fn what_threads_did_is_one_log() -> Result<()> {
    let shared = Shared::new(&Settings { pages: 64, ..SMALL })?;
    let (end, ends) = mpsc::channel();
    let collector = shared.seat(4)?;
    let collecting = thread::spawn(move || collect(collector, &ends));
    shared.enter().new_words(0, 0, 1)?;
    shared.enter().store_static(0, 0, 0)?;
    let mut threads = Vec::new();
    for mutator in (1..4).rev() {
        let mut seat = shared.seat(mutator)?;
        threads.push(thread::spawn(move || add(&mut seat, mutator).map(|()| seat)));
    }
    for thread in threads {
        drop(thread.join().expect("the thread ends")?);
    }
    end.send(()).expect("the collector's thread goes on");
    let asked = collecting.join().expect("the thread ends")?;
    assert_eq!(shared.enter().get(0, 0, 0)?, 3 * ROUNDS);
    assert_eq!(shared.place(), 3 * (3 * ROUNDS + 1) + 3 + asked);
    Ok(())
}
