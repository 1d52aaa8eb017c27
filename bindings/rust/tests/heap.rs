//! The crate's use of slots, and the outcome of each call.
use std::thread;

use metronome::{
    version, Compared, Cycle, CycleLimit, Description, Heap, Pacing, Page, Phase, Refusal, Result, Root, Settings, Shape,
};

/// Two mutators of three slots, and one static.
const SMALL: Settings = Settings { statics: 1, ..Settings::new(4, 2, 3) };

#[test]
fn roots_give_their_slots_back_in_any_order() -> Result<()> {
    let heap = Heap::new(&SMALL)?;
    let mutator = heap.mutator(0)?;
    let (first, second, third) = (mutator.new_words(1)?, mutator.new_words(1)?, mutator.new_words(1)?);
    assert_eq!(mutator.null().err(), Some(Refusal::SlotsUsed));
    assert_eq!(heap.count().roots_used, 3);
    drop(second);
    assert_eq!(heap.count().roots_used, 2);
    let fourth = mutator.null()?;
    assert!(fourth.is_null());
    drop(first);
    drop(third);
    drop(fourth);
    assert_eq!(heap.count().roots_used, 0);
    heap.whole_cycle(256)?;
    assert_eq!(heap.count().objects, 0);
    Ok(())
}

#[test]
fn a_number_has_one_mutator_at_a_time() -> Result<()> {
    let heap = Heap::new(&Settings { live: 0, ..SMALL })?;
    let first = heap.mutator(0)?;
    assert_eq!(heap.mutator(0).err(), Some(Refusal::AlreadyLive));
    assert_eq!(heap.mutator(2).err(), Some(Refusal::NoMutator));
    assert_eq!(heap.mutator(64).err(), Some(Refusal::NoMutator));
    let second = heap.mutator(1)?;
    drop(first);
    let again = heap.mutator(0)?;
    assert!(again.null()?.is_null() && second.null()?.is_null());
    Ok(())
}

#[test]
fn roots_of_two_mutators_do_not_mix() -> Result<()> {
    let heap = Heap::new(&SMALL)?;
    let (here, there) = (heap.mutator(0)?, heap.mutator(1)?);
    let (own, strange) = (here.new_plain(1, 1)?, there.new_plain(1, 1)?);
    let refusals = [
        own.store(0, &strange).err(),
        own.load_into(0, &strange).err(),
        own.assign(&strange).err(),
        own.is_same(&strange).err(),
        own.compare_store(0, &own, &strange).err(),
        here.store_static(0, &strange).err(),
        here.compare_static(0, &strange, &own).err(),
        here.new_plain_into(0, 0, &strange).err(),
    ];
    assert!(refusals.iter().all(|it| *it == Some(Refusal::OtherMutator)), "{refusals:?}");
    Ok(())
}

#[test]
fn cells_are_read_and_written() -> Result<()> {
    let heap = Heap::new(&Settings { statics: 1, ..Settings::new(8, 1, 8) })?;
    let mutator = heap.mutator(0)?;
    let (cell, null) = (mutator.new_plain(2, 1)?, mutator.null()?);
    assert_eq!(cell.describe(), Some(Description { identity: 1, shape: Shape::Plain { refs: 2, words: 1 } }));
    assert_eq!(mutator.new_refs(300)?.describe().map(|it| it.shape), Some(Shape::Refs(300)));
    assert_eq!(mutator.new_words(300)?.describe().map(|it| it.shape), Some(Shape::Words(300)));
    cell.put(0, u64::MAX)?;
    assert_eq!(cell.compare_put(0, 1, 2)?, Compared::Kept(u64::MAX));
    assert_eq!(cell.compare_put(0, u64::MAX, 2)?, Compared::Stored);
    assert_eq!(cell.compare_store(1, &null, &cell)?, Compared::Stored);
    assert_eq!(cell.compare_store(1, &null, &null)?, Compared::Kept(1));
    assert!(cell.load(1)?.is_same(&cell)? && cell.load(0)?.is_null() && !cell.is_same(&null)?);
    assert_eq!(cell.load(1)?.get(0)?, 2);
    assert_eq!(mutator.compare_static(0, &null, &cell)?, Compared::Stored);
    assert_eq!(mutator.compare_static(0, &null, &cell)?, Compared::Kept(1));
    let other = cell.another()?;
    cell.clear();
    assert!(cell.is_null() && mutator.load_static(0)?.is_same(&other)?);
    Ok(())
}

#[test]
fn refusals_are_told() -> Result<()> {
    let heap = Heap::new(&Settings { identities: 4, slots: 8, ..SMALL })?;
    let mutator = heap.mutator(0)?;
    let cell = mutator.new_plain(1, 1)?;
    let words = mutator.new_words(1)?;
    let told = [
        (cell.get(1).err(), Refusal::BadIndex, "no such cell"),
        (words.load(0).err(), Refusal::WrongKind, "the object has no such cells"),
        (mutator.null()?.get(0).err(), Refusal::NullSlot, "the slot holds null"),
        (mutator.new_plain(200, 53).err(), Refusal::TooLarge, "too large an object, or too many cells"),
        (mutator.new_refs(4_000_000).err(), Refusal::NoSpace, "no space"),
        (mutator.load_static(1).err(), Refusal::BadStatic, "no such static"),
        (heap.quantum(255).err(), Refusal::BadBudget, "the budget is out of range"),
        (Heap::new(&Settings { rate: 0, ..SMALL }).err(), Refusal::BadSetting(9), "rate is out of range"),
        (Heap::new(&Settings { rate: 1, ..SMALL }).err(), Refusal::BadSchedule, "collector_ticks times rate is out of range"),
    ];
    for (found, wanted, text) in told {
        assert_eq!(found, Some(wanted));
        assert_eq!(wanted.to_string(), text);
    }
    drop(words);
    let spent = [mutator.new_words(1).err(), mutator.new_words(1).err(), mutator.new_words(1).err()];
    assert_eq!(spent, [None, None, Some(Refusal::IdentitiesSpent)]);
    Ok(())
}

#[test]
fn cycles_go_by_quanta() -> Result<()> {
    let heap = Heap::new(&SMALL)?;
    heap.touch(2)?;
    heap.touch(usize::MAX)?;
    assert_eq!((heap.phase(), heap.units(), heap.free_pages(), heap.last_cycle()), (Phase::Idle, 0, 4, None));
    assert!(heap.begin() && !heap.begin());
    let spent = heap.quantum(256)?;
    assert!(spent.units > 0 && spent.units <= 256 && u64::from(spent.units) == heap.units());
    assert_eq!(spent.phase, heap.phase());
    heap.whole_cycle(1000)?;
    assert_eq!(heap.phase(), Phase::Idle);
    let units = heap.units();
    let last = Cycle { number: 3, quanta: 1, units, longest: units, free_before: 4, free_after: 4 };
    assert_eq!(heap.last_cycle(), Some(last));
    Ok(())
}

#[test]
fn a_whole_cycle_frees_the_pages_that_moving_emptied() -> Result<()> {
    let heap = Heap::new(&Settings { defrag_below: 5, defrag_pages: 4, ..Settings::new(4, 1, 64) })?;
    let mutator = heap.mutator(0)?;
    assert!(heap.begin());
    let mut objects = Vec::new();
    for _ in 0..24 {
        objects.push(mutator.new_plain(0, 252)?);
    }
    let _one_on_each_page: Vec<_> = objects.into_iter().step_by(8).collect();
    let _other = mutator.new_plain(0, 100)?;
    assert_eq!(mutator.new_plain(0, 60).err(), Some(Refusal::NoSpace));
    heap.whole_cycle(1000)?;
    assert!(mutator.new_plain(0, 60).is_ok());
    Ok(())
}

#[test]
fn pages_are_told() -> Result<()> {
    let heap = Heap::new(&SMALL)?;
    let mutator = heap.mutator(0)?;
    let (_cell, _words) = (mutator.new_plain(1, 1)?, mutator.new_words(1)?);
    assert_eq!(heap.page(0), Page { size: 6, held: 1, ..Page::default() });
    assert_eq!(heap.page(1), Page { size: 5, held: 1, ..Page::default() });
    assert_eq!([heap.page(2), heap.page(4)], [Page::default(); 2]);
    Ok(())
}

/// 1 static and 6 slots, 3 * 2048 words of each of 4 pages, 38 looks at each, and 4: 24739 units; 745 go into a quantum.
#[test]
fn a_cycle_has_a_limit() -> Result<()> {
    assert_eq!(SMALL.cycle_limit()?, CycleLimit { units: 24739, quanta: 34 });
    assert_eq!(Settings { pages: 0, ..SMALL }.cycle_limit().err(), Some(Refusal::BadSetting(0)));
    assert_eq!(version(), 3);
    Ok(())
}

/// A plan is told and kept: no object is refused, and the collector works for them. On too few pages it is told how many it takes.
#[test]
fn a_plan_is_kept() -> Result<()> {
    let settings = Settings::moving(200, 1, 4);
    let flow = settings.plan(2000)?;
    assert!(flow.quantum_words > 0 && flow.live_words == 2000 && flow.budget == 1000);
    let none = Settings::moving(4, 1, 4).plan(2000)?;
    assert!(none.quantum_words == 0 && none.least_pages == flow.least_pages);
    assert_eq!(Settings { pages: 0, ..SMALL }.plan(1).err(), Some(Refusal::BadSetting(0)));
    let heap = Heap::new(&settings)?;
    assert_eq!(heap.kept().err(), Some(Refusal::NoPlan));
    heap.keep(&flow)?;
    let mutator = heap.mutator(0)?;
    for _ in 0..5000 {
        mutator.new_words(1000)?;
    }
    assert_eq!(mutator.new_words(4_000_000).err(), Some(Refusal::AbovePlan));
    let (kept, last) = (heap.kept()?, heap.last_cycle().expect("a cycle has ended"));
    assert!(kept.cycles > 1 && kept.quanta >= kept.most_quanta && last.number + 1 >= kept.cycles && last.quanta > 0);
    assert_eq!(heap.keep(&flow).err(), Some(Refusal::NoPlan));
    Ok(())
}

/// A plan has room for an object, words are prepared for, and then the object waits for nothing.
#[test]
fn words_are_prepared_for() -> Result<()> {
    let settings = Settings::moving(200, 1, 4);
    let words = Shape::Words(1000).block_words();
    assert_eq!((words, Shape::Plain { refs: 1, words: 1 }.block_words(), Shape::Refs(4_000_001).block_words()), (1032, 6, 0));
    let flow = settings.plan_for(2000, words)?;
    assert!(flow.quantum_words <= settings.plan(2000)?.quantum_words && words <= flow.cycle_words);
    assert_eq!(settings.plan_for(2000, u64::MAX)?.quantum_words, 0);
    let heap = Heap::new(&settings)?;
    assert_eq!(heap.prepare(words).err(), Some(Refusal::NoPlan));
    heap.keep(&flow)?;
    assert_eq!(heap.prepare(flow.cycle_words + 1).err(), Some(Refusal::AbovePlan));
    let mutator = heap.mutator(0)?;
    for _ in 0..1000 {
        while heap.prepare(words)? > 0 {}
        let before = heap.kept()?;
        mutator.new_words(1000)?;
        assert_eq!(heap.kept()?, before);
    }
    assert!(heap.kept()?.cycles > 1);
    Ok(())
}

/// Puts a cell of a word before those that a root holds.
fn push<'m>(list: &Root<'m>, cell: Root<'m>, word: u64) -> Result<Root<'m>> {
    cell.put(0, word)?;
    cell.store(0, list)?;
    Ok(cell)
}

#[test]
fn a_heap_goes_to_a_thread_and_back() -> Result<()> {
    let heap = Heap::new(&Settings { statics: 1, ..Settings::new(8, 1, 8) })?;
    let filled = thread::spawn(move || -> Result<Heap> {
        let mutator = heap.mutator(0)?;
        let mut list = mutator.null()?;
        for word in 0..100 {
            list = push(&list, mutator.new_plain(1, 1)?, word)?;
        }
        mutator.store_static(0, &list)?;
        drop(list);
        drop(mutator);
        Ok(heap)
    });
    let heap = filled.join().expect("the thread ends")?;
    heap.whole_cycle(1000)?;
    let mutator = heap.mutator(0)?;
    let list = mutator.load_static(0)?;
    for word in (0..100).rev() {
        assert_eq!(list.get(0)?, word);
        list.load_into(0, &list)?;
    }
    assert!(list.is_null());
    Ok(())
}

#[test]
fn nothing_is_refused_at_a_pace() -> Result<()> {
    let heap = Heap::new(&Settings::new(16, 1, 8))?;
    let mutator = heap.mutator(0)?;
    let kept = mutator.new_refs(1000)?;
    let mut pacing = Pacing::new(16, (1000 - 255) / 20, 1000);
    for i in 0..100_000 {
        heap.pace(&mut pacing, 6)?;
        kept.store(i % 1000, &mutator.new_plain(1, 1)?)?;
    }
    assert_eq!(heap.pace(&mut Pacing::new(16, 0, 1000), 6).err(), Some(Refusal::BadBudget));
    let mut never = Pacing::new(0, 10, 256);
    heap.whole_cycle(1000)?;
    heap.pace(&mut never, 1005)?;
    assert_eq!(heap.phase(), Phase::Idle);
    Ok(())
}

#[test]
fn lists_of_commands_end_at_the_first_that_is_refused() -> Result<()> {
    let heap = Heap::new(&Settings { slots: 8, pages: 16, ..SMALL })?;
    let mutator = heap.mutator(0)?;
    let inner = mutator.new_plain(0, 1)?;
    let made = mutator.new_with(2, 3, &[&inner], &[7, 8])?;
    assert!(made.load(0)?.is_same(&inner)? && made.load(1)?.is_null());
    let mut words = [9; 4];
    made.get_words(0, &mut words[..3])?;
    assert_eq!(words, [7, 8, 0, 9]);
    assert_eq!(made.get_words(1, &mut words).err(), Some(Refusal::BadIndex));
    assert_eq!(words, [8, 0, 0, 9]);
    assert_eq!(made.put_words(2, &[5, 6]).err(), Some(Refusal::BadIndex));
    assert_eq!(made.get(2)?, 5);
    assert_eq!(made.put_words(0, &[0; 253]).err(), Some(Refusal::TooLarge));
    let (array, through) = (mutator.new_refs(3)?, mutator.null()?);
    made.copy_refs(0, &array, 1, 2, &through)?;
    assert!(array.load(1)?.is_same(&inner)? && array.load(2)?.is_null());
    assert_eq!(made.copy_refs(0, &array, 2, 2, &through).err(), Some(Refusal::BadIndex));
    through.take(&inner)?;
    assert!(inner.is_null() && !through.is_null());
    through.take(&through)?;
    assert!(!through.is_null());
    Ok(())
}

#[test]
fn a_walk_meets_each_object_once() -> Result<()> {
    let heap = Heap::new(&SMALL)?;
    let mutator = heap.mutator(0)?;
    let small = mutator.new_plain(1, 2)?;
    let large = mutator.new_words(1000)?;
    let gone = mutator.new_plain(0, 0)?;
    let met: Vec<Description> = heap.objects().collect();
    assert_eq!(met, [small.describe(), large.describe(), gone.describe()].map(Option::unwrap));
    drop(gone);
    heap.whole_cycle(256)?;
    assert_eq!(heap.objects().count(), 2);
    Ok(())
}
