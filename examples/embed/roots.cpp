// The classes of metronome.hpp: each status that only they return, and the things given back when an object goes out of scope.
// Also built without exceptions: then the tests of throwing functions are left out.
#include "metronome.hpp"
#include "checks.h"
#include <cstdio>
#include <cstring>
#include <vector>

using namespace barleynight;

static const metronome_settings SETTINGS = { 4, 2, 3, 1, 1000, 0, 0, 10, 12, 100, 1 };

static std::uint64_t roots_used(Heap &heap) {
    metronome_counts counts{};
    IS(METRONOME_OK, heap.try_count(counts));
    return counts.roots_used;
}

// A closed heap refuses calls; an open one can't be opened again; one that was moved away is closed.
static void check_heaps() {
    Heap heap;
    std::optional<Mutator> mutator;
    std::uint64_t pages = 7;
    IS(METRONOME_NO_HEAP, heap.try_touch(4));
    IS(METRONOME_NO_HEAP, heap.try_begin());
    IS(METRONOME_NO_HEAP, heap.try_free_pages(pages));
    IS(METRONOME_NO_HEAP, Mutator::try_join(heap, 0, mutator));
    CHECK(pages == 7 && !mutator);
    metronome_settings faulty = SETTINGS;
    faulty.slots = 0;
    IS(METRONOME_BAD_SETTING + 2, heap.try_open(faulty));
    // 1 static and 6 slots, 3 * 2048 words of each of 4 pages, 38 looks at each, and 4; 745 units go into a quantum
    metronome_limit limit{};
    IS(METRONOME_BAD_SETTING + 2, metronome_cycle_limit(&faulty, &limit));
    IS(METRONOME_OK, metronome_cycle_limit(&SETTINGS, &limit));
    CHECK(limit.units == 24739 && limit.quanta == 34);
    metronome_flow flow{};
    metronome_work work{};
    IS(METRONOME_NO_HEAP, heap.try_keep(flow));
    metronome_cycle cycle{};
    IS(METRONOME_NO_HEAP, heap.try_kept(work));
    IS(METRONOME_NO_HEAP, heap.try_last_cycle(cycle));
    IS(METRONOME_NO_PLAN, metronome_plan(&SETTINGS, 100, &flow));
    IS(METRONOME_OK, heap.try_open(SETTINGS));
    IS(METRONOME_NO_PLAN, heap.try_keep(flow));
    IS(METRONOME_NO_PLAN, heap.try_kept(work));
    IS(METRONOME_OPEN, heap.try_open(SETTINGS));
    Heap moved = std::move(heap);
    IS(METRONOME_NO_HEAP, heap.try_free_pages(pages)); // NOLINT: a heap that was moved away is closed
    IS(METRONOME_OK, moved.try_touch(4));
    IS(METRONOME_OK, moved.try_free_pages(pages));
    CHECK(pages == 4);
}

// A number has one mutator at a time. It leaves when it goes out of scope, and stays in its place when its heap is moved.
static void check_mutators() {
    Heap heap;
    IS(METRONOME_OK, heap.try_open(SETTINGS));
    std::optional<Mutator> first, second;
    IS(METRONOME_OK, Mutator::try_join(heap, 1, first));
    IS(METRONOME_ALREADY_LIVE, Mutator::try_join(heap, 1, second));
    IS(METRONOME_NO_MUTATOR, Mutator::try_join(heap, 2, second));
    IS(METRONOME_NO_MUTATOR, Mutator::try_join(heap, 64, second));
    CHECK(!second);
    Heap moved = std::move(heap);
    std::optional<Root> root;
    IS(METRONOME_OK, first->try_null(root));
    IS(METRONOME_OK, first->try_new_plain(1, 1, *root));
    CHECK(roots_used(moved) == 1);
    root.reset();
    first.reset();
    IS(METRONOME_OK, Mutator::try_join(moved, 1, second));
    CHECK(roots_used(moved) == 0);
    second.reset();
}

// Slots are roots until they go out of scope, in any order. If all are roots, there is no further one.
static void check_slots(Heap &heap, Mutator &mutator) {
    std::optional<Root> roots[4];
    for (int i = 0; i < 3; i++) {
        IS(METRONOME_OK, mutator.try_null(roots[i]));
        IS(METRONOME_OK, mutator.try_new_words(2, *roots[i]));
    }
    IS(METRONOME_SLOTS_USED, mutator.try_null(roots[3]));
    CHECK(!roots[3] && roots_used(heap) == 3);
    roots[1].reset();
    IS(METRONOME_OK, mutator.try_null(roots[3]));
    bool is_null = false;
    IS(METRONOME_OK, roots[3]->try_is_null(is_null));
    CHECK(is_null && roots_used(heap) == 2);
    Root moved = std::move(*roots[0]);
    std::uint64_t word = 7;
    IS(METRONOME_BAD_SLOT, roots[0]->try_get(0, word)); // NOLINT: a root that was moved away has no slot
    IS(METRONOME_OK, moved.try_get(0, word));
    CHECK(word == 0 && roots_used(heap) == 2);
}

// The results of each call. A refused call leaves the variable for its result as it was.
static void check_calls(Mutator &mutator) {
    std::optional<Root> a, b, c;
    IS(METRONOME_OK, mutator.try_null(a));
    IS(METRONOME_OK, mutator.try_null(b));
    IS(METRONOME_OK, mutator.try_null(c));
    bool is = true;
    Description described{};
    IS(METRONOME_NULL_SLOT, a->try_describe(described));
    IS(METRONOME_OK, mutator.try_new_plain(1, 2, *a));
    IS(METRONOME_OK, a->try_describe(described));
    CHECK(described.identity > 0 && described.shape.refs == 1 && described.shape.words == 2);
    IS(METRONOME_OK, a->try_compare_store(0, *b, *a, is));
    CHECK(is);
    IS(METRONOME_OK, a->try_compare_store(0, *b, *b, is));
    CHECK(!is);
    IS(METRONOME_OK, a->try_load(0, *c));
    IS(METRONOME_OK, a->try_same(*c, is));
    CHECK(is);
    IS(METRONOME_OK, a->try_put(1, 5));
    IS(METRONOME_OK, a->try_compare_put(1, 4, 6, is));
    CHECK(!is);
    IS(METRONOME_OK, a->try_compare_put(1, 5, 6, is));
    std::uint64_t word = 0;
    IS(METRONOME_OK, c->try_get(1, word));
    CHECK(is && word == 6);
    IS(METRONOME_BAD_INDEX, c->try_get(2, word));
    CHECK(word == 6);
    IS(METRONOME_OK, mutator.try_compare_static(0, *b, *a, is));
    CHECK(is);
    IS(METRONOME_OK, c->try_clear());
    IS(METRONOME_OK, mutator.try_load_static(0, *c));
    IS(METRONOME_OK, c->try_same(*a, is));
    CHECK(is);
    IS(METRONOME_BAD_STATIC, mutator.try_store_static(1, *c));
    IS(METRONOME_OK, mutator.try_store_static(0, *b));
    IS(METRONOME_OK, c->try_assign(*b));
    IS(METRONOME_OK, c->try_is_null(is));
    CHECK(is);
}

// Calls that do a list of commands: their results if all are done, and if one is refused.
static void check_lists(Mutator &mutator) {
    std::optional<Root> a, b, c;
    IS(METRONOME_OK, mutator.try_null(a));
    IS(METRONOME_OK, mutator.try_null(b));
    IS(METRONOME_OK, mutator.try_null(c));
    const std::uint64_t in[] = { 7, 8, 9 };
    std::uint64_t out[] = { 0, 0, 0 };
    std::uint32_t done = 0;
    IS(METRONOME_OK, mutator.try_new_words(3, *a));
    const Root *const held[] = { &*a, &*b };
    IS(METRONOME_OK, mutator.try_new_with(2, 3, held, 2, in, 3, *b, done));
    CHECK(done == 6);
    IS(METRONOME_BAD_INDEX, mutator.try_new_with(1, 0, held, 2, nullptr, 0, *c, done));
    CHECK(done == 2);
    const std::uint64_t many[251] = {};
    IS(METRONOME_TOO_LARGE, mutator.try_new_with(1, 1, held, 2, many, 251, *c, done));
    IS(METRONOME_TOO_LARGE, mutator.try_new_with(1, 1, held, 253, nullptr, 0, *c, done));
    IS(METRONOME_OK, b->try_get_words(0, out, 3, done));
    CHECK(done == 3 && out[2] == 9);
    IS(METRONOME_BAD_INDEX, a->try_put_words(2, in, 2, done));
    CHECK(done == 1);
    bool is = false;
    IS(METRONOME_OK, b->try_copy_refs(0, *b, 1, 1, *c, done));
    IS(METRONOME_OK, c->try_same(*a, is));
    CHECK(is && done == 2);
    IS(METRONOME_WRONG_KIND, a->try_copy_refs(0, *b, 0, 1, *c, done));
    IS(METRONOME_TOO_LARGE, b->try_copy_refs(0, *b, 0, 253, *c, done));
    IS(METRONOME_OK, c->try_take(*b));
    IS(METRONOME_OK, b->try_is_null(is));
    CHECK(is && done == 0);
    IS(METRONOME_OK, c->try_get_words(0, out, 1, done));
    CHECK(out[0] == 7);
}

// A call with roots of two mutators.
static void check_strangers(Heap &heap, Mutator &mutator) {
    std::optional<Mutator> other;
    std::optional<Root> own, strange;
    IS(METRONOME_OK, Mutator::try_join(heap, 1, other));
    IS(METRONOME_OK, mutator.try_null(own));
    IS(METRONOME_OK, other->try_null(strange));
    bool is = false;
    IS(METRONOME_OTHER_MUTATOR, own->try_assign(*strange));
    IS(METRONOME_OTHER_MUTATOR, own->try_store(0, *strange));
    IS(METRONOME_OTHER_MUTATOR, own->try_same(*strange, is));
    IS(METRONOME_OTHER_MUTATOR, mutator.try_new_refs(1, *strange));
    std::uint32_t done = 7;
    const Root *const held[] = { &*strange };
    IS(METRONOME_OTHER_MUTATOR, mutator.try_new_with(1, 0, held, 1, nullptr, 0, *own, done));
    IS(METRONOME_OTHER_MUTATOR, own->try_copy_refs(0, *strange, 0, 1, *own, done));
    IS(METRONOME_OTHER_MUTATOR, own->try_copy_refs(0, *own, 0, 1, *strange, done));
    IS(METRONOME_OTHER_MUTATOR, own->try_take(*strange));
    CHECK(done == 0);
    strange.reset();
}

#ifdef __cpp_exceptions

// The status that a call throws, and its text.
template <class Call> static void throws(std::uint32_t status, const char *text, int line, Call call) {
    try {
        call();
        check(false, line);
    } catch (const Refusal &refusal) {
        check(refusal.status() == status && std::strcmp(refusal.what(), text) == 0, line);
    }
}

static void check_throwing() {
    metronome_settings settings = SETTINGS;
    settings.slots = 8;
    Heap heap(settings);
    Mutator mutator(heap, 0);
    throws(METRONOME_NO_MUTATOR, "no such mutator", __LINE__, [&] { Mutator third(heap, 2); });
    throws(METRONOME_NO_SPACE, "no space", __LINE__, [&] { mutator.new_refs(100000); });
    throws(METRONOME_BAD_BUDGET, "the budget is out of range", __LINE__, [&] { heap.quantum(255); });
    throws(METRONOME_NULL_SLOT, "the slot holds null", __LINE__, [&] { mutator.null().get(0); });
    throws(METRONOME_BAD_SETTING + 9, "rate is out of range", __LINE__, [] {
        metronome_settings faulty = SETTINGS;
        faulty.rate = 0;
        Heap never(faulty);
    });
    Root list = mutator.null();
    for (std::uint64_t i = 0; i < 3; i++) {
        Root cell = mutator.new_plain(1, 1);
        cell.put(0, i);
        cell.store(0, list);
        list = std::move(cell);
    }
    CHECK(list.get(0) == 2 && list.load(0).get(0) == 1 && list.load(0).load(0).load(0).is_null());
    CHECK(list.compare_put(0, 2, 4) && !list.compare_put(0, 2, 5) && list.describe().shape.words == 1);
    Root pair = mutator.new_with(2, 1, { &list, &list }, { 5 });
    Root through = mutator.null(), other = mutator.new_refs(2);
    pair.copy_refs(0, other, 0, 2, through);
    CHECK(other.load(1).same(list) && pair.get(0) == 5);
    other.take(pair);
    CHECK(pair.is_null() && other.get(0) == 5);
    throws(METRONOME_TOO_LARGE, "too large an object, or too many cells", __LINE__, [&] { other.copy_refs(0, other, 0, 253, through); });
    other.clear();
    through.clear();
    mutator.store_static(0, list);
    CHECK(mutator.load_static(0).same(list) && !mutator.compare_static(0, mutator.null(), list));
    CHECK(heap.begin() && !heap.begin() && heap.quantum(256).units > 0 && heap.phase() != METRONOME_IDLE && heap.units() > 0);
    heap.touch(5);
    heap.whole_cycle(1000);
    CHECK(heap.free_pages() == 3 && heap.count().objects == 3);
    CHECK(heap.last_cycle().number == 3 && heap.last_cycle().units == heap.units() && heap.last_cycle().free_after == 3);
    CHECK(heap.page(0).size == 6 && heap.page(0).held == 3 && heap.page(1).size == 0);
    CHECK(heap.block(0, 0).held == 1 && heap.block(1, 0).held == 0);
    CHECK(cycle_limit(SETTINGS).quanta == 34);
    const metronome_settings moving = METRONOME_SETTINGS_MOVING(200, 1, 4);
    Heap kept(moving);
    const std::uint64_t words = metronome_block_words(METRONOME_WORD_ARRAY, 0, 1000);
    CHECK(words == METRONOME_ARRAY_WORDS(1000) && plan_for(moving, 2000, words).quantum_words > 0);
    kept.keep(plan_for(moving, 2000, words));
    Mutator pushing(kept, 0);
    for (int i = 0; i < 5000; i++) pushing.new_words(1000);
    CHECK(kept.kept().cycles > 0 && kept.kept().quanta >= kept.kept().most_quanta);
    while (kept.prepare(words) > 0) {}
    const std::uint64_t before = kept.kept().quanta;
    pushing.new_words(1000);
    CHECK(kept.kept().quanta == before && plan(moving, 2000).quantum_words >= plan_for(moving, 2000, words).quantum_words);
}

// A whole cycle frees the pages that moving emptied, even if a cycle is already running: three objects of 24 are live, one on
// each page.
static void check_whole_cycle_that_moves() {
    metronome_settings settings = METRONOME_SETTINGS(4, 1, 64);
    settings.defrag_below = 5;
    settings.defrag_pages = 4;
    Heap heap(settings);
    Mutator mutator(heap, 0);
    CHECK(heap.begin());
    std::vector<Root> objects, kept;
    for (int i = 0; i < 24; i++) objects.push_back(mutator.new_plain(0, 252));
    for (std::size_t i = 0; i < 24; i += 8) kept.push_back(std::move(objects[i]));
    objects.clear();
    Root other = mutator.new_plain(0, 100);
    throws(METRONOME_NO_SPACE, "no space", __LINE__, [&] { mutator.new_plain(0, 60); });
    heap.whole_cycle(1000);
    CHECK(!mutator.new_plain(0, 60).is_null());
}

#else

static void check_throwing() {}
static void check_whole_cycle_that_moves() {}

#endif

int main() {
    check_heaps();
    check_mutators();
    Heap heap;
    IS(METRONOME_OK, heap.try_open(SETTINGS));
    std::optional<Mutator> mutator;
    IS(METRONOME_OK, Mutator::try_join(heap, 0, mutator));
    check_slots(heap, *mutator);
    check_calls(*mutator);
    check_lists(*mutator);
    check_strangers(heap, *mutator);
    CHECK(roots_used(heap) == 0);
    check_throwing();
    check_whole_cycle_that_moves();
    return checked();
}
