// The classes of metronome_shared.hpp, and the things given back when an object goes out of scope. Also built without exceptions:
// then the tests of throwing functions are left out.
#include "metronome_shared.hpp"
#include "../checks.h"
#include <cstdio>
#include <thread>
#include <vector>

using namespace barleynight;

static constexpr std::uint32_t THREADS = 4, ROUNDS = 20000;

static const metronome_settings SETTINGS = METRONOME_SETTINGS(16, THREADS, 3);

// A closed handle refuses calls; an open one can't be opened again; one that was moved away is closed.
static void check_handles() {
    Heap heap, other, own;
    std::uint64_t place = 7;
    IS(METRONOME_NO_HEAP, heap.try_place(place));
    IS(METRONOME_NO_HEAP, heap.try_sit(0, other));
    IS(METRONOME_OK, heap.try_open_shared(SETTINGS));
    IS(METRONOME_OPEN, heap.try_open_shared(SETTINGS));
    IS(METRONOME_OPEN, heap.try_sit(0, heap));
    IS(METRONOME_NOT_YOURS, heap.try_sit(THREADS + 1, other));
    IS(METRONOME_OK, heap.try_sit(1, other));
    IS(METRONOME_OK, own.try_open(SETTINGS));
    IS(METRONOME_NOT_SHARED, own.try_place(place));
    Heap moved = std::move(other);
    IS(METRONOME_NO_HEAP, other.try_place(place)); // NOLINT: a handle that was moved away is closed
    CHECK(place == 7);
    IS(METRONOME_OK, moved.try_place(place));
    CHECK(place == 0);
    place = 7;
    Heap strange;
    IS(METRONOME_OK, strange.try_open_shared(SETTINGS));
    heap = std::move(strange);
    IS(METRONOME_OK, heap.try_place(place));
    CHECK(place == 0);
}

// A turn ends with its scope. Only one handle has it at a time. Mutators and their roots stay from turn to turn.
static void check_turns() {
    Gate gate;
    Heap first, second;
    std::optional<Turn> turn, again;
    std::optional<Mutator> mutator, other;
    std::optional<Root> root;
    std::uint64_t word = 7;
    IS(METRONOME_OK, first.try_open_shared(SETTINGS));
    IS(METRONOME_OK, first.try_sit(2, second));
    IS(METRONOME_OUTSIDE, Mutator::try_join(first, 0, mutator));
    IS(METRONOME_OK, Turn::try_enter(gate, first, turn));
    IS(METRONOME_INSIDE, Turn::try_enter(gate, first, again));
    IS(METRONOME_TAKEN, metronome_enter(second.handle()));
    IS(METRONOME_NOT_YOURS, Mutator::try_join(first, 2, mutator));
    IS(METRONOME_OK, Mutator::try_join(first, 0, mutator));
    IS(METRONOME_OK, mutator->try_null(root));
    IS(METRONOME_OK, mutator->try_new_words(1, *root));
    IS(METRONOME_OK, root->try_put(0, 42));
    CHECK(!again);
    turn.reset();
    IS(METRONOME_OUTSIDE, root->try_get(0, word));
    IS(METRONOME_OK, Turn::try_enter(gate, second, turn));
    IS(METRONOME_OUTSIDE, root->try_get(0, word));
    IS(METRONOME_OK, Mutator::try_join(second, 2, other));
    other.reset();
    turn.reset();
    IS(METRONOME_OK, Turn::try_enter(gate, first, turn));
    CHECK(word == 7);
    IS(METRONOME_OK, root->try_get(0, word));
    CHECK(word == 42);
    metronome_spent spent{};
    IS(METRONOME_OK, turn->heap.try_begin());
    IS(METRONOME_BUSY, first.try_begin());
    IS(METRONOME_BAD_BUDGET, first.try_quantum(255, spent));
    IS(METRONOME_OK, first.try_quantum(256, spent));
    IS(METRONOME_OK, first.try_whole_cycle(1000));
    root.reset();
    mutator.reset();
}

// The log of a heap that keeps two events.
static void check_log() {
    Gate gate;
    Heap heap;
    metronome_event event{};
    std::optional<Turn> turn;
    IS(METRONOME_OK, heap.try_open_shared(SETTINGS, 2));
    IS(METRONOME_OUTSIDE, heap.try_event(0, event));
    IS(METRONOME_OK, Turn::try_enter(gate, heap, turn));
    for (std::uint32_t slot = 0; slot < 3; slot++) CHECK(metronome_clear(heap.handle(), 1, slot).kind == METRONOME_DONE);
    IS(METRONOME_OK, heap.try_event(0, event));
    CHECK(event.kind == METRONOME_GONE);
    IS(METRONOME_OK, heap.try_event(2, event));
    CHECK(event.kind == METRONOME_ENTERED && event.mutator == 1 && event.answer.kind == METRONOME_DONE);
    CHECK(event.command.kind == METRONOME_CLEAR && event.command.first == 2);
    IS(METRONOME_OK, heap.try_event(3, event));
    CHECK(event.kind == METRONOME_NOT_YET);
}

// A shared heap that keeps a plan for 2000 live words, and its figures.
static void check_plan() {
    const metronome_settings moving = METRONOME_SETTINGS_MOVING(200, THREADS, 3);
    metronome_flow flow{};
    metronome_work work{};
    metronome_cycle cycle{};
    Gate gate;
    Heap heaps[2];
    std::optional<Turn> turn;
    int made = 0;
    IS(METRONOME_OK, metronome_plan(&moving, 2000, &flow));
    IS(METRONOME_NO_PLAN, heaps[0].try_open_shared(SETTINGS, 0, flow));
    IS(METRONOME_OK, heaps[0].try_open_shared(moving, 0, flow));
    IS(METRONOME_IS_SHARED, heaps[0].try_keep(flow));
    IS(METRONOME_OK, heaps[0].try_sit(1, heaps[1]));
    for (std::uint32_t n = 0; n < 2000; n++) {
        std::optional<Turn> it;
        if (Turn::try_enter(gate, heaps[n % 2], it) != METRONOME_OK) break;
        made += metronome_new_words(heaps[n % 2].handle(), n % 2, 0, 1000).kind == METRONOME_MADE;
    }
    CHECK(made == 2000);
    IS(METRONOME_OK, Turn::try_enter(gate, heaps[0], turn));
    IS(METRONOME_OK, heaps[0].try_kept(work));
    IS(METRONOME_OK, heaps[0].try_last_cycle(cycle));
    CHECK(work.cycles > 1 && work.quanta >= work.most_quanta && cycle.number + 1 >= work.cycles);
}

// The work of a mutator's thread: it adds to a word of an object, with two calls in a turn.
static void count_up(Gate &gate, Heap &heap, std::uint32_t number) {
    std::optional<Turn> turn;
    std::optional<Mutator> mutator;
    std::optional<Root> root;
    bool good = Turn::try_enter(gate, heap, turn) == METRONOME_OK && Mutator::try_join(heap, number, mutator) == METRONOME_OK
        && mutator->try_null(root) == METRONOME_OK && mutator->try_load_static(0, *root) == METRONOME_OK;
    for (std::uint32_t n = 0; n < ROUNDS && good; n++) {
        std::uint64_t word = 0;
        turn.reset();
        good = Turn::try_enter(gate, heap, turn) == METRONOME_OK && root->try_get(0, word) == METRONOME_OK
            && root->try_put(0, word + 1) == METRONOME_OK;
    }
    root.reset();
    mutator.reset();
}

// All mutators share an object, in a static. No round of a thread is lost, since no other call comes between its two.
static void check_threads(Gate &gate) {
    metronome_settings settings = SETTINGS;
    settings.statics = 1;
    Heap own;
    std::vector<Heap> heaps(THREADS);
    std::optional<Turn> turn;
    IS(METRONOME_OK, own.try_open_shared(settings));
    IS(METRONOME_OK, Turn::try_enter(gate, own, turn));
    CHECK(metronome_new_words(own.handle(), 0, 0, 1).kind == METRONOME_MADE);
    CHECK(metronome_store_static(own.handle(), 0, 0, 0).kind == METRONOME_DONE);
    turn.reset();
    for (std::uint32_t m = THREADS; m > 0; m--) IS(METRONOME_OK, own.try_sit(m - 1, heaps[m - 1]));
    std::vector<std::thread> threads;
    for (std::uint32_t m = 0; m < THREADS; m++) threads.emplace_back(count_up, std::ref(gate), std::ref(heaps[m]), m);
    for (std::thread &thread : threads) thread.join();
    IS(METRONOME_OK, Turn::try_enter(gate, heaps[0], turn));
    CHECK(metronome_join(heaps[0].handle(), 0).kind == METRONOME_DONE);
    CHECK(metronome_load_static(heaps[0].handle(), 0, 0, 0).number == 1);
    CHECK(metronome_get(heaps[0].handle(), 0, 0, 0).number == std::uint64_t{THREADS} * ROUNDS);
}

#ifdef __cpp_exceptions

// A refused call throws, and a turn ends there too.
static void check_throwing() {
    Gate gate;
    Heap heap = Heap::shared(SETTINGS);
    Heap other = heap.sit(2);
    std::uint32_t status = METRONOME_OK;
    try {
        Turn turn(gate, heap);
        Mutator mutator(heap, 0);
        CHECK(mutator.new_plain(1, 1).describe().identity == 1 && heap.begin() && !heap.begin() && heap.free_pages() == 15);
        Mutator strange(heap, 2);
    } catch (const Refusal &refusal) {
        status = refusal.status();
    }
    const std::uint64_t before = other.place();
    CHECK(status == METRONOME_NOT_YOURS && before > 4);
    CHECK(Turn(gate, other).heap.phase() != METRONOME_IDLE && heap.place() == before);
    {
        Turn turn(gate, heap);
        status = METRONOME_OK;
        try {
            Turn again(gate, heap);
        } catch (const Refusal &refusal) {
            status = refusal.status();
        }
        CHECK(status == METRONOME_INSIDE && metronome_enter(other.handle()) == METRONOME_TAKEN);
    }
    Heap logged = Heap::shared(SETTINGS, 1);
    CHECK(Turn(gate, logged).heap.event(0).kind == METRONOME_NOT_YET);
    const metronome_settings moving = METRONOME_SETTINGS_MOVING(200, THREADS, 3);
    Heap planned = Heap::shared(moving, 0, plan(moving, 2000));
    CHECK(Turn(gate, planned).heap.kept().quanta == 0);
}

#else

static void check_throwing() {}

#endif

int main() {
    Gate fast, fair = Gate::fair(2);
    check_handles();
    check_turns();
    check_log();
    check_plan();
    check_threads(fast);
    check_threads(fair);
    check_throwing();
    return checked();
}
