#include "counting.h"

#include <stdlib.h>

/* The slots: for an object with 252 references, one of two words, arrays of two parts, a loaded reference, a new object. */
enum { HOLDER, WORDS, REFS, LONG, READ, OTHER, NEW, NONE, ARRAY = 2 * LARGEST, MOST = PAGE_WORDS / HEADER };

/* The mutator whose calls are counted: the last one. */
static uint32_t mutator;
static const char *where;
static int pages_of_heap;

#define NAMED(name, call) COUNT(is_shared ? "shared_" name : name, where, call)
#define ASK(function, ...) NAMED(#function, metronome_##function(__VA_ARGS__))
#define CALL(function, ...) ASK(function, &heap, mutator, __VA_ARGS__)

/* Two pages of the smallest blocks, of which each fourth is kept. */
static void make_objects(void) {
    for (uint32_t block = 0; block < 2 * MOST; block++) {
        if (block > 0) make(mutator, NEW, 0);
        if (block % 4 == 0 && block / 4 < LARGEST) metronome_store(&heap, mutator, HOLDER, block / 4, NEW);
    }
    metronome_clear(&heap, mutator, NEW);
}

static void read_and_write(uint32_t i) {
    metronome_shape shape;
    CALL(get, WORDS, 1);
    CALL(put, WORDS, 1, i);
    CALL(compare_put, WORDS, 1, i, i + 1);
    CALL(compare_put, WORDS, 1, i, i);
    CALL(load, READ, HOLDER, i);
    CALL(load, READ, HOLDER, LARGEST - 5 - i);
    CALL(compare_store, HOLDER, i, READ, NONE);
    CALL(compare_store, HOLDER, LARGEST - 5 - i, READ, NONE);
    CALL(store, REFS, ARRAY - 1, READ);
    CALL(load, READ, REFS, ARRAY - 1);
    CALL(store, REFS, ARRAY - 1, NONE);
    CALL(copy, OTHER, HOLDER);
    CALL(same, OTHER, HOLDER);
    CALL(copy, OTHER, READ);
    CALL(clear, OTHER);
    CALL(store_static, 1, READ);
    CALL(load_static, READ, 1);
    CALL(compare_static, 1, HOLDER, READ);
    CALL(compare_static, 1, READ, NONE);
    CALL(describe, HOLDER, &shape);
    CALL(describe, REFS, &shape);
}

static void make_new(void) {
    CALL(new_plain, NEW, 0, 0);
    CALL(new_plain, NEW, 0, LARGEST);
    CALL(new_words, LONG, ARRAY);
    CALL(new_refs, LONG, ARRAY);
    CALL(clear, LONG);
    CALL(clear, NEW);
}

/* Lists of two commands, and one of three. */
static void do_lists(void) {
    const uint32_t slots[] = { HOLDER };
    uint64_t words[] = { 1, 2 };
    CALL(put_words_from, WORDS, 0, words, 2);
    CALL(get_words_into, WORDS, 0, words, 2);
    CALL(copy_refs, READ, HOLDER, 0, REFS, 0, 1);
    CALL(new_from, NEW, 1, 1, slots, 1, words, 1);
    CALL(move, OTHER, NEW);
    CALL(clear_slots, OTHER, 2);
}

static void ask(void) {
    uint32_t phase;
    uint64_t number;
    metronome_cycle cycle;
    metronome_page_view view;
    metronome_block_view block;
    ASK(phase, &heap, &phase);
    ASK(units, &heap, &number);
    ASK(free_pages, &heap, &number);
    ASK(last_cycle, &heap, &cycle);
    ASK(touch, &heap, (size_t)pages_of_heap);
    ASK(page, &heap, 0, &view);
    ASK(page, &heap, (size_t)pages_of_heap - 1, &view);
    ASK(check_slot, &heap, mutator, NEW);
    ASK(block, &heap, 0, 0, &block);
    ASK(block, &heap, (size_t)pages_of_heap - 1, 511, &block);
}

/* Goes on with the cycle until it is in another phase than it was. */
static void next_phase(void) {
    uint32_t before;
    metronome_spent spent;
    metronome_phase(&heap, &before);
    CALLGRIND_STOP_INSTRUMENTATION;
    do need(metronome_quantum(&heap, BUDGET, &spent) == METRONOME_OK, "no quantum");
    while (spent.phase == before);
    CALLGRIND_START_INSTRUMENTATION;
    need(spent.phase == (before + 1) % 5, "a phase is passed over");
}

/* The calls of each phase, with more records than a buffer has room for in the first. */
static void in_each_phase(void) {
    for (uint32_t phase = METRONOME_IDLE; phase <= METRONOME_MOVING; phase++) {
        if (phase == METRONOME_ROOTS) {
            ASK(begin, &heap);
            for (uint32_t i = 0; i < RECORDS + 6; i++) CALL(store, HOLDER, 40 + i, NONE);
        } else if (phase > METRONOME_ROOTS) {
            next_phase();
        }
        read_and_write(phase);
        make_new();
        do_lists();
        ask();
    }
}

/* A mutator of whose slots each is recorded leaves. */
static void leave_and_join(void) {
    for (uint32_t i = 0; i < SLOTS; i++) make(mutator, i, 0);
    metronome_begin(&heap);
    ASK(leave, &heap, mutator);
    ASK(join, &heap, mutator);
}

/* Turns, the log, and one more handle. */
static void of_handles(void) {
    metronome other = METRONOME_CLOSED;
    metronome_event event;
    uint64_t place;
    need(metronome_exit(&heap) == METRONOME_OK, "no turn");
    COUNT("place", where, metronome_place(&heap, &place));
    COUNT("enter", where, metronome_enter(&heap));
    COUNT("entry", where, metronome_entry(&heap, place - LOG, &event));
    COUNT("exit", where, metronome_exit(&heap));
    COUNT("sit", where, metronome_sit(&heap, &other, mutator + 1));
    ASK(destroy, &other);
    need(metronome_enter(&heap) == METRONOME_OK, "no turn");
}

static void of_no_heap(void) {
    char text[200];
    metronome_limit limit;
    metronome_settings settings = METRONOME_SETTINGS(pages_of_heap, (int)mutator + 1, SLOTS);
    ASK(cycle_limit, &settings, &limit);
    ASK(text_into, METRONOME_NO_SPACE, text, sizeof text);
    ASK(version);
    ASK(block_words, METRONOME_WORD_ARRAY, 0, ARRAY);
    if (pages_of_heap > SPARE) return;
    metronome other = METRONOME_CLOSED;
    ASK(create_for, &other, &settings, METRONOME_VERSION);
    COUNT("first_use", where, metronome_new_plain(&other, mutator, NEW, 0, 0));
    ASK(destroy, &other);
    ASK(create_shared_for, &other, &settings, LOG, METRONOME_VERSION);
    metronome_destroy(&other);
    metronome_flow flow;
    metronome_settings moving = METRONOME_SETTINGS_MOVING(300, (int)mutator + 1, SLOTS);
    need(metronome_plan(&moving, 2000, &flow) == METRONOME_OK, "no plan");
    ASK(create_shared_kept_for, &other, &moving, LOG, &flow, METRONOME_VERSION);
    metronome_destroy(&other);
}

/* Calls of a heap of 300 pages that keeps a plan; what the collector does for an object isn't counted, which is in quanta. */
static void of_a_plan(void) {
    metronome other = METRONOME_CLOSED;
    metronome_flow flow;
    metronome_work work;
    uint64_t left;
    metronome_settings settings = METRONOME_SETTINGS_MOVING(300, (int)mutator + 1, SLOTS);
    need(metronome_plan(&settings, 2000, &flow) == METRONOME_OK, "no plan");
    if (!is_shared) {
        ASK(plan_for, &settings, 2000, 1000, &flow);
        ASK(plan, &settings, 2000, &flow);
        need(metronome_create(&other, &settings) == METRONOME_OK, "no heap");
        metronome_touch(&other, SIZE_MAX);
        ASK(keep, &other, &flow);
        metronome_destroy(&other);
    }
    open_heap(&other, &settings, &flow);
    need(metronome_new_plain(&other, mutator, NEW, 0, 0).kind == METRONOME_MADE, "no object");
    NAMED("kept_new", metronome_new_plain(&other, mutator, NEW, 1, 2));
    ASK(kept, &other, &work);
    ASK(prepare, &other, 100, &left);
    metronome_destroy(&other);
}

void count_calls(int pages, int mutators, int room, const char *told) {
    metronome_counts counts;
    mutator = (uint32_t)mutators - 1;
    where = told;
    pages_of_heap = pages;
    create(pages, mutators, 1, room);
    CALLGRIND_START_INSTRUMENTATION;
    CALL(new_plain, NEW, 0, 0);
    CALL(new_refs, REFS, ARRAY);
    make(mutator, WORDS, 2);
    need(metronome_new_plain(&heap, mutator, HOLDER, LARGEST, 0).kind == METRONOME_MADE, "no object");
    make_objects();
    in_each_phase();
    if (pages == SPARE) ASK(count, &heap, &counts);
    CALLGRIND_STOP_INSTRUMENTATION;
    metronome_destroy(&heap);
    create(pages, mutators, 1, room);
    CALLGRIND_START_INSTRUMENTATION;
    CALL(new_words, LONG, ARRAY);
    leave_and_join();
    if (is_shared) of_handles();
    else of_no_heap();
    of_a_plan();
    CALLGRIND_STOP_INSTRUMENTATION;
    metronome_destroy(&heap);
}
