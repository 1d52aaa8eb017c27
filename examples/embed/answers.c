/*
 * The answer of each function if nothing refuses it, with numbers that were worked out by hand; its answer on a handle that
 * holds no heap; and the texts. There are two mutators with four slots each, of which the first is live, and a static.
 */
#include "checks.h"
#include "kinds.h"
#include <stdio.h>
#include <string.h>

/* Checks that a call on the heap h has this answer. */
#define ANSWERS(expected_kind, expected_number, name, ...) \
    do { \
        metronome_answer answer = metronome_##name(&h, __VA_ARGS__); \
        check(answer.kind == METRONOME_##expected_kind && answer.number == (expected_number), __LINE__); \
    } while (0)

static metronome_settings small(void) {
    metronome_settings settings = METRONOME_SETTINGS(1, 2, 4);
    settings.statics = 1;
    settings.identities = 1000;
    settings.live = 1;
    return settings;
}

static metronome opened(metronome_settings settings) {
    metronome heap = METRONOME_CLOSED;
    IS(METRONOME_OK, make_heap(&heap, &settings));
    return heap;
}

static void words_are_put_and_compared(void) {
    metronome h = opened(small());
    ANSWERS(MADE, 1, new_words, 0, 0, 3);
    ANSWERS(DONE, 0, put, 0, 0, 2, 40);
    ANSWERS(WORD, 40, get, 0, 0, 2);
    ANSWERS(KEPT_WORD, 40, compare_put, 0, 0, 2, 41, 42);
    ANSWERS(STORED, 0, compare_put, 0, 0, 2, 40, 42);
    ANSWERS(WORD, 42, get, 0, 0, 2);
    ANSWERS(WORD, 0, get, 0, 0, 0);
    metronome_destroy(&h);
}

static void references_are_stored_and_compared(void) {
    metronome h = opened(small());
    ANSWERS(MADE, 1, new_refs, 0, 0, 2);
    ANSWERS(MADE, 2, new_plain, 0, 1, 1, 1);
    ANSWERS(DONE, 0, store, 0, 0, 1, 1);
    ANSWERS(REF, 2, load, 0, 2, 0, 1);
    ANSWERS(IS, 1, same, 0, 1, 2);
    ANSWERS(IS, 0, same, 0, 0, 2);
    ANSWERS(KEPT, 2, compare_store, 0, 0, 1, 3, 0);
    ANSWERS(STORED, 0, compare_store, 0, 0, 1, 2, 3);
    ANSWERS(REF, 0, load, 0, 2, 0, 1);
    metronome_destroy(&h);
}

static void slots_and_statics_hold(void) {
    metronome h = opened(small());
    ANSWERS(MADE, 1, new_plain, 0, 0, 0, 0);
    ANSWERS(DONE, 0, copy, 0, 1, 0);
    ANSWERS(DONE, 0, clear, 0, 0);
    ANSWERS(DONE, 0, store_static, 0, 0, 1);
    ANSWERS(REF, 1, load_static, 0, 3, 0);
    ANSWERS(KEPT, 1, compare_static, 0, 0, 2, 1);
    ANSWERS(STORED, 0, compare_static, 0, 0, 3, 2);
    ANSWERS(REF, 0, load_static, 0, 3, 0);
    metronome_destroy(&h);
}

static void shapes_are_described(void) {
    metronome_settings settings = small();
    settings.pages = 3;
    metronome h = opened(settings);
    static const metronome_shape shapes[] = {
        { METRONOME_PLAIN, 1, 2 },
        { METRONOME_REF_ARRAY, 3, 0 },
        { METRONOME_WORD_ARRAY, 0, 4 },
    };
    metronome_shape shape = { 7, 7, 7 };
    ANSWERS(MADE, 1, new_plain, 0, 0, 1, 2);
    ANSWERS(MADE, 2, new_refs, 0, 1, 3);
    ANSWERS(MADE, 3, new_words, 0, 2, 4);
    ANSWERS(REFUSED, METRONOME_NULL_SLOT, describe, 0, 3, &shape);
    check(shape.kind == 7 && shape.refs == 7 && shape.words == 7, __LINE__);
    for (uint32_t slot = 0; slot < 3; slot++) {
        ANSWERS(DESCRIBED, slot + 1, describe, 0, slot, &shape);
        const metronome_shape *told = &shapes[slot];
        check(shape.kind == told->kind && shape.refs == told->refs && shape.words == told->words, __LINE__);
    }
    metronome_destroy(&h);
}

static void mutators_join_and_leave(void) {
    metronome h = opened(small());
    ANSWERS(REFUSED, METRONOME_ALREADY_LIVE, join, 0);
    ANSWERS(REFUSED, METRONOME_NOT_LIVE, leave, 1);
    ANSWERS(DONE, 0, join, 1);
    ANSWERS(MADE, 1, new_plain, 1, 0, 0, 0);
    ANSWERS(DONE, 0, leave, 1);
    ANSWERS(REFUSED, METRONOME_NOT_LIVE, clear, 1, 0);
    metronome_destroy(&h);
}

static void sizes_are_tested(void) {
    metronome_settings settings = small();
    settings.identities = 1;
    metronome h = opened(settings);
    ANSWERS(REFUSED, METRONOME_TOO_LARGE, new_plain, 0, 0, 200, 53);
    ANSWERS(REFUSED, METRONOME_TOO_LARGE, new_refs, 0, 0, 4000001);
    ANSWERS(REFUSED, METRONOME_NO_SPACE, new_words, 0, 0, 4000000);
    ANSWERS(MADE, 1, new_plain, 0, 0, 126, 126);
    ANSWERS(REFUSED, METRONOME_IDENTITIES_SPENT, new_plain, 0, 0, 0, 0);
    metronome_destroy(&h);
}

/* Checks that a quantum of 256 units spends this many units, and ends in this phase. */
static void spends(metronome *heap, uint32_t units, uint32_t phase) {
    metronome_spent spent = { 7, 7 };
    IS(METRONOME_OK, metronome_quantum(heap, 256, &spent));
    check(spent.units == units && spent.phase == phase, __LINE__);
}

/* Checks the figures of the last cycle that ended. */
static void tells(metronome *heap, metronome_cycle wanted, int line) {
    metronome_cycle told;
    memset(&told, 7, sizeof told);
    check(metronome_last_cycle(heap, &told) == METRONOME_OK, line);
    check(memcmp(&told, &wanted, sizeof told) == 0, line);
}

static void a_cycle_frees_what_is_dropped(void) {
    metronome h = opened(small());
    uint32_t phase = 7;
    uint64_t units = 7, free_pages = 7;
    ANSWERS(MADE, 1, new_plain, 0, 0, 0, 252);
    IS(METRONOME_OK, metronome_free_pages(&h, &free_pages));
    IS(0, free_pages);
    ANSWERS(DONE, 0, clear, 0, 0);
    spends(&h, 0, METRONOME_IDLE);
    IS(METRONOME_OK, metronome_begin(&h));
    IS(METRONOME_BUSY, metronome_begin(&h));
    IS(METRONOME_OK, metronome_phase(&h, &phase));
    IS(METRONOME_ROOTS, phase);
    /* Nine root cells and their end, the end of marking, eight blocks, their page and the end. */
    spends(&h, 21, METRONOME_IDLE);
    IS(METRONOME_OK, metronome_units(&h, &units));
    IS(21, units);
    IS(METRONOME_OK, metronome_free_pages(&h, &free_pages));
    IS(1, free_pages);
    tells(&h, (metronome_cycle){ 1, 1, 21, 21, 0, 1 }, __LINE__);
    metronome_destroy(&h);
}

/* Does a cycle in quanta of 256 units, and returns its figures as they were counted here. Until it ends, the figures are those
   of the cycle before. */
static metronome_cycle cycle_behind(metronome_cycle before, metronome *heap) {
    metronome_cycle seen = { before.number + 1, 0, 0, 0, 0, 0 };
    metronome_spent spent = { 0, METRONOME_ROOTS };
    IS(METRONOME_OK, metronome_begin(heap));
    IS(METRONOME_OK, metronome_free_pages(heap, &seen.free_before));
    while (spent.phase != METRONOME_IDLE) {
        tells(heap, before, __LINE__);
        IS(METRONOME_OK, metronome_quantum(heap, 256, &spent));
        seen.quanta++;
        seen.units += spent.units;
        if (spent.units > seen.longest) seen.longest = spent.units;
    }
    IS(METRONOME_OK, metronome_free_pages(heap, &seen.free_after));
    return seen;
}

/* The figures of a cycle are those of the last one that ended, whatever comes before the next one ends: a quantum, or new
   objects. */
static void cycles_are_told(void) {
    metronome_settings settings = small();
    settings.pages = 4;
    metronome h = opened(settings);
    metronome_cycle seen = { 0, 0, 0, 0, 0, 0 };
    for (uint64_t number = 1, made = 0; number <= 4; number++) {
        for (uint64_t more = 0; more < 90 * number; more++) ANSWERS(MADE, ++made, new_plain, 0, 0, 0, 8);
        tells(&h, seen, __LINE__);
        seen = cycle_behind(seen, &h);
        tells(&h, seen, __LINE__);
        check(seen.number == number && seen.free_before < 4 && seen.free_after == 3, __LINE__);
        spends(&h, 0, METRONOME_IDLE);
    }
    check(seen.quanta == 3 && seen.longest == 256 && seen.units < 3 * 256 && seen.free_before == 1, __LINE__);
    metronome_destroy(&h);
}

/* Pages are touched before and while they are used, and each object reads as it was made. */
static void touched_pages_are_the_same(void) {
    static const size_t pages[] = { 0, 1, 3, 4, 5, SIZE_MAX };
    metronome_settings settings = small();
    settings.pages = 4;
    metronome h = opened(settings);
    for (size_t i = 0; i < sizeof pages / sizeof *pages; i++) {
        uint64_t free_pages = 7, units = 7;
        IS(METRONOME_OK, metronome_touch(&h, pages[i]));
        ANSWERS(MADE, 2 * i + 1, new_plain, 0, 0, 0, 252);
        ANSWERS(DONE, 0, put, 0, 0, 251, 42);
        IS(METRONOME_OK, metronome_touch(&h, pages[i]));
        ANSWERS(WORD, 42, get, 0, 0, 251);
        ANSWERS(MADE, 2 * i + 2, new_plain, 0, 1, 0, 1);
        ANSWERS(WORD, 0, get, 0, 1, 0);
        IS(METRONOME_OK, metronome_free_pages(&h, &free_pages));
        IS(2, free_pages);
        IS(METRONOME_OK, metronome_units(&h, &units));
        IS(0, units);
    }
    metronome_destroy(&h);
}

static void budgets_are_tested(void) {
    static const uint32_t budgets[] = { 0, 255, 1000001 };
    metronome h = opened(small());
    metronome_spent spent = { 7, 7 };
    for (int i = 0; i < 3; i++) {
        IS(METRONOME_BAD_BUDGET, metronome_quantum(&h, budgets[i], &spent));
    }
    check(spent.units == 7 && spent.phase == 7, __LINE__);
    IS(METRONOME_OK, metronome_quantum(&h, 1000000, &spent));
    check(spent.units == 0 && spent.phase == METRONOME_IDLE, __LINE__);
    metronome_destroy(&h);
}

static void objects_are_counted(void) {
    metronome_settings settings = small();
    settings.pages = 4;
    metronome h = opened(settings);
    metronome_counts counts = { 7, 7, 7, 7, 7, 7, 7 };
    /* A spine of 6 words and pieces of 256 and of 52, each on a page, and an object of 5. */
    ANSWERS(MADE, 1, new_words, 0, 0, 300);
    ANSWERS(MADE, 2, new_plain, 0, 1, 0, 1);
    IS(METRONOME_OK, metronome_count(&h, &counts));
    check(counts.pages == 4 && counts.free_pages == 0, __LINE__);
    check(counts.root_cells == 9 && counts.roots_used == 2, __LINE__);
    check(counts.objects == 2 && counts.parts == 4 && counts.old_copies == 0, __LINE__);
    metronome_destroy(&h);
}

/* Each setting out of its range is refused with its own status, in the order of the settings. */
static void settings_are_refused_in_turn(void) {
    static const int64_t faulty[] = { 1048577, 65, 257, 257, 0, 1048578, 1048577, 1000001, 1000001, 1000001, 3 };
    metronome h = METRONOME_CLOSED;
    for (uint32_t place = 0; place <= 10; place++) {
        metronome_settings settings = small();
        (&settings.pages)[place] = faulty[place];
        IS(METRONOME_BAD_SETTING + place, make_heap(&h, &settings));
        ANSWERS(REFUSED, METRONOME_NO_HEAP, get, 0, 0, 0);
    }
}

/* A heap may have more pages than a configuration file may ask for. Arrays of 4000000 words, of 1985 pages and more each, fill
 * most of them, and are still there after a cycle with moving. */
static void large_heaps_are_made_and_used(void) {
    static const int64_t pages[] = { 4097, 8192 };
    for (size_t row = 0; row < sizeof pages / sizeof *pages; row++) {
        metronome_settings settings = small();
        settings.pages = pages[row];
        settings.defrag_below = pages[row] + 1;
        settings.defrag_pages = pages[row];
        metronome h = opened(settings);
        const uint32_t arrays = (uint32_t)pages[row] / 2048;
        for (uint32_t slot = 0; slot < arrays; slot++) {
            ANSWERS(MADE, slot + 1, new_words, 0, slot, 4000000);
            ANSWERS(DONE, 0, put, 0, slot, 3999999, 40 + slot);
        }
        metronome_counts counts = { 7, 7, 7, 7, 7, 7, 7 };
        IS(METRONOME_OK, metronome_count(&h, &counts));
        check(counts.pages == (uint64_t)pages[row] && counts.free_pages < 256, __LINE__);
        IS(METRONOME_OK, metronome_whole_cycle(&h, 1000000));
        for (uint32_t slot = 0; slot < arrays; slot++) {
            ANSWERS(WORD, 40 + slot, get, 0, slot, 3999999);
        }
        metronome_destroy(&h);
        ANSWERS(REFUSED, METRONOME_NO_HEAP, get, 0, 0, 0);
    }
}

static void a_destroyed_heap_may_be_made_anew(void) {
    metronome_settings settings = small();
    metronome h = opened(settings);
    ANSWERS(MADE, 1, new_plain, 0, 0, 0, 1);
    metronome_destroy(&h);
    ANSWERS(REFUSED, METRONOME_NO_HEAP, get, 0, 0, 0);
    metronome_destroy(&h);
    IS(METRONOME_OK, make_heap(&h, &settings));
    ANSWERS(REFUSED, METRONOME_NULL_SLOT, get, 0, 0, 0);
    metronome_destroy(&h);
}

static void commands_of_a_closed_handle_are_refused(void) {
    metronome h = METRONOME_CLOSED;
    metronome_shape shape = { 7, 7, 7 };
    ANSWERS(REFUSED, METRONOME_NO_HEAP, new_plain, 0, 0, 0, 0);
    ANSWERS(REFUSED, METRONOME_NO_HEAP, new_refs, 0, 0, 0);
    ANSWERS(REFUSED, METRONOME_NO_HEAP, new_words, 0, 0, 0);
    ANSWERS(REFUSED, METRONOME_NO_HEAP, load, 0, 0, 0, 0);
    ANSWERS(REFUSED, METRONOME_NO_HEAP, store, 0, 0, 0, 0);
    ANSWERS(REFUSED, METRONOME_NO_HEAP, compare_store, 0, 0, 0, 0, 0);
    ANSWERS(REFUSED, METRONOME_NO_HEAP, get, 0, 0, 0);
    ANSWERS(REFUSED, METRONOME_NO_HEAP, put, 0, 0, 0, 0);
    ANSWERS(REFUSED, METRONOME_NO_HEAP, compare_put, 0, 0, 0, 0, 0);
    ANSWERS(REFUSED, METRONOME_NO_HEAP, copy, 0, 0, 0);
    ANSWERS(REFUSED, METRONOME_NO_HEAP, clear, 0, 0);
    ANSWERS(REFUSED, METRONOME_NO_HEAP, load_static, 0, 0, 0);
    ANSWERS(REFUSED, METRONOME_NO_HEAP, store_static, 0, 0, 0);
    ANSWERS(REFUSED, METRONOME_NO_HEAP, compare_static, 0, 0, 0, 0);
    ANSWERS(REFUSED, METRONOME_NO_HEAP, same, 0, 0, 0);
    ANSWERS(REFUSED, METRONOME_NO_HEAP, describe, 0, 0, &shape);
    ANSWERS(REFUSED, METRONOME_NO_HEAP, join, 0);
    ANSWERS(REFUSED, METRONOME_NO_HEAP, leave, 0);
    check(shape.kind == 7 && shape.refs == 7 && shape.words == 7, __LINE__);
}

static void nothing_is_told_of_a_closed_handle(void) {
    metronome h = METRONOME_CLOSED;
    uint32_t phase = 7;
    uint64_t units = 7, free_pages = 7;
    metronome_spent spent = { 7, 7 };
    const metronome_counts before = { 7, 7, 7, 7, 7, 7, 7 };
    metronome_counts counts = before;
    IS(METRONOME_NO_HEAP, metronome_touch(&h, 1));
    IS(METRONOME_NO_HEAP, metronome_begin(&h));
    IS(METRONOME_NO_HEAP, metronome_quantum(&h, 256, &spent));
    IS(METRONOME_NO_HEAP, metronome_phase(&h, &phase));
    IS(METRONOME_NO_HEAP, metronome_units(&h, &units));
    IS(METRONOME_NO_HEAP, metronome_free_pages(&h, &free_pages));
    IS(METRONOME_NO_HEAP, metronome_count(&h, &counts));
    check(phase == 7 && units == 7 && free_pages == 7, __LINE__);
    check(spent.units == 7 && spent.phase == 7, __LINE__);
    check(memcmp(&counts, &before, sizeof counts) == 0, __LINE__);
}

static void statuses_have_texts(void) {
    char text[12];
    memset(text, 7, sizeof text);
    IS(8, metronome_text(7, text, sizeof text));
    check(memcmp(text, "no space\0\7\7\7", sizeof text) == 0, __LINE__);
    IS(14, metronome_text(10, text, sizeof text));
    check(memcmp(text, "no such sta", sizeof text) == 0, __LINE__);
    IS(20, metronome_text(30, text, 1));
    check(memcmp(text, "\0o such sta", sizeof text) == 0, __LINE__);
    IS(4, metronome_text(0, text, 0));
    check(memcmp(text, "\0o such sta", sizeof text) == 0, __LINE__);
    IS(METRONOME_VERSION, metronome_version());
}

int main(void) {
    FOR_EACH_KIND {
        words_are_put_and_compared();
        references_are_stored_and_compared();
        slots_and_statics_hold();
        shapes_are_described();
        mutators_join_and_leave();
        sizes_are_tested();
        a_cycle_frees_what_is_dropped();
        cycles_are_told();
        if (kind == OWN) touched_pages_are_the_same();
        budgets_are_tested();
        objects_are_counted();
        settings_are_refused_in_turn();
        large_heaps_are_made_and_used();
        a_destroyed_heap_may_be_made_anew();
    }
    commands_of_a_closed_handle_are_refused();
    nothing_is_told_of_a_closed_handle();
    statuses_have_texts();
    return checked();
}
