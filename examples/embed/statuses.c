/*
 * Each status that the header names for each function, on open handles of both kinds; misuse.c has the other handles.
 * Slot 0 holds an object with a cell of each kind, slot 1 an array of one word, slot 2 an array of one reference, and slot 3
 * null. Mutator 1 isn't live, and mutator 2 doesn't exist.
 */
#include "checks.h"
#include "kinds.h"
#include <stdio.h>

static metronome heap = METRONOME_CLOSED;
#define REFUSED(status, call) \
    do { \
        metronome_answer answer = (call); \
        check(answer.kind == METRONOME_REFUSED && answer.number == (status), __LINE__); \
    } while (0)

/* Returns how a command of a mutator that doesn't exist is refused. */
static uint32_t no_mutator(void) {
    return kind == OWN ? METRONOME_BAD_SLOT : METRONOME_NOT_YOURS;
}

/* Commands of a mutator that doesn't exist, and of one that isn't live. */
#define LIVENESS(name, ...) \
    do { \
        REFUSED(no_mutator(), metronome_##name(&heap, 2, __VA_ARGS__)); \
        REFUSED(METRONOME_NOT_LIVE, metronome_##name(&heap, 1, __VA_ARGS__)); \
    } while (0)

static void check_new(void) {
    LIVENESS(new_plain, 3, 0, 0);
    LIVENESS(new_refs, 3, 0);
    LIVENESS(new_words, 3, 0);
    REFUSED(METRONOME_BAD_SLOT, metronome_new_plain(&heap, 0, 4, 0, 0));
    REFUSED(METRONOME_BAD_SLOT, metronome_new_refs(&heap, 0, 4, 0));
    REFUSED(METRONOME_BAD_SLOT, metronome_new_words(&heap, 0, 4, 0));
    REFUSED(METRONOME_TOO_LARGE, metronome_new_plain(&heap, 0, 3, 126, 127));
    REFUSED(METRONOME_TOO_LARGE, metronome_new_refs(&heap, 0, 3, 4000001));
    REFUSED(METRONOME_TOO_LARGE, metronome_new_words(&heap, 0, 3, 4000001));
    REFUSED(METRONOME_NO_SPACE, metronome_new_plain(&heap, 0, 3, 0, 252));
    REFUSED(METRONOME_NO_SPACE, metronome_new_refs(&heap, 0, 3, 4000000));
    REFUSED(METRONOME_NO_SPACE, metronome_new_words(&heap, 0, 3, 4000000));
}

static void check_spent(void) {
    REFUSED(METRONOME_IDENTITIES_SPENT, metronome_new_plain(&heap, 0, 3, 1, 1));
    REFUSED(METRONOME_IDENTITIES_SPENT, metronome_new_refs(&heap, 0, 3, 1));
    REFUSED(METRONOME_IDENTITIES_SPENT, metronome_new_words(&heap, 0, 3, 1));
}

/* A command on cell i of slot obj, as an expression of i and obj; `wrong` holds an array without cells of that kind. */
#define CELLS(wrong, call) \
    do { \
        uint32_t m = 0, obj = 0, i = 0; \
        REFUSED(no_mutator(), (m = 2, call)); \
        REFUSED(METRONOME_NOT_LIVE, (m = 1, call)); \
        REFUSED(METRONOME_BAD_SLOT, (m = 0, obj = 4, call)); \
        REFUSED(METRONOME_NULL_SLOT, (obj = 3, call)); \
        REFUSED(METRONOME_WRONG_KIND, (obj = (wrong), call)); \
        REFUSED(METRONOME_BAD_INDEX, (obj = 0, i = 1, call)); \
    } while (0)

static void check_cells(void) {
    CELLS(1, metronome_load(&heap, m, 3, obj, i));
    CELLS(1, metronome_store(&heap, m, obj, i, 3));
    CELLS(1, metronome_compare_store(&heap, m, obj, i, 3, 3));
    CELLS(2, metronome_get(&heap, m, obj, i));
    CELLS(2, metronome_put(&heap, m, obj, i, 7));
    CELLS(2, metronome_compare_put(&heap, m, obj, i, 7, 8));
    REFUSED(METRONOME_BAD_SLOT, metronome_load(&heap, 0, 4, 0, 0));
    REFUSED(METRONOME_BAD_SLOT, metronome_store(&heap, 0, 0, 0, 4));
    REFUSED(METRONOME_BAD_SLOT, metronome_compare_store(&heap, 0, 0, 0, 4, 3));
    REFUSED(METRONOME_BAD_SLOT, metronome_compare_store(&heap, 0, 0, 0, 3, 4));
}

static void check_slots(void) {
    metronome_shape shape = { 7, 7, 7 };
    LIVENESS(copy, 3, 3);
    LIVENESS(clear, 3);
    LIVENESS(load_static, 3, 0);
    LIVENESS(store_static, 0, 3);
    LIVENESS(compare_static, 0, 3, 3);
    LIVENESS(same, 0, 0);
    LIVENESS(describe, 0, &shape);
    REFUSED(METRONOME_BAD_SLOT, metronome_copy(&heap, 0, 4, 0));
    REFUSED(METRONOME_BAD_SLOT, metronome_copy(&heap, 0, 3, 4));
    REFUSED(METRONOME_BAD_SLOT, metronome_clear(&heap, 0, 4));
    REFUSED(METRONOME_BAD_SLOT, metronome_load_static(&heap, 0, 4, 0));
    REFUSED(METRONOME_BAD_SLOT, metronome_store_static(&heap, 0, 0, 4));
    REFUSED(METRONOME_BAD_SLOT, metronome_compare_static(&heap, 0, 0, 4, 0));
    REFUSED(METRONOME_BAD_SLOT, metronome_same(&heap, 0, 0, 4));
    REFUSED(METRONOME_BAD_SLOT, metronome_describe(&heap, 0, 4, &shape));
    REFUSED(METRONOME_NULL_SLOT, metronome_describe(&heap, 0, 3, &shape));
    REFUSED(METRONOME_BAD_STATIC, metronome_load_static(&heap, 0, 3, 1));
    REFUSED(METRONOME_BAD_STATIC, metronome_store_static(&heap, 0, 1, 3));
    REFUSED(METRONOME_BAD_STATIC, metronome_compare_static(&heap, 0, 1, 3, 3));
    REFUSED(no_mutator(), metronome_join(&heap, 2));
    REFUSED(METRONOME_ALREADY_LIVE, metronome_join(&heap, 0));
    REFUSED(no_mutator(), metronome_leave(&heap, 2));
    REFUSED(METRONOME_NOT_LIVE, metronome_leave(&heap, 1));
    check(shape.kind == 7 && shape.refs == 7 && shape.words == 7, __LINE__);
}

/* BAD_SLOT has two meanings: the mutator doesn't exist, whatever the slot is; or a live mutator has no such slot. Nothing is
   done. */
static void check_places(void) {
    IS(METRONOME_NO_MUTATOR, metronome_check_slot(&heap, 2, 0));
    IS(METRONOME_NO_MUTATOR, metronome_check_slot(&heap, UINT32_MAX, UINT32_MAX));
    IS(METRONOME_NOT_LIVE, metronome_check_slot(&heap, 1, 0));
    IS(METRONOME_NOT_LIVE, metronome_check_slot(&heap, 1, 4));
    IS(METRONOME_BAD_SLOT, metronome_check_slot(&heap, 0, 4));
    IS(METRONOME_BAD_SLOT, metronome_check_slot(&heap, 0, UINT32_MAX));
    IS(METRONOME_OK, metronome_check_slot(&heap, 0, 0));
    IS(METRONOME_OK, metronome_check_slot(&heap, 0, 3));
    check(metronome_get(&heap, 0, 0, 0).kind == METRONOME_WORD, __LINE__);
    REFUSED(METRONOME_NOT_LIVE, metronome_leave(&heap, 1));
}

static void check_collector(void) {
    metronome_spent spent = { 7, 7 };
    IS(METRONOME_BAD_BUDGET, metronome_quantum(&heap, 255, &spent));
    IS(METRONOME_BAD_BUDGET, metronome_quantum(&heap, 1000001, &spent));
    check(spent.units == 7 && spent.phase == 7, __LINE__);
    IS(METRONOME_OK, metronome_begin(&heap));
    IS(METRONOME_BUSY, metronome_begin(&heap));
    IS(METRONOME_OK, metronome_quantum(&heap, 1000000, &spent));
    check(spent.units > 0 && spent.units <= 1000000 && spent.phase == METRONOME_IDLE, __LINE__);
}

/* The pages of a shared heap may be touched before it is used. */
static void check_touching(uint32_t status) {
    IS(status, metronome_touch(&heap, 1));
    IS(status, metronome_touch(&heap, SIZE_MAX));
}

/* The objects of the slots. */
static void fill(metronome_settings settings) {
    IS(METRONOME_OK, make_heap(&heap, &settings));
    IS(METRONOME_OPEN, make_heap(&heap, &settings));
    check_touching(METRONOME_OK);
    check(metronome_new_plain(&heap, 0, 0, 1, 1).kind == METRONOME_MADE, __LINE__);
    check(metronome_new_words(&heap, 0, 1, 1).kind == METRONOME_MADE, __LINE__);
    check(metronome_new_refs(&heap, 0, 2, 1).kind == METRONOME_MADE, __LINE__);
}

/* Each setting out of its range is refused, in turn, and so is the budget of the schedule. */
static void check_settings(metronome_settings settings) {
    for (uint32_t place = 0; place <= 10; place++) {
        metronome_settings faulty = settings;
        (&faulty.pages)[place] = -1;
        IS(METRONOME_BAD_SETTING + place, make_heap(&heap, &faulty));
    }
    settings.rate = 25;
    IS(METRONOME_BAD_SCHEDULE, make_heap(&heap, &settings));
    REFUSED(METRONOME_NO_HEAP, metronome_get(&heap, 0, 0, 0));
}

/* One page is for the cell of two kinds, and one for the two arrays of one cell. None is left for other sizes. */
static void check_kind(void) {
    metronome_settings settings = METRONOME_SETTINGS(2, 2, 4);
    settings.statics = 1;
    settings.live = 1;
    check_settings(settings);
    fill(settings);
    check_new();
    check_cells();
    check_slots();
    check_places();
    check_touching(kind == OWN ? METRONOME_OK : METRONOME_IN_USE);
    check_collector();
    metronome_destroy(&heap);
    settings.identities = 3;
    fill(settings);
    check_spent();
    metronome_destroy(&heap);
}

int main(void) {
    FOR_EACH_KIND check_kind();
    return checked();
}
