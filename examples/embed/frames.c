/*
 * The header's functions over the calls: frames of slots, whole cycles, and a pace at which no object is refused.
 */
#include "checks.h"
#include "kinds.h"
#include <stdio.h>

enum { SLOTS = 8, OF_FRAMES = 6, PAGES = 16, CELL_WORDS = 6, BUDGET = 1000, LIVE = 1500 };

static metronome heap = METRONOME_CLOSED;

static int is_null(uint32_t slot) {
    metronome_shape shape;
    metronome_answer answer = metronome_describe(&heap, 0, slot, &shape);
    return answer.kind == METRONOME_REFUSED && answer.number == METRONOME_NULL_SLOT;
}

/* A cell of a reference and a word: a block of CELL_WORDS with its header. */
static int make(uint32_t slot, uint64_t word) {
    return metronome_new_plain(&heap, 0, slot, 1, 1).kind == METRONOME_MADE
        && metronome_put(&heap, 0, slot, 0, word).kind == METRONOME_DONE;
}

/* Frames nest. A row that is full refuses a frame, and stays as it is. Closing a frame sets its slots to null, and leaves all
   others. */
static void check_frames(void) {
    metronome_row row = METRONOME_ROW(0, 2, OF_FRAMES);
    uint32_t first = 0, second = 0, third = 0, none = 7;
    CHECK(make(0, 10) && make(6, 16));
    metronome_frame outer = metronome_open_frame(&row);
    IS(METRONOME_OK, metronome_take_slot(&row, &first));
    CHECK(first == 2 && make(first, 2));
    metronome_frame inner = metronome_open_frame(&row);
    IS(METRONOME_OK, metronome_take_slot(&row, &second));
    IS(METRONOME_OK, metronome_take_slot(&row, &third));
    CHECK(second == 3 && third == 4 && is_null(third) && make(second, 3) && make(third, 4));
    IS(METRONOME_OK, metronome_take_slot(&row, &none));
    none = 7;
    IS(METRONOME_SLOTS_USED, metronome_take_slot(&row, &none));
    CHECK(none == 7 && row.next == 6);
    IS(METRONOME_OK, metronome_close_frame(&heap, &row, inner));
    CHECK(is_null(second) && is_null(third) && metronome_get(&heap, 0, first, 0).number == 2);
    IS(METRONOME_OK, metronome_take_slot(&row, &third));
    CHECK(third == 3 && is_null(third));
    IS(METRONOME_OK, metronome_close_frame(&heap, &row, outer));
    CHECK(row.next == 2 && is_null(first));
    CHECK(metronome_get(&heap, 0, 0, 0).number == 10 && metronome_get(&heap, 0, 6, 0).number == 16);
}

/* A frame is refused for a mutator that isn't live, for a row that the heap doesn't have, and for a closed handle: the slots
   stay taken. */
static void check_refused_frames(void) {
    metronome closed = METRONOME_CLOSED;
    metronome_row rows[] = { METRONOME_ROW(1, 0, 2), METRONOME_ROW(2, 0, 2), METRONOME_ROW(0, SLOTS, SLOTS + 1) };
    const uint32_t no_mutator = kind == OWN ? METRONOME_NO_MUTATOR : METRONOME_NOT_YOURS;
    const uint32_t statuses[] = { METRONOME_NOT_LIVE, no_mutator, METRONOME_BAD_SLOT };
    for (int i = 0; i < 3; i++) {
        uint32_t slot, before = metronome_open_frame(&rows[i]);
        IS(METRONOME_OK, metronome_take_slot(&rows[i], &slot));
        IS(statuses[i], metronome_close_frame(&heap, &rows[i], before));
        CHECK(rows[i].next == before + 1);
    }
    IS(METRONOME_NO_HEAP, metronome_close_frame(&closed, &rows[0], 0));
    IS(METRONOME_OK, metronome_close_frame(&closed, &rows[0], 1));
}

/* A full heap has room again after a whole cycle, even if a cycle is already running. */
static void check_whole_cycle(void) {
    metronome closed = METRONOME_CLOSED;
    for (int on = 0; on < 2; on++) {
        uint64_t made = 0;
        while (make(0, made)) made++;
        CHECK(made > LIVE);
        if (on) IS(METRONOME_OK, metronome_begin(&heap));
        IS(METRONOME_OK, metronome_whole_cycle(&heap, 256));
        uint32_t phase = 7;
        IS(METRONOME_OK, metronome_phase(&heap, &phase));
        CHECK(phase == METRONOME_IDLE && make(0, made));
    }
    IS(METRONOME_BAD_BUDGET, metronome_whole_cycle(&heap, 255));
    IS(METRONOME_NO_HEAP, metronome_whole_cycle(&closed, 256));
    IS(METRONOME_OK, metronome_whole_cycle(&heap, BUDGET));
}

/* A whole cycle frees the pages that moving emptied, even if a cycle is already running: three objects of 24 are live, one on
   each page. */
static void check_whole_cycle_that_moves(void) {
    metronome moving = METRONOME_CLOSED;
    metronome_settings settings = METRONOME_SETTINGS(4, 1, 64);
    settings.defrag_below = 5;
    settings.defrag_pages = 4;
    IS(METRONOME_OK, make_heap(&moving, &settings));
    IS(METRONOME_OK, metronome_begin(&moving));
    for (uint32_t slot = 0; slot < 24; slot++) CHECK(metronome_new_plain(&moving, 0, slot, 0, 252).kind == METRONOME_MADE);
    for (uint32_t slot = 0; slot < 24; slot++)
        if (slot % 8 != 0) CHECK(metronome_clear(&moving, 0, slot).kind == METRONOME_DONE);
    CHECK(metronome_new_plain(&moving, 0, 1, 0, 100).kind == METRONOME_MADE);
    CHECK(metronome_new_plain(&moving, 0, 2, 0, 60).number == METRONOME_NO_SPACE);
    IS(METRONOME_OK, metronome_whole_cycle(&moving, BUDGET));
    CHECK(metronome_new_plain(&moving, 0, 2, 0, 60).kind == METRONOME_MADE);
    metronome_destroy(&moving);
}

/* With the numbers that the header gives, and less than half of the pages live, none of a million cells is refused. */
static void check_refusals(void) {
    metronome_pacing pacing = METRONOME_PACING(PAGES, (BUDGET - 255) / 20, BUDGET);
    uint64_t refused = 0;
    CHECK(metronome_new_refs(&heap, 0, 1, LIVE).kind == METRONOME_MADE);
    for (uint32_t i = 0; i < 1000000; i++) {
        if (metronome_pace(&heap, &pacing, CELL_WORDS) != METRONOME_OK || !make(0, i)) refused++;
        metronome_store(&heap, 0, 1, i % LIVE, 0);
    }
    CHECK(refused == 0);
    IS(METRONOME_OK, metronome_whole_cycle(&heap, BUDGET));
}

/* A pace begins a cycle exactly if too few pages are free, and owes a quantum each time its number of words was made. */
static void check_pace(void) {
    metronome closed = METRONOME_CLOSED;
    metronome_pacing never = METRONOME_PACING(0, 10, 256), always = METRONOME_PACING(PAGES + 1, 10, 256);
    metronome_pacing wrong = METRONOME_PACING(PAGES + 1, 10, 255), none = METRONOME_PACING(PAGES + 1, 0, 256);
    uint64_t units = 0, before;
    uint32_t phase = 7;
    IS(METRONOME_OK, metronome_pace(&heap, &never, 1005));
    CHECK(never.owed == 5 && metronome_phase(&heap, &phase) == METRONOME_OK && phase == METRONOME_IDLE);
    IS(METRONOME_OK, metronome_pace(&heap, &always, 9));
    CHECK(metronome_phase(&heap, &phase) == METRONOME_OK && phase == METRONOME_IDLE);
    IS(METRONOME_OK, metronome_pace(&heap, &always, 1));
    CHECK(metronome_phase(&heap, &phase) == METRONOME_OK && phase != METRONOME_IDLE && always.owed == 0);
    CHECK(metronome_units(&heap, &before) == METRONOME_OK);
    IS(METRONOME_OK, metronome_pace(&heap, &never, 15));
    CHECK(metronome_units(&heap, &units) == METRONOME_OK && units > before + 256 && units <= before + 512);
    CHECK(never.owed == 0);
    IS(METRONOME_BAD_BUDGET, metronome_pace(&heap, &wrong, 10));
    IS(METRONOME_BAD_BUDGET, metronome_pace(&heap, &none, 10));
    IS(METRONOME_NO_HEAP, metronome_pace(&closed, &always, 10));
    IS(METRONOME_OK, metronome_whole_cycle(&heap, BUDGET));
}

int main(void) {
    FOR_EACH_KIND {
        metronome_settings settings = METRONOME_SETTINGS(PAGES, 2, SLOTS);
        settings.live = 1;
        IS(METRONOME_OK, make_heap(&heap, &settings));
        check_frames();
        check_refused_frames();
        check_whole_cycle();
        check_whole_cycle_that_moves();
        check_refusals();
        check_pace();
        metronome_destroy(&heap);
    }
    return checked();
}
