/*
 * Frames of slots and a pace in turns. Four threads make cells in frames at one pace. The pages are so few that without the
 * collector a cell would soon be refused; none is.
 */
#include "metronome_shared.h"
#include <pthread.h>
#include <stdio.h>

enum { THREADS = 4, SLOTS = 8, PAGES = 16, ROUNDS = 20000, CELL_WORDS = 6, BUDGET = 1000 };

static metronome_gate gate = METRONOME_GATE;
static metronome_pacing pacing = METRONOME_PACING(PAGES, (BUDGET - 255) / 20, BUDGET); /* used in turns alone */
static metronome own = METRONOME_CLOSED, handles[THREADS];
static int failures[THREADS];

static void need(uint32_t m, int holds, int line) {
    if (holds) return;
    failures[m]++;
    fprintf(stderr, "failed: line %d\n", line);
}

#define NEED(holds) need(m, holds, __LINE__)
#define IS(status, call) need(m, (call) == (uint32_t)(status), __LINE__)

/* Makes a list of two cells in a frame, and reads it through its first cell. */
static void make_list(metronome *heap, metronome_row *row, uint64_t word) {
    uint32_t m = row->mutator, first = 0, second = 0;
    metronome_frame frame = metronome_open_frame(row);
    IS(METRONOME_OK, metronome_take_slot(row, &first));
    IS(METRONOME_OK, metronome_take_slot(row, &second));
    for (uint32_t slot = first; slot <= second; slot++) {
        IS(METRONOME_OK, metronome_pace(heap, &pacing, CELL_WORDS));
        NEED(metronome_new_plain(heap, m, slot, 1, 1).kind == METRONOME_MADE);
        NEED(metronome_put(heap, m, slot, 0, word + slot).kind == METRONOME_DONE);
    }
    NEED(metronome_store(heap, m, first, 0, second).kind == METRONOME_DONE);
    NEED(metronome_load(heap, m, second, first, 0).kind == METRONOME_REF);
    NEED(metronome_get(heap, m, second, 0).number == word + second);
    IS(METRONOME_OK, metronome_close_frame(heap, row, frame));
    NEED(metronome_get(heap, m, first, 0).number == METRONOME_NULL_SLOT && row->next == frame);
}

static void *work(void *argument) {
    uint32_t m = (uint32_t)(uintptr_t)argument;
    metronome_row row = METRONOME_ROW(m, 1, SLOTS);
    for (uint64_t round = 0; round < ROUNDS; round++) {
        IS(METRONOME_OK, metronome_gate_enter(&gate, &handles[m]));
        make_list(&handles[m], &row, round);
        IS(METRONOME_OK, metronome_gate_exit(&gate, &handles[m]));
    }
    return NULL;
}

int main(void) {
    metronome_settings settings = METRONOME_SETTINGS(PAGES, THREADS, SLOTS);
    pthread_t threads[THREADS];
    if (metronome_create_shared(&own, &settings, 0) != METRONOME_OK) return 2;
    for (uint32_t m = THREADS; m > 0; m--)
        if (metronome_sit(&own, &handles[m - 1], m - 1) != METRONOME_OK) return 2;
    for (uintptr_t m = 0; m < THREADS; m++)
        if (pthread_create(&threads[m], NULL, work, (void *)m)) return 2;
    for (uint32_t m = 0; m < THREADS; m++) pthread_join(threads[m], NULL);
    for (uint32_t m = 0; m < THREADS; m++) metronome_destroy(&handles[m]);
    metronome_destroy(&own);
    int failed = 0;
    for (int m = 0; m < THREADS; m++) failed += failures[m] != 0;
    printf("%d passed, %d failed\n", THREADS - failed, failed);
    return failed != 0;
}
