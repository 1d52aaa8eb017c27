/*
 * One heap that five threads share, each by a handle of its own: four mutators, and a collector. A mutator makes all calls of a
 * round in one turn. In the end the log has an entry for each call, those of the collector included.
 */
#include "metronome_shared.h"
#include <pthread.h>
#include <stdio.h>

enum { MUTATORS = 4, SLOTS = 8, ROUNDS = 20000 };

static metronome_gate gate = METRONOME_GATE;
static metronome own = METRONOME_CLOSED, collector = METRONOME_CLOSED;
static int is_over; /* this and the next are read and written in turns alone */
static uint64_t cycles, asked; /* the number of cycles that began, and that of calls for the collector */

struct mutator {
    metronome heap;
    uint32_t number;
    uint64_t commands;
    int failed;
};

static void need(struct mutator *self, int holds) {
    if (!holds) self->failed++;
}

/* Counts a command, and looks at its answer. */
static void expect(struct mutator *self, metronome_answer answer, uint32_t kind, uint64_t number) {
    self->commands++;
    need(self, answer.kind == kind && answer.number == number);
}

/* Makes a cell, writes into it, ties it to the one before, and reads both through the reference, all in the turn. */
static void round_of(struct mutator *self, uint64_t round) {
    metronome *heap = &self->heap;
    uint32_t m = self->number, slot = (uint32_t)(round % 2), before = 1 - slot;
    uint64_t word = round * MUTATORS + m;
    metronome_answer made = metronome_new_plain(heap, m, slot, 1, 1);
    expect(self, made, METRONOME_MADE, made.number);
    expect(self, metronome_put(heap, m, slot, 0, word), METRONOME_DONE, 0);
    expect(self, metronome_store(heap, m, slot, 0, before), METRONOME_DONE, 0);
    expect(self, metronome_get(heap, m, slot, 0), METRONOME_WORD, word);
    if (round == 0) return;
    metronome_answer loaded = metronome_load(heap, m, 2, slot, 0);
    expect(self, loaded, METRONOME_REF, loaded.number);
    expect(self, metronome_get(heap, m, 2, 0), METRONOME_WORD, word - MUTATORS);
    expect(self, metronome_compare_store(heap, m, slot, 0, before, 3), METRONOME_STORED, 0);
}

static void *mutate(void *argument) {
    struct mutator *self = argument;
    need(self, metronome_gate_enter(&gate, &self->heap) == METRONOME_OK);
    expect(self, metronome_join(&self->heap, self->number), METRONOME_DONE, 0);
    need(self, metronome_gate_exit(&gate, &self->heap) == METRONOME_OK);
    for (uint64_t round = 0; round < ROUNDS; round++) {
        need(self, metronome_gate_enter(&gate, &self->heap) == METRONOME_OK);
        round_of(self, round);
        need(self, metronome_gate_exit(&gate, &self->heap) == METRONOME_OK);
    }
    need(self, metronome_gate_enter(&gate, &self->heap) == METRONOME_OK);
    expect(self, metronome_leave(&self->heap, self->number), METRONOME_DONE, 0);
    need(self, metronome_gate_exit(&gate, &self->heap) == METRONOME_OK);
    return NULL;
}

static void *collect(void *argument) {
    (void)argument;
    for (int over = 0; !over;) {
        metronome_spent spent;
        if (metronome_gate_enter(&gate, &collector) != METRONOME_OK) return NULL;
        over = is_over;
        if (metronome_begin(&collector) == METRONOME_OK) cycles++;
        metronome_quantum(&collector, 4096, &spent);
        asked += 2;
        metronome_gate_exit(&gate, &collector);
    }
    return NULL;
}

/* Makes a heap, and a handle for each thread. Each worker gets a mutator, the last one first. The collector and the main thread
 * have none in the end. */
static uint32_t open_handles(struct mutator *mutators) {
    metronome_settings settings = METRONOME_SETTINGS(512, MUTATORS, SLOTS);
    settings.live = 0;
    uint32_t status = metronome_create_shared(&own, &settings, 0);
    if (status == METRONOME_OK) status = metronome_sit(&own, &collector, MUTATORS);
    for (uint32_t m = MUTATORS; m > 0 && status == METRONOME_OK; m--) {
        mutators[m - 1] = (struct mutator){ .heap = METRONOME_CLOSED, .number = m - 1, .commands = 0, .failed = 0 };
        status = metronome_sit(&own, &mutators[m - 1].heap, m - 1);
    }
    return status;
}

/* Closes all handles except the main thread's, and checks that the log has as many entries as these handles made calls. */
static int is_whole(struct mutator *mutators) {
    uint64_t calls = asked, place = 0;
    metronome_destroy(&collector);
    for (uint32_t m = 0; m < MUTATORS; m++) {
        metronome_destroy(&mutators[m].heap);
        calls += mutators[m].commands;
    }
    if (metronome_place(&own, &place) != METRONOME_OK) return 0;
    printf("a log of %llu entries\n", (unsigned long long)place);
    return place == calls;
}

int main(void) {
    struct mutator mutators[MUTATORS];
    pthread_t threads[MUTATORS], collecting;
    if (open_handles(mutators) != METRONOME_OK) return 2;
    if (pthread_create(&collecting, NULL, collect, NULL)) return 2;
    for (uint32_t m = 0; m < MUTATORS; m++)
        if (pthread_create(&threads[m], NULL, mutate, &mutators[m])) return 2;
    int failed = 0;
    for (uint32_t m = 0; m < MUTATORS; m++) {
        pthread_join(threads[m], NULL);
        failed += mutators[m].failed != 0;
    }
    failed += metronome_gate_enter(&gate, &own) != METRONOME_OK;
    is_over = 1;
    failed += metronome_gate_exit(&gate, &own) != METRONOME_OK;
    pthread_join(collecting, NULL);
    failed += !is_whole(mutators);
    metronome_destroy(&own);
    printf("%d mutators of %d rounds beside %llu cycles\n", MUTATORS, ROUNDS, (unsigned long long)cycles);
    printf("%d passed, %d failed\n", MUTATORS + 3 - failed, failed);
    return failed != 0;
}
