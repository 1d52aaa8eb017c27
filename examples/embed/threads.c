/*
 * One heap in five threads: four mutators, and a collector. The program's own mutex is held around each call, since a heap
 * takes one call at a time.
 */
#include "metronome.h"
#include <pthread.h>
#include <stdio.h>

enum { MUTATORS = 4, SLOTS = 8, ROUNDS = 20000 };

static metronome heap = METRONOME_CLOSED;
static pthread_mutex_t lock = PTHREAD_MUTEX_INITIALIZER;
static int is_over;
static uint64_t cycles;

struct mutator {
    uint32_t number;
    int failed;
};

/* A call with the mutex held; `answer` is where its answer goes. */
#define LOCKED(answer, call) \
    do { \
        pthread_mutex_lock(&lock); \
        (answer) = (call); \
        pthread_mutex_unlock(&lock); \
    } while (0)

static void expect(struct mutator *self, metronome_answer answer, uint32_t kind, uint64_t number) {
    if (answer.kind != kind || answer.number != number) self->failed++;
}

/* Makes a cell, writes into it, ties it to the one before, and reads both by way of the reference. */
static void round_of(struct mutator *self, uint64_t round) {
    uint32_t m = self->number, slot = (uint32_t)(round % 2), before = 1 - slot;
    uint64_t word = round * MUTATORS + m;
    metronome_answer answer;
    LOCKED(answer, metronome_new_plain(&heap, m, slot, 1, 1));
    if (answer.kind != METRONOME_MADE) self->failed++;
    LOCKED(answer, metronome_put(&heap, m, slot, 0, word));
    expect(self, answer, METRONOME_DONE, 0);
    LOCKED(answer, metronome_store(&heap, m, slot, 0, before));
    expect(self, answer, METRONOME_DONE, 0);
    LOCKED(answer, metronome_get(&heap, m, slot, 0));
    expect(self, answer, METRONOME_WORD, word);
    if (round == 0) return;
    LOCKED(answer, metronome_load(&heap, m, 2, slot, 0));
    LOCKED(answer, metronome_get(&heap, m, 2, 0));
    expect(self, answer, METRONOME_WORD, word - MUTATORS);
    LOCKED(answer, metronome_compare_store(&heap, m, slot, 0, before, 3));
    expect(self, answer, METRONOME_STORED, 0);
}

static void *mutate(void *argument) {
    struct mutator *self = argument;
    metronome_answer answer;
    LOCKED(answer, metronome_join(&heap, self->number));
    expect(self, answer, METRONOME_DONE, 0);
    for (uint64_t round = 0; round < ROUNDS; round++) round_of(self, round);
    LOCKED(answer, metronome_leave(&heap, self->number));
    expect(self, answer, METRONOME_DONE, 0);
    return NULL;
}

static void *collect(void *argument) {
    (void)argument;
    for (int over = 0; !over;) {
        metronome_spent spent;
        pthread_mutex_lock(&lock);
        over = is_over;
        if (metronome_begin(&heap) == METRONOME_OK) cycles++;
        metronome_quantum(&heap, 4096, &spent);
        pthread_mutex_unlock(&lock);
    }
    return NULL;
}

int main(void) {
    metronome_settings settings = METRONOME_SETTINGS(512, MUTATORS, SLOTS);
    settings.live = 0;
    if (metronome_create(&heap, &settings) != METRONOME_OK) return 2;
    pthread_t threads[MUTATORS], collector;
    struct mutator mutators[MUTATORS];
    if (pthread_create(&collector, NULL, collect, NULL)) return 2;
    for (uint32_t m = 0; m < MUTATORS; m++) {
        mutators[m] = (struct mutator){ .number = m, .failed = 0 };
        if (pthread_create(&threads[m], NULL, mutate, &mutators[m])) return 2;
    }
    int failed = 0;
    for (uint32_t m = 0; m < MUTATORS; m++) {
        pthread_join(threads[m], NULL);
        failed += mutators[m].failed != 0;
    }
    pthread_mutex_lock(&lock);
    is_over = 1;
    pthread_mutex_unlock(&lock);
    pthread_join(collector, NULL);
    metronome_destroy(&heap);
    printf("%d mutators of %d rounds beside %llu cycles\n", MUTATORS, ROUNDS, (unsigned long long)cycles);
    printf("%d passed, %d failed\n", MUTATORS - failed, failed);
    return failed != 0;
}
