/*
 * shards [ADDITIONS [THREADS]]: a table of counts, sharded over as many heaps as there are threads, beside the same table in
 * one heap. Each thread has a handle at each heap. A key's heap is its remainder, and a thread makes all its additions at one
 * heap in one turn. No reference goes from heap to heap: only words can pass between them. It prints how long an addition
 * takes in both ways, by the clock, and checks that each count is the sum of all threads' additions.
 */
#define _POSIX_C_SOURCE 200809L
#include "metronome_shared.h"
#include <pthread.h>
#include <stdio.h>
#include <stdlib.h>
#include <string.h>
#include <time.h>

enum { MOST = 8, KEYS = 4096, BUCKETS = 1024, ADDITIONS_A_TURN = 16, BUDGET = 1000 };

/* The slots of each mutator: the buckets, an entry, and its count. An entry has the key, and refers to the next entry and to
 * its count. */
enum { TABLE, ENTRY, COUNT, SLOTS };

struct shard {
    metronome_gate gate;
    metronome own;
};

struct worker {
    metronome handles[MOST];
    uint32_t number;
    uint64_t seed, additions;
    uint32_t added[KEYS];
};

static struct shard shards[MOST];
static struct worker workers[MOST];
static uint32_t heaps, threads;

static void need(int holds) {
    if (holds) return;
    fprintf(stderr, "shards: a call was refused\n");
    exit(1);
}

static uint64_t number_of(metronome_answer answer) {
    need(answer.kind != METRONOME_REFUSED);
    return answer.number;
}

static uint32_t drawn_key(struct worker *self) {
    self->seed ^= self->seed << 13;
    self->seed ^= self->seed >> 7;
    self->seed ^= self->seed << 17;
    return (uint32_t)(self->seed >> 20) % KEYS;
}

/* Finds the entry of a key, and puts it into its slot. If there is none, the slot gets null. Returns whether it was found. */
static bool find(metronome *heap, uint32_t m, uint32_t key) {
    uint64_t entry = number_of(metronome_load(heap, m, ENTRY, TABLE, key / heaps % BUCKETS));
    while (entry != 0 && number_of(metronome_get(heap, m, ENTRY, 0)) != key)
        entry = number_of(metronome_load(heap, m, ENTRY, ENTRY, 0));
    return entry != 0;
}

/* Makes an entry, the first one of its bucket. */
static void insert(metronome *heap, uint32_t m, uint32_t key) {
    number_of(metronome_new_plain(heap, m, ENTRY, 2, 1));
    number_of(metronome_put(heap, m, ENTRY, 0, key));
    number_of(metronome_load(heap, m, COUNT, TABLE, key / heaps % BUCKETS));
    number_of(metronome_store(heap, m, ENTRY, 0, COUNT));
    number_of(metronome_store(heap, m, TABLE, key / heaps % BUCKETS, ENTRY));
}

/* Returns the count of a key. */
static uint64_t count_of(metronome *heap, uint32_t m, uint32_t key) {
    if (!find(heap, m, key)) return 0;
    number_of(metronome_load(heap, m, COUNT, ENTRY, 1));
    return number_of(metronome_get(heap, m, COUNT, 0));
}

/* Adds one to a key, whose count is a new object each time. */
static void add(metronome *heap, uint32_t m, uint32_t key) {
    uint64_t before = count_of(heap, m, key);
    if (before == 0) insert(heap, m, key);
    number_of(metronome_new_words(heap, m, COUNT, 1));
    number_of(metronome_put(heap, m, COUNT, 0, before + 1));
    number_of(metronome_store(heap, m, ENTRY, 1, COUNT));
}

/* Takes a turn at a heap, adds one to each of these keys that belongs there, and spends a quantum. */
static void add_at(struct worker *self, uint32_t shard, const uint32_t *keys, uint32_t many) {
    metronome *heap = &self->handles[shard];
    metronome_spent spent;
    need(metronome_gate_enter(&shards[shard].gate, heap) == METRONOME_OK);
    for (uint32_t k = 0; k < many; k++)
        if (keys[k] % heaps == shard) add(heap, self->number, keys[k]);
    metronome_begin(heap);
    need(metronome_quantum(heap, BUDGET, &spent) == METRONOME_OK);
    need(metronome_gate_exit(&shards[shard].gate, heap) == METRONOME_OK);
}

static void *work(void *argument) {
    struct worker *self = argument;
    uint32_t keys[MOST * ADDITIONS_A_TURN], many = heaps * ADDITIONS_A_TURN;
    for (uint64_t done = 0; done < self->additions; done += many) {
        for (uint32_t k = 0; k < many; k++) {
            keys[k] = drawn_key(self);
            self->added[keys[k]]++;
        }
        for (uint32_t s = 0; s < heaps; s++) add_at(self, (self->number + s) % heaps, keys, many);
    }
    return NULL;
}

/* Makes a heap with an empty table, which each mutator has in a slot, and a handle at it for each thread. */
static void open_shard(uint32_t number) {
    static const struct shard closed = { METRONOME_GATE, METRONOME_CLOSED };
    metronome_settings settings = METRONOME_SETTINGS(256 / heaps, threads, SLOTS);
    metronome *own = &shards[number].own;
    settings.statics = 1;
    shards[number] = closed;
    need(metronome_create_shared(own, &settings, 0) == METRONOME_OK && metronome_enter(own) == METRONOME_OK);
    number_of(metronome_new_refs(own, 0, TABLE, BUCKETS));
    number_of(metronome_store_static(own, 0, 0, TABLE));
    for (uint32_t m = 1; m < threads; m++) number_of(metronome_load_static(own, m, TABLE, 0));
    need(metronome_exit(own) == METRONOME_OK);
    for (uint32_t m = threads; m > 0; m--) {
        workers[m - 1].handles[number] = closed.own;
        need(metronome_sit(own, &workers[m - 1].handles[number], m - 1) == METRONOME_OK);
    }
}

/* Returns how many counts aren't the sum of all threads' additions. The first thread's handles read them. */
static uint32_t wrong_counts(void) {
    uint32_t wrong = 0;
    for (uint32_t key = 0; key < KEYS; key++) {
        metronome *heap = &workers[0].handles[key % heaps];
        uint64_t added = 0;
        for (uint32_t t = 0; t < threads; t++) added += workers[t].added[key];
        need(metronome_enter(heap) == METRONOME_OK);
        wrong += count_of(heap, 0, key) != added;
        need(metronome_exit(heap) == METRONOME_OK);
    }
    return wrong;
}

static void close_shards(void) {
    for (uint32_t s = 0; s < heaps; s++) {
        for (uint32_t t = 0; t < threads; t++) metronome_destroy(&workers[t].handles[s]);
        metronome_destroy(&shards[s].own);
    }
}

static double seconds(void) {
    struct timespec t;
    clock_gettime(CLOCK_MONOTONIC, &t);
    return (double)t.tv_sec + (double)t.tv_nsec / 1e9;
}

/* Makes all additions at a table of `many` heaps. Returns how many counts are wrong at the end. */
static uint32_t run(uint32_t many, uint64_t additions) {
    pthread_t running[MOST];
    heaps = many;
    for (uint32_t s = 0; s < heaps; s++) open_shard(s);
    for (uint32_t t = 0; t < threads; t++) {
        workers[t].number = t;
        workers[t].seed = 88172645463325252u + t;
        workers[t].additions = additions / threads;
        memset(workers[t].added, 0, sizeof workers[t].added);
    }
    double began = seconds();
    for (uint32_t t = 0; t < threads; t++) need(pthread_create(&running[t], NULL, work, &workers[t]) == 0);
    for (uint32_t t = 0; t < threads; t++) need(pthread_join(running[t], NULL) == 0);
    double took = seconds() - began;
    uint32_t wrong = wrong_counts();
    printf("%u threads, heaps %u: %.0f ns an addition\n", threads, heaps, took / (double)additions * 1e9);
    close_shards();
    return wrong;
}

int main(int count, char **words) {
    uint64_t additions = count > 1 ? strtoull(words[1], NULL, 10) : 200000;
    threads = count > 2 ? (uint32_t)strtoul(words[2], NULL, 10) : 4;
    if (threads < 1 || threads > MOST) return 2;
    int failed = (run(1, additions) != 0) + (run(threads, additions) != 0);
    printf("%d passed, %d failed\n", 2 - failed, failed);
    return failed != 0;
}
