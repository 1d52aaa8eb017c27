#define _POSIX_C_SOURCE 200809L
#include "calls.h"

#include "../measure.h"
#include "heaps.h"

/* The slots: an object of two words, one of references, one to which these lead, a new object. */
enum { SLOT_WORDS, SLOT_REFS, OTHER, SLOT_NEW, MANY = 1000, FEW = 100, LONG = 1000 };

static void get(uint32_t i) {
    metronome_get(&heap, 0, SLOT_WORDS, i % 2);
}

static void put(uint32_t i) {
    metronome_put(&heap, 0, SLOT_WORDS, i % 2, i);
}

static void load(uint32_t i) {
    metronome_load(&heap, 0, SLOT_NEW, SLOT_REFS, i % LARGEST);
}

static void store(uint32_t i) {
    metronome_store(&heap, 0, SLOT_REFS, i % LARGEST, OTHER);
}

static void make_small(uint32_t i) {
    (void)i;
    metronome_new_plain(&heap, 0, SLOT_NEW, 1, 2);
}

static void make_large(uint32_t i) {
    (void)i;
    metronome_new_plain(&heap, 0, SLOT_NEW, 0, LARGEST);
}

static void make_array(uint32_t i) {
    (void)i;
    metronome_new_words(&heap, 0, SLOT_NEW, LONG);
}

/* The calls, and how many of them are timed at once. Stores while a cycle marks overwrite references that it hasn't met. */
static const struct { const char *what; void (*call)(uint32_t); uint32_t times; int marks; } timed[CALLS] = {
    { "get", get, MANY, 0 },
    { "put", put, MANY, 0 },
    { "load", load, MANY, 0 },
    { "store", store, MANY, 0 },
    { "store while a cycle marks", store, LARGEST, 1 },
    { "new of 3 cells", make_small, FEW, 0 },
    { "new of 252 cells", make_large, FEW / 4, 0 },
    { "new of 1000 cells", make_array, FEW / 20, 0 },
};

/* Makes the objects: each reference leads to an object of its own. */
static void build(int pages) {
    create(pages, 1, 0, 0);
    make(0, SLOT_WORDS, 2);
    make(0, OTHER, 0);
    need(metronome_new_plain(&heap, 0, SLOT_REFS, LARGEST, 0).kind == METRONOME_MADE, "no object");
    for (uint32_t i = 0; i < LARGEST; i++) {
        make(0, SLOT_NEW, 0);
        metronome_store(&heap, 0, SLOT_REFS, i, SLOT_NEW);
    }
}

/* Times a block of calls on a new heap. */
static double time_block(int call, int pages) {
    build(pages);
    if (timed[call].marks) metronome_begin(&heap);
    const int64_t began = nanoseconds(CLOCK_MONOTONIC);
    for (uint32_t i = 0; i < timed[call].times; i++) timed[call].call(i);
    const int64_t took = nanoseconds(CLOCK_MONOTONIC) - began;
    metronome_destroy(&heap);
    return (double)took / timed[call].times;
}

void time_calls(int pages, int runs, struct timed_call calls[CALLS]) {
    for (int i = 0; i < CALLS * runs; i++) {
        const int call = i % CALLS;
        const double took = time_block(call, pages);
        if (i < CALLS) calls[call] = (struct timed_call){ timed[call].what, took, took };
        if (took < calls[call].least) calls[call].least = took;
        if (took > calls[call].most) calls[call].most = took;
    }
}
