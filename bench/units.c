/*
 * units KIND PAGES COUNT MOST: measures the collector of the library on a heap of PAGES pages. It spends COUNT units in one phase
 * (marknull, mark, sweepkept, sweepfreed); or does COUNT cycles in quanta of 256 (small, large); or the quanta of a trace of mutators
 * that MOST says (play); or quanta before which each of 64 mutators recorded 63 references (records); or reads the clock twice COUNT
 * times (nothing). It writes for each phase, or for the kind, five numbers: how many quanta, 0 or the lacking units, units,
 * nanoseconds, and those of the longest quantum. The heap for units is prepared by MOST alone, so two runs differ by COUNT.
 */
#define _POSIX_C_SOURCE 200809L
#include "embed/measure.h"
#include "metronome.h"
#include <inttypes.h>
#include <stdlib.h>
#include <string.h>

enum { ITSELF = 255, MUTATORS = 64, BUDGET = 256, PHASES = 5 };

static const char *const names[PHASES] = { "idle", "roots", "marking", "sweeping", "moving" };

static metronome heap = METRONOME_CLOSED;
static struct measured { uint64_t count, lacking, units; int64_t nanos, longest; } of[PHASES];

static void need(int holds) {
    if (holds) return;
    fprintf(stderr, "units: a call was refused\n");
    exit(1);
}

static void create(int pages, int mutators, int emptied) {
    metronome_settings settings = METRONOME_SETTINGS(pages, mutators, 256);
    settings.statics = 64;
    settings.defrag_below = 4097;
    settings.defrag_pages = emptied;
    need(metronome_create(&heap, &settings) == METRONOME_OK);
}

static uint32_t phase_now(void) {
    uint32_t phase = METRONOME_IDLE;
    need(metronome_phase(&heap, &phase) == METRONOME_OK);
    return phase;
}

/* A quantum; its units. It is a function of its own, so that instructions can be counted in it. */
__attribute__((noinline)) static uint32_t collect(uint32_t budget) {
    metronome_spent spent;
    need(metronome_quantum(&heap, budget, &spent) == METRONOME_OK);
    return spent.units;
}

static void add(struct measured *to, uint32_t units, int64_t nanos) {
    to->count++;
    to->units += units;
    to->nanos += nanos;
    if (nanos > to->longest) to->longest = nanos;
}

/* A quantum, timed, for the phase in which it begins. */
static void quantum(uint32_t budget) {
    const uint32_t phase = phase_now();
    const int64_t began = nanoseconds(CLOCK_MONOTONIC);
    const uint32_t units = collect(budget);
    add(&of[phase], units, nanoseconds(CLOCK_MONOTONIC) - began);
}

/* ---- What is prepared ---- */

static void make(uint32_t words) {
    need(metronome_new_plain(&heap, 0, ITSELF, 0, words).kind == METRONOME_MADE);
}

/* Arrays of references in the slots from 0, and for each of their cells an object of its own of some words, with objects of the same
 * shape beside it that nothing names. */
static void fill(uint32_t arrays, uint32_t length, uint32_t words, uint32_t garbage) {
    for (uint32_t array = 0; array < arrays; array++) {
        need(metronome_new_refs(&heap, 0, array, length).kind == METRONOME_MADE);
        for (uint32_t i = 0; i < length; i++) {
            make(words);
            need(metronome_store(&heap, 0, array, i, ITSELF).kind == METRONOME_DONE);
            for (uint32_t n = 0; n < garbage; n++) make(words);
        }
    }
    metronome_clear(&heap, 0, ITSELF);
}

/* Arrays of null over half of the pages, each named by a static. */
static void fill_half(uint32_t pages) {
    for (uint32_t k = 0; k < pages / 64; k++) {
        need(metronome_new_refs(&heap, 0, ITSELF, 63504).kind == METRONOME_MADE);
        need(metronome_store_static(&heap, 0, k, ITSELF).kind == METRONOME_DONE);
    }
    metronome_clear(&heap, 0, ITSELF);
}

/* ---- What is measured ---- */

/* Units of one phase, by quanta of at most 200000. */
static void spend(const char *kind, uint32_t pages, uint32_t count, uint32_t most) {
    const uint32_t phase = strncmp(kind, "mark", 4) == 0 ? METRONOME_MARKING : METRONOME_SWEEPING;
    const uint32_t arrays = most / 2500 + 1;
    uint32_t left = count;
    create((int)pages, 1, 0);
    if (strcmp(kind, "marknull") == 0) fill_half(pages);
    else fill(arrays, 2500, 0, 0);
    for (uint32_t slot = 0; strcmp(kind, "sweepfreed") == 0 && slot < arrays; slot++) metronome_clear(&heap, 0, slot);
    need(metronome_begin(&heap) == METRONOME_OK);
    while (phase_now() != phase) collect(BUDGET);
    const int64_t began = nanoseconds(CLOCK_MONOTONIC);
    while (left >= BUDGET) left -= collect(left < 200000 ? left : 200000);
    const int64_t took = nanoseconds(CLOCK_MONOTONIC) - began;
    of[0] = (struct measured){ count, phase_now() != phase, 0, took, 0 };
}

static void do_cycles(const char *kind, uint32_t pages, uint32_t count) {
    create((int)pages, 1, 16);
    if (strcmp(kind, "small") == 0) fill(16, 4 * pages, 3, 3);
    else fill(4, pages / 2, 252, 1);
    while (count-- > 0) {
        need(metronome_begin(&heap) == METRONOME_OK);
        while (phase_now() != METRONOME_IDLE) quantum(BUDGET);
    }
}

/* Four quanta, before each of which 64 mutators overwrote 63 references of an array of each. */
static void flush(uint32_t pages) {
    create((int)pages, MUTATORS, 0);
    fill(MUTATORS, 252, 0, 0);
    for (uint32_t m = 0; m < MUTATORS; m++) {
        need(metronome_store_static(&heap, 0, m, m).kind == METRONOME_DONE);
        need(metronome_load_static(&heap, m, 0, m).kind == METRONOME_REF);
    }
    need(metronome_begin(&heap) == METRONOME_OK);
    for (uint32_t first = 0; first < 252; first += 63) {
        for (uint32_t m = 0; m < MUTATORS; m++)
            for (uint32_t i = first; i < first + 63; i++) need(metronome_store(&heap, m, 0, i, ITSELF).kind == METRONOME_DONE);
        const int64_t began = nanoseconds(CLOCK_MONOTONIC);
        const uint32_t units = collect(BUDGET);
        add(&of[0], units, nanoseconds(CLOCK_MONOTONIC) - began);
    }
}

/* The lines of the workload of arrays (bench/workloads.py), of standard input. */
static void play(uint32_t pages, uint32_t mutators) {
    char line[100];
    create((int)pages, (int)mutators, 0);
    while (fgets(line, sizeof line, stdin)) {
        uint32_t m, a = 0, b = 0, c = 0;
        unsigned long long word = 0;
        if (sscanf(line, "%" SCNu32 " new %" SCNu32 " refs %" SCNu32, &m, &a, &b) == 3) metronome_new_refs(&heap, m, a, b);
        else if (sscanf(line, "%" SCNu32 " new %" SCNu32 " words %" SCNu32, &m, &a, &b) == 3) metronome_new_words(&heap, m, a, b);
        else if (sscanf(line, "%" SCNu32 " load %" SCNu32 " %" SCNu32 " %" SCNu32, &m, &a, &b, &c) == 4) metronome_load(&heap, m, a, b, c);
        else if (sscanf(line, "%" SCNu32 " store %" SCNu32 " %" SCNu32 " %" SCNu32, &m, &a, &b, &c) == 4) metronome_store(&heap, m, a, b, c);
        else if (sscanf(line, "%" SCNu32 " get %" SCNu32 " %" SCNu32, &m, &a, &b) == 3) metronome_get(&heap, m, a, b);
        else if (sscanf(line, "%" SCNu32 " put %" SCNu32 " %" SCNu32 " %llu", &m, &a, &b, &word) == 4) metronome_put(&heap, m, a, b, word);
        else if (sscanf(line, "quantum %" SCNu32, &a) == 1) quantum(a);
        else if (strcmp(line, "begin\n") == 0) metronome_begin(&heap);
        else need(0);
    }
}

static void tell(const char *name, const struct measured *it) {
    printf("%s %" PRIu64 " %" PRIu64 " %" PRIu64 " %" PRId64 " %" PRId64 "\n", name, it->count, it->lacking, it->units, it->nanos, it->longest);
}

int main(int words, char **word) {
    if (words != 5) return 2;
    const char *kind = word[1];
    const uint32_t pages = (uint32_t)atol(word[2]), count = (uint32_t)atol(word[3]), most = (uint32_t)atol(word[4]);
    const int by_phase = strcmp(kind, "small") == 0 || strcmp(kind, "large") == 0 || strcmp(kind, "play") == 0;
    if (strcmp(kind, "play") == 0) play(pages, most);
    else if (by_phase) do_cycles(kind, pages, count);
    else if (strcmp(kind, "records") == 0) flush(pages);
    else if (strcmp(kind, "nothing") != 0) spend(kind, pages, count, most);
    else
        for (uint32_t n = 0; n < count; n++) {
            const int64_t began = nanoseconds(CLOCK_MONOTONIC);
            add(&of[0], 0, nanoseconds(CLOCK_MONOTONIC) - began);
        }
    for (int phase = 1; by_phase && phase < PHASES; phase++) tell(names[phase], &of[phase]);
    if (!by_phase) tell(kind, &of[0]);
    return 0;
}
