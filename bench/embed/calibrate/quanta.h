/* Times each quantum of cycles on heaps of a kind (tests/work/heaps.h). */
#ifndef QUANTA_H
#define QUANTA_H

#include <string.h>

#include "../measure.h"
#include "heaps.h"

enum { MOST_QUANTA = 100000, PHASES = 5 };

/* A quantum of a cycle: the phases in which it begins and ends, its nanoseconds in the shortest and in the longest run, and its
 * instructions. */
struct timed {
    uint32_t begins, ends;
    int64_t least, most;
    uint64_t instructions;
};

static struct timed timed[MOST_QUANTA];

/* Returns how many instructions the program has taken until now; 0 unless a program sets it to a function that counts them. */
static inline uint64_t none_counted(void) {
    return 0;
}
static uint64_t (*instructions_now)(void) = none_counted;

/* Times a quantum that begins in a phase; returns the phase in which it ends. */
static inline uint32_t time_quantum(struct timed *it, uint32_t begins, uint32_t budget) {
    metronome_spent spent = { 0, METRONOME_IDLE };
    const uint64_t before = instructions_now();
    const int64_t began = nanoseconds(CLOCK_MONOTONIC);
    metronome_quantum(&heap, budget, &spent);
    const int64_t took = nanoseconds(CLOCK_MONOTONIC) - began;
    const uint64_t counted = instructions_now() - before;
    it->begins = begins;
    it->ends = spent.phase;
    if (it->most == 0 || took < it->least) it->least = took;
    if (took > it->most) it->most = took;
    if (it->instructions == 0 || counted < it->instructions) it->instructions = counted;
    return spent.phase;
}

/* Times the quanta of a cycle on a heap of a kind, in some runs that each make it anew. Returns how many quanta there are. */
static inline int time_kind(const struct kind *kind, int pages, int mutators, uint32_t budget, int runs) {
    int count = 0;
    memset(timed, 0, sizeof timed);
    for (int run = 0; run < runs; run++) {
        uint32_t phase = METRONOME_ROOTS;
        kind->build(pages, mutators);
        count = 0;
        while (phase != METRONOME_IDLE && count < MOST_QUANTA) phase = time_quantum(&timed[count++], phase, budget);
        metronome_destroy(&heap);
    }
    return count;
}

#endif
