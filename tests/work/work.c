/*
 * work KIND..: a cycle on each of these kinds of heap in quanta of 256 units, on as few pages as it takes and on 4096, with 1 and
 * with 64 mutators; `calls`: calls of each function in each phase. work drawn FIRST LAST: a cycle on each heap of these seeds. Run
 * by callgrind, which writes down the instructions of each call that is counted under a name; the first is of no call.
 * work times KIND MUTATORS: for each phase of a cycle on few pages the nanoseconds of the longest quantum that begins or ends
 * in it, of each quantum the least of some cycles.
 */
#define _POSIX_C_SOURCE 200809L
#include "../../bench/embed/measure.h"
#include "counting.h"

#include <stdlib.h>
#include <string.h>

enum { PAGES = 4096, MUTATORS = 64, CYCLES = 15, MOST = 100000 };

static const char *const PHASES[] = { "idle", "roots", "marking", "sweeping", "moving" };

static uint32_t phase_now(void) {
    uint32_t phase = METRONOME_IDLE;
    metronome_phase(&heap, &phase);
    return phase;
}

/* Counts each quantum of the cycle that is running which begins or ends in a phase from one to another. */
static void count_quanta(const char *name, const char *where, uint32_t first, uint32_t last) {
    metronome_spent spent = { 0, METRONOME_IDLE };
    uint32_t phase = phase_now();
    for (; phase + 1 < first; phase = spent.phase) metronome_quantum(&heap, BUDGET, &spent);
    CALLGRIND_START_INSTRUMENTATION;
    for (; phase != METRONOME_IDLE && phase <= last; phase = spent.phase) {
        char text[64];
        CALLGRIND_TOGGLE_COLLECT;
        metronome_quantum(&heap, BUDGET, &spent);
        CALLGRIND_TOGGLE_COLLECT;
        snprintf(text, sizeof text, "%s %s %s", name, PHASES[phase], PHASES[spent.phase]);
        write_down(text, where);
    }
    CALLGRIND_STOP_INSTRUMENTATION;
    metronome_destroy(&heap);
}

static const struct kind *kind_of(const char *name) {
    const struct kind *kind = kinds;
    while (kind->name && strcmp(name, kind->name)) kind++;
    need(kind->name != 0, "no such kind of heap");
    return kind;
}

static void count_kind(const char *name) {
    const struct kind *kind = kind_of(name);
    for (int i = 0; i < 4; i++) {
        kind->build(i < 2 ? kind->takes : PAGES, i % 2 ? MUTATORS : 1);
        count_quanta(name, i < 2 ? (i ? "few 64" : "few 1") : (i == 3 ? "4096 64" : "4096 1"), kind->first, kind->last);
    }
}

static void count_all_calls(void) {
    for (int i = 0; i < 4; i++) {
        int mutators = i % 2 ? MUTATORS : 1;
        is_shared = i > 1;
        count_calls(SPARE, mutators, 0, i % 2 ? "few 64" : "few 1");
        count_calls(PAGES, mutators, SPARE, i % 2 ? "4096 64" : "4096 1");
        count_calls(PAGES, mutators, 0, i % 2 ? "4096 64" : "4096 1");
    }
}

static void count_drawn(uint64_t first, uint64_t last) {
    for (uint64_t seed = first; seed <= last; seed++) {
        char name[32];
        draw(seed);
        snprintf(name, sizeof name, "%llu", (unsigned long long)seed);
        count_quanta("drawn", name, METRONOME_ROOTS, METRONOME_MOVING);
    }
}

static int64_t least[MOST];
static uint32_t phases[MOST + 1];

/* Times each quantum of the cycle that is running. Returns how many there are. */
static int time_quanta(void) {
    uint32_t phase = METRONOME_ROOTS;
    int count = 0;
    for (; phase != METRONOME_IDLE && count < MOST; count++) {
        metronome_spent spent = { 0, METRONOME_IDLE };
        int64_t began = nanoseconds(CLOCK_MONOTONIC);
        metronome_quantum(&heap, BUDGET, &spent);
        int64_t took = nanoseconds(CLOCK_MONOTONIC) - began;
        if (least[count] == 0 || took < least[count]) least[count] = took;
        phases[count] = phase;
        phase = phases[count + 1] = spent.phase;
    }
    return count;
}

static void tell_times(const struct kind *kind, int mutators) {
    int64_t longest[METRONOME_MOVING + 1] = { 0 };
    int quanta = 0;
    for (int cycle = 0; cycle < CYCLES; cycle++) {
        kind->build(kind->takes, mutators);
        quanta = time_quanta();
        metronome_destroy(&heap);
    }
    for (int i = 0; i < quanta; i++)
        for (int end = i; end <= i + 1; end++)
            if (least[i] > longest[phases[end]]) longest[phases[end]] = least[i];
    for (int phase = METRONOME_ROOTS; phase <= METRONOME_MOVING; phase++) printf("%lld\n", (long long)longest[phase]);
}

int main(int count, char **words) {
    if (count == 4 && !strcmp(words[1], "times")) {
        tell_times(kind_of(words[2]), atoi(words[3]));
        return 0;
    }
    CALLGRIND_START_INSTRUMENTATION;
    COUNT("none", "", (void)0);
    CALLGRIND_STOP_INSTRUMENTATION;
    if (count == 4 && !strcmp(words[1], "drawn")) {
        count_drawn(strtoull(words[2], 0, 10), strtoull(words[3], 0, 10));
        return 0;
    }
    for (int i = 1; i < count; i++) {
        if (!strcmp(words[i], "calls")) count_all_calls();
        else count_kind(words[i]);
    }
    return 0;
}
