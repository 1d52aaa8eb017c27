/*
 * control [PERIODS [PERIOD [FILE]]]: a control loop over a heap that keeps a plan, with a period in microseconds (1000 by
 * default). In each period it makes objects, each in the place of an older one. The collector works before a new object,
 * as much as the plan requires.
 *
 * It prints how long it took to wake up and to work, and by how much it missed a period. FILE gets a line for each period,
 * with both times in nanoseconds: `bench/embed/loop` draws them. No time is promised. The units of a quantum are promised,
 * and so is that no object is refused for lack of space. The process locks its memory and takes SCHED_FIFO if it may.
 *
 * Built with -DLIBGC=1 the same loop runs on libgc; with -DLIBGC=2 on libgc in its incremental mode.
 */
#define _GNU_SOURCE
#include <sched.h>
#include <stdint.h>
#include <stdio.h>
#include <stdlib.h>
#include <sys/mman.h>
#include <time.h>

#ifndef LIBGC
#define LIBGC 0
#endif

enum { LIVE = 20000, OBJECTS_A_PERIOD = 50 };

static int failed;

static void need(int holds, const char *what) {
    if (holds) return;
    fprintf(stderr, "control: %s\n", what);
    exit(1);
}

/* ---- Memory: cells of a reference and two words, LIVE of them live ---- */

#if LIBGC

#include <gc.h>

static const char *const MEMORY = LIBGC == 2 ? "libgc, incremental" : "libgc";

struct cell {
    struct cell *next;
    uint64_t words[2];
};

static struct cell **cells;

static void open_memory(void) {
    GC_INIT();
    if (LIBGC == 2) GC_enable_incremental();
    cells = GC_MALLOC(LIVE * sizeof *cells);
}

/* Makes cell n with a word, in the place of an older one. */
static void make(uint32_t place, uint64_t word) {
    struct cell *cell = GC_MALLOC(sizeof *cell);
    cell->words[1] = word;
    cells[place] = cell;
}

static uint64_t word_of(uint32_t place) { return cells[place]->words[1]; }

static void close_memory(void) { printf("collections: %lu\n", (unsigned long)GC_get_gc_no()); }

#else

#include "metronome.h"

static const char *const MEMORY = "this heap";

/* slots: the array of all cells, and one of them */
enum { CELLS, CELL, SLOTS };

/* The plan is for LIVE_WORDS. A cell of the loop takes at most 8 words, 9 / 8 of its contents and its header. The array
 * takes fewer than 23000. */
enum { PAGES = 512, LIVE_WORDS = 8 * LIVE + 25000 };

static metronome heap = METRONOME_CLOSED;

static void open_memory(void) {
    metronome_settings settings = METRONOME_SETTINGS_MOVING(PAGES, 1, SLOTS);
    metronome_flow plan;
    need(metronome_plan(&settings, LIVE_WORDS, &plan) == METRONOME_OK, "no plan");
    need(metronome_create(&heap, &settings) == METRONOME_OK, "no heap");
    need(metronome_touch(&heap, PAGES) == METRONOME_OK, "pages not touched");
    need(metronome_keep(&heap, &plan) == METRONOME_OK, "the plan isn't kept");
    need(metronome_new_refs(&heap, 0, CELLS, LIVE).kind == METRONOME_MADE, "no room for the array");
    printf("a quantum of %u units for each %llu words made\n", plan.budget, (unsigned long long)plan.quantum_words);
}

/* Makes a cell with a word, in the place of an older one. */
static void make(uint32_t place, uint64_t word) {
    if (metronome_new_plain(&heap, 0, CELL, 1, 2).kind != METRONOME_MADE) failed++;
    metronome_put(&heap, 0, CELL, 1, word);
    metronome_store(&heap, 0, CELLS, place, CELL);
}

static uint64_t word_of(uint32_t place) {
    metronome_load(&heap, 0, CELL, CELLS, place);
    return metronome_get(&heap, 0, CELL, 1).number;
}

static void close_memory(void) {
    metronome_work work = { 0, 0, 0 };
    if (metronome_kept(&heap, &work) != METRONOME_OK || work.most_quanta > 1) failed++;
    printf("%llu cycles of %llu quanta together, at most %llu before one object\n", (unsigned long long)work.cycles,
           (unsigned long long)work.quanta, (unsigned long long)work.most_quanta);
    metronome_destroy(&heap);
}

#endif

/* ---- Time, in nanoseconds ---- */

enum { WAKE, WORK, TIMES };

static const char *const names[TIMES] = { "wake-up", "work" };

static int64_t *times[TIMES];

static int64_t now(void) {
    struct timespec t;
    clock_gettime(CLOCK_MONOTONIC, &t);
    return (int64_t)t.tv_sec * 1000000000 + t.tv_nsec;
}

static void sleep_until(int64_t time) {
    struct timespec t = { .tv_sec = time / 1000000000, .tv_nsec = time % 1000000000 };
    while (clock_nanosleep(CLOCK_MONOTONIC, TIMER_ABSTIME, &t, NULL) != 0) {}
}

/* Locks memory and takes a priority, if the process may. */
static void be_realtime(void) {
    struct sched_param priority = { .sched_priority = 50 };
    int locked = mlockall(MCL_CURRENT | MCL_FUTURE) == 0;
    int first = sched_setscheduler(0, SCHED_FIFO, &priority) == 0;
    printf("memory locked: %s; SCHED_FIFO: %s\n", locked ? "yes" : "no", first ? "yes" : "no");
}

/* Runs the loop. A period is missed by the time from its end to the end of the work. */
static void run(uint32_t periods, int64_t period) {
    int64_t due = now() + period, longest_miss = 0;
    uint32_t missed = 0;
    for (uint32_t n = 0; n < periods; n++, due += period) {
        sleep_until(due);
        int64_t woke = now();
        for (uint32_t i = 0; i < OBJECTS_A_PERIOD; i++) {
            uint64_t object = LIVE + (uint64_t)n * OBJECTS_A_PERIOD + i;
            uint32_t place = (uint32_t)(object % LIVE);
            if (word_of(place) != object - LIVE) failed++;
            make(place, object);
        }
        int64_t end = now(), late = end - due - period;
        times[WAKE][n] = woke - due;
        times[WORK][n] = end - woke;
        if (late <= 0) continue;
        missed++;
        if (late > longest_miss) longest_miss = late;
        while (due + period < end) due += period;
    }
    printf("periods missed: %u, by %.1f us at most\n", missed, (double)longest_miss / 1e3);
}

/* ---- Output ---- */

static int is_less(const void *a, const void *b) {
    int64_t x = *(const int64_t *)a, y = *(const int64_t *)b;
    return (x > y) - (x < y);
}

/* Prints the distribution of each time, and leaves the times sorted. */
static void print_times(uint32_t periods) {
    printf("| %s | median us | 99 of 100 us | 999 of 1000 us | longest us |\n|---|---|---|---|---|\n", MEMORY);
    for (int what = 0; what < TIMES; what++) {
        const int64_t *sorted = times[what];
        qsort(times[what], periods, sizeof *sorted, is_less);
        printf("| %s | %.1f | %.1f | %.1f | %.1f |\n", names[what], (double)sorted[periods / 2] / 1e3,
               (double)sorted[(uint64_t)periods * 99 / 100] / 1e3, (double)sorted[(uint64_t)periods * 999 / 1000] / 1e3,
               (double)sorted[periods - 1] / 1e3);
    }
}

/* Writes the times of each period. */
static void write_times(const char *path, uint32_t periods) {
    FILE *file = fopen(path, "w");
    need(file != NULL, "the file can't be written");
    for (uint32_t n = 0; n < periods; n++)
        fprintf(file, "%lld %lld\n", (long long)times[WAKE][n], (long long)times[WORK][n]);
    need(ferror(file) == 0 && fclose(file) == 0, "the file can't be written");
}

int main(int count, char **words) {
    uint32_t periods = count > 1 ? (uint32_t)atoi(words[1]) : 10000;
    int64_t period = count > 2 ? atoi(words[2]) : 1000;
    need(count <= 4 && periods > 0 && period > 0, "[PERIODS [PERIOD [FILE]]], in microseconds");
    for (int what = 0; what < TIMES; what++)
        need((times[what] = calloc(periods, sizeof *times[what])) != NULL, "no memory for the times");
    open_memory();
    for (uint32_t place = 0; place < LIVE; place++) make(place, place);
    printf("%s: %u periods of %lld us, %d objects in each, %d live\n", MEMORY, periods, (long long)period, OBJECTS_A_PERIOD,
           LIVE);
    be_realtime();
    run(periods, period * 1000);
    if (count > 3) write_times(words[3], periods);
    print_times(periods);
    close_memory();
    for (int what = 0; what < TIMES; what++) free(times[what]);
    printf("%d passed, %d failed\n", failed == 0, failed);
    return failed != 0;
}
