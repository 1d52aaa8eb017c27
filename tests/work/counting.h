/* Counts the instructions of calls: callgrind, which runs the program, writes them down under names. */
#ifndef COUNTING_H
#define COUNTING_H

#include <stdio.h>
#include <valgrind/callgrind.h>

#include "heaps.h"

/* Counts what a call takes, for a name in two words. */
#define COUNT(name, more, call) \
    do { \
        CALLGRIND_TOGGLE_COLLECT; \
        call; \
        CALLGRIND_TOGGLE_COLLECT; \
        write_down((name), (more)); \
    } while (0)

/* Writes down the count since the last time, under a name in two words. */
static inline void write_down(const char *name, const char *more) {
    char text[100];
    snprintf(text, sizeof text, "%s %s", name, more);
    CALLGRIND_DUMP_STATS_AT(text);
}

/* Counts calls of each function in each phase, on a heap of `pages` pages and `mutators` mutators. `room` of its pages aren't full
 * (all if it is 0). */
void count_calls(int pages, int mutators, int room, const char *where);

#endif
