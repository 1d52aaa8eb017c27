/* Times calls of the library. */
#ifndef CALLS_H
#define CALLS_H

#include <stdint.h>

/* A row of calls of one function, and the mean nanoseconds of a call, in the shortest and in the longest run. */
struct timed_call {
    const char *what;
    double least, most;
};

enum { CALLS = 8 };

/* Times calls on a heap of as many pages, in some runs. */
void time_calls(int pages, int runs, struct timed_call calls[CALLS]);

#endif
