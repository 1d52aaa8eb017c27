/* Checks of a program, which are counted: each holds, or its line is told. */
#ifndef CHECKS_H
#define CHECKS_H

#include <stdint.h>
#include <stdio.h>

static int passed, failed;

static inline void check(int holds, int line) {
    if (holds) {
        passed++;
    } else {
        failed++;
        fprintf(stderr, "failed: line %d\n", line);
    }
}

#define CHECK(holds) check(holds, __LINE__)
#define IS(status, call) check((call) == (uint32_t)(status), __LINE__)

/* Prints how many passed and failed; the status with which the program ends. */
static inline int checked(void) {
    printf("%d passed, %d failed\n", passed, failed);
    return failed != 0;
}

#endif
