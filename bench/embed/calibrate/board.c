#define _GNU_SOURCE
#include "board.h"

#include <errno.h>
#include <stdio.h>
#include <stdlib.h>
#include <string.h>

#ifdef __linux__
#include <linux/perf_event.h>
#include <sched.h>
#include <sys/mman.h>
#include <sys/syscall.h>
#include <unistd.h>
#endif

static int counter = -1;

static uint64_t no_instructions(void) {
    return 0;
}

#ifdef __linux__
void pin_processor(char *text) {
    cpu_set_t set;
    const int processor = sched_getcpu();
    CPU_ZERO(&set);
    if (processor >= 0) CPU_SET(processor, &set);
    if (processor >= 0 && sched_setaffinity(0, sizeof set, &set) == 0) {
        snprintf(text, BOARD_TEXT, "pinned to number %d", processor);
    } else {
        snprintf(text, BOARD_TEXT, "not pinned: %s", strerror(errno));
    }
}

void lock_memory(char *text, size_t bytes) {
    void *some = NULL;
    if (mlockall(MCL_CURRENT | MCL_FUTURE) == 0 && (some = malloc(bytes)) != NULL) {
        snprintf(text, BOARD_TEXT, "locked");
    } else {
        snprintf(text, BOARD_TEXT, "not locked: %s", strerror(errno));
        munlockall();
    }
    free(some);
}

static uint64_t instructions(void) {
    uint64_t count = 0;
    return read(counter, &count, sizeof count) == sizeof count ? count : 0;
}

uint64_t (*count_instructions(char *text))(void) {
    struct perf_event_attr wanted;
    memset(&wanted, 0, sizeof wanted);
    wanted.type = PERF_TYPE_HARDWARE;
    wanted.size = sizeof wanted;
    wanted.config = PERF_COUNT_HW_INSTRUCTIONS;
    wanted.exclude_kernel = 1;
    wanted.exclude_hv = 1;
    counter = (int)syscall(SYS_perf_event_open, &wanted, 0, -1, -1, 0);
    if (counter >= 0 && instructions() > 0) {
        snprintf(text, BOARD_TEXT, "counted");
        return instructions;
    }
    snprintf(text, BOARD_TEXT, "not counted: %s", counter < 0 ? strerror(errno) : "the counter stands still");
    return no_instructions;
}
#else
void pin_processor(char *text) {
    snprintf(text, BOARD_TEXT, "not pinned: this system isn't Linux");
}

void lock_memory(char *text, size_t bytes) {
    (void)bytes;
    snprintf(text, BOARD_TEXT, "not locked: this system isn't Linux");
}

uint64_t (*count_instructions(char *text))(void) {
    snprintf(text, BOARD_TEXT, "not counted: this system isn't Linux");
    return no_instructions;
}
#endif
