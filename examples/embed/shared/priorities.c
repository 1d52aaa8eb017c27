/*
 * Threads of three priorities at one heap, which wait for the turn at a mutex that lends its holder the priority of the thread that
 * waits (PTHREAD_PRIO_INHERIT). The mutex is held from before metronome_enter until after metronome_exit. So a thread of
 * high priority waits for the rest of one turn, and for no thread of a priority between.
 *
 * On one processor the low thread is in its turn when the high one asks for its own; then the medium one begins to work, and doesn't
 * touch the heap. If the low thread is lifted, the high one has its turn before the medium one is done. At a plain mutex the medium
 * thread is done first, which is also checked. This needs SCHED_FIFO. If the system doesn't permit it, the program says so, and looks
 * at the mutex and the calls alone. So only these checks count as passed, and the check of priorities can only fail.
 */
#define _GNU_SOURCE
#include "metronome_shared.h"
#include <errno.h>
#include <pthread.h>
#include <sched.h>
#include <semaphore.h>
#include <stdio.h>
#include <stdlib.h>
#include <string.h>
#include <time.h>

enum { LOW, MEDIUM, HIGH, THREADS };
enum { CALLS = 20000, BUSY = 200000000 /* nanoseconds */ };

static pthread_mutex_t lock;
static metronome handles[THREADS];
static sem_t may_begin[THREADS];
static int has_asked, is_done;       /* the high thread; the medium one: atomics */
static int had_asked, was_done;      /* what the low thread and the high one saw in their turns */
static int64_t waited;               /* how long the high one waited for its turn, in nanoseconds */
static int passed, failed;

static void check(int holds, int line) {
    __atomic_fetch_add(holds ? &passed : &failed, 1, __ATOMIC_SEQ_CST);
    if (!holds) fprintf(stderr, "failed: line %d\n", line);
}

#define CHECK(holds) check(holds, __LINE__)

/* ---- How threads of several priorities wait ---- */

/* Makes the mutex one of this protocol. 0, or why the system has none. */
static int open_lock(int protocol) {
    pthread_mutexattr_t kind;
    int has = -1, error = pthread_mutexattr_init(&kind);
    if (error != 0) return error;
    error = pthread_mutexattr_setprotocol(&kind, protocol);
    if (error == 0) error = pthread_mutexattr_getprotocol(&kind, &has);
    if (error == 0) error = has == protocol ? pthread_mutex_init(&lock, &kind) : ENOTSUP;
    pthread_mutexattr_destroy(&kind);
    return error;
}

/* Waits for the turn. */
static uint32_t enter(metronome *heap) {
    if (pthread_mutex_lock(&lock) != 0) return METRONOME_TAKEN;
    return metronome_enter(heap);
}

static uint32_t leave(metronome *heap) {
    uint32_t status = metronome_exit(heap);
    pthread_mutex_unlock(&lock);
    return status;
}

/* ---- Three threads ---- */

static int64_t now(clockid_t clock) {
    struct timespec time;
    clock_gettime(clock, &time);
    return (int64_t)time.tv_sec * 1000000000 + time.tv_nsec;
}

/* A turn of many calls, in which the other two begin. */
static void *work_low(void *none) {
    int made = 0;
    sem_wait(&may_begin[LOW]);
    CHECK(enter(&handles[LOW]) == METRONOME_OK);
    sem_post(&may_begin[HIGH]);
    had_asked = __atomic_load_n(&has_asked, __ATOMIC_SEQ_CST);
    sem_post(&may_begin[MEDIUM]);
    for (int n = 0; n < CALLS; n++) made += metronome_put(&handles[LOW], LOW, 0, 0, (uint64_t)n).kind == METRONOME_DONE;
    CHECK(made == CALLS);
    CHECK(leave(&handles[LOW]) == METRONOME_OK);
    return none;
}

/* Works for a while, with no turn. */
static void *work_medium(void *none) {
    sem_wait(&may_begin[MEDIUM]);
    int64_t end = now(CLOCK_THREAD_CPUTIME_ID) + BUSY;
    while (now(CLOCK_THREAD_CPUTIME_ID) < end) continue;
    __atomic_store_n(&is_done, 1, __ATOMIC_SEQ_CST);
    return none;
}

/* Wants one short turn. */
static void *work_high(void *none) {
    sem_wait(&may_begin[HIGH]);
    int64_t began = now(CLOCK_MONOTONIC);
    __atomic_store_n(&has_asked, 1, __ATOMIC_SEQ_CST);
    CHECK(enter(&handles[HIGH]) == METRONOME_OK);
    was_done = __atomic_load_n(&is_done, __ATOMIC_SEQ_CST);
    waited = now(CLOCK_MONOTONIC) - began;
    CHECK(metronome_get(&handles[HIGH], HIGH, 0, 0).kind == METRONOME_WORD);
    CHECK(leave(&handles[HIGH]) == METRONOME_OK);
    return none;
}

/* Starts a thread on one processor with a priority, or with none if that is 0. 0 or an error. */
static int begin(pthread_t *thread, void *(*work)(void *), int priority) {
    struct sched_param wanted = { .sched_priority = priority };
    pthread_attr_t kind;
    cpu_set_t may, one;
    int processor = 0;
    if (priority == 0) return pthread_create(thread, NULL, work, NULL);
    if (sched_getaffinity(0, sizeof may, &may) != 0) return errno;
    while (processor < CPU_SETSIZE - 1 && !CPU_ISSET(processor, &may)) processor++;
    CPU_ZERO(&one);
    CPU_SET(processor, &one);
    pthread_attr_init(&kind);
    pthread_attr_setinheritsched(&kind, PTHREAD_EXPLICIT_SCHED);
    pthread_attr_setschedpolicy(&kind, SCHED_FIFO);
    pthread_attr_setschedparam(&kind, &wanted);
    pthread_attr_setaffinity_np(&kind, sizeof one, &one);
    int error = pthread_create(thread, &kind, work, NULL);
    pthread_attr_destroy(&kind);
    return error;
}

static void *do_nothing(void *none) {
    return none;
}

/* Whether the system lets a thread have a priority: 0 or an error. */
static int is_forbidden(void) {
    pthread_t thread;
    int error = begin(&thread, do_nothing, 1);
    if (error == 0) pthread_join(thread, NULL);
    return error;
}

/* The three at a mutex of this protocol, with so much priority each more than the one before. */
static void play(int protocol, int priority) {
    static void *(*const works[])(void *) = { work_low, work_medium, work_high };
    pthread_t threads[THREADS];
    has_asked = is_done = had_asked = was_done = 0;
    CHECK(open_lock(protocol) == 0);
    for (int n = 0; n < THREADS; n++) sem_init(&may_begin[n], 0, 0);
    for (int n = 0; n < THREADS; n++) {
        if (begin(&threads[n], works[n], (n + 1) * priority) == 0) continue;
        fprintf(stderr, "priorities: a thread wasn't started\n");
        exit(1);
    }
    sem_post(&may_begin[LOW]);
    for (int n = 0; n < THREADS; n++) pthread_join(threads[n], NULL);
    for (int n = 0; n < THREADS; n++) sem_destroy(&may_begin[n]);
    pthread_mutex_destroy(&lock);
}

/* Compares the mutex with a plain one. */
static void look_at_priorities(void) {
    play(PTHREAD_PRIO_INHERIT, 10);
    CHECK(had_asked && !was_done);
    int64_t lifted = waited;
    play(PTHREAD_PRIO_NONE, 10);
    CHECK(had_asked && was_done);
    printf("the high thread waited %.1f ms for its turn, and %.1f ms at a plain mutex\n", (double)lifted / 1e6, (double)waited / 1e6);
}

/* A heap with an object and a handle for each thread. */
static void open_handles(void) {
    metronome_settings settings = METRONOME_SETTINGS(4, THREADS, 1);
    CHECK(metronome_create_shared(&handles[LOW], &settings, 0) == METRONOME_OK && metronome_enter(&handles[LOW]) == METRONOME_OK);
    for (uint32_t n = 0; n < THREADS; n++) CHECK(metronome_new_words(&handles[LOW], n, 0, 1).kind == METRONOME_MADE);
    CHECK(metronome_exit(&handles[LOW]) == METRONOME_OK);
    for (uint32_t n = HIGH; n > LOW; n--) CHECK(metronome_sit(&handles[LOW], &handles[n], n) == METRONOME_OK);
}

int main(void) {
    open_handles();
    play(PTHREAD_PRIO_INHERIT, 0);
    int looked_at = passed, error = is_forbidden();
    if (error == 0) {
        look_at_priorities();
    } else {
        printf("SCHED_FIFO isn't permitted (%s): priorities were not looked at\n", strerror(error));
    }
    for (int n = 0; n < THREADS; n++) metronome_destroy(&handles[n]);
    printf("%d passed, %d failed\n", looked_at, failed);
    return failed != 0;
}
