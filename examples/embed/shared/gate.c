/*
 * Threads that wait at a gate, and at two fair ones: one that has the turn for long, one that ends in its turn, and one whose
 * handle is closed in its turn. The program's own `syscall` counts the gate's requests to the system: none if no thread waits,
 * and one wake for each thread that sleeps.
 */
#define _GNU_SOURCE
#include "metronome_shared.h"
#include "../checks.h"
#include <pthread.h>
#include <stdio.h>
#include <time.h>

enum { WAITERS = 4, TURNS = 30000, MILLISECOND = 1000000 };

static metronome_gate gate; /* one after the other */
static metronome own = METRONOME_CLOSED, handles[WAITERS];
static uint64_t waits, wakes; /* how often a thread slept, and how often the gate woke one; counted as atomics */
static uint64_t entered;      /* written in turns alone */

static uint64_t count_of(uint64_t *count) {
    return __atomic_load_n(count, __ATOMIC_SEQ_CST);
}

/* The function that the linker puts in the place of syscall. */
long __real_syscall(long number, ...);
long __wrap_syscall(long number, uint32_t *at, long what, long value, void *none, void *nothing, long last);

long __wrap_syscall(long number, uint32_t *at, long what, long value, void *none, void *nothing, long last) {
    if (number == SYS_futex && what == FUTEX_WAIT_BITSET_PRIVATE) __atomic_fetch_add(&waits, 1, __ATOMIC_SEQ_CST);
    if (number == SYS_futex && what == FUTEX_WAKE_BITSET_PRIVATE) __atomic_fetch_add(&wakes, 1, __ATOMIC_SEQ_CST);
    return __real_syscall(number, at, what, value, none, nothing, last);
}

static void sleep_for(long nanoseconds) {
    struct timespec time = { 0, nanoseconds };
    nanosleep(&time, NULL);
}

/* Waits until this many threads sleep at the gate. */
static void await(uint64_t many) {
    while (count_of(&waits) < many) sleep_for(MILLISECOND);
    sleep_for(20 * MILLISECOND);
}

static void open_handles(void) {
    static const metronome none = METRONOME_CLOSED;
    metronome_settings settings = METRONOME_SETTINGS(4, WAITERS, 2);
    IS(METRONOME_OK, metronome_create_shared(&own, &settings, 0));
    for (uint32_t n = WAITERS; n > 0; n--) {
        handles[n - 1] = none;
        IS(METRONOME_OK, metronome_sit(&own, &handles[n - 1], n - 1));
    }
}

static void close_handles(void) {
    for (int n = 0; n < WAITERS; n++) metronome_destroy(&handles[n]);
    metronome_destroy(&own);
}

/* Takes a turn in a thread. Returns whether the calls ended well. */
static void *turn(void *argument) {
    metronome *heap = argument;
    uint32_t status = metronome_gate_enter(&gate, heap);
    entered++;
    if (status == METRONOME_OK) status = metronome_gate_exit(&gate, heap);
    return (void *)(uintptr_t)status;
}

/* Takes the turn and ends. */
static void *end_in_turn(void *argument) {
    return (void *)(uintptr_t)metronome_gate_enter(&gate, argument);
}

static void start(pthread_t *thread, void *(*work)(void *), metronome *heap) {
    check(pthread_create(thread, NULL, work, heap) == 0, __LINE__);
}

static void is_ended(pthread_t thread) {
    void *status;
    check(pthread_join(thread, &status) == 0 && (uintptr_t)status == METRONOME_OK, __LINE__);
}

/* One thread, and then another one after it, ask nothing of the system. */
static void turns_with_nobody_beside_ask_nothing(void) {
    int done = 0;
    for (int n = 0; n < TURNS; n++) {
        metronome *heap = &handles[n % WAITERS];
        done += metronome_gate_enter(&gate, heap) == METRONOME_OK && metronome_gate_exit(&gate, heap) == METRONOME_OK;
    }
    check(done == TURNS && waits == 0 && wakes == 0, __LINE__);
    IS(METRONOME_OUTSIDE, metronome_gate_exit(&gate, &own));
    check(waits == 0 && wakes == 0, __LINE__);
}

/* While one thread has the turn for long, the others sleep: they take next to no processor time. Each of them is woken once. */
static void who_waits_sleeps(void) {
    pthread_t threads[WAITERS];
    metronome closed = METRONOME_CLOSED;
    uint64_t asleep = count_of(&waits), before = count_of(&wakes);
    entered = 0;
    IS(METRONOME_OK, metronome_gate_enter(&gate, &own));
    for (int n = 0; n < WAITERS; n++) start(&threads[n], turn, &handles[n]);
    await(asleep + WAITERS);
    clock_t began = clock();
    sleep_for(200 * MILLISECOND);
    check((double)(clock() - began) / CLOCKS_PER_SEC < 0.1 && entered == 0, __LINE__);
    check(count_of(&wakes) == before, __LINE__);
    IS(METRONOME_INSIDE, metronome_gate_enter(&gate, &own));
    IS(METRONOME_NO_HEAP, metronome_gate_enter(&gate, &closed));
    IS(METRONOME_OK, metronome_gate_exit(&gate, &own));
    for (int n = 0; n < WAITERS; n++) is_ended(threads[n]);
    check(entered == WAITERS && count_of(&wakes) - before <= WAITERS, __LINE__);
}

/* Another thread ends a turn that its thread left open. */
static uint32_t by_leaving(metronome *heap) {
    return metronome_gate_exit(&gate, heap);
}

static uint32_t by_closing(metronome *heap) {
    metronome_destroy(heap);
    metronome_gate_wake(&gate);
    return METRONOME_OK;
}

/* If a thread ends in its turn, its handle keeps the turn from all others, until the handle is closed or gives it back. */
static void who_ends_in_its_turn_keeps_it(uint32_t (*give_back)(metronome *)) {
    pthread_t ended, waiting;
    uint64_t before = count_of(&waits);
    uint64_t place = 7;
    entered = 0;
    start(&ended, end_in_turn, &handles[0]);
    is_ended(ended);
    for (int n = 0; n < 100; n++)
        if (metronome_enter(&own) != METRONOME_TAKEN) check(0, __LINE__);
    IS(METRONOME_OK, metronome_place(&own, &place));
    check(place == 0, __LINE__);
    start(&waiting, turn, &handles[1]);
    await(before + 1);
    IS(METRONOME_TAKEN, metronome_enter(&own));
    IS(METRONOME_OK, give_back(&handles[0]));
    is_ended(waiting);
    check(entered == 1, __LINE__);
}

/* A wake is never lost: two threads that only take turns both end. */
static void *many_turns(void *argument) {
    uintptr_t status = METRONOME_OK;
    for (int n = 0; n < TURNS && status == METRONOME_OK; n++) status = (uintptr_t)turn(argument);
    return (void *)status;
}

static void no_wake_is_lost(void) {
    pthread_t threads[WAITERS];
    entered = 0;
    for (int n = 1; n < WAITERS; n++) start(&threads[n], many_turns, &handles[n]);
    for (int n = 1; n < WAITERS; n++) is_ended(threads[n]);
    check(entered == (uint64_t)(WAITERS - 1) * TURNS, __LINE__);
    check(gate.waiting == 0 && gate.next == gate.first, __LINE__);
}

static void look_at(metronome_gate kind) {
    gate = kind;
    waits = wakes = 0;
    open_handles();
    turns_with_nobody_beside_ask_nothing();
    who_waits_sleeps();
    no_wake_is_lost();
    who_ends_in_its_turn_keeps_it(by_leaving);
    who_ends_in_its_turn_keeps_it(by_closing);
    close_handles();
}

int main(void) {
    static const metronome_gate fast = METRONOME_GATE, in_order = METRONOME_GATE_FAIR(0), fair = METRONOME_GATE_FAIR(3);
    look_at(fast);
    look_at(in_order);
    look_at(fair);
    return checked();
}
