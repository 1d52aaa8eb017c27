/*
 * shared WAY THREADS CALLS_A_TURN CALLS: threads make CALLS calls at one heap, get and put in turn, each at an object of its own. WAY
 * says how a thread gets each turn: `gate`, by a handle of its own at a gate; `fair:TURNS`, at a fair gate; `turns`, at a mutex;
 * `lends`, at a mutex that lends its holder the priority of waiting threads; or `mutex`, by one handle of a heap of its own with a
 * mutex around it. It prints the nanoseconds of a call: the time from the first thread's beginning to the last one's end, divided by
 * the number of calls.
 */
#define _POSIX_C_SOURCE 200809L
#include "measure.h"
#include "metronome_shared.h"
#include <pthread.h>
#include <stdlib.h>
#include <string.h>

enum { MOST = 64 };
enum way { GATE, TURNS, MUTEX };

static const char FAIR[] = "fair:";

/* Each on a cache line of its own. */
static struct { _Alignas(128) metronome_gate it; } gate = { METRONOME_GATE };
static struct { _Alignas(128) pthread_mutex_t it; } lock = { PTHREAD_MUTEX_INITIALIZER };
static struct { _Alignas(128) metronome it; int64_t began, ended; } handles[MOST];

static enum way way;
static uint32_t threads, batch;
static uint64_t turns;
static pthread_barrier_t start;

static void need(int holds) {
    if (holds) return;
    fprintf(stderr, "shared: a call was refused\n");
    exit(1);
}

static void make_calls(metronome *heap, uint32_t m) {
    for (uint32_t n = 0; n < batch; n++)
        need((n % 2 ? metronome_put(heap, m, 0, 0, n) : metronome_get(heap, m, 0, 0)).kind != METRONOME_REFUSED);
}

static void take_turn(metronome *heap, uint32_t m) {
    if (way == GATE) {
        need(metronome_gate_enter(&gate.it, heap) == METRONOME_OK);
        make_calls(heap, m);
        metronome_gate_exit(&gate.it, heap);
        return;
    }
    pthread_mutex_lock(&lock.it);
    if (way == TURNS) {
        need(metronome_enter(heap) == METRONOME_OK);
        make_calls(heap, m);
        metronome_exit(heap);
    } else {
        make_calls(&handles[0].it, m);
    }
    pthread_mutex_unlock(&lock.it);
}

static void *run(void *argument) {
    uint32_t m = (uint32_t)(uintptr_t)argument;
    pthread_barrier_wait(&start);
    handles[m].began = nanoseconds(CLOCK_MONOTONIC);
    for (uint64_t turn = 0; turn < turns; turn++) take_turn(&handles[m].it, m);
    handles[m].ended = nanoseconds(CLOCK_MONOTONIC);
    return NULL;
}

/* How long all threads took. */
static int64_t taken(void) {
    int64_t began = handles[0].began, ended = handles[0].ended;
    for (uint32_t m = 1; m < threads; m++) {
        if (handles[m].began < began) began = handles[m].began;
        if (handles[m].ended > ended) ended = handles[m].ended;
    }
    return ended - began;
}

/* The heap, an object for each thread in its slot 0, and a handle for each if the heap is shared. */
static void open_heap(void) {
    metronome_settings settings = METRONOME_SETTINGS(16, threads, 1);
    metronome *own = &handles[0].it;
    if (way == MUTEX) need(metronome_create(own, &settings) == METRONOME_OK);
    else need(metronome_create_shared(own, &settings, 0) == METRONOME_OK && metronome_enter(own) == METRONOME_OK);
    for (uint32_t m = 0; m < threads; m++) need(metronome_new_words(own, m, 0, 1).kind == METRONOME_MADE);
    if (way == MUTEX) return;
    need(metronome_exit(own) == METRONOME_OK);
    for (uint32_t m = threads - 1; m > 0; m--) need(metronome_sit(own, &handles[m].it, m) == METRONOME_OK);
}

/* Takes the way that a word says: makes the gate a fair one, or the mutex one that lends priorities. */
static void take_way(const char *word) {
    pthread_mutexattr_t kind;
    way = strcmp(word, "mutex") == 0 ? MUTEX : strcmp(word, "turns") == 0 || strcmp(word, "lends") == 0 ? TURNS : GATE;
    if (strncmp(word, FAIR, sizeof FAIR - 1) == 0)
        gate.it = (metronome_gate)METRONOME_GATE_FAIR(atoi(word + sizeof FAIR - 1));
    if (strcmp(word, "lends") != 0) return;
    need(pthread_mutexattr_init(&kind) == 0 && pthread_mutexattr_setprotocol(&kind, PTHREAD_PRIO_INHERIT) == 0);
    need(pthread_mutex_init(&lock.it, &kind) == 0);
}

int main(int count, char **words) {
    pthread_t running[MOST];
    if (count != 5) return 2;
    take_way(words[1]);
    threads = (uint32_t)atoi(words[2]);
    batch = (uint32_t)atoi(words[3]);
    if (threads < 1 || threads > MOST || batch < 1) return 2;
    turns = strtoull(words[4], NULL, 10) / threads / batch + 1;
    open_heap();
    pthread_barrier_init(&start, NULL, threads);
    for (uintptr_t m = 0; m < threads; m++) need(pthread_create(&running[m], NULL, run, (void *)m) == 0);
    for (uint32_t m = 0; m < threads; m++) pthread_join(running[m], NULL);
    printf("%.1f\n", (double)taken() / (double)(turns * threads * batch));
    for (uint32_t m = 0; m < threads; m++) metronome_destroy(&handles[m].it);
    return 0;
}
