/*
 * drawn [ROUNDS]: four threads at one heap, each with two mutators and a handle, later a handle for each of the two; and a collector.
 * Each answer to a drawn command is compared with a model of the mutator's objects, and each thread does in between what it must
 * not do. In the end the log is as long as the calls were many, the collector's with them. Threads wait at a gate; with -DFAIR=TURNS
 * at a fair one, and with -DMUTEX at a mutex of the program.
 */
#include "model.h"
#include <pthread.h>
#include <stdio.h>
#include <stdlib.h>

enum { THREADS = 4, AT_MOST = 32 };

/* A mutator with the handle that calls for it. */
struct caller {
    metronome *heap;
    struct model model;
};

struct worker {
    metronome handles[2];
    struct caller callers[2];
    uint32_t rounds;
    uint64_t seed, place, commands, failed, wrong;
};

static metronome own = METRONOME_CLOSED, collector = METRONOME_CLOSED;
static int is_over;            /* read and written in turns alone, as the next */
static uint64_t turns, cycles, asked;

#ifdef MUTEX
static pthread_mutex_t lock = PTHREAD_MUTEX_INITIALIZER;

static uint32_t enter(metronome *heap) {
    pthread_mutex_lock(&lock);
    return metronome_enter(heap);
}

static uint32_t leave(metronome *heap) {
    uint32_t status = metronome_exit(heap);
    pthread_mutex_unlock(&lock);
    return status;
}
#else
#ifdef FAIR
static metronome_gate gate = METRONOME_GATE_FAIR(FAIR);
#else
static metronome_gate gate = METRONOME_GATE;
#endif

static uint32_t enter(metronome *heap) {
    return metronome_gate_enter(&gate, heap);
}

static uint32_t leave(metronome *heap) {
    return metronome_gate_exit(&gate, heap);
}
#endif

static void need(struct worker *self, int holds, int line) {
    if (holds) return;
    self->failed++;
    fprintf(stderr, "failed: line %d\n", line);
}

#define IS(status, call) need(self, (call) == (uint32_t)(status), __LINE__)

static void is_refused(struct worker *self, metronome_answer answer, uint32_t status, int line) {
    self->wrong++;
    need(self, answer.kind == METRONOME_REFUSED && answer.number == status, line);
}

/* A drawn command in the turn. */
static void do_drawn(struct worker *self, struct caller *caller) {
    metronome_shape shape = UNTOLD;
    struct command it = draw_command(&caller->model, &self->seed);
    metronome_answer answer = call(caller->heap, caller->model.mutator, &it, &shape);
    self->commands++;
    need(self, is_as_modelled(&caller->model, &it, answer, &shape), __LINE__);
}

/* Makes calls outside of a turn: those that must not be made, and those that may. They change only the place, which only
   grows. */
static void do_outside(struct worker *self, struct caller *caller) {
    metronome_shape shape = UNTOLD;
    metronome_spent spent;
    struct command it = draw_command(&caller->model, &self->seed);
    is_refused(self, call(caller->heap, caller->model.mutator, &it, &shape), METRONOME_OUTSIDE, __LINE__);
    IS(METRONOME_OUTSIDE, metronome_exit(caller->heap));
    IS(METRONOME_OUTSIDE, metronome_begin(caller->heap));
    IS(METRONOME_OUTSIDE, metronome_quantum(caller->heap, 1000, &spent));
#ifndef MUTEX
    uint64_t place = 0;
    IS(METRONOME_OK, metronome_place(caller->heap, &place));
    need(self, place >= self->place && place >= self->commands, __LINE__);
    self->place = place;
#endif
}

/* Makes calls in the turn that must not be made: commands of a mutator of another handle, live or not, and calls that belong
   outside. */
static void do_wrong(struct worker *self, struct caller *caller) {
    metronome made = METRONOME_CLOSED;
    metronome_shape shape = UNTOLD;
    uint64_t place = 7;
    uint32_t strange = (caller->model.mutator + 2) % (2 * THREADS + 2);
    struct command it = draw_command(&caller->model, &self->seed);
    is_refused(self, call(caller->heap, strange, &it, &shape), METRONOME_NOT_YOURS, __LINE__);
    IS(METRONOME_INSIDE, metronome_enter(caller->heap));
    IS(METRONOME_INSIDE, metronome_place(caller->heap, &place));
    IS(METRONOME_INSIDE, metronome_sit(caller->heap, &made, caller->model.mutator));
    need(self, place == 7 && made.at == NULL && made.check == 0, __LINE__);
}

/* A turn of some commands. */
static void take_turn(struct worker *self, struct caller *caller) {
    uint64_t commands = drawn(&self->seed) % AT_MOST;
    if (drawn(&self->seed) % 8 == 0) do_outside(self, caller);
    IS(METRONOME_OK, enter(caller->heap));
    turns++;
    if (drawn(&self->seed) % 8 == 0) do_wrong(self, caller);
    for (uint64_t n = 0; n < commands; n++) {
        do_drawn(self, caller);
        if (self->callers[0].heap == self->callers[1].heap) do_drawn(self, &self->callers[n % 2]);
    }
    IS(METRONOME_OK, leave(caller->heap));
}

/* For half of the rounds the two mutators have one handle, then the second has one of its own. */
static void *work(void *argument) {
    struct worker *self = argument;
    for (uint32_t round = 0; round < self->rounds; round++) {
        if (round == self->rounds / 2) {
            IS(METRONOME_OK, metronome_sit(&self->handles[0], &self->handles[1], self->callers[1].model.mutator));
            self->callers[1].heap = &self->handles[1];
        }
        take_turn(self, &self->callers[drawn(&self->seed) % 2]);
    }
    return NULL;
}

static void *collect(void *argument) {
    struct worker *self = argument;
    for (int over = 0; !over;) {
        metronome_spent spent;
        IS(METRONOME_OK, enter(&collector));
        over = is_over;
        if (metronome_begin(&collector) == METRONOME_OK) cycles++;
        IS(METRONOME_OK, metronome_quantum(&collector, 1000, &spent));
        asked += 2;
        IS(METRONOME_OK, leave(&collector));
    }
    return NULL;
}

/* Makes a handle for the last two mutators that `own` still has. */
static int open_worker(struct worker *self, uint32_t number, uint32_t rounds) {
    static const metronome none = METRONOME_CLOSED;
    self->rounds = rounds;
    self->seed = 88172645463325252u + number;
    self->place = self->commands = self->failed = self->wrong = 0;
    self->handles[0] = self->handles[1] = none;
    for (uint32_t k = 0; k < 2; k++) {
        self->callers[k].heap = &self->handles[0];
        if (!open_model(&self->callers[k].model, 2 * number + k, rounds * AT_MOST)) return 0;
    }
    return metronome_sit(&own, &self->handles[0], 2 * number) == METRONOME_OK;
}

/* Closes a worker's handles, and counts its calls. */
static void end(struct worker *self, uint64_t *commands, uint64_t *wrong) {
    for (int k = 0; k < 2; k++) {
        metronome_destroy(&self->handles[k]);
        IS(METRONOME_NO_HEAP, metronome_enter(&self->handles[k]));
        close_model(&self->callers[k].model);
    }
    *commands += self->commands;
    *wrong += self->wrong;
}

static int open_heap(struct worker *workers, uint32_t rounds) {
    metronome_settings settings = METRONOME_SETTINGS(1024, 2 * THREADS, SLOTS);
    settings.statics = STATICS;
    if (metronome_create_shared(&own, &settings, 0) != METRONOME_OK) return 0;
    if (metronome_sit(&own, &collector, 2 * THREADS) != METRONOME_OK) return 0;
    for (uint32_t n = THREADS; n > 0; n--)
        if (!open_worker(&workers[n - 1], n - 1, rounds)) return 0;
    return 1;
}

int main(int count, char **words) {
    static struct worker workers[THREADS + 1];
    struct worker *self = &workers[THREADS]; /* for the collector, and then for the main thread */
    pthread_t threads[THREADS + 1];
    uint64_t commands = 0, wrong = 0, place = 0, failed = 0;
    if (!open_heap(workers, count > 1 ? (uint32_t)atoi(words[1]) : 2000)) return 2;
    for (int n = 0; n <= THREADS; n++)
        if (pthread_create(&threads[n], NULL, n < THREADS ? work : collect, &workers[n])) return 2;
    for (int n = 0; n < THREADS; n++) pthread_join(threads[n], NULL);
    IS(METRONOME_OK, enter(&own));
    is_over = 1;
    IS(METRONOME_OK, leave(&own));
    pthread_join(threads[THREADS], NULL);
    metronome_destroy(&collector);
    for (int n = 0; n < THREADS; n++) end(&workers[n], &commands, &wrong);
    IS(METRONOME_OK, metronome_place(&own, &place));
    need(self, place == commands + asked, __LINE__);
    metronome_destroy(&own);
    for (int n = 0; n <= THREADS; n++) failed += workers[n].failed != 0;
    printf("%llu commands in %llu turns beside %llu cycles, %llu wrong ones\n", (unsigned long long)commands,
           (unsigned long long)turns, (unsigned long long)cycles, (unsigned long long)wrong);
    printf("%llu passed, %llu failed\n", (unsigned long long)(THREADS + 1 - failed), (unsigned long long)failed);
    return failed != 0;
}
