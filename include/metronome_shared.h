/*
 * metronome_shared.h: a heap that threads share. Each thread has a handle of its own at the heap, a `metronome`, on which all calls
 * of metronome.h work. A handle takes the turn, makes as many calls as it likes, and gives the turn back. No other handle's calls
 * come between. Threads contend less if each turn has several calls.
 *
 *     metronome own = METRONOME_CLOSED, other = METRONOME_CLOSED;
 *     metronome_create_shared(&own, &settings, 0);     makes a heap and its first handle
 *     metronome_sit(&own, &other, 1);                  gives mutators 1 and up to another handle
 *     metronome_enter(&own);                           takes the turn
 *     metronome_new_plain(&own, 0, 3, 1, 2);
 *     metronome_exit(&own);                            gives it back
 *
 * WAITING. No call waits: if another handle has the turn, metronome_enter returns TAKEN. A thread waits at a gate, by
 * metronome_gate_enter and metronome_gate_exit of metronome_gate.h. Or it waits at a mutex of the program, which it holds from
 * before metronome_enter until after metronome_exit. If a thread forgets to wait, its calls return TAKEN or OUTSIDE, and the heap
 * stays whole.
 *
 * MUTATORS. A handle calls for a range of mutators, which belong to no other handle. The first handle of a heap has them all, and
 * metronome_sit gives some to a new handle. A handle without mutators may still take the turn for the other calls. Statics belong
 * to all handles.
 *
 * PLANS. A shared heap may keep a plan from the start (metronome_create_shared_kept). The calls of all handles keep it together:
 * before each new object the collector works as much as the plan requires, in the turn of the handle that makes it.
 *
 * THREADS. Threads may call on different handles at once, also of one heap. The turn belongs to a handle, not to a thread: a handle
 * may go from thread to thread, even in its turn. Data that a program reads and writes only in turns needs no other lock: a thread
 * that takes the turn sees all that was written before the turn was given back.
 *
 * NOT PROMISED: no handle is promised that it gets the turn, how soon, or in which order. At a fair gate a thread waits for a
 * bounded number of turns; this is tested. If a thread ends in its turn, its handle keeps the turn, and all others get TAKEN.
 * Another thread may then call metronome_exit or metronome_destroy on that handle.
 */
#ifndef METRONOME_SHARED_H
#define METRONOME_SHARED_H

#include "metronome.h"

#ifdef __cplusplus
extern "C" {
#endif

/* The command of an event of the log. The fields of metronome_command have its numbers and words in the order given here; all
 * others are 0. The last two are requests to the collector, or its own work for a plan. */
enum metronome_command_kind {
    METRONOME_NEW = 0,             /* dst; the shape's metronome_shape_kind, refs, words */
    METRONOME_LOAD = 1,            /* dst, obj, i */
    METRONOME_STORE = 2,           /* obj, i, src */
    METRONOME_COMPARE_STORE = 3,   /* obj, i, expect, replacement */
    METRONOME_GET = 4,             /* obj, i */
    METRONOME_PUT = 5,             /* obj, i; word */
    METRONOME_COMPARE_PUT = 6,     /* obj, i; old, replacement */
    METRONOME_COPY = 7,            /* dst, src */
    METRONOME_CLEAR = 8,           /* dst */
    METRONOME_LOAD_STATIC = 9,     /* dst, k */
    METRONOME_STORE_STATIC = 10,   /* k, src */
    METRONOME_COMPARE_STATIC = 11, /* k, expect, replacement */
    METRONOME_SAME = 12,           /* a, b */
    METRONOME_DESCRIBE = 13,       /* a */
    METRONOME_JOIN = 14,
    METRONOME_LEAVE = 15,
    METRONOME_BEGIN = 16,          /* DONE, or refused as BUSY */
    METRONOME_QUANTUM = 17         /* DONE: budget, the units spent, the phase at the end; or refused as BAD_BUDGET: budget */
};

typedef struct metronome_command {
    uint32_t kind; /* a metronome_command_kind */
    uint32_t first;
    uint32_t second;
    uint32_t third;
    uint32_t fourth;
    uint64_t first_word;
    uint64_t second_word;
} metronome_command;

/* Whether a place of the log has an event. */
enum metronome_event_kind {
    METRONOME_GONE = 0,    /* no event: the place isn't among the last that are kept, nor the next one */
    METRONOME_ENTERED = 1, /* an event */
    METRONOME_NOT_YET = 2  /* no event yet: the place comes after the last one */
};

typedef struct metronome_event {
    uint32_t kind;    /* a metronome_event_kind; if it isn't ENTERED, all else is 0 */
    uint32_t mutator; /* the mutator that gave the command, or 0 for one of the last two kinds */
    metronome_command command;
    metronome_answer answer;
    metronome_shape shape; /* if the answer is DESCRIBED */
} metronome_event;

/* Makes a heap that handles share, as metronome_create_for makes a heap, and its first handle, which doesn't have the turn. The
 * heap keeps the last `log` events of its log for metronome_entry; 0 keeps none. They take 72 bytes each, all asked from malloc
 * here. Programs call metronome_create_shared. Returns the statuses of metronome_create_for. */
uint32_t metronome_create_shared_for(metronome *heap, const metronome_settings *settings, size_t log,
                                     uint32_t version) METRONOME_NONNULL;

/* Does the same for the version of this header. */
METRONOME_NONNULL static inline uint32_t metronome_create_shared(metronome *heap, const metronome_settings *settings, size_t log) {
    return metronome_create_shared_for(heap, settings, log, METRONOME_VERSION);
}

/* Makes a shared heap as metronome_create_shared_for does, that keeps a plan from the start. metronome_keep.h says what is promised. Programs call metronome_create_shared_kept. It may also return NO_PLAN, if no setting has a fault and a heap of these settings can't keep the plan. A plan that metronome_plan or metronome_plan_for calculated for the same settings can be kept. */
uint32_t metronome_create_shared_kept_for(metronome *heap, const metronome_settings *settings, size_t log,
                                          const metronome_flow *flow, uint32_t version) METRONOME_NONNULL;

/* Does the same for the version of this header. */
METRONOME_NONNULL static inline uint32_t metronome_create_shared_kept(metronome *heap, const metronome_settings *settings, size_t log,
                                                                      const metronome_flow *flow) {
    return metronome_create_shared_kept_for(heap, settings, log, flow, METRONOME_VERSION);
}

/* Makes one more handle at the same heap, if `made` is closed. It calls for the mutators of `heap` from number `from` on, and
 * `heap` keeps those below. If `from` is the number after its last mutator, `made` gets none.
 *
 * Returns OK, or the first of these that applies; both handles then stay as they were:
 *   * NO_HEAP or BAD_HANDLE: `heap` is closed, or isn't a handle.
 *   * NOT_SHARED: The heap isn't shared.
 *   * OPEN or BAD_HANDLE: `made` holds a heap, or isn't a handle.
 *   * INSIDE: `heap` has the turn.
 *   * NOT_YOURS: `from` is below the first mutator of `heap`, or beyond the number after its last.
 *   * NO_MEMORY: malloc returned no memory. */
uint32_t metronome_sit(metronome *heap, metronome *made, uint32_t from) METRONOME_NONNULL;

/* Takes the turn if no handle has it. It never waits. Returns OK, NO_HEAP, BAD_HANDLE or one of these:
 *   * TAKEN: Another handle has the turn, or had it while the call ran.
 *   * INSIDE: This handle has the turn already. The handle of a heap that isn't shared always has it. */
uint32_t metronome_enter(metronome *heap) METRONOME_NONNULL;

/* Gives the turn back. Returns OK, OUTSIDE, NOT_SHARED, NO_HEAP or BAD_HANDLE. */
uint32_t metronome_exit(metronome *heap) METRONOME_NONNULL;

/* Stores in *place the length of the log, modulo 2^63: how many commands, begins and quanta all handles have done, with the
 * collector's work for a plan. A command that the heap refused counts; one that was refused before it came to the heap doesn't. It
 * needs no turn. The calls of a turn count once it is given back. Returns OK; or INSIDE, NOT_SHARED, NO_HEAP or BAD_HANDLE, and
 * *place stays as it was. */
uint32_t metronome_place(metronome *heap, uint64_t *place) METRONOME_NONNULL;

/* Stores in *event the event at a place of the log, in the turn. Places count from 0. Each has one of the commands, begins and
 * quanta that metronome_place counts. To read the log, a program keeps the next place that it hasn't read, and goes on from place
 * to place until the event is NOT_YET there. An event that is GONE was read too late. Returns OK; or OUTSIDE, NOT_SHARED, NO_HEAP
 * or BAD_HANDLE, and *event stays as it was. */
uint32_t metronome_entry(metronome *heap, uint64_t place, metronome_event *event) METRONOME_NONNULL;

#ifdef __cplusplus
}
#endif

#ifdef __GNUC__
#include "metronome_gate.h"
#endif

#endif
