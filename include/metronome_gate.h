/*
 * metronome_gate.h: a gate, where threads wait for the turn of a shared heap. metronome_shared.h includes it. It is plain C over
 * metronome_enter, metronome_exit and metronome_place, and nothing of it is proved. It needs gcc, clang, or another compiler that
 * has their atomic operations.
 */
#ifndef METRONOME_GATE_H
#define METRONOME_GATE_H

#include "metronome_shared.h"

#ifdef __linux__
#include <linux/futex.h>
#include <sys/syscall.h>
#include <unistd.h>
#else
#include <sched.h>
#endif

#ifdef __cplusplus
extern "C" {
#elif defined(__linux__)
long syscall(long number, ...); /* unistd.h doesn't declare it for a program of the C standard alone */
#endif

/* The thread sanitizer doesn't see the library's code. So these calls tell it that the turn orders the work of threads. */
#if defined(__SANITIZE_THREAD__)
#define METRONOME_GATE_TELLS
#elif defined(__has_feature)
#if __has_feature(thread_sanitizer)
#define METRONOME_GATE_TELLS
#endif
#endif
#ifdef METRONOME_GATE_TELLS
void __tsan_acquire(void *at);
void __tsan_release(void *at);
#endif

/* A gate, at which threads wait for the turn of one heap. Each thread that takes turns there must go through it. Initialize it with
 * METRONOME_GATE (all zeros) or METRONOME_GATE_FAIR; only the calls below may use its fields. Don't move it while a thread uses it.
 * It is best on a cache line of its own. docs/PERFORMANCE.md says how long turns take.
 *
 * METRONOME_GATE is fast, and not fair. If a thread gives the turn back and asks again at once, it often gets the turn before a
 * thread that was woken can ask. So a thread may wait for any number of turns.
 *
 * METRONOME_GATE_FAIR(turns) is fair. A thread that finds the turn taken gets a place in a line. From then on these turns may come
 * before its own, and no others: the one that is running, one of each other thread that came before it, and `turns` of threads that
 * came after it, in its whole wait. With 0, threads get the turn in the order in which they come. With more, fewer turns have to
 * wait until a thread is awake. For example, with 3 a thread that always comes again at once has up to 4 turns in a row. `turns` is
 * less than UINT32_MAX.
 *
 * A thread that calls metronome_enter itself has no place, and may pass the line by as often as it likes. The line knows no
 * priorities: docs/EMBEDDING.md says how threads of several priorities wait. */
typedef struct metronome_gate {
    uint32_t waiting; /* the threads that wait, or are about to, at a gate that isn't fair */
    uint32_t asleep;  /* at a gate that isn't fair 1, and at a fair one marks, if threads may be asleep and nobody is about to wake them */
    uint32_t fair;    /* 0, or at a fair gate its number of turns, plus 1 */
    uint32_t next;    /* the next place in line to give; places count from 0, and wrap */
    uint32_t first;   /* the place that is first in line; `next` if nobody waits */
    uint32_t passed;  /* the turns that threads took before threads in line that came earlier; set in turns */
    uint32_t until;   /* the place that was `next` when the last of these turns began; set in turns */
    uint32_t wakes;   /* how often threads in line were woken; they sleep while it stays the same */
} metronome_gate;

#define METRONOME_GATE { 0, 0, 0, 0, 0, 0, 0, 0 }
#define METRONOME_GATE_FAIR(turns) { 0, 0, (uint32_t)(turns) + 1, 0, 0, 0, 0, 0 }

/* How often a thread asks for the turn before it sleeps, at least once. With a lower number, a thread that gives the turn back
 * takes it again more often, and all threads together do more calls. With a higher one, a thread waits for a short turn without a
 * system call. */
#ifndef METRONOME_GATE_TRIES
#define METRONOME_GATE_TRIES 16
#endif

/* Lets the other thread of the processor's core run. */
static inline void metronome_gate_pause(void) {
#if defined(__x86_64__) || defined(__i386__)
    __builtin_ia32_pause();
#elif defined(__aarch64__)
    __asm__ __volatile__("yield");
#endif
}

METRONOME_NONNULL static inline uint32_t metronome_gate_look(uint32_t *at) {
    return __atomic_load_n(at, __ATOMIC_SEQ_CST);
}

/* Sleeps, if *at is `value`, until threads with one of these marks are woken. It may return earlier. */
METRONOME_NONNULL static inline void metronome_gate_sleep(uint32_t *at, uint32_t value, uint32_t marks) {
#ifdef __linux__
    syscall(SYS_futex, at, FUTEX_WAIT_BITSET_PRIVATE, (long)value, NULL, NULL, (long)marks);
#else
    (void)at, (void)value, (void)marks;
    sched_yield();
#endif
}

/* Wakes at most `threads` of the threads that sleep there and have one of these marks. */
METRONOME_NONNULL static inline void metronome_gate_rouse(uint32_t *at, int32_t threads, uint32_t marks) {
#ifdef __linux__
    syscall(SYS_futex, at, FUTEX_WAKE_BITSET_PRIVATE, (long)threads, NULL, NULL, (long)marks);
#else
    (void)at, (void)threads, (void)marks;
#endif
}

/* Returns the mark of a place. Places that are 32 apart share a mark. A thread that is woken for another's place looks, and sleeps
 * again. */
static inline uint32_t metronome_gate_mark(uint32_t place) {
    return (uint32_t)1 << place % 32;
}

/* Wakes one of the threads that sleep; at a fair gate the first in line. If a thread that was woken earlier is still awake, wakes
 * none: that thread asks for the turn, and wakes the next one when it leaves. If no thread waits, it only reads one field.
 * metronome_gate_exit calls it; a program must call it if it gave a turn back in another way. */
METRONOME_NONNULL static inline void metronome_gate_wake(metronome_gate *gate) {
    if (gate->fair == 0) {
        if (metronome_gate_look(&gate->waiting) == 0) return;
        if (__atomic_exchange_n(&gate->asleep, 0, __ATOMIC_SEQ_CST) == 0) return;
        metronome_gate_rouse(&gate->asleep, 1, UINT32_MAX);
        return;
    }
    uint32_t first = metronome_gate_look(&gate->first), mark = metronome_gate_mark(first);
    if (metronome_gate_look(&gate->next) == first) return;
    if ((metronome_gate_look(&gate->asleep) & mark) == 0) return;
    if ((__atomic_fetch_and(&gate->asleep, ~mark, __ATOMIC_SEQ_CST) & mark) == 0) return;
    __atomic_fetch_add(&gate->wakes, 1, __ATOMIC_SEQ_CST);
    metronome_gate_rouse(&gate->wakes, INT32_MAX, mark);
}

/* Waits for the turn at a gate that isn't fair. A thread announces that it waits, then asks once more. A thread that gives the turn
 * back looks for waiters afterwards. So a thread sleeps only if another is going to look. */
METRONOME_NONNULL static inline uint32_t metronome_gate_wait(metronome_gate *gate, metronome *heap) {
    uint32_t status;
    __atomic_fetch_add(&gate->waiting, 1, __ATOMIC_SEQ_CST);
    for (;;) {
        __atomic_store_n(&gate->asleep, 1, __ATOMIC_SEQ_CST);
        status = metronome_enter(heap);
        if (status != METRONOME_TAKEN) break;
        metronome_gate_sleep(&gate->asleep, 1, UINT32_MAX);
    }
    __atomic_fetch_sub(&gate->waiting, 1, __ATOMIC_SEQ_CST);
    return status;
}

/* ---- A fair gate ---- */

/* Returns whether a place is `other` or comes after it. */
static inline int metronome_gate_is_at(uint32_t place, uint32_t other) {
    return place - other < (uint32_t)1 << 31;
}

/* Returns whether a thread that came when `next` was the next place may keep the turn that it has. It may if all threads at earlier
 * places have had their turns. Otherwise it passes them by, if fewer turns than the gate allows have done so, and counts this turn.
 * */
METRONOME_NONNULL static inline int metronome_gate_passes(metronome_gate *gate, uint32_t next) {
    uint32_t passed = metronome_gate_look(&gate->passed);
    if (metronome_gate_is_at(metronome_gate_look(&gate->first), next)) return 1;
    if (passed + 1 >= gate->fair) return 0;
    __atomic_store_n(&gate->until, metronome_gate_look(&gate->next), __ATOMIC_RELAXED);
    __atomic_store_n(&gate->passed, passed + 1, __ATOMIC_RELAXED);
    return 1;
}

/* Asks for the turn as a thread without a place. Returns TAKEN also if threads in line were passed by as often as the gate allows.
 * */
METRONOME_NONNULL static inline uint32_t metronome_gate_ask(metronome_gate *gate, metronome *heap) {
    uint32_t next = metronome_gate_look(&gate->next), status;
    uint64_t place;
    if (metronome_gate_look(&gate->first) == next) return metronome_enter(heap);
    if (metronome_gate_look(&gate->passed) + 1 >= gate->fair) {
        status = metronome_place(heap, &place); /* any other reason to refuse the turn */
        return status == METRONOME_OK ? (uint32_t)METRONOME_TAKEN : status;
    }
    status = metronome_enter(heap);
    if (status != METRONOME_OK || metronome_gate_passes(gate, next)) return status;
    metronome_exit(heap);
    metronome_gate_wake(gate);
    return METRONOME_TAKEN;
}

/* Asks for the turn from a place in line. Returns TAKEN unless the place is the first. */
METRONOME_NONNULL static inline uint32_t metronome_gate_ask_from(metronome_gate *gate, metronome *heap, uint32_t place) {
    return metronome_gate_look(&gate->first) == place ? metronome_enter(heap) : (uint32_t)METRONOME_TAKEN;
}

/* Waits for the turn in line. A thread marks its place, then asks once more. A thread that gives the turn back looks for the first
 * place's mark afterwards. So a thread sleeps only if another is going to look. Only a thread that then wakes all threads with a
 * mark clears the mark. In its turn, the thread makes the next place the first one. Once no thread in line was passed by, later
 * threads may pass again. */
METRONOME_NONNULL static inline uint32_t metronome_gate_wait_in_line(metronome_gate *gate, metronome *heap) {
    uint32_t place = __atomic_fetch_add(&gate->next, 1, __ATOMIC_SEQ_CST), mark = metronome_gate_mark(place);
    uint32_t status = metronome_gate_ask_from(gate, heap, place);
    for (int tries = 1; status == METRONOME_TAKEN && tries < METRONOME_GATE_TRIES; tries++) {
        metronome_gate_pause();
        status = metronome_gate_ask_from(gate, heap, place);
    }
    while (status == METRONOME_TAKEN) {
        uint32_t wakes = metronome_gate_look(&gate->wakes);
        __atomic_fetch_or(&gate->asleep, mark, __ATOMIC_SEQ_CST);
        status = metronome_gate_ask_from(gate, heap, place);
        if (status != METRONOME_TAKEN) break;
        metronome_gate_sleep(&gate->wakes, wakes, mark);
        status = metronome_gate_ask_from(gate, heap, place);
    }
    if (status == METRONOME_OK && metronome_gate_is_at(place + 1, __atomic_load_n(&gate->until, __ATOMIC_RELAXED)))
        __atomic_store_n(&gate->passed, 0, __ATOMIC_RELAXED);
    __atomic_store_n(&gate->first, place + 1, __ATOMIC_SEQ_CST);
    if (status != METRONOME_OK) metronome_gate_wake(gate);
    return status;
}

/* ---- At either gate ---- */

/* Takes the turn, and waits for it while another handle has it. If no handle has it and no thread waits, it calls metronome_enter
 * once and makes no system call. Returns OK, INSIDE, NOT_SHARED, NO_HEAP or BAD_HANDLE. */
METRONOME_NONNULL static inline uint32_t metronome_gate_enter(metronome_gate *gate, metronome *heap) {
    uint32_t status;
    if (gate->fair != 0) {
        status = metronome_gate_ask(gate, heap);
        if (status == METRONOME_TAKEN) status = metronome_gate_wait_in_line(gate, heap);
    } else {
        status = metronome_enter(heap);
        for (int tries = 1; status == METRONOME_TAKEN && tries < METRONOME_GATE_TRIES; tries++) {
            metronome_gate_pause();
            status = metronome_enter(heap);
        }
        if (status == METRONOME_TAKEN) status = metronome_gate_wait(gate, heap);
    }
#ifdef METRONOME_GATE_TELLS
    __tsan_acquire(gate);
#endif
    return status;
}

/* Gives the turn back, and wakes a thread that waits for it. If a turn ends by metronome_exit or metronome_destroy, no thread is
 * woken: call metronome_gate_wake then. Returns OK, OUTSIDE, NOT_SHARED, NO_HEAP or BAD_HANDLE. */
METRONOME_NONNULL static inline uint32_t metronome_gate_exit(metronome_gate *gate, metronome *heap) {
#ifdef METRONOME_GATE_TELLS
    __tsan_release(gate);
#endif
    uint32_t status = metronome_exit(heap);
    metronome_gate_wake(gate);
    return status;
}

#ifdef __cplusplus
}
#endif

#endif
