/*
 * fair: which thread gets the turn at a fair gate, and how many turns pass a waiting thread.
 *
 * First come plays, whose turns come in one order. The program's own `syscall` makes each wake as slow as possible: a thread
 * that was woken goes on only when the thread that woke it waits itself, or has ended. So a thread that comes again at once
 * finds the turn free whenever the gate lets it in. At a gate that isn't fair it has all its turns in a row.
 *
 * Then four threads only take turns of ten calls. In each 100 turns in a row each of them has 20 to 30. Turns are counted, and
 * not time. Each turn lasts until the other three threads are in line: otherwise a machine under load may keep a thread away
 * from the gate for any time, and the others have its turns, whatever the gate does. At a gate that isn't fair one thread has
 * all 100.
 *
 * Last come four threads, and then 40, that come and go as they like. For each thread that sleeps, and so is in line, the
 * turns before its own are counted.
 */
#define _GNU_SOURCE
#include "metronome_shared.h"
#include "../checks.h"
#include <pthread.h>
#include <stdio.h>
#include <string.h>
#include <time.h>

enum { MOST = 40, CREW = 4, CALLS = 10, WINDOW = 100, TURNS = 10000, LONG_TURNS = 1000, MAIN = MOST, MILLISECOND = 1000000 };
enum { PLAYERS = 3, LATE = 3, LIMIT = 600 /* seconds */ };

/* The late thread waits before it asks for the turn, until it may ask; or it may also stay inside, until thread 0 has slept
 * twice. A thread that hesitates waits after its last request, before it sleeps. */
enum door { NO_DOOR, CLOSED, IS_THERE, MAY_ASK, MAY_STAY, IS_INSIDE, HESITATES };

static const uint64_t NEVER = UINT64_MAX;

/* A thread. */
struct actor {
    pthread_t thread;
    metronome heap;
    uint32_t mutator;
    int turns;           /* in a play: the number of turns that it takes, one after the other */
    uint64_t sleeps;     /* how often it slept at the gate; an atomic, as are the next three */
    int is_in_line;
    int has_ended;
    int door;            /* a state of the door at which it comes to the turn */
    int asks;            /* how often it asked as a thread that hesitates */
    uint64_t since;      /* the number of turns when it came into line, or NEVER */
    uint64_t passed;     /* the most turns from then to its own */
    int failed;
};

static metronome_gate gate;
static struct actor actors[MOST + 1];
static uint8_t turns_of[TURNS]; /* the thread of each turn; written in turns alone */
static uint64_t taken;          /* the number of turns so far; written in turns alone, and read as an atomic */
static uint64_t most;           /* the number of turns at the end */
static uint32_t threads;        /* the number of threads that take turns */
static int wakes_are_slow, turns_are_long;
static uint64_t wakes;          /* how often a thread was woken; an atomic, as is the next */
static uint64_t last_wake;      /* the thread that woke one last: its number, above 32 bits of how often it had slept by then */
static _Thread_local struct actor *me;

#define READ(at) __atomic_load_n(&(at), __ATOMIC_SEQ_CST)
#define SET(at, value) __atomic_store_n(&(at), value, __ATOMIC_SEQ_CST)

static void sleep_for(long nanoseconds) {
    struct timespec time = { 0, nanoseconds };
    nanosleep(&time, NULL);
}

/* ---- Functions that the linker replaces ---- */

long __real_syscall(long number, ...);
long __wrap_syscall(long number, uint32_t *at, long what, long value, void *none, void *nothing, long marks);
uint32_t __real_metronome_enter(metronome *heap);
uint32_t __wrap_metronome_enter(metronome *heap);

/* Waits as long as the thread that woke last may still go on. */
static void be_slow(void) {
    uint64_t wake = READ(last_wake);
    struct actor *by = &actors[wake >> 32];
    while (by != me && READ(by->sleeps) == (uint32_t)wake && !READ(by->has_ended)) sleep_for(MILLISECOND / 10);
}

long __wrap_syscall(long number, uint32_t *at, long what, long value, void *none, void *nothing, long marks) {
    int waits = number == SYS_futex && what == FUTEX_WAIT_BITSET_PRIVATE;
    if (waits) {
        if (me->since == NEVER) me->since = READ(taken);
        __atomic_fetch_add(&me->sleeps, 1, __ATOMIC_SEQ_CST);
        SET(me->is_in_line, 1);
    } else {
        __atomic_fetch_add(&wakes, 1, __ATOMIC_SEQ_CST);
        SET(last_wake, (uint64_t)(me - actors) << 32 | READ(me->sleeps));
    }
    long answer = __real_syscall(number, at, what, value, none, nothing, marks);
    if (waits && wakes_are_slow) be_slow();
    if (waits) SET(me->is_in_line, 0);
    return answer;
}

static void stop_at_the_door(void) {
    SET(me->door, IS_THERE);
    while (READ(me->door) == IS_THERE) sleep_for(MILLISECOND / 10);
}

/* Asks for the turn. A thread that waits with no thread before it asks as it comes, as often as it may before it sleeps, and
   once more. */
uint32_t __wrap_metronome_enter(metronome *heap) {
    if (READ(me->door) == CLOSED) stop_at_the_door();
    uint32_t status = __real_metronome_enter(heap);
    if (READ(me->door) == HESITATES && ++me->asks == METRONOME_GATE_TRIES + 2) stop_at_the_door();
    if (READ(me->door) == MAY_STAY) {
        SET(me->door, IS_INSIDE);
        while (READ(actors[0].sleeps) < 2) sleep_for(MILLISECOND / 10);
    }
    return status;
}

/* ---- Threads ---- */

/* Makes the gate one of a kind; a heap with an object and a handle for each of `many` threads; and a handle for the main thread. */
static void open_heap(metronome_gate kind, uint32_t many) {
    static const struct actor none = { .heap = METRONOME_CLOSED, .since = UINT64_MAX };
    metronome_settings settings = METRONOME_SETTINGS(4, MOST, 1);
    metronome *own = &actors[MAIN].heap;
    gate = kind;
    for (uint32_t n = 0; n <= MOST; n++) {
        actors[n] = none;
        actors[n].mutator = n;
    }
    me = &actors[MAIN];
    taken = wakes = 0;
    last_wake = UINT32_MAX; /* none */
    check(metronome_create_shared(own, &settings, 0) == METRONOME_OK && metronome_enter(own) == METRONOME_OK, __LINE__);
    int made = 1;
    for (uint32_t n = 0; n < MOST; n++) made &= metronome_new_words(own, n, 0, 1).kind == METRONOME_MADE;
    check(made && metronome_exit(own) == METRONOME_OK, __LINE__);
    for (uint32_t n = MOST; n > 0; n--)
        if (n <= many) made &= metronome_sit(own, &actors[n - 1].heap, n - 1) == METRONOME_OK;
    check(made, __LINE__);
}

static void close_heap(void) {
    int good = 1;
    for (uint32_t n = 0; n <= MOST; n++) {
        good &= actors[n].failed == 0;
        metronome_destroy(&actors[n].heap);
    }
    check(good && gate.next == gate.first && gate.waiting == 0, __LINE__);
}

static void need(int holds) {
    if (!holds) me->failed = 1;
}

/* Takes the turn, and notes it, if there is room. */
static void enter(void) {
    need(metronome_gate_enter(&gate, &me->heap) == METRONOME_OK);
    if (me->since != NEVER && taken - me->since > me->passed) me->passed = taken - me->since;
    me->since = NEVER;
    if (taken < TURNS) turns_of[taken] = (uint8_t)(me - actors);
    SET(taken, taken + 1);
}

static void leave(void) {
    need(metronome_gate_exit(&gate, &me->heap) == METRONOME_OK);
}

/* ---- Plays ---- */

/* The steps of the main thread at a gate. '(' enters and ')' leaves. A digit starts this thread, and waits until it sleeps at
 * the gate. 'L' starts the late one, which comes to the door and waits there; 'l' lets it ask for the turn, and waits until it
 * sleeps; 's' lets it ask and stay inside. 'H' starts thread 0 as one that hesitates, and 'h' lets it go on. Each thread takes
 * its number of turns, one after the other. `order` has the thread of each turn. */
struct play {
    metronome_gate gate;
    const char *steps;
    int turns[PLAYERS + 1];
    const char *order;
};

static const struct play plays[] = {
    /* one thread waits, and the main thread comes again at once */
    { METRONOME_GATE, "(0)()()()()()", { 2 }, "mmmmmm00" },
    { METRONOME_GATE_FAIR(0), "(0)()()()()()", { 2 }, "m0m0mmmm" },
    { METRONOME_GATE_FAIR(2), "(0)()()()()()", { 2 }, "mmm00mmm" },
    { METRONOME_GATE_FAIR(5), "(0)()()()()()", { 2 }, "mmmmmm00" },
    { METRONOME_GATE_FAIR(UINT32_MAX - 1), "(0)()()()()()", { 2 }, "mmmmmm00" },
    /* several threads wait: they have their turns in the order in which they came */
    { METRONOME_GATE_FAIR(0), "(012)", { 1, 1, 1 }, "m012" },
    { METRONOME_GATE_FAIR(0), "(012)()", { 2, 2, 1 }, "m012m01" },
    { METRONOME_GATE_FAIR(2), "(01)()()()()", { 1, 1 }, "mmm01mm" },
    { METRONOME_GATE_FAIR(1), "(01)()()", { 2, 1 }, "mm01m0" },
    /* a thread comes while others are passed by, and one comes when no more may pass */
    { METRONOME_GATE_FAIR(2), "(0)(1)()()()", { 1, 1 }, "mmm01mm" },
    { METRONOME_GATE_FAIR(1), "(0)(1)()()", { 3, 1 }, "mm001mm0" },
    /* a thread gets a turn that it may no longer have, and gives it back; also if the first in line asked meanwhile, and
       sleeps again */
    { METRONOME_GATE_FAIR(1), "(0L)()l()", { 1, 0, 0, 1 }, "mm0Lm" },
    { METRONOME_GATE_FAIR(1), "(0L)()s()", { 1, 0, 0, 1 }, "mm0mL" },
    /* a thread is woken before it sleeps */
    { METRONOME_GATE_FAIR(0), "(H)h", { 1 }, "m0" },
};

static void *take_part(void *argument) {
    me = argument;
    for (int n = 0; n < me->turns; n++) {
        enter();
        leave();
    }
    SET(me->has_ended, 1);
    return NULL;
}

static void await_sleep(struct actor *it) {
    while (READ(it->sleeps) == 0) sleep_for(MILLISECOND / 10);
    sleep_for(2 * MILLISECOND);
}

static void step(char what) {
    struct actor *late = &actors[LATE];
    if (what == '(') {
        enter();
    } else if (what == ')') {
        leave();
    } else if (what == 'L' || what == 'H') {
        struct actor *it = what == 'L' ? late : &actors[0];
        it->door = what == 'L' ? CLOSED : HESITATES;
        check(pthread_create(&it->thread, NULL, take_part, it) == 0, __LINE__);
        while (READ(it->door) != IS_THERE) sleep_for(MILLISECOND / 10);
    } else if (what == 'h') {
        SET(actors[0].door, NO_DOOR);
    } else if (what == 'l') {
        SET(late->door, MAY_ASK);
        await_sleep(late);
    } else if (what == 's') {
        SET(late->door, MAY_STAY);
        while (READ(late->door) != IS_INSIDE) sleep_for(MILLISECOND / 10);
    } else {
        struct actor *it = &actors[what - '0'];
        check(pthread_create(&it->thread, NULL, take_part, it) == 0, __LINE__);
        await_sleep(it);
    }
}

/* Threads have their turns in order, and no thread that is awake is woken. */
static void look_at(const struct play *it) {
    char order[32] = "";
    uint64_t sleeps = 0;
    open_heap(it->gate, PLAYERS + 1);
    wakes_are_slow = 1;
    for (int n = 0; n <= PLAYERS; n++) actors[n].turns = it->turns[n];
    for (const char *what = it->steps; *what != 0; what++) step(*what);
    SET(actors[MAIN].has_ended, 1);
    for (int n = 0; n <= PLAYERS; n++)
        if (it->turns[n] > 0) pthread_join(actors[n].thread, NULL);
    wakes_are_slow = 0;
    for (int n = 0; n <= MAIN; n++) sleeps += actors[n].sleeps;
    check(wakes <= sleeps, __LINE__);
    for (uint64_t n = 0; n < taken && n < sizeof order - 1; n++) order[n] = turns_of[n] == MAIN ? 'm' : "012L"[turns_of[n]];
    check(strcmp(order, it->order) == 0, __LINE__);
    if (strcmp(order, it->order) != 0) fprintf(stderr, "%s at %u: %s\n", it->steps, it->gate.fair, order);
    close_heap();
}

/* ---- Crowds ---- */

/* Waits until all other threads are in line, or have ended. */
static void await_line(void) {
    for (uint32_t n = 0; n < threads; n++)
        while (&actors[n] != me && !READ(actors[n].is_in_line) && !READ(actors[n].has_ended)) sleep_for(MILLISECOND / 50);
}

/* Takes turns of ten calls, until there were enough. */
static void *work(void *argument) {
    me = argument;
    for (int over = 0; !over;) {
        enter();
        over = taken >= most;
        for (uint32_t n = 0; n < CALLS; n++)
            need((n % 2 ? metronome_put(&me->heap, me->mutator, 0, 0, n) : metronome_get(&me->heap, me->mutator, 0, 0)).kind
                 != METRONOME_REFUSED);
        if (turns_are_long) await_line();
        leave();
    }
    SET(me->has_ended, 1);
    return NULL;
}

/* Lets `many` threads take `turns` turns at a gate. Returns the most turns from a thread's sleep to its own turn. */
static uint64_t crowd(metronome_gate kind, uint32_t many, uint64_t turns) {
    uint64_t most_passed = 0;
    open_heap(kind, many);
    threads = many;
    most = turns;
    for (uint32_t n = 0; n < many; n++) check(pthread_create(&actors[n].thread, NULL, work, &actors[n]) == 0, __LINE__);
    for (uint32_t n = 0; n < many; n++) {
        pthread_join(actors[n].thread, NULL);
        if (actors[n].passed > most_passed) most_passed = actors[n].passed;
    }
    close_heap();
    return most_passed;
}

/* Finds the least and the most turns that one of four threads has of 100 in a row. */
static void share(int *least, int *greatest) {
    int turns[CREW] = { 0 };
    *least = WINDOW;
    *greatest = 0;
    for (uint64_t n = 0; n < most; n++) {
        turns[turns_of[n]]++;
        if (n >= WINDOW) turns[turns_of[n - WINDOW]]--;
        for (int k = 0; k < CREW && n + 1 >= WINDOW; k++) {
            if (turns[k] < *least) *least = turns[k];
            if (turns[k] > *greatest) *greatest = turns[k];
        }
    }
}

/* Checks four threads that are all in line when a turn ends. */
static void look_at_four(metronome_gate kind, int slow, const char *name) {
    int least, greatest;
    wakes_are_slow = slow;
    turns_are_long = 1;
    crowd(kind, CREW, LONG_TURNS);
    wakes_are_slow = turns_are_long = 0;
    share(&least, &greatest);
    printf("%s: each of four threads has %d to %d of 100 turns\n", name, least, greatest);
    check(kind.fair != 0 ? 20 <= least && greatest <= 30 : least == 0 && greatest == WINDOW, __LINE__);
}

/* No thread is passed by more often than the gate says: each other thread has one turn, and later threads as many more as the
   gate allows. */
static void look_at_many(metronome_gate kind, uint32_t many) {
    check(crowd(kind, many, TURNS) <= many - 1 + kind.fair - 1, __LINE__);
}

int main(void) {
    static const metronome_gate fast = METRONOME_GATE, in_order = METRONOME_GATE_FAIR(0), fair = METRONOME_GATE_FAIR(3);
    alarm(LIMIT); /* ends the program if a wake is lost */
    for (size_t n = 0; n < sizeof plays / sizeof *plays; n++) look_at(&plays[n]);
    look_at_four(fast, 1, "at a gate that isn't fair");
    look_at_four(in_order, 0, "at a fair gate of 0");
    look_at_four(fair, 1, "at a fair gate of 3");
    look_at_many(in_order, CREW);
    look_at_many(fair, CREW);
    look_at_many(in_order, MOST);
    look_at_many(fair, MOST);
    return checked();
}
