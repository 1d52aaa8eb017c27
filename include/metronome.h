/*
 * metronome.h: a real-time garbage-collected heap, for C11, C17 and C++17. Link with libmetronome.a, or with -lmetronome if it is
 * installed.
 *
 * OBJECTS. A program has no pointers to objects. It names an object by a slot that holds it. Each mutator has slots 0 to slots - 1,
 * and all mutators share the statics. An object is unreachable if no path leads to it from a slot or a static, directly or by way
 * of reference cells. The next cycle of the collector that begins frees each unreachable object.
 *
 * THE COLLECTOR. metronome_begin begins a cycle, and metronome_quantum continues it. A quantum spends at most its budget of units.
 * A unit is one look at a root, a cell, a block or a page; moving a block costs one unit for each of its words. A cycle spends at
 * most this many units:
 *
 *     limit = statics + mutators * slots + 6144 * pages + (38 + defrag_pages) * pages + 4
 *
 * In quanta with budgets of at least b, a cycle takes at most limit / (b - 255) + 1 quanta, whatever calls come between them. Call
 * metronome_cycle_limit to calculate both numbers, for b = collector_ticks * rate.
 *
 * NUMBERS. An identity is the number of an object: 1 for the first that is made, 2 for the next, and so on. 0 stands for null. A
 * word is any 64 bits. Reference cells and word cells are each counted from 0.
 *
 * THREADS. Any thread may call any function, and no thread owns a heap. A handle takes only one call at a time, and calls on
 * different heaps need no lock. If several threads call on one heap, each has a handle of its own at a shared heap
 * (metronome_shared.h). Or they have one handle, and the program orders their calls, by a lock or by starting and joining threads.
 * The library starts no thread, takes no lock and never waits. Don't call it from a signal handler, or in a child that was forked
 * by a process with threads.
 *
 * STATUSES. All calls with a `metronome` work on handles of both kinds: of a heap of its own, and at a shared heap. Before the
 * reasons that are named at a call come these, in this order. They aren't named again:
 *
 *   * NO_HEAP if the handle is closed, or BAD_HANDLE if the memory isn't a handle.
 *   * OUTSIDE if the heap is shared, and the handle doesn't have the turn.
 *   * NOT_YOURS if the heap is shared, and the mutator isn't one of the handle's.
 *
 * RULES FOR C. Nothing checks these:
 *
 *   * Don't read or write the fields of a `metronome`.
 *   * Don't copy a handle and go on using both. You may move a handle between calls.
 *   * Don't drop an open handle without metronome_destroy: its memory is lost.
 *   * Don't pass NULL. The compiler warns if it sees one.
 *   * Don't pass a pointer to something else, or to something that goes away while the call runs.
 *   * Don't pass pointers that overlap to one call.
 *   * Don't replace malloc, realloc and free by functions that don't belong together, or that align less than C requires.
 *
 * A `metronome` that was never set is refused as BAD_HANDLE, unless it has by chance one of the two values that the library leaves
 * in open handles. If a call only writes through a pointer, the memory needs no value before.
 *
 * MEMORY. The calls that create a heap take all its memory from malloc, and metronome_destroy gives it back. metronome_sit takes a
 * few hundred bytes; no other call asks for any. A page is cleared when the first object is made on it, or by metronome_touch.
 *
 * OTHER HEADERS. This header includes metronome_lists.h (calls that do a list of commands), metronome_figures.h (figures about a
 * heap), metronome_keep.h (plans, by which the collector paces itself), metronome_over_calls.h (frames of slots, and a pace) and
 * metronome_blocks.h (a walk over objects).
 *
 * docs/CONTRACTS.md says what is proved of each function. Nothing is proved of the `static inline` functions: they are only tested.
 */
#ifndef METRONOME_H
#define METRONOME_H

#include <stdbool.h>
#include <stddef.h>
#include <stdint.h>

#ifdef __cplusplus
extern "C" {
#endif

/* The version of this header. A library of another version (metronome_version) doesn't fit it: metronome_create then returns
 * OTHER_VERSION. CHANGELOG.md has the changes from version to version. */
#define METRONOME_VERSION 3

/* Marks a function whose pointers must all point to values: none may be NULL. */
#ifdef __GNUC__
#define METRONOME_NONNULL __attribute__((nonnull))
#else
#define METRONOME_NONNULL
#endif

/* A handle: it holds a heap, or a share of one, or it is closed. A handle of all zeros, such as METRONOME_CLOSED, is closed. The
 * fields belong to the library. */
typedef struct metronome {
    void *at;
    uint64_t check;
} metronome;

#define METRONOME_CLOSED { 0, 0 }

/* The settings of a heap, each with its range. METRONOME_SETTINGS takes the first three, and gives the others their defaults. */
typedef struct metronome_settings {
    int64_t pages;           /* 1 to 1048576 pages of 2048 words of 8 bytes; a configuration file allows up to 4096 */
    int64_t mutators;        /* how many mutators there are: 1 to 64 */
    int64_t slots;           /* how many slots each mutator has: 1 to 256 */
    int64_t statics;         /* how many statics there are: 0 to 256; default 0 */
    int64_t identities;      /* the greatest identity that is given: 1 to INT64_MAX, which is the default */
    int64_t defrag_below;    /* moving follows each sweep that leaves fewer free pages: 0 to 1048577; default 0 */
    int64_t defrag_pages;    /* the most pages that a cycle empties: 0 to 1048576; default 0 */
    int64_t collector_ticks; /* 1 to 1000000; default 10. A schedule has collector_ticks, mutator_ticks and rate. The product
                              * collector_ticks * rate must be 256 to 1000000. It is the budget of a plan's quanta, and
                              * metronome_cycle_limit uses it */
    int64_t mutator_ticks;   /* 1 to 1000000; default 12. The library only checks its range */
    int64_t rate;            /* 1 to 1000000; default 100. It is used with collector_ticks */
    int64_t live;            /* mutators 0 to live - 1 are live at first: 0 to mutators, which is the default */
} metronome_settings;

#define METRONOME_SETTINGS(pages, mutators, slots) \
    { (pages), (mutators), (slots), 0, INT64_MAX, 0, 0, 10, 12, 100, (mutators) }

/* How a call ends, and what a program does then.
 *
 * A refused call changes nothing, with two exceptions. The collector may have worked for a plan. In a list of commands, those
 * before the refused one are done.
 *
 * If several reasons apply, a command returns the first in this order: BAD_SLOT for the mutator, ALREADY_LIVE, NOT_LIVE, BAD_SLOT
 * for the slots as they are named, BAD_STATIC, NULL_SLOT, WRONG_KIND, BAD_INDEX.
 *
 * A call that makes an object has this order: ABOVE_PLAN, BAD_SLOT or NOT_LIVE for the mutator, BAD_SLOT for the slot, TOO_LARGE,
 * IDENTITIES_SPENT, NO_SPACE.
 *
 * "A mistake" below means that the same call would be refused again. */
enum metronome_status {
    METRONOME_OK = 0,
    METRONOME_BAD_SLOT = 1,         /* There is no such slot or no such mutator: a mistake. metronome_check_slot returns which */
    METRONOME_NULL_SLOT = 2,        /* The slot that names the object holds null: for example at the end of a list. Else it is a
                                     * mistake */
    METRONOME_BAD_INDEX = 3,        /* The object has no cell of that number: a mistake, or the end of an array */
    METRONOME_WRONG_KIND = 4,       /* The object is an array of the other kind: a mistake */
    METRONOME_TOO_LARGE = 5,        /* More than 252 cells were named, or more than 4000000 for an array. Use an array, or several
                                     * calls */
    METRONOME_IDENTITIES_SPENT = 6, /* The next identity is above the setting. This heap can make no more objects */
    METRONOME_NO_SPACE = 7,         /* There is no room for the object. Call metronome_whole_cycle, and make the call again. If it
                                     * is refused again, the reachable objects, as they lie, leave no room: clear references to
                                     * objects, or make a heap of more pages */
    METRONOME_BAD_STATIC = 8,       /* There is no such static: a mistake */
    METRONOME_NO_MEMORY = 9,        /* malloc returned no memory. Free some, or ask for fewer pages */
    METRONOME_BUSY = 11,            /* A cycle is already running. Continue it with metronome_quantum */
    METRONOME_BAD_BUDGET = 12,      /* The budget of a quantum isn't 256 to 1000000: a mistake */
    METRONOME_NOT_LIVE = 14,        /* The mutator isn't live. Call metronome_join first */
    METRONOME_ALREADY_LIVE = 15,    /* The mutator that is to join is live already: a mistake, or go on with it */
    METRONOME_NO_HEAP = 16,         /* The handle holds no heap. Call metronome_create first */
    METRONOME_OPEN = 17,            /* The handle already holds a heap. Call metronome_destroy first */
    METRONOME_BAD_SCHEDULE = 18,    /* collector_ticks * rate isn't 256 to 1000000. Correct the settings */
    METRONOME_BAD_HANDLE = 19,      /* The memory that was given as a handle isn't one. Set a handle to METRONOME_CLOSED where it
                                     * is defined */
    METRONOME_BAD_SETTING = 20,     /* A setting is out of its range. The status is 20 plus the place of the first such setting,
                                     * from 0 (pages) to 10 (live). Correct it */
    METRONOME_OTHER_VERSION = 40,   /* The library and this header have different versions. Compile the program again */
    METRONOME_TAKEN = 41,           /* Another handle has the turn. metronome_gate_enter waits for it */
    METRONOME_INSIDE = 42,          /* The handle has the turn, and the call needs it not to. Call metronome_exit first. A heap of
                                     * its own always has the turn */
    METRONOME_OUTSIDE = 43,         /* The handle doesn't have the turn of its shared heap. Call metronome_enter first */
    METRONOME_NOT_YOURS = 44,       /* The mutator isn't one of the handle's at the shared heap: a mistake */
    METRONOME_NO_PLAN = 46,         /* No plan fits these settings, or the heap can't keep this plan, or it keeps none */
    METRONOME_ABOVE_PLAN = 47,      /* The object, or metronome_prepare, asks for more words than the plan's cycle_words. Use more
                                     * pages, or split the object */
    METRONOME_NO_MUTATOR = 48,      /* There is no such mutator: a mistake. Commands return BAD_SLOT instead; metronome_check_slot
                                     * tells the two apart */
    METRONOME_SLOTS_USED = 49,      /* No slot is left in the row of a frame, or, in C++ and Rust, in the mutator. Give some back
                                     * */
    METRONOME_OTHER_MUTATOR = 50,   /* A root belongs to another mutator: a mistake. Only C++ and Rust have this status */
    METRONOME_NOT_SHARED = 51,      /* The heap isn't shared. metronome_create_shared makes one that is */
    METRONOME_IS_SHARED = 52,       /* The heap is shared, and the call needs a heap of its own */
    METRONOME_IN_USE = 53           /* The shared heap has events in its log already. Make the call before them */
};

/* The kind of an answer, and the meaning of its number. */
enum metronome_kind {
    METRONOME_REFUSED = 0,   /* The number is a metronome_status */
    METRONOME_MADE = 1,      /* The number is the identity of the new object */
    METRONOME_REF = 2,       /* The number is the identity that was loaded, or 0 for null */
    METRONOME_WORD = 3,      /* The number is the word that was read */
    METRONOME_DONE = 4,      /* The number is 0 */
    METRONOME_STORED = 5,    /* The number is 0: the comparison held, and the cell was written */
    METRONOME_KEPT = 6,      /* The comparison failed; the number is the identity in the cell, or 0 for null */
    METRONOME_KEPT_WORD = 7, /* The comparison failed; the number is the word in the cell */
    METRONOME_IS = 8,        /* The number is 1 for yes, 0 for no */
    METRONOME_DESCRIBED = 9  /* The number is the identity */
};

typedef struct metronome_answer {
    uint32_t kind; /* one of the values of metronome_kind */
    uint64_t number;
} metronome_answer;

/* The kinds of shapes that objects have. */
enum metronome_shape_kind {
    METRONOME_PLAIN = 0,
    METRONOME_REF_ARRAY = 1,
    METRONOME_WORD_ARRAY = 2
};

typedef struct metronome_shape {
    uint32_t kind;  /* one of the values of metronome_shape_kind */
    uint32_t refs;  /* how many reference cells it has */
    uint32_t words; /* how many word cells it has */
} metronome_shape;

/* The phases of a cycle, in their order. */
enum metronome_phase_number {
    METRONOME_IDLE = 0, /* No cycle is running */
    METRONOME_ROOTS = 1,
    METRONOME_MARKING = 2,
    METRONOME_SWEEPING = 3,
    METRONOME_MOVING = 4
};

typedef struct metronome_spent {
    uint32_t units; /* how many units were spent */
    uint32_t phase; /* the phase at the end, which is a metronome_phase_number */
} metronome_spent;

/* The most that a cycle takes. */
typedef struct metronome_limit {
    uint64_t units;
    uint64_t quanta; /* how many quanta, if each has collector_ticks * rate units or more */
} metronome_limit;

/* ---- Heaps ---- */

/* Makes a heap, if the handle is closed, for a program that was compiled for header version `version`. Programs call
 * metronome_create. All memory that the heap will ever use is asked from malloc: about 17 KB a page. Time grows with the pages.
 * Returns OK; or OPEN, NO_MEMORY, BAD_SCHEDULE, BAD_HANDLE, OTHER_VERSION, or BAD_SETTING plus the place of the first setting that
 * is out of its range, and leaves the handle as it was. If it returns OTHER_VERSION, nothing else is checked. */
uint32_t metronome_create_for(metronome *heap, const metronome_settings *settings, uint32_t version) METRONOME_NONNULL;

/* Does the same for the version of this header. */
METRONOME_NONNULL static inline uint32_t metronome_create(metronome *heap, const metronome_settings *settings) {
    return metronome_create_for(heap, settings, METRONOME_VERSION);
}

/* Touches the first `pages` pages, or all if there are fewer: it clears those that were neither used nor touched before. Nothing
 * else changes, and no unit is spent. Time grows with the pages.
 *
 * A call that makes the first object on an untouched page clears it, 16 KB, and takes the operating system's page faults. The
 * lowest free page is used first, so freed pages are used again before new ones. If a program can't accept this cost in a
 * metronome_new call, it touches its pages once, at its start. That also shows whether the memory is really there: malloc may grant
 * more than the machine has, and the system then ends the program that uses it. Returns OK, or IN_USE at a shared heap whose log
 * has an event already. */
uint32_t metronome_touch(metronome *heap, size_t pages) METRONOME_NONNULL;

/* Closes the handle, which may then hold another heap. Gives the memory of its heap back; of a shared heap, only if it was the last
 * handle. If it has the turn, that is given back first; a thread that waits at a gate isn't woken (metronome_gate_wake). If the
 * handle holds no heap, nothing is done. Time grows with the pages. */
void metronome_destroy(metronome *heap) METRONOME_NONNULL;

/* ---- Commands of mutators ----
 *
 * Each command is done at once, whatever phase the collector is in. Each takes a bounded number of steps, except new arrays and
 * metronome_leave. If the heap keeps a plan, the collector works before each new object (metronome_keep).
 *
 * Each command needs a live mutator; only metronome_join needs one that isn't live. At first all mutators are live, or those below
 * the setting `live`. A command may write to a slot whatever the slot holds. A slot that names an object must not hold null.
 *
 * Each is refused as BAD_SLOT if there is no such mutator or no such slot, and as NOT_LIVE if the mutator isn't live. These aren't
 * named again. */

/* Makes an object in slot dst, with `refs` reference cells, all null, and `words` word cells, all 0. It may have at most 252 cells.
 * Returns MADE with the identity. It is refused as TOO_LARGE, IDENTITIES_SPENT, NO_SPACE, or, if the heap keeps a plan, ABOVE_PLAN.
 * */
metronome_answer metronome_new_plain(metronome *heap, uint32_t mutator, uint32_t dst, uint32_t refs, uint32_t words) METRONOME_NONNULL;

/* Makes an array in slot dst, with `refs` reference cells, all null. It may have at most 4000000 cells. Time grows with its length.
 * Returns MADE with the identity, or is refused as metronome_new_plain. */
metronome_answer metronome_new_refs(metronome *heap, uint32_t mutator, uint32_t dst, uint32_t refs) METRONOME_NONNULL;

/* Makes an array of `words` word cells, all 0, as metronome_new_refs does. */
metronome_answer metronome_new_words(metronome *heap, uint32_t mutator, uint32_t dst, uint32_t words) METRONOME_NONNULL;

/* Loads the reference in reference cell i of slot obj's object into slot dst. Returns REF with the identity, or 0 for null. It is
 * refused as NULL_SLOT if slot obj holds null, as WRONG_KIND, or as BAD_INDEX. */
metronome_answer metronome_load(metronome *heap, uint32_t mutator, uint32_t dst, uint32_t obj, uint32_t i) METRONOME_NONNULL;

/* Stores the reference in slot src in reference cell i of slot obj's object. Returns DONE, or is refused as metronome_load. */
metronome_answer metronome_store(metronome *heap, uint32_t mutator, uint32_t obj, uint32_t i, uint32_t src) METRONOME_NONNULL;

/* Compares reference cell i of slot obj's object with slot expect. If both hold the same, stores the reference in slot replacement
 * in the cell. Returns STORED, or KEPT with the identity in the cell, or is refused as metronome_load. */
metronome_answer metronome_compare_store(metronome *heap, uint32_t mutator, uint32_t obj, uint32_t i, uint32_t expect,
                                         uint32_t replacement) METRONOME_NONNULL;

/* Reads word cell i of slot obj's object. Returns WORD with the word, or is refused as metronome_load. */
metronome_answer metronome_get(metronome *heap, uint32_t mutator, uint32_t obj, uint32_t i) METRONOME_NONNULL;

/* Writes `word` to word cell i of slot obj's object. Returns DONE, or is refused as metronome_load. */
metronome_answer metronome_put(metronome *heap, uint32_t mutator, uint32_t obj, uint32_t i, uint64_t word) METRONOME_NONNULL;

/* Writes `replacement` to word cell i of slot obj's object, if the cell holds `old`. Returns STORED, or KEPT_WORD with the word in
 * the cell, or is refused as metronome_load. */
metronome_answer metronome_compare_put(metronome *heap, uint32_t mutator, uint32_t obj, uint32_t i, uint64_t old,
                                       uint64_t replacement) METRONOME_NONNULL;

/* Copies the reference in slot src to slot dst. Returns DONE. */
metronome_answer metronome_copy(metronome *heap, uint32_t mutator, uint32_t dst, uint32_t src) METRONOME_NONNULL;

/* Sets slot dst to null. Returns DONE. */
metronome_answer metronome_clear(metronome *heap, uint32_t mutator, uint32_t dst) METRONOME_NONNULL;

/* Loads the reference in static k into slot dst. Returns REF with the identity, or 0 for null, or is refused as BAD_STATIC. */
metronome_answer metronome_load_static(metronome *heap, uint32_t mutator, uint32_t dst, uint32_t k) METRONOME_NONNULL;

/* Stores the reference in slot src in static k. Returns DONE, or is refused as BAD_STATIC. */
metronome_answer metronome_store_static(metronome *heap, uint32_t mutator, uint32_t k, uint32_t src) METRONOME_NONNULL;

/* Compares static k with slot expect. If both hold the same, stores the reference in slot replacement in the static. Returns
 * STORED, or KEPT with the identity in the static, or is refused as BAD_STATIC. */
metronome_answer metronome_compare_static(metronome *heap, uint32_t mutator, uint32_t k, uint32_t expect,
                                          uint32_t replacement) METRONOME_NONNULL;

/* Compares slots a and b. Returns IS with 1 if both hold the same object, or both hold null; else IS with 0. */
metronome_answer metronome_same(metronome *heap, uint32_t mutator, uint32_t a, uint32_t b) METRONOME_NONNULL;

/* Stores the shape of slot a's object in *shape. Returns DESCRIBED with the identity. It is refused as NULL_SLOT if slot a holds
 * null. If it is refused, *shape stays as it was. */
metronome_answer metronome_describe(metronome *heap, uint32_t mutator, uint32_t a, metronome_shape *shape) METRONOME_NONNULL;

/* Makes a mutator live that wasn't, with null in each slot. Returns DONE, or is refused as ALREADY_LIVE. */
metronome_answer metronome_join(metronome *heap, uint32_t mutator) METRONOME_NONNULL;

/* Sets each slot of the mutator to null; it is then no longer live. Time grows with the slots of a mutator. Returns DONE. */
metronome_answer metronome_leave(metronome *heap, uint32_t mutator) METRONOME_NONNULL;

/* Returns why a command on this slot would be refused. That is the status of metronome_clear on the slot, except that it is
 * NO_MUTATOR if there is no such mutator. Nothing is done, so at a shared heap it may be any mutator's slot. */
uint32_t metronome_check_slot(metronome *heap, uint32_t mutator, uint32_t slot) METRONOME_NONNULL;

/* ---- The collector. It needs no live mutator ---- */

/* Begins a cycle, and spends no unit. Returns OK, or BUSY if a cycle is already running. */
uint32_t metronome_begin(metronome *heap) METRONOME_NONNULL;

/* Spends units on the cycle that is running: at most `budget`, which must be 256 to 1000000. It ends when the cycle ends, or when
 * the next piece of work costs more than the rest of the budget; that rest is less than 256 units. If no cycle is running, it
 * spends none. Time grows with the units that are spent. Returns OK, with the units and the phase in *spent. Returns BAD_BUDGET if
 * the budget is out of its range. If it isn't OK, *spent stays as it was. */
uint32_t metronome_quantum(metronome *heap, uint32_t budget, metronome_spent *spent) METRONOME_NONNULL;

/* Calculates the most that a cycle takes in a heap of these settings: its units, and its quanta if each has collector_ticks * rate
 * units or more. No heap is made. Returns OK, with the result in *limit; or BAD_SCHEDULE, or BAD_SETTING plus the place of the
 * first setting that is out of its range, and *limit stays as it was. */
uint32_t metronome_cycle_limit(const metronome_settings *settings, metronome_limit *limit) METRONOME_NONNULL;

/* ---- Texts ---- */

/* Writes the English text of a metronome_status, and a 0 after it: as much of the text as fits into `length` bytes, or nothing if
 * length is 0. Programs call metronome_text. Returns how many bytes the whole text has, without the 0. */
size_t metronome_text_into(uint32_t status, char *text, size_t length) METRONOME_NONNULL;

/* Writes the text as metronome_text_into does, except that `text` may be NULL if length is 0. */
static inline size_t metronome_text(uint32_t status, char *text, size_t length) {
    char none;
    return metronome_text_into(status, length == 0 ? &none : text, length);
}

/* Returns the METRONOME_VERSION that the library was made for. */
uint32_t metronome_version(void);

#include "metronome_lists.h"
#include "metronome_figures.h"
#include "metronome_keep.h"
#include "metronome_over_calls.h"
#include "metronome_blocks.h"

#ifdef __cplusplus
}
#endif

#endif
