/*
 * metronome_keep.h: plans. If a heap keeps a plan, its collector paces itself so that no new object is refused for lack of space.
 * This header is a part of metronome.h, which includes it.
 *
 * For example, this program has at most 183200 live words:
 *
 *     metronome_settings settings = METRONOME_SETTINGS_MOVING(300, 1, 16);
 *     metronome_flow plan;
 *     if (metronome_plan(&settings, 183200, &plan) != METRONOME_OK) return 1;
 *     if (metronome_create(&heap, &settings) != METRONOME_OK || metronome_keep(&heap, &plan) != METRONOME_OK) return 1;
 *
 * If it makes arrays of 1000 cells too, it asks for a plan with room for them:
 *
 *     if (metronome_plan_for(&settings, 183200, METRONOME_ARRAY_WORDS(1000), &plan) != METRONOME_OK) return 1;
 */
#include "metronome.h" /* before all else: it includes the other parts, which need this one */

#ifndef METRONOME_KEEP_H
#define METRONOME_KEEP_H

/* The settings of METRONOME_SETTINGS, except that moving follows each sweep and may empty all pages. A plan needs such settings. */
#define METRONOME_SETTINGS_MOVING(pages, mutators, slots) \
    { (pages), (mutators), (slots), 0, INT64_MAX, (pages) + 1, (pages), 10, 12, 100, (mutators) }

/* A plan: how many words of blocks may be made while the collector works.
 *
 * Words are counted by blocks. A block holds a part of an object, with its header of four words, and is at most an eighth larger
 * than both. METRONOME_PLAIN_WORDS, METRONOME_ARRAY_WORDS and metronome_block_words calculate the words of an object. */
typedef struct metronome_flow {
    uint64_t live_words;    /* The program must keep live objects within this many words whenever a cycle begins */
    uint64_t quantum_words; /* At most this many words are made for each quantum of a cycle */
    uint64_t cycle_words;   /* At most this many words are made from one cycle's beginning to the next. An object
                             * with more can't be made */
    uint64_t least_pages;   /* The fewest pages that have such a plan; 0 if no number of pages has one */
    uint32_t budget;        /* How many units a quantum has: collector_ticks * rate of the settings */
} metronome_flow;

/* The work that the collector did because a plan required it. A figure that reaches 2^64 - 1 stays there. */
typedef struct metronome_work {
    uint64_t quanta;
    uint64_t cycles;      /* how many cycles were begun */
    uint64_t most_quanta; /* the most quanta that one call spent: for a new object, or by metronome_prepare */
} metronome_work;

/* Calculates a plan for a heap of these settings, in which live objects take at most live_words words of blocks whenever a cycle
 * begins. The plan has as many words for a cycle as fit with its words for a quantum, and they last until a whole cycle has ended.
 * Among these plans it has the most words for a quantum. The settings must move as METRONOME_SETTINGS_MOVING does. No heap is made.
 * Time grows with the budget and with least_pages: all smaller numbers of pages are tried, or all 1048576 if none has a plan.
 *
 * Returns OK, with the plan in *flow. Returns NO_PLAN if no plan fits and lasts, not every cycle moves, or a cycle may not empty
 * all pages; quantum_words and cycle_words are then 0. Returns BAD_SCHEDULE, or BAD_SETTING plus the place of the first setting
 * that is out of its range, and *flow stays as it was. */
uint32_t metronome_plan(const metronome_settings *settings, uint64_t live_words, metronome_flow *flow) METRONOME_NONNULL;

/* Calculates a plan as metronome_plan does, of those that leave room for an object of largest_words words of blocks. In exchange it
 * may have fewer words for a quantum. least_pages is the fewest pages that have a plan with this room. */
uint32_t metronome_plan_for(const metronome_settings *settings, uint64_t live_words, uint64_t largest_words,
                            metronome_flow *flow) METRONOME_NONNULL;

/* Returns the words of the blocks that an object takes, with its headers, as a plan counts them. The kind is METRONOME_PLAIN,
 * METRONOME_REF_ARRAY or METRONOME_WORD_ARRAY. An array of references has no words, and an array of words no references: the other
 * number is ignored. Returns 0 if no object has the shape, since it is too large or there is no such kind. No heap is needed. */
uint64_t metronome_block_words(uint32_t kind, uint32_t refs, uint32_t words);

/* The same as constants. A plain object of n cells, references and words together, takes METRONOME_PLAIN_WORDS(n) words, for n of
 * at most 252. For example, METRONOME_PLAIN_WORDS(2) is 6. An array of n cells takes METRONOME_ARRAY_WORDS(n) words, for n of at
 * most 4000000. These macros evaluate n several times. */
#define METRONOME_PLAIN_WORDS(n) METRONOME_BLOCK_OF((n) + 4)
#define METRONOME_ARRAY_WORDS(n) \
    (METRONOME_RUN_WORDS(n) + ((n) > 252 ? METRONOME_SPINE_WORDS(((n) + 251) / 252) : 0))

/* Parts of these macros. A block for n words has the least of the 38 sizes that is large enough. A run of n cells lies in blocks of
 * 252 cells each, and in one for the rest. The spines of n pieces have a cell for each. */
#define METRONOME_RUN_WORDS(n) \
    (256 * ((n) / 252) + ((n) % 252 > 0 || (n) == 0 ? METRONOME_BLOCK_OF((n) % 252 + 4) : 0))
#define METRONOME_SPINE_WORDS(n) \
    (METRONOME_RUN_WORDS(n) + ((n) > 252 ? METRONOME_BLOCK_OF(((n) + 251) / 252 + 4) : 0))
#define METRONOME_BLOCK_OF(n) \
    ((n) <= 4 ? 4 : (n) <= 16 ? (n) : (n) <= 18 ? 18 : (n) <= 20 ? 20 : (n) <= 22 ? 22 : (n) <= 24 ? 24 \
    : (n) <= 27 ? 27 : (n) <= 30 ? 30 : (n) <= 33 ? 33 : (n) <= 37 ? 37 : (n) <= 41 ? 41 : (n) <= 46 ? 46 \
    : (n) <= 51 ? 51 : (n) <= 57 ? 57 : (n) <= 64 ? 64 : (n) <= 72 ? 72 : (n) <= 81 ? 81 : (n) <= 91 ? 91 \
    : (n) <= 102 ? 102 : (n) <= 114 ? 114 : (n) <= 128 ? 128 : (n) <= 144 ? 144 : (n) <= 162 ? 162 \
    : (n) <= 182 ? 182 : (n) <= 204 ? 204 : (n) <= 229 ? 229 : 256)

/* Makes the heap keep a plan from here on. Before each new object the collector begins a cycle or spends quanta of the plan's
 * budget. It does as much as the plan requires for that object, and no more.
 *
 * PROMISE. If live objects keep within live_words whenever a cycle begins, then no object is refused for lack of space. This is
 * proved for all commands, lists of commands, begins, quanta and calls of metronome_prepare that follow, if the heap was just made,
 * or made and touched. It isn't proved if mutators joined before, or if pages are touched later. At a shared heap it is proved for
 * the calls of all handles together.
 *
 * PAUSES. If live objects keep within live_words whenever a cycle begins, a call waits for few quanta. This is proved for the same
 * calls on a heap of its own, and not at a shared heap:
 *   * A new object of at most quantum_words words waits for at most one quantum.
 *   * A new object of w words waits for at most 2 * ceil(w / quantum_words) - 1 quanta. If the plan has room for it
 *     (metronome_plan_for), it waits for at most ceil(w / quantum_words).
 *   * If objects of w words in all are made, they wait for at most ceil(w / quantum_words) quanta together, if the plan has room
 *     for the largest of them.
 *   * A call that asks for no object waits for no quantum, except metronome_quantum and metronome_prepare, for one.
 * An object of more than cycle_words words is refused as ABOVE_PLAN, and nothing is done. An object that is refused for another
 * reason, except TOO_LARGE, counts as one that is made: the collector works before it, too.
 *
 * OTHER CALLS. The program may still call metronome_begin and metronome_quantum. A quantum of the plan's budget or more counts for
 * the plan. If the program begins a cycle, live objects must keep within live_words there too.
 *
 * WHICH HEAPS. The heap must be new, and made with the settings that the plan was calculated for. Its pages may have been touched
 * and mutators may have joined, but no page may have been used and no cycle begun. A shared heap gets its plan when it is made
 * (metronome_create_shared_kept).
 *
 * Returns OK. Returns NO_PLAN, and changes nothing, if the heap isn't such a heap, if its settings have another budget or don't
 * move as METRONOME_SETTINGS_MOVING does, or if the plan doesn't fit in the heap or doesn't last. It lasts if quantum_words is 1 or
 * more, and a cycle has as many words for each quantum that it takes at most. Plans of metronome_plan and metronome_plan_for last.
 * Returns IS_SHARED on each handle at a shared heap. */
uint32_t metronome_keep(metronome *heap, const metronome_flow *flow) METRONOME_NONNULL;

/* Stores in *work the work that the collector did because the plan required it, since it is kept. Returns OK. Returns NO_PLAN if
 * the heap keeps none. If it isn't OK, *work stays as it was. */
uint32_t metronome_kept(metronome *heap, metronome_work *work) METRONOME_NONNULL;

/* Makes the collector work ahead, for new objects that take `words` words of blocks in all. A call does at most one piece of the
 * work that they require: it begins a cycle, or spends one quantum of the plan's budget. It stores in *left how many more such
 * calls are needed at most.
 *
 * PROMISE. If *left is 0, then new objects of at most `words` words in all wait for no quantum, until the program begins a cycle.
 * It begins one by metronome_begin, or by a later metronome_prepare. If the plan has room for `words` (metronome_plan_for), and
 * live objects keep within live_words whenever a cycle begins, then *left more calls in a row suffice. Both are proved for the
 * calls for which metronome_keep promises room.
 *
 * For example, a control loop prepares in its idle time for the objects of its next period:
 *
 *     uint64_t left = 1;
 *     while (left > 0 && is_idle() && metronome_prepare(&heap, PERIOD_WORDS, &left) == METRONOME_OK) {}
 *
 * metronome_kept counts this work too.
 *
 * Returns OK. Returns ABOVE_PLAN if `words` is more than cycle_words, or NO_PLAN if the heap keeps none. If it isn't OK, nothing
 * changes, and *left stays as it was. */
uint32_t metronome_prepare(metronome *heap, uint64_t words, uint64_t *left) METRONOME_NONNULL;

#endif
