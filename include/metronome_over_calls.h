/*
 * metronome_over_calls.h: frames of slots, a whole cycle, and a pace for the collector. metronome.h includes it. It is plain C over
 * the calls of metronome.h, and nothing of it is proved. Its functions may also return the statuses that all calls have.
 */
#include "metronome.h" /* before all else: it includes the other parts, which need this one */

#ifndef METRONOME_OVER_CALLS_H
#define METRONOME_OVER_CALLS_H

/* ---- Frames: slots that are taken and given back like a stack ---- */

/* A row of slots of one mutator. The slots from `next` to `end - 1` are free and hold null. Nothing else may write to free slots. */
typedef struct metronome_row {
    uint32_t mutator;
    uint32_t next;
    uint32_t end;
} metronome_row;

/* The row of slots `first` to `end - 1` of a mutator, none of them taken. For example, 0 and the setting `slots` make a row of all. */
#define METRONOME_ROW(mutator, first, end) { (mutator), (first), (end) }

/* A frame: the number of the first slot that is taken in it, if one is taken. */
typedef uint32_t metronome_frame;

/* Opens a frame, and returns it. Slots that are taken from now on belong to it, except while a later frame is open. */
METRONOME_NONNULL static inline metronome_frame metronome_open_frame(const metronome_row *row) {
    return row->next;
}

/* Takes the next slot of the row, which holds null, and stores its number in *slot. Returns OK, or SLOTS_USED if no slot is left;
 * the row and *slot then stay as they were. Close a frame first, or make the heap with more slots (256 at most). */
METRONOME_NONNULL static inline uint32_t metronome_take_slot(metronome_row *row, uint32_t *slot) {
    if (row->next >= row->end) return METRONOME_SLOTS_USED;
    *slot = row->next++;
    return METRONOME_OK;
}

/* Closes a frame, and all frames that were opened after it. Sets each of their slots to null; the slots are then free again. To
 * keep an object, copy it into a slot of an outer frame first. If no slot was taken since the frame was opened, nothing is done.
 * Time grows with the slots that are freed. Returns OK; or NOT_LIVE, NO_MUTATOR, or BAD_SLOT if the row has slots that the mutator
 * doesn't have, and all slots stay taken. If it is BAD_SLOT, some of them may be null now. */
METRONOME_NONNULL static inline uint32_t metronome_close_frame(metronome *heap, metronome_row *row, metronome_frame frame) {
    if (row->next <= frame) return METRONOME_OK;
    metronome_progress progress = metronome_clear_slots(heap, row->mutator, frame, row->next - frame);
    if (progress.status == METRONOME_BAD_SLOT) return metronome_check_slot(heap, row->mutator, frame + progress.done);
    if (progress.status == METRONOME_OK) row->next = frame;
    return progress.status;
}

/* ---- The collector, paced by the words that are made ---- */

/* Ends the cycle that is running, if one is, and does two more, in quanta of `budget` units. The first of the two frees all objects
 * that are unreachable now. The second frees the pages that the first emptied by moving. It spends at most three times the units of
 * a cycle (metronome_cycle_limit). Returns OK, or BAD_BUDGET if the budget isn't 256 to 1000000.
 *
 * A program with a deadline uses metronome_pace instead. A program without one does this if a new object is refused:
 *
 *     metronome_answer answer = metronome_new_plain(&heap, 0, slot, 1, 2);
 *     if (answer.kind == METRONOME_REFUSED && answer.number == METRONOME_NO_SPACE
 *         && metronome_whole_cycle(&heap, 100000) == METRONOME_OK)
 *         answer = metronome_new_plain(&heap, 0, slot, 1, 2);
 */
METRONOME_NONNULL static inline uint32_t metronome_whole_cycle(metronome *heap, uint32_t budget) {
    metronome_spent spent = { 0, METRONOME_IDLE };
    uint32_t phase = METRONOME_IDLE;
    uint32_t status = metronome_phase(heap, &phase);
    for (int ends = phase == METRONOME_IDLE; ends < 3 && status == METRONOME_OK; ends += spent.phase == METRONOME_IDLE) {
        status = metronome_begin(heap);
        if (status == METRONOME_OK || status == METRONOME_BUSY) status = metronome_quantum(heap, budget, &spent);
    }
    return status;
}

/* A pace: it says how often the collector works, measured in words that the program makes. At a shared heap one serves all handles:
 * it is used only in turns, and counts the words that all of them make. */
typedef struct metronome_pacing {
    uint64_t begin_below; /* If fewer pages than this are free, a cycle begins. With a value above `pages`, one is always running */
    uint64_t words;       /* A quantum is due each time that this many words were made: 1 or more */
    uint32_t budget;      /* How many units a quantum has: 256 to 1000000 */
    uint64_t owed;        /* How many words were made since the last quantum; 0 at first */
} metronome_pacing;

#define METRONOME_PACING(begin_below, words, budget) { (begin_below), (words), (budget), 0 }

/* Counts `words` words that are about to be made, and lets the collector work if they reach the pace. A program calls it before
 * each new object, unless its heap keeps a plan. An object of n cells takes n + 4 words. An array takes 4 more words for each 252
 * of its cells, and the words of its spines (docs/MANUAL.md).
 *
 * Each time that the pace's number of words is reached, this call begins a cycle if none is running and fewer than begin_below
 * pages are free. If a cycle is running then, it spends a quantum on it. It takes no longer than a quantum, except if more words
 * come at once than the pace has for one: a large array may need many quanta.
 *
 * HOW TO CHOOSE THE NUMBERS. The budget is the longest pause of the collector, in units (docs/EMBEDDING.md, "A budget for a
 * pause"). In short, take a budget of 1000 or more, objects of a few sizes, no moving, and at most half of the pages live. Then use
 * words = (budget - 255) / 20 and begin_below = pages. For example, 64 pages and a budget of 1000 need 37 and 64.
 *
 * In general, there are three numbers:
 *
 *   * Q is the most quanta that a cycle takes (metronome.h has the formula).
 *   * L is how many blocks of a size live objects need.
 *   * B is how many blocks of that size may be made between two quanta: those for which `words` have room, and those of one more
 *     object. If that object is an array, all its pieces count.
 *
 * No object is refused for lack of space if begin_below pages have room for two things: L + (2 * Q + 1) * B blocks of each size,
 * and 1 + defrag_pages more pages of each size. Both rules are calculated for the worst program, and the short one is slow. They
 * are tested, not proved. docs/EMBEDDING.md says how a recording finds a program's own numbers, and what is proved of them ("A pace
 * by hand").
 *
 * Returns OK; or BAD_BUDGET if pacing->words is 0, or if a quantum is due and its budget isn't 256 to 1000000. */
METRONOME_NONNULL static inline uint32_t metronome_pace(metronome *heap, metronome_pacing *pacing, uint64_t words) {
    if (pacing->words == 0) return METRONOME_BAD_BUDGET;
    for (pacing->owed += words; pacing->owed >= pacing->words; pacing->owed -= pacing->words) {
        metronome_spent spent;
        uint32_t phase = METRONOME_IDLE;
        uint64_t free_pages = 0;
        uint32_t status = metronome_phase(heap, &phase);
        if (status == METRONOME_OK) status = metronome_free_pages(heap, &free_pages);
        if (status != METRONOME_OK) return status;
        if (phase == METRONOME_IDLE && free_pages >= pacing->begin_below) {
            pacing->owed %= pacing->words;
            return METRONOME_OK;
        }
        if (phase == METRONOME_IDLE) metronome_begin(heap);
        status = metronome_quantum(heap, pacing->budget, &spent);
        if (status != METRONOME_OK) return status;
    }
    return METRONOME_OK;
}

#endif
