/*
 * metronome_lists.h: calls that do a list of commands. A part of metronome.h, which includes it.
 *
 * Each of these calls does several commands of one mutator in order, as if each were called, and stops at the first that is
 * refused. It returns the progress. The statuses are those of the commands. A call may name at most 252 cells. If it names more,
 * the status is TOO_LARGE and nothing is done. Time grows with the number of commands.
 */
#include "metronome.h" /* before all else: it includes the other parts, which need this one */

#ifndef METRONOME_LISTS_H
#define METRONOME_LISTS_H

/* How many commands of a list were done. */
typedef struct metronome_progress {
    uint32_t done;   /* how many commands were done */
    uint32_t status; /* OK if all were done; else why the next one was refused */
} metronome_progress;

/* Does metronome_clear on `count` slots, from slot `first` on. */
metronome_progress metronome_clear_slots(metronome *heap, uint32_t mutator, uint32_t first, uint32_t count) METRONOME_NONNULL;

/* Does metronome_copy from slot src to slot dst, and then metronome_clear on src, unless both are the same slot. */
metronome_progress metronome_move(metronome *heap, uint32_t mutator, uint32_t dst, uint32_t src) METRONOME_NONNULL;

/* Does metronome_get on `count` word cells of slot obj's object, from cell `first` on. The words go to words[0], words[1] and so
 * on. If a cell is not read, its word keeps its old value. Programs call metronome_get_words. */
metronome_progress metronome_get_words_into(metronome *heap, uint32_t mutator, uint32_t obj, uint32_t first, uint64_t *words,
                                            size_t count) METRONOME_NONNULL;

/* Does the same, except that `words` may be NULL if count is 0. */
static inline metronome_progress metronome_get_words(metronome *heap, uint32_t mutator, uint32_t obj, uint32_t first,
                                                     uint64_t *words, size_t count) {
    uint64_t none;
    return metronome_get_words_into(heap, mutator, obj, first, count == 0 ? &none : words, count);
}

/* Does metronome_put on `count` word cells of slot obj's object, from cell `first` on, with words[0], words[1] and so on. Programs
 * call metronome_put_words. */
metronome_progress metronome_put_words_from(metronome *heap, uint32_t mutator, uint32_t obj, uint32_t first, const uint64_t *words,
                                            size_t count) METRONOME_NONNULL;

/* Does the same, except that `words` may be NULL if count is 0. */
static inline metronome_progress metronome_put_words(metronome *heap, uint32_t mutator, uint32_t obj, uint32_t first,
                                                     const uint64_t *words, size_t count) {
    const uint64_t none = 0;
    return metronome_put_words_from(heap, mutator, obj, first, count == 0 ? &none : words, count);
}

/* Copies `count` references from slot from's object to slot to's object, from cells from_first and to_first on, in rising order.
 * For each it does two commands: metronome_load into slot `through`, and metronome_store from there. Slot `through` then holds the
 * last reference that was loaded. */
metronome_progress metronome_copy_refs(metronome *heap, uint32_t mutator, uint32_t through, uint32_t from, uint32_t from_first,
                                       uint32_t to, uint32_t to_first, uint32_t count) METRONOME_NONNULL;

/* Makes an object with its first contents. It does metronome_new_plain into slot dst. Then it does metronome_store from slots[0],
 * slots[1] and so on into the reference cells, from cell 0 on. Last it does metronome_put of contents[0] and so on into the word
 * cells, from cell 0 on. The other cells stay null and 0. If dst is among the slots, it names the new object. Programs call
 * metronome_new_with. */
metronome_progress metronome_new_from(metronome *heap, uint32_t mutator, uint32_t dst, uint32_t refs, uint32_t words,
                                      const uint32_t *slots, size_t slot_count, const uint64_t *contents,
                                      size_t word_count) METRONOME_NONNULL;

/* Does the same, except that a pointer may be NULL if its count is 0. */
static inline metronome_progress metronome_new_with(metronome *heap, uint32_t mutator, uint32_t dst, uint32_t refs, uint32_t words,
                                                    const uint32_t *slots, size_t slot_count, const uint64_t *contents,
                                                    size_t word_count) {
    const uint32_t no_slot = 0;
    const uint64_t no_word = 0;
    return metronome_new_from(heap, mutator, dst, refs, words, slot_count == 0 ? &no_slot : slots, slot_count,
                              word_count == 0 ? &no_word : contents, word_count);
}

#endif
