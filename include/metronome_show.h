/*
 * metronome_show.h: writes the objects to which a slot leads as text, for debugging. It is plain C over the calls of metronome.h,
 * and nothing of it is proved. metronome.h doesn't include it.
 *
 * For example, a slot that leads to a ring of two objects, shown two references deep:
 *
 *     #1 plain, refs 1, words 2: 7 8
 *       0: #2 plain, refs 2, words 0
 *         0: #1 above
 *         1: null
 *
 * Each object has a line with its identity, its kind, the numbers of its cells, and its words. A line for each reference follows.
 * If the references of an object were written before, its line is "#1 above", so rings end. If they lie too deep, "deeper" stands
 * in their place; also if METRONOME_SHOW_OBJECTS objects were written. ".." stands for cells behind the first METRONOME_SHOW_CELLS
 * of a kind. A program may define both numbers before it includes this header.
 *
 * The calls change nothing that a program sees: each slot in use, cell and object stays. They may be made in any phase of a cycle.
 * They load references into slots of a row that aren't taken, and set these to null again.
 */
#ifndef METRONOME_SHOW_H
#define METRONOME_SHOW_H

#include "metronome.h"
#include "metronome_over_calls.h"
#include <inttypes.h>
#include <stdarg.h>
#include <stdio.h>

#ifndef METRONOME_SHOW_CELLS
#define METRONOME_SHOW_CELLS 16
#endif

#ifndef METRONOME_SHOW_OBJECTS
#define METRONOME_SHOW_OBJECTS 1000
#endif

/* The state of one call: the fields belong to the functions below. */
typedef struct metronome_showing {
    metronome *heap;
    metronome_row *row;
    FILE *file;                             /* the file for the text; NULL if it goes to a buffer */
    char *text;                             /* the buffer */
    size_t length;                          /* how many bytes the buffer has */
    size_t written;                         /* how many bytes the text has */
    uint32_t depth;                         /* how many references deep the text goes */
    uint64_t shown[METRONOME_SHOW_OBJECTS]; /* the objects whose references were written */
    size_t count;                           /* how many these are */
} metronome_showing;

/* Writes a piece of the text. */
#ifdef __GNUC__
__attribute__((format(printf, 2, 3)))
#endif
static inline void metronome_show_text(metronome_showing *it, const char *format, ...) {
    const size_t left = it->written < it->length ? it->length - it->written : 0;
    va_list values;
    va_start(values, format);
    char *const at = left > 0 ? it->text + it->written : NULL;
    const int bytes = it->file ? vfprintf(it->file, format, values) : vsnprintf(at, left, format, values);
    va_end(values);
    if (bytes > 0) it->written += (size_t)bytes;
}

/* Writes the first words of a slot's object. */
static inline uint32_t metronome_show_words(metronome_showing *it, uint32_t slot, uint32_t words) {
    uint32_t status = METRONOME_OK;
    if (words > 0) metronome_show_text(it, ":");
    for (uint32_t i = 0; i < words && i < METRONOME_SHOW_CELLS && status == METRONOME_OK; i++) {
        const metronome_answer answer = metronome_get(it->heap, it->row->mutator, slot, i);
        if (answer.kind == METRONOME_WORD) metronome_show_text(it, " %" PRIu64, answer.number);
        else status = (uint32_t)answer.number;
    }
    if (words > METRONOME_SHOW_CELLS) metronome_show_text(it, " ..");
    return status;
}

/* Returns whether the references of an object were written before. */
static inline bool metronome_show_again(const metronome_showing *it, uint64_t identity) {
    size_t i = 0;
    while (i < it->count && it->shown[i] != identity) i++;
    return i < it->count;
}

/* Writes the first line of a slot's object, up to its words. */
static inline uint32_t metronome_show_head(metronome_showing *it, uint32_t slot, uint64_t identity,
                                           const metronome_shape *shape) {
    metronome_show_text(it, "#%" PRIu64 "%s", identity, shape->kind == METRONOME_PLAIN ? " plain" : " array");
    if (shape->kind != METRONOME_WORD_ARRAY) metronome_show_text(it, ", refs %" PRIu32, shape->refs);
    if (shape->kind != METRONOME_REF_ARRAY) metronome_show_text(it, ", words %" PRIu32, shape->words);
    return metronome_show_words(it, slot, shape->words);
}

static inline uint32_t metronome_show_object(metronome_showing *it, uint32_t slot, uint32_t level);

/* Writes the references of a slot's object, each with the object to which it leads. */
static inline uint32_t metronome_show_refs(metronome_showing *it, uint32_t slot, uint32_t refs, uint32_t level) {
    const metronome_frame frame = metronome_open_frame(it->row);
    uint32_t through = 0, status = metronome_take_slot(it->row, &through);
    for (uint32_t i = 0; i < refs && i < METRONOME_SHOW_CELLS && status == METRONOME_OK; i++) {
        const metronome_answer answer = metronome_load(it->heap, it->row->mutator, through, slot, i);
        metronome_show_text(it, "%*s%" PRIu32 ": ", (int)(2 * level + 2), "", i);
        status = answer.kind == METRONOME_REF ? metronome_show_object(it, through, level + 1) : (uint32_t)answer.number;
    }
    if (refs > METRONOME_SHOW_CELLS) metronome_show_text(it, "%*s..\n", (int)(2 * level + 2), "");
    const uint32_t closed = metronome_close_frame(it->heap, it->row, frame);
    return status == METRONOME_OK ? closed : status;
}

/* Writes the object of a slot, or null. It lies `level` references below the first one. */
static inline uint32_t metronome_show_object(metronome_showing *it, uint32_t slot, uint32_t level) {
    metronome_shape shape = { METRONOME_PLAIN, 0, 0 };
    const metronome_answer answer = metronome_describe(it->heap, it->row->mutator, slot, &shape);
    if (answer.kind != METRONOME_DESCRIBED) {
        if (answer.number != METRONOME_NULL_SLOT) return (uint32_t)answer.number;
        metronome_show_text(it, "null\n");
        return METRONOME_OK;
    }
    const bool again = shape.refs > 0 && metronome_show_again(it, answer.number);
    const bool deeper = shape.refs > 0 && (level == it->depth || it->count == METRONOME_SHOW_OBJECTS);
    if (again) {
        metronome_show_text(it, "#%" PRIu64 " above\n", answer.number);
        return METRONOME_OK;
    }
    const uint32_t status = metronome_show_head(it, slot, answer.number, &shape);
    metronome_show_text(it, deeper ? " deeper\n" : "\n");
    if (status != METRONOME_OK || deeper || shape.refs == 0) return status;
    it->shown[it->count++] = answer.number;
    return metronome_show_refs(it, slot, shape.refs, level);
}

/* Writes the text of a call to a file or a buffer. */
static inline uint32_t metronome_show_from(metronome *heap, metronome_row *row, uint32_t slot, uint32_t depth,
                                           metronome_showing *it) {
    it->heap = heap;
    it->row = row;
    it->depth = depth;
    it->written = it->count = 0;
    if (it->length > 0) it->text[0] = 0;
    const uint32_t status = metronome_check_slot(heap, row->mutator, slot);
    if (status != METRONOME_OK) return status;
    return row->end - row->next < depth ? (uint32_t)METRONOME_SLOTS_USED : metronome_show_object(it, slot, 0);
}

/* Writes what a slot of the row's mutator holds to a file: the object, and those to which it leads, `depth` references deep. It
 * takes `depth` slots of the row, and gives them back. For example, METRONOME_ROW(0, 60, 64) has mutator 0's last four of 64 slots,
 * which the program leaves alone. If the program keeps its slots in a row, that row does.
 *
 * Returns OK. Returns SLOTS_USED if fewer slots of the row are left, or NO_MUTATOR, NOT_LIVE, BAD_SLOT or NO_HEAP; nothing is
 * written then. If the row has slots that the mutator doesn't have, it returns BAD_SLOT after the first lines. */
METRONOME_NONNULL static inline uint32_t metronome_show(metronome *heap, metronome_row *row, uint32_t slot, uint32_t depth,
                                                        FILE *file) {
    metronome_showing it;
    it.file = file;
    it.text = NULL;
    it.length = 0;
    return metronome_show_from(heap, row, slot, depth, &it);
}

/* Writes the same text to a buffer, and a 0 after it: as much as fits into `length` bytes, or nothing if length is 0. Stores in
 * *whole how many bytes the whole text has, without the 0. Returns the same statuses. */
METRONOME_NONNULL static inline uint32_t metronome_show_into(metronome *heap, metronome_row *row, uint32_t slot, uint32_t depth,
                                                             char *text, size_t length, size_t *whole) {
    metronome_showing it;
    it.file = NULL;
    it.text = text;
    it.length = length;
    const uint32_t status = metronome_show_from(heap, row, slot, depth, &it);
    *whole = it.written;
    return status;
}

#endif
