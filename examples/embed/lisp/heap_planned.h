/*
 * heap_planned.h: the memory of the Lisp on this heap, which keeps a plan. heap.h includes it. If the program is built with
 * -DRECORDED, its heap is a shared one, whose turn it keeps, and which is recorded into lisp.toml, lisp.trace and lisp.history.
 */
#ifndef HEAP_PLANNED_H
#define HEAP_PLANNED_H

#ifndef RECORDED
#define RECORDED 0
#endif

#include "metronome_record.h"

enum { IS_RECORDED = RECORDED };

/* LIVE is the most words that may be live when a cycle begins. The last slot of each mutator is for an object that is made. From
 * one new object to the next there are at most LOG events. */
enum { PAGES = 256, LIVE = 60000, MUTATORS = 32, OF_ROW = 255, NEW = OF_ROW, SLOTS, LOG = 1 << 16 };

static const char *const MEMORY = "this heap";

typedef uint32_t root;
typedef metronome_frame frame;
typedef metronome_row root_row;

extern metronome heap;
extern metronome_recording recording;

/* The row of slots that is used now, of one mutator. Deeper evaluations use those of the next mutator. */
extern metronome_row row;

/* Prints why a call was refused, and ends the program. */
_Noreturn static inline void fail_for(uint32_t status) {
    char text[128];
    metronome_text(status, text, sizeof text);
    fail(text);
}

static inline void need(uint32_t status) {
    if (status != METRONOME_OK) fail_for(status);
}

/* Returns the number of an answer, which must be of this kind. */
static inline uint64_t ask(metronome_answer answer, uint32_t kind) {
    if (answer.kind == METRONOME_REFUSED) fail_for((uint32_t)answer.number);
    if (answer.kind != kind) fail("the heap gave an answer of another kind");
    return answer.number;
}

static inline void open_heap(void) {
    metronome_settings settings = METRONOME_SETTINGS_MOVING(PAGES, MUTATORS, SLOTS);
    metronome_flow plan;
    settings.statics = STATICS;
    need(metronome_plan(&settings, LIVE, &plan));
    if (IS_RECORDED) {
        metronome_record_begin(&recording, &settings, fopen("lisp.toml", "w"), fopen("lisp.trace", "w"), fopen("lisp.history", "w"));
        need(metronome_create_shared_kept(&heap, &settings, LOG, &plan));
        need(metronome_enter(&heap));
    } else {
        need(metronome_create(&heap, &settings));
        need(metronome_keep(&heap, &plan));
    }
}

/* Records the events that are new, if the heap is recorded. */
static inline void record(void) {
    if (IS_RECORDED && (!metronome_record(&recording, &heap) || recording.lost > 0)) fail("the heap isn't recorded");
}

static inline void close_heap(void) {
    record();
    metronome_destroy(&heap);
}

/* ---- Roots: slots of a row ---- */

static inline frame open_frame(void) { return metronome_open_frame(&row); }
static inline void close_frame(frame it) { need(metronome_close_frame(&heap, &row, it)); }

static inline root local(void) {
    root slot = 0;
    need(metronome_take_slot(&row, &slot));
    return slot;
}

static inline int are_all_frames_closed(void) { return row.next == 0 && row.mutator == 0; }

static inline int has_room(void) { return row.end - row.next >= ROOTS_A_LEVEL; }

/* Goes on to the next mutator's slots; returns the row that was used before. */
static inline root_row go_deeper(void) {
    root_row outer = row, next = METRONOME_ROW(outer.mutator + 1, 0, OF_ROW);
    if (next.mutator == MUTATORS) fail("the evaluation is too deep");
    row = next;
    return outer;
}

static inline void come_back(root_row outer) { row = outer; }

static inline void copy(root *to, root from) { ask(metronome_copy(&heap, row.mutator, *to, from), METRONOME_DONE); }
static inline void clear(root *to) { ask(metronome_clear(&heap, row.mutator, *to), METRONOME_DONE); }
static inline int same(root a, root b) { return (int)ask(metronome_same(&heap, row.mutator, a, b), METRONOME_IS); }

static inline void load_static(root *to, uint32_t which) {
    ask(metronome_load_static(&heap, row.mutator, *to, which), METRONOME_REF);
}

static inline void store_static(uint32_t which, root from) {
    ask(metronome_store_static(&heap, row.mutator, which, from), METRONOME_DONE);
}

/* ---- Objects ---- */

static inline enum kind kind_of(root it) {
    metronome_answer word = metronome_get(&heap, row.mutator, it, 0);
    if (word.kind == METRONOME_REFUSED && word.number == METRONOME_NULL_SLOT) return NIL;
    return (enum kind)ask(word, METRONOME_WORD);
}

static inline uint64_t number_of(root it) { return ask(metronome_get(&heap, row.mutator, it, 1), METRONOME_WORD); }

static inline void load(root *to, root from, uint32_t i) {
    ask(metronome_load(&heap, row.mutator, *to, from, i), METRONOME_REF);
}

static inline void store(root to, uint32_t i, root from) {
    ask(metronome_store(&heap, row.mutator, to, i, from), METRONOME_DONE);
}

/* Makes an object with `refs` references; the first ones lead to what `count` roots name. *to may be one of these: then the
 * object is made in another slot. */
static inline void new_object(root *to, enum kind kind, uint64_t number, uint32_t refs, const root *first, uint32_t count) {
    const uint64_t words[] = { kind, number };
    root new = count == 0 ? *to : NEW;
    record();
    need(metronome_new_with(&heap, row.mutator, new, refs, 2, first, count, words, 2).status);
    if (new != *to) need(metronome_move(&heap, row.mutator, *to, new).status);
}

/* Makes an object that has only references, as many as are asked for. */
static inline void new_array(root *to, uint32_t refs) {
    record();
    ask(metronome_new_refs(&heap, row.mutator, *to, refs), METRONOME_MADE);
}

#endif
