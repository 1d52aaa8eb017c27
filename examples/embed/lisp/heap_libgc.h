/*
 * heap_libgc.h: the memory of the Lisp on libgc, which finds roots in the variables of C. heap.h includes it. C's stack limits
 * how deep an evaluation goes.
 */
#ifndef HEAP_LIBGC_H
#define HEAP_LIBGC_H

#include <gc.h>
#include <stddef.h>
#include <stdlib.h>

enum { IS_RECORDED = 0 };

static const char *const MEMORY = "libgc";

typedef struct object {
    enum kind kind;
    uint64_t number;
    struct object *refs[];
} *root;

/* libgc needs no frames and no rows. */
typedef int frame;
typedef int root_row;

extern root statics[STATICS];

static inline void open_heap(void) {
    const char *incremental = getenv("INCREMENTAL");
    GC_INIT();
    if (incremental != NULL && *incremental == '1') GC_enable_incremental();
}

static inline void close_heap(void) {}

static inline frame open_frame(void) { return 0; }
static inline void close_frame(frame it) { (void)it; }
static inline root local(void) { return NULL; }
static inline int are_all_frames_closed(void) { return 1; }
static inline int has_room(void) { return 1; }
static inline root_row go_deeper(void) { return 0; }
static inline void come_back(root_row outer) { (void)outer; }

static inline void copy(root *to, root from) { *to = from; }
static inline void clear(root *to) { *to = NULL; }
static inline int same(root a, root b) { return a == b; }
static inline void load_static(root *to, uint32_t which) { *to = statics[which]; }
static inline void store_static(uint32_t which, root from) { statics[which] = from; }

static inline enum kind kind_of(root it) { return it == NULL ? NIL : it->kind; }
static inline uint64_t number_of(root it) { return it->number; }
static inline void load(root *to, root from, uint32_t i) { *to = from->refs[i]; }
static inline void store(root to, uint32_t i, root from) { to->refs[i] = from; }

/* Makes an object with `refs` references; the first ones lead to what `count` roots name. */
static inline void new_object(root *to, enum kind kind, uint64_t number, uint32_t refs, const root *first, uint32_t count) {
    size_t size = sizeof **to + refs * sizeof *first;
    root new = refs == 0 ? GC_MALLOC_ATOMIC(size) : GC_MALLOC(size);
    if (new == NULL) fail("no memory");
    new->kind = kind;
    new->number = number;
    for (uint32_t i = 0; i < count; i++) new->refs[i] = first[i];
    *to = new;
}

/* Makes an object that has only references, as many as are asked for. */
static inline void new_array(root *to, uint32_t refs) { new_object(to, NIL, 0, refs, NULL, 0); }

#endif
