/*
 * The floor: what calls of the heap cost at least. A heap by hand in C, unproved and with no collector, whose calls look at the
 * same things and write the same words as the library's of the same names (include/metronome.h, whose answers it gives): who is
 * live, slots, null, kinds of cells and their bounds, the forwarding word, what is recorded while a cycle is on, identities and
 * room.
 */
#ifndef FLOOR_H
#define FLOOR_H

#include "metronome.h"

#define LIKELY(test) __builtin_expect(!!(test), 1)
#define UNLIKELY(test) __builtin_expect(!!(test), 0)
#define APART __attribute__((noinline))

enum { PAGE_WORDS = 2048, MOST_PAGES = 4096, CLASSES = 38, PART_CELLS = 252, SLOTS = 256, MUTATORS = 64, RECORDS = 64 };

/* A bit for each page, and one for each word of them that isn't 0. */
struct pages_row {
    uint64_t words[MOST_PAGES / 64];
    uint64_t summary;
};

/* A page in use: its first free block by its reference, how many of its blocks are held, and how many it has. */
struct page {
    uint32_t first;
    uint16_t held;
    uint16_t blocks;
};

/* The records of a mutator. */
struct records {
    uint32_t count;
    uint64_t references[RECORDS];
};

/*
 * A block has four words before its cells: the address to which it forwards, its header, its identity and a link. A reference is
 * an address plus one, and 0 is null. A header has the kind in its lowest two bits, the colour in the next, and from bit 8 on
 * the cells of an array, or the reference cells and from bit 16 on the word cells of an object.
 */
typedef struct floor_heap {
    uint64_t *words;
    uint64_t *slots;             /* SLOTS for each mutator */
    uint32_t room[MUTATORS];     /* how many slots a mutator has if it is live, else 0 */
    uint64_t next;               /* the identity of the next object */
    uint64_t identities;         /* the greatest one */
    bool records;                /* whether overwritten references are recorded */
    uint8_t colour;              /* the colour of new objects */
    uint32_t grey;               /* the first recorded block that is still to be looked at */
    uint32_t free_pages;
    uint32_t free_blocks[CLASSES];
    uint8_t class_of[PART_CELLS + 1]; /* by the number of cells */
    struct pages_row usable[CLASSES]; /* pages of a class that have a free block */
    struct pages_row free;
    struct page pages[MOST_PAGES];
    struct records recorded[MUTATORS];
} floor_heap;

/* Makes a heap of `pages` pages with `mutators` live mutators; NULL if there is no memory. */
floor_heap *floor_create(uint32_t pages, uint32_t mutators);

/* Begins a cycle: overwritten references are recorded from then on. */
void floor_begin(floor_heap *heap);

metronome_answer floor_new_plain(floor_heap *heap, uint32_t mutator, uint32_t dst, uint32_t refs, uint32_t words);
metronome_answer floor_new_refs(floor_heap *heap, uint32_t mutator, uint32_t dst, uint32_t refs); /* at most PART_CELLS */
metronome_answer floor_load(floor_heap *heap, uint32_t mutator, uint32_t dst, uint32_t obj, uint32_t i);
metronome_answer floor_store(floor_heap *heap, uint32_t mutator, uint32_t obj, uint32_t i, uint32_t src);
metronome_answer floor_compare_store(floor_heap *heap, uint32_t mutator, uint32_t obj, uint32_t i, uint32_t expect,
                                     uint32_t replacement);
metronome_answer floor_get(floor_heap *heap, uint32_t mutator, uint32_t obj, uint32_t i);
metronome_answer floor_put(floor_heap *heap, uint32_t mutator, uint32_t obj, uint32_t i, uint64_t word);
metronome_answer floor_clear(floor_heap *heap, uint32_t mutator, uint32_t dst);
metronome_answer floor_same(floor_heap *heap, uint32_t mutator, uint32_t a, uint32_t b);

#endif
