/*
 * metronome_check.h: looks for places where a program in C has written over the memory of a heap, for tests. It is plain C over the
 * calls of metronome.h, and nothing of it is proved. metronome.h doesn't include it.
 *
 * It walks over all pages and blocks, and returns the first oddity. It follows no reference, so an overwritten one doesn't lead it
 * astray. docs/ARCHITECTURE.md ("A block") has the words of a header. It sees these oddities:
 *
 *   * Word 0, by which a block says that it is used or moved: A free block looks used, or a used one looks free. A block looks
 *     moved, but its page isn't being emptied, or no other block has a copy.
 *   * Word 1: No object has such a shape, or no such part. The part doesn't fit the blocks of its page. Another part of the object
 *     has another shape.
 *   * Word 2: The identity is 0, or that of another object. One part of an array has another identity than the others.
 *
 * It does NOT see these:
 *
 *   * Memory of the heap that is in no page, as its slots, its statics and the table of pages.
 *   * The cells of objects, and where their references lead.
 *   * Word 3, which links free blocks, and parts that are still to be scanned.
 *   * The colour and the unused bits of word 1.
 *   * An identity that no other object has, in an object of one part.
 *   * While a cycle sweeps: an array that lacks a part, and a moved block that lacks its copy. The sweep frees them one by one.
 */
#ifndef METRONOME_CHECK_H
#define METRONOME_CHECK_H

#include "metronome.h"
#include "metronome_blocks.h"
#include <stdlib.h>

/* An oddity, and where it is: its page, the block of that page, both from 0, and the block's address. An address counts words of 8
 * bytes from the first page on. */
typedef struct metronome_oddity {
    const char *text; /* in English; NULL if there is none */
    size_t page;
    size_t block;
    uint64_t address;
} metronome_oddity;

/* A block that holds a part, and where it lies. */
typedef struct metronome_checked {
    metronome_block_view view;
    size_t page;
    size_t block;
    uint64_t address;
} metronome_checked;

/* The state of one call, with the blocks that hold parts. */
typedef struct metronome_checking {
    metronome *heap;
    metronome_oddity *oddity;
    metronome_checked *blocks;
    size_t count;
} metronome_checking;

/* Returns how many spines the object has: parts that refer to other parts. They come first. */
static inline uint32_t metronome_check_spines(uint32_t cells) {
    return cells <= 252 ? 0 : cells <= 252 * 252 ? 1 : ((cells + 251) / 252 + 251) / 252 + 1;
}

/* Returns how many parts an object of this many cells has. */
static inline uint32_t metronome_check_parts(uint32_t cells) {
    return metronome_check_spines(cells) + (cells == 0 ? 1 : (cells + 251) / 252);
}

/* Returns how many cells a part has. */
static inline uint32_t metronome_check_cells(uint32_t cells, uint32_t part) {
    const uint32_t spines = metronome_check_spines(cells), pieces = metronome_check_parts(cells) - spines;
    if (part == 0 && spines > 0) return spines == 1 ? pieces : spines - 1;
    const uint32_t all = part < spines ? pieces : cells, before = 252 * (part < spines ? part - 1 : part - spines);
    return all - before < 252 ? all - before : 252;
}

/* Returns what is odd in a block by itself, on a page of blocks of this size, or NULL. */
METRONOME_NONNULL static inline const char *metronome_check_block(const metronome_page_view *page,
                                                                  const metronome_block_view *view) {
    const uint32_t cells = view->shape.refs + view->shape.words;
    const int plain = view->shape.kind == METRONOME_PLAIN;
    if (cells < view->shape.refs || cells > (plain ? 252u : 4000000u)) return "word 1: no object has such a shape";
    if (view->part >= metronome_check_parts(cells)) return "word 1: an object of this shape has no such part";
    if (METRONOME_PLAIN_WORDS(metronome_check_cells(cells, view->part)) != page->size)
        return "word 1: the part doesn't fit the blocks of the page";
    if (view->identity == 0 || view->identity > INT64_MAX) return "word 2: no object has this identity";
    if (view->old && !page->leaving) return "word 0: the block looks moved, on a page that isn't being emptied";
    return NULL;
}

/* Notes an oddity, if the text isn't NULL and it is the first one. */
static inline void metronome_check_note(metronome_checking *it, const char *text, size_t page, size_t block, uint64_t address) {
    const metronome_oddity oddity = { text, page, block, address };
    if (text != NULL && it->oddity->text == NULL) *it->oddity = oddity;
}

/* Keeps the blocks of a page that hold parts, and notes what is odd in them. */
METRONOME_NONNULL static inline void metronome_check_blocks(metronome_checking *it, size_t number,
                                                            const metronome_page_view *page) {
    uint32_t held = 0;
    for (size_t block = 0; block < 2048 / page->size; block++) {
        metronome_checked *at = &it->blocks[it->count];
        metronome_block(it->heap, number, block, &at->view);
        if (!at->view.held) continue;
        at->page = number;
        at->block = block;
        at->address = 2048 * number + block * page->size;
        metronome_check_note(it, metronome_check_block(page, &at->view), number, block, at->address);
        it->count++;
        held++;
    }
    const char *text = NULL;
    if (held < page->held) text = "word 0: a block of this page looks free, and isn't";
    if (held > page->held) text = "word 0: a block of this page looks used, and is free";
    metronome_check_note(it, text, number, 0, 2048 * number);
}

/* The order of blocks: by identity, then by part; a moved block follows its copy. */
static inline int metronome_check_order(const void *one, const void *other) {
    const metronome_block_view *a = &((const metronome_checked *)one)->view, *b = &((const metronome_checked *)other)->view;
    if (a->identity != b->identity) return a->identity < b->identity ? -1 : 1;
    if (a->part != b->part) return a->part < b->part ? -1 : 1;
    return (int)a->old - (int)b->old;
}

/* Returns what is odd in a block beside the one before it in the order, which is NULL for the first, or NULL. */
static inline const char *metronome_check_beside(const metronome_checked *before, const metronome_checked *at, int sweeping) {
    const int same = before != NULL && before->view.identity == at->view.identity;
    const metronome_shape *a = &at->view.shape, *b = same ? &before->view.shape : a;
    if (a->kind != b->kind || a->refs != b->refs || a->words != b->words)
        return "word 1: another part of the object has another shape";
    if (same && before->view.part == at->view.part) {
        return at->view.old ? NULL : "word 2: another block holds the same part of the same object";
    }
    if (sweeping) return NULL;
    if (at->view.old) return "word 0: the block looks moved, and has no copy elsewhere";
    return at->view.part != (same ? before->view.part + 1 : 0) ? "word 2: the object lacks the part before this one" : NULL;
}

/* Notes what is odd in blocks beside others. */
METRONOME_NONNULL static inline void metronome_check_objects(metronome_checking *it) {
    uint32_t phase = METRONOME_IDLE;
    metronome_phase(it->heap, &phase);
    qsort(it->blocks, it->count, sizeof *it->blocks, metronome_check_order);
    for (size_t i = 0; i < it->count; i++) {
        const metronome_checked *at = &it->blocks[i];
        const char *text = metronome_check_beside(i > 0 ? at - 1 : NULL, at, phase == METRONOME_SWEEPING);
        metronome_check_note(it, text, at->page, at->block, at->address);
    }
}

/* Looks at all pages and blocks of a heap, and stores the first oddity in *oddity, or NULL as its text if it sees none. It takes
 * memory from malloc for a short time, and changes nothing. Time grows with the size of the heap.
 *
 * Returns OK, or leaves *oddity as it was and returns NO_MEMORY, or a status that all calls have. */
METRONOME_NONNULL static inline uint32_t metronome_check(metronome *heap, metronome_oddity *oddity) {
    metronome_counts counts;
    const metronome_oddity none = { NULL, 0, 0, 0 };
    const uint32_t status = metronome_count(heap, &counts);
    if (status != METRONOME_OK) return status;
    metronome_checking it = { heap, oddity, NULL, 0 };
    it.blocks = (metronome_checked *)malloc((size_t)(counts.parts + counts.old_copies + 1) * sizeof *it.blocks);
    if (it.blocks == NULL) return METRONOME_NO_MEMORY;
    *oddity = none;
    for (size_t number = 0; number < counts.pages && oddity->text == NULL; number++) {
        metronome_page_view page;
        metronome_page(heap, number, &page);
        if (page.size != 0) metronome_check_blocks(&it, number, &page);
    }
    if (oddity->text == NULL) metronome_check_objects(&it);
    free(it.blocks);
    return METRONOME_OK;
}

#endif
