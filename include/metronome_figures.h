/*
 * metronome_figures.h: figures of a heap. A part of metronome.h, which includes it.
 *
 * These calls need no live mutator. Each stores its figures through its last pointer and returns OK. If it returns another status,
 * it stores nothing.
 */
#include "metronome.h" /* before all else: it includes the other parts, which need this one */

#ifndef METRONOME_FIGURES_H
#define METRONOME_FIGURES_H

typedef struct metronome_counts {
    uint64_t pages;
    uint64_t free_pages;
    uint64_t root_cells; /* slots of all mutators, and statics */
    uint64_t roots_used; /* root cells that don't hold null */
    uint64_t objects;    /* objects in the heap: the reachable ones, and garbage that isn't freed yet */
    uint64_t parts;      /* the parts of these objects */
    uint64_t old_copies; /* blocks that were moved and aren't freed yet */
} metronome_counts;

/* A page: 2048 words in blocks of one size. Each number of a free page is 0. */
typedef struct metronome_page_view {
    uint32_t size;      /* the words of a block; the page has 2048 / size of them */
    uint32_t held;      /* the blocks that hold parts of objects, or old copies of parts */
    uint32_t leaving;   /* 1 if its blocks are being moved away, and it gets no new ones */
    uint32_t receiving; /* 1 if a block was moved to it since the last sweep */
} metronome_page_view;

/* The figures of one cycle. */
typedef struct metronome_cycle {
    uint64_t number;      /* its number, counted from 1 */
    uint64_t quanta;      /* the quanta that found it running */
    uint64_t units;       /* the units that they spent */
    uint64_t longest;     /* the most units that one of them spent */
    uint64_t free_before; /* the free pages when it began */
    uint64_t free_after;  /* the free pages when it had ended */
} metronome_cycle;

/* Stores the phase, a metronome_phase_number. */
uint32_t metronome_phase(metronome *heap, uint32_t *phase) METRONOME_NONNULL;

/* Stores the units spent since the last cycle began. */
uint32_t metronome_units(metronome *heap, uint64_t *units) METRONOME_NONNULL;

/* Stores the number of free pages. */
uint32_t metronome_free_pages(metronome *heap, uint64_t *free_pages) METRONOME_NONNULL;

/* Counts the pages, roots, objects and parts. Time grows with the heap's size, since it looks at each block. */
uint32_t metronome_count(metronome *heap, metronome_counts *counts) METRONOME_NONNULL;

/* Stores the figures of the last cycle that ended, or zeros if none has. For a log, call it after a quantum that ended in
 * METRONOME_IDLE, or, if the heap keeps a plan, after a new object or a metronome_prepare. */
uint32_t metronome_last_cycle(metronome *heap, metronome_cycle *cycle) METRONOME_NONNULL;

/* Stores the figures of page `number`, counted from 0. A page that doesn't exist is reported as free. */
uint32_t metronome_page(metronome *heap, size_t number, metronome_page_view *page) METRONOME_NONNULL;

#endif
