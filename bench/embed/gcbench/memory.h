/*
 * The three kinds of memory of the benchmark, by the macro MEMORY: HEAP is this heap, LIBGC libgc, MALLOC malloc and free. A tree
 * is named by a slot, or by a pointer; slots are taken in frames.
 */
#ifndef MEMORY_H
#define MEMORY_H

#include <stdint.h>
#include <stdlib.h>
#include <string.h>

#define HEAP 1
#define LIBGC 2
#define MALLOC 3

#if MEMORY == HEAP

#include "metronome.h"

/* A node has two references and two words: a block of 8 words. Half of the pages may be full before a cycle begins. */
enum { PAGES = 4096, NODE_WORDS = 8, BUDGET = 1000, ARRAY = 200, SLOTS };

typedef uint32_t tree;
typedef metronome_frame frame;

static metronome heap = METRONOME_CLOSED;
static metronome_row row = METRONOME_ROW(0, 0, ARRAY);
static metronome_pacing pacing = METRONOME_PACING(PAGES / 2, (BUDGET - 255) / 8, BUDGET);

static void need(int holds) {
    if (!holds) abort();
}

static void open_memory(void) {
    metronome_settings settings = METRONOME_SETTINGS(PAGES, 1, SLOTS);
    need(metronome_create(&heap, &settings) == METRONOME_OK);
}

static void close_memory(void) { metronome_destroy(&heap); }

static frame open_frame(void) { return metronome_open_frame(&row); }
static void close_frame(frame of) { need(metronome_close_frame(&heap, &row, of) == METRONOME_OK); }

static tree no_tree(void) {
    tree slot = 0;
    need(metronome_take_slot(&row, &slot) == METRONOME_OK);
    return slot;
}

static void make_node(tree *to) {
    need(metronome_pace(&heap, &pacing, NODE_WORDS) == METRONOME_OK);
    need(metronome_new_plain(&heap, 0, *to, 2, 2).kind == METRONOME_MADE);
}

static void set_child(tree of, uint32_t side, tree child) { metronome_store(&heap, 0, of, side, child); }
static int has_child(tree of, uint32_t side) { return metronome_load(&heap, 0, SLOTS - 2, of, side).number != 0; }
static void drop_tree(tree *it) { metronome_clear(&heap, 0, *it); }

static void make_array(uint32_t length) {
    need(metronome_pace(&heap, &pacing, length) == METRONOME_OK);
    need(metronome_new_words(&heap, 0, ARRAY, length).kind == METRONOME_MADE);
}

static void put(uint32_t i, double value) {
    uint64_t word;
    memcpy(&word, &value, sizeof word);
    metronome_put(&heap, 0, ARRAY, i, word);
}

static double get(uint32_t i) {
    uint64_t word = metronome_get(&heap, 0, ARRAY, i).number;
    double value;
    memcpy(&value, &word, sizeof value);
    return value;
}

#else

struct node {
    struct node *children[2];
    uint64_t words[2];
};

typedef struct node *tree;
typedef int frame;

static double *array;

static frame open_frame(void) { return 0; }
static void close_frame(frame of) { (void)of; }
static tree no_tree(void) { return NULL; }
static void set_child(tree of, uint32_t side, tree child) { of->children[side] = child; }
static int has_child(tree of, uint32_t side) { return of->children[side] != NULL; }
static void put(uint32_t i, double value) { array[i] = value; }
static double get(uint32_t i) { return array[i]; }

#if MEMORY == LIBGC

#include <gc.h>

static void open_memory(void) {
    GC_INIT();
    const char *incremental = getenv("INCREMENTAL");
    if (incremental != NULL && *incremental == '1') GC_enable_incremental();
}

static void close_memory(void) {}
static void make_node(tree *to) { *to = GC_MALLOC(sizeof **to); }
static void drop_tree(tree *it) { *it = NULL; }
static void make_array(uint32_t length) { array = GC_MALLOC_ATOMIC(length * sizeof *array); }

#else

static void open_memory(void) {}
static void close_memory(void) { free(array); }
static void make_node(tree *to) { *to = calloc(1, sizeof **to); }
static void make_array(uint32_t length) { array = calloc(length, sizeof *array); }

static void drop_tree(tree *it) {
    if (*it == NULL) return;
    drop_tree(&(*it)->children[0]);
    drop_tree(&(*it)->children[1]);
    free(*it);
    *it = NULL;
}

#endif
#endif
#endif
