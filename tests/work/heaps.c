#include "heaps.h"

#include <stdio.h>
#include <stdlib.h>

enum { MOVED = 14, LEAVES = 250, KEPT = 500 };

metronome heap = METRONOME_CLOSED;
int scale = 1;
bool is_shared;

void need(int holds, const char *what) {
    if (holds) return;
    fprintf(stderr, "%s\n", what);
    exit(1);
}

static uint64_t free_pages(void) {
    uint64_t pages = 0;
    metronome_free_pages(&heap, &pages);
    return pages;
}

void make(uint32_t mutator, uint32_t slot, uint32_t words) {
    need(metronome_new_plain(&heap, mutator, slot, 0, words).kind == METRONOME_MADE, "no object");
}

/* Makes an array of references in a slot. */
static void make_array(uint32_t slot, uint32_t refs) {
    need(metronome_new_refs(&heap, 0, slot, refs).kind == METRONOME_MADE, "no array");
}

/* Fills all pages except `room` with objects of 252 words, eight a page; an array leads to them, and a static to the array. */
static void fill(int pages, int room) {
    uint32_t parts = ((uint32_t)(pages - room) * 8 + LARGEST - 1) / LARGEST;
    make_array(0, parts * LARGEST);
    metronome_store_static(&heap, 0, 0, 0);
    for (uint32_t made = 0; free_pages() > (uint64_t)room || (made + parts) % 8 != 0; made++) {
        make(0, 1, LARGEST);
        metronome_store(&heap, 0, 0, made, 1);
    }
    metronome_clear(&heap, 0, 0);
    metronome_clear(&heap, 0, 1);
}

void open_heap(metronome *made, const metronome_settings *settings, const metronome_flow *plan) {
    uint32_t status;
    if (is_shared) {
        status = plan == NULL ? metronome_create_shared(made, settings, LOG) : metronome_create_shared_kept(made, settings, LOG, plan);
        if (status == METRONOME_OK) status = metronome_enter(made);
    } else {
        status = metronome_create(made, settings);
        if (status == METRONOME_OK && plan != NULL) status = metronome_keep(made, plan);
    }
    need(status == METRONOME_OK && metronome_touch(made, SIZE_MAX) == METRONOME_OK, "no heap");
}

void create(int pages, int mutators, int emptied, int room) {
    metronome_settings settings = METRONOME_SETTINGS(pages, mutators, SLOTS);
    settings.statics = 2;
    settings.defrag_below = emptied ? 4097 : 0;
    settings.defrag_pages = emptied * scale;
    open_heap(&heap, &settings, NULL);
    if (room && pages > room * scale) fill(pages, room * scale);
}

static int least(int one, int other) {
    return one < other ? one : other;
}

static void begin(void) {
    need(metronome_begin(&heap) == METRONOME_OK, "no cycle");
}

/* Goes on with the cycle that is running, to its end. */
static void finish(void) {
    metronome_spent spent;
    do need(metronome_quantum(&heap, 1000000, &spent) == METRONOME_OK, "no quantum");
    while (spent.phase != METRONOME_IDLE);
}

/* Gives each of the first `each` slots of each mutator an object of its own. */
static void fill_slots(int mutators, int each) {
    for (int i = 0; i < mutators * each; i++) make((uint32_t)(i / each), (uint32_t)(i % each), 0);
}

static void objects(int pages, int mutators) {
    create(pages, mutators, 0, SPARE);
    fill_slots(mutators < 4 ? 1 : least(mutators, 4 * scale), SLOTS);
    begin();
}

static void nulls(int pages, int mutators) {
    create(pages, mutators, 0, SPARE);
    begin();
}

/* Each mutator overwrites as many references in an array, each to an object that isn't marked. The objects to which the
 * slots of the first `scale` mutators lead aren't marked either. */
static void overwrite(int pages, int mutators, int each, int room) {
    enum { EMPTY = SLOTS - 2, ARRAY };
    uint32_t count = (uint32_t)(mutators * each);
    create(pages, mutators, 0, room);
    make_array(ARRAY, (count + LARGEST - 1) / LARGEST * LARGEST);
    metronome_store_static(&heap, 0, 1, ARRAY);
    for (uint32_t i = 0; i < count; i++) {
        make(0, EMPTY, 0);
        metronome_store(&heap, 0, ARRAY, i, EMPTY);
    }
    metronome_clear(&heap, 0, EMPTY);
    fill_slots(least(mutators, scale), EMPTY);
    for (uint32_t mutator = 1; mutator < (uint32_t)mutators; mutator++) metronome_load_static(&heap, mutator, ARRAY, 1);
    begin();
    for (uint32_t i = 0; i < count; i++) metronome_store(&heap, i / (uint32_t)each, ARRAY, i, EMPTY);
}

static void few_records(int pages, int mutators) {
    overwrite(pages, mutators, 7, SPARE);
}

static void records(int pages, int mutators) {
    overwrite(pages, mutators, RECORDS, 16);
}

/* An array of references to objects of no cells, an object each. */
static void leaves(int pages, int mutators) {
    create(pages, mutators, 0, SPARE);
    const uint32_t count = 2 * LEAVES * (uint32_t)scale;
    make_array(0, count);
    for (uint32_t i = 0; i < count; i++) {
        make(0, 1, 0);
        metronome_store(&heap, 0, 0, i, 1);
    }
    metronome_clear(&heap, 0, 1);
    begin();
}

/* A list of objects, each of which refers to the next one. */
static void list(int pages, int mutators) {
    create(pages, mutators, 0, SPARE);
    for (int i = 0; i < 2 * LEAVES * scale; i++) {
        need(metronome_new_plain(&heap, 0, 1, 1, 0).kind == METRONOME_MADE, "no object");
        metronome_store(&heap, 0, 1, 0, 0);
        metronome_copy(&heap, 0, 0, 1);
    }
    begin();
}

/* Two pages of the smallest blocks, `scale` times, of which an object in each `every` blocks is kept, and the rest not. */
static void keep_some(int every) {
    const int array = LARGEST * scale;
    make_array(0, (uint32_t)array);
    for (int page = 0, kept = 0; page < 2 * scale; page++) {
        for (int block = 0; block < PAGE_WORDS / HEADER; block++) {
            make(0, 1, 0);
            if (block % every == 0 && kept < array) metronome_store(&heap, 0, 0, (uint32_t)kept++, 1);
        }
    }
    metronome_clear(&heap, 0, 1);
}

/* References to objects that were moved: in roots and marking each is followed to the copy. */
static void moved(int pages, int mutators) {
    create(pages, mutators, 2, SPARE);
    keep_some(5);
    for (uint32_t i = 0; i < LARGEST; i++) metronome_load(&heap, 0, i + 2, 0, i);
    begin();
    finish();
    begin();
}

/* Pages of objects of `words` words, all of which are freed, except the first of each page if `keeps` says so. */
static void garbage(int pages, int mutators, int room, uint32_t words, int keeps) {
    create(pages, mutators, 0, room);
    int of_page = PAGE_WORDS / (int)(words + HEADER), used = least(pages, room * scale);
    for (int i = 0, kept = 0; i < (used - 1) * of_page; i++) {
        make(0, SLOTS - 1, words);
        if (keeps && i % of_page == 0 && kept < SLOTS - 1) metronome_copy(&heap, 0, (uint32_t)kept++, SLOTS - 1);
    }
    metronome_clear(&heap, 0, SLOTS - 1);
    begin();
}

static void small_garbage(int pages, int mutators) {
    garbage(pages, mutators, SPARE, 0, 0);
}

static void large_garbage(int pages, int mutators) {
    garbage(pages, mutators, 64, LARGEST, 0);
}

static void thinned(int pages, int mutators) {
    garbage(pages, mutators, 64, LARGEST, 1);
}

/* A heap of which each page is free. */
static void nothing(int pages, int mutators) {
    create(pages, mutators, 1, 0);
    begin();
}

/* Pages of the smallest blocks, all of which are emptied, with one object on each, in its first block or in its last. */
static void sparse(int pages, int mutators, int at) {
    create(pages, mutators, MOVED, MOVED);
    int used = least(pages, MOVED * scale);
    for (int page = 0; page < used; page++) {
        for (int block = 0; block < PAGE_WORDS / HEADER; block++) {
            make(0, SLOTS - 1, 0);
            if (block == at) metronome_copy(&heap, 0, (uint32_t)page, SLOTS - 1);
        }
    }
    metronome_clear(&heap, 0, SLOTS - 1);
    begin();
}

static void first(int pages, int mutators) {
    sparse(pages, mutators, 0);
}

static void last(int pages, int mutators) {
    sparse(pages, mutators, PAGE_WORDS / HEADER - 1);
}

/* Two pages of which one is emptied, with many blocks. */
static void halves(int pages, int mutators) {
    create(pages, mutators, 1, SPARE);
    keep_some(4);
    begin();
}

/* The objects that fill the other pages of heaps, and nothing else. */
static void full(int pages, int mutators) {
    create(pages, mutators, 0, SPARE);
    begin();
}

#define ROOTS METRONOME_ROOTS
#define MARKING METRONOME_MARKING
#define SWEEPING METRONOME_SWEEPING
#define MOVING METRONOME_MOVING

const struct kind kinds[] = {
    { "full", "pages full of objects of 252 words", ROOTS, SWEEPING, 512, full },
    { "objects", "an object in each slot", ROOTS, ROOTS, 4, objects },
    { "few_records", "an object in each slot, and 7 records of each mutator", ROOTS, ROOTS, 4, few_records },
    { "records", "an object in each slot, and 64 records of each mutator", ROOTS, ROOTS, 16, records },
    { "nulls", "null in each slot", ROOTS, ROOTS, 4, nulls },
    { "leaves", "an array of references", MARKING, MARKING, 4, leaves },
    { "list", "a list", MARKING, MARKING, 4, list },
    { "moved", "objects that were moved", ROOTS, MARKING, 4, moved },
    { "small_garbage", "blocks of 4 words, all freed", SWEEPING, SWEEPING, 4, small_garbage },
    { "large_garbage", "blocks of 256 words, all freed", SWEEPING, SWEEPING, 64, large_garbage },
    { "thinned", "blocks of 256 words, all freed except one of each page", SWEEPING, SWEEPING, 64, thinned },
    { "nothing", "free pages", SWEEPING, MOVING, 512, nothing },
    { "first", "pages with 4 words each, in the first block", MOVING, MOVING, 14, first },
    { "last", "pages with 4 words each, in the last block", MOVING, MOVING, 14, last },
    { "halves", "pages with 128 blocks of 4 words, half of them emptied", MOVING, MOVING, 4, halves },
    { 0, 0, 0, 0, 0, 0 },
};
