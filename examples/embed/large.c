/*
 * Large heaps. The same random calls on 4096, 65536 and 1048576 pages get the same answers, in cycles with and without moving.
 * A heap takes memory only for the pages that it used, and for a record of each page, even after forty million objects. 256 MB
 * of live objects are as they were made after cycles. One page more than the most is refused.
 */
#define _GNU_SOURCE
#include "metronome.h"
#include "checks.h"
#include <stdio.h>
#include <stdlib.h>
#include <sys/resource.h>

enum { SLOTS = 64, CALLS = 200000, BUDGET = 2000, MOST = 1048576, MOVED = 64, KILOBYTES = 64000, LIVE = 131072, LARGEST = 252 };

/* Each thousandth of forty million objects is kept; a cycle begins at each two millionth, and a quantum is spent at each 64th. */
enum { MADE = 40000000, KEPT = 1000, BETWEEN = 2000000, STEP = 64 };

static const int64_t PAGES[] = { 4096, 65536, MOST };

static metronome opened(int64_t pages, int64_t moved) {
    metronome heap = METRONOME_CLOSED;
    metronome_settings settings = METRONOME_SETTINGS(pages, 1, SLOTS);
    settings.defrag_below = moved ? pages + 1 : 0;
    settings.defrag_pages = moved;
    CHECK(metronome_create(&heap, &settings) == METRONOME_OK);
    return heap;
}

/* Returns a number below `most`, drawn from a state (the generator of Knuth's MMIX). */
static uint32_t drawn(uint64_t *state, uint32_t most) {
    *state = *state * 6364136223846793005u + 1442695040888963407u;
    return (uint32_t)(*state >> 33) % most;
}

/* Makes a call that a state draws. Returns its answer, in one number. */
static uint64_t call(metronome *heap, uint64_t *state) {
    uint32_t kind = drawn(state, 12), slot = drawn(state, SLOTS), other = drawn(state, SLOTS), cell = drawn(state, 40);
    metronome_answer answer;
    switch (kind) {
    case 0: case 1: answer = metronome_new_plain(heap, 0, slot, cell, drawn(state, 120)); break;
    case 2: answer = metronome_new_refs(heap, 0, slot, cell * 30); break;
    case 3: answer = metronome_new_words(heap, 0, slot, cell * cell * 40); break;
    case 4: case 5: answer = metronome_store(heap, 0, slot, cell, other); break;
    case 6: answer = metronome_load(heap, 0, slot, other, cell); break;
    case 7: case 8: answer = metronome_put(heap, 0, slot, cell, *state); break;
    case 9: answer = metronome_get(heap, 0, slot, cell); break;
    case 10: answer = metronome_same(heap, 0, slot, other); break;
    default: answer = metronome_clear(heap, 0, slot); break;
    }
    return answer.number * 16 + answer.kind;
}

/* Makes random calls, and cycles beside them. Returns all their answers in one number, with the objects left when a cycle has
   ended after them. */
static uint64_t answers_of(int64_t pages, int64_t moved, metronome_counts *counts) {
    metronome heap = opened(pages, moved);
    uint64_t state = 20261127, sum = 0;
    metronome_spent spent;
    for (int i = 0; i < CALLS; i++) {
        sum = (sum + call(&heap, &state)) * 1099511628211u;
        if (i % 20 == 0) metronome_begin(&heap);
        if (i % 4 == 0) metronome_quantum(&heap, BUDGET, &spent);
    }
    CHECK(metronome_whole_cycle(&heap, 1000000) == METRONOME_OK);
    CHECK(metronome_count(&heap, counts) == METRONOME_OK);
    metronome_destroy(&heap);
    return sum;
}

static void answers_are_the_same(int64_t moved) {
    metronome_counts first, counts;
    uint64_t sum = answers_of(PAGES[0], moved, &first);
    for (size_t i = 1; i < sizeof PAGES / sizeof *PAGES; i++) {
        CHECK(answers_of(PAGES[i], moved, &counts) == sum);
        CHECK(counts.objects == first.objects && counts.parts == first.parts);
    }
}

/* Makes a thousand objects on the largest heap, before any other heap was made. */
static void memory_is_that_of_used_pages(void) {
    struct rusage usage;
    metronome heap = opened(MOST, 0);
    for (uint32_t i = 0; i < 1000; i++) CHECK(metronome_new_plain(&heap, 0, i % SLOTS, 1, 2).kind == METRONOME_MADE);
    CHECK(getrusage(RUSAGE_SELF, &usage) == 0 && usage.ru_maxrss < KILOBYTES);
    metronome_destroy(&heap);
}

/* Returns how many of the kept objects, which an array in slot 0 holds, aren't as they were made. */
static uint32_t wrong_of_kept(metronome *heap) {
    uint32_t wrong = 0;
    for (uint32_t i = 0; i < MADE / KEPT; i++) {
        wrong += metronome_load(heap, 0, 1, 0, i).kind != METRONOME_REF;
        wrong += metronome_get(heap, 0, 1, 1).number != i;
    }
    return wrong;
}

/* Makes forty million objects on 65536 pages, before any heap used more pages. None is refused, the kept ones stay as they
 * are, and the process took memory only for the most pages that were in use at once. */
static void many_are_made(void) {
    metronome heap = opened(PAGES[1], 0);
    uint64_t free_pages = 0, least = PAGES[1];
    uint32_t wrong = 0;
    struct rusage usage;
    metronome_counts counts;
    metronome_spent spent;
    CHECK(metronome_new_refs(&heap, 0, 0, MADE / KEPT).kind == METRONOME_MADE);
    for (uint32_t i = 0; i < MADE; i++) {
        wrong += metronome_new_plain(&heap, 0, 1, 1, 2).kind != METRONOME_MADE;
        if (i % KEPT == 0) {
            wrong += metronome_put(&heap, 0, 1, 1, i / KEPT).kind != METRONOME_DONE;
            wrong += metronome_store(&heap, 0, 0, i / KEPT, 1).kind != METRONOME_DONE;
        }
        if (i % BETWEEN == 0) metronome_begin(&heap);
        if (i % STEP == 0) {
            metronome_quantum(&heap, BUDGET, &spent);
            metronome_free_pages(&heap, &free_pages);
            if (free_pages < least) least = free_pages;
        }
    }
    CHECK(wrong == 0);
    CHECK(getrusage(RUSAGE_SELF, &usage) == 0 && (uint64_t)usage.ru_maxrss < (PAGES[1] - least) * 16 + KILOBYTES);
    CHECK(metronome_clear(&heap, 0, 1).kind == METRONOME_DONE);
    CHECK(metronome_whole_cycle(&heap, BUDGET) == METRONOME_OK);
    CHECK(wrong_of_kept(&heap) == 0);
    CHECK(metronome_count(&heap, &counts) == METRONOME_OK && counts.objects == MADE / KEPT + 1);
    metronome_destroy(&heap);
}

/* Takes objects of 2 KB, to each of which an array leads, through two cycles. */
static void much_is_live(void) {
    metronome heap = opened(PAGES[1], 0);
    metronome_counts counts;
    uint32_t wrong = 0;
    CHECK(metronome_new_refs(&heap, 0, 0, LIVE).kind == METRONOME_MADE);
    for (uint32_t i = 0; i < LIVE; i++) {
        wrong += metronome_new_plain(&heap, 0, 1, 0, LARGEST).kind != METRONOME_MADE;
        wrong += metronome_put(&heap, 0, 1, LARGEST - 1, i).kind != METRONOME_DONE;
        wrong += metronome_store(&heap, 0, 0, i, 1).kind != METRONOME_DONE;
    }
    CHECK(metronome_whole_cycle(&heap, BUDGET) == METRONOME_OK);
    for (uint32_t i = 0; i < LIVE; i++) {
        wrong += metronome_load(&heap, 0, 1, 0, i).kind != METRONOME_REF;
        wrong += metronome_get(&heap, 0, 1, LARGEST - 1).number != i;
    }
    CHECK(wrong == 0);
    CHECK(metronome_count(&heap, &counts) == METRONOME_OK && counts.objects == LIVE + 1);
    metronome_destroy(&heap);
}

static void one_more_is_refused(void) {
    metronome heap = METRONOME_CLOSED;
    metronome_settings settings = METRONOME_SETTINGS(MOST + 1, 1, SLOTS);
    CHECK(metronome_create(&heap, &settings) == METRONOME_BAD_SETTING);
}

int main(void) {
    memory_is_that_of_used_pages();
    many_are_made();
    answers_are_the_same(0);
    answers_are_the_same(MOVED);
    much_is_live();
    one_more_is_refused();
    return checked();
}
