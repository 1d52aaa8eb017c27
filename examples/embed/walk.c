/*
 * A walk over the objects of a heap: in each phase of a cycle, with and without moving, and of arrays in parts, it meets each object
 * that lies there once, with its identity and shape; which of some identities lie there; a block by its number.
 */
#include "checks.h"
#include "kinds.h"
#include <stdio.h>
#include <string.h>

/* A quantum has fewer units than there are roots, and than the array has cells: so quanta end in each phase. */
enum { PAGES = 64, SLOTS = 64, STATICS = 256, CELLS = 1000, MADE = 3000, BUDGET = 300 };

/* The shapes that were made, by identity, and how often a walk met each. */
static metronome_shape made[MADE + 1];
static unsigned char met[MADE + 1];

static uint32_t drawn(uint64_t *state, uint32_t most) {
    *state = *state * 6364136223846793005u + 1442695040888963407u;
    return (uint32_t)(*state >> 33) % most;
}

static metronome opened(int64_t moved) {
    metronome heap = METRONOME_CLOSED;
    metronome_settings settings = METRONOME_SETTINGS(PAGES, 1, SLOTS);
    settings.statics = STATICS;
    settings.defrag_below = moved ? PAGES + 1 : 0;
    settings.defrag_pages = moved;
    CHECK(make_heap(&heap, &settings) == METRONOME_OK);
    return heap;
}

/* An object of a drawn shape into a drawn slot, but the first. */
static void make(metronome *heap, uint64_t *state) {
    const uint32_t slot = 1 + drawn(state, SLOTS - 1), cells = drawn(state, 20);
    metronome_shape shape = { drawn(state, 40) ? METRONOME_PLAIN : METRONOME_WORD_ARRAY, 0, cells };
    metronome_answer answer;
    if (shape.kind == METRONOME_PLAIN) {
        shape.refs = drawn(state, 3);
        answer = metronome_new_plain(heap, 0, slot, shape.refs, shape.words);
    } else {
        shape.words = 200 * cells;
        answer = metronome_new_words(heap, 0, slot, shape.words);
    }
    CHECK(answer.kind == METRONOME_MADE && answer.number <= MADE);
    made[answer.number] = shape;
}

/* One walk: how many objects it met. Each has the shape that it was made with, and is met once. */
static uint64_t walked(metronome *heap) {
    metronome_walk walk = METRONOME_WALK(PAGES);
    metronome_block_view object;
    uint64_t count = 0, wrong = 0;
    memset(met, 0, sizeof met);
    while (metronome_next_object(heap, &walk, &object) == METRONOME_OK && object.held) {
        const metronome_shape *shape = &made[object.identity];
        wrong += met[object.identity]++ != 0;
        wrong += object.shape.kind != shape->kind || object.shape.refs != shape->refs || object.shape.words != shape->words;
        count++;
    }
    CHECK(wrong == 0 && object.held == 0);
    return count;
}

/* All objects of slots were met, and what present says is what the walk met. */
static void tells_what_lies_there(metronome *heap) {
    static uint64_t identities[MADE];
    static unsigned char present[MADE];
    metronome_counts counts;
    metronome_shape shape;
    uint32_t wrong = 0;
    CHECK(metronome_count(heap, &counts) == METRONOME_OK && walked(heap) == counts.objects);
    for (uint32_t slot = 0; slot < SLOTS; slot++) {
        const metronome_answer answer = metronome_describe(heap, 0, slot, &shape);
        wrong += answer.kind == METRONOME_DESCRIBED && !met[answer.number];
    }
    for (uint64_t i = 0; i < MADE; i++) identities[i] = i + 1;
    CHECK(metronome_find_present(heap, PAGES, identities, present, MADE) == METRONOME_OK);
    CHECK(wrong == 0 && memcmp(present, met + 1, MADE) == 0);
}

static void walks_in_each_phase(int64_t moved) {
    metronome heap = opened(moved);
    uint64_t state = 20261128;
    unsigned phases = 0;
    metronome_spent spent = { 0, METRONOME_IDLE };
    made[1] = (metronome_shape){ METRONOME_REF_ARRAY, CELLS, 0 };
    CHECK(metronome_new_refs(&heap, 0, 0, CELLS).number == 1);
    for (int i = 1; i < MADE; i++) {
        make(&heap, &state);
        if (spent.phase == METRONOME_IDLE) metronome_begin(&heap);
        CHECK(metronome_quantum(&heap, BUDGET, &spent) == METRONOME_OK);
        if (i % 10 == 0 || !(phases >> spent.phase & 1)) tells_what_lies_there(&heap);
        phases |= 1u << spent.phase;
    }
    CHECK(phases == (moved ? 31 : 15));
    CHECK(metronome_whole_cycle(&heap, BUDGET) == METRONOME_OK);
    tells_what_lies_there(&heap);
    metronome_destroy(&heap);
}

/* The second of two objects on a page, and what there isn't. */
static void blocks_are_told(void) {
    metronome heap = opened(0);
    const metronome_block_view none = { 0, { 0, 0, 0 }, 0, 0, 0 };
    metronome_block_view block = { 7, { 7, 7, 7 }, 7, 7, 7 };
    metronome_walk walk = METRONOME_WALK(PAGES);
    CHECK(metronome_new_plain(&heap, 0, 0, 1, 2).number == 1 && metronome_new_plain(&heap, 0, 1, 3, 0).number == 2);
    CHECK(metronome_block(&heap, 0, 1, &block) == METRONOME_OK && block.identity == 2 && block.shape.refs == 3);
    CHECK(block.shape.kind == METRONOME_PLAIN && block.shape.words == 0 && block.part == 0 && block.held == 1 && block.old == 0);
    CHECK(metronome_block(&heap, 0, 2, &block) == METRONOME_OK && memcmp(&block, &none, sizeof none) == 0);
    CHECK(metronome_block(&heap, PAGES, 0, &block) == METRONOME_OK && memcmp(&block, &none, sizeof none) == 0);
    CHECK(metronome_block(&heap, 0, SIZE_MAX, &block) == METRONOME_OK && memcmp(&block, &none, sizeof none) == 0);
    metronome_destroy(&heap);
    CHECK(metronome_next_object(&heap, &walk, &block) == METRONOME_NO_HEAP);
    CHECK(metronome_find_present(&heap, PAGES, &block.identity, (unsigned char *)&block.part, 1) == METRONOME_NO_HEAP);
}

int main(void) {
    FOR_EACH_KIND {
        walks_in_each_phase(0);
        walks_in_each_phase(PAGES);
        blocks_are_told();
    }
    return checked();
}
