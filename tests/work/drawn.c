/* Heaps that are drawn. */
#include "heaps.h"

static uint64_t state;

/* The next number below another, of a xorshift generator. */
static uint32_t below(uint32_t end) {
    state ^= state << 13;
    state ^= state >> 7;
    state ^= state << 17;
    return (uint32_t)((state >> 16) % end);
}

/* One of a few sizes of objects, so that pages fill. */
static uint32_t cells(void) {
    static const uint32_t some[] = { 0, 0, 0, 1, 2, 4, 8, 12, 28, 60, 124, LARGEST };
    return some[below(sizeof some / sizeof *some)];
}

/* A new object in a drawn slot of a drawn mutator; now and then a reference to another, or an array. */
static void step(uint32_t mutators, uint32_t slots, uint32_t size) {
    uint32_t mutator = below(mutators), slot = below(slots), other = below(slots);
    switch (below(16)) {
    case 0: metronome_new_refs(&heap, mutator, slot, below(3000)); break;
    case 1: metronome_new_plain(&heap, mutator, slot, cells(), 0); break;
    case 2:
    case 3:
    case 4: metronome_store(&heap, mutator, slot, below(8), other); break;
    case 5: metronome_clear(&heap, mutator, slot); break;
    case 6: metronome_load(&heap, mutator, slot, other, below(8)); break;
    default: metronome_new_plain(&heap, mutator, slot, size && below(2), size); break;
    }
}

/* A page, or some, of objects of one size, of which each `every`-th is kept in an array. */
static void runs(uint32_t pages) {
    uint32_t size = cells(), every = 1 + below(600), count = (1 + below(pages)) * (PAGE_WORDS / (size + HEADER)), kept = 0;
    if (metronome_new_refs(&heap, 0, 0, count / every + 1).kind != METRONOME_MADE) return;
    for (uint32_t i = 0; i < count; i++) {
        if (metronome_new_plain(&heap, 0, 1, 0, size).kind != METRONOME_MADE) break;
        if (i % every == every - 1) metronome_store(&heap, 0, 0, kept++, 1);
    }
    metronome_copy(&heap, 0, 2 + below(SLOTS - 2), 0);
}

void draw(uint64_t seed) {
    static const int32_t sizes[] = { 4, 8, 14, 20, 32, 64, 64, 256, 4096 };
    state = (seed + 1) * 0x9e3779b97f4a7c15u;
    for (int i = 0; i < 8; i++) below(2);
    int pages = sizes[below(sizeof sizes / sizeof *sizes)], mutators = below(2) ? 1 : 1 + (int)below(64);
    create(pages, mutators, below(3) ? 1 + (int)below(20) : 0, pages > 256 ? 64 : 0);
    uint32_t used = (uint32_t)(pages > 64 ? 64 : pages);
    for (uint32_t cycles = below(3), round = 0; round <= cycles; round++) {
        for (uint32_t i = below(6); i > 0; i--) runs(used / 2);
        for (uint32_t i = below(8000), size = cells(); i > 0; i--) step((uint32_t)mutators, SLOTS, below(4) ? size : cells());
        need(metronome_begin(&heap) == METRONOME_OK, "no cycle");
        for (uint32_t i = below(5) * 1000; i > 0; i--) step((uint32_t)mutators, SLOTS, 0);
        metronome_spent spent = { 0, round == cycles ? METRONOME_IDLE : METRONOME_ROOTS };
        while (spent.phase != METRONOME_IDLE) metronome_quantum(&heap, 100000, &spent);
    }
}
