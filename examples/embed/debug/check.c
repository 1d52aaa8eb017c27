/*
 * Tests include/metronome_check.h. It must see nothing odd in heaps of random programs, in each phase of cycles, with
 * and without moving. Then words of a page are overwritten by hand, one after the other, and it must return each with
 * its place. The program is linked with --wrap=malloc: the words of a heap are the largest piece of memory that it asks
 * for.
 */
#include "metronome_check.h"
#include <stdio.h>
#include <string.h>

enum { PAGES = 64, SLOTS = 64, BUDGET = 300, CELLS = 1000, STEPS = 3000 };

/* The words of the heap that was made last; whether malloc refuses. */
static uint64_t *words;
static int refuses;

void *__real_malloc(size_t size);
void *__wrap_malloc(size_t size);

void *__wrap_malloc(size_t size) {
    void *at = refuses ? NULL : __real_malloc(size);
    if (size == (size_t)PAGES * 2048 * sizeof(uint64_t)) words = (uint64_t *)at;
    return at;
}

static int passed, failed;

static void check(int holds, int line) {
    if (holds) {
        passed++;
    } else {
        failed++;
        fprintf(stderr, "failed: line %d\n", line);
    }
}

#define CHECK(holds) check(holds, __LINE__)

static metronome opened(int64_t moved) {
    metronome heap = METRONOME_CLOSED;
    metronome_settings settings = METRONOME_SETTINGS(PAGES, 3, SLOTS);
    settings.statics = 256;
    settings.live = 2;
    settings.defrag_below = moved ? PAGES + 1 : 0;
    settings.defrag_pages = moved;
    words = NULL;
    CHECK(metronome_create(&heap, &settings) == METRONOME_OK && words != NULL);
    return heap;
}

/* Prints an oddity that isn't expected. */
static int sees_nothing(metronome *heap) {
    metronome_oddity oddity;
    const uint32_t status = metronome_check(heap, &oddity);
    if (status == METRONOME_OK && oddity.text != NULL)
        fprintf(stderr, "page %zu, block %zu, word %zu: %s\n", oddity.page, oddity.block, (size_t)oddity.address, oddity.text);
    return status == METRONOME_OK && oddity.text == NULL;
}

static uint32_t drawn(uint64_t *state, uint32_t most) {
    *state = *state * 6364136223846793005u + 1442695040888963407u;
    return (uint32_t)(*state >> 33) % most;
}

/* A new object of a random shape, or a reference that is overwritten. */
static void step(metronome *heap, uint64_t *state) {
    const uint32_t mutator = drawn(state, 2), slot = drawn(state, SLOTS), cells = drawn(state, 20);
    switch (drawn(state, 8)) {
    case 0: metronome_new_words(heap, mutator, slot, 100 * cells); break;
    case 1: metronome_new_refs(heap, mutator, slot, 100 * cells); break;
    case 2:
    case 3: metronome_store(heap, mutator, slot, drawn(state, 4), drawn(state, SLOTS)); break;
    default: metronome_new_plain(heap, mutator, slot, drawn(state, 5), cells); break;
    }
}

static void sees_nothing_in_right_heaps(int64_t moved) {
    metronome heap = opened(moved);
    uint64_t state = 20261130;
    unsigned phases = 0, wrong = 0;
    metronome_spent spent = { 0, METRONOME_IDLE };
    for (int i = 0; i < STEPS; i++) {
        step(&heap, &state);
        if (spent.phase == METRONOME_IDLE) metronome_begin(&heap);
        metronome_quantum(&heap, BUDGET, &spent);
        wrong += !sees_nothing(&heap);
        phases |= 1u << spent.phase;
    }
    CHECK(wrong == 0 && phases == (moved ? 31 : 15));
    metronome_destroy(&heap);
}

/* A word that is overwritten: a word of a block on the first page of its size; the new word; the text that is told. Block 5 was
 * freed, and block 6 is unused. */
static const struct overwritten {
    uint32_t size, block, word;
    uint64_t by;
    const char *text;
} all_overwritten[] = {
    { 7, 0, 0, UINT64_MAX, "word 0: a block of this page looks free, and isn't" },
    { 7, 5, 0, 35, "word 0: a block of this page looks used, and is free" },
    { 7, 6, 0, 42, "word 1: the part doesn't fit the blocks of the page" },
    { 7, 1, 0, 2048, "word 0: the block looks moved, on a page that isn't being emptied" },
    { 7, 1, 1, 0x00ffff00, "word 1: no object has such a shape" },
    { 7, 1, 1, 1 + 256 * 5000000ull, "word 1: no object has such a shape" },
    { 7, 1, 1, 0x070100, "word 1: the part doesn't fit the blocks of the page" },
    { 7, 1, 1, 1ull << 32 | 0x020100, "word 1: an object of this shape has no such part" },
    { 7, 1, 2, 0, "word 2: no object has this identity" },
    { 7, 1, 2, UINT64_MAX, "word 2: no object has this identity" },
    { 7, 1, 2, 1, "word 2: another block holds the same part of the same object" },
    { 256, 1, 2, 77, "word 2: the object lacks the part before this one" },
    { 256, 1, 1, 3ull << 32 | (2 + 256 * 1008), "word 1: another part of the object has another shape" },
};

/* Makes objects of three cells in slots 0 to 4 of mutator 0, one more that is freed, and an array in slot 5. */
static void fill(metronome *heap) {
    for (uint32_t slot = 0; slot < 6; slot++) CHECK(metronome_new_plain(heap, 0, slot, 1, 2).number == slot + 1);
    CHECK(metronome_new_words(heap, 0, 5, CELLS).kind == METRONOME_MADE);
    CHECK(metronome_whole_cycle(heap, BUDGET) == METRONOME_OK);
}

/* Returns the first page whose blocks have this size. */
static size_t page_of(metronome *heap, uint32_t size) {
    metronome_page_view view;
    size_t page = 0;
    while (page < PAGES && metronome_page(heap, page, &view) == METRONOME_OK && view.size != size) page++;
    return page;
}

static void sees_overwritten_words(void) {
    metronome heap = opened(0);
    metronome_oddity oddity;
    fill(&heap);
    for (size_t i = 0; i < sizeof all_overwritten / sizeof *all_overwritten; i++) {
        const struct overwritten *it = &all_overwritten[i];
        const size_t page = page_of(&heap, it->size);
        uint64_t *word = words + 2048 * page + it->size * it->block + it->word, kept = *word;
        CHECK(page < PAGES && sees_nothing(&heap));
        *word = it->by;
        memset(&oddity, 0, sizeof oddity);
        CHECK(metronome_check(&heap, &oddity) == METRONOME_OK && oddity.text != NULL);
        CHECK(oddity.text != NULL && strcmp(oddity.text, it->text) == 0);
        *word = kept;
    }
    CHECK(sees_nothing(&heap));
    metronome_destroy(&heap);
}

/* A buffer that is written beyond its end into the header of any used block is seen. */
static void sees_overruns(void) {
    metronome heap = opened(0);
    metronome_oddity oddity;
    fill(&heap);
    const size_t page = page_of(&heap, 7);
    uint64_t kept[4], *header;
    for (uint32_t block = 0; block < 5; block++) {
        header = words + 2048 * page + 7 * block;
        memcpy(kept, header, sizeof kept);
        memset(header, 'A', sizeof kept);
        CHECK(metronome_check(&heap, &oddity) == METRONOME_OK && oddity.text != NULL);
        CHECK(oddity.page == page && oddity.block == block && oddity.address == 2048 * page + 7 * block);
        memcpy(header, kept, sizeof kept);
        CHECK(sees_nothing(&heap));
    }
    metronome_destroy(&heap);
}

/* Between cycles the copy of a moved block gets another identity: the moved block then has none. */
static void sees_lost_copies(void) {
    metronome heap = opened(PAGES);
    metronome_oddity oddity;
    metronome_block_view view = { 0, { 0, 0, 0 }, 0, 0, 0 };
    size_t block = 0;
    for (uint32_t i = 0; i < 700; i++) metronome_new_plain(&heap, 0, i % 100 == 0 ? i / 100 : 10, 1, 2);
    metronome_spent spent;
    metronome_begin(&heap);
    do metronome_quantum(&heap, BUDGET, &spent);
    while (spent.phase != METRONOME_IDLE);
    while (block < 2048 / 7 && !view.old) metronome_block(&heap, 2, block++, &view);
    CHECK(view.old && sees_nothing(&heap));
    words[words[2048 * 2 + 7 * (block - 1)] + 2] = 5000;
    CHECK(metronome_check(&heap, &oddity) == METRONOME_OK && oddity.page == 2 && oddity.block == block - 1);
    CHECK(oddity.text != NULL && strcmp(oddity.text, "word 0: the block looks moved, and has no copy elsewhere") == 0);
    refuses = 1;
    CHECK(metronome_check(&heap, &oddity) == METRONOME_NO_MEMORY && oddity.page == 2);
    refuses = 0;
    metronome_destroy(&heap);
    CHECK(metronome_check(&heap, &oddity) == METRONOME_NO_HEAP && oddity.page == 2);
}

int main(void) {
    sees_nothing_in_right_heaps(0);
    sees_nothing_in_right_heaps(PAGES);
    sees_overwritten_words();
    sees_overruns();
    sees_lost_copies();
    printf("%d passed, %d failed\n", passed, failed);
    return failed != 0;
}
