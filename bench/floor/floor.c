#include "floor.h"
#include <stdlib.h>

enum { FORWARD, HEADER, IDENTITY, LINK, CELLS }; /* the words of a block */
enum { COLOUR = 4 };                             /* the bit of a header */

static const uint16_t SIZES[CLASSES] = {
    4,  5,  6,  7,  8,  9,  10, 11, 12, 13,  14,  15,  16,  18,  20,  22,  24,  27,  30,
    33, 37, 41, 46, 51, 57, 64, 72, 81, 91, 102, 114, 128, 144, 162, 182, 204, 229, 256,
};

static inline metronome_answer answer(uint32_t kind, uint64_t number) {
    return (metronome_answer) { kind, number };
}

/* ---- Refusals, apart from the code that is measured ---- */

static APART metronome_answer refuse_slots(const floor_heap *heap, uint32_t mutator, uint32_t a, uint32_t b, uint32_t c) {
    if (mutator >= MUTATORS) return answer(METRONOME_REFUSED, METRONOME_BAD_SLOT);
    if (heap->room[mutator] == 0) return answer(METRONOME_REFUSED, METRONOME_NOT_LIVE);
    bool named = a < SLOTS && b < SLOTS && c < SLOTS;
    return answer(METRONOME_REFUSED, named ? METRONOME_NULL_SLOT : METRONOME_BAD_SLOT);
}

static APART metronome_answer refuse_cell(uint64_t header, uint32_t wrong) {
    return answer(METRONOME_REFUSED, (header & 3) == wrong ? METRONOME_WRONG_KIND : METRONOME_BAD_INDEX);
}

/* ---- Places ---- */

static inline uint64_t *slots_of(floor_heap *heap, uint32_t mutator) {
    return heap->slots + (size_t)mutator * SLOTS;
}

/* The reference, by way of the forwarding word. */
static inline uint64_t resolve(const floor_heap *heap, uint64_t reference) {
    return reference ? heap->words[reference - 1] + 1 : 0;
}

/* Returns cell i of an array of more cells than a part has: by its spine. */
static APART uint64_t *far_cell(const floor_heap *heap, uint64_t block, uint32_t i) {
    uint64_t part = heap->words[heap->words[block + CELLS + i / PART_CELLS] - 1];
    return &heap->words[part + CELLS + i % PART_CELLS];
}

/* Cell i of an array, or NULL. */
static inline uint64_t *array_cell(const floor_heap *heap, uint64_t block, uint64_t header, uint32_t kind, uint32_t i) {
    uint32_t cells = (uint32_t)header >> 8;
    if (UNLIKELY((header & 3) != kind || i >= cells)) return NULL;
    return LIKELY(cells <= PART_CELLS) ? &heap->words[block + CELLS + i] : far_cell(heap, block, i);
}

/* Reference cell i of the object of a reference, or NULL. */
static inline uint64_t *ref_cell(const floor_heap *heap, uint64_t block, uint64_t header, uint32_t i) {
    if (UNLIKELY((header & 3) != METRONOME_PLAIN)) return array_cell(heap, block, header, METRONOME_REF_ARRAY, i);
    return i < (uint8_t)(header >> 8) ? &heap->words[block + CELLS + i] : NULL;
}

/* The same of a word cell: they stand behind the references. */
static inline uint64_t *word_cell(const floor_heap *heap, uint64_t block, uint64_t header, uint32_t i) {
    if (UNLIKELY((header & 3) != METRONOME_PLAIN)) return array_cell(heap, block, header, METRONOME_WORD_ARRAY, i);
    return i < (uint8_t)(header >> 16) ? &heap->words[block + CELLS + (uint8_t)(header >> 8) + i] : NULL;
}

/* ---- What is recorded ---- */

static APART void flush(floor_heap *heap, struct records *recorded) {
    while (recorded->count > 0) {
        uint64_t reference = recorded->references[--recorded->count];
        heap->words[reference - 1 + LINK] = heap->grey;
        heap->grey = (uint32_t)reference;
    }
}

static APART void record_on(floor_heap *heap, uint32_t mutator, uint64_t old) {
    if (old == 0) return;
    uint64_t block = heap->words[old - 1], header = heap->words[block + HEADER];
    if (((header & COLOUR) != 0) == heap->colour) return;
    struct records *recorded = &heap->recorded[mutator];
    if (UNLIKELY(recorded->count == RECORDS)) flush(heap, recorded);
    heap->words[block + HEADER] = header ^ COLOUR;
    recorded->references[recorded->count++] = block + 1;
}

static inline void record(floor_heap *heap, uint32_t mutator, uint64_t old) {
    if (UNLIKELY(heap->records)) record_on(heap, mutator, old);
}

/* ---- Calls ---- */

/* Word cell i of the object in a slot, or NULL, with the refusal. */
static inline uint64_t *word_of(floor_heap *heap, uint32_t mutator, uint32_t obj, uint32_t i, metronome_answer *refusal) {
    if (LIKELY(mutator < MUTATORS && obj < heap->room[mutator] && slots_of(heap, mutator)[obj] != 0)) {
        uint64_t block = heap->words[slots_of(heap, mutator)[obj] - 1], header = heap->words[block + HEADER];
        uint64_t *cell = word_cell(heap, block, header, i);
        if (UNLIKELY(cell == NULL)) *refusal = refuse_cell(header, METRONOME_REF_ARRAY);
        return cell;
    }
    *refusal = refuse_slots(heap, mutator, obj, 0, 0);
    return NULL;
}

metronome_answer floor_get(floor_heap *heap, uint32_t mutator, uint32_t obj, uint32_t i) {
    metronome_answer refusal;
    const uint64_t *cell = word_of(heap, mutator, obj, i, &refusal);
    return cell != NULL ? answer(METRONOME_WORD, *cell) : refusal;
}

metronome_answer floor_put(floor_heap *heap, uint32_t mutator, uint32_t obj, uint32_t i, uint64_t word) {
    metronome_answer refusal;
    uint64_t *cell = word_of(heap, mutator, obj, i, &refusal);
    if (UNLIKELY(cell == NULL)) return refusal;
    *cell = word;
    return answer(METRONOME_DONE, 0);
}

metronome_answer floor_load(floor_heap *heap, uint32_t mutator, uint32_t dst, uint32_t obj, uint32_t i) {
    if (UNLIKELY(mutator >= MUTATORS || dst >= heap->room[mutator] || obj >= heap->room[mutator]))
        return refuse_slots(heap, mutator, dst, obj, 0);
    uint64_t *slots = slots_of(heap, mutator), reference = slots[obj];
    if (UNLIKELY(reference == 0)) return refuse_slots(heap, mutator, dst, obj, 0);
    uint64_t block = heap->words[reference - 1], header = heap->words[block + HEADER];
    uint64_t *cell = ref_cell(heap, block, header, i);
    if (UNLIKELY(cell == NULL)) return refuse_cell(header, METRONOME_WORD_ARRAY);
    uint64_t loaded = resolve(heap, *cell), identity = loaded ? heap->words[loaded - 1 + IDENTITY] : 0;
    record(heap, mutator, slots[dst]);
    slots[dst] = loaded;
    return answer(METRONOME_REF, identity);
}

metronome_answer floor_store(floor_heap *heap, uint32_t mutator, uint32_t obj, uint32_t i, uint32_t src) {
    if (UNLIKELY(mutator >= MUTATORS || obj >= heap->room[mutator] || src >= heap->room[mutator]))
        return refuse_slots(heap, mutator, obj, src, 0);
    uint64_t *slots = slots_of(heap, mutator), reference = slots[obj];
    if (UNLIKELY(reference == 0)) return refuse_slots(heap, mutator, obj, src, 0);
    uint64_t block = heap->words[reference - 1], header = heap->words[block + HEADER];
    uint64_t *cell = ref_cell(heap, block, header, i);
    if (UNLIKELY(cell == NULL)) return refuse_cell(header, METRONOME_WORD_ARRAY);
    uint64_t stored = resolve(heap, slots[src]);
    record(heap, mutator, *cell);
    *cell = stored;
    return answer(METRONOME_DONE, 0);
}

metronome_answer floor_compare_store(floor_heap *heap, uint32_t mutator, uint32_t obj, uint32_t i, uint32_t expect,
                                     uint32_t replacement) {
    if (UNLIKELY(mutator >= MUTATORS || obj >= heap->room[mutator] || expect >= heap->room[mutator] ||
                 replacement >= heap->room[mutator]))
        return refuse_slots(heap, mutator, obj, expect, replacement);
    uint64_t *slots = slots_of(heap, mutator), reference = slots[obj];
    if (UNLIKELY(reference == 0)) return refuse_slots(heap, mutator, obj, expect, replacement);
    uint64_t block = heap->words[reference - 1], header = heap->words[block + HEADER];
    uint64_t *cell = ref_cell(heap, block, header, i);
    if (UNLIKELY(cell == NULL)) return refuse_cell(header, METRONOME_WORD_ARRAY);
    uint64_t held = resolve(heap, *cell);
    if (held != resolve(heap, slots[expect]))
        return answer(METRONOME_KEPT, held ? heap->words[held - 1 + IDENTITY] : 0);
    uint64_t stored = resolve(heap, slots[replacement]);
    record(heap, mutator, *cell);
    *cell = stored;
    return answer(METRONOME_STORED, 0);
}

metronome_answer floor_clear(floor_heap *heap, uint32_t mutator, uint32_t dst) {
    if (UNLIKELY(mutator >= MUTATORS || dst >= heap->room[mutator])) return refuse_slots(heap, mutator, dst, 0, 0);
    uint64_t *slot = &slots_of(heap, mutator)[dst];
    record(heap, mutator, *slot);
    *slot = 0;
    return answer(METRONOME_DONE, 0);
}

metronome_answer floor_same(floor_heap *heap, uint32_t mutator, uint32_t a, uint32_t b) {
    if (UNLIKELY(mutator >= MUTATORS || a >= heap->room[mutator] || b >= heap->room[mutator]))
        return refuse_slots(heap, mutator, a, b, 0);
    const uint64_t *slots = slots_of(heap, mutator);
    return answer(METRONOME_IS, resolve(heap, slots[a]) == resolve(heap, slots[b]));
}

/* ---- New objects ---- */

static inline void set_bit(struct pages_row *row, uint32_t page, bool on) {
    uint64_t *word = &row->words[page / 64], bit = 1ull << (page % 64), summary = 1ull << (page / 64);
    *word = on ? *word | bit : *word & ~bit;
    row->summary = *word ? row->summary | summary : row->summary & ~summary;
}

static inline uint32_t first_bit(const struct pages_row *row) {
    uint32_t at = (uint32_t)__builtin_ctzll(row->summary);
    return 64 * at + (uint32_t)__builtin_ctzll(row->words[at]);
}

/* The first free page gets a class: its blocks are threaded through their links. */
static APART uint32_t open_page(floor_heap *heap, uint32_t class) {
    uint32_t page = first_bit(&heap->free), size = SIZES[class], blocks = PAGE_WORDS / size, first = 0;
    for (uint32_t i = blocks; i-- > 0;) {
        uint64_t block = (uint64_t)page * PAGE_WORDS + i * size;
        heap->words[block + FORWARD] = UINT64_MAX;
        heap->words[block + LINK] = first;
        first = (uint32_t)block + 1;
    }
    heap->pages[page] = (struct page) { first, 0, (uint16_t)blocks };
    set_bit(&heap->free, page, false);
    set_bit(&heap->usable[class], page, true);
    heap->free_pages--;
    heap->free_blocks[class] += blocks;
    return page;
}

/* The first free block of a class, where there is one or a free page. */
static inline uint64_t take_block(floor_heap *heap, uint32_t class) {
    uint32_t at = LIKELY(heap->usable[class].summary != 0) ? first_bit(&heap->usable[class]) : open_page(heap, class);
    struct page *page = &heap->pages[at];
    uint64_t block = page->first - 1;
    page->first = (uint32_t)heap->words[block + LINK];
    heap->free_blocks[class]--;
    if (UNLIKELY(++page->held == page->blocks)) set_bit(&heap->usable[class], at, false);
    return block;
}

static inline metronome_answer new_object(floor_heap *heap, uint32_t mutator, uint32_t dst, uint64_t header, uint32_t cells) {
    if (UNLIKELY(heap->next > heap->identities)) return answer(METRONOME_REFUSED, METRONOME_IDENTITIES_SPENT);
    uint32_t class = heap->class_of[cells];
    if (UNLIKELY(heap->free_blocks[class] == 0 && heap->free_pages == 0))
        return answer(METRONOME_REFUSED, METRONOME_NO_SPACE);
    uint64_t block = take_block(heap, class), *slot = &slots_of(heap, mutator)[dst];
    record(heap, mutator, *slot);
    heap->words[block + FORWARD] = block;
    heap->words[block + HEADER] = header | (heap->colour ? COLOUR : 0);
    heap->words[block + IDENTITY] = heap->next;
    heap->words[block + LINK] = 0;
    for (uint32_t i = 0; i < cells; i++) heap->words[block + CELLS + i] = 0;
    *slot = block + 1;
    return answer(METRONOME_MADE, heap->next++);
}

metronome_answer floor_new_plain(floor_heap *heap, uint32_t mutator, uint32_t dst, uint32_t refs, uint32_t words) {
    if (UNLIKELY(mutator >= MUTATORS || dst >= heap->room[mutator])) return refuse_slots(heap, mutator, dst, 0, 0);
    if (UNLIKELY(refs > PART_CELLS || words > PART_CELLS || refs + words > PART_CELLS))
        return answer(METRONOME_REFUSED, METRONOME_TOO_LARGE);
    return new_object(heap, mutator, dst, METRONOME_PLAIN | refs << 8 | words << 16, refs + words);
}

metronome_answer floor_new_refs(floor_heap *heap, uint32_t mutator, uint32_t dst, uint32_t refs) {
    if (UNLIKELY(mutator >= MUTATORS || dst >= heap->room[mutator])) return refuse_slots(heap, mutator, dst, 0, 0);
    if (UNLIKELY(refs > PART_CELLS)) return answer(METRONOME_REFUSED, METRONOME_TOO_LARGE);
    return new_object(heap, mutator, dst, METRONOME_REF_ARRAY | refs << 8, refs);
}

/* ---- Heaps ---- */

floor_heap *floor_create(uint32_t pages, uint32_t mutators) {
    floor_heap *heap = calloc(1, sizeof *heap);
    if (heap == NULL) return NULL;
    heap->words = calloc((size_t)pages * PAGE_WORDS, sizeof *heap->words);
    heap->slots = calloc((size_t)MUTATORS * SLOTS, sizeof *heap->slots);
    if (heap->words == NULL || heap->slots == NULL) return NULL;
    for (uint32_t mutator = 0; mutator < mutators; mutator++) heap->room[mutator] = SLOTS;
    heap->next = 1;
    heap->identities = INT64_MAX;
    heap->free_pages = pages;
    for (uint32_t page = 0; page < pages; page++) set_bit(&heap->free, page, true);
    for (uint32_t cells = 0, class = 0; cells <= PART_CELLS; cells++) {
        while (SIZES[class] < cells + CELLS) class++;
        heap->class_of[cells] = (uint8_t)class;
    }
    return heap;
}

void floor_begin(floor_heap *heap) {
    heap->records = true;
    heap->colour = !heap->colour;
}
