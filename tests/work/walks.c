/* Calls before which work is done that costs no unit: tests/work/run must find it. */
#include "metronome.h"

uint32_t __real_metronome_quantum(metronome *heap, uint32_t budget, metronome_spent *spent);
metronome_answer __real_metronome_get(metronome *heap, uint32_t mutator, uint32_t obj, uint32_t i);
uint32_t __wrap_metronome_quantum(metronome *heap, uint32_t budget, metronome_spent *spent);
metronome_answer __wrap_metronome_get(metronome *heap, uint32_t mutator, uint32_t obj, uint32_t i);

/* Looks at each block, or at the pages up to the first free one. */
static void walk(metronome *heap) {
#ifdef AT_BLOCKS
    metronome_counts counts;
    metronome_count(heap, &counts);
#else
    metronome_page_view page;
    size_t number = 0;
    do metronome_page(heap, number++, &page);
    while (page.size != 0);
#endif
}

uint32_t __wrap_metronome_quantum(metronome *heap, uint32_t budget, metronome_spent *spent) {
    walk(heap);
    return __real_metronome_quantum(heap, budget, spent);
}

metronome_answer __wrap_metronome_get(metronome *heap, uint32_t mutator, uint32_t obj, uint32_t i) {
    walk(heap);
    return __real_metronome_get(heap, mutator, obj, i);
}
