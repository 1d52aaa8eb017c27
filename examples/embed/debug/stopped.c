/*
 * A program that gdb stops (examples/embed/debug/shown-by-gdb). It has arrays of one, two and three levels of parts. In
 * each phase of a cycle that moves, it writes a line with the name of the phase, and two slots by
 * include/metronome_show.h. Then it calls `stop`.
 */
#include "metronome_show.h"

enum { PAGES = 900, SLOTS = 64, SPARE = 58, BUDGET = 2000, LARGE = 70000 };

metronome heap = METRONOME_CLOSED;
uint32_t stops;

__attribute__((noinline)) void stop(void) {
    stops++;
}

/* The slots: an object that leads to the others, an array of references, and those whose first objects are kept. */
enum { FIRST, REFS, NEW, KEPT };

static void fill(void) {
    metronome_new_plain(&heap, 0, FIRST, 5, 2);
    metronome_put(&heap, 0, FIRST, 1, UINT64_MAX);
    const uint32_t lengths[] = { 20, 1000, LARGE };
    for (uint32_t i = 0; i < 3; i++) {
        metronome_new_words(&heap, 0, NEW, lengths[i]);
        metronome_put(&heap, 0, NEW, 3, 100 + i);
        metronome_store(&heap, 0, FIRST, i, NEW);
    }
    metronome_new_refs(&heap, 0, REFS, LARGE);
    for (uint32_t i = 0; i < LARGE; i += i < 10 ? 3 : 30000) metronome_store(&heap, 0, REFS, i, FIRST);
    metronome_store(&heap, 0, FIRST, 3, REFS);
    metronome_store_static(&heap, 0, 1, REFS);
    for (uint32_t i = 0; i < 20000; i++) metronome_new_plain(&heap, 0, i % 400 == 0 ? KEPT + i / 400 : NEW, 1, i % 4);
    metronome_store(&heap, 0, FIRST, 4, KEPT + 40);
}

static void show(const char *phase) {
    metronome_row row = METRONOME_ROW(0, SPARE, SLOTS);
    puts(phase);
    metronome_show(&heap, &row, FIRST, 2, stdout);
    metronome_show(&heap, &row, REFS, 1, stdout);
    fflush(stdout);
    stop();
}

int main(void) {
    static const char *const phases[] = { "idle", "roots", "marking", "sweeping", "moving" };
    metronome_settings settings = METRONOME_SETTINGS_MOVING(PAGES, 20, SLOTS);
    settings.statics = 2;
    if (metronome_create(&heap, &settings) != METRONOME_OK) return 1;
    fill();
    uint32_t before = METRONOME_IDLE;
    for (metronome_spent spent = { 0, 5 }; spent.phase != METRONOME_IDLE; before = spent.phase) {
        if (spent.phase == 5) metronome_begin(&heap);
        metronome_quantum(&heap, 256, &spent);
        if (spent.phase != before) show(phases[spent.phase]);
    }
    metronome_destroy(&heap);
    stop();
    return 0;
}
