/*
 * kept [NAME]: random programs on heaps that keep a plan, of one thread on a heap of its own, and of 1, 2, 4 and 16 threads at a
 * shared heap. None of their objects is refused, neither on the fewest pages on which there is a plan for the live words of all
 * threads, nor on twice as many. Each thread fills its share of the live words with objects of about one size, drops most of them,
 * so that pages are left sparse, and goes on with another size. Some objects are arrays of several parts, and some form chains. A
 * third of the programs also begin cycles and spend quanta of their own. The log of a shared heap has all cycles and quanta.
 * If a name is given, a program of four threads is recorded, into NAME.toml, NAME.trace and NAME.history.
 */
#include "metronome_record.h"
#include "checks.h"
#include <pthread.h>

enum { SLOTS = 256, PIECE = 252, PROGRAMS = 100, SHARED = 6, MADE = 1500, OF_A_SIZE = 50, MOST = 16, LOG = 1 << 16 };

/* A thread of a program: its last random number, its handle and its mutator; the words that each slot except 0 keeps live, their
 * sum, and the most that this may be. */
struct worker {
    uint64_t drawn;
    metronome heap;
    uint32_t mutator;
    uint64_t kept[SLOTS];
    uint64_t live, share;
    bool failed;
};

static struct worker workers[MOST];
static metronome_flow plan;
static uint32_t threads; /* 0 on a heap of its own */
static bool besides;     /* whether the threads do work that the plan doesn't ask for */
static metronome_gate gate = METRONOME_GATE;
static metronome_recording *recording; /* this and the next two are used in turns alone */
static metronome_work logged;
static uint64_t next;

/* Returns the next random number below a bound (xorshift, as Marsaglia gives it). */
static uint64_t draw(struct worker *w, uint64_t below) {
    w->drawn ^= w->drawn << 13;
    w->drawn ^= w->drawn >> 7;
    w->drawn ^= w->drawn << 17;
    return w->drawn % below;
}

/* Returns the words of all blocks of an object of `cells` cells, by the header's constants. */
static uint64_t blocks(uint64_t cells) {
    return cells <= PIECE ? METRONOME_PLAIN_WORDS(cells) : METRONOME_ARRAY_WORDS(cells);
}

static void drop(struct worker *w, uint32_t slot) {
    metronome_clear(&w->heap, w->mutator, slot);
    w->live -= w->kept[slot];
    w->kept[slot] = 0;
}

/* Drops the objects of three of four slots, until there is room for this many more words. */
static void make_room(struct worker *w, uint64_t words) {
    while (w->live + words > w->share) {
        for (uint32_t slot = 1; slot < SLOTS; slot++) {
            if (draw(w, 4) > 0) drop(w, slot);
        }
    }
}

/* Makes an object of this many cells in a slot. It refers to the slot's object before, or that object is dropped. Returns
   whether it was made. */
static bool is_made(struct worker *w, uint32_t cells, uint32_t slot, bool chained) {
    metronome *heap = &w->heap;
    const uint32_t m = w->mutator;
    metronome_answer answer;
    if (!chained) drop(w, slot);
    make_room(w, blocks(cells));
    if (chained) {
        answer = cells > PIECE ? metronome_new_refs(heap, m, 0, cells) : metronome_new_plain(heap, m, 0, 1, cells - 1);
        if (w->kept[slot] > 0) metronome_store(heap, m, 0, 0, slot);
        metronome_move(heap, m, slot, 0);
    } else if (cells > PIECE) {
        answer = metronome_new_words(heap, m, slot, cells);
    } else {
        answer = metronome_new_plain(heap, m, slot, 1, cells - 1);
    }
    w->kept[slot] += blocks(cells);
    w->live += blocks(cells);
    return answer.kind == METRONOME_MADE;
}

/* Returns a number of cells for whose blocks the plan and the share have room. One of ten is above a piece, if there is room for
   it. */
static uint32_t draw_cells(struct worker *w) {
    uint64_t cells = draw(w, 10) > 0 ? 1 + draw(w, PIECE) : 1 + draw(w, 20 * PIECE);
    while (blocks(cells) > plan.cycle_words || blocks(cells) > w->share) cells = (cells + 1) / 2;
    return (uint32_t)cells;
}

/* Does work that the plan doesn't ask for. */
static void work_besides(struct worker *w) {
    metronome_spent spent;
    if (draw(w, 50) == 0) metronome_begin(&w->heap);
    if (draw(w, 20) == 0) metronome_quantum(&w->heap, 256 + (uint32_t)draw(w, 5000), &spent);
}

/* Counts the cycles and quanta of the events that are new in the log, and records these. Returns whether none was lost. */
static bool reads_log(metronome *heap) {
    metronome_event event;
    for (; metronome_entry(heap, next, &event) == METRONOME_OK && event.kind == METRONOME_ENTERED; next++) {
        logged.cycles += event.command.kind == METRONOME_BEGIN && event.answer.kind == METRONOME_DONE;
        logged.quanta += event.command.kind == METRONOME_QUANTUM;
    }
    return event.kind == METRONOME_NOT_YET && (recording == NULL || metronome_record(recording, heap));
}

/* Makes the objects of a thread, each in a turn of its own if the heap is shared. */
static void *work(void *argument) {
    struct worker *w = argument;
    uint32_t cells = 1;
    for (uint32_t i = 0; i < MADE / (threads > 0 ? threads : 1) && !w->failed; i++) {
        if (i % OF_A_SIZE == 0) cells = draw_cells(w);
        if (threads > 0) w->failed |= metronome_gate_enter(&gate, &w->heap) != METRONOME_OK;
        if (besides) work_besides(w);
        w->failed |= !is_made(w, cells, 1 + (uint32_t)draw(w, SLOTS - 1), draw(w, 2) > 0);
        if (threads > 0) w->failed |= !reads_log(&w->heap) || metronome_gate_exit(&gate, &w->heap) != METRONOME_OK;
    }
    return NULL;
}

/* Makes the heap, which keeps the plan, and a handle for each thread. */
static void open_heap(const metronome_settings *settings) {
    static const struct worker none = { .heap = METRONOME_CLOSED };
    metronome *own = &workers[0].heap;
    for (uint32_t m = 0; m < MOST; m++) workers[m] = none;
    if (threads == 0) {
        IS(METRONOME_OK, metronome_create(own, settings));
        IS(METRONOME_OK, metronome_keep(own, &plan));
        return;
    }
    IS(METRONOME_OK, metronome_create_shared_kept(own, settings, LOG, &plan));
    for (uint32_t m = threads - 1; m > 0; m--) IS(METRONOME_OK, metronome_sit(own, &workers[m].heap, m));
}

/* Checks the figures after all threads have ended: the collector worked for the plan. If the threads do work of their own, it may
 * never have had to. The log of a shared heap has all work. */
static void check_figures(metronome *own) {
    metronome_work told = { 0, 0, 0 };
    metronome_cycle last;
    if (threads > 0) IS(METRONOME_OK, metronome_enter(own));
    IS(METRONOME_OK, metronome_kept(own, &told));
    IS(METRONOME_OK, metronome_last_cycle(own, &last));
    CHECK((besides || told.cycles > 0) && told.quanta >= told.most_quanta);
    if (threads == 0) return;
    CHECK(last.number == logged.cycles || last.number + 1 == logged.cycles);
    CHECK(besides ? logged.cycles >= told.cycles && logged.quanta >= told.quanta
                  : logged.cycles == told.cycles && logged.quanta == told.quanta);
    IS(METRONOME_OK, metronome_exit(own));
}

/* Begins all threads, and waits for their ends. */
static void run_threads(uint64_t seed) {
    pthread_t running[MOST];
    const uint32_t many = threads > 0 ? threads : 1;
    logged = (metronome_work){ 0, 0, 0 };
    next = 0;
    for (uint32_t m = 0; m < many; m++) {
        workers[m].drawn = seed * 0x9E3779B97F4A7C15u + m + 2;
        workers[m].mutator = m;
        workers[m].share = plan.live_words / many;
        CHECK(pthread_create(&running[m], NULL, work, &workers[m]) == 0);
    }
    for (uint32_t m = 0; m < many; m++) CHECK(pthread_join(running[m], NULL) == 0 && !workers[m].failed);
}

static metronome_settings with_pages(metronome_settings settings, uint64_t pages) {
    settings.pages = (int64_t)pages;
    settings.defrag_pages = settings.pages;
    settings.defrag_below = settings.pages + 1;
    return settings;
}

/* Plays the program of a seed, on `times` times as many pages as it needs. */
static void run(uint64_t seed, uint32_t many, uint64_t times, FILE *files[3]) {
    metronome_recording files_of;
    struct worker drawn = { .drawn = seed * 0x9E3779B97F4A7C15u + 1 };
    metronome_settings settings = METRONOME_SETTINGS_MOVING(1, many > 0 ? many : 1, SLOTS);
    const uint64_t live = 300 + 100 * many + draw(&drawn, 40000);
    threads = many;
    besides = seed % 3 == 0;
    settings.collector_ticks = 5 + (int64_t)draw(&drawn, 46);
    IS(METRONOME_NO_PLAN, metronome_plan(&settings, live, &plan));
    const uint64_t least = plan.least_pages;
    settings = with_pages(settings, least - 1);
    IS(METRONOME_NO_PLAN, metronome_plan(&settings, live, &plan));
    CHECK(least > 0 && plan.quantum_words == 0);
    settings = with_pages(settings, least * times);
    IS(METRONOME_OK, metronome_plan(&settings, live, &plan));
    recording = files == NULL ? NULL : &files_of;
    if (files != NULL) CHECK(metronome_record_begin(&files_of, &settings, files[0], files[1], files[2]));
    open_heap(&settings);
    run_threads(seed);
    check_figures(&workers[0].heap);
    for (uint32_t m = 0; m < MOST; m++) metronome_destroy(&workers[m].heap);
    if (files != NULL) CHECK(files_of.lost == 0 && files_of.next == next);
}

/* Records the program of a seed, of four threads. */
static void record(const char *name) {
    static const char *const endings[] = { "toml", "trace", "history" };
    FILE *files[3];
    for (int i = 0; i < 3; i++) {
        char path[256];
        snprintf(path, sizeof path, "%s.%s", name, endings[i]);
        files[i] = fopen(path, "w");
    }
    run(1, 4, 1, files);
    for (int i = 0; i < 3; i++) CHECK(fclose(files[i]) == 0);
}

int main(int count, char **words) {
    if (count > 1) {
        record(words[1]);
        return checked();
    }
    for (uint64_t seed = 1; seed <= PROGRAMS; seed++) run(seed, 0, seed % 4 == 0 ? 2 : 1, NULL);
    for (uint32_t many = 1; many <= MOST; many *= many > 2 ? 4 : 2)
        for (uint64_t seed = 1; seed <= SHARED; seed++) run(seed, many, seed % 4 == 0 ? 2 : 1, NULL);
    return checked();
}
