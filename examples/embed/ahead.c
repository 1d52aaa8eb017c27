/*
 * Control programs whose heaps keep a plan. In its idle time each prepares for the objects of its next period, one call after the
 * other, and then makes them without any work of the collector. In other periods it makes them unprepared, and each waits for no more
 * quanta than the plan allows. All figures are compared with a count of the program's own, and so are the words of objects.
 */
#include "checks.h"
#include "kinds.h"

enum { SLOTS = 64, PIECE = 252, HEADER = 4, COUNTED = 20000, PROGRAMS = 60, PERIODS = 120, MOST_CELLS = 4000000 };

/* A program: the number that it drew last, its heap and plan, the words of a period, and the words that each slot keeps live. */
struct program {
    uint64_t drawn;
    metronome heap;
    metronome_flow flow;
    uint64_t period;
    uint64_t kept[SLOTS];
    uint64_t live;
};

/* Draws the next number below a bound (xorshift, by Marsaglia). */
static uint64_t draw(struct program *p, uint64_t below) {
    p->drawn ^= p->drawn << 13;
    p->drawn ^= p->drawn >> 7;
    p->drawn ^= p->drawn << 17;
    return p->drawn % below;
}

/* The words of a block for a part of this many cells: the least size that is large enough. */
static uint64_t block(uint64_t cells) {
    uint64_t size = 4;
    while (size < cells + HEADER) size += size / 8 > 1 ? size / 8 : 1;
    return size < 256 ? size : 256;
}

/* The words of all parts of a run of cells. */
static uint64_t run_words(uint64_t cells) {
    uint64_t words = 0;
    for (; cells > PIECE; cells -= PIECE) words += block(PIECE);
    return words + block(cells);
}

/* The words of all blocks of an object: of its pieces, and of the spines that refer to them. */
static uint64_t words_of(uint64_t cells) {
    uint64_t words = run_words(cells);
    while (cells > PIECE) {
        cells = (cells + PIECE - 1) / PIECE;
        words += run_words(cells);
    }
    return words;
}

static void check_array(uint32_t cells) {
    const uint64_t words = words_of(cells);
    CHECK(METRONOME_ARRAY_WORDS((uint64_t)cells) == words);
    CHECK(metronome_block_words(METRONOME_REF_ARRAY, cells, 7) == words);
    CHECK(metronome_block_words(METRONOME_WORD_ARRAY, 7, cells) == words);
}

/* The words that the library and its macros calculate, for all small objects and many large ones. */
static void check_words(void) {
    for (uint32_t cells = 0; cells <= COUNTED; cells++) check_array(cells);
    for (uint32_t cells = COUNTED; cells <= MOST_CELLS - 9973; cells += 9973) check_array(cells);
    check_array(MOST_CELLS);
    for (uint32_t cells = 0; cells <= PIECE; cells++) {
        CHECK(METRONOME_PLAIN_WORDS(cells) == words_of(cells));
        for (uint32_t refs = 0; refs <= cells; refs += 9) {
            CHECK(metronome_block_words(METRONOME_PLAIN, refs, cells - refs) == words_of(cells));
        }
    }
    CHECK(metronome_block_words(METRONOME_PLAIN, 1, PIECE) == 0);
    CHECK(metronome_block_words(METRONOME_PLAIN, UINT32_MAX, 1) == 0);
    CHECK(metronome_block_words(METRONOME_REF_ARRAY, MOST_CELLS + 1, 0) == 0);
    CHECK(metronome_block_words(METRONOME_WORD_ARRAY, 0, UINT32_MAX) == 0);
    CHECK(metronome_block_words(METRONOME_WORD_ARRAY + 1, 1, 1) == 0);
}

static metronome_work work_of(struct program *p) {
    metronome_work work = { 0, 0, 0 };
    IS(METRONOME_OK, metronome_kept(&p->heap, &work));
    return work;
}

static void drop(struct program *p, uint32_t slot) {
    metronome_clear(&p->heap, 0, slot);
    p->live -= p->kept[slot];
    p->kept[slot] = 0;
}

/* Makes an object of this many cells, once there is room for it. Returns the quanta for which it waited. */
static uint64_t make(struct program *p, uint32_t cells) {
    const uint32_t slot = (uint32_t)draw(p, SLOTS);
    const uint64_t before = work_of(p).quanta, words = words_of(cells);
    drop(p, slot);
    while (p->live + words > p->flow.live_words) drop(p, (uint32_t)draw(p, SLOTS));
    p->kept[slot] = words;
    p->live += words;
    const metronome_answer answer = cells > PIECE || draw(p, 2) > 0 ? metronome_new_words(&p->heap, 0, slot, cells)
                                                                    : metronome_new_plain(&p->heap, 0, slot, cells / 2, cells - cells / 2);
    CHECK(answer.kind == METRONOME_MADE);
    return work_of(p).quanta - before;
}

/* A number of cells whose object has at most this many words, a large one now and then. */
static uint32_t draw_cells(struct program *p, uint64_t words) {
    uint64_t cells = draw(p, 6) > 0 ? draw(p, 40) : draw(p, words);
    while (words_of(cells) > words) cells /= 2;
    return (uint32_t)cells;
}

/* Prepares until nothing is left, as in idle time. Each call does at most one piece of work, and fewer are left after it. */
static void prepare(struct program *p) {
    uint64_t left = p->period / p->flow.quantum_words + 2;
    while (left > 0) {
        const uint64_t last = left;
        const metronome_work before = work_of(p);
        IS(METRONOME_OK, metronome_prepare(&p->heap, p->period, &left));
        const metronome_work after = work_of(p);
        CHECK(left < last);
        CHECK(after.quanta + after.cycles <= before.quanta + before.cycles + 1);
    }
    const metronome_work ready = work_of(p);
    IS(METRONOME_OK, metronome_prepare(&p->heap, p->period, &left));
    CHECK(left == 0 && work_of(p).quanta == ready.quanta && work_of(p).cycles == ready.cycles);
}

/* The objects of a period that was prepared wait for nothing, even if the program spends quanta of its own among them. */
static void run_prepared(struct program *p) {
    metronome_spent spent;
    prepare(p);
    const metronome_work before = work_of(p);
    for (uint64_t rest = p->period; rest >= 4;) {
        const uint32_t cells = draw_cells(p, rest);
        CHECK(make(p, cells) == 0);
        rest -= words_of(cells);
        if (draw(p, 8) == 0) IS(METRONOME_OK, metronome_quantum(&p->heap, 256 + (uint32_t)draw(p, 3000), &spent));
    }
    CHECK(work_of(p).quanta == before.quanta && work_of(p).cycles == before.cycles);
}

static uint64_t quanta_for(const struct program *p, uint64_t words) {
    return (words + p->flow.quantum_words - 1) / p->flow.quantum_words;
}

/* The objects of a period that wasn't prepared wait for no more quanta than their words have, each and all together. Under a plan
 * without room for them, each may also wait for the rest of a cycle. */
static void run_unprepared(struct program *p, bool has_room) {
    uint64_t all = 0, waited = 0;
    for (int n = 0; n < 20; n++) {
        const uint32_t cells = draw_cells(p, p->period);
        const uint64_t words = words_of(cells), quanta = make(p, cells);
        const uint64_t most = quanta_for(p, words);
        CHECK(quanta <= (has_room ? most : 2 * most - 1));
        CHECK(words > p->flow.quantum_words || quanta <= 1);
        waited += quanta;
        all += words;
    }
    CHECK(!has_room || waited <= quanta_for(p, all));
}

/* A plan that doesn't last is refused, though it fits. This one has a word for a cycle fewer than the least number that is kept. The
 * next one has a word more for a quantum. */
static void check_lasting(struct program *p) {
    metronome_flow flow = p->flow;
    uint64_t kept = flow.cycle_words, refused = 0;
    while (kept - refused > 1) {
        flow.cycle_words = refused + (kept - refused) / 2;
        if (metronome_keep(&p->heap, &flow) == METRONOME_OK) {
            kept = flow.cycle_words;
        } else {
            refused = flow.cycle_words;
        }
    }
    CHECK(kept >= flow.quantum_words);
    flow.cycle_words = refused;
    IS(METRONOME_NO_PLAN, metronome_keep(&p->heap, &flow));
    flow = p->flow;
    flow.quantum_words++;
    IS(METRONOME_NO_PLAN, metronome_keep(&p->heap, &flow));
}

/* The last cycle took no more quanta than the plan has words for. All its quanta were the plan's. */
static void check_cycle(struct program *p) {
    metronome_cycle cycle;
    IS(METRONOME_OK, metronome_last_cycle(&p->heap, &cycle));
    CHECK(cycle.number > 0 && cycle.quanta * p->flow.quantum_words <= p->flow.cycle_words);
}

/* The fewest pages that have a plan with room for a period have one, and one page fewer has none. */
static void check_fewest(metronome_settings settings, uint64_t live, uint64_t period) {
    metronome_flow flow, none;
    for (int64_t fewer = 0; fewer < 2; fewer++) {
        settings.pages = 1;
        IS(METRONOME_NO_PLAN, metronome_plan_for(&settings, live, period, &flow));
        settings.pages = (int64_t)flow.least_pages - fewer;
        settings.defrag_pages = settings.pages;
        settings.defrag_below = settings.pages + 1;
        IS(fewer > 0 ? METRONOME_NO_PLAN : METRONOME_OK, metronome_plan_for(&settings, live, period, &none));
        CHECK(none.least_pages == flow.least_pages && (none.quantum_words > 0) == (fewer == 0));
    }
}

/* A program of a seed, on twice the pages that it needs. */
static void run(uint64_t seed) {
    struct program p = { seed * 0x9E3779B97F4A7C15u + 1, METRONOME_CLOSED, { 0, 0, 0, 0, 0 }, 0, { 0 }, 0 };
    metronome_settings settings = METRONOME_SETTINGS_MOVING(1, 1, SLOTS);
    const uint64_t live = 3000 + draw(&p, 40000);
    const bool has_room = seed % 4 > 0;
    uint64_t left = 5;
    p.period = 100 + draw(&p, live / 2);
    settings.collector_ticks = 5 + (int64_t)draw(&p, 46);
    IS(METRONOME_NO_PLAN, metronome_plan_for(&settings, live, p.period, &p.flow));
    settings.pages = 2 * (int64_t)p.flow.least_pages;
    settings.defrag_pages = settings.pages;
    settings.defrag_below = settings.pages + 1;
    check_fewest(settings, live, p.period);
    IS(METRONOME_OK, metronome_plan_for(&settings, live, has_room ? p.period : 0, &p.flow));
    IS(METRONOME_OK, make_heap(&p.heap, &settings));
    IS(METRONOME_NO_PLAN, metronome_prepare(&p.heap, 1, &left));
    if (kind == OWN) {
        if (!has_room) check_lasting(&p);
        IS(METRONOME_OK, metronome_keep(&p.heap, &p.flow));
    } else {
        metronome_destroy(&p.heap);
        IS(METRONOME_OK, metronome_create_shared_kept(&p.heap, &settings, 0, &p.flow));
        IS(METRONOME_OK, metronome_enter(&p.heap));
    }
    IS(METRONOME_ABOVE_PLAN, metronome_prepare(&p.heap, p.flow.cycle_words + 1, &left));
    CHECK(left == 5);
    for (int period = 0; period < PERIODS; period++) {
        if (has_room && draw(&p, 2) > 0) {
            run_prepared(&p);
        } else {
            run_unprepared(&p, has_room);
        }
    }
    if (!has_room) check_cycle(&p);
    metronome_destroy(&p.heap);
    IS(METRONOME_NO_HEAP, metronome_prepare(&p.heap, 1, &left));
    CHECK(left == 5);
}

int main(void) {
    check_words();
    FOR_EACH_KIND {
        for (uint64_t seed = 1; seed <= PROGRAMS; seed++) run(seed);
    }
    return checked();
}
