/* Plans: which fit, and which heaps keep them. */
#include "checks.h"
#include "metronome_shared.h"

/* If a plan fits, it is returned; if the pages are too few, the number that it takes is. */
static void plans_are_told(void) {
    metronome_settings moving = METRONOME_SETTINGS_MOVING(200, 1, 8);
    metronome_flow flow = { 7, 7, 7, 7, 7 };
    moving.rate = 25;
    IS(METRONOME_BAD_SCHEDULE, metronome_plan(&moving, 2000, &flow));
    moving.slots = 257;
    IS(METRONOME_BAD_SETTING + 2, metronome_plan(&moving, 2000, &flow));
    IS(METRONOME_BAD_SETTING + 2, metronome_plan_for(&moving, 2000, 1, &flow));
    check(flow.live_words == 7 && flow.quantum_words == 7 && flow.least_pages == 7 && flow.budget == 7, __LINE__);
    moving.slots = 8;
    moving.rate = 100;
    IS(METRONOME_OK, metronome_plan(&moving, 2000, &flow));
    check(flow.live_words == 2000 && flow.quantum_words > 0 && flow.budget == 1000 && flow.least_pages < 200, __LINE__);
    const uint64_t least = flow.least_pages;
    IS(METRONOME_NO_PLAN, metronome_plan(&moving, 1000000, &flow));
    check(flow.live_words == 1000000 && flow.quantum_words == 0 && flow.cycle_words == 0 && flow.least_pages > 200, __LINE__);
    moving.defrag_pages--;
    IS(METRONOME_NO_PLAN, metronome_plan(&moving, 2000, &flow));
    check(flow.quantum_words == 0 && flow.least_pages == least, __LINE__);
    moving.collector_ticks = 256;
    moving.rate = 1;
    IS(METRONOME_NO_PLAN, metronome_plan(&moving, 2000, &flow));
    check(flow.least_pages == 0 && flow.budget == 256, __LINE__);
}

/* Only an unused heap of the plan's settings keeps it. The heap must be new, but its pages may be touched, and mutators may
   have joined. */
static void plans_are_kept_by_new_heaps(void) {
    metronome_settings moving = METRONOME_SETTINGS_MOVING(200, 2, 8);
    metronome h = METRONOME_CLOSED;
    metronome_flow flow, larger;
    metronome_work work = { 7, 7, 7 };
    metronome_cycle cycle = { 7, 7, 7, 7, 7, 7 };
    metronome_spent spent;
    moving.live = 1;
    IS(METRONOME_OK, metronome_plan(&moving, 2000, &flow));
    IS(METRONOME_OK, metronome_create(&h, &moving));
    IS(METRONOME_NO_PLAN, metronome_kept(&h, &work));
    check(work.quanta == 7 && work.cycles == 7 && work.most_quanta == 7, __LINE__);
    larger = flow;
    larger.budget++;
    IS(METRONOME_NO_PLAN, metronome_keep(&h, &larger));
    larger = flow;
    larger.cycle_words *= 2;
    IS(METRONOME_NO_PLAN, metronome_keep(&h, &larger));
    larger = flow;
    larger.cycle_words = 10 * flow.quantum_words; /* it fits, and doesn't last */
    IS(METRONOME_NO_PLAN, metronome_keep(&h, &larger));
    IS(METRONOME_OK, metronome_touch(&h, SIZE_MAX));
    check(metronome_join(&h, 1).kind == METRONOME_DONE, __LINE__);
    IS(METRONOME_OK, metronome_keep(&h, &flow));
    IS(METRONOME_OK, metronome_keep(&h, &flow));
    IS(METRONOME_ABOVE_PLAN, metronome_new_words(&h, 0, 0, (uint32_t)flow.cycle_words).number);
    metronome_progress progress = metronome_new_with(&h, 0, 0, 0, 1, NULL, 0, NULL, 0);
    check(progress.done == 1 && progress.status == METRONOME_OK, __LINE__);
    IS(METRONOME_OK, metronome_kept(&h, &work));
    check(work.quanta == 0 && work.cycles == 0 && work.most_quanta == 0, __LINE__);
    IS(METRONOME_NO_PLAN, metronome_keep(&h, &flow));
    IS(METRONOME_OK, metronome_begin(&h));
    IS(METRONOME_BUSY, metronome_begin(&h));
    IS(METRONOME_BAD_BUDGET, metronome_quantum(&h, 255, &spent));
    IS(METRONOME_OK, metronome_quantum(&h, 256, &spent));
    IS(METRONOME_OK, metronome_quantum(&h, 1000000, &spent));
    IS(METRONOME_OK, metronome_last_cycle(&h, &cycle));
    check(spent.phase == METRONOME_IDLE && cycle.number == 1 && cycle.quanta == 2 && cycle.units == 256u + spent.units, __LINE__);
    check(metronome_new_plain(&h, 1, 0, 1, 1).kind == METRONOME_MADE, __LINE__);
    IS(METRONOME_OK, metronome_kept(&h, &work));
    check(work.cycles == 0, __LINE__);
    metronome_destroy(&h);
    IS(METRONOME_OK, metronome_create(&h, &moving));
    IS(METRONOME_OK, metronome_begin(&h));
    IS(METRONOME_NO_PLAN, metronome_keep(&h, &flow));
    metronome_whole_cycle(&h, 1000);
    IS(METRONOME_NO_PLAN, metronome_keep(&h, &flow));
    metronome_destroy(&h);
    moving.defrag_below = 0;
    IS(METRONOME_OK, metronome_create(&h, &moving));
    IS(METRONOME_NO_PLAN, metronome_keep(&h, &flow));
    metronome_destroy(&h);
}

/* A shared heap is made with its plan, if a heap of the settings can keep it. */
static void plans_are_kept_by_shared_heaps(void) {
    metronome_settings moving = METRONOME_SETTINGS_MOVING(200, 2, 8), fewer = METRONOME_SETTINGS_MOVING(100, 2, 8);
    metronome h = METRONOME_CLOSED;
    metronome_flow flow, larger;
    metronome_work work = { 7, 7, 7 };
    IS(METRONOME_OK, metronome_plan(&moving, 2000, &flow));
    IS(METRONOME_OTHER_VERSION, metronome_create_shared_kept_for(&h, &moving, 0, &flow, METRONOME_VERSION + 1));
    larger = flow;
    larger.budget++;
    IS(METRONOME_NO_PLAN, metronome_create_shared_kept(&h, &moving, 0, &larger));
    IS(METRONOME_NO_PLAN, metronome_create_shared_kept(&h, &fewer, 0, &flow));
    fewer.pages = 0;
    IS(METRONOME_BAD_SETTING, metronome_create_shared_kept(&h, &fewer, 0, &flow));
    IS(METRONOME_NO_MEMORY, metronome_create_shared_kept(&h, &moving, SIZE_MAX, &flow));
    IS(METRONOME_NO_HEAP, metronome_enter(&h));
    IS(METRONOME_OK, metronome_create_shared_kept(&h, &moving, 0, &flow));
    IS(METRONOME_OPEN, metronome_create_shared_kept(&h, &moving, 0, &flow));
    IS(METRONOME_OUTSIDE, metronome_kept(&h, &work));
    IS(METRONOME_IS_SHARED, metronome_keep(&h, &flow));
    IS(METRONOME_OK, metronome_enter(&h));
    IS(METRONOME_IS_SHARED, metronome_keep(&h, &flow));
    IS(METRONOME_OK, metronome_touch(&h, SIZE_MAX));
    IS(METRONOME_ABOVE_PLAN, metronome_new_words(&h, 0, 0, (uint32_t)flow.cycle_words).number);
    CHECK(work.quanta == 7 && work.cycles == 7);
    IS(METRONOME_OK, metronome_kept(&h, &work));
    CHECK(work.quanta == 0 && work.cycles == 0 && work.most_quanta == 0);
    metronome_destroy(&h);
    IS(METRONOME_OK, metronome_create_shared(&h, &moving, 0));
    IS(METRONOME_OK, metronome_enter(&h));
    IS(METRONOME_NO_PLAN, metronome_kept(&h, &work));
    metronome_destroy(&h);
}

int main(void) {
    plans_are_told();
    plans_are_kept_by_new_heaps();
    plans_are_kept_by_shared_heaps();
    return checked();
}
