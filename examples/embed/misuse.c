/*
 * Calls in the wrong order, outside of a turn or in one, for another handle's mutator, and on handles that are none. Each returns its
 * status, by the order of reasons in the headers, and changes nothing. Handles of both kinds are tried. The pages and the limit
 * of a cycle are also checked.
 */
#include "checks.h"
#include "kinds.h"
#include <stdio.h>
#include <string.h>

static const metronome none = METRONOME_CLOSED;
static const metronome_settings settings = METRONOME_SETTINGS(4, 4, 4);

/* The results that a call writes through its pointers; at first all bytes are 7. */
struct told {
    metronome_shape shape;
    metronome_spent spent;
    metronome_counts counts;
    metronome_page_view page;
    metronome_block_view block;
    metronome_cycle cycle;
    metronome_work work;
    metronome_event event;
    uint64_t number;
    uint32_t phase;
};

static bool is_refused(metronome_answer answer, uint32_t status) {
    return answer.kind == METRONOME_REFUSED && answer.number == status;
}

/* Returns how many of the 18 commands of a mutator are refused with a status. */
static int refused_commands(metronome *h, uint32_t m, uint32_t status, struct told *told) {
    const metronome_answer answers[] = {
        metronome_new_plain(h, m, 0, 1, 1),        metronome_new_refs(h, m, 0, 1),        metronome_new_words(h, m, 0, 1),
        metronome_load(h, m, 0, 0, 0),             metronome_store(h, m, 0, 0, 0),        metronome_compare_store(h, m, 0, 0, 0, 0),
        metronome_get(h, m, 0, 0),                 metronome_put(h, m, 0, 0, 1),          metronome_compare_put(h, m, 0, 0, 0, 1),
        metronome_copy(h, m, 0, 0),                metronome_clear(h, m, 0),              metronome_load_static(h, m, 0, 0),
        metronome_store_static(h, m, 0, 0),        metronome_compare_static(h, m, 0, 0, 0), metronome_same(h, m, 0, 0),
        metronome_describe(h, m, 0, &told->shape), metronome_join(h, m),                  metronome_leave(h, m),
    };
    int refused = 0;
    for (size_t i = 0; i < sizeof answers / sizeof *answers; i++) refused += is_refused(answers[i], status);
    return refused;
}

/* Returns how many of the other 15 calls of a turn return a status. It comes before that of a budget out of its range. */
static int refused_calls(metronome *h, uint32_t status, struct told *told) {
    metronome_pacing pacing = METRONOME_PACING(1, 1, 1);
    metronome_row row = METRONOME_ROW(0, 1, 2);
    const metronome_flow flow = { 1, 1, 1, 1, 256 };
    const uint32_t kept = status == METRONOME_OUTSIDE ? (uint32_t)METRONOME_IS_SHARED : status;
    return (metronome_touch(h, 1) == status) + (metronome_begin(h) == status) + (metronome_quantum(h, 1, &told->spent) == status)
        + (metronome_phase(h, &told->phase) == status) + (metronome_units(h, &told->number) == status)
        + (metronome_free_pages(h, &told->number) == status) + (metronome_count(h, &told->counts) == status)
        + (metronome_page(h, 0, &told->page) == status) + (metronome_block(h, 0, 0, &told->block) == status)
        + (metronome_check_slot(h, 0, 0) == status) + (metronome_last_cycle(h, &told->cycle) == status)
        + (metronome_keep(h, &flow) == kept) + (metronome_kept(h, &told->work) == status)
        + (metronome_prepare(h, 1, &told->number) == status)
        + (metronome_pace(h, &pacing, 1) == status && metronome_whole_cycle(h, 1) == status
           && metronome_close_frame(h, &row, 0) == status && row.next == 1);
}

/* Each call of a turn returns a status, and nothing else; also for mutators of other handles, and those that don't exist. */
static void no_turn(metronome *h, uint32_t status) {
    struct told told, stood;
    memset(&told, 7, sizeof told);
    memset(&stood, 7, sizeof stood);
    check(refused_commands(h, 0, status, &told) == 18 && refused_commands(h, 64, status, &told) == 18, __LINE__);
    check(refused_calls(h, status, &told) == 15, __LINE__);
    IS(status, metronome_exit(h));
    IS(status, metronome_entry(h, 0, &told.event));
    check(memcmp(&told, &stood, sizeof told) == 0, __LINE__);
}

/* Each call on a handle that holds no heap returns a status. The handle stays as it was, and so do others. */
static void nothing_is_done(metronome *h, uint32_t status) {
    metronome before, made = none;
    uint64_t place = 7;
    memcpy(&before, h, sizeof before);
    no_turn(h, status);
    IS(status, metronome_enter(h));
    IS(status, metronome_place(h, &place));
    IS(status, metronome_sit(h, &made, 0));
    metronome_destroy(h);
    check(place == 7 && memcmp(&made, &none, sizeof none) == 0 && memcmp(&before, h, sizeof before) == 0, __LINE__);
}

/* A handle that was never set isn't taken for an open one, whatever single byte fills it. */
static void what_was_never_set_is_told(void) {
    metronome open = METRONOME_CLOSED;
    IS(METRONOME_OK, metronome_create_shared(&open, &settings, 0));
    for (int byte = 1; byte < 256; byte++) {
        metronome h;
        memset(&h, byte, sizeof h);
        nothing_is_done(&h, METRONOME_BAD_HANDLE);
        IS(METRONOME_BAD_HANDLE, metronome_create(&h, &settings));
        IS(METRONOME_BAD_HANDLE, metronome_create_shared(&h, &settings, 0));
        IS(METRONOME_BAD_HANDLE, metronome_sit(&open, &h, 2));
    }
    metronome_destroy(&open);
}

/* A program of another version gets that status, whatever its handle is, and nothing is made. */
static void another_version_is_told(void) {
    metronome h = METRONOME_CLOSED, never_set;
    memset(&never_set, 0xA5, sizeof never_set);
    IS(METRONOME_OTHER_VERSION, metronome_create_for(&h, &settings, METRONOME_VERSION + 1));
    IS(METRONOME_OTHER_VERSION, metronome_create_for(&never_set, &settings, METRONOME_VERSION - 1));
    IS(METRONOME_OTHER_VERSION, metronome_create_shared_for(&h, &settings, 0, METRONOME_VERSION - 1));
    IS(METRONOME_OTHER_VERSION, metronome_create_shared_for(&never_set, &settings, 0, METRONOME_VERSION + 1));
    nothing_is_done(&h, METRONOME_NO_HEAP);
}

/* A handle is made, made again, moved, destroyed, destroyed again, and made anew. */
static void a_handle_has_one_heap(void) {
    metronome h = METRONOME_CLOSED, moved;
    metronome_settings faulty = settings;
    faulty.rate = 1;
    IS(METRONOME_BAD_SCHEDULE, make_heap(&h, &faulty));
    faulty.slots = 257;
    IS(METRONOME_BAD_SETTING + 2, make_heap(&h, &faulty));
    nothing_is_done(&h, METRONOME_NO_HEAP);
    IS(METRONOME_OK, make_heap(&h, &settings));
    check(metronome_new_plain(&h, 3, 0, 0, 1).kind == METRONOME_MADE, __LINE__);
    IS(METRONOME_OPEN, metronome_create(&h, &faulty));
    IS(METRONOME_OPEN, metronome_create_shared(&h, &faulty, 0));
    check(metronome_put(&h, 3, 0, 0, 42).kind == METRONOME_DONE, __LINE__);
    moved = h;
    h = none;
    check(metronome_get(&moved, 3, 0, 0).number == 42, __LINE__);
    nothing_is_done(&h, METRONOME_NO_HEAP);
    metronome_destroy(&moved);
    nothing_is_done(&moved, METRONOME_NO_HEAP);
    IS(METRONOME_OK, make_heap(&moved, &settings));
    check(is_refused(metronome_get(&moved, 3, 0, 0), METRONOME_NULL_SLOT), __LINE__);
    metronome_destroy(&moved);
}

/* A heap of its own has the turn for ever, and neither a log nor other handles. */
static void a_heap_of_its_own_isnt_shared(void) {
    metronome h = METRONOME_CLOSED, shared = METRONOME_CLOSED, made = METRONOME_CLOSED;
    struct told told, stood;
    memset(&told, 7, sizeof told);
    memset(&stood, 7, sizeof stood);
    IS(METRONOME_OK, metronome_create(&h, &settings));
    IS(METRONOME_OK, metronome_create_shared(&shared, &settings, 0));
    IS(METRONOME_INSIDE, metronome_enter(&h));
    IS(METRONOME_NOT_SHARED, metronome_exit(&h));
    IS(METRONOME_NOT_SHARED, metronome_place(&h, &told.number));
    IS(METRONOME_NOT_SHARED, metronome_entry(&h, 0, &told.event));
    IS(METRONOME_NOT_SHARED, metronome_sit(&h, &made, 1));
    IS(METRONOME_NOT_SHARED, metronome_sit(&h, &shared, 1));
    IS(METRONOME_OPEN, metronome_sit(&shared, &h, 1));
    check(memcmp(&told, &stood, sizeof told) == 0 && memcmp(&made, &none, sizeof none) == 0, __LINE__);
    check(metronome_clear(&h, 0, 0).kind == METRONOME_DONE, __LINE__);
    metronome_destroy(&shared);
    metronome_destroy(&h);
}

/* Calls of a mutator and of the collector are made before and after the calls that they need. */
static void calls_come_out_of_order(void) {
    metronome_settings one = settings;
    metronome h = METRONOME_CLOSED;
    metronome_spent spent = { 7, 7 };
    one.live = 1;
    IS(METRONOME_OK, make_heap(&h, &one));
    IS(METRONOME_OK, metronome_quantum(&h, 256, &spent));
    check(spent.units == 0 && spent.phase == METRONOME_IDLE, __LINE__);
    check(is_refused(metronome_leave(&h, 1), METRONOME_NOT_LIVE), __LINE__);
    check(is_refused(metronome_join(&h, 0), METRONOME_ALREADY_LIVE), __LINE__);
    check(is_refused(metronome_get(&h, 0, 0, 0), METRONOME_NULL_SLOT), __LINE__);
    IS(METRONOME_OK, metronome_begin(&h));
    IS(METRONOME_BUSY, metronome_begin(&h));
    check(metronome_leave(&h, 0).kind == METRONOME_DONE, __LINE__);
    check(is_refused(metronome_new_plain(&h, 0, 0, 1, 1), METRONOME_NOT_LIVE), __LINE__);
    metronome_destroy(&h);
    IS(METRONOME_NO_HEAP, metronome_quantum(&h, 256, &spent));
}

/* Only one of two handles has the turn at a time. Each finds the words that it left. */
static void turns_are_taken(void) {
    metronome first = METRONOME_CLOSED, second = METRONOME_CLOSED;
    uint64_t place = 7;
    IS(METRONOME_OK, metronome_create_shared(&first, &settings, 0));
    IS(METRONOME_OK, metronome_sit(&first, &second, 2));
    IS(METRONOME_OUTSIDE, metronome_exit(&first));
    IS(METRONOME_OK, metronome_enter(&first));
    IS(METRONOME_INSIDE, metronome_enter(&first));
    IS(METRONOME_TAKEN, metronome_enter(&second));
    no_turn(&second, METRONOME_OUTSIDE);
    check(metronome_new_plain(&first, 1, 0, 0, 1).kind == METRONOME_MADE, __LINE__);
    check(metronome_put(&first, 1, 0, 0, 42).kind == METRONOME_DONE, __LINE__);
    check(is_refused(metronome_get(&first, 1, 1, 0), METRONOME_NULL_SLOT), __LINE__);
    IS(METRONOME_INSIDE, metronome_place(&first, &place));
    IS(METRONOME_OK, metronome_place(&second, &place));
    check(place == 0, __LINE__);
    IS(METRONOME_OK, metronome_exit(&first));
    no_turn(&first, METRONOME_OUTSIDE);
    IS(METRONOME_OK, metronome_place(&second, &place));
    check(place == 3, __LINE__);
    IS(METRONOME_OK, metronome_enter(&second));
    check(is_refused(metronome_get(&second, 2, 0, 0), METRONOME_NULL_SLOT), __LINE__);
    metronome_destroy(&second);
    IS(METRONOME_OK, metronome_enter(&first));
    check(metronome_get(&first, 1, 0, 0).number == 42, __LINE__);
    metronome_destroy(&first);
}

/* A handle in its turn calls for the mutators that it still has, and for no other. */
static bool calls_for(metronome *h, uint32_t first, uint32_t end) {
    struct told told;
    bool holds = metronome_enter(h) == METRONOME_OK;
    for (uint32_t m = 0; m < 6; m++) {
        if (first <= m && m < end) holds = holds && metronome_clear(h, m, 0).kind == METRONOME_DONE;
        else holds = holds && refused_commands(h, m, METRONOME_NOT_YOURS, &told) == 18;
    }
    return metronome_exit(h) == METRONOME_OK && holds;
}

/* Mutators go from handle to handle. A handle that asks for another's mutators is refused, and neither handle changes. */
static void mutators_are_given(void) {
    metronome first = METRONOME_CLOSED, second = METRONOME_CLOSED, third = METRONOME_CLOSED;
    IS(METRONOME_OK, metronome_create_shared(&first, &settings, 0));
    check(calls_for(&first, 0, 4), __LINE__);
    IS(METRONOME_NOT_YOURS, metronome_sit(&first, &second, 5));
    nothing_is_done(&second, METRONOME_NO_HEAP);
    IS(METRONOME_OK, metronome_sit(&first, &second, 1));
    check(calls_for(&first, 0, 1) && calls_for(&second, 1, 4), __LINE__);
    IS(METRONOME_NOT_YOURS, metronome_sit(&second, &third, 0));
    IS(METRONOME_NOT_YOURS, metronome_sit(&first, &third, 2));
    IS(METRONOME_OK, metronome_sit(&second, &third, 4));
    check(calls_for(&second, 1, 4) && calls_for(&third, 4, 4), __LINE__);
    metronome_destroy(&third);
    IS(METRONOME_OK, metronome_sit(&second, &third, 1));
    check(calls_for(&second, 1, 1) && calls_for(&third, 1, 4), __LINE__);
    metronome_destroy(&first);
    metronome_destroy(&second);
    check(calls_for(&third, 1, 4), __LINE__);
    metronome_destroy(&third);
}

/* If several reasons against one more handle apply, the first one in their order is returned. */
static void reasons_are_told_in_order(void) {
    metronome first = METRONOME_CLOSED, second = METRONOME_CLOSED, third = METRONOME_CLOSED, never_set;
    memset(&never_set, 0xA5, sizeof never_set);
    IS(METRONOME_NO_HEAP, metronome_sit(&first, &never_set, 9));
    IS(METRONOME_OK, metronome_create_shared(&first, &settings, 0));
    IS(METRONOME_NO_HEAP, metronome_sit(&second, &first, 9));
    IS(METRONOME_OK, metronome_sit(&first, &second, 2));
    IS(METRONOME_OK, metronome_enter(&first));
    IS(METRONOME_OPEN, metronome_sit(&first, &second, 9));
    IS(METRONOME_BAD_HANDLE, metronome_sit(&first, &never_set, 9));
    IS(METRONOME_INSIDE, metronome_sit(&first, &third, 9));
    IS(METRONOME_OK, metronome_exit(&first));
    IS(METRONOME_NOT_YOURS, metronome_sit(&first, &third, 9));
    nothing_is_done(&third, METRONOME_NO_HEAP);
    metronome_destroy(&first);
    metronome_destroy(&second);
}

/* A handle that is destroyed in its turn gives it back, and no handle calls for its mutators any more. */
static void a_destroyed_handle_gives_its_turn_back(void) {
    metronome first = METRONOME_CLOSED, second = METRONOME_CLOSED;
    uint64_t place = 7;
    IS(METRONOME_OK, metronome_create_shared(&first, &settings, 0));
    IS(METRONOME_OK, metronome_sit(&first, &second, 2));
    IS(METRONOME_OK, metronome_enter(&second));
    check(metronome_clear(&second, 3, 0).kind == METRONOME_DONE, __LINE__);
    IS(METRONOME_TAKEN, metronome_enter(&first));
    metronome_destroy(&second);
    nothing_is_done(&second, METRONOME_NO_HEAP);
    IS(METRONOME_OK, metronome_place(&first, &place));
    check(place == 1 && calls_for(&first, 0, 2), __LINE__);
    metronome_destroy(&first);
}

/* A text of no length may be NULL. */
static void texts_may_go_nowhere(void) {
    check(metronome_text(METRONOME_NO_SPACE, NULL, 0) == 8, __LINE__);
    char text[9] = "7777777";
    check(metronome_text(METRONOME_NO_SPACE, text, 0) == 8 && strcmp(text, "7777777") == 0, __LINE__);
    check(metronome_text(METRONOME_NO_SPACE, text, sizeof text) == 8 && strcmp(text, "no space") == 0, __LINE__);
}

static bool is_page(metronome *h, size_t number, uint32_t size, uint32_t held) {
    metronome_page_view page = { 7, 7, 7, 7 };
    return metronome_page(h, number, &page) == METRONOME_OK && page.size == size && page.held == held && page.leaving == 0
        && page.receiving == 0;
}

/* A header takes 4 words of a block, and a cell one. A page that doesn't exist is reported as a free one. */
static void pages_are_told(void) {
    metronome h = METRONOME_CLOSED;
    IS(METRONOME_OK, make_heap(&h, &settings));
    check(metronome_new_plain(&h, 0, 0, 1, 1).kind == METRONOME_MADE, __LINE__);
    check(is_page(&h, 0, 6, 1) && is_page(&h, 1, 0, 0), __LINE__);
    check(metronome_new_words(&h, 0, 1, 1).kind == METRONOME_MADE, __LINE__);
    check(metronome_new_refs(&h, 0, 2, 1).kind == METRONOME_MADE, __LINE__);
    check(is_page(&h, 0, 6, 1) && is_page(&h, 1, 5, 2), __LINE__);
    check(is_page(&h, 2, 0, 0) && is_page(&h, SIZE_MAX, 0, 0), __LINE__);
    metronome_destroy(&h);
}

/* 1 static and 8 slots, 3 * 2048 words of each of 2 pages, 38 looks at each, and 4 make 12377 units. A quantum of 1000 units
 * leaves at most 255, so each spends at least 745, except the last. */
static void cycles_keep_to_their_limit(void) {
    metronome_settings small = METRONOME_SETTINGS(2, 2, 4);
    metronome h = METRONOME_CLOSED;
    metronome_limit limit = { 7, 7 };
    metronome_spent spent = { 0, METRONOME_ROOTS };
    uint64_t quanta = 0, units = 0;
    small.statics = 1;
    IS(METRONOME_OK, metronome_cycle_limit(&small, &limit));
    check(limit.units == 12377 && limit.quanta == 17, __LINE__);
    IS(METRONOME_OK, make_heap(&h, &small));
    IS(METRONOME_OK, metronome_begin(&h));
    for (; spent.phase != METRONOME_IDLE && quanta <= limit.quanta; quanta++) metronome_quantum(&h, 1000, &spent);
    IS(METRONOME_OK, metronome_units(&h, &units));
    check(quanta <= limit.quanta && units <= limit.units, __LINE__);
    metronome_destroy(&h);
    limit.units = limit.quanta = 7;
    small.rate = 25;
    IS(METRONOME_BAD_SCHEDULE, metronome_cycle_limit(&small, &limit));
    small.slots = 257;
    IS(METRONOME_BAD_SETTING + 2, metronome_cycle_limit(&small, &limit));
    check(limit.units == 7 && limit.quanta == 7, __LINE__);
}

int main(void) {
    what_was_never_set_is_told();
    another_version_is_told();
    a_heap_of_its_own_isnt_shared();
    turns_are_taken();
    mutators_are_given();
    reasons_are_told_in_order();
    a_destroyed_handle_gives_its_turn_back();
    texts_may_go_nowhere();
    FOR_EACH_KIND {
        a_handle_has_one_heap();
        calls_come_out_of_order();
        pages_are_told();
        cycles_keep_to_their_limit();
    }
    return checked();
}
