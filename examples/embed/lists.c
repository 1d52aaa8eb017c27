/*
 * Each call that does a list of commands, with what it tells and what it leaves, on handles of both kinds.
 */
#include "checks.h"
#include "kinds.h"

static metronome heap = METRONOME_CLOSED;

/* Whether a list came so far, and ended so. */
static bool told(metronome_progress progress, uint32_t done, uint32_t status) {
    return progress.done == done && progress.status == status;
}

/* Whether a slot holds null. */
static bool is_null(uint32_t slot) {
    metronome_shape shape;
    metronome_answer answer = metronome_describe(&heap, 0, slot, &shape);
    return answer.kind == METRONOME_REFUSED && answer.number == METRONOME_NULL_SLOT;
}

/* Words in and out: all, past the last cell, none, too many, of no object, and of an array. */
static void words(void) {
    const uint64_t in[] = { 1, 2, 3, 4 };
    uint64_t out[] = { 9, 9, 9, 9, 9 }, many[253] = { 0 };
    metronome_new_plain(&heap, 0, 0, 1, 4);
    CHECK(told(metronome_put_words(&heap, 0, 0, 0, in, 4), 4, METRONOME_OK));
    CHECK(told(metronome_get_words(&heap, 0, 0, 1, out, 3), 3, METRONOME_OK));
    CHECK(out[0] == 2 && out[1] == 3 && out[2] == 4 && out[3] == 9);
    CHECK(told(metronome_get_words(&heap, 0, 0, 2, out, 5), 2, METRONOME_BAD_INDEX));
    CHECK(out[0] == 3 && out[1] == 4 && out[2] == 4 && out[3] == 9);
    CHECK(told(metronome_put_words(&heap, 0, 0, 3, in, 2), 1, METRONOME_BAD_INDEX));
    CHECK(metronome_get(&heap, 0, 0, 3).number == 1);
    CHECK(told(metronome_get_words(&heap, 0, 0, UINT32_MAX, out, 2), 0, METRONOME_BAD_INDEX));
    CHECK(told(metronome_get_words(&heap, 0, 0, 0, NULL, 0), 0, METRONOME_OK));
    CHECK(told(metronome_put_words(&heap, 0, 0, 0, NULL, 0), 0, METRONOME_OK));
    CHECK(told(metronome_get_words(&heap, 0, 0, 0, many, 253), 0, METRONOME_TOO_LARGE));
    CHECK(told(metronome_put_words(&heap, 0, 0, 0, many, 253), 0, METRONOME_TOO_LARGE));
    CHECK(told(metronome_get_words(&heap, 0, 1, 0, out, 1), 0, METRONOME_NULL_SLOT));
    metronome_new_words(&heap, 0, 1, 1000);
    for (uint32_t i = 0; i < 252; i++) many[i] = i;
    CHECK(told(metronome_put_words(&heap, 0, 1, 200, many, 252), 252, METRONOME_OK));
    for (uint32_t i = 0; i < 252; i++) many[i] = 0;
    CHECK(told(metronome_get_words(&heap, 0, 1, 200, many, 252), 252, METRONOME_OK));
    CHECK(many[0] == 0 && many[51] == 51 && many[52] == 52 && many[251] == 251);
}

/* Slots: moved, moved into themselves, cleared, and past the last of 8. */
static void slots(void) {
    CHECK(told(metronome_move(&heap, 0, 2, 1), 2, METRONOME_OK));
    CHECK(is_null(1) && !is_null(2));
    CHECK(told(metronome_move(&heap, 0, 2, 2), 1, METRONOME_OK));
    CHECK(!is_null(2));
    CHECK(told(metronome_move(&heap, 0, 8, 2), 0, METRONOME_BAD_SLOT));
    CHECK(!is_null(2));
    CHECK(told(metronome_clear_slots(&heap, 0, 1, 2), 2, METRONOME_OK));
    CHECK(is_null(2) && !is_null(0));
    CHECK(told(metronome_clear_slots(&heap, 0, 6, 100), 2, METRONOME_BAD_SLOT));
    CHECK(told(metronome_clear_slots(&heap, 0, UINT32_MAX, 2), 0, METRONOME_BAD_SLOT));
    CHECK(told(metronome_clear_slots(&heap, 0, 0, 0), 0, METRONOME_OK));
    CHECK(told(metronome_clear_slots(&heap, 1, 0, 1), 0, METRONOME_NOT_LIVE));
}

/* An object with its first contents, itself among them; then its references into an array, past its end, and within it. */
static void references(void) {
    const uint32_t held[] = { 0, 3 };
    const uint64_t contents[] = { 7, 8 }, many[53] = { 0 };
    const uint32_t row[200] = { 0 };
    CHECK(told(metronome_new_with(&heap, 0, 3, 3, 3, held, 2, contents, 2), 5, METRONOME_OK));
    CHECK(metronome_load(&heap, 0, 4, 3, 1).number == 3 && metronome_load(&heap, 0, 4, 3, 2).number == 0);
    CHECK(metronome_get(&heap, 0, 3, 1).number == 8 && metronome_get(&heap, 0, 3, 2).number == 0);
    CHECK(told(metronome_new_with(&heap, 0, 5, 1, 0, held, 2, NULL, 0), 2, METRONOME_BAD_INDEX));
    CHECK(told(metronome_new_with(&heap, 0, 5, 200, 200, held, 2, contents, 2), 0, METRONOME_TOO_LARGE));
    CHECK(told(metronome_new_with(&heap, 0, 5, 1, 1, row, 200, many, 53), 0, METRONOME_TOO_LARGE));
    metronome_new_refs(&heap, 0, 5, 4);
    CHECK(told(metronome_copy_refs(&heap, 0, 6, 3, 0, 5, 1, 2), 4, METRONOME_OK));
    CHECK(metronome_load(&heap, 0, 6, 5, 1).number == 1 && metronome_load(&heap, 0, 6, 5, 2).number == 3);
    CHECK(told(metronome_copy_refs(&heap, 0, 6, 3, 1, 5, 2, 3), 4, METRONOME_BAD_INDEX));
    CHECK(told(metronome_copy_refs(&heap, 0, 6, 5, 1, 5, 2, 2), 4, METRONOME_OK));
    CHECK(metronome_load(&heap, 0, 6, 5, 3).number == 1);
    CHECK(told(metronome_copy_refs(&heap, 0, 6, 3, 0, 5, 0, 253), 0, METRONOME_TOO_LARGE));
}

/* Each on a handle, of a mutator, for which none of it can be done: it says why, and has read nothing. */
static void each_refused(metronome *handle, uint32_t mutator, uint32_t why) {
    const uint64_t in[] = { 1 };
    const uint32_t held[] = { 0 };
    uint64_t out[] = { 9 };
    CHECK(told(metronome_clear_slots(handle, mutator, 0, 1), 0, why));
    CHECK(told(metronome_move(handle, mutator, 0, 1), 0, why));
    CHECK(told(metronome_get_words(handle, mutator, 0, 0, out, 1), 0, why) && out[0] == 9);
    CHECK(told(metronome_put_words(handle, mutator, 0, 0, in, 1), 0, why));
    CHECK(told(metronome_copy_refs(handle, mutator, 0, 0, 0, 1, 0, 1), 0, why));
    CHECK(told(metronome_new_with(handle, mutator, 0, 1, 1, held, 1, in, 1), 0, why));
}

/* Handles that can do none of it: one that is closed, one that is none, and at a shared heap one that doesn't have the turn, and one
 * that has it, for another handle's mutator. */
static void no_heap(void) {
    metronome closed = METRONOME_CLOSED, none = { &closed, 1 }, own = METRONOME_CLOSED, other = METRONOME_CLOSED;
    metronome_settings settings = METRONOME_SETTINGS(16, 2, 8);
    each_refused(&closed, 0, METRONOME_NO_HEAP);
    each_refused(&none, 0, METRONOME_BAD_HANDLE);
    CHECK(metronome_create_shared(&own, &settings, 0) == METRONOME_OK && metronome_sit(&own, &other, 1) == METRONOME_OK);
    each_refused(&other, 1, METRONOME_OUTSIDE);
    CHECK(metronome_enter(&other) == METRONOME_OK);
    each_refused(&other, 0, METRONOME_NOT_YOURS);
    metronome_destroy(&other);
    metronome_destroy(&own);
}

static void check_kind(void) {
    metronome_settings settings = METRONOME_SETTINGS(16, 2, 8);
    settings.live = 1;
    CHECK(make_heap(&heap, &settings) == METRONOME_OK);
    words();
    slots();
    references();
    each_refused(&heap, 1, METRONOME_NOT_LIVE);
    each_refused(&heap, 2, kind == OWN ? METRONOME_BAD_SLOT : METRONOME_NOT_YOURS);
    metronome_destroy(&heap);
}

int main(void) {
    FOR_EACH_KIND check_kind();
    no_heap();
    return checked();
}
