/*
 * Compares the text that include/metronome_show.h writes. It shows each kind of object, null, shared objects and rings.
 * The text is cut by depth, by cells and by a buffer. It is the same in each phase of a cycle that moves, and each slot
 * stays as it was. Then each status is met.
 */
#include "metronome_show.h"
#include <string.h>

enum { PAGES = 64, SLOTS = 64, FIRST_SPARE = 60, BUDGET = 300, ROOM = 4000 };

static int passed, failed;

static void check(int holds, int line) {
    if (holds) {
        passed++;
    } else {
        failed++;
        fprintf(stderr, "failed: line %d\n", line);
    }
}

#define CHECK(holds) check(holds, __LINE__)

/* The slots: the first object, the end of its ring, arrays, null. */
enum { FIRST, SECOND, REFS, WORDS, NOTHING };

static const char *const TWO_DEEP =
    "#1 plain, refs 2, words 2: 7 18446744073709551615\n"
    "  0: #2 plain, refs 3, words 0\n"
    "    0: #1 above\n"
    "    1: #4 array, words 20: 0 0 0 0 0 0 0 0 0 0 0 0 0 0 0 0 ..\n"
    "    2: null\n"
    "  1: #3 array, refs 1000\n"
    "    0: #2 above\n"
    "    1: #3 above\n"
    "    2: null\n    3: null\n    4: null\n    5: null\n    6: null\n    7: null\n    8: null\n    9: null\n"
    "    10: null\n    11: null\n    12: null\n    13: null\n    14: null\n    15: null\n"
    "    ..\n";

static const char *const ONE_DEEP =
    "#1 plain, refs 2, words 2: 7 18446744073709551615\n"
    "  0: #2 plain, refs 3, words 0 deeper\n"
    "  1: #3 array, refs 1000 deeper\n";

static metronome opened(void) {
    metronome heap = METRONOME_CLOSED;
    metronome_settings settings = METRONOME_SETTINGS_MOVING(PAGES, 2, SLOTS);
    settings.statics = 256; /* so there are more roots than a quantum has units */
    settings.live = 1;
    CHECK(metronome_create(&heap, &settings) == METRONOME_OK);
    CHECK(metronome_new_plain(&heap, 0, FIRST, 2, 2).number == 1);
    CHECK(metronome_new_plain(&heap, 0, SECOND, 3, 0).number == 2);
    CHECK(metronome_new_refs(&heap, 0, REFS, 1000).number == 3);
    CHECK(metronome_new_words(&heap, 0, WORDS, 20).number == 4);
    metronome_put(&heap, 0, FIRST, 0, 7);
    metronome_put(&heap, 0, FIRST, 1, UINT64_MAX);
    metronome_store(&heap, 0, FIRST, 0, SECOND);
    metronome_store(&heap, 0, FIRST, 1, REFS);
    metronome_store(&heap, 0, SECOND, 0, FIRST);
    metronome_store(&heap, 0, SECOND, 1, WORDS);
    metronome_store(&heap, 0, REFS, 0, SECOND);
    metronome_store(&heap, 0, REFS, 1, REFS);
    return heap;
}

/* Whether a slot is shown as this text, and all slots stay: also those that are lent. */
static int is_shown(metronome *heap, uint32_t slot, uint32_t depth, const char *wanted) {
    char text[ROOM];
    size_t whole = 0;
    metronome_row row = METRONOME_ROW(0, FIRST_SPARE, SLOTS);
    metronome_counts before, after;
    metronome_count(heap, &before);
    const uint32_t status = metronome_show_into(heap, &row, slot, depth, text, sizeof text, &whole);
    metronome_count(heap, &after);
    int stays = row.next == FIRST_SPARE && before.roots_used == after.roots_used && before.objects == after.objects;
    for (uint32_t i = FIRST; i <= WORDS; i++) {
        metronome_shape shape;
        stays = stays && metronome_describe(heap, 0, i, &shape).number == i + 1;
    }
    return status == METRONOME_OK && strcmp(text, wanted) == 0 && whole == strlen(wanted) && stays;
}

static void shows_each_kind(void) {
    metronome heap = opened();
    CHECK(is_shown(&heap, FIRST, 2, TWO_DEEP));
    CHECK(is_shown(&heap, FIRST, 1, ONE_DEEP));
    CHECK(is_shown(&heap, FIRST, 0, "#1 plain, refs 2, words 2: 7 18446744073709551615 deeper\n"));
    CHECK(is_shown(&heap, NOTHING, 4, "null\n"));
    metronome_new_plain(&heap, 0, NOTHING, 0, 0);
    CHECK(is_shown(&heap, NOTHING, 4, "#5 plain, refs 0, words 0\n"));
    metronome_new_words(&heap, 0, NOTHING, 0);
    CHECK(is_shown(&heap, NOTHING, 0, "#6 array, words 0\n"));
    metronome_destroy(&heap);
}

/* In each phase, with garbage that the cycle frees and pages that it empties. */
static void shows_in_each_phase(void) {
    metronome heap = opened();
    metronome_spent spent = { 0, METRONOME_IDLE };
    unsigned phases = 0;
    for (uint32_t i = 0; i < 4000; i++) metronome_new_plain(&heap, 0, i % 50 == 0 ? 5 + i / 80 : NOTHING, 0, i % 3);
    for (int cycle = 0; cycle < 3; cycle++) {
        metronome_begin(&heap);
        do {
            CHECK(metronome_quantum(&heap, BUDGET, &spent) == METRONOME_OK);
            CHECK(is_shown(&heap, FIRST, 2, TWO_DEEP));
            phases |= 1u << spent.phase;
        } while (spent.phase != METRONOME_IDLE);
    }
    CHECK(phases == 31);
    metronome_destroy(&heap);
}

/* A file gets what a buffer gets, and a buffer as much as it has room for. */
static void writes_to_files_and_buffers(void) {
    metronome heap = opened();
    metronome_row row = METRONOME_ROW(0, FIRST_SPARE, SLOTS);
    char text[ROOM] = { 0 }, few[10] = "xxxxxxxxx";
    size_t whole = 0;
    FILE *file = tmpfile();
    CHECK(file != NULL && metronome_show(&heap, &row, FIRST, 2, file) == METRONOME_OK);
    rewind(file);
    CHECK(fread(text, 1, sizeof text, file) == strlen(TWO_DEEP) && strcmp(text, TWO_DEEP) == 0);
    fclose(file);
    CHECK(metronome_show_into(&heap, &row, FIRST, 2, few, sizeof few, &whole) == METRONOME_OK);
    CHECK(strcmp(few, "#1 plain,") == 0 && whole == strlen(TWO_DEEP));
    CHECK(metronome_show_into(&heap, &row, FIRST, 1, few, 0, &whole) == METRONOME_OK && whole == strlen(ONE_DEEP));
    CHECK(strcmp(few, "#1 plain,") == 0);
    metronome_destroy(&heap);
}

/* A list longer than the objects that one call shows ends, and each object is shown once. */
static void ends_at_many(void) {
    metronome heap = opened();
    static char text[200000];
    size_t whole = 0;
    metronome_row row = METRONOME_ROW(0, FIRST_SPARE, SLOTS);
    CHECK(metronome_new_refs(&heap, 0, FIRST, 16).kind == METRONOME_MADE);
    for (uint32_t i = 0; i < 16; i++) {
        metronome_new_refs(&heap, 0, SECOND, 16);
        metronome_store(&heap, 0, FIRST, i, SECOND);
        for (uint32_t j = 0; j < 16; j++) {
            metronome_new_refs(&heap, 0, REFS, 16);
            metronome_store(&heap, 0, SECOND, j, REFS);
            for (uint32_t k = 0; k < 16; k++) metronome_store(&heap, 0, REFS, k, k % 2 ? FIRST : SECOND);
        }
    }
    CHECK(metronome_show_into(&heap, &row, FIRST, 3, text, sizeof text, &whole) == METRONOME_OK && whole < sizeof text);
    size_t lines = 0;
    for (const char *at = text; (at = strchr(at, '\n')) != NULL; at++) lines++;
    CHECK(lines == 1 + 16 + 16 * 16 + 16 * 16 * 16);
    metronome_destroy(&heap);
}

static void returns_each_status(void) {
    metronome heap = opened(), closed = METRONOME_CLOSED;
    char text[ROOM];
    size_t whole = 1;
    metronome_row row = METRONOME_ROW(0, FIRST_SPARE, SLOTS), none = METRONOME_ROW(2, 0, 4), dead = METRONOME_ROW(1, 0, 4);
    CHECK(metronome_show_into(&heap, &row, FIRST, 5, text, sizeof text, &whole) == METRONOME_SLOTS_USED && whole == 0);
    CHECK(text[0] == 0);
    CHECK(metronome_show_into(&heap, &row, SLOTS, 1, text, sizeof text, &whole) == METRONOME_BAD_SLOT && whole == 0);
    CHECK(metronome_show_into(&heap, &none, FIRST, 1, text, sizeof text, &whole) == METRONOME_NO_MUTATOR && whole == 0);
    CHECK(metronome_show_into(&heap, &dead, FIRST, 1, text, sizeof text, &whole) == METRONOME_NOT_LIVE && whole == 0);
    CHECK(metronome_show_into(&closed, &row, FIRST, 1, text, sizeof text, &whole) == METRONOME_NO_HEAP && whole == 0);
    metronome_row wide = METRONOME_ROW(0, SLOTS, SLOTS + 4);
    CHECK(metronome_show_into(&heap, &wide, FIRST, 1, text, sizeof text, &whole) == METRONOME_BAD_SLOT && whole > 0);
    metronome_destroy(&heap);
}

int main(void) {
    shows_each_kind();
    shows_in_each_phase();
    writes_to_files_and_buffers();
    ends_at_many();
    returns_each_status();
    printf("%d passed, %d failed\n", passed, failed);
    return failed != 0;
}
