/*
 * Each call, each list of commands and each kind of answer, recorded into calls.toml, calls.trace and calls.history, also what the
 * collector does for a plan; and recordings that lose events, whose heap has no log, and whose file takes nothing.
 */
#include "metronome_record.h"
#include "checks.h"

enum { WORD = 7 };

static metronome heap = METRONOME_CLOSED;
#define ANSWERS(what, call) check((call).kind == (what), __LINE__)

static void write_cells(void) {
    ANSWERS(METRONOME_MADE, metronome_new_plain(&heap, 0, 0, 2, 2));
    ANSWERS(METRONOME_MADE, metronome_new_refs(&heap, 0, 1, 300));
    ANSWERS(METRONOME_MADE, metronome_new_words(&heap, 0, 2, 3));
    ANSWERS(METRONOME_DONE, metronome_store(&heap, 0, 1, 299, 0));
    ANSWERS(METRONOME_REF, metronome_load(&heap, 0, 3, 1, 299));
    ANSWERS(METRONOME_STORED, metronome_compare_store(&heap, 0, 0, 1, 5, 2));
    ANSWERS(METRONOME_KEPT, metronome_compare_store(&heap, 0, 0, 1, 5, 5));
    ANSWERS(METRONOME_DONE, metronome_put(&heap, 0, 0, 1, UINT64_MAX));
    ANSWERS(METRONOME_WORD, metronome_get(&heap, 0, 0, 1));
    ANSWERS(METRONOME_KEPT_WORD, metronome_compare_put(&heap, 0, 0, 1, 0, WORD));
    ANSWERS(METRONOME_STORED, metronome_compare_put(&heap, 0, 0, 1, UINT64_MAX, WORD));
    ANSWERS(METRONOME_REFUSED, metronome_get(&heap, 0, 5, 0));
    ANSWERS(METRONOME_REFUSED, metronome_new_refs(&heap, 0, 0, 4000001));
    ANSWERS(METRONOME_REFUSED, metronome_get(&heap, UINT32_MAX, 5, 0));
}

static void write_slots(void) {
    metronome_shape shape;
    ANSWERS(METRONOME_DONE, metronome_copy(&heap, 0, 4, 1));
    ANSWERS(METRONOME_DONE, metronome_clear(&heap, 0, 1));
    ANSWERS(METRONOME_IS, metronome_same(&heap, 0, 0, 3));
    ANSWERS(METRONOME_IS, metronome_same(&heap, 0, 0, 4));
    ANSWERS(METRONOME_DONE, metronome_store_static(&heap, 0, 0, 4));
    ANSWERS(METRONOME_REF, metronome_load_static(&heap, 0, 1, 0));
    ANSWERS(METRONOME_KEPT, metronome_compare_static(&heap, 0, 0, 5, 5));
    ANSWERS(METRONOME_STORED, metronome_compare_static(&heap, 0, 0, 1, 5));
    for (uint32_t slot = 0; slot < 3; slot++) ANSWERS(METRONOME_DESCRIBED, metronome_describe(&heap, 0, slot, &shape));
    ANSWERS(METRONOME_REFUSED, metronome_describe(&heap, 0, 5, &shape));
    ANSWERS(METRONOME_DONE, metronome_join(&heap, 1));
    ANSWERS(METRONOME_REFUSED, metronome_join(&heap, 1));
    ANSWERS(METRONOME_DONE, metronome_leave(&heap, 1));
    ANSWERS(METRONOME_REFUSED, metronome_copy(&heap, 1, 0, 0));
}

/* Lists of commands: one that is done, one whose second command is refused, and one that is too large. */
static void write_lists(void) {
    const uint32_t slots[] = { 0, 1 };
    uint64_t words[] = { 1, 2, 3 }, many[253] = { 0 };
    CHECK(metronome_new_with(&heap, 0, 6, 3, 3, slots, 2, words, 3).done == 6);
    CHECK(metronome_get_words(&heap, 0, 6, 1, words, 3).done == 2 && metronome_put_words(&heap, 0, 6, 0, many, 253).done == 0);
    CHECK(metronome_copy_refs(&heap, 0, 7, 6, 0, 6, 1, 2).done == 4 && metronome_move(&heap, 0, 5, 6).done == 2);
    CHECK(metronome_clear_slots(&heap, 0, 6, 3).done == 2);
}

/* The collector, by the calls, by those over the calls, and by the plan. A quantum that is refused is no line. */
static void write_collector(void) {
    metronome_spent spent;
    metronome_row row = METRONOME_ROW(0, 5, 8);
    metronome_pacing pacing = METRONOME_PACING(300, 10, 300);
    uint32_t slot = 0;
    CHECK(metronome_begin(&heap) == METRONOME_OK && metronome_begin(&heap) == METRONOME_BUSY);
    CHECK(metronome_quantum(&heap, 256, &spent) == METRONOME_OK);
    CHECK(metronome_quantum(&heap, 255, &spent) == METRONOME_BAD_BUDGET);
    metronome_frame frame = metronome_open_frame(&row);
    CHECK(metronome_take_slot(&row, &slot) == METRONOME_OK);
    ANSWERS(METRONOME_MADE, metronome_new_plain(&heap, 0, slot, 0, 1));
    CHECK(metronome_close_frame(&heap, &row, frame) == METRONOME_OK);
    CHECK(metronome_pace(&heap, &pacing, 35) == METRONOME_OK);
    CHECK(metronome_whole_cycle(&heap, 1000) == METRONOME_OK);
    for (int n = 0; n < 100; n++) ANSWERS(METRONOME_MADE, metronome_new_words(&heap, 0, 5, 1000));
}

/* Records a heap that keeps a plan, into three files. */
static void record_calls(void) {
    FILE *files[] = { fopen("calls.toml", "w"), fopen("calls.trace", "w"), fopen("calls.history", "w") };
    metronome_settings settings = METRONOME_SETTINGS_MOVING(300, 2, 8);
    metronome_recording recording;
    metronome_flow plan;
    uint64_t place = 0;
    settings.statics = 1;
    settings.live = 1;
    CHECK(metronome_record_begin(&recording, &settings, files[0], files[1], files[2]));
    CHECK(metronome_plan(&settings, 20000, &plan) == METRONOME_OK);
    CHECK(metronome_create_shared_kept(&heap, &settings, 10000, &plan) == METRONOME_OK && metronome_enter(&heap) == METRONOME_OK);
    CHECK(metronome_record(&recording, &heap) && recording.next == 0);
    write_cells();
    CHECK(metronome_record(&recording, &heap) && recording.next > 0);
    write_slots();
    write_lists();
    write_collector();
    CHECK(metronome_record(&recording, &heap) && recording.lost == 0);
    CHECK(metronome_exit(&heap) == METRONOME_OK && !metronome_record(&recording, &heap));
    CHECK(metronome_place(&heap, &place) == METRONOME_OK && recording.next == place);
    metronome_destroy(&heap);
    for (int i = 0; i < 3; i++) CHECK(fclose(files[i]) == 0);
}

/* Records two clears on a heap that keeps the last event, to these files. Returns what metronome_record returns. */
static bool records_clears(metronome_recording *recording, FILE *settings_file, FILE *trace) {
    metronome_settings settings = METRONOME_SETTINGS(1, 1, 1);
    const bool begun = metronome_record_begin(recording, &settings, settings_file, trace, NULL);
    CHECK(metronome_create_shared(&heap, &settings, 1) == METRONOME_OK && metronome_enter(&heap) == METRONOME_OK);
    for (int n = 0; n < 2; n++) ANSWERS(METRONOME_DONE, metronome_clear(&heap, 0, 0));
    const bool holds = metronome_record(recording, &heap);
    metronome_destroy(&heap);
    return begun && holds;
}

/* Events that are gone are counted. A file that is missing or that takes nothing is told, and so is a heap without a log. */
static void check_losses(void) {
    FILE *full = fopen("/dev/full", "w"), *null = fopen("/dev/null", "w");
    metronome_settings settings = METRONOME_SETTINGS(1, 1, 1);
    metronome_recording recording;
    if (full == NULL || null == NULL) return;
    setvbuf(full, NULL, _IONBF, 0);
    CHECK(records_clears(&recording, null, null) && recording.next == 2 && recording.lost == 1);
    CHECK(!records_clears(&recording, null, full) && recording.next == 0);
    CHECK(!records_clears(&recording, null, NULL) && !records_clears(&recording, NULL, null) && !records_clears(&recording, full, null));
    CHECK(metronome_record_begin(&recording, &settings, null, null, NULL));
    CHECK(metronome_create(&heap, &settings) == METRONOME_OK && !metronome_record(&recording, &heap));
    metronome_destroy(&heap);
    fclose(full);
    fclose(null);
}

int main(void) {
    record_calls();
    check_losses();
    return checked();
}
