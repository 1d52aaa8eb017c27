/*
 * The library's requests to malloc. It makes all of them in metronome_create, and none later; for a heap that threads share,
 * it makes all of them when a handle is made. Each request is refused in turn: the handle stays closed, and no memory is lost.
 * Linked with --wrap=malloc, --wrap=realloc and --wrap=free.
 */
#include "metronome_shared.h"
#include <stdio.h>
#include <stdlib.h>
#include <string.h>

void *__real_malloc(size_t size);
void *__real_realloc(void *block, size_t size);
void __real_free(void *block);

static long requests, held, refused_at;
static size_t bytes;

static int is_refused(void) { return ++requests == refused_at; }

void *__wrap_malloc(size_t size);
void *__wrap_malloc(size_t size) {
    if (is_refused()) return NULL;
    held++;
    bytes += size;
    return __real_malloc(size);
}

void *__wrap_realloc(void *block, size_t size);
void *__wrap_realloc(void *block, size_t size) {
    if (is_refused()) return NULL;
    if (block == NULL) held++;
    return __real_realloc(block, size);
}

void __wrap_free(void *block);
void __wrap_free(void *block) {
    if (block != NULL) held--;
    __real_free(block);
}

static int passed, failed;

static void check(int holds, const char *what) {
    if (holds) {
        passed++;
    } else {
        failed++;
        fprintf(stderr, "failed: %s\n", what);
    }
}

/* Each status has the text of its number in the header. */
static void check_texts(void) {
    static const struct {
        uint32_t status;
        const char *text;
    } texts[] = {
        { METRONOME_OK, "done" },
        { METRONOME_BAD_SLOT, "no such mutator or slot" },
        { METRONOME_NULL_SLOT, "the slot holds null" },
        { METRONOME_BAD_INDEX, "no such cell" },
        { METRONOME_WRONG_KIND, "the object has no such cells" },
        { METRONOME_TOO_LARGE, "too large an object, or too many cells" },
        { METRONOME_IDENTITIES_SPENT, "all identities are spent" },
        { METRONOME_NO_SPACE, "no space" },
        { METRONOME_BAD_STATIC, "no such static" },
        { METRONOME_NO_MEMORY, "no memory" },
        { METRONOME_BUSY, "a cycle is on already" },
        { METRONOME_BAD_BUDGET, "the budget is out of range" },
        { METRONOME_NOT_LIVE, "the mutator isn't live" },
        { METRONOME_ALREADY_LIVE, "the mutator is live already" },
        { METRONOME_NO_HEAP, "the heap is closed" },
        { METRONOME_OPEN, "the heap is open already" },
        { METRONOME_BAD_SCHEDULE, "collector_ticks times rate is out of range" },
        { METRONOME_BAD_HANDLE, "this is no handle" },
        { METRONOME_BAD_SETTING + 0, "pages is out of range" },
        { METRONOME_BAD_SETTING + 10, "live is out of range" },
        { METRONOME_BAD_SETTING + 11, "no such status" },
        { METRONOME_OTHER_VERSION, "the program was built for another version" },
        { METRONOME_TAKEN, "another handle has the turn" },
        { METRONOME_INSIDE, "the handle has the turn" },
        { METRONOME_OUTSIDE, "the handle doesn't have the turn" },
        { METRONOME_NOT_YOURS, "the mutator is another handle's" },
        { METRONOME_NOT_YOURS + 1, "no such status" },
        { METRONOME_NO_PLAN, "no plan fits" },
        { METRONOME_ABOVE_PLAN, "the object is above the plan" },
        { METRONOME_NO_MUTATOR, "no such mutator" },
        { METRONOME_SLOTS_USED, "all slots are used" },
        { METRONOME_OTHER_MUTATOR, "the root is another mutator's" },
        { METRONOME_NOT_SHARED, "the heap isn't shared" },
        { METRONOME_IS_SHARED, "the heap is shared" },
        { METRONOME_IN_USE, "the heap is in use" },
        { METRONOME_IN_USE + 1, "no such status" },
    };
    for (size_t i = 0; i < sizeof texts / sizeof *texts; i++) {
        char text[64];
        size_t length = metronome_text(texts[i].status, text, sizeof text);
        check(length == strlen(texts[i].text) && strcmp(text, texts[i].text) == 0, texts[i].text);
    }
}

/* Making and dropping objects through some cycles, with moving, asks malloc for nothing. */
static void check_use(metronome *heap) {
    long before = requests;
    metronome_spent spent;
    uint32_t phases = 0;
    for (uint32_t i = 0; i < 100000; i++) {
        metronome_new_plain(heap, 0, i % 7, 1, i % 200);
        metronome_store(heap, 0, i % 7, 0, i % 5);
        metronome_new_words(heap, 0, 7, i % 1000);
        metronome_begin(heap);
        metronome_quantum(heap, 256, &spent);
        phases |= 1u << spent.phase;
    }
    check(requests == before, "nothing is asked of malloc by commands and quanta");
    check(phases >> METRONOME_MOVING == 1, "blocks were moved");
}

/* A large heap with the most roots is made, and given back. */
static void check_large(void) {
    metronome heap = METRONOME_CLOSED;
    metronome_settings settings = METRONOME_SETTINGS(8192, 64, 256);
    settings.statics = 256;
    long stood = held;
    check(metronome_create(&heap, &settings) == METRONOME_OK, "a large heap");
    metronome_destroy(&heap);
    check(held == stood, "all of a large heap is given back");
}

/* A turn of a handle, with quanta, asks malloc for nothing. */
static void check_turn(metronome *heap, uint32_t mutator) {
    long before = requests;
    metronome_spent spent;
    check(metronome_enter(heap) == METRONOME_OK, "a turn");
    check(metronome_new_words(heap, mutator, 7, 1).kind == METRONOME_MADE, "a mutator of the handle's");
    for (uint32_t i = 0; i < 1000; i++) {
        metronome_new_plain(heap, mutator, i % 7, 1, i % 200);
        metronome_begin(heap);
        metronome_quantum(heap, 256, &spent);
    }
    check(metronome_exit(heap) == METRONOME_OK && requests == before, "nothing is asked of malloc in a turn");
}

/* Makes two handles at a heap, with the request of this number refused, if there are as many. Returns whether there are. */
static int is_met(long number, const metronome_settings *settings) {
    metronome heap = METRONOME_CLOSED, other = METRONOME_CLOSED;
    long stood = held;
    requests = 0;
    refused_at = number;
    uint32_t made = metronome_create_shared(&heap, settings, 0);
    uint32_t added = made == METRONOME_OK ? metronome_sit(&heap, &other, 1) : METRONOME_OK;
    int met = requests >= number;
    refused_at = 0;
    check((made == METRONOME_NO_MEMORY) + (added == METRONOME_NO_MEMORY) == met, "a request that is refused is told");
    check(made == METRONOME_OK || heap.check == 0, "a handle without a heap is closed");
    if (made == METRONOME_OK) check_turn(&heap, 0);
    if (made == METRONOME_OK && added != METRONOME_OK) check_turn(&heap, 1);
    if (made == METRONOME_OK && added == METRONOME_OK) check_turn(&other, 1);
    long before = requests;
    metronome_destroy(&other);
    metronome_destroy(&heap);
    check(held == stood && requests == before, "all is given back with the last handle");
    return met;
}

int main(void) {
    metronome heap = METRONOME_CLOSED;
    metronome_settings settings = METRONOME_SETTINGS(64, 2, 8);
    settings.defrag_below = 65;
    settings.defrag_pages = 2;
    check(metronome_version() == METRONOME_VERSION, "the version of the header is the library's");
    check_texts();

    long stood = held;
    check(metronome_create(&heap, &settings) == METRONOME_OK, "create");
    long needed = requests;
    size_t asked = bytes;
    check_use(&heap);
    metronome_destroy(&heap);
    check(held == stood, "all is given back");
    check_large();

    int refused = 0;
    for (refused_at = 1; refused_at <= needed; refused_at++) {
        requests = 0;
        if (metronome_create(&heap, &settings) == METRONOME_NO_MEMORY && held == stood
            && metronome_begin(&heap) == METRONOME_NO_HEAP)
            refused++;
        else
            metronome_destroy(&heap);
    }
    refused_at = 0;
    check(refused == needed, "each refused request is told, and nothing is lost");
    long number = 1;
    while (is_met(number, &settings)) number++;
    check(number > needed, "a shared heap asks for no less");
    printf("%ld requests of %zu bytes in all for 64 pages\n", needed, asked);
    printf("%d passed, %d failed\n", passed, failed);
    return failed != 0;
}
