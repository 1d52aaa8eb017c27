/*
 * calls KIND PAGES COUNT MOST: prepares a heap of PAGES pages and does COUNT calls of a kind. Built with -DFLOOR the heap is the one
 * of floor.c, and else the library. It writes a line: the kind, how many calls, how many of them gave a wrong answer, the sum of
 * their answers, nanoseconds, and 0. The prepared heap doesn't depend on COUNT, so two runs differ only by their calls.
 */
#define _POSIX_C_SOURCE 200809L
#include <inttypes.h>
#include <stdio.h>
#include <stdlib.h>
#include <string.h>
#include <time.h>

#ifdef FLOOR
#include "floor.h"
#define CALL(name, ...) floor_##name(heap, __VA_ARGS__)
typedef floor_heap *handle;
#else
#include "metronome.h"
#define CALL(name, ...) metronome_##name(heap, __VA_ARGS__)
typedef metronome *handle;
#endif

enum { LONGEST = 252, ARRAYS = 40, OBJECTS = 130, OTHER = 255 };

static void need(bool holds) {
    if (holds) return;
    fprintf(stderr, "calls: what is prepared was refused\n");
    exit(1);
}

static handle create(uint32_t pages, uint32_t mutators) {
#ifdef FLOOR
    floor_heap *heap = floor_create(pages, mutators);
    need(heap != NULL);
    return heap;
#else
    static metronome heap = METRONOME_CLOSED;
    metronome_settings settings = METRONOME_SETTINGS(pages, mutators, 256);
    need(metronome_create(&heap, &settings) == METRONOME_OK);
    return &heap;
#endif
}

static void begin(handle heap) {
#ifdef FLOOR
    floor_begin(heap);
#else
    need(metronome_begin(heap) == METRONOME_OK);
#endif
}

/* ---- What is prepared ---- */

/* 130 objects of 4 references and 4 words in the slots from 0, the references all to object 128. */
static void make_objects(handle heap) {
    for (uint32_t slot = 0; slot < OBJECTS; slot++) need(CALL(new_plain, 0, slot, 4, 4).kind == METRONOME_MADE);
    for (uint32_t n = 0; n < 512; n++) need(CALL(store, 0, n / 4, n % 4, 128).kind == METRONOME_DONE);
}

/* Arrays of references, each cell with an object of its own. */
static void make_arrays(handle heap) {
    for (uint32_t slot = 0; slot < ARRAYS; slot++) {
        need(CALL(new_refs, 0, slot, LONGEST).kind == METRONOME_MADE);
        for (uint32_t i = 0; i < LONGEST; i++) {
            need(CALL(new_plain, 0, OTHER, 0, 0).kind == METRONOME_MADE);
            need(CALL(store, 0, slot, i, OTHER).kind == METRONOME_DONE);
        }
    }
    need(CALL(clear, 0, OTHER).kind == METRONOME_DONE);
}

#ifndef FLOOR
enum { SHORT = 1000, LONG = 4000000 };

/* An array of words or of references in slot 0, near or far as the kind says; it has SHORT or LONG cells. */
static void make_array(handle heap, const char *kind) {
    const uint32_t cells = strstr(kind, "near") ? SHORT : LONG;
    need((kind[0] == 'g' ? CALL(new_words, 0, 0, cells) : CALL(new_refs, 0, 0, cells)).kind == METRONOME_MADE);
}

/* A cell of an array by the turn: cells far from one another. */
static uint32_t cell(uint32_t turn, uint32_t cells) {
    return turn * 7919 % cells;
}
#endif

/* An object in each slot of 64 mutators. */
static void fill_slots(handle heap) {
    for (uint32_t n = 0; n < 64 * 256; n++) need(CALL(new_plain, n / 256, n % 256, 0, 0).kind == METRONOME_MADE);
}

/* ---- Calls ---- */

struct told {
    uint64_t wrong;
    uint64_t sum;
};

#define REPEAT(call) \
    do { \
        for (uint32_t n = 0; n < count; n++) { \
            metronome_answer answer = call; \
            if (answer.kind == METRONOME_REFUSED || answer.kind == METRONOME_KEPT) \
                told.wrong++; \
            else \
                told.sum += answer.number; \
        } \
    } while (0)

static struct told repeat(handle heap, const char *kind, uint32_t count) {
    struct told told = { 0, 0 };
    if (strcmp(kind, "get") == 0) REPEAT(CALL(get, 0, n % 128, n % 4));
    else if (strcmp(kind, "put") == 0) REPEAT(CALL(put, 0, n % 128, n % 4, n));
    else if (strcmp(kind, "load") == 0) REPEAT(CALL(load, 0, 130 + n % 64, n % 128, n % 4));
    else if (strcmp(kind, "cas") == 0)
        REPEAT(CALL(compare_store, 0, n % 128, n / 128 % 4, 128 + n / 512 % 2, 129 - n / 512 % 2));
    else if (strcmp(kind, "same") == 0) REPEAT(CALL(same, 0, n % 128, n / 2 % 128));
    else if (strcmp(kind, "clear") == 0) REPEAT(CALL(clear, n / 256 % 64, n % 256));
#ifndef FLOOR
    else if (strcmp(kind, "getnear") == 0) REPEAT(CALL(get, 0, 0, cell(n, SHORT)));
    else if (strcmp(kind, "getfar") == 0) REPEAT(CALL(get, 0, 0, cell(n, LONG)));
    else if (strcmp(kind, "loadnear") == 0) REPEAT(CALL(load, 0, 1, 0, cell(n, SHORT)));
    else if (strcmp(kind, "loadfar") == 0) REPEAT(CALL(load, 0, 1, 0, cell(n, LONG)));
    else if (strcmp(kind, "newarray") == 0) REPEAT(CALL(new_words, 0, 0, LONG));
#endif
    else if (strcmp(kind, "new") == 0) REPEAT(CALL(new_plain, 0, n % 200, n % 4, 3 - n % 4));
    else REPEAT(CALL(store, 0, n / LONGEST, n % LONGEST, OTHER));
    return told;
}

static handle prepare(const char *kind, uint32_t pages) {
    handle heap = create(pages, strcmp(kind, "clear") == 0 ? 64 : 1);
    if (strcmp(kind, "clear") == 0) fill_slots(heap);
    else if (strcmp(kind, "store") == 0 || strcmp(kind, "recorded") == 0) make_arrays(heap);
#ifndef FLOOR
    else if (strstr(kind, "near") || strstr(kind, "far")) make_array(heap, kind);
#endif
    else if (strncmp(kind, "new", 3) != 0) make_objects(heap);
    if (strcmp(kind, "recorded") == 0) begin(heap);
    return heap;
}

int main(int words, char **word) {
    if (words != 5) return 2;
    uint32_t count = (uint32_t)atol(word[3]);
    handle heap = prepare(word[1], (uint32_t)atol(word[2]));
    struct timespec began, ended;
    clock_gettime(CLOCK_MONOTONIC, &began);
    struct told told = repeat(heap, word[1], count);
    clock_gettime(CLOCK_MONOTONIC, &ended);
    int64_t took = (int64_t)(ended.tv_sec - began.tv_sec) * 1000000000 + ended.tv_nsec - began.tv_nsec;
    printf("%s %" PRIu32 " %" PRIu64 " %" PRIu64 " %" PRId64 " 0\n", word[1], count, told.wrong, told.sum, took);
    return 0;
}
