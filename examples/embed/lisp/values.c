#define _POSIX_C_SOURCE 200809L
#include "values.h"
#include <stdio.h>
#include <stdlib.h>
#include <string.h>
#include <time.h>

uint64_t objects;
int64_t longest_call;
int are_calls_timed;

#ifdef LIBGC
root statics[STATICS];
#else
metronome heap = METRONOME_CLOSED;
metronome_recording recording;
metronome_row row = METRONOME_ROW(0, 0, OF_ROW);
#endif

_Noreturn void fail(const char *what) {
    fprintf(stderr, "lisp: %s\n", what);
    exit(1);
}

int64_t processor_time(void) {
    struct timespec t;
    clock_gettime(CLOCK_THREAD_CPUTIME_ID, &t);
    return (int64_t)t.tv_sec * 1000000000 + t.tv_nsec;
}

/* Keeps the time since a call began, if it is the longest. */
static void note_call(int64_t began) {
    int64_t took = processor_time() - began;
    if (took > longest_call) longest_call = took;
}

void make(root *to, enum kind kind, uint64_t number, uint32_t refs, const root *first, uint32_t count) {
    int64_t began = are_calls_timed ? processor_time() : 0;
    new_object(to, kind, number, refs, first, count);
    if (are_calls_timed) note_call(began);
    objects++;
}

void expect(root it, enum kind kind, const char *what) {
    if (kind_of(it) != kind) fail(what);
}

/* ---- Numbers ---- */

void make_integer(root *to, int64_t value) { make(to, INTEGER, (uint64_t)value, 0, NULL, 0); }

void make_real(root *to, double value) {
    uint64_t bits;
    memcpy(&bits, &value, sizeof bits);
    make(to, REAL, bits, 0, NULL, 0);
}

double real_of(root it) {
    uint64_t bits = number_of(it);
    double value;
    if (kind_of(it) == INTEGER) return (double)(int64_t)bits;
    expect(it, REAL, "not a number");
    memcpy(&value, &bits, sizeof value);
    return value;
}

/* ---- Pairs ---- */

void cons(root *to, root car, root cdr) {
    const root parts[] = { car, cdr };
    make(to, PAIR, 0, 2, parts, 2);
}

void car(root *to, root pair) {
    expect(pair, PAIR, "not a pair");
    load(to, pair, CAR);
}

void cdr(root *to, root pair) {
    expect(pair, PAIR, "not a pair");
    load(to, pair, CDR);
}

void item(root *to, root list, uint32_t i) {
    copy(to, list);
    for (; i > 0; i--) cdr(to, *to);
    car(to, *to);
}

uint32_t length_of(root list) {
    frame here = open_frame();
    root rest = local();
    uint32_t length = 0;
    for (copy(&rest, list); kind_of(rest) == PAIR; cdr(&rest, rest)) length++;
    close_frame(here);
    return length;
}

/* ---- Vectors: the number is the length, and the cells lie in an array ---- */

void make_vector(root *to, int64_t length) {
    frame here = open_frame();
    root cells = local();
    if (length < 0 || length > 1000000) fail("no length of a vector");
    int64_t began = are_calls_timed ? processor_time() : 0;
    new_array(&cells, (uint32_t)length);
    if (are_calls_timed) note_call(began);
    make(to, VECTOR, (uint64_t)length, 1, &cells, 1);
    close_frame(here);
}

/* Loads the cells of a vector that has a cell i. */
static void load_cells(root *to, root vector, int64_t i) {
    expect(vector, VECTOR, "not a vector");
    if (i < 0 || (uint64_t)i >= number_of(vector)) fail("the vector has no such cell");
    load(to, vector, CELLS);
}

void vector_load(root *to, root vector, int64_t i) {
    load_cells(to, vector, i);
    load(to, *to, (uint32_t)i);
}

void vector_store(root vector, int64_t i, root value) {
    frame here = open_frame();
    root cells = local();
    load_cells(&cells, vector, i);
    store(cells, (uint32_t)i, value);
    close_frame(here);
}
