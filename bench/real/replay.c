/*
 * replay RECORDING TIMES UNITS [least]: repeats a recorded program's calls of malloc on a heap that keeps a plan. Each block is an
 * array of as many words, which a table of references holds until the program gives it back. The plan is for the most words of
 * blocks that the program, and the table, have live at once. The heap has TIMES the fewest pages with a plan, or more, so that the
 * largest object can be made; quanta have UNITS. No object may be refused, and each must have its number in it when it goes.
 *
 * It prints the calls that make a block, the most live words, the fewest pages with a plan, the pages, the plan's words for each
 * quantum, the quanta that were spent, the most of them before one object, the nanoseconds of the longest call and the seconds of
 * all. With `least` it also prints the fewest pages on which the same calls meet no refusal with the same words for each quantum
 * and each cycle, found by halving. The status is 1 if an object was refused, or isn't as it was made.
 */
#define _POSIX_C_SOURCE 200809L
#include "metronome.h"
#include "recording.h"
#include <stdio.h>
#include <stdlib.h>
#include <string.h>
#include <time.h>

enum { PIECE = 252, MOST_CELLS = 4000000 };

/* The slots: for an object that is just made, for the table, for null, and for an object that goes. */
enum { MADE, TABLE, NOTHING, GOES, SLOTS };

#define NONE UINT32_MAX

/* A call: the cells of a new object, if any, and its place in the table; and the place that is emptied then, if any. */
struct call {
    uint32_t cells;
    uint32_t made;
    uint32_t gone;
};

/* The calls of a program. */
struct program {
    struct call *calls;
    size_t count;
    size_t made;          /* how many calls make an object */
    uint32_t places;      /* how many places the table has */
    uint64_t live_words;  /* the most at once, with those of the table */
    uint64_t most_words;  /* the most words of one object */
};

/* The outcome of a program on a heap. */
struct outcome {
    uint64_t refused;
    uint64_t changed; /* objects that weren't as they were made */
    uint64_t longest; /* nanoseconds of a call that makes an object */
    metronome_work work;
};

/* By an object's number of cells: the words of a block for them, as the heap says, and of all its blocks. */
static uint32_t block_words[PIECE + 1];

static void fail(const char *what) {
    fprintf(stderr, "replay: %s\n", what);
    exit(2);
}

static void *room_for(size_t number, size_t each) {
    void *room = calloc(number == 0 ? 1 : number, each);
    if (room == NULL) fail("no memory");
    return room;
}

/* Asks a heap of one page for the size of the block of each number of cells. */
static void ask_for_sizes(void) {
    const metronome_settings settings = METRONOME_SETTINGS(1, 1, 1);
    for (uint32_t cells = 0; cells <= PIECE; cells++) {
        metronome heap = METRONOME_CLOSED;
        metronome_page_view page;
        if (metronome_create(&heap, &settings) != METRONOME_OK) fail("no heap");
        metronome_new_words(&heap, 0, 0, cells);
        metronome_page(&heap, 0, &page);
        block_words[cells] = page.size;
        metronome_destroy(&heap);
    }
}

/* The words of all blocks of an array: of its pieces, of a spine for each 252 of these, and so on until one is left. */
static uint64_t words_of(uint64_t cells) {
    uint64_t words = 0;
    while (cells > PIECE) {
        const uint64_t parts = (cells + PIECE - 1) / PIECE;
        words += (parts - 1) * block_words[PIECE] + block_words[cells - (parts - 1) * PIECE];
        cells = parts;
    }
    return words + block_words[cells];
}

/* ---- From records to calls ---- */

static int compare(const void *a, const void *b) {
    const uint64_t x = *(const uint64_t *)a, y = *(const uint64_t *)b;
    return (x > y) - (x < y);
}

/* The addresses of records in rising order, each once; and how many. */
static uint64_t *addresses_of(const struct record *records, size_t count, size_t *different) {
    uint64_t *them = room_for(2 * count, sizeof *them);
    for (size_t i = 0; i < count; i++) {
        them[2 * i] = records[i].before;
        them[2 * i + 1] = records[i].after;
    }
    qsort(them, 2 * count, sizeof *them, compare);
    *different = 0;
    for (size_t i = 0; i < 2 * count; i++) {
        if (*different == 0 || them[*different - 1] != them[i]) them[(*different)++] = them[i];
    }
    return them;
}

/* For each address: its object's place in the table, and its cells. */
struct standing {
    uint32_t place;
    uint32_t cells;
};

/* Places that are free again, and how many were ever taken. */
struct places {
    uint32_t *free;
    uint32_t left;
    uint32_t taken;
};

static uint32_t take_place(struct places *places) {
    return places->left > 0 ? places->free[--places->left] : places->taken++;
}

/* Makes the call of a record. An unknown block was there before the recording began. */
static struct call call_of(const struct record *record, struct standing *before, struct standing *after, struct places *places) {
    struct call call = { 0, NONE, NONE };
    if (record->before != 0 && before->place != NONE) {
        call.gone = before->place;
        before->place = NONE;
    }
    if (record->after != 0) {
        if (record->bytes > 8ull * MOST_CELLS) fail("a block of more than 4000000 words");
        call.cells = (uint32_t)((record->bytes + 7) / 8);
        call.made = take_place(places);
        *after = (struct standing){ call.made, call.cells };
    }
    if (call.gone != NONE) places->free[places->left++] = call.gone;
    return call;
}

/* Makes the calls of records. If a block grows, both the new one and the old one are live for a while. */
static struct program program_of(const struct record *records, size_t count) {
    struct program program = { room_for(count, sizeof(struct call)), count, 0, 0, 0, 0 };
    struct places places = { room_for(count, sizeof(uint32_t)), 0, 0 };
    size_t different;
    uint64_t *addresses = addresses_of(records, count, &different);
    struct standing *standing = room_for(different, sizeof *standing);
    uint64_t live = 0;
    for (size_t i = 0; i < different; i++) standing[i].place = NONE;
    for (size_t i = 0; i < count; i++) {
        const size_t size = sizeof *addresses;
        uint64_t *before = bsearch(&records[i].before, addresses, different, size, compare);
        uint64_t *after = bsearch(&records[i].after, addresses, different, size, compare);
        const uint64_t going = words_of(standing[before - addresses].cells);
        struct call call = call_of(&records[i], &standing[before - addresses], &standing[after - addresses], &places);
        program.calls[i] = call;
        if (call.made != NONE) {
            const uint64_t words = words_of(call.cells);
            program.made++;
            live += words;
            if (words > program.most_words) program.most_words = words;
        }
        if (live > program.live_words) program.live_words = live;
        if (call.gone != NONE) live -= going;
    }
    program.places = places.taken;
    program.live_words += words_of(places.taken);
    if (words_of(places.taken) > program.most_words) program.most_words = words_of(places.taken);
    free(places.free);
    free(addresses);
    free(standing);
    return program;
}

static struct program program_in(const char *path) {
    FILE *file = fopen(path, "rb");
    if (file == NULL || fseek(file, 0, SEEK_END) != 0) fail("the recording can't be read");
    const size_t count = (size_t)ftell(file) / sizeof(struct record);
    struct record *records = room_for(count, sizeof *records);
    rewind(file);
    if (fread(records, sizeof *records, count, file) != count) fail("the recording can't be read");
    fclose(file);
    struct program program = program_of(records, count);
    free(records);
    return program;
}

/* ---- A heap, and its pace ---- */

/* A heap that keeps a plan by itself, or that is paced here by the same rule, on any number of pages. */
struct paced {
    metronome heap;
    metronome_flow flow;
    bool keeps;
    uint64_t words;  /* since the last cycle began */
    uint64_t quanta; /* since then */
    uint64_t spent;  /* quanta in all */
};

/* Whether this many words may be made now. */
static bool may_make(struct paced *p, uint64_t words) {
    uint32_t phase = METRONOME_IDLE;
    metronome_phase(&p->heap, &phase);
    if (p->words + words > p->flow.cycle_words) return false;
    return phase == METRONOME_IDLE || p->words + words <= (p->quanta + 1) * p->flow.quantum_words;
}

/* Lets the collector work until this many words may be made. */
static void pay(struct paced *p, uint64_t words) {
    metronome_spent spent;
    while (!may_make(p, words)) {
        if (metronome_begin(&p->heap) == METRONOME_OK) {
            p->words = 0;
            p->quanta = 0;
        } else {
            metronome_quantum(&p->heap, p->flow.budget, &spent);
            p->quanta++;
            p->spent++;
        }
    }
    p->words += words;
}

static uint64_t now(void) {
    struct timespec time;
    clock_gettime(CLOCK_MONOTONIC, &time);
    return (uint64_t)time.tv_sec * 1000000000u + (uint64_t)time.tv_nsec;
}

/* Makes an object, or the table. Returns whether it was made. */
static bool make(struct paced *p, uint32_t slot, uint32_t cells, struct outcome *outcome) {
    const uint64_t began = now();
    if (!p->keeps) pay(p, words_of(cells));
    const metronome_answer answer = slot == TABLE ? metronome_new_refs(&p->heap, 0, slot, cells)
                                                  : metronome_new_words(&p->heap, 0, slot, cells);
    const uint64_t took = now() - began;
    if (took > outcome->longest) outcome->longest = took;
    if (answer.kind != METRONOME_MADE) outcome->refused++;
    return answer.kind == METRONOME_MADE;
}

/* Makes an object, puts its number into it, and puts it into the table. */
static void come(struct paced *p, const struct call *call, struct outcome *outcome) {
    if (!make(p, MADE, call->cells, outcome)) return;
    if (call->cells > 0) metronome_put(&p->heap, 0, MADE, call->cells - 1, call->made);
    metronome_store(&p->heap, 0, TABLE, call->made, MADE);
    metronome_clear(&p->heap, 0, MADE);
}

/* Drops an object, after a test whether its last word is still its number. */
static void go(struct paced *p, uint32_t place, struct outcome *outcome) {
    metronome_shape shape;
    metronome_load(&p->heap, 0, GOES, TABLE, place);
    metronome_describe(&p->heap, 0, GOES, &shape);
    if (shape.words > 0) outcome->changed += metronome_get(&p->heap, 0, GOES, shape.words - 1).number != place;
    metronome_clear(&p->heap, 0, GOES);
    metronome_store(&p->heap, 0, TABLE, place, NOTHING);
}

/* Does the calls of a program, until an object is refused. */
static struct outcome run(const struct program *program, struct paced *p) {
    struct outcome outcome = { 0, 0, 0, { 0, 0, 0 } };
    make(p, TABLE, program->places, &outcome);
    for (size_t i = 0; i < program->count && outcome.refused == 0; i++) {
        const struct call *call = &program->calls[i];
        if (call->made != NONE) come(p, call, &outcome);
        if (call->gone != NONE && outcome.refused == 0) go(p, call->gone, &outcome);
    }
    outcome.work.quanta = p->spent;
    metronome_kept(&p->heap, &outcome.work);
    return outcome;
}

static metronome_settings settings_of(uint64_t pages, uint32_t units) {
    metronome_settings settings = METRONOME_SETTINGS_MOVING((int64_t)pages, 1, SLOTS);
    settings.collector_ticks = 1;
    settings.rate = units;
    return settings;
}

/* Runs a program on a heap of `pages` pages that keeps a plan, or is paced by it here. */
static struct outcome run_on(const struct program *program, uint64_t pages, const metronome_flow *flow, bool keeps) {
    const metronome_settings settings = settings_of(pages, flow->budget);
    struct paced paced = { METRONOME_CLOSED, *flow, keeps, 0, 0, 0 };
    if (metronome_create(&paced.heap, &settings) != METRONOME_OK) fail("no heap");
    if (keeps && metronome_keep(&paced.heap, flow) != METRONOME_OK) fail("the heap keeps no plan");
    if (keeps) metronome_touch(&paced.heap, pages);
    const struct outcome outcome = run(program, &paced);
    metronome_destroy(&paced.heap);
    return outcome;
}

/* The pages that are some times the fewest with a plan, or the next number of times at which the largest object may be made; and
 * the plan there. */
static uint64_t pages_for(const struct program *program, uint64_t times, uint32_t units, metronome_flow *flow) {
    metronome_settings settings = settings_of(1, units);
    metronome_plan(&settings, program->live_words, flow);
    const uint64_t fewest = flow->least_pages;
    for (; fewest > 0; times++) {
        settings = settings_of(times * fewest, units);
        if (metronome_plan(&settings, program->live_words, flow) != METRONOME_OK) break;
        if (flow->cycle_words >= program->most_words) return times * fewest;
    }
    fail("no plan on any number of pages");
    return 0;
}

/* Finds the fewest pages, up to a number, on which a program meets no refusal at the pace of a plan. */
static uint64_t least_for(const struct program *program, uint64_t pages, const metronome_flow *flow) {
    uint64_t refused = program->live_words / 2048, passed = pages;
    while (passed - refused > 1) {
        const uint64_t middle = refused + (passed - refused) / 2;
        if (run_on(program, middle, flow, false).refused == 0) {
            passed = middle;
        } else {
            refused = middle;
        }
    }
    return passed;
}

int main(int count, char **words) {
    metronome_flow flow;
    if (count != 4 && !(count == 5 && strcmp(words[4], "least") == 0)) fail("replay RECORDING TIMES UNITS [least]");
    ask_for_sizes();
    const struct program program = program_in(words[1]);
    const uint64_t pages = pages_for(&program, strtoull(words[2], NULL, 10), (uint32_t)strtoul(words[3], NULL, 10), &flow);
    const uint64_t began = now();
    const struct outcome kept = run_on(&program, pages, &flow, true);
    const double seconds = (double)(now() - began) / 1e9;
    printf("%zu %llu %llu %llu %llu %llu %llu %llu %.2f", program.made, (unsigned long long)program.live_words,
           (unsigned long long)flow.least_pages, (unsigned long long)pages, (unsigned long long)flow.quantum_words,
           (unsigned long long)kept.work.quanta, (unsigned long long)kept.work.most_quanta, (unsigned long long)kept.longest, seconds);
    if (run_on(&program, pages, &flow, false).work.quanta != kept.work.quanta) fail("the pace here isn't that of the heap");
    if (count == 5) printf(" %llu", (unsigned long long)least_for(&program, pages, &flow));
    printf("\n");
    free(program.calls);
    return kept.refused > 0 || kept.changed > 0;
}
