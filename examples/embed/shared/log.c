/*
 * log [ROUNDS]: the log of a heap that threads share. First come rings of several capacities: after each random call each
 * place is asked for. Then four threads with a mutator each do random commands, begin cycles and spend quanta. In the turn
 * each notes every call with its answer, after the calls of all others, while another thread reads the log. In the end the
 * ring has exactly the noted entries, and the reader has read the same ones.
 */
#include "model.h"
#include "../checks.h"
#include <pthread.h>
#include <stdio.h>
#include <stdlib.h>
#include <string.h>

enum { THREADS = 4, AT_MOST = 16, SHORT = 12 };

/* Returns a command with these numbers. */
static metronome_command numbered(uint32_t kind, uint32_t first, uint32_t second, uint32_t third, uint32_t fourth) {
    metronome_command it = { kind, first, second, third, fourth, 0, 0 };
    return it;
}

/* Returns a command on a word cell, with these words. */
static metronome_command worded(uint32_t kind, uint32_t obj, uint32_t i, uint64_t first_word, uint64_t second_word) {
    metronome_command it = { kind, obj, i, 0, 0, first_word, second_word };
    return it;
}

/* Returns a random command, as the log has it. */
static metronome_command logged(const struct command *command) {
    const struct command it = *command;
    uint32_t a = it.slots[0], b = it.slots[1], c = it.slots[2];
    switch (it.kind) {
    case NEW_PLAIN: return numbered(METRONOME_NEW, a, METRONOME_PLAIN, it.i, it.j);
    case NEW_REFS: return numbered(METRONOME_NEW, a, METRONOME_REF_ARRAY, it.i, 0);
    case NEW_WORDS: return numbered(METRONOME_NEW, a, METRONOME_WORD_ARRAY, 0, it.j);
    case LOAD: return numbered(METRONOME_LOAD, a, b, it.i, 0);
    case STORE: return numbered(METRONOME_STORE, a, it.i, b, 0);
    case COMPARE_STORE: return numbered(METRONOME_COMPARE_STORE, a, it.i, b, c);
    case GET: return worded(METRONOME_GET, a, it.i, 0, 0);
    case PUT: return worded(METRONOME_PUT, a, it.i, it.word, 0);
    case COMPARE_PUT: return worded(METRONOME_COMPARE_PUT, a, it.i, it.old, it.word);
    case COPY: return numbered(METRONOME_COPY, a, b, 0, 0);
    case CLEAR: return numbered(METRONOME_CLEAR, a, 0, 0, 0);
    case LOAD_STATIC: return numbered(METRONOME_LOAD_STATIC, a, it.i, 0, 0);
    case STORE_STATIC: return numbered(METRONOME_STORE_STATIC, it.i, a, 0, 0);
    case COMPARE_STATIC: return numbered(METRONOME_COMPARE_STATIC, it.i, a, b, 0);
    case SAME: return numbered(METRONOME_SAME, a, b, 0, 0);
    case DESCRIBE: return numbered(METRONOME_DESCRIBE, a, 0, 0, 0);
    case JOIN: return numbered(METRONOME_JOIN, 0, 0, 0, 0);
    default: return numbered(METRONOME_LEAVE, 0, 0, 0, 0);
    }
}

static int same_command(const metronome_command *a, const metronome_command *b) {
    return a->kind == b->kind && a->first == b->first && a->second == b->second && a->third == b->third
        && a->fourth == b->fourth && a->first_word == b->first_word && a->second_word == b->second_word;
}

static int same_entry(const metronome_event *a, const metronome_event *b) {
    return a->kind == b->kind && a->mutator == b->mutator && same_command(&a->command, &b->command)
        && a->answer.kind == b->answer.kind && a->answer.number == b->answer.number && a->shape.kind == b->shape.kind
        && a->shape.refs == b->shape.refs && a->shape.words == b->shape.words;
}

/* Does a random command in the turn. Returns the entry that the log must have for it. */
static metronome_event note_drawn(metronome *heap, struct model *model, uint64_t *seed) {
    metronome_event entry;
    metronome_shape shape = { 0, 0, 0 };
    struct command it = draw_command(model, seed);
    memset(&entry, 0, sizeof entry);
    entry.kind = METRONOME_ENTERED;
    entry.mutator = model->mutator;
    entry.command = logged(&it);
    entry.answer = call(heap, model->mutator, &it, &shape);
    entry.shape = shape;
    metronome_shape told = UNTOLD;
    if (entry.answer.kind == METRONOME_DESCRIBED) told = shape;
    is_as_modelled(model, &it, entry.answer, &told); /* the model does the command too */
    return entry;
}

/* Returns the entry of a call of the collector, as the log has it. */
static metronome_event asked(metronome_command command, uint32_t status) {
    metronome_event entry;
    memset(&entry, 0, sizeof entry);
    entry.kind = METRONOME_ENTERED;
    entry.command = command;
    entry.answer.kind = status == METRONOME_OK ? METRONOME_DONE : METRONOME_REFUSED;
    entry.answer.number = status;
    return entry;
}

/* The phase of a heap, by the calls in turns, and how many calls reported another than they should. */
struct collector {
    uint32_t phase;
    uint64_t wrong;
};

/* Begins a cycle in the turn. It must be refused exactly if a cycle is running. */
static metronome_event note_begin(metronome *heap, struct collector *collector) {
    uint32_t status = metronome_begin(heap);
    collector->wrong += status != (uint32_t)(collector->phase == METRONOME_IDLE ? METRONOME_OK : METRONOME_BUSY);
    if (status == METRONOME_OK) collector->phase = METRONOME_ROOTS;
    return asked(numbered(METRONOME_BEGIN, 0, 0, 0, 0), status);
}

/* Spends a random budget in the turn. It must be refused exactly if no quantum may have that budget; without a cycle it spends
   no unit. */
static metronome_event note_quantum(metronome *heap, struct collector *collector, uint64_t *seed) {
    uint32_t budget = 250 + (uint32_t)(drawn(seed) % 64);
    metronome_spent spent = { 0, 0 };
    uint32_t status = metronome_quantum(heap, budget, &spent);
    collector->wrong += status != (uint32_t)(budget < 256 ? METRONOME_BAD_BUDGET : METRONOME_OK) || spent.units > budget;
    if (status != METRONOME_OK) return asked(numbered(METRONOME_QUANTUM, budget, 0, 0, 0), status);
    collector->wrong += collector->phase == METRONOME_IDLE && (spent.units != 0 || spent.phase != METRONOME_IDLE);
    collector->phase = spent.phase;
    return asked(numbered(METRONOME_QUANTUM, budget, spent.units, spent.phase, 0), status);
}

/* Makes one call in the turn, mostly a command. Returns the entry that the log must have for it. */
static metronome_event note_call(metronome *heap, struct model *model, struct collector *collector, uint64_t *seed) {
    switch (drawn(seed) % 8) {
    case 0: return note_begin(heap, collector);
    case 1: return note_quantum(heap, collector, seed);
    default: return note_drawn(heap, model, seed);
    }
}

/* Asks for each place up to the one after the next, and for the same places once more, since they wrap. */
static void check_places(metronome *heap, const metronome_event *noted, uint64_t count, uint64_t ring) {
    for (uint64_t place = 0; place <= count + 1; place++)
        for (int again = 0; again < 2; again++) {
            metronome_event entry, none;
            memset(&entry, 7, sizeof entry);
            memset(&none, 0, sizeof none);
            none.kind = place == count ? METRONOME_NOT_YET : METRONOME_GONE;
            IS(METRONOME_OK, metronome_entry(heap, place + ((uint64_t)again << 63), &entry));
            CHECK(same_entry(&entry, place < count && count - place <= ring ? &noted[place] : &none));
        }
}

static void check_ring(uint64_t ring) {
    metronome_settings settings = METRONOME_SETTINGS(4, 2, SLOTS);
    metronome heap = METRONOME_CLOSED;
    metronome_event noted[SHORT + 1], entry;
    struct collector collector = { METRONOME_IDLE, 0 };
    struct model model;
    uint64_t seed = 88172645463325252u + ring;
    settings.statics = STATICS;
    memset(&entry, 7, sizeof entry);
    const metronome_event untold = entry;
    IS(METRONOME_NO_HEAP, metronome_entry(&heap, 0, &entry));
    IS(METRONOME_OTHER_VERSION, metronome_create_shared_for(&heap, &settings, ring, METRONOME_VERSION + 1));
    IS(METRONOME_OK, metronome_create_shared(&heap, &settings, ring));
    IS(METRONOME_OPEN, metronome_create_shared(&heap, &settings, ring));
    IS(METRONOME_OUTSIDE, metronome_entry(&heap, 0, &entry));
    CHECK(same_entry(&entry, &untold) && open_model(&model, 1, SHORT));
    IS(METRONOME_OK, metronome_enter(&heap));
    for (uint64_t count = 0; count <= SHORT; count++) {
        check_places(&heap, noted, count, ring);
        noted[count] = note_call(&heap, &model, &collector, &seed);
    }
    CHECK(collector.wrong == 0);
    metronome_destroy(&heap);
    close_model(&model);
}

/* A thread with its mutator. */
struct worker {
    metronome heap;
    struct model model;
    uint64_t seed;
    uint32_t rounds;
    int refused;
};

static metronome own = METRONOME_CLOSED, reader = METRONOME_CLOSED;
static metronome_gate gate = METRONOME_GATE;
static metronome_event *read_entries;
static uint64_t read_count; /* by the reader alone, until it has ended */
static int is_over;         /* this and the next are read and written in turns alone */
static metronome_event *noted;
static uint64_t noted_count;
static struct collector cycles = { METRONOME_IDLE, 0 };

static void *work(void *argument) {
    struct worker *self = argument;
    for (uint32_t round = 0; round < self->rounds; round++) {
        uint64_t calls = drawn(&self->seed) % AT_MOST;
        self->refused |= metronome_gate_enter(&gate, &self->heap) != METRONOME_OK;
        for (uint64_t n = 0; n < calls; n++)
            noted[noted_count++] = note_call(&self->heap, &self->model, &cycles, &self->seed);
        self->refused |= metronome_gate_exit(&gate, &self->heap) != METRONOME_OK;
    }
    return NULL;
}

/* Reads on, turn by turn, from the first place that wasn't read. */
static void *read_log(void *argument) {
    for (int over = 0; !over;) {
        if (metronome_gate_enter(&gate, &reader) != METRONOME_OK) break;
        over = is_over;
        for (;;) {
            metronome_event *entry = &read_entries[read_count];
            if (metronome_entry(&reader, read_count, entry) != METRONOME_OK || entry->kind != METRONOME_ENTERED) break;
            read_count++;
        }
        metronome_gate_exit(&gate, &reader);
    }
    return argument;
}

/* Makes a handle for each worker and for the reader, and room for the entries noted and read. */
static void open_workers(struct worker *workers, uint32_t rounds) {
    const size_t most = (size_t)rounds * AT_MOST;
    metronome_settings settings = METRONOME_SETTINGS(256, THREADS, SLOTS);
    settings.statics = STATICS;
    IS(METRONOME_OK, metronome_create_shared(&own, &settings, THREADS * most));
    IS(METRONOME_OK, metronome_sit(&own, &reader, THREADS));
    read_entries = calloc(THREADS * most + 1, sizeof *read_entries);
    noted = calloc(THREADS * most, sizeof *noted);
    CHECK(read_entries != NULL && noted != NULL);
    for (uint32_t m = THREADS; m-- > 0;) {
        workers[m].rounds = rounds;
        workers[m].seed = 88172645463325252u + m;
        CHECK(open_model(&workers[m].model, m, (uint32_t)most));
        IS(METRONOME_OK, metronome_sit(&own, &workers[m].heap, m));
    }
}

/* In the end each place has exactly the entry that was noted there, and the reader has read the same. */
static void check_log(void) {
    uint64_t place = 0, wrong = 0, asked_for = 0;
    IS(METRONOME_OK, metronome_place(&own, &place));
    CHECK(place == noted_count && read_count == noted_count);
    IS(METRONOME_OK, metronome_enter(&own));
    for (uint64_t at = 0; at < noted_count; at++) {
        metronome_event entry;
        if (metronome_entry(&own, at, &entry) != METRONOME_OK) abort();
        wrong += !same_entry(&entry, &read_entries[at]) || !same_entry(&entry, &noted[at]);
        asked_for += entry.command.kind >= METRONOME_BEGIN;
    }
    IS(METRONOME_OK, metronome_exit(&own));
    CHECK(wrong == 0 && cycles.wrong == 0 && asked_for > 0);
    printf("%llu entries, %llu of them asked of the collector\n", (unsigned long long)noted_count, (unsigned long long)asked_for);
}

static void check_threads(uint32_t rounds) {
    static struct worker workers[THREADS];
    pthread_t threads[THREADS + 1];
    open_workers(workers, rounds);
    for (int n = 0; n <= THREADS; n++)
        if (pthread_create(&threads[n], NULL, n < THREADS ? work : read_log, &workers[n % THREADS])) abort();
    for (int n = 0; n < THREADS; n++) pthread_join(threads[n], NULL);
    IS(METRONOME_OK, metronome_gate_enter(&gate, &own));
    is_over = 1;
    IS(METRONOME_OK, metronome_gate_exit(&gate, &own));
    pthread_join(threads[THREADS], NULL);
    check_log();
    for (int n = 0; n < THREADS; n++) {
        CHECK(!workers[n].refused);
        metronome_destroy(&workers[n].heap);
        close_model(&workers[n].model);
    }
    metronome_destroy(&reader);
    metronome_destroy(&own);
    free(read_entries);
    free(noted);
}

int main(int count, char **words) {
    static const uint64_t rings[] = { 0, 1, 2, 5, SHORT, SHORT + 3 };
    metronome_settings settings = METRONOME_SETTINGS(4, 1, SLOTS);
    metronome none = METRONOME_CLOSED;
    IS(METRONOME_NO_MEMORY, metronome_create_shared(&none, &settings, SIZE_MAX));
    IS(METRONOME_NO_HEAP, metronome_enter(&none));
    for (size_t n = 0; n < sizeof rings / sizeof *rings; n++) check_ring(rings[n]);
    check_threads(count > 1 ? (uint32_t)atoi(words[1]) : 400);
    return checked();
}
