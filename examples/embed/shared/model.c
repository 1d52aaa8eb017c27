#include "model.h"
#include <stdlib.h>
#include <string.h>

bool open_model(struct model *model, uint32_t mutator, uint32_t most) {
    memset(model, 0, sizeof *model);
    model->mutator = mutator;
    model->is_live = true;
    model->most = most;
    model->objects = calloc((size_t)most + 1, sizeof *model->objects);
    return model->objects != NULL;
}

void close_model(struct model *model) {
    free(model->objects);
}

uint64_t drawn(uint64_t *seed) {
    *seed ^= *seed << 13;
    *seed ^= *seed >> 7;
    *seed ^= *seed << 17;
    return *seed >> 8;
}

struct command draw_command(const struct model *model, uint64_t *seed) {
    struct command it;
    memset(&it, 0, sizeof it);
    it.kind = (enum command_kind)(drawn(seed) % COMMANDS);
    if (it.kind == RETIRE && drawn(seed) % 16 != 0) it.kind = PUT;
    if (!model->is_live && drawn(seed) % 4 != 0) it.kind = JOIN;
    if (it.kind <= NEW_WORDS && model->made == model->most) it.kind = STORE;
    for (int k = 0; k < 3; k++) it.slots[k] = (uint32_t)(drawn(seed) % 32 == 0 ? SLOTS + drawn(seed) % 3 : drawn(seed) % SLOTS);
    it.i = (uint32_t)(drawn(seed) % (drawn(seed) % 8 == 0 ? CELLS + 1 : CELLS));
    it.j = (uint32_t)(drawn(seed) % (CELLS + 1));
    if (it.kind == NEW_PLAIN && drawn(seed) % 32 == 0) it.i = 253;
    if (it.kind >= LOAD_STATIC && it.kind <= COMPARE_STATIC) it.i = drawn(seed) % 16 == 0 ? STATICS : model->mutator;
    it.old = drawn(seed) % 3;
    it.word = drawn(seed) % 3;
    return it;
}

metronome_answer call(metronome *heap, uint32_t m, const struct command *command, metronome_shape *shape) {
    const struct command it = *command;
    uint32_t a = it.slots[0], b = it.slots[1], c = it.slots[2];
    switch (it.kind) {
    case NEW_PLAIN: return metronome_new_plain(heap, m, a, it.i, it.j);
    case NEW_REFS: return metronome_new_refs(heap, m, a, it.i);
    case NEW_WORDS: return metronome_new_words(heap, m, a, it.j);
    case LOAD: return metronome_load(heap, m, a, b, it.i);
    case STORE: return metronome_store(heap, m, a, it.i, b);
    case COMPARE_STORE: return metronome_compare_store(heap, m, a, it.i, b, c);
    case GET: return metronome_get(heap, m, a, it.i);
    case PUT: return metronome_put(heap, m, a, it.i, it.word);
    case COMPARE_PUT: return metronome_compare_put(heap, m, a, it.i, it.old, it.word);
    case COPY: return metronome_copy(heap, m, a, b);
    case CLEAR: return metronome_clear(heap, m, a);
    case LOAD_STATIC: return metronome_load_static(heap, m, a, it.i);
    case STORE_STATIC: return metronome_store_static(heap, m, it.i, a);
    case COMPARE_STATIC: return metronome_compare_static(heap, m, it.i, a, b);
    case SAME: return metronome_same(heap, m, a, b);
    case DESCRIBE: return metronome_describe(heap, m, a, shape);
    case JOIN: return metronome_join(heap, m);
    default: return metronome_leave(heap, m);
    }
}

/* The number of slots that each command names, and which of them must hold an object (-1 for none). */
static const uint32_t slots_named[COMMANDS] = { 1, 1, 1, 2, 2, 3, 1, 1, 1, 2, 1, 1, 1, 2, 2, 1, 0, 0 };
static const int object_slot[COMMANDS] = { -1, -1, -1, 1, 0, 0, 0, 0, 0, -1, -1, -1, -1, -1, -1, 0, -1, -1 };

static bool is_of_static(enum command_kind kind) {
    return kind >= LOAD_STATIC && kind <= COMPARE_STATIC;
}

static bool is_of_words(enum command_kind kind) {
    return kind >= GET && kind <= COMPARE_PUT;
}

static struct object *object_of(const struct model *model, uint32_t slot) {
    return &model->objects[model->slots[slot]];
}

/* Returns why a cell of a slot's object can't be reached, or 0. */
static uint32_t cell_fault(const struct model *model, const struct command *it) {
    uint32_t slot = it->slots[object_slot[it->kind]];
    const metronome_shape *shape = &object_of(model, slot)->shape;
    bool of_words = is_of_words(it->kind);
    if (model->slots[slot] == 0) return METRONOME_NULL_SLOT;
    if (it->kind == DESCRIBE) return METRONOME_OK;
    if (shape->kind == (of_words ? METRONOME_REF_ARRAY : METRONOME_WORD_ARRAY)) return METRONOME_WRONG_KIND;
    return it->i >= (of_words ? shape->words : shape->refs) ? METRONOME_BAD_INDEX : METRONOME_OK;
}

/* Returns why a command is refused, or 0. */
static uint32_t fault(const struct model *model, const struct command *it) {
    if (it->kind == JOIN) return model->is_live ? METRONOME_ALREADY_LIVE : METRONOME_OK;
    if (!model->is_live) return METRONOME_NOT_LIVE;
    for (uint32_t k = 0; k < slots_named[it->kind]; k++)
        if (it->slots[k] >= SLOTS) return METRONOME_BAD_SLOT;
    if (is_of_static(it->kind) && it->i >= STATICS) return METRONOME_BAD_STATIC;
    if (it->kind == NEW_PLAIN && it->i + it->j > 252) return METRONOME_TOO_LARGE;
    return object_slot[it->kind] < 0 ? METRONOME_OK : cell_fault(model, it);
}

static metronome_answer told(uint32_t kind, uint64_t number) {
    metronome_answer answer;
    answer.kind = kind;
    answer.number = number;
    return answer;
}

/* Makes an object with the identity that was returned. */
static metronome_answer make(struct model *model, const struct command *it, uint64_t identity) {
    struct object *made = &model->objects[++model->made];
    made->identity = identity;
    made->shape.kind = (uint32_t)(it->kind - NEW_PLAIN);
    made->shape.refs = it->kind == NEW_WORDS ? 0 : it->i;
    made->shape.words = it->kind == NEW_REFS ? 0 : it->j;
    model->slots[it->slots[0]] = model->made;
    return told(METRONOME_MADE, identity);
}

/* Writes a reference if the present one is as expected. */
static metronome_answer compare(const struct model *model, uint32_t *at, uint32_t expected, uint32_t replacement) {
    if (*at != expected) return told(METRONOME_KEPT, model->objects[*at].identity);
    *at = replacement;
    return told(METRONOME_STORED, 0);
}

static metronome_answer compare_put(uint64_t *at, const struct command *it) {
    if (*at != it->old) return told(METRONOME_KEPT_WORD, *at);
    *at = it->word;
    return told(METRONOME_STORED, 0);
}

/* Loads a reference into a slot. */
static metronome_answer load(struct model *model, uint32_t dst, uint32_t object) {
    model->slots[dst] = object;
    return told(METRONOME_REF, model->objects[object].identity);
}

/* Makes the mutator live or retires it: each of its slots becomes null, and its static keeps its reference. */
static void become(struct model *model, bool is_live) {
    model->is_live = is_live;
    memset(model->slots, 0, sizeof model->slots);
}

/* Returns the answer of a command that isn't refused. */
static metronome_answer answered(struct model *model, const struct command *it, uint64_t identity) {
    uint32_t *slots = model->slots, a = it->slots[0] % SLOTS, b = it->slots[1] % SLOTS, c = it->slots[2] % SLOTS;
    struct object *first = object_of(model, a), *second = object_of(model, b);
    switch (it->kind) {
    case LOAD: return load(model, a, second->refs[it->i]);
    case STORE: first->refs[it->i] = slots[b]; break;
    case COMPARE_STORE: return compare(model, &first->refs[it->i], slots[b], slots[c]);
    case GET: return told(METRONOME_WORD, first->words[it->i]);
    case PUT: first->words[it->i] = it->word; break;
    case COMPARE_PUT: return compare_put(&first->words[it->i], it);
    case COPY: slots[a] = slots[b]; break;
    case CLEAR: slots[a] = 0; break;
    case LOAD_STATIC: return load(model, a, model->kept);
    case STORE_STATIC: model->kept = slots[a]; break;
    case COMPARE_STATIC: return compare(model, &model->kept, slots[a], slots[b]);
    case SAME: return told(METRONOME_IS, slots[a] == slots[b]);
    case DESCRIBE: return told(METRONOME_DESCRIBED, first->identity);
    case JOIN: become(model, true); break;
    case RETIRE: become(model, false); break;
    default: return make(model, it, identity);
    }
    return told(METRONOME_DONE, 0);
}

bool is_as_modelled(struct model *model, const struct command *it, metronome_answer answer, const metronome_shape *shape) {
    metronome_shape expected = UNTOLD;
    uint32_t why = fault(model, it);
    if (answer.kind == METRONOME_MADE && answer.number <= model->objects[model->made].identity) return false;
    if (why == METRONOME_OK && it->kind == DESCRIBE) expected = object_of(model, it->slots[0])->shape;
    metronome_answer wanted = why != METRONOME_OK ? told(METRONOME_REFUSED, why) : answered(model, it, answer.number);
    return answer.kind == wanted.kind && answer.number == wanted.number && memcmp(shape, &expected, sizeof expected) == 0;
}
