/*
 * Random commands of one mutator, and the answer that each must have: a model of the mutator's own objects, which no other
 * mutator reaches.
 */
#ifndef MODEL_H
#define MODEL_H

#include "metronome_shared.h"

enum { SLOTS = 6, CELLS = 3, STATICS = 8 };

enum command_kind {
    NEW_PLAIN, NEW_REFS, NEW_WORDS, LOAD, STORE, COMPARE_STORE, GET, PUT, COMPARE_PUT, COPY, CLEAR, LOAD_STATIC,
    STORE_STATIC, COMPARE_STATIC, SAME, DESCRIBE, JOIN, RETIRE, COMMANDS
};

/* A command: its slots in the order in which the call names them, its cell or static, and its words. For a new object `i` and
 * `j` are the numbers of its reference and word cells. */
struct command {
    enum command_kind kind;
    uint32_t slots[3];
    uint32_t i, j;
    uint64_t old, word;
};

struct object {
    uint64_t identity;
    metronome_shape shape;
    uint32_t refs[CELLS]; /* numbers of objects; 0 is null */
    uint64_t words[CELLS];
};

/* A mutator's objects, from 1 on, and which of them its slots and its own static hold. */
struct model {
    uint32_t mutator;
    bool is_live;
    struct object *objects;
    uint32_t made, most;
    uint32_t slots[SLOTS];
    uint32_t kept;
};

/* Makes a model of a live mutator that makes at most `most` objects. Returns false if there is no memory for it. */
bool open_model(struct model *model, uint32_t mutator, uint32_t most);
void close_model(struct model *model);

/* Returns the next number of a row that begins with a seed other than 0. */
uint64_t drawn(uint64_t *seed);

/* Returns a random command, mostly one that isn't refused. */
struct command draw_command(const struct model *model, uint64_t *seed);

/* Does a command. The result of metronome_describe goes to `shape`. */
metronome_answer call(metronome *heap, uint32_t mutator, const struct command *command, metronome_shape *shape);

/* The value of a shape before a call. */
#define UNTOLD { 7, 7, 7 }

/* Returns whether the answer is the model's. The shape must be that of metronome_describe, or UNTOLD for other commands.
 * The model does the command too. */
bool is_as_modelled(struct model *model, const struct command *command, metronome_answer answer, const metronome_shape *shape);

#endif
