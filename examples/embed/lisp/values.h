/*
 * values.h: the values of the Lisp over heap.h: numbers, symbols, pairs and vectors.
 */
#ifndef VALUES_H
#define VALUES_H

#include "heap.h"

enum { LONGEST_NAME = 32, LONGEST_TEXT = 1024 };

/* The references of a pair, of a symbol, of a vector, of a closure. */
enum { CAR, CDR };
enum { VALUE };
enum { CELLS };
enum { BODY, OUTER };

/* How many objects were made, and the longest call that made one, in nanoseconds of processor time, if it is looked for. */
extern uint64_t objects;
extern int64_t longest_call;
extern int are_calls_timed;

/* Nanoseconds of this thread's processor time. */
int64_t processor_time(void);

/* Makes an object as new_object does, and counts it. */
void make(root *to, enum kind kind, uint64_t number, uint32_t refs, const root *first, uint32_t count);

/* Fails unless a value has this kind. */
void expect(root it, enum kind kind, const char *what);

void make_integer(root *to, int64_t value);
void make_real(root *to, double value);
double real_of(root it);

/* Makes a pair; *to may be one of its parts. */
void cons(root *to, root car, root cdr);

/* Loads a part of a pair. */
void car(root *to, root pair);
void cdr(root *to, root pair);

/* Loads item i of a list. */
void item(root *to, root list, uint32_t i);

/* Returns how many items a list has. */
uint32_t length_of(root list);

/* Makes a vector of `length` cells, all null. */
void make_vector(root *to, int64_t length);

/* Loads cell i of a vector, or stores a value in it. */
void vector_load(root *to, root vector, int64_t i);
void vector_store(root vector, int64_t i, root value);

/* ---- Symbols (symbols.c) ---- */

/* Makes the statics. The first symbols are the special forms, in the order of their numbers. */
void make_symbols(void);

/* Loads the symbol of a name, the same one each time. Its number is its place in the order in which symbols were made. */
void symbol(root *to, const char *name);
const char *name_of(root symbol);

/* ---- Texts (texts.c) ---- */

/* Reads the next value of a text, and returns the rest of the text, or null if no value is left. */
const char *read_value(root *to, const char *text);

/* Writes a value into a text of LONGEST_TEXT bytes. */
void print_value(char *text, root value);

#endif
