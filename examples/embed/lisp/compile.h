/*
 * compile.h: from lists to nodes of code, and their values.
 *
 * A node is an object whose kind says what it does: CONSTANT, LOCAL, IF and so on. Its references are its parts. Its number is
 * how many arguments it has, or the place of a variable: 256 times how many scopes it is outside, and its number in its scope.
 * A scope is an object with the scope round it, and then the values of its variables.
 */
#ifndef COMPILE_H
#define COMPILE_H

#include "heap.h"

enum form { F_QUOTE, F_IF, F_COND, F_AND, F_OR, F_WHILE, F_PROGN, F_LET, F_LAMBDA, F_SETQ, F_DEFINE, F_DEFUN, FORMS };

/* The names of the special forms. */
extern const char *const form_names[FORMS];

/* Makes the node of a form outside all scopes. */
void compile(root *to, root form);

/* Stores in *to the value of a node in a scope. */
void eval(root *to, root node, root scope);

/* How many nodes were evaluated. */
extern uint64_t evaluations;

/* Gives a symbol a value (symbols.c). */
void bind(const char *name, root value);

/* Binds the names of the primitives (primitives.c). */
void bind_primitives(void);

/* Returns how many arguments a primitive takes. */
uint32_t arity_of(uint64_t primitive);

/* Applies a primitive to its arguments. */
void apply_primitive(root *to, uint64_t primitive, root *arguments);

/* The most arguments that a primitive takes. */
enum { MOST_ARGUMENTS = 3 };

#endif
