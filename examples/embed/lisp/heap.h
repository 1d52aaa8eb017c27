/*
 * heap.h: the memory of the Lisp, by calls that two kinds of memory have: this heap, which keeps a plan, and libgc (-DLIBGC).
 * The rest of the Lisp is the same program for both.
 *
 * An object has two words, its kind and a number, and references to objects. The program names an object by a `root`: on this
 * heap it is the number of a slot, on libgc a pointer in a variable of C. A function opens a frame, takes roots in it, which
 * hold null at first, and closes the frame. Null is the empty list.
 */
#ifndef HEAP_H
#define HEAP_H

#include <stdint.h>

/* The kinds of objects: values, scopes, and the nodes of code (compile.c). */
enum kind {
    NIL, INTEGER, REAL, SYMBOL, PAIR, VECTOR, CLOSURE, PRIMITIVE, NO_VALUE, SCOPE,
    CONSTANT, LOCAL, GLOBAL, SET_LOCAL, SET_GLOBAL, IF, OR, WHILE, PROGN, LAMBDA, LET, CALL
};

/* The statics are roots for the whole run. They hold the symbols, the symbol `t`, the value of a symbol that has none, and two
 * objects on their way from one row of roots to another. */
enum { SYMBOLS, TRUTH, NOTHING, PASSED, PASSED_SCOPE, STATICS };

/* No evaluation takes more roots, those of deeper ones left out. */
enum { ROOTS_A_LEVEL = 8 };

/* Prints a mistake, and ends the program. */
_Noreturn void fail(const char *what);

#ifdef LIBGC
#include "heap_libgc.h"
#else
#include "heap_planned.h"
#endif

#endif
