/*
 * benchmarks.h: six of Gabriel's benchmarks, each in a file of its name, and what they must give.
 */
#ifndef BENCHMARKS_H
#define BENCHMARKS_H

#include "values.h"

/* A benchmark: its name, a form that runs it, and the text of the form's value; the same at a small size. */
struct benchmark {
    const char *name, *form, *value, *small_form, *small_value;
};

enum { BENCHMARKS = 6 };

extern const struct benchmark benchmarks[BENCHMARKS];

/* Evaluates the forms of a text in their order, each of them `times` times. Writes the last value into a text of LONGEST_TEXT
 * bytes. */
void evaluate(char *value, const char *text, uint64_t times);

/* Evaluates the forms of the file of this name. */
void load_file(const char *name);

/* Returns the largest difference between what fft.lisp made of its signal and what the sums that define the transform give. */
double difference_of_transform(void);

#endif
