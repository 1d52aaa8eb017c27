#include "benchmarks.h"
#include "compile.h"
#include <math.h>
#include <stdio.h>

#define DERIVATIVE \
    "(+ (* (* 3 x x) (+ (/ 0 3) (/ 1 x) (/ 1 x))) (* (* a x x) (+ (/ 0 a) (/ 1 x) (/ 1 x))) (* (* b x) (+ (/ 0 b) (/ 1 x))) 0)"

#define LISTS \
    "((1 1 2) (1 1 1) (1 1 1 2) (1 1 1 1) (1 1 1 1 2) (1 1 1 1 2) (1 1 1 1 2) (1 1 1 1 2) (1 1 1 1 2) " \
    "(1 1 1 1 1 1 1 1 1 1 1 1 1 1 1 2 2 2 2 2 3))"

/* The values of tak and div are known from their definitions, and the derivative by hand. Those of destruct and browse are what
 * other programs gave: GNU Guile 3.0, and a matcher in Python. The numbers of fft are compared by `difference_of_transform`. */
const struct benchmark benchmarks[BENCHMARKS] = {
    { "tak", "(tak 18 12 6)", "7", "(tak 8 4 2)", "3" },
    { "deriv", "(deriv '(+ (* 3 x x) (* a x x) (* b x) 5))", DERIVATIVE, "(deriv '(/ x (- y x)))",
      "(- (/ 1 (- y x)) (/ x (* (- y x) (- y x) (- 0 1))))" },
    { "destruct", "(destruct 600 50)", LISTS, "(destruct 30 12)",
      "(() (1) (1) (1 2) (1 2) (1 2) (1 2) (1 2) (1 2) (1 1 1 1 1 2 2 3))" },
    { "browse", "(browse 20)", "60", "(browse 6)", "18" },
    { "div", "(div 200)", "(100 100)", "(div 20)", "(10 10)" },
    { "fft", "(transform 1024)", "1024", "(transform 64)", "64" },
};

/* ---- Evaluation ---- */

/* Evaluates a node `times` times, and stores the last value in *value. */
static void eval_often(root *value, root node, uint64_t times) {
    frame here = open_frame();
    root nowhere = local();
    for (uint64_t i = 0; i < times; i++) eval(value, node, nowhere);
    close_frame(here);
}

void evaluate(char *value, const char *text, uint64_t times) {
    frame here = open_frame();
    root node = local(), it = local();
    while ((text = read_value(&node, text)) != NULL) {
        compile(&node, node);
        eval_often(&it, node, times);
        print_value(value, it);
    }
    close_frame(here);
}

void load_file(const char *name) {
    static char text[32768];
    char path[512], value[LONGEST_TEXT];
    snprintf(path, sizeof path, "%s/%s.lisp", FOLDER, name);
    FILE *file = fopen(path, "r");
    if (file == NULL) fail("no such file");
    size_t length = fread(text, 1, sizeof text - 1, file);
    fclose(file);
    if (length == sizeof text - 1) fail("the file is too long");
    text[length] = 0;
    evaluate(value, text, 1);
}

/* ---- The transform, by its definition ---- */

/* Returns a number of the vector that a symbol names; cells are counted from 1. */
static double number_in(const char *name, int64_t i) {
    frame here = open_frame();
    root it = local();
    symbol(&it, name);
    load(&it, it, VALUE);
    vector_load(&it, it, i + 1);
    double number = real_of(it);
    close_frame(here);
    return number;
}

/* Returns how long the vector of a symbol is, without its first cell. */
static int64_t length_in(const char *name) {
    frame here = open_frame();
    root it = local();
    symbol(&it, name);
    load(&it, it, VALUE);
    expect(it, VECTOR, "not a vector");
    int64_t length = (int64_t)number_of(it) - 1;
    close_frame(here);
    return length;
}

/* Returns how far number k of the transform is from the sum that defines it. */
static double difference_of(int64_t k, int64_t length) {
    double re = 0, im = 0;
    for (int64_t j = 0; j < length; j++) {
        double turn = 2 * acos(-1) * (double)(j * k % length) / (double)length;
        double a = (double)(j * j % 17), b = (double)(3 * j % 5);
        re += a * cos(turn) - b * sin(turn);
        im += a * sin(turn) + b * cos(turn);
    }
    return fmax(fabs(re - number_in("re", k)), fabs(im - number_in("im", k)));
}

double difference_of_transform(void) {
    int64_t length = length_in("re");
    double largest = 0;
    for (int64_t k = 0; k < length; k++) largest = fmax(largest, difference_of(k, length));
    return largest;
}
