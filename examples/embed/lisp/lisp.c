/*
 * lisp [BENCHMARK COUNT [calls | small]]: a small Lisp in C. Its values, its scopes and its code lie in the heap (heap.h): on
 * this heap, which keeps a plan, or on libgc. It reads a form, compiles it to nodes, and evaluates these.
 *
 * It checks some forms, and six of Gabriel's benchmarks at a small size, whose values are known from elsewhere. If a benchmark
 * is named, it runs that one COUNT times instead, with `small` at the small size, and checks the last value. Then it prints
 * five numbers:
 *
 *   * how many nodes were evaluated, and how many objects were made;
 *   * the seconds of processor time;
 *   * with `calls` the longest call that made an object, in microseconds of processor time, else 0;
 *   * the most memory that was resident, in kB.
 */
#include "benchmarks.h"
#include "compile.h"
#include <inttypes.h>
#include <stdio.h>
#include <stdlib.h>
#include <string.h>

static int passed, failed;

static void check(int holds, const char *what) {
    passed += holds;
    failed += !holds;
    if (!holds) fprintf(stderr, "failed: %s\n", what);
}

/* Evaluates a form `times` times, and checks the last value. */
static void gives_often(const char *form, const char *awaited, uint64_t times) {
    char value[LONGEST_TEXT];
    evaluate(value, form, times);
    check(strcmp(value, awaited) == 0, form);
}

static void gives(const char *form, const char *awaited) { gives_often(form, awaited, 1); }

/* ---- The language ---- */

static const char *const functions =
    "(define build (lambda (n l) (if (= n 0) l (build (- n 1) (cons n l)))))"
    "(define sum (lambda (l total) (if (null? l) total (sum (cdr l) (+ total (car l))))))"
    "(define repeat (lambda (n last) (if (= n 0) last (repeat (- n 1) (sum (build 100 nil) 0)))))"
    "(define adder (lambda (n) (lambda (m) (+ n m))))"
    "(defun fib (n) (if (< n 2) n (+ (fib (- n 1)) (fib (- n 2)))))";

/* Checks forms of each kind, and evaluations that are so deep that they go over many rows of roots. */
static void check_language(void) {
    char value[LONGEST_TEXT];
    evaluate(value, functions, 1);
    gives("((adder 40) 2)", "42");
    gives("(list3 'a '(b (c)) nil)", "(a (b (c)) ())");
    gives("(sum (map (lambda (n) (* n n)) '(1 2 3)) 0)", "14");
    gives("(let ((n 1)) (setq n (+ n 1)) (let ((m 2) (n n)) (setq n (* n 5)) (list2 m n)))", "(2 10)");
    gives("(cond ((< 2 1) 'a) ((and 1 2 nil) 'b) ((or nil nil 3) 'c))", "c");
    gives("(let ((n 0) (m 1)) (while (< n 10) (setq n (+ n 1)) (setq m (+ m m))) m)", "1024");
    gives("(let ((v (make-vector 300))) (vector-set v 299 1.5) (* 2 (vector-ref v 299)))", "3");
    gives("(list3 (quotient 7 2) (remainder -7 2) (/ 1 8)) ; a comment", "(3 -1 0.125)");
    gives("(fib 12)", "144");
    gives("(sum (map (adder 1) (build 500 nil)) 0)", "125750");
    gives(IS_RECORDED ? "(repeat 1 0)" : "(repeat 100 0)", "5050");
}

/* ---- Benchmarks ---- */

/* Runs a form of a benchmark `times` times. */
static void run_form(const struct benchmark *it, const char *form, const char *value, uint64_t times) {
    load_file(it->name);
    gives_often(form, value, times);
    if (strcmp(it->name, "fft") == 0) check(difference_of_transform() < 1e-9, "the transform");
}

static void check_benchmarks(void) {
    for (const struct benchmark *it = benchmarks; it < benchmarks + BENCHMARKS; it++)
        run_form(it, it->small_form, it->small_value, 1);
}

static const struct benchmark *benchmark_of(const char *name) {
    int i = 0;
    while (i < BENCHMARKS && strcmp(benchmarks[i].name, name) != 0) i++;
    if (i == BENCHMARKS) fail("no such benchmark");
    return &benchmarks[i];
}

/* Returns the most memory that was resident, in kB. */
static long most_resident(void) {
    FILE *file = fopen("/proc/self/status", "r");
    char line[256];
    long most = 0;
    if (file == NULL) return 0;
    while (fgets(line, sizeof line, file) != NULL && sscanf(line, "VmHWM: %ld", &most) != 1) continue;
    fclose(file);
    return most;
}

static void print_figures(void) {
    printf("%" PRIu64 " %" PRIu64 " %.4f %.1f %ld\n", evaluations, objects, (double)processor_time() / 1e9,
           (double)longest_call / 1e3, most_resident());
}

static void run_benchmark(const char *name, uint64_t count, int is_small) {
    const struct benchmark *it = benchmark_of(name);
    if (is_small) run_form(it, it->small_form, it->small_value, count);
    else run_form(it, it->form, it->value, count);
    print_figures();
}

static void check_all(void) {
    check_language();
    if (!IS_RECORDED) check_benchmarks();
    check(are_all_frames_closed(), "each frame was closed");
    printf("%s: %" PRIu64 " evaluations, %" PRIu64 " objects, longest call %.1f us of processor time\n", MEMORY, evaluations,
           objects, (double)longest_call / 1e3);
    printf("%d passed, %d failed\n", passed, failed);
}

int main(int count, char **words) {
    const char *how = count > 3 ? words[3] : "";
    are_calls_timed = count < 3 || strcmp(how, "calls") == 0;
    open_heap();
    make_symbols();
    bind_primitives();
    load_file("lib");
    if (count >= 3) run_benchmark(words[1], strtoull(words[2], NULL, 10), strcmp(how, "small") == 0);
    else check_all();
    close_heap();
    return failed != 0;
}
