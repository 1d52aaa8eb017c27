/*
 * gcbench DEPTH [stops]: GCBench, by John Ellis and Pete Kovac, changed by Hans Boehm: short-lived trees of all depths up to
 * DEPTH, made from the top and from the bottom, beside a long-lived tree of that depth and a long-lived array of 500000 numbers;
 * theirs is 16. It prints the nodes that were made, seconds of this thread's processor time, the longest stop in microseconds of
 * it, which is looked for only where `stops` is said, and the resident memory in kB.
 */
#define _POSIX_C_SOURCE 200809L
#include "memory.h"
#include "../measure.h"

enum { LEAST_DEPTH = 4, ARRAY_LENGTH = 500000 };

static uint64_t nodes;
static int64_t longest_stop;
static int are_timed;

/* A call that may stop the program. */
#define MAY_STOP(call) \
    do { \
        int64_t began = are_timed ? nanoseconds(CLOCK_THREAD_CPUTIME_ID) : 0; \
        call; \
        int64_t took = are_timed ? nanoseconds(CLOCK_THREAD_CPUTIME_ID) - began : 0; \
        if (took > longest_stop) longest_stop = took; \
    } while (0)

static void new_node(tree *to) {
    MAY_STOP(make_node(to));
    nodes++;
}

static int64_t tree_size(int depth) { return ((int64_t)1 << (depth + 1)) - 1; }

/* Makes the children of a node before theirs. */
static void populate(tree node, int depth) {
    if (depth <= 0) return;
    frame here = open_frame();
    for (uint32_t side = 0; side < 2; side++) {
        tree child = no_tree();
        new_node(&child);
        set_child(node, side, child);
        populate(child, depth - 1);
    }
    close_frame(here);
}

/* Makes the children of a node before it. */
static void make_tree(tree *to, int depth) {
    frame here = open_frame();
    tree children[2] = { no_tree(), no_tree() };
    for (uint32_t side = 0; side < 2 && depth > 0; side++) make_tree(&children[side], depth - 1);
    new_node(to);
    for (uint32_t side = 0; side < 2 && depth > 0; side++) set_child(*to, side, children[side]);
    close_frame(here);
}

/* As many trees of a depth as take twice the nodes of the stretching tree, from the top and from the bottom. */
static void time_construction(int depth, int deepest) {
    frame here = open_frame();
    tree it = no_tree();
    int64_t count = 2 * tree_size(deepest + 2) / tree_size(depth);
    for (int64_t i = 0; i < count; i++) {
        new_node(&it);
        populate(it, depth);
        MAY_STOP(drop_tree(&it));
    }
    for (int64_t i = 0; i < count; i++) {
        make_tree(&it, depth);
        MAY_STOP(drop_tree(&it));
    }
    close_frame(here);
}

static void benchmark(int deepest) {
    tree stretching = no_tree(), lived = no_tree();
    make_tree(&stretching, deepest + 2);
    MAY_STOP(drop_tree(&stretching));
    new_node(&lived);
    populate(lived, deepest);
    MAY_STOP(make_array(ARRAY_LENGTH));
    for (uint32_t i = 0; i < ARRAY_LENGTH / 2; i++) put(i, 1.0 / i);
    for (int depth = LEAST_DEPTH; depth <= deepest; depth += 2) time_construction(depth, deepest);
    if (!has_child(lived, 0) || get(1000) != 1.0 / 1000) abort();
    drop_tree(&lived);
}

/* The most memory of this program that was resident, in kB. */
static long resident(void) {
    char line[256];
    long most = 0;
    FILE *status = fopen("/proc/self/status", "r");
    if (status == NULL) return 0;
    while (fgets(line, sizeof line, status) != NULL)
        if (sscanf(line, "VmHWM: %ld", &most) == 1) break;
    fclose(status);
    return most;
}

int main(int count, char **words) {
    if (count < 2) return 2;
    are_timed = count > 2;
    open_memory();
    int64_t began = nanoseconds(CLOCK_THREAD_CPUTIME_ID);
    benchmark(atoi(words[1]));
    double took = (double)(nanoseconds(CLOCK_THREAD_CPUTIME_ID) - began) / 1e9;
    printf("%llu %.3f %.1f %ld\n", (unsigned long long)nodes, took, (double)longest_stop / 1e3, resident());
    close_memory();
    return 0;
}
