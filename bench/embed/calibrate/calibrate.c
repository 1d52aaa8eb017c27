/* metronome-calibrate: measures quanta and calls on this machine, and finds the budget of a quantum for a pause. */
#define _DEFAULT_SOURCE
#include <stdlib.h>

#include "quanta.h"
#include "board.h"
#include "calls.h"

static const char *const USAGE =
    "metronome-calibrate [--pause US] [--pages N] [--runs R]: measures how long the collector's quanta and calls of the\n"
    "library take on this machine. It prints which budget of a quantum fits into a pause of US microseconds (1 to 1000000;\n"
    "else 50). The quanta are those of heaps on which they take long, with 64 mutators and N pages (16 to 4096; else 512),\n"
    "or more if a budget needs them. Each heap is made and measured R times (1 to 1000; else 15). The program measures and\n"
    "proves nothing: on another heap a quantum may take longer. Its status is 1 if no budget fits, and 2 for other words.\n";

/* A quantum of MOST_BUDGET units is the longest that is measured: for more no heaps are made. Kinds that take more than
 * SCALED_PAGES pages have enough for it. */
enum { MUTATORS = 64, MOST_PAGES = 4096, SCALED_PAGES = 64 };
enum { MOST_SCALE = 16, MOST_BUDGET = MOST_SCALE * BUDGET, GREATEST = 1000000, TRIES = 6 };

/* The quanta of a phase. `least` is the nanoseconds of the worst quantum, in its shortest run, and `what` the heap on
 * which it is. `most` is the most nanoseconds of any quantum in any run, and `instructions` the most instructions. */
struct worst {
    int64_t least, most;
    uint64_t instructions;
    const char *what;
};

/* The quanta of a budget, by phases. Number 0 has those of all phases. */
struct measured {
    uint32_t budget;
    struct worst of[PHASES];
};

static long pages = 512, runs = 15;

static void add(struct worst *to, const struct timed *it, const char *what) {
    if (it->least > to->least) {
        to->least = it->least;
        to->what = what;
    }
    if (it->most > to->most) to->most = it->most;
    if (it->instructions > to->instructions) to->instructions = it->instructions;
}

/* Adds the quanta of heaps of a kind, each to the phase in which it begins and to that in which it ends. */
static void measure_kind(const struct kind *kind, struct measured *all) {
    const long takes = kind->takes > SCALED_PAGES ? kind->takes : kind->takes * scale;
    const int count = time_kind(kind, (int)(takes > pages ? takes : pages), MUTATORS, all->budget, (int)runs);
    for (const struct timed *it = timed; it < timed + count; it++) {
        add(&all->of[METRONOME_IDLE], it, kind->what);
        add(&all->of[it->begins], it, kind->what);
        if (it->ends != METRONOME_IDLE && it->ends != it->begins) add(&all->of[it->ends], it, kind->what);
    }
}

/* Measures quanta of a budget on heaps of each kind. */
static struct measured measure(uint32_t budget) {
    struct measured all = { budget, { { 0, 0, 0, "" } } };
    scale = (int)((budget + BUDGET - 1) / BUDGET);
    for (const struct kind *kind = kinds; kind->name != NULL; kind++) measure_kind(kind, &all);
    return all;
}

/* Returns the greatest measured budget whose quanta fit into a pause, or the least one if none does. Time grows about as
 * the budget does, so the next budget to be tried is found by proportion. */
static struct measured fitting(int64_t pause) {
    struct measured best = measure(BUDGET), last = best;
    for (int i = 0; i < TRIES && best.of[0].least <= pause; i++) {
        const double next = 0.98 * last.budget * (double)pause / (double)last.of[0].least;
        const uint32_t budget = next > MOST_BUDGET ? MOST_BUDGET : (uint32_t)next;
        if (budget <= best.budget) break;
        last = measure(budget);
        if (last.of[0].least <= pause) best = last;
    }
    return best;
}

static void tell_calls(void) {
    struct timed_call calls[CALLS];
    time_calls((int)pages, (int)runs, calls);
    printf("\n%-28s %12s %12s\n", "a call", "ns", "longest ns");
    for (int i = 0; i < CALLS; i++) printf("%-28s %12.1f %12.1f\n", calls[i].what, calls[i].least, calls[i].most);
}

static void tell_quanta(const struct measured *all) {
    static const char *const names[PHASES] = { "", "roots", "marking", "sweeping", "moving" };
    printf("\n%-10s %5u units %12s %12s %12s  %s\n", "a quantum,", all->budget, "ns", "longest ns", "instructions", "worst on");
    for (int phase = METRONOME_ROOTS; phase < PHASES; phase++) {
        const struct worst *it = &all->of[phase];
        char counted[30] = "-";
        if (it->instructions > 0) snprintf(counted, sizeof counted, "%llu", (unsigned long long)it->instructions);
        printf("%-22s %12lld %12lld %12s  %s\n", names[phase], (long long)it->least, (long long)it->most, counted, it->what);
    }
}

/* Prints the budget. One above MOST_BUDGET is a multiple of it, and its time is calculated. A quantum leaves at most 255
 * units unspent, so one of MOST_BUDGET counts as a fifteenth longer. */
static int tell_budget(const struct measured *all, int64_t pause) {
    const double least = (double)all->of[0].least / 1e3, each = least * 16 / 15, fit = (double)pause / 1e3 / each;
    const int most = GREATEST / MOST_BUDGET, times = fit < most ? (int)fit : most;
    putchar('\n');
    if (all->of[0].least > pause) {
        printf("no budget: a quantum of %u units took up to %.1f us in %ld runs\n", all->budget, least, runs);
        return 1;
    }
    if (all->budget < MOST_BUDGET || times < 2) {
        printf("budget %u: at most %.1f us in %ld runs", all->budget, least, runs);
    } else {
        printf("budget %d: at most %.1f us in %ld runs", times * MOST_BUDGET, times * each, runs);
        printf(", calculated as %d quanta of %d units", times, MOST_BUDGET);
    }
    printf("; the longest quantum that was measured took %.1f us\n", (double)all->of[0].most / 1e3);
    return 0;
}

static void tell_board(void) {
    char text[BOARD_TEXT];
    double load = 0;
    printf("This measures one machine, under the load that it has now, and proves nothing: a quantum may take longer.\n"
           "\"ns\" is of the worst quantum, or the mean of a row of calls; of each the shortest run counts. \"longest ns\" is\n"
           "of the longest run, with the system's interruptions.\n\n");
    pin_processor(text);
    printf("processor: %s\n", text);
    lock_memory(text, (size_t)MOST_PAGES * 17000);
    printf("memory: %s\n", text);
    instructions_now = count_instructions(text);
    printf("instructions: %s\n", text);
    if (getloadavg(&load, 1) != 1) load = -1;
    printf("load: %.2f\n", load);
    printf("pages: %ld, mutators: %d, runs: %ld\n", pages, MUTATORS, runs);
}

/* Reads a number of an option. Ends with the usage if it is none or out of its range. */
static long number(const char *word, long least, long most) {
    char *end = NULL;
    const long read = word && *word >= '0' && *word <= '9' ? strtol(word, &end, 10) : -1;
    if (read >= least && read <= most && *end == 0) return read;
    fputs(USAGE, stderr);
    exit(2);
}

int main(int count, char **words) {
    long pause = 50;
    for (int i = 1; i < count; i += 2) {
        if (!strcmp(words[i], "--help") || !strcmp(words[i], "-h")) {
            fputs(USAGE, stdout);
            return 0;
        }
        const char *value = i + 1 < count ? words[i + 1] : NULL;
        if (!strcmp(words[i], "--pause")) pause = number(value, 1, 1000000);
        else if (!strcmp(words[i], "--pages")) pages = number(value, 16, MOST_PAGES);
        else if (!strcmp(words[i], "--runs")) runs = number(value, 1, 1000);
        else number(NULL, 0, 0);
    }
    tell_board();
    tell_calls();
    const struct measured all = fitting(pause * 1000);
    tell_quanta(&all);
    return tell_budget(&all, pause * 1000);
}
