/*
 * quiet: looks whether calls make system calls. None is to make one on a heap that was made, whether its pages were touched or not,
 * whether it keeps a plan, and whether it is shared, if no thread waits at its gate. For each scene a child makes a heap, and asks
 * for the strict mode of seccomp. From then on Linux kills the child if it makes a system call other than read, write and exit. It
 * makes each call, and writes down whether the call answered as expected. The last scene makes a system call, and its child must be
 * killed.
 */
#define _DEFAULT_SOURCE
#include "metronome_shared.h"
#include <linux/seccomp.h>
#include <signal.h>
#include <stdio.h>
#include <stdlib.h>
#include <string.h>
#include <sys/prctl.h>
#include <sys/syscall.h>
#include <sys/wait.h>
#include <unistd.h>

enum { PAGES = 300, LIVE = 183200, MANY = 3000 };

/* Every cycle moves, and may empty all pages; four statics. The last mutator is that of the other handle, if there is one. */
static const metronome_settings settings = { PAGES, 3, 16, 4, INT64_MAX, PAGES + 1, PAGES, 10, 12, 100, 3 };
static metronome heap = METRONOME_CLOSED, other = METRONOME_CLOSED;
static metronome_gate fast = METRONOME_GATE, fair = METRONOME_GATE_FAIR(0);
static metronome_flow plan;
static bool is_shared;

/* ---- The child, which can only write ---- */

static int told;

static void tell(const char *line) {
    if (write(told, line, strlen(line)) < 0) syscall(SYS_exit, 3);
}

/* Writes down what is expected of a call, makes the call, and writes down whether that holds. */
#define IS(holds) (tell(#holds "\n"), tell((holds) ? "+\n" : "-\n"))

#define ENDED(call) IS((call) == METRONOME_OK)
#define ANSWERED(call, expected) IS((call).kind == METRONOME_##expected)
#define WENT(call) IS((call).status == METRONOME_OK)

/* Does each command of mutators. */
static void commands(void) {
    metronome_shape shape;
    ANSWERED(metronome_new_plain(&heap, 0, 1, 2, 3), MADE);
    ANSWERED(metronome_new_refs(&heap, 0, 2, 1000), MADE);
    ANSWERED(metronome_new_words(&heap, 0, 3, 20000), MADE);
    ANSWERED(metronome_store(&heap, 0, 2, 999, 1), DONE);
    ANSWERED(metronome_load(&heap, 0, 4, 2, 999), REF);
    ANSWERED(metronome_compare_store(&heap, 0, 1, 0, 5, 2), STORED);
    ANSWERED(metronome_compare_store(&heap, 0, 1, 0, 5, 2), KEPT);
    ANSWERED(metronome_put(&heap, 0, 3, 19999, 7), DONE);
    ANSWERED(metronome_get(&heap, 0, 3, 19999), WORD);
    ANSWERED(metronome_compare_put(&heap, 0, 1, 2, 0, 8), STORED);
    ANSWERED(metronome_compare_put(&heap, 0, 1, 2, 0, 9), KEPT_WORD);
    ANSWERED(metronome_copy(&heap, 0, 5, 1), DONE);
    ANSWERED(metronome_store_static(&heap, 0, 3, 5), DONE);
    ANSWERED(metronome_load_static(&heap, 0, 6, 3), REF);
    ANSWERED(metronome_compare_static(&heap, 0, 3, 5, 2), STORED);
    ANSWERED(metronome_same(&heap, 0, 5, 6), IS);
    ANSWERED(metronome_describe(&heap, 0, 2, &shape), DESCRIBED);
    ANSWERED(metronome_clear(&heap, 0, 6), DONE);
    ANSWERED(metronome_get(&heap, 0, 6, 0), REFUSED);
}

/* Does each list of commands. */
static void lists(void) {
    const uint32_t slots[] = { 1, 2 };
    uint64_t words[] = { 1, 2, 3 };
    WENT(metronome_new_with(&heap, 0, 7, 2, 3, slots, 2, words, 3));
    WENT(metronome_put_words(&heap, 0, 3, 250, words, 3));
    WENT(metronome_get_words(&heap, 0, 3, 250, words, 3));
    WENT(metronome_copy_refs(&heap, 0, 8, 7, 0, 2, 0, 2));
    WENT(metronome_move(&heap, 0, 9, 8));
    WENT(metronome_clear_slots(&heap, 0, 7, 9));
}

/* Asks for all figures, and makes the calls that work on no heap. */
static void figures(void) {
    uint32_t phase;
    uint64_t number;
    char text[64];
    metronome_counts counts;
    metronome_cycle cycle;
    metronome_page_view page;
    metronome_block_view block;
    metronome_limit limit;
    metronome_work work;
    const uint32_t planned = plan.budget == 0 ? METRONOME_NO_PLAN : METRONOME_OK;
    ENDED(metronome_phase(&heap, &phase));
    ENDED(metronome_units(&heap, &number));
    ENDED(metronome_free_pages(&heap, &number));
    ENDED(metronome_count(&heap, &counts));
    ENDED(metronome_last_cycle(&heap, &cycle));
    ENDED(metronome_page(&heap, 0, &page));
    ENDED(metronome_block(&heap, 0, 0, &block));
    ENDED(metronome_check_slot(&heap, 0, 1));
    IS(metronome_kept(&heap, &work) == planned);
    IS(metronome_prepare(&heap, 100, &number) == planned);
    IS(metronome_block_words(METRONOME_WORD_ARRAY, 0, 1000) == METRONOME_ARRAY_WORDS(1000));
    ENDED(metronome_cycle_limit(&settings, &limit));
    IS(metronome_text(METRONOME_NO_SPACE, text, sizeof text) > 0);
    IS(metronome_version() == METRONOME_VERSION);
    IS(metronome_create(&heap, &settings) == METRONOME_OPEN);
}

/* Makes arrays that stay reachable until one is refused. Returns whether it was for lack of space. */
static bool fills(void) {
    metronome_answer made;
    do {
        made = metronome_new_refs(&heap, 0, 10, 5000);
        if (made.kind == METRONOME_MADE) metronome_store(&heap, 0, 10, 0, 11);
        if (made.kind == METRONOME_MADE) metronome_copy(&heap, 0, 11, 10);
    } while (made.kind == METRONOME_MADE);
    return made.number == METRONOME_NO_SPACE;
}

/* Does whole cycles; a mutator leaves and joins; a frame is opened and closed. */
static void cycles(void) {
    metronome_spent spent;
    metronome_row row = METRONOME_ROW(0, 12, 16);
    metronome_pacing pacing = METRONOME_PACING(PAGES, 37, 1000);
    metronome_frame frame = metronome_open_frame(&row);
    uint32_t slot;
    ENDED(metronome_begin(&heap));
    ENDED(metronome_quantum(&heap, 256, &spent));
    IS(metronome_begin(&heap) == METRONOME_BUSY);
    ENDED(metronome_whole_cycle(&heap, 1000));
    ANSWERED(metronome_leave(&heap, 1), DONE);
    ANSWERED(metronome_join(&heap, 1), DONE);
    ENDED(metronome_take_slot(&row, &slot));
    ENDED(metronome_pace(&heap, &pacing, 70));
    ENDED(metronome_close_frame(&heap, &row, frame));
}

static void on_heap(void) {
    commands();
    lists();
    figures();
    cycles();
    IS(fills());
    ENDED(metronome_clear_slots(&heap, 0, 10, 2).status);
    ENDED(metronome_whole_cycle(&heap, 1000));
    IS(metronome_touch(&heap, PAGES) == (is_shared ? METRONOME_IN_USE : METRONOME_OK));
}

/* Makes many objects, each garbage once the next is made: the collector works for them. Returns whether none was refused. */
static bool makes_many(void) {
    uint32_t made = 0;
    while (made < MANY && metronome_new_words(&heap, 0, 1, 200).kind == METRONOME_MADE) made++;
    return made == MANY;
}

static void on_plan(void) {
    ENDED(metronome_plan(&settings, LIVE, &plan));
    ENDED(metronome_plan_for(&settings, LIVE, 300, &plan));
    IS(metronome_keep(&heap, &plan) == (is_shared ? METRONOME_IS_SHARED : METRONOME_OK));
    commands();
    IS(makes_many());
    figures();
    lists();
    cycles();
}

/* Takes turns at both gates, while no other thread waits there, and makes calls in the turn. */
static void in_turns(void (*calls)(void)) {
    uint64_t place;
    metronome_event event;
    ENDED(metronome_gate_enter(&fast, &heap));
    calls();
    ENDED(metronome_entry(&heap, 0, &event));
    IS(metronome_enter(&other) == METRONOME_TAKEN);
    IS(metronome_sit(&heap, &other, 2) == METRONOME_OPEN);
    ENDED(metronome_gate_exit(&fast, &heap));
    ENDED(metronome_gate_enter(&fair, &other));
    ANSWERED(metronome_leave(&other, 2), DONE);
    ANSWERED(metronome_join(&other, 2), DONE);
    ENDED(metronome_gate_exit(&fair, &other));
    ENDED(metronome_place(&heap, &place));
}

static void on_shared(void) { in_turns(on_heap); }

static void on_shared_plan(void) { in_turns(on_plan); }

static void calls_the_system(void) {
    IS(syscall(SYS_getppid) > 0);
}

/* ---- How a scene begins ---- */

static bool nothing(void) { return true; }

static bool makes_heap(void) { return metronome_create(&heap, &settings) == METRONOME_OK; }

static bool makes_touched(void) { return makes_heap() && metronome_touch(&heap, PAGES) == METRONOME_OK; }

static bool makes_shared(void) {
    is_shared = true;
    return metronome_create_shared(&heap, &settings, 100) == METRONOME_OK && metronome_sit(&heap, &other, 2) == METRONOME_OK;
}

static bool makes_shared_kept(void) {
    is_shared = true;
    return metronome_plan_for(&settings, LIVE, 300, &plan) == METRONOME_OK
        && metronome_create_shared_kept(&heap, &settings, 100, &plan) == METRONOME_OK && metronome_sit(&heap, &other, 2) == METRONOME_OK;
}

/* ---- The parent, which counts ---- */

static int passed, failed;

struct scene {
    const char *name;
    bool (*prepares)(void);
    void (*calls)(void);
    bool is_killed;
};

static _Noreturn void play(const struct scene *it, int end) {
    told = end;
    const bool is_ready = it->prepares() && prctl(PR_SET_SECCOMP, SECCOMP_MODE_STRICT) == 0;
    if (is_ready) it->calls();
    syscall(SYS_exit, is_ready ? 0 : 2);
    abort();
}

/* Reads the lines of a child, and counts which calls answered as expected. Leaves the last call in `call`. */
static void read_lines(const struct scene *it, FILE *file, char *call, int size) {
    char line[256];
    while (fgets(line, sizeof line, file) != NULL) {
        if (line[0] == '+') passed++;
        if (line[0] == '-') failed++, printf("quiet: %s: not so: %s", it->name, call);
        if (line[0] != '+' && line[0] != '-') snprintf(call, (size_t)size, "%s", line);
    }
}

/* Plays a scene in a child. Checks that the child ended by itself, or that it was killed if it must be. */
static void watch(const struct scene *it) {
    int ends[2], status = 0;
    char call[256] = "\n";
    if (pipe(ends) != 0) abort();
    const pid_t child = fork();
    if (child == 0) play(it, ends[1]);
    close(ends[1]);
    FILE *file = fdopen(ends[0], "r");
    if (child < 0 || file == NULL) abort();
    read_lines(it, file, call, sizeof call);
    fclose(file);
    if (waitpid(child, &status, 0) != child) abort();
    if (it->is_killed ? WIFSIGNALED(status) && WTERMSIG(status) == SIGKILL : WIFEXITED(status) && WEXITSTATUS(status) == 0) {
        passed++;
    } else {
        failed++;
        printf("quiet: %s: ended with status %#x in %s", it->name, (unsigned)status, call);
    }
}

int main(void) {
    static const struct scene scenes[] = {
        { "untouched", makes_heap, on_heap, false }, { "touched", makes_touched, on_heap, false },
        { "plan, untouched", makes_heap, on_plan, false }, { "plan, touched", makes_touched, on_plan, false },
        { "shared", makes_shared, on_shared, false }, { "plan, shared", makes_shared_kept, on_shared_plan, false },
        { "a system call", nothing, calls_the_system, true },
    };
    for (size_t n = 0; n < sizeof scenes / sizeof *scenes; n++) watch(&scenes[n]);
    printf("%d passed, %d failed\n", passed, failed);
    return failed != 0;
}
