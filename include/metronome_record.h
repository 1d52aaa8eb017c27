/*
 * metronome_record.h: records a run as a trace, from the log of a shared heap (metronome_create_shared). It is plain C over
 * metronome_entry, and nothing of it is proved. A program of one thread makes such a heap too, takes the turn, and keeps it:
 *
 *     metronome_recording recording;
 *     metronome_record_begin(&recording, &settings, fopen("run.toml", "w"), fopen("run.trace", "w"), NULL);
 *     metronome_create_shared(&heap, &settings, 4096);
 *     metronome_enter(&heap);
 *     ...
 *     metronome_record(&recording, &heap);             in a turn, once in at most 4096 events
 *
 * The settings are written as a configuration, and the commands, begins and quanta of all handles as lines of a trace of version 2
 * (docs/MANUAL.md): each command of a list, and all that the collector does for a plan, are lines of their own. Then `metronome
 * pages run.toml run.trace` prints how many pages the run needs, `inspect` and `draw` show what fills the heap, and `play` does it
 * all again. A quantum that is refused is no line. The time that passes isn't written, so `mmu` has no windows to report.
 */
#ifndef METRONOME_RECORD_H
#define METRONOME_RECORD_H

#include "metronome_shared.h"
#include <inttypes.h>
#include <stdio.h>

typedef struct metronome_recording {
    FILE *trace, *history;
    uint64_t next; /* the place in the log of the event that comes next */
    uint64_t lost; /* the events that were GONE; if there are any, the trace isn't whole */
} metronome_recording;

/* Returns whether the files took all lines so far. */
METRONOME_NONNULL static inline bool metronome_record_holds(const metronome_recording *it) {
    return it->trace != NULL && !ferror(it->trace) && (it->history == NULL || !ferror(it->history));
}

/* Begins a recording: writes the settings to the first file, and the first line of a trace to the second. Unless the third is NULL,
 * each command will be written to it with its reply, as `metronome play --history` prints them. The program closes the files.
 * Returns whether the files took the lines. */
static inline bool metronome_record_begin(metronome_recording *it, const metronome_settings *of, FILE *settings, FILE *trace,
                                          FILE *history) {
    const metronome_recording begun = { settings != NULL ? trace : NULL, history, 0, 0 };
    *it = begun;
    if (it->trace == NULL) return false;
    fprintf(settings, "pages = %" PRId64 "\nmutators = %" PRId64 "\nslots = %" PRId64 "\nstatics = %" PRId64 "\n", of->pages,
            of->mutators, of->slots, of->statics);
    fprintf(settings, "identities = %" PRId64 "\ndefrag_below = %" PRId64 "\ndefrag_pages = %" PRId64 "\n", of->identities,
            of->defrag_below, of->defrag_pages);
    fprintf(settings, "collector_ticks = %" PRId64 "\nmutator_ticks = %" PRId64 "\nrate = %" PRId64 "\nlive = %" PRId64 "\n",
            of->collector_ticks, of->mutator_ticks, of->rate, of->live);
    fputs("version 2\n", trace);
    if (history != NULL) fputs("version 2\n", history);
    return fflush(settings) == 0 && !ferror(settings) && metronome_record_holds(it);
}

METRONOME_NONNULL static inline void metronome_record_shape(FILE *file, uint32_t kind, uint32_t refs, uint32_t words) {
    static const char *const kinds[] = { " plain", " refs", " words" };
    fputs(kinds[kind], file);
    if (kind != METRONOME_WORD_ARRAY) fprintf(file, " %" PRIu32, refs);
    if (kind != METRONOME_REF_ARRAY) fprintf(file, " %" PRIu32, words);
}

/* Writes a command, as traces and histories have it: its mutator, its keyword, its numbers and its words. */
METRONOME_NONNULL static inline void metronome_record_command(FILE *file, uint32_t mutator, const metronome_command *it) {
    static const struct { const char *keyword; int numbers, words; } rows[] = {
        { "new", 1, 0 },  { "load", 3, 0 },  { "store", 3, 0 },      { "cas", 4, 0 },         { "get", 2, 0 },       { "put", 2, 1 },
        { "casput", 2, 2 }, { "copy", 2, 0 }, { "clear", 1, 0 },     { "loadstatic", 2, 0 },  { "storestatic", 2, 0 },
        { "casstatic", 3, 0 }, { "same", 2, 0 }, { "describe", 1, 0 }, { "join", 0, 0 },      { "leave", 0, 0 }
    };
    const uint32_t numbers[] = { it->first, it->second, it->third, it->fourth };
    const uint64_t words[] = { it->first_word, it->second_word };
    fprintf(file, "%" PRIu32 " %s", mutator, rows[it->kind].keyword);
    for (int i = 0; i < rows[it->kind].numbers; i++) fprintf(file, " %" PRIu32, numbers[i]);
    for (int i = 0; i < rows[it->kind].words; i++) fprintf(file, " %" PRIu64, words[i]);
    if (it->kind == METRONOME_NEW) metronome_record_shape(file, it->second, it->third, it->fourth);
}

/* Writes a reply, as a line of a history ends. */
METRONOME_NONNULL static inline void metronome_record_reply(FILE *file, metronome_answer answer, const metronome_shape *shape) {
    static const char *const words[] = { "refused", "made", "ref", "word", "done", "stored", "kept", "keptword", "is", "described" };
    fprintf(file, " => %s", words[answer.kind]);
    if (answer.kind == METRONOME_IS) fputs(answer.number != 0 ? " yes" : " no", file);
    else if (answer.kind != METRONOME_DONE && answer.kind != METRONOME_STORED) fprintf(file, " %" PRIu64, answer.number);
    if (answer.kind == METRONOME_DESCRIBED) metronome_record_shape(file, shape->kind, shape->refs, shape->words);
    fputc('\n', file);
}

/* Writes an event. */
METRONOME_NONNULL static inline void metronome_record_event(const metronome_recording *to, const metronome_event *it) {
    if (it->command.kind == METRONOME_BEGIN) {
        fputs("begin\n", to->trace);
    } else if (it->command.kind == METRONOME_QUANTUM) {
        if (it->answer.kind != METRONOME_REFUSED) fprintf(to->trace, "quantum %" PRIu32 "\n", it->command.first);
    } else {
        metronome_record_command(to->trace, it->mutator, &it->command);
        fputc('\n', to->trace);
        if (to->history == NULL) return;
        metronome_record_command(to->history, it->mutator, &it->command);
        metronome_record_reply(to->history, it->answer, &it->shape);
    }
}

/* Writes the events that weren't written yet, in the turn. Those that are GONE are counted as lost. Time grows with their number.
 * Returns whether the files took all lines so far, and the handle has the turn of a shared heap. */
METRONOME_NONNULL static inline bool metronome_record(metronome_recording *to, metronome *heap) {
    metronome_event event;
    for (; metronome_record_holds(to) && metronome_entry(heap, to->next, &event) == METRONOME_OK; to->next++) {
        if (event.kind == METRONOME_NOT_YET) return true;
        if (event.kind == METRONOME_GONE) to->lost++;
        else metronome_record_event(to, &event);
    }
    return false;
}

#endif
