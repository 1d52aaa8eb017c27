/* The two kinds of handles, for programs that try both. */
#ifndef KINDS_H
#define KINDS_H

#include "metronome_shared.h"

/* The kind that is tried now. */
static enum { OWN, SHARED, KINDS } kind;

#define FOR_EACH_KIND for (kind = OWN; kind < KINDS; kind++)

/* Makes a heap of its own, or a shared one whose first handle has the turn. Returns the status. */
static inline uint32_t make_heap(metronome *heap, const metronome_settings *settings) {
    if (kind == OWN) return metronome_create(heap, settings);
    const uint32_t status = metronome_create_shared(heap, settings, 0);
    return status == METRONOME_OK ? metronome_enter(heap) : status;
}

#endif
