/* Heaps on which units and calls take many instructions, to count them. */
#ifndef HEAPS_H
#define HEAPS_H

#include "metronome_shared.h"

enum { SLOTS = 256, BUDGET = 256, PAGE_WORDS = 2048, HEADER = 4, RECORDS = 64, LARGEST = 252, SPARE = 4, LOG = 16 };

/* The heap that was made last. */
extern metronome heap;

/* How many times as much each kind of heap has as a quantum of BUDGET units needs. It is 1 unless a program sets it, to
 * 16 at most, for quanta of as many times these units. A kind then takes as many times its pages, except that 512 are
 * enough. */
extern int scale;

/* Whether heaps are shared ones, whose first handle has the turn, and which keep a log of LOG events. */
extern bool is_shared;

/* Ends with a message if a condition doesn't hold. */
void need(int holds, const char *what);

/* Makes a heap of these settings, shared or not, that keeps a plan unless it is NULL. All its pages are touched. */
void open_heap(metronome *made, const metronome_settings *settings, const metronome_flow *plan);

/* Makes a heap that empties up to `emptied` times `scale` pages. All its pages are touched, so no call clears one.
 * Objects that are made later go on pages that are free now: `room` times `scale` of them, if the heap has more, and
 * the others are then full of objects to which a static leads; all if `room` is 0. */
void create(int pages, int mutators, int emptied, int room);

/* Makes an object of word cells. */
void make(uint32_t mutator, uint32_t slot, uint32_t words);

/* A kind of heap: its name and a description, the first and the last phase in which its units take many instructions, how many
 * pages it takes to spend a quantum there, and the function that makes it, up to the beginning of its cycle. */
struct kind {
    const char *name;
    const char *what;
    uint32_t first;
    uint32_t last;
    int takes;
    void (*build)(int pages, int mutators);
};

/* The kinds; the last has no name. */
extern const struct kind kinds[];

/* A heap of drawn settings and drawn objects, in which a cycle has begun: the one of this seed. */
void draw(uint64_t seed);

#endif
