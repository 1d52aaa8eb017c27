/* The calls of a recording. */
#ifndef RECORDING_H
#define RECORDING_H

#include <stdint.h>

/* A call of malloc, realloc or free: the address of the block that goes, or 0; the address of the block in its place, or 0; and how
 * many bytes that has. */
struct record {
    uint64_t before;
    uint64_t after;
    uint64_t bytes;
};

#endif
