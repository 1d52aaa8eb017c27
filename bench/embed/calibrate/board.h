/* Prepares the machine for measurements. Each function says in `text` what it did, or why it couldn't. */
#ifndef BOARD_H
#define BOARD_H

#include <stddef.h>
#include <stdint.h>

enum { BOARD_TEXT = 200 };

/* Keeps the program on the processor where it runs now. */
void pin_processor(char *text);

/* Keeps the program's memory from being paged out, also memory that it asks for later, if there may be `bytes` more. */
void lock_memory(char *text, size_t bytes);

/* Returns a function that returns how many instructions the program has taken outside of the system; one that returns 0 if they
 * can't be counted. */
uint64_t (*count_instructions(char *text))(void);

#endif
