/* Loaded before the C library (LD_PRELOAD): refuses one request for memory of a program, the one whose number, from 1,
   is in the variable REFUSE, and then writes a line "refused" to the error stream. */
#include <stdatomic.h>
#include <stddef.h>
#include <stdlib.h>
#include <unistd.h>

extern void *__libc_malloc(size_t size);
extern void *__libc_realloc(void *block, size_t size);

static atomic_long requests;
static atomic_long refused = -1;

static int is_refused(void)
{
    if (refused < 0) {
        const char *number = getenv("REFUSE");
        refused = number ? atol(number) : 0;
    }
    if (atomic_fetch_add(&requests, 1) + 1 != refused)
        return 0;
    if (write(2, "refused\n", 8) != 8)
        _exit(99);
    return 1;
}

void *malloc(size_t size)
{
    return is_refused() ? NULL : __libc_malloc(size);
}

void *realloc(void *block, size_t size)
{
    return is_refused() ? NULL : __libc_realloc(block, size);
}
