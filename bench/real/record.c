/*
 * A library to preload, which records what a program asks of malloc: each block that it gets, grows or gives back, in the order of
 * the calls, as a struct record of recording.h. Each process writes a file of its own into the folder RECORDINGS of its
 * environment, and one that another forked writes nothing. It needs the C library of GNU, whose functions it calls by their inner
 * names.
 */
#define _GNU_SOURCE
#include "recording.h"
#include <errno.h>
#include <fcntl.h>
#include <pthread.h>
#include <stdbool.h>
#include <stdint.h>
#include <stdio.h>
#include <stdlib.h>
#include <unistd.h>

void *__libc_malloc(size_t bytes);
void *__libc_calloc(size_t count, size_t each);
void *__libc_realloc(void *block, size_t bytes);
void *__libc_memalign(size_t alignment, size_t bytes);
void __libc_free(void *block);

enum { AT_ONCE = 4096 };

static pthread_mutex_t turn = PTHREAD_MUTEX_INITIALIZER;
static char file[4096];
static bool on;
static struct record records[AT_ONCE];
static size_t count;

/* Writes the records down. The file is open no longer than this takes, since a program may close all files. */
static void write_down(void) {
    const int said = errno;
    const int to = open(file, O_WRONLY | O_APPEND | O_CLOEXEC);
    const char *from = (const char *)records;
    size_t left = count * sizeof(struct record);
    while (to >= 0 && left > 0) {
        const ssize_t done = write(to, from, left);
        if (done <= 0) break;
        from += done;
        left -= (size_t)done;
    }
    if (to >= 0) close(to);
    if (left > 0) on = false;
    count = 0;
    errno = said;
}

static void take_turn(void) {
    pthread_mutex_lock(&turn);
}

static void give_turn(void) {
    pthread_mutex_unlock(&turn);
}

static void forked(void) {
    on = false;
    give_turn();
}

/* A file that isn't there yet, since a process that starts another program keeps its number. */
__attribute__((constructor)) static void start(void) {
    const char *folder = getenv("RECORDINGS");
    int to = -1;
    if (folder == NULL) return;
    for (int number = 0; to < 0 && (number == 0 || errno == EEXIST); number++) {
        snprintf(file, sizeof file, "%s/%ld.%d", folder, (long)getpid(), number);
        to = open(file, O_WRONLY | O_CREAT | O_EXCL | O_CLOEXEC, 0644);
    }
    if (to < 0) return;
    close(to);
    pthread_atfork(take_turn, give_turn, forked);
    on = true;
}

__attribute__((destructor)) static void finish(void) {
    take_turn();
    if (on) write_down();
    give_turn();
}

/* Notes a call, whose thread has the turn. */
static void note(const void *before, const void *after, size_t bytes) {
    if (!on || (before == NULL && after == NULL)) return;
    records[count++] = (struct record){ (uint64_t)(uintptr_t)before, (uint64_t)(uintptr_t)after, bytes };
    if (count == AT_ONCE) write_down();
}

void *malloc(size_t bytes) {
    take_turn();
    void *after = __libc_malloc(bytes);
    note(NULL, after, bytes);
    give_turn();
    return after;
}

void *calloc(size_t number, size_t each) {
    take_turn();
    void *after = __libc_calloc(number, each);
    note(NULL, after, number * each);
    give_turn();
    return after;
}

/* If it is refused, the block stays, unless the new one is to have no bytes. */
void *realloc(void *before, size_t bytes) {
    take_turn();
    void *after = __libc_realloc(before, bytes);
    if (after != NULL || bytes == 0) note(before, after, bytes);
    give_turn();
    return after;
}

void free(void *before) {
    take_turn();
    note(before, NULL, 0);
    __libc_free(before);
    give_turn();
}

void *memalign(size_t alignment, size_t bytes) {
    take_turn();
    void *after = __libc_memalign(alignment, bytes);
    note(NULL, after, bytes);
    give_turn();
    return after;
}

void *aligned_alloc(size_t alignment, size_t bytes) {
    return memalign(alignment, bytes);
}

int posix_memalign(void **block, size_t alignment, size_t bytes) {
    void *after = memalign(alignment, bytes);
    if (after == NULL) return ENOMEM;
    *block = after;
    return 0;
}
