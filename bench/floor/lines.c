/*
 * lines PAGES TRACE: plays a trace on the floor (floor.h) and writes a reply for each command, as `metronome play` does of the
 * same trace. A line is read, done, entered with its reply in a history that is kept, and replied. It knows commands of 64
 * mutators with 256 slots each: new of an object or of an array of references, load, store, cas, get, put and clear.
 */
#define _POSIX_C_SOURCE 200809L
#include "floor.h"
#include <fcntl.h>
#include <stdio.h>
#include <stdlib.h>
#include <string.h>
#include <unistd.h>

enum { BLOCK = 65536, LINE = 256, REPLY = 32 };

enum command { NEW_PLAIN, NEW_REFS, LOAD, STORE, CAS, GET, PUT, CLEAR };

/* A command with its reply. */
struct entry {
    uint32_t mutator, command;
    uint32_t operands[4];
    uint64_t word;
    metronome_answer reply;
};

static struct entry *history;
static size_t entries, room;
static char replies[BLOCK];
static size_t replied;

/* ---- A line is read. Each function answers where it stopped, or NULL where the line isn't as it must be ---- */

static inline const char *keyword(const char *at, const char *word, size_t length) {
    return LIKELY(memcmp(at, word, length) == 0) ? at + length : NULL;
}

/* At most 19 digits, without a leading zero. */
static inline const char *number(const char *at, uint64_t *told) {
    const char *digit = at;
    uint64_t value = 0;
    for (; (unsigned char)(*digit - '0') <= 9; digit++) value = 10 * value + (uint64_t)(*digit - '0');
    if (UNLIKELY(digit == at || digit - at > 19 || (*at == '0' && digit - at > 1))) return NULL;
    *told = value;
    return digit;
}

/* A number below 2 to the 32, and this end. */
static inline const char *field(const char *at, char end, uint32_t *told) {
    uint64_t value;
    at = number(at, &value);
    if (UNLIKELY(at == NULL || *at != end || value >> 32)) return NULL;
    *told = (uint32_t)value;
    return at + 1;
}

/* Reads `count` fields, the last before the end of the line. */
static inline const char *fields(const char *at, struct entry *entry, int first, int count) {
    for (int k = 0; k < count && at != NULL; k++)
        at = field(at, k + 1 < count ? ' ' : '\n', &entry->operands[first + k]);
    return at;
}

static inline const char *read_new(const char *at, struct entry *entry) {
    at = keyword(at, "new ", 4);
    if (at != NULL) at = field(at, ' ', &entry->operands[0]);
    if (UNLIKELY(at == NULL)) return NULL;
    entry->command = *at == 'p' ? NEW_PLAIN : NEW_REFS;
    if (*at == 'p') return LIKELY((at = keyword(at, "plain ", 6)) != NULL) ? fields(at, entry, 1, 2) : NULL;
    return LIKELY((at = keyword(at, "refs ", 5)) != NULL) ? fields(at, entry, 1, 1) : NULL;
}

static inline const char *read_put(const char *at, struct entry *entry) {
    entry->command = PUT;
    at = keyword(at, "put ", 4);
    if (at != NULL) at = field(at, ' ', &entry->operands[0]);
    if (at != NULL) at = field(at, ' ', &entry->operands[1]);
    if (at != NULL) at = number(at, &entry->word);
    return LIKELY(at != NULL && *at == '\n') ? at + 1 : NULL;
}

static inline const char *read_one(const char *at, struct entry *entry, enum command command, const char *word, int count) {
    entry->command = command;
    at = keyword(at, word, strlen(word));
    return LIKELY(at != NULL) ? fields(at, entry, 0, count) : NULL;
}

static inline const char *read_line(const char *at, struct entry *entry) {
    at = field(at, ' ', &entry->mutator);
    if (UNLIKELY(at == NULL)) return NULL;
    switch (*at) {
    case 'n': return read_new(at, entry);
    case 'l': return read_one(at, entry, LOAD, "load ", 3);
    case 's': return read_one(at, entry, STORE, "store ", 3);
    case 'g': return read_one(at, entry, GET, "get ", 2);
    case 'p': return read_put(at, entry);
    case 'c': return at[1] == 'a' ? read_one(at, entry, CAS, "cas ", 4) : read_one(at, entry, CLEAR, "clear ", 1);
    default: return NULL;
    }
}

/* ---- It is done ---- */

static inline metronome_answer done(floor_heap *heap, const struct entry *entry) {
    uint32_t mutator = entry->mutator;
    const uint32_t *o = entry->operands;
    switch (entry->command) {
    case NEW_PLAIN: return floor_new_plain(heap, mutator, o[0], o[1], o[2]);
    case NEW_REFS: return floor_new_refs(heap, mutator, o[0], o[1]);
    case LOAD: return floor_load(heap, mutator, o[0], o[1], o[2]);
    case STORE: return floor_store(heap, mutator, o[0], o[1], o[2]);
    case CAS: return floor_compare_store(heap, mutator, o[0], o[1], o[2], o[3]);
    case GET: return floor_get(heap, mutator, o[0], o[1]);
    case PUT: return floor_put(heap, mutator, o[0], o[1], entry->word);
    default: return floor_clear(heap, mutator, o[0]);
    }
}

static APART void more_room(void) {
    room = room ? 2 * room : 1024;
    history = realloc(history, room * sizeof *history);
    if (history == NULL) exit(6);
}

static inline void enter(const struct entry *entry) {
    if (UNLIKELY(entries == room)) more_room();
    history[entries++] = *entry;
}

/* ---- It is replied ---- */

static APART void write_replies(void) {
    if (write(STDOUT_FILENO, replies, replied) != (ssize_t)replied) exit(5);
    replied = 0;
}

static inline void put_text(const char *text, size_t length) {
    memcpy(replies + replied, text, length);
    replied += length;
}

static inline void put_number(const char *before, uint64_t number) {
    char digits[20];
    size_t at = sizeof digits;
    do digits[--at] = (char)('0' + number % 10);
    while ((number /= 10) > 0);
    put_text(before, strlen(before));
    put_text(digits + at, sizeof digits - at);
}

static inline void reply(metronome_answer answer) {
    switch (answer.kind) {
    case METRONOME_MADE: put_number("made ", answer.number); break;
    case METRONOME_REF: put_number("ref ", answer.number); break;
    case METRONOME_WORD: put_number("word ", answer.number); break;
    case METRONOME_DONE: put_text("done", 4); break;
    case METRONOME_STORED: put_text("stored", 6); break;
    case METRONOME_KEPT: put_number("kept ", answer.number); break;
    default: put_number("refused ", answer.number);
    }
    put_text("\n", 1);
}

/* ---- All lines ---- */

static APART const char *play_line(floor_heap *heap, const char *at) {
    struct entry entry = { 0 };
    at = read_line(at, &entry);
    if (UNLIKELY(at == NULL)) exit(4);
    entry.reply = done(heap, &entry);
    enter(&entry);
    if (UNLIKELY(replied > BLOCK - REPLY)) write_replies();
    reply(entry.reply);
    return at;
}

int main(int words, char **word) {
    static char text[BLOCK + LINE];
    if (words != 3) return 2;
    floor_heap *heap = floor_create((uint32_t)atol(word[1]), MUTATORS);
    int file = open(word[2], O_RDONLY);
    if (heap == NULL || file < 0) return 5;
    size_t kept = 0;
    for (ssize_t came; (came = read(file, text + kept, BLOCK - kept)) > 0;) {
        const char *at = text, *end = text + kept + came;
        while (end > text && end[-1] != '\n') end--;
        while (at < end) at = play_line(heap, at);
        kept = (size_t)(text + kept + came - end);
        memmove(text, end, kept);
    }
    write_replies();
    return 0;
}
