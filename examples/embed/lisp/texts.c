#include "values.h"
#include <ctype.h>
#include <inttypes.h>
#include <stdio.h>
#include <stdlib.h>
#include <string.h>

/* ---- The reader ---- */

static const char *after_blanks(const char *text) {
    text += strspn(text, " \n");
    while (*text == ';') {
        text += strcspn(text, "\n");
        text += strspn(text, " \n");
    }
    return text;
}

/* Adds a value to the end of a list; *last is its last pair. */
static void append(root *list, root *last, root value) {
    frame here = open_frame();
    root pair = local();
    cons(&pair, value, pair);
    if (kind_of(*list) == NIL) copy(list, pair);
    else store(*last, CDR, pair);
    copy(last, pair);
    close_frame(here);
}

/* Reads the rest of a list, up to its closing bracket. */
static const char *read_list(root *to, const char *text) {
    frame here = open_frame();
    root value = local(), last = local();
    clear(to);
    for (text = after_blanks(text); *text != ')'; text = after_blanks(text)) {
        text = read_value(&value, text);
        if (text == NULL) fail("a list has no end");
        append(to, &last, value);
    }
    close_frame(here);
    return text + 1;
}

/* Reads a value behind a quote. */
static const char *read_quoted(root *to, const char *text) {
    frame here = open_frame();
    root form = local(), rest = local();
    text = read_value(&form, text);
    if (text == NULL) fail("nothing is quoted");
    cons(&rest, form, rest);
    symbol(&form, "quote");
    cons(to, form, rest);
    close_frame(here);
    return text;
}

/* Reads a number or a symbol. */
static const char *read_word(root *to, const char *text) {
    char word[LONGEST_NAME], *end;
    size_t length = strcspn(text, " \n()';");
    if (length == 0 || length >= LONGEST_NAME) fail("no value to read");
    memcpy(word, text, length);
    word[length] = 0;
    long long integer = strtoll(word, &end, 10);
    if (*end == 0) {
        make_integer(to, integer);
    } else if (isdigit((unsigned char)word[0])) {
        make_real(to, strtod(word, &end));
        if (*end != 0) fail("no number");
    } else {
        symbol(to, word);
    }
    return text + length;
}

const char *read_value(root *to, const char *text) {
    text = after_blanks(text);
    switch (*text) {
    case 0: return NULL;
    case '(': return read_list(to, text + 1);
    case '\'': return read_quoted(to, text + 1);
    default: return read_word(to, text);
    }
}

/* ---- The printer ---- */

/* Adds a piece to a text. */
static void add(char *text, const char *piece) {
    if (strlen(text) + strlen(piece) >= LONGEST_TEXT) fail("the text is too long");
    strcat(text, piece);
}

static void add_value(char *text, root value);

static void add_items(char *text, root list) {
    frame here = open_frame();
    root rest = local(), first = local();
    for (copy(&rest, list); kind_of(rest) == PAIR; cdr(&rest, rest)) {
        car(&first, rest);
        add_value(text, first);
        add(text, " ");
    }
    text[strlen(text) - 1] = 0;
    close_frame(here);
}

static void add_value(char *text, root value) {
    char number[64] = "";
    switch (kind_of(value)) {
    case NIL: add(text, "()"); break;
    case SYMBOL: add(text, name_of(value)); break;
    case INTEGER: snprintf(number, sizeof number, "%" PRId64, (int64_t)number_of(value)); break;
    case REAL: snprintf(number, sizeof number, "%.9g", real_of(value)); break;
    case PAIR: add(text, "("); add_items(text, value); add(text, ")"); break;
    default: add(text, "?");
    }
    add(text, number);
}

void print_value(char *text, root value) {
    text[0] = 0;
    add_value(text, value);
}
