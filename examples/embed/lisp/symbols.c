#include "compile.h"
#include "values.h"
#include <string.h>

enum { MOST_SYMBOLS = 512 };

/* The names of the symbols, by their numbers. */
static char names[MOST_SYMBOLS][LONGEST_NAME];
static uint32_t symbols;

static void make_symbol(root *to, const char *name) {
    frame here = open_frame();
    root nothing = local(), all = local();
    if (symbols == MOST_SYMBOLS || strlen(name) >= LONGEST_NAME) fail("too many symbols, or too long a name");
    load_static(&nothing, NOTHING);
    load_static(&all, SYMBOLS);
    make(to, SYMBOL, symbols, 1, &nothing, 1);
    store(all, symbols, *to);
    strcpy(names[symbols++], name);
    close_frame(here);
}

void symbol(root *to, const char *name) {
    uint32_t i = 0;
    while (i < symbols && strcmp(names[i], name) != 0) i++;
    if (i == symbols) {
        make_symbol(to, name);
    } else {
        load_static(to, SYMBOLS);
        load(to, *to, i);
    }
}

const char *name_of(root symbol) {
    expect(symbol, SYMBOL, "not a symbol");
    return names[number_of(symbol)];
}

void make_symbols(void) {
    frame here = open_frame();
    root it = local();
    new_array(&it, MOST_SYMBOLS);
    store_static(SYMBOLS, it);
    make(&it, NO_VALUE, 0, 0, NULL, 0);
    store_static(NOTHING, it);
    for (uint32_t form = 0; form < FORMS; form++) symbol(&it, form_names[form]);
    symbol(&it, "nil");
    clear(&it);
    bind("nil", it);
    symbol(&it, "t");
    store_static(TRUTH, it);
    bind("t", it);
    close_frame(here);
}

void bind(const char *name, root value) {
    frame here = open_frame();
    root it = local();
    symbol(&it, name);
    store(it, VALUE, value);
    close_frame(here);
}
