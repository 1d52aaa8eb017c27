#include "compile.h"
#include "values.h"

const char *const form_names[FORMS] = {
    "quote", "if", "cond", "and", "or", "while", "progn", "let", "lambda", "setq", "define", "defun",
};

/* Stores in *to the node of a form. `names` are those of the scopes round it, a list of lists, the innermost first. */
static void compile_in(root *to, root form, root names);

/* ---- Names ---- */

/* Returns the place of a symbol in a list, or -1. */
static int64_t index_in(root symbol, root list) {
    frame here = open_frame();
    root rest = local(), name = local();
    int64_t index = 0;
    for (copy(&rest, list); kind_of(rest) == PAIR; cdr(&rest, rest), index++) {
        car(&name, rest);
        if (same(name, symbol)) break;
    }
    if (kind_of(rest) != PAIR) index = -1;
    close_frame(here);
    return index;
}

/* Returns the place of a variable, or -1 if no scope has it. */
static int64_t place_of(root symbol, root names) {
    frame here = open_frame();
    root rest = local(), list = local();
    int64_t index = -1, outside = 0;
    for (copy(&rest, names); kind_of(rest) == PAIR; cdr(&rest, rest), outside++) {
        car(&list, rest);
        index = index_in(symbol, list);
        if (index >= 0) break;
    }
    close_frame(here);
    return index < 0 ? -1 : 256 * outside + index;
}

static void compile_name(root *to, root symbol, root names) {
    int64_t place = place_of(symbol, names);
    if (place < 0) make(to, GLOBAL, 0, 1, &symbol, 1);
    else make(to, LOCAL, (uint64_t)place, 0, NULL, 0);
}

/* ---- Parts ---- */

/* Compiles item i of a form. */
static void compile_item(root *to, root form, uint32_t i, root names) {
    item(to, form, i);
    compile_in(to, *to, names);
}

/* Compiles the items of a list into the references of a node, from number `first` on. */
static void compile_items(root node, uint32_t first, root list, root names) {
    frame here = open_frame();
    root rest = local(), part = local();
    for (copy(&rest, list); kind_of(rest) == PAIR; cdr(&rest, rest), first++) {
        compile_item(&part, rest, 0, names);
        store(node, first, part);
    }
    close_frame(here);
}

/* Compiles forms that are done one after the other: to null if there is none. */
static void compile_body(root *to, root list, root names) {
    frame here = open_frame();
    root node = local();
    uint32_t count = length_of(list);
    if (count > 1) make(&node, PROGN, count, count, NULL, 0);
    if (count > 1) compile_items(node, 0, list, names);
    if (count == 1) compile_item(&node, list, 0, names);
    copy(to, node);
    close_frame(here);
}

/* Compiles forms that are done in a new scope. */
static void compile_scope(root *to, root body, root variables, root names) {
    frame here = open_frame();
    root inner = local();
    cons(&inner, variables, names);
    compile_body(to, body, inner);
    close_frame(here);
}

/* ---- Forms; `rest` is what follows the name of the form ---- */

/* Compiles a function: a list of parameters, and then its body. */
static void compile_function(root *to, root rest, root names) {
    frame here = open_frame();
    root parameters = local(), body = local();
    car(&parameters, rest);
    cdr(&body, rest);
    compile_scope(&body, body, parameters, names);
    make(to, LAMBDA, length_of(parameters), 1, &body, 1);
    close_frame(here);
}

/* Takes a list of bindings apart: their variables, in order, and their first values. */
static void split_bindings(root *variables, root *values, root bindings) {
    frame here = open_frame();
    root rest = local(), part = local();
    if (kind_of(bindings) == PAIR) {
        cdr(&rest, bindings);
        split_bindings(variables, values, rest);
        car(&rest, bindings);
        item(&part, rest, 0);
        cons(variables, part, *variables);
        item(&part, rest, 1);
        cons(values, part, *values);
    }
    close_frame(here);
}

/* Compiles a list of bindings and a body. */
static void compile_let(root *to, root rest, root names) {
    frame here = open_frame();
    root variables = local(), values = local(), node = local(), body = local();
    car(&body, rest);
    split_bindings(&variables, &values, body);
    uint32_t count = length_of(variables);
    make(&node, LET, count, 1 + count, NULL, 0);
    compile_items(node, 1, values, names);
    cdr(&body, rest);
    compile_scope(&body, body, variables, names);
    store(node, 0, body);
    copy(to, node);
    close_frame(here);
}

/* Compiles a value and where it goes to. */
static void compile_setting(root *to, root rest, root names) {
    frame here = open_frame();
    root parts[] = { local(), local() };
    item(&parts[1], rest, 0);
    compile_item(&parts[0], rest, 1, names);
    int64_t place = place_of(parts[1], names);
    if (place < 0) make(to, SET_GLOBAL, 0, 2, parts, 2);
    else make(to, SET_LOCAL, (uint64_t)place, 1, parts, 1);
    close_frame(here);
}

/* Compiles a definition of a function: its name, and the function. */
static void compile_defun(root *to, root rest, root names) {
    frame here = open_frame();
    root parts[] = { local(), local() };
    car(&parts[1], rest);
    cdr(&parts[0], rest);
    compile_function(&parts[0], parts[0], names);
    make(to, SET_GLOBAL, 0, 2, parts, 2);
    close_frame(here);
}

/* Compiles clauses: each a test, and forms for where it holds. */
static void compile_clauses(root *to, root clauses, root names) {
    frame here = open_frame();
    root parts[] = { local(), local(), local() }, clause = local();
    if (kind_of(clauses) == PAIR) {
        car(&clause, clauses);
        compile_item(&parts[0], clause, 0, names);
        cdr(&clause, clause);
        compile_body(&parts[1], clause, names);
        cdr(&clause, clauses);
        compile_clauses(&parts[2], clause, names);
        make(to, IF, 0, 3, parts, 3);
    } else {
        clear(to);
    }
    close_frame(here);
}

/* Compiles `and` and `or`: the first form, and then the same of the others. */
static void compile_chain(root *to, enum kind kind, root rest, root names) {
    frame here = open_frame();
    root parts[] = { local(), local(), local() };
    cdr(&parts[1], rest);
    if (kind_of(parts[1]) == NIL) {
        compile_item(to, rest, 0, names);
    } else {
        compile_item(&parts[0], rest, 0, names);
        compile_chain(&parts[1], kind, parts[1], names);
        make(to, kind, 0, 3, parts, 3);
    }
    close_frame(here);
}

/* Compiles items into a node that has `parts` references. */
static void compile_node(root *to, enum kind kind, uint32_t parts, root list, root names) {
    frame here = open_frame();
    root node = local();
    if (length_of(list) > parts) fail("too many forms");
    make(&node, kind, length_of(list) - 1, parts, NULL, 0);
    compile_items(node, 0, list, names);
    copy(to, node);
    close_frame(here);
}

/* Compiles a test and a body. */
static void compile_while(root *to, root rest, root names) {
    frame here = open_frame();
    root parts[] = { local(), local() };
    compile_item(&parts[0], rest, 0, names);
    cdr(&parts[1], rest);
    compile_body(&parts[1], parts[1], names);
    make(to, WHILE, 0, 2, parts, 2);
    close_frame(here);
}

static void compile_constant(root *to, root value) { make(to, CONSTANT, 0, 1, &value, 1); }

static void compile_form(root *to, enum form form, root rest, root names) {
    switch (form) {
    case F_QUOTE: item(to, rest, 0); compile_constant(to, *to); break;
    case F_IF: compile_node(to, IF, 3, rest, names); break;
    case F_COND: compile_clauses(to, rest, names); break;
    case F_AND: compile_chain(to, IF, rest, names); break;
    case F_OR: compile_chain(to, OR, rest, names); break;
    case F_WHILE: compile_while(to, rest, names); break;
    case F_PROGN: compile_body(to, rest, names); break;
    case F_LET: compile_let(to, rest, names); break;
    case F_LAMBDA: compile_function(to, rest, names); break;
    case F_SETQ: case F_DEFINE: compile_setting(to, rest, names); break;
    case F_DEFUN: compile_defun(to, rest, names); break;
    default: fail("no such form");
    }
}

/* Compiles a list: a special form, or a call of a function. */
static void compile_list(root *to, root list, root names) {
    frame here = open_frame();
    root first = local(), rest = local();
    car(&first, list);
    if (kind_of(first) == SYMBOL && number_of(first) < FORMS) {
        cdr(&rest, list);
        compile_form(to, (enum form)number_of(first), rest, names);
    } else {
        compile_node(to, CALL, length_of(list), list, names);
    }
    close_frame(here);
}

static void compile_in(root *to, root form, root names) {
    switch (kind_of(form)) {
    case SYMBOL: compile_name(to, form, names); break;
    case PAIR: compile_list(to, form, names); break;
    default: compile_constant(to, form);
    }
}

void compile(root *to, root form) {
    frame here = open_frame();
    compile_in(to, form, local());
    close_frame(here);
}
