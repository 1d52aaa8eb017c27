#include "compile.h"
#include "values.h"

uint64_t evaluations;

/* ---- Variables ---- */

static void load_local(root *to, uint64_t place, root scope) {
    root level = scope;
    for (uint64_t outside = place / 256; outside > 0; outside--) {
        load(to, level, 0);
        level = *to;
    }
    load(to, level, 1 + (uint32_t)(place % 256));
}

static void set_local(uint64_t place, root scope, root value) {
    frame here = open_frame();
    root level = local();
    copy(&level, scope);
    for (uint64_t outside = place / 256; outside > 0; outside--) load(&level, level, 0);
    store(level, 1 + (uint32_t)(place % 256), value);
    close_frame(here);
}

static void load_global(root *to, root node) {
    load(to, node, 0);
    load(to, *to, VALUE);
    if (kind_of(*to) == NO_VALUE) fail("a name has no value");
}

static void set_global(root node, root value) {
    frame here = open_frame();
    root symbol = local();
    load(&symbol, node, 1);
    store(symbol, VALUE, value);
    close_frame(here);
}

/* ---- Calls ---- */

/* Evaluates part i of a node. */
static void eval_part(root *to, root node, uint32_t i, root scope) {
    load(to, node, i);
    eval(to, *to, scope);
}

/* Makes the scope of a function or of a `let` inside another one, with the values of a node's arguments. */
static void make_scope(root *to, root outer, root node, root scope) {
    frame here = open_frame();
    root inner = local(), value = local();
    uint32_t count = (uint32_t)number_of(node);
    make(&inner, SCOPE, count, 1 + count, &outer, 1);
    for (uint32_t i = 1; i <= count; i++) {
        eval_part(&value, node, i, scope);
        store(inner, i, value);
    }
    copy(to, inner);
    close_frame(here);
}

static void call_primitive(root *to, root function, root node, root scope) {
    root arguments[MOST_ARGUMENTS] = { local(), local(), local() };
    uint64_t primitive = number_of(function);
    uint32_t count = (uint32_t)number_of(node);
    if (count != arity_of(primitive)) fail("the wrong number of arguments of a primitive");
    for (uint32_t i = 0; i < count; i++) eval_part(&arguments[i], node, 1 + i, scope);
    apply_primitive(to, primitive, arguments);
}

/* Goes on to the body of a closure. */
static void enter(root *node, root *scope, root function) {
    root outer = local();
    if (number_of(function) != number_of(*node)) fail("the wrong number of arguments");
    load(&outer, function, OUTER);
    make_scope(scope, outer, *node, *scope);
    load(node, function, BODY);
}

/* Calls a function. Returns whether its body is the next node. */
static int call(root *to, root *node, root *scope) {
    frame here = open_frame();
    root function = local();
    eval_part(&function, *node, 0, *scope);
    enum kind kind = kind_of(function);
    if (kind == CLOSURE) enter(node, scope, function);
    else if (kind == PRIMITIVE) call_primitive(to, function, *node, *scope);
    else fail("not a function");
    close_frame(here);
    return kind == CLOSURE;
}

/* ---- Other nodes ---- */

static void make_closure(root *to, root node, root scope) {
    frame here = open_frame();
    root parts[] = { local(), scope };
    load(&parts[0], node, 0);
    make(to, CLOSURE, number_of(node), 2, parts, 2);
    close_frame(here);
}

static int holds(root node, root scope) {
    frame here = open_frame();
    root test = local();
    eval_part(&test, node, 0, scope);
    int is_true = kind_of(test) != NIL;
    close_frame(here);
    return is_true;
}

/* Evaluates all parts of a node except the last, which is the next node. */
static void begin_body(root *node, root scope) {
    frame here = open_frame();
    root value = local();
    uint32_t last = (uint32_t)number_of(*node) - 1;
    for (uint32_t i = 0; i < last; i++) eval_part(&value, *node, i, scope);
    load(node, *node, last);
    close_frame(here);
}

static void repeat(root *to, root node, root scope) {
    frame here = open_frame();
    root value = local();
    while (holds(node, scope)) eval_part(&value, node, 1, scope);
    clear(to);
    close_frame(here);
}

/* Evaluates the first part of an `or`. Returns whether the second one is the next node. */
static int goes_on(root *to, root *node, root scope) {
    eval_part(to, *node, 0, scope);
    if (kind_of(*to) != NIL) return 0;
    load(node, *node, 1);
    return 1;
}

/* ---- Evaluation ---- */

/* Does a step of a node of this kind. Returns whether there is a next node, in its scope; else the value is in *to. */
static int step(enum kind kind, root *to, root *node, root *scope) {
    switch (kind) {
    case CALL: return call(to, node, scope);
    case IF: load(node, *node, holds(*node, *scope) ? 1 : 2); return 1;
    case OR: return goes_on(to, node, *scope);
    case PROGN: begin_body(node, *scope); return 1;
    case LET: make_scope(scope, *scope, *node, *scope); load(node, *node, 0); return 1;
    case LAMBDA: make_closure(to, *node, *scope); return 0;
    case WHILE: repeat(to, *node, *scope); return 0;
    case SET_LOCAL: eval_part(to, *node, 0, *scope); set_local(number_of(*node), *scope, *to); return 0;
    case SET_GLOBAL: eval_part(to, *node, 0, *scope); set_global(*node, *to); return 0;
    default: eval(to, *node, *scope); return 0;
    }
}

/* Does the steps of a node, and of those that follow it. */
static void eval_steps(enum kind kind, root *to, root node, root scope) {
    frame here = open_frame();
    root next = local(), inner = local();
    copy(&next, node);
    copy(&inner, scope);
    while (step(kind, to, &next, &inner)) kind = kind_of(next);
    close_frame(here);
}

/* Does the same with another row of roots. The node, its scope and the value go from row to row by statics. */
static void eval_deeper(enum kind kind, root *to, root node, root scope) {
    store_static(PASSED, node);
    store_static(PASSED_SCOPE, scope);
    root_row outer = go_deeper();
    frame here = open_frame();
    root next = local(), inner = local();
    load_static(&next, PASSED);
    load_static(&inner, PASSED_SCOPE);
    eval_steps(kind, &next, next, inner);
    store_static(PASSED, next);
    close_frame(here);
    come_back(outer);
    load_static(to, PASSED);
}

void eval(root *to, root node, root scope) {
    enum kind kind = kind_of(node);
    evaluations++;
    switch (kind) {
    case NIL: clear(to); break;
    case CONSTANT: load(to, node, 0); break;
    case LOCAL: load_local(to, number_of(node), scope); break;
    case GLOBAL: load_global(to, node); break;
    default:
        if (has_room()) eval_steps(kind, to, node, scope);
        else eval_deeper(kind, to, node, scope);
    }
}
