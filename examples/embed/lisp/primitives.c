#include "compile.h"
#include "values.h"
#include <math.h>

enum primitive {
    CONS, FIRST, REST, SET_FIRST, SET_REST, IS_NULL, IS_PAIR, IS_SAME,
    EQUAL, LESS, PLUS, MINUS, TIMES, OVER, QUOTIENT, REMAINDER, SINE, COSINE,
    MAKE_VECTOR, VECTOR_LOAD, VECTOR_STORE, FIRST_LETTER, PRIMITIVES
};

/* The names of the primitives, and how many arguments they take. */
static const struct {
    const char *name;
    uint32_t arity;
} primitives[PRIMITIVES] = {
    [CONS] = { "cons", 2 }, [FIRST] = { "car", 1 }, [REST] = { "cdr", 1 }, [SET_FIRST] = { "rplaca", 2 },
    [SET_REST] = { "rplacd", 2 }, [IS_NULL] = { "null?", 1 }, [IS_PAIR] = { "pair?", 1 }, [IS_SAME] = { "eq?", 2 },
    [EQUAL] = { "=", 2 }, [LESS] = { "<", 2 }, [PLUS] = { "+", 2 }, [MINUS] = { "-", 2 }, [TIMES] = { "*", 2 },
    [OVER] = { "/", 2 }, [QUOTIENT] = { "quotient", 2 }, [REMAINDER] = { "remainder", 2 }, [SINE] = { "sin", 1 },
    [COSINE] = { "cos", 1 },
    [MAKE_VECTOR] = { "make-vector", 1 }, [VECTOR_LOAD] = { "vector-ref", 2 }, [VECTOR_STORE] = { "vector-set", 3 },
    [FIRST_LETTER] = { "first-letter", 1 },
};

uint32_t arity_of(uint64_t primitive) { return primitives[primitive].arity; }

void bind_primitives(void) {
    frame here = open_frame();
    root it = local();
    for (uint64_t primitive = 0; primitive < PRIMITIVES; primitive++) {
        make(&it, PRIMITIVE, primitive, 0, NULL, 0);
        bind(primitives[primitive].name, it);
    }
    close_frame(here);
}

static void truth(root *to, int holds) {
    if (holds) load_static(to, TRUTH);
    else clear(to);
}

static int64_t integer_of(root it) {
    expect(it, INTEGER, "not an integer");
    return (int64_t)number_of(it);
}

static void set_part(root *to, root pair, uint32_t part, root value) {
    expect(pair, PAIR, "not a pair");
    store(pair, part, value);
    copy(to, pair);
}

/* ---- Numbers ---- */

/* Does a primitive of two integers. Sums and products wrap. */
static void of_integers(root *to, enum primitive primitive, int64_t a, int64_t b) {
    uint64_t x = (uint64_t)a, y = (uint64_t)b;
    if ((primitive == QUOTIENT || primitive == REMAINDER) && (b == 0 || b == -1)) fail("the divisor is 0 or -1");
    switch (primitive) {
    case EQUAL: truth(to, a == b); break;
    case LESS: truth(to, a < b); break;
    case PLUS: make_integer(to, (int64_t)(x + y)); break;
    case MINUS: make_integer(to, (int64_t)(x - y)); break;
    case TIMES: make_integer(to, (int64_t)(x * y)); break;
    case QUOTIENT: make_integer(to, a / b); break;
    case REMAINDER: make_integer(to, a % b); break;
    default: make_real(to, (double)a / (double)b);
    }
}

/* Does a primitive of two numbers that aren't both integers. */
static void of_reals(root *to, enum primitive primitive, double a, double b) {
    switch (primitive) {
    case EQUAL: truth(to, a == b); break;
    case LESS: truth(to, a < b); break;
    case PLUS: make_real(to, a + b); break;
    case MINUS: make_real(to, a - b); break;
    case TIMES: make_real(to, a * b); break;
    case OVER: make_real(to, a / b); break;
    default: fail("not an integer");
    }
}

static void of_numbers(root *to, enum primitive primitive, root a, root b) {
    int are_integers = kind_of(a) == INTEGER && kind_of(b) == INTEGER;
    if (are_integers) of_integers(to, primitive, (int64_t)number_of(a), (int64_t)number_of(b));
    else of_reals(to, primitive, real_of(a), real_of(b));
}

/* Whether two values are the same object, or equal integers. */
static int is_same(root a, root b) {
    if (kind_of(a) == INTEGER && kind_of(b) == INTEGER) return number_of(a) == number_of(b);
    return same(a, b);
}

/* ---- Application ---- */

void apply_primitive(root *to, uint64_t primitive, root *arguments) {
    root a = arguments[0], b = arguments[1];
    switch ((enum primitive)primitive) {
    case CONS: cons(to, a, b); break;
    case FIRST: car(to, a); break;
    case REST: cdr(to, a); break;
    case SET_FIRST: set_part(to, a, CAR, b); break;
    case SET_REST: set_part(to, a, CDR, b); break;
    case IS_NULL: truth(to, kind_of(a) == NIL); break;
    case IS_PAIR: truth(to, kind_of(a) == PAIR); break;
    case IS_SAME: truth(to, is_same(a, b)); break;
    case SINE: make_real(to, sin(real_of(a))); break;
    case COSINE: make_real(to, cos(real_of(a))); break;
    case MAKE_VECTOR: make_vector(to, integer_of(a)); break;
    case VECTOR_LOAD: vector_load(to, a, integer_of(b)); break;
    case VECTOR_STORE: vector_store(a, integer_of(b), arguments[2]); copy(to, arguments[2]); break;
    case FIRST_LETTER: make_integer(to, name_of(a)[0]); break;
    default: of_numbers(to, (enum primitive)primitive, a, b);
    }
}
