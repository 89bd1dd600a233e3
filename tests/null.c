/* NULL with length 0: each function, with every choice of its buffers empty, answers as it does with another pointer of length 0.
 * The compiler's own module says of these pointers only that they are defined, neither non-null nor readable, and its optimised form compares
 * no pointer; so nothing depends on them where the length is 0. This test stands for that in every compiled library.
 * usage: null    prints how many calls were compared */
#include <podrulka.h>
#include <inttypes.h>
#include <stdio.h>
#include <string.h>

enum { ARITY = 2, ROOM = 64, CLAUSES = 3, RECORDS = 9, PLACES = 8 };
/* the buffers, as bits of a set */
enum { CODE = 1, STARTS = 2, RESULT = 4, INDEX = 8, CALL = 16, OUT = 32 };

/* what a call leaves */
struct left {
    uint64_t result[PLACES];
    uint32_t number, out[CLAUSES];
    uint8_t index[ROOM * PODRULKA_RECORD];
};

static uint8_t code[RECORDS * PODRULKA_RECORD], call[ARITY * PODRULKA_RECORD], built[ROOM * PODRULKA_RECORD];
static const uint32_t starts[CLAUSES] = { 0, 3, 6 };
static size_t count;

static void put(uint8_t *at, uint8_t kind, uint8_t sub, uint8_t half, uint8_t word, uint8_t bits) {
    memset(at, 0, PODRULKA_RECORD);
    at[0] = kind, at[1] = sub, at[2] = half, at[4] = word, at[8] = bits;
}

/* The call of function f with the buffers of the set empty: NULL, or another pointer. */
static struct left run(char f, unsigned empty, int null) {
    static uint8_t no_bytes[1];
    static uint32_t no_words[1];
    static uint64_t no_result[1];
    struct left l;
    memset(&l, 0xA5, sizeof l);
    memcpy(l.index, built, sizeof built);
    const uint8_t *co = empty & CODE ? null ? NULL : no_bytes : code, *ca = empty & CALL ? null ? NULL : no_bytes : call;
    const uint32_t *st = empty & STARTS ? null ? NULL : no_words : starts;
    uint8_t *in = empty & INDEX ? null ? NULL : no_bytes : l.index;
    uint32_t *out = empty & OUT ? null ? NULL : no_words : l.out;
    uint64_t *re = empty & RESULT ? null ? NULL : no_result : l.result;
    size_t co_len = empty & CODE ? 0 : sizeof code, st_len = empty & STARTS ? 0 : CLAUSES, ca_len = empty & CALL ? 0 : sizeof call;
    size_t in_len = empty & INDEX ? 0 : sizeof l.index, out_len = empty & OUT ? 0 : CLAUSES, re_len = empty & RESULT ? 0 : PLACES;
    switch (f) {
    case 'b': l.number = podrulka_build(co, co_len, st, st_len, ARITY, 0, 0, 1, in, in_len, re, re_len); break;
    case 'w': l.number = podrulka_walk(co, co_len, st, st_len, ARITY, 0, 0, ca, ca_len, in, in_len, count, out, out_len, re, re_len); break;
    case 's': l.number = podrulka_size(co, co_len, st, st_len, ARITY, 0, 0, 1, re, re_len); break;
    case 'l': l.number = podrulka_locate(co, co_len, st, st_len, ARITY, 0, 0, 1, re, re_len); break;
    default: l.number = podrulka_witness(co, co_len, st, st_len, ARITY, 0, 0, ca, ca_len, re, re_len);
    }
    return l;
}

/* the number that the function gives with the buffers of the set empty */
static uint32_t expected(char f, unsigned empty) {
    if (f == 'l') return PODRULKA_OK; /* it reports, in result */
    if (empty & (CODE | STARTS)) return PODRULKA_STARTS;
    if (empty & CALL) return PODRULKA_CALL;
    if (empty & OUT) return PODRULKA_OUT;
    if (empty & INDEX) return f == 'b' ? PODRULKA_ROOM : PODRULKA_INDEX;
    return PODRULKA_OK;
}

int main(void) {
    static const struct { char f; unsigned buffers; const char *name; } functions[] = {
        { 'b', CODE | STARTS | RESULT | INDEX, "podrulka_build" },
        { 's', CODE | STARTS | RESULT, "podrulka_size" },
        { 'l', CODE | STARTS | RESULT, "podrulka_locate" },
        { 'w', CODE | STARTS | RESULT | INDEX | CALL | OUT, "podrulka_walk" },
        { 'v', CODE | STARTS | RESULT | CALL, "podrulka_witness" },
    };
    /* (atom 7, atom 1), (atom 8, list), (atom 7, atom 2), and the call (atom 7, atom 1), which expands a table */
    for (int i = 0; i < CLAUSES; i++) {
        uint8_t *at = code + 3 * i * PODRULKA_RECORD;
        put(at, PODRULKA_GET_CONSTANT, 0, PODRULKA_ATOM, 1, i == 1 ? 8 : 7);
        if (i == 1) put(at + PODRULKA_RECORD, PODRULKA_GET_LIST, 0, 0, 2, 0);
        else put(at + PODRULKA_RECORD, PODRULKA_GET_CONSTANT, 0, PODRULKA_ATOM, 2, i == 0 ? 1 : 2);
        put(at + 2 * PODRULKA_RECORD, PODRULKA_BODY_RECORD, 0, 0, 0, 0);
    }
    put(call, 0, PODRULKA_ATOM, 0, 0, 7), put(call + PODRULKA_RECORD, 0, PODRULKA_ATOM, 0, 0, 1);
    uint64_t b[PODRULKA_BUILT_PLACES];
    if (podrulka_build(code, sizeof code, starts, CLAUSES, ARITY, 0, 0, 1, built, sizeof built, b, PODRULKA_BUILT_PLACES)) return 1;
    count = (size_t)b[PODRULKA_BUILT_COUNT];

    int compared = 0;
    for (size_t k = 0; k < sizeof functions / sizeof *functions; k++)
        for (unsigned empty = 1; empty < 64; empty++) {
            if (empty & ~functions[k].buffers) continue;
            struct left other = run(functions[k].f, empty, 0), null = run(functions[k].f, empty, 1);
            if (null.number != expected(functions[k].f, empty) || null.number != other.number || memcmp(null.result, other.result, sizeof null.result) ||
                memcmp(null.out, other.out, sizeof null.out) || memcmp(null.index, other.index, sizeof null.index)) {
                printf("%s, buffers %u: %" PRIu32 " with NULL, %" PRIu32 " with another pointer, or buffers that differ\n", functions[k].name, empty,
                       null.number, other.number);
                return 1;
            }
            compared++;
        }
    printf("NULL with length 0: %d calls compared\n", compared);
    return 0;
}
