/* The worked show: three clauses of arity 2, how large their index is, the index, three calls, and a fault that is located.  usage: show */
#include <podrulka.h>
#include <inttypes.h>
#include <stdio.h>
#include <stdlib.h>
#include <string.h>

enum { ARITY = 2, MORE = 16 };

static const char *const cases[] = { "refused", "fail", "external", "sequence", "variadic" };

static void put(uint8_t *at, uint8_t kind, uint8_t sub, uint16_t half, uint32_t word, uint64_t bits) {
    at[0] = kind;
    at[1] = sub;
    for (int i = 0; i < 2; i++) at[2 + i] = (uint8_t)(half >> 8 * i);
    for (int i = 0; i < 4; i++) at[4 + i] = (uint8_t)(word >> 8 * i);
    for (int i = 0; i < 8; i++) at[8 + i] = (uint8_t)(bits >> 8 * i);
}

static void argument(uint8_t *call, int a, uint8_t sort, uint64_t bits) {
    put(call + PODRULKA_RECORD * (a - 1), 0, sort, 0, 0, bits);
}

int main(void) {
    /* (atom 7, atom 1), (atom 8, list), (atom 7, atom 2): two key records and a body record each */
    uint8_t code[9 * PODRULKA_RECORD];
    const uint32_t starts[] = { 0, 3, 6 };
    for (int i = 0; i < 3; i++) {
        put(code + 16 * (3 * i), PODRULKA_GET_CONSTANT, 0, PODRULKA_ATOM, 1, i == 1 ? 8 : 7);
        if (i == 1) put(code + 16 * (3 * i + 1), PODRULKA_GET_LIST, 0, 0, 2, 0);
        else put(code + 16 * (3 * i + 1), PODRULKA_GET_CONSTANT, 0, PODRULKA_ATOM, 2, i == 0 ? 1 : 2);
        put(code + 16 * (3 * i + 2), PODRULKA_BODY_RECORD, 0, 0, 0, 0);
    }

    uint64_t sized[PODRULKA_SIZED_PLACES];
    if (podrulka_size(code, sizeof code, starts, 3, ARITY, 0, 0, 1, sized, PODRULKA_SIZED_PLACES)) {
        printf("size refused: %s\n", podrulka_message((uint32_t)sized[PODRULKA_SIZED_NUMBER]));
        return 1;
    }
    printf("the index has %" PRIu64 " records\n", sized[PODRULKA_SIZED_COUNT]);
    /* what the builder needs, and some records for the tables that walks expand; without them the answers are the same */
    size_t index_len = ((size_t)sized[PODRULKA_SIZED_COUNT] + MORE) * PODRULKA_RECORD;
    uint8_t *index = malloc(index_len);
    if (!index) return 1;
    uint64_t built[PODRULKA_BUILT_PLACES];
    if (podrulka_build(code, sizeof code, starts, 3, ARITY, 0, 0, 1, index, index_len, built, PODRULKA_BUILT_PLACES)) {
        printf("build refused: %s\n", podrulka_message((uint32_t)built[PODRULKA_BUILT_NUMBER]));
        return 1;
    }
    size_t count = built[PODRULKA_BUILT_COUNT];
    printf("built %zu records, variable offset %" PRIu64 "\n", count, built[PODRULKA_BUILT_VARIABLE]);

    uint8_t calls[3][ARITY * PODRULKA_RECORD];
    argument(calls[0], 1, PODRULKA_UNBOUND, 0), argument(calls[0], 2, PODRULKA_LIST, 0);
    argument(calls[1], 1, PODRULKA_ATOM, 7), argument(calls[1], 2, PODRULKA_ATOM, 9);
    argument(calls[2], 1, PODRULKA_UNBOUND, 0), argument(calls[2], 2, PODRULKA_UNBOUND, 0);
    for (int i = 0; i < 3; i++) {
        uint32_t out[3] = { 0 };
        uint64_t w[PODRULKA_WALKED_PLACES], seen[PODRULKA_WITNESSED_PLACES];
        podrulka_walk(code, sizeof code, starts, 3, ARITY, 0, 0, calls[i], sizeof calls[i], index, index_len, count, out, 3, w, PODRULKA_WALKED_PLACES);
        podrulka_witness(code, sizeof code, starts, 3, ARITY, 0, 0, calls[i], sizeof calls[i], seen, PODRULKA_WITNESSED_PLACES);
        if (w[PODRULKA_WALKED_NUMBER] == PODRULKA_OK) count = w[PODRULKA_WALKED_RECORDS];
        printf("call %d: %s, %" PRIu64 " tables, %zu records, witness %" PRIu64 ", clauses", i + 1, cases[w[PODRULKA_WALKED_CASE]],
               w[PODRULKA_WALKED_TABLES], count, seen[PODRULKA_WITNESSED_OFFSET]);
        for (size_t k = 0; k < w[PODRULKA_WALKED_COUNT]; k++) printf(" %" PRIu32, out[k]);
        printf("\n");
    }
    free(index);

    /* the second clause's list in register 1, where its first key is too */
    uint8_t wrong[sizeof code];
    memcpy(wrong, code, sizeof code);
    put(wrong + 16 * 4, PODRULKA_GET_LIST, 0, 0, 1, 0);
    uint64_t at[PODRULKA_LOCATED_PLACES];
    podrulka_locate(wrong, sizeof wrong, starts, 3, ARITY, 0, 0, 1, at, PODRULKA_LOCATED_PLACES);
    printf("a wrong register: %" PRIu64 ", clause %" PRIu64 ", record %" PRIu64 ": %s\n", at[PODRULKA_LOCATED_NUMBER], at[PODRULKA_LOCATED_CLAUSE],
           at[PODRULKA_LOCATED_RECORD], podrulka_message((uint32_t)at[PODRULKA_LOCATED_NUMBER]));
    return 0;
}
