/* Wrong libraries: the archive's functions with one fault each, by the number WRONG (linked with --wrap). fuzz/wrong expects target.c to
 * notice every one, the last two under memcheck. */
#include "plain.h"
#include <string.h>

enum {
    REFUSED_WALK_WRITES_INDEX = 1, REFUSED_WALK_WRITES_OUT, REFUSED_WALK_HAS_COUNT, REFUSED_BUILD_WRITES_INDEX, BUILD_WRITES_BEYOND_COUNT,
    WALK_WRITES_BEYOND_COUNT, WALK_WRITES_OUT_BEYOND_COUNT, WALK_DROPS_A_CLAUSE, WALK_NAMES_A_CLAUSE_TWICE, WALK_FORGETS_EXPANSION,
    WALK_ACCEPTS_DAMAGED, BUILD_REFUSES_EXACT_ROOM, RESULT_NOT_SHORTENED, CODE_READ_PAST_END, INDEX_WRITTEN_BEFORE_BEGIN, WITNESS_NONE,
    WITNESS_FIRST, CODE_WRITTEN, WALK_ANSWERS_BY_TURNS, NUMBERS_8_AND_7_SWAPPED,
    WALK_SAYS_STORED, WALK_SAYS_UNSTORED, WALK_NAMES_ANOTHER_LINE, WALK_FAILS_FOR_EXTERNAL,
    SIZE_ONE_TOO_MANY, SIZE_CUT_AT_LIMIT, SIZE_REFUSES_9, SIZE_WITHOUT_DEAD_TABLES, SIZE_READS_NO_MASK, SIZE_NOT_SHORTENED,
    LOCATE_RETURNS_NUMBER, LOCATE_REFUSES_C_0, LOCATE_READS_NO_C, LOCATE_NAMES_NEXT_CLAUSE, LOCATE_COUNTS_IN_CLAUSE, LOCATE_NAMES_START,
    LOCATE_NAMES_FIRST_OF_5, LOCATE_NAMES_LAST_OF_8, LOCATE_NAMES_LAST_CLAUSE, LOCATE_LEAVES_PLACES, LOCATE_NOT_SHORTENED,
    WALK_LOOKS_BEYOND_COUNT, WALK_LOOKS_AT_OUT
};

#define COMMON const uint8_t *code, size_t code_len, const uint32_t *starts, size_t starts_len, uint32_t arity, uint32_t mask, uint32_t flags
#define THESE code, code_len, starts, starts_len, arity, mask, flags

uint32_t __real_podrulka_build(COMMON, uint64_t c, uint8_t *index, size_t index_len, uint64_t *result, size_t result_len);
uint32_t __real_podrulka_walk(COMMON, const uint8_t *call, size_t call_len, uint8_t *index, size_t index_len, size_t count, uint32_t *out,
                              size_t out_len, uint64_t *result, size_t result_len);
uint32_t __real_podrulka_witness(COMMON, const uint8_t *call, size_t call_len, uint64_t *result, size_t result_len);
uint32_t __real_podrulka_size(COMMON, uint64_t c, uint64_t *result, size_t result_len);
uint32_t __real_podrulka_locate(COMMON, uint64_t c, uint64_t *result, size_t result_len);

static volatile unsigned looked_at;

uint32_t __wrap_podrulka_build(COMMON, uint64_t c, uint8_t *index, size_t index_len, uint64_t *result, size_t result_len) {
    static uint8_t before[(PODRULKA_MAX_INDEX + 2) * RECORD];
    uint64_t full[PODRULKA_BUILT_PLACES];
    memcpy(before, index, index_len);
    uint32_t n = __real_podrulka_build(THESE, c, index, index_len, full, PODRULKA_BUILT_PLACES);
    memcpy(result, full, 8 * (WRONG == RESULT_NOT_SHORTENED || result_len > PODRULKA_BUILT_PLACES ? PODRULKA_BUILT_PLACES : result_len));
    switch (WRONG) {
    case REFUSED_BUILD_WRITES_INDEX: if (n && index_len) index[index_len - 1] ^= 1; break;
    case BUILD_WRITES_BEYOND_COUNT: if (!n && index_len > full[1] * RECORD) index[full[1] * RECORD] ^= 1; break;
    case BUILD_REFUSES_EXACT_ROOM:
        if (n || full[1] != index_len / RECORD || result_len < 3) break;
        memcpy(index, before, index_len);
        return result[0] = 9, result[1] = result[2] = 0, 9;
    case CODE_READ_PAST_END: if (!n) looked_at += code[code_len]; break;
    case INDEX_WRITTEN_BEFORE_BEGIN: if (!n) index[-1] ^= 1; break;
    case NUMBERS_8_AND_7_SWAPPED: if (n == 8 && result_len) return result[0] = 7, 7; break;
    default: break;
    }
    return n;
}

static uint32_t walk_wrong(uint32_t n, uint8_t *index, size_t index_len, size_t count, uint32_t *out, size_t out_len, const uint32_t *before,
                           uint64_t *w) {
    static uint32_t turn;
    switch (WRONG) {
    case REFUSED_WALK_WRITES_INDEX: if (n && index_len) index[0] ^= 1; break;
    case REFUSED_WALK_WRITES_OUT: if (n && out_len) out[0] ^= 1; break;
    case REFUSED_WALK_HAS_COUNT: if (n) w[PODRULKA_WALKED_RECORDS] = count; break;
    case WALK_WRITES_BEYOND_COUNT: if (!n && w[6] * RECORD < index_len) index[w[6] * RECORD] ^= 1; break;
    case WALK_WRITES_OUT_BEYOND_COUNT: if (!n && w[3] < out_len) out[w[3]] ^= 1; break;
    case WALK_DROPS_A_CLAUSE: if (!n && w[3] > 1) w[3]--, out[w[3]] = before[w[3]]; break;
    case WALK_NAMES_A_CLAUSE_TWICE: if (!n && w[3] > 1) out[1] = out[0]; break;
    case WALK_FORGETS_EXPANSION: if (!n) w[6] = count; break;
    case WALK_ACCEPTS_DAMAGED: if (n == 12) return memset(w, 0, 8 * 7), w[1] = PODRULKA_FAIL, w[6] = 0, 0; break;
    case WALK_ANSWERS_BY_TURNS: if (!n && w[4] > 0) w[4] -= turn++ & 1; break;
    case WALK_SAYS_STORED: w[5] = 0; break;
    case WALK_SAYS_UNSTORED: if (!n) w[5] = 1; break;
    case WALK_FAILS_FOR_EXTERNAL: if (!n && w[1] == PODRULKA_EXTERNAL) w[1] = PODRULKA_FAIL, w[3] = 0, out[0] = before[0]; break;
    case WALK_NAMES_ANOTHER_LINE: if (!n && w[2] > 1) w[2]--; break;
    default: break;
    }
    return n;
}

uint32_t __wrap_podrulka_walk(COMMON, const uint8_t *call, size_t call_len, uint8_t *index, size_t index_len, size_t count, uint32_t *out,
                              size_t out_len, uint64_t *result, size_t result_len) {
    static uint32_t before[2048];
    uint64_t full[PODRULKA_WALKED_PLACES];
    memcpy(before, out, 4 * out_len);
    if (WRONG == WALK_LOOKS_BEYOND_COUNT && count < index_len / RECORD && index[count * RECORD] == 1) looked_at++;
    if (WRONG == WALK_LOOKS_AT_OUT && out_len && out[0] == 1) looked_at++;
    uint32_t n = __real_podrulka_walk(THESE, call, call_len, index, index_len, count, out, out_len, full, PODRULKA_WALKED_PLACES);
    n = walk_wrong(n, index, index_len, count, out, out_len, before, full);
    if (WRONG == CODE_WRITTEN && code_len) *(uint8_t *)(uintptr_t)code ^= 1;
    memcpy(result, full, 8 * (WRONG == RESULT_NOT_SHORTENED || result_len > PODRULKA_WALKED_PLACES ? PODRULKA_WALKED_PLACES : result_len));
    return n;
}

uint32_t __wrap_podrulka_witness(COMMON, const uint8_t *call, size_t call_len, uint64_t *result, size_t result_len) {
    uint32_t n = __real_podrulka_witness(THESE, call, call_len, result, result_len);
    if (WRONG == WITNESS_NONE && !n && result_len > 1) result[1] = 0;
    if (WRONG == WITNESS_FIRST && !n && result_len > 1) result[1] = starts[0] + 1;
    return n;
}

uint32_t __wrap_podrulka_size(COMMON, uint64_t c, uint64_t *result, size_t result_len) {
    uint64_t full[PODRULKA_SIZED_PLACES];
    if (WRONG == SIZE_WITHOUT_DEAD_TABLES) flags &= ~(uint32_t)PODRULKA_EXTENSIBLE;
    if (WRONG == SIZE_READS_NO_MASK) mask = 0;
    uint32_t n = __real_podrulka_size(THESE, c, full, PODRULKA_SIZED_PLACES);
    bool long_one = full[1] > PODRULKA_MAX_INDEX;
    if (WRONG == SIZE_ONE_TOO_MANY && !n) full[1]++;
    if (WRONG == SIZE_CUT_AT_LIMIT && long_one) full[1] = PODRULKA_MAX_INDEX;
    if (WRONG == SIZE_REFUSES_9 && long_one) full[0] = n = 9, full[1] = 0;
    memcpy(result, full, 8 * (WRONG == SIZE_NOT_SHORTENED || result_len > PODRULKA_SIZED_PLACES ? PODRULKA_SIZED_PLACES : result_len));
    return n;
}

/* the last clause that the number refuses, not the first */
static void last_clause(COMMON, uint64_t c, uint64_t *full) {
    uint64_t later[PODRULKA_LOCATED_PLACES], clause;
    while ((clause = full[1] + 1) < starts_len && full[0] >= 5) {
        __real_podrulka_locate(code, code_len, starts + clause, starts_len - clause, arity, mask, flags, c, later, PODRULKA_LOCATED_PLACES);
        if (later[0] != full[0]) break;
        full[1] = clause + later[1], full[2] = later[2];
    }
}

uint32_t __wrap_podrulka_locate(COMMON, uint64_t c, uint64_t *result, size_t result_len) {
    uint64_t full[PODRULKA_LOCATED_PLACES];
    __real_podrulka_locate(THESE, WRONG == LOCATE_READS_NO_C ? 0 : c, full, PODRULKA_LOCATED_PLACES);
    bool placed = full[0] >= 5;
    uint32_t start = placed ? starts[full[1]] : 0;
    switch (WRONG) {
    case LOCATE_REFUSES_C_0: if (c == 0 && full[0] != 1) full[0] = 2, full[1] = full[2] = 0; break;
    case LOCATE_NAMES_NEXT_CLAUSE: if (placed) full[1]++; break;
    case LOCATE_COUNTS_IN_CLAUSE: if (placed) full[2] -= start; break;
    case LOCATE_NAMES_START: if (full[0] == 6 || full[0] == 7) full[2] = start; break;
    case LOCATE_NAMES_FIRST_OF_5: if (full[0] == 5) full[2] = start; break;
    case LOCATE_NAMES_LAST_OF_8: if (full[0] == 8) full[2] = (full[1] + 1 < starts_len ? starts[full[1] + 1] : code_len / RECORD) - 1; break;
    case LOCATE_NAMES_LAST_CLAUSE: last_clause(THESE, c, full); break;
    case LOCATE_LEAVES_PLACES: if (!placed && result_len > 1) result_len = 1; break;
    default: break;
    }
    memcpy(result, full, 8 * (WRONG == LOCATE_NOT_SHORTENED || result_len > PODRULKA_LOCATED_PLACES ? PODRULKA_LOCATED_PLACES : result_len));
    return WRONG == LOCATE_RETURNS_NUMBER ? (uint32_t)full[0] : 0;
}
