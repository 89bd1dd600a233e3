/* The archive through include/podrulka.h, handed what input.c reads out of any bytes, and what must hold of its answers.
 *
 * One input is: what refuses the code, with c and without; two builds (one with room enough) and the size; walks of the built index for up to
 * four calls, walks of an edited index, and the witness of each call; every call is made again, with result arrays of other lengths. What is
 * checked is said at each check; the expected numbers, places of faults, keys and agreeing clauses are plain.c's. A check that does not hold
 * aborts. */
#include "fence.h"
#include "input.h"
#include "tally.h"
#include <stdio.h>
#include <stdlib.h>
#include <string.h>
#ifdef MEMCHECK
#include <valgrind/memcheck.h>
#else
/* under memcheck, bytes that a call has no business reading are undefined while it runs */
#define VALGRIND_MAKE_MEM_UNDEFINED(at, len) ((void)(at), (void)(len))
#define VALGRIND_MAKE_MEM_DEFINED(at, len) ((void)(at), (void)(len))
#define VALGRIND_CHECK_MEM_IS_DEFINED(at, len) ((void)(at), (void)(len), 0)
#endif

#define MUST(held, what) ((held) ? (void)0 : broken(what, __LINE__))

enum { SPARE = 8, MOST_PLACES = PODRULKA_WALKED_PLACES + SPARE };

/* a call's number and the places of its result */
struct answer {
    uint32_t number;
    size_t len;
    uint64_t at[MOST_PLACES];
};

static struct input in;
static struct program p;
static uint8_t *index_at, index_before[MAX_INDEX * RECORD], fresh[MAX_INDEX * RECORD], edited[MAX_INDEX * RECORD + RECORD];
static uint32_t *out_at, out_before[MAX_STARTS + 256];
static uint64_t *result_at;
static uint8_t *call_at, call_before[(PODRULKA_MAX_ARITY + 2) * RECORD];
static size_t index_len, out_len, call_len;
static uint32_t checked; /* the number that the code is refused with */
static bool agreeing[MAX_STARTS + 2];
static size_t agreeing_len;

static void broken(const char *what, int line) {
    fprintf(stderr, "target.c:%d: %s\n", line, what);
    abort();
}

static bool front(void) { return in.head[AT_WAYS] & WAY_FRONT; }

static uint64_t painted(size_t i) { return 0x9e3779b97f4a7c15u * (i + 1 + in.head[AT_PAINT]); }

static void paint(void *at, size_t len, size_t salt) {
    uint8_t *b = at;
    memset(b, (int)(painted(salt) >> 56), len);
    for (size_t i = 0; i < len; i += 61) b[i] = (uint8_t)(painted(i) >> 56);
}

static void take_result(size_t len) {
    result_at = fence_take(RESULT, len * sizeof *result_at, front());
    for (size_t i = 0; i < len; i++) result_at[i] = painted(i);
    VALGRIND_MAKE_MEM_UNDEFINED(result_at, len * sizeof *result_at);
}

/* Places that the call does not have are as they were. */
static struct answer read_places(uint32_t number, size_t len, size_t places) {
    struct answer a = { number, len < places ? len : places, { 0 } };
    MUST(!VALGRIND_CHECK_MEM_IS_DEFINED(result_at, a.len * sizeof *result_at), "a result place not written");
    VALGRIND_MAKE_MEM_DEFINED(result_at, len * sizeof *result_at);
    for (size_t i = 0; i < a.len; i++) a.at[i] = result_at[i];
    for (size_t i = a.len; i < len; i++) MUST(result_at[i] == painted(i), "a result place too many written");
    return a;
}

/* The number is the first place; a refusal has zeros in the others. */
static struct answer read_result(uint32_t number, size_t len, size_t places) {
    struct answer a = read_places(number, len, places);
    if (a.len > 0) MUST(a.at[0] == number, "the number returned is not the result's");
    for (size_t i = 1; number && i < a.len; i++) MUST(a.at[i] == 0, "a refusal with a result");
    return a;
}

/* the places that both have are equal */
static void same_answer(struct answer a, struct answer b, size_t but) {
    MUST(a.number == b.number, "another number the second time");
    for (size_t i = 0; i < a.len && i < b.len; i++) MUST(i == but || a.at[i] == b.at[i], "another result the second time");
}

static void inputs_unchanged(void) {
    MUST(fence_whole(), "bytes beside a buffer were written");
    MUST(!memcmp(p.code, in.code, in.code_len), "code was written");
    MUST(!memcmp(p.starts, in.starts, in.starts_len * 4), "starts were written");
}

/* bytes of the index from record n on are as they were */
static void index_kept(size_t n) {
    MUST(!memcmp(index_at + n * RECORD, index_before + n * RECORD, index_len - n * RECORD), "bytes of the index beyond its records were written");
}

static struct answer build(size_t places) {
    memcpy(index_before, index_at, index_len);
    take_result(places);
    VALGRIND_MAKE_MEM_UNDEFINED(index_at, index_len);
    uint32_t number = podrulka_build(p.code, p.code_len, p.starts, p.starts_len, p.arity, p.mask, p.flags, in.chosen, index_at, index_len,
                                     result_at, places);
    struct answer a = read_result(number, places, PODRULKA_BUILT_PLACES);
    count_call(BUILD, number);
    MUST(number <= PODRULKA_ROOM, "a number that the builder does not have");
    inputs_unchanged();
    size_t count = number || a.len < PODRULKA_BUILT_PLACES ? 0 : a.at[PODRULKA_BUILT_COUNT];
    MUST(count <= capacity(index_len), "more records than the capacity");
    MUST(!VALGRIND_CHECK_MEM_IS_DEFINED(index_at, count * RECORD), "a record not written");
    VALGRIND_MAKE_MEM_DEFINED(index_at, index_len);
    if (number || count) index_kept(count);
    return a;
}

static void take_index(size_t len) {
    index_len = len;
    index_at = fence_take(INDEX, len, front());
    paint(index_at, len, 1);
}

static void take_out(size_t len) {
    out_len = len;
    out_at = fence_take(OUT, len * 4, front());
    paint(out_at, len * 4, 2);
    memcpy(out_before, out_at, len * 4);
}

static void take_call(size_t k) {
    call_len = make_call(&in, k, &p, checked == 0, call_before);
    call_at = fence_take(CALL, call_len, front());
    memcpy(call_at, call_before, call_len);
    agreeing_len = 0;
    if (checked || call_number(&p, call_at, call_len)) return;
    for (size_t i = 0; i < p.starts_len; i++) agreeing_len += agreeing[i] = agrees(&p, i, call_at);
}

/* out's first n places are the offsets of that line of the index, whose records have been counted */
static bool holds_line(uint64_t line, size_t records, size_t n) {
    size_t at = 0, found = 0;
    while (at < records && !(index_at[at * RECORD] == 1 && get(index_at + at * RECORD).word == line)) at++;
    for (at++; at < records && index_at[at * RECORD] != 1; at++) {
        struct record r = get(index_at + at * RECORD);
        if (r.kind != 6) continue;
        if (found == n || out_at[found++] != r.word) return false;
    }
    return found == n;
}

/* Selected offsets are rising and of known starts; the cases have the counts that they mean; out's rest is as it was. */
static void selection_sound(struct answer a) {
    size_t n = a.at[PODRULKA_WALKED_COUNT];
    uint64_t c = a.at[PODRULKA_WALKED_CASE], line = a.at[PODRULKA_WALKED_LINE];
    MUST(n <= p.starts_len, "more clauses selected than there are");
    for (size_t i = 0; i < n; i++) MUST(known(&p, out_at[i]) && (i == 0 || out_at[i - 1] < out_at[i]), "selected offsets");
    MUST(c >= PODRULKA_FAIL && c <= PODRULKA_VARIADIC, "a case that is none");
    MUST(c != PODRULKA_FAIL || n == 0, "clauses of a Fail");
    MUST(c != PODRULKA_EXTERNAL || n == 1, "clauses of an External");
    MUST(c == PODRULKA_SEQUENCE || line == 0, "a line that is no Sequence's");
    MUST(c != PODRULKA_SEQUENCE || line || a.at[PODRULKA_WALKED_MARK], "a Sequence without its line");
    if (line || c == PODRULKA_VARIADIC) MUST(holds_line(line, a.at[PODRULKA_WALKED_RECORDS], n), "other clauses than the line's");
    MUST(a.at[PODRULKA_WALKED_MARK] <= 1, "a mark that is none");
    MUST(a.at[PODRULKA_WALKED_TABLES] <= p.arity, "more tables looked at than arguments");
}

static struct answer walk(enum call_kind kind, size_t count, size_t places) {
    memcpy(index_before, index_at, index_len);
    take_result(places);
    VALGRIND_MAKE_MEM_UNDEFINED(out_at, out_len * 4);
    size_t rest = (count < index_len / RECORD ? count : index_len / RECORD) * RECORD;
    VALGRIND_MAKE_MEM_UNDEFINED(index_at + rest, index_len - rest);
    uint32_t number = podrulka_walk(p.code, p.code_len, p.starts, p.starts_len, p.arity, p.mask, p.flags, call_at, call_len, index_at,
                                    index_len, count, out_at, out_len, result_at, places);
    struct answer a = read_result(number, places, PODRULKA_WALKED_PLACES);
    bool whole = a.len == PODRULKA_WALKED_PLACES && !number;
    size_t n = whole ? a.at[PODRULKA_WALKED_COUNT] : 0, records = whole ? a.at[PODRULKA_WALKED_RECORDS] : 0;
    MUST(n <= out_len && records <= capacity(index_len), "more than the capacity");
    MUST(!VALGRIND_CHECK_MEM_IS_DEFINED(out_at, n * 4) && !VALGRIND_CHECK_MEM_IS_DEFINED(index_at, records * RECORD), "a place not written");
    VALGRIND_MAKE_MEM_DEFINED(out_at, out_len * 4);
    VALGRIND_MAKE_MEM_DEFINED(index_at, index_len);
    count_call(kind, number);
    inputs_unchanged();
    MUST(!memcmp(call_at, call_before, call_len), "the call was written");
    if (number || whole) index_kept(records), MUST(!memcmp(out_at + n, out_before + n, (out_len - n) * 4), "out beyond the count was written");
    if (whole) MUST(records >= count && n <= p.starts_len, "an index that lost records"), selection_sound(a);
    return a;
}

/* What the features are: case, mark, tables, growth, and of the index left the pairs of neighbouring kinds, entries, tags and lines. */
static void tell(enum call_kind kind, struct answer a, size_t count) {
    size_t lines = 0, records = a.at[PODRULKA_WALKED_RECORDS], grown = records - count, n = a.at[PODRULKA_WALKED_COUNT];
    uint64_t c = a.at[PODRULKA_WALKED_CASE], mark = a.at[PODRULKA_WALKED_MARK];
    count_case(kind, c, mark);
    seen(F_TABLES, a.at[PODRULKA_WALKED_TABLES]);
    seen(F_GROWN, rough(grown));
    seen(F_FLAGS, (p.flags & 7) * 8 + c * 2 % 8 + mark);
    seen(F_SELECTED, rough(n));
    if (mark) seen(F_UNSTORED, (grown > 0) * 32 + a.at[PODRULKA_WALKED_TABLES] % 8 * 4 + c - 1);
    for (size_t i = 0; i < records; i++) {
        struct record r = get(index_at + i * RECORD);
        if (i > 0) seen(F_PAIRS, index_at[(i - 1) * RECORD] % 8 * 8 + r.kind % 8);
        if (r.kind == 5) seen(F_ENTRIES, r.sub % 8 * 2 + (r.word >> 31));
        if (r.kind == 6) seen(F_TAGS, r.sub % 8);
        if (r.kind >= 2 && r.kind <= 4) seen(F_ARGUMENT, (r.kind - 2) * 16u + (r.half < 16 ? r.half : 15));
        lines += r.kind == 1;
    }
    seen(F_LINES, rough(lines));
    seen(F_SIZE, rough(records));
}

/* The number expected of a walk: the first of 1, 3 to 7, 10, 11 and 12. */
static uint32_t walk_number(size_t count) {
    if (checked) return checked;
    uint32_t n = call_number(&p, call_at, call_len);
    if (n) return n;
    if (out_len < p.starts_len) return PODRULKA_OUT;
    return well_formed(&p, index_at, index_len, count) ? 0 : PODRULKA_INDEX;
}

/* Every agreeing clause is selected; a Fail has none; a Variadic has all clauses. */
static void nothing_lost(struct answer a) {
    size_t n = a.at[PODRULKA_WALKED_COUNT], j = 0;
    for (size_t i = 0; i < p.starts_len; i++) {
        while (j < n && out_at[j] < p.starts[i] + 1) j++;
        MUST(!agreeing[i] || (j < n && out_at[j] == p.starts[i] + 1), "an agreeing clause is not selected");
    }
    MUST(a.at[PODRULKA_WALKED_CASE] != PODRULKA_VARIADIC || n == p.starts_len, "a Variadic without all clauses");
    seen(F_AGREEING, (agreeing_len < 8 ? agreeing_len : 7) * 8 + (n - agreeing_len < 8 ? n - agreeing_len : 7));
}

/* A walk, and the same walk again: the same answer, and the index as the first one left it. Gives back the new count. */
static size_t walk_twice(enum call_kind kind, size_t count, struct answer *first) {
    take_out(out_length(&in));
    uint32_t expected = walk_number(count);
    struct answer a = walk(kind, count, PODRULKA_WALKED_PLACES + in.head[AT_RESULT] % 2);
    MUST(a.number == expected, "the walk's number");
    *first = a;
    if (!a.number) tell(kind, a, count), count = a.at[PODRULKA_WALKED_RECORDS];
    static uint32_t out_first[MAX_STARTS + 256];
    memcpy(out_first, out_at, out_len * 4);
    take_out(out_len);
    same_answer(a, walk(kind, count, in.head[AT_RESULT] & 15), MOST_PLACES);
    MUST(!memcmp(out_at, out_first, out_len * 4), "other clauses the second time");
    MUST(!memcmp(index_at, index_before, index_len), "an index that the same walk changes again");
    return count;
}

/* records that one expansion of a line of n clauses adds at most, and that a build has at most */
static size_t most_added(size_t n) { return (n + 1) * (2 + p.arity) + n * (1 + p.arity); }
static size_t most_built(size_t n) { return 2 + p.arity + n * (1 + p.arity) + most_added(n); }

/* The same walk of the first count records at from, with room for every expansion: the same answer (line, mark and count go by what is
 * stored), and nothing unstored. Gives back the records then; the index and out are as before at the end. */
static size_t walk_in_room(enum call_kind kind, const uint8_t *from, size_t count, struct answer a) {
    static uint32_t out_first[MAX_STARTS + 256];
    static uint8_t kept[MAX_INDEX * RECORD];
    size_t n = a.at[PODRULKA_WALKED_COUNT], len = index_len, records = count + p.arity * most_added(p.starts_len);
    bool enough = records <= PODRULKA_MAX_INDEX;
    memcpy(out_first, out_at, n * 4);
    memcpy(kept, index_at, len);
    take_index((enough ? records : PODRULKA_MAX_INDEX) * RECORD);
    memcpy(index_at, from, count * RECORD);
    take_out(out_length(&in));
    struct answer b = walk(kind, count, PODRULKA_WALKED_PLACES);
    MUST(!b.number && (!enough || b.at[PODRULKA_WALKED_MARK] == 0), "unstored with room for it");
    MUST(b.at[PODRULKA_WALKED_CASE] == a.at[PODRULKA_WALKED_CASE], "another case with more room");
    MUST(b.at[PODRULKA_WALKED_TABLES] == a.at[PODRULKA_WALKED_TABLES], "other tables with more room");
    MUST(b.at[PODRULKA_WALKED_COUNT] == n && !memcmp(out_at, out_first, n * 4), "other clauses with more room");
    take_index(len);
    memcpy(index_at, kept, len);
    return enough ? b.at[PODRULKA_WALKED_RECORDS] : SIZE_MAX;
}

/* With more room exactly an unstored walk would have left more records. */
static void mark_true(enum call_kind kind, struct answer a) {
    size_t count = a.at[PODRULKA_WALKED_RECORDS];
    memcpy(edited, index_at, count * RECORD);
    size_t records = walk_in_room(kind, edited, count, a);
    MUST(records == SIZE_MAX || (records > count) == a.at[PODRULKA_WALKED_MARK], "the mark");
}

/* The witness is the offset of an agreeing clause, 0 if there is none. */
static void witness(void) {
    for (int again = 0; again < 2; again++) {
        size_t places = again ? in.head[AT_RESULT] >> 4 : PODRULKA_WITNESSED_PLACES;
        take_result(places);
        uint32_t number = podrulka_witness(p.code, p.code_len, p.starts, p.starts_len, p.arity, p.mask, p.flags, call_at, call_len, result_at, places);
        struct answer a = read_result(number, places, PODRULKA_WITNESSED_PLACES);
        count_call(WITNESS, number);
        inputs_unchanged();
        MUST(number == (checked ? checked : call_number(&p, call_at, call_len)), "the witness's number");
        if (number || a.len < PODRULKA_WITNESSED_PLACES) continue;
        size_t found = 0;
        for (size_t i = 0; i < p.starts_len; i++) found += agreeing[i] && a.at[PODRULKA_WITNESSED_OFFSET] == p.starts[i] + 1;
        MUST(found == 1 || (agreeing_len == 0 && a.at[PODRULKA_WITNESSED_OFFSET] == 0), "a witness that does not agree");
    }
}

/* What refuses is reported with its place, with c or without (c 0), and the call itself is never refused. */
static void locate(uint64_t c) {
    struct fault f = fault_of(&p, c);
    uint64_t expected[PODRULKA_LOCATED_PLACES] = { f.number, f.clause, f.record };
    MUST(f.number == (c ? build_number(&p, c) : checked), "plain.c's own numbers");
    for (int again = 0; again < 2; again++) {
        size_t places = again ? in.head[AT_RESULT] & 15 : PODRULKA_LOCATED_PLACES + 1;
        take_result(places);
        uint32_t returned = podrulka_locate(p.code, p.code_len, p.starts, p.starts_len, p.arity, p.mask, p.flags, c, result_at, places);
        struct answer a = read_places(returned, places, PODRULKA_LOCATED_PLACES);
        count_call(c ? LOCATE : LOCATE_CODE, f.number);
        inputs_unchanged();
        MUST(returned == 0, "what reports a fault is refused");
        for (size_t i = 0; i < a.len; i++) MUST(a.at[i] == expected[i], i ? "the place of a fault" : "the number of a fault");
    }
    if (f.number >= PODRULKA_BODY) seen(F_FAULT, (f.number - 5) * 16u + (f.clause < 3 ? f.clause : 3) * 4 + (f.record - p.starts[f.clause]) % 4);
}

/* The size is the count of the build with room enough; where no buffer has room for it, it is plain.c's. The number is the builder's,
 * without 9. */
static void size_of_index(size_t need) {
    uint32_t expected = build_number(&p, in.chosen);
    size_t count = expected ? 0 : need ? need : built_count(&p, (uint32_t)in.chosen);
    MUST(expected || need || count > PODRULKA_MAX_INDEX, "a build refused with 9 that a buffer has room for");
    for (int again = 0; again < 2; again++) {
        size_t places = again ? in.head[AT_RESULT] & 15 : PODRULKA_SIZED_PLACES + 1;
        take_result(places);
        uint32_t number = podrulka_size(p.code, p.code_len, p.starts, p.starts_len, p.arity, p.mask, p.flags, in.chosen, result_at, places);
        struct answer a = read_result(number, places, PODRULKA_SIZED_PLACES);
        count_call(SIZE, number);
        inputs_unchanged();
        MUST(number == expected, "the size's number");
        if (a.len == PODRULKA_SIZED_PLACES) MUST(a.at[PODRULKA_SIZED_COUNT] == count, "the size");
    }
}

/* A build with room enough: the expected number, and a well-formed index. Gives back its records, 0 if it is refused. */
static size_t probe(void) {
    uint32_t expected = build_number(&p, in.chosen);
    size_t most = expected ? 8 : most_built(p.starts_len);
    take_index((most < PODRULKA_MAX_INDEX ? most : PODRULKA_MAX_INDEX) * RECORD);
    struct answer a = build(PODRULKA_BUILT_PLACES + 1);
    MUST(a.number == expected || (most > PODRULKA_MAX_INDEX && a.number == PODRULKA_ROOM), "the builder's number");
    if (a.number) return 0;
    size_t count = a.at[PODRULKA_BUILT_COUNT];
    MUST(a.at[PODRULKA_BUILT_VARIABLE] == (p.flags & PODRULKA_SKIP ? 2 : 1), "the variable offset");
    MUST(well_formed(&p, index_at, index_len, count), "a built index that is not well formed");
    memcpy(fresh, index_at, count * RECORD);
    return count;
}

/* The build with the input's room: refused with 9 if there is too little, else the same index. And again, with a shorter result. */
static bool build_in_room(size_t need) {
    take_index(room(&in, need));
    struct answer a = build(PODRULKA_BUILT_PLACES);
    if (need) {
        MUST(a.number == (capacity(index_len) < need ? PODRULKA_ROOM : 0), "the builder's number, by the room");
        if (!a.number) MUST(a.at[PODRULKA_BUILT_COUNT] == need && !memcmp(index_at, fresh, need * RECORD), "another index in less room");
    }
    struct answer b = build(in.head[AT_RESULT] >> 4);
    same_answer(a, b, MOST_PLACES);
    MUST(!memcmp(index_at, index_before, index_len), "another index the second time");
    return !a.number;
}

/* Walks of the built index, one after the other: none is refused with 12, and the fresh index gives the same answers. Gives back the
 * record count. */
static size_t walk_built(size_t need) {
    size_t count = need;
    for (size_t k = 0; k < in.calls_len; k++) {
        struct answer a;
        take_call(k);
        count = walk_twice(WALK_BUILT, count, &a);
        MUST(a.number != PODRULKA_INDEX, "a built index is refused");
        if (a.number) continue;
        nothing_lost(a);
        if (k > 0) walk_in_room(WALK_BUILT, fresh, need, a);
        if (k == 0 || a.at[PODRULKA_WALKED_MARK]) mark_true(WALK_BUILT, a);
    }
    return count;
}

/* Walks of an edited index for the last two calls: refused with 12 exactly if it is not well formed. */
static void walk_edited(size_t count, size_t need) {
    size_t n = 0;
    if (!(in.head[AT_WAYS] & WAY_EMPTY)) {
        bool walked = count && !(in.head[AT_WAYS] & WAY_FRESH);
        n = walked ? count : need;
        memcpy(edited, walked ? index_at : fresh, n * RECORD);
    }
    n = edit_index(&in, &p, edited, n);
    take_index(room(&in, n));
    memcpy(index_at, edited, n * RECORD < index_len ? n * RECORD : index_len);
    count = claimed_count(&in, n, index_len);
    for (size_t k = in.calls_len > 2 ? in.calls_len - 2 : 0; k < in.calls_len; k++) {
        struct answer a;
        take_call(k);
        count = walk_twice(WALK_HANDED_IN, count, &a);
        if (!a.number && (k == 0 || a.at[PODRULKA_WALKED_MARK])) mark_true(WALK_HANDED_IN, a);
    }
}

static void take_program(void) {
    uint8_t *code = fence_take(CODE, in.code_len, front());
    uint32_t *starts = fence_take(STARTS, in.starts_len * 4, front());
    memcpy(code, in.code, in.code_len);
    memcpy(starts, in.starts, in.starts_len * 4);
    p = (struct program){ code, in.code_len, starts, in.starts_len, in.arity, in.mask, in.flags };
    checked = code_number(&p);
}

int LLVMFuzzerTestOneInput(const uint8_t *data, size_t size) {
    count_execution();
    take_apart(data, size, &in);
    take_program();
    locate(in.chosen), locate(0);
    for (size_t k = 0; k < in.calls_len; k++) take_call(k), witness();
    size_t need = probe();
    size_of_index(need);
    bool built = build_in_room(need);
    walk_edited(built ? walk_built(need) : 0, need);
    fence_drop();
    return 0;
}

static void finish(void) {
    int missing = print_tally();
    print_blocks();
    fflush(stdout);
    if (missing && getenv("MUST_REACH")) _Exit(3);
}

int LLVMFuzzerInitialize(int *argc, char ***argv) {
    (void)argc, (void)argv;
    watch_blocks();
    atexit(finish);
    return 0;
}
