/* How much stack the calls use: the largest inputs, each on a thread whose stack was painted.  usage: stack
 *
 * Compiled with EXACT and MEMCHECK it makes the same calls for memcheck and measures nothing.
 *
 * The thread notes where it is, makes the call, and looks for the lowest byte that the call has overwritten; this is done with two paints,
 * and the lower place counts. Fails if some call uses more than four fifths of PODRULKA_STACK. */
#define _DEFAULT_SOURCE
#include "fence.h"
#include "input.h"
#include <pthread.h>
#include <stdio.h>
#include <stdlib.h>
#include <string.h>
#include <sys/mman.h>

enum { ARITY = 32, CLAUSES = 1024, STACK = 4 << 20, MOST = PODRULKA_MAX_INDEX };
enum which { NOTHING, BUILD, WALK, WITNESS, SIZE, LOCATE };

/* the buffers end at fences */
static uint8_t *code, *call, *index_at, kept[MOST * RECORD], *stack;
static uint32_t *starts, *out, flags;
static uint64_t *result;
static size_t code_len, starts_len, index_len, count, used;
static enum which which;
static uint8_t paint;

static uint32_t do_call(void) {
    switch (which) {
    case BUILD: return podrulka_build(code, code_len, starts, starts_len, ARITY, 0, flags, 1, index_at, index_len, result, PODRULKA_BUILT_PLACES);
    case WALK: return podrulka_walk(code, code_len, starts, starts_len, ARITY, 0, flags, call, ARITY * RECORD, index_at, index_len, count, out, CLAUSES, result,
                                    PODRULKA_WALKED_PLACES);
    case WITNESS: return podrulka_witness(code, code_len, starts, starts_len, ARITY, 0, flags, call, ARITY * RECORD, result, PODRULKA_WITNESSED_PLACES);
    case SIZE: return podrulka_size(code, code_len, starts, starts_len, ARITY, 0, flags, 1, result, PODRULKA_SIZED_PLACES);
    case LOCATE: return podrulka_locate(code, code_len, starts, starts_len, ARITY, 0, flags, 1, result, PODRULKA_LOCATED_PLACES);
    default: return 0;
    }
}

#ifdef MEMCHECK
static void once(void) { do_call(); }
#else
static void *on_thread(void *unused) {
    uint8_t *here = __builtin_frame_address(0);
    const volatile uint8_t *lowest = stack;
    do_call();
    while (*lowest == paint) lowest++;
    if ((size_t)(here - lowest) > used) used = (size_t)(here - lowest);
    return unused;
}

static void once(void) {
    pthread_attr_t attributes;
    pthread_t thread;
    memset(stack, paint, STACK);
    if (pthread_attr_init(&attributes) || pthread_attr_setstack(&attributes, stack, STACK)) abort();
    if (pthread_create(&thread, &attributes, on_thread, NULL) || pthread_join(thread, NULL)) abort();
}
#endif

/* the stack of one call; the index is as before at the end */
static size_t measure(enum which w, const char *what) {
    static const char *const names[] = { "nothing", "build", "walk", "witness", "size", "locate" };
    if (index_len) memcpy(kept, index_at, index_len);
    which = w, used = 0;
    for (paint = 0x6b;; paint = 0x94) {
        once();
        if (index_len) memcpy(index_at, kept, index_len);
        if (paint == 0x94) break;
    }
    printf("%-8s %8zu bytes  number %2u, %6zu records  %s\n", names[w], used, (unsigned)(w ? result[0] : 0), index_len / RECORD, what);
    return used;
}

static void add(uint8_t kind, uint16_t half, uint32_t word, uint64_t bits) {
    put(code + code_len, (struct record){ kind, 0, half, word, bits });
    code_len += RECORD;
}

/* n clauses with keys at the first arguments; the key at 1 is one of so many, the others are all alike */
static void make_clauses(size_t n, uint32_t keys, uint64_t first_keys) {
    code = fence_take(CODE, n * (keys + 1) * RECORD, false);
    starts = fence_take(STARTS, n * sizeof *starts, false);
    code_len = starts_len = 0;
    for (size_t i = 0; i < n; i++) {
        starts[starts_len++] = (uint32_t)(code_len / RECORD);
        for (uint32_t a = 1; a <= keys; a++) add(18, 1, a, a == 1 ? i % first_keys : 7);
        add(64, 0, 0, 0);
    }
}

/* a call with the first arguments bound */
static void bind(uint32_t bound, uint64_t first) {
    memset(call, 0, ARITY * RECORD);
    for (uint32_t a = 0; a < bound; a++) put(call + RECORD * a, (struct record){ 0, 1, 0, 0, a ? 7 : first });
}

/* a buffer of so many records with the index in it */
static size_t build_it(size_t records) {
    index_len = records * RECORD;
    index_at = fence_take(INDEX, index_len, false);
    which = BUILD;
    if (do_call()) printf("the build is refused with %u\n", (unsigned)result[0]), exit(1);
    return count = result[PODRULKA_BUILT_COUNT];
}

static size_t larger(size_t a, size_t b) { return a > b ? a : b; }

/* an index of 65,535 records: dead tables that list nearly all clauses, and lines that nothing points at */
static size_t full_index(void) {
    size_t most;
    flags = PODRULKA_EXTENSIBLE;
    make_clauses(1022, 1, 2);
    build_it(MOST);
    most = measure(BUILD, "1,022 clauses of arity 32, dead tables");
    most = larger(most, measure(SIZE, "the same clauses"));
    uint32_t line = 3;
    for (; count + 2 <= MOST; count += 2, line++) {
        put(index_at + count * RECORD, (struct record){ 1, 0, 0, line, 0 });
        put(index_at + (count + 1) * RECORD, (struct record){ 6, 1, 0, starts[0] + 1, 0 });
    }
    printf("%zu records in the index\n", count);
    bind(0, 0);
    most = larger(most, measure(WALK, "all arguments unbound"));
    bind(ARITY, 1);
    most = larger(most, measure(WALK, "all arguments bound"));
    index_at[(count - 1) * RECORD] = 9;
    most = larger(most, measure(WALK, "the last record damaged"));
    return most;
}

/* a switch of so many entries, their keys the multiples of a number: they fall into buckets of their own or all into one */
static size_t wide_switch(size_t entries, uint64_t step, const char *what) {
    flags = 0;
    make_clauses(1, 1, 2);
    index_len = (entries + 3) * RECORD;
    index_at = fence_take(INDEX, index_len, false);
    count = 0;
    put(index_at + RECORD * count++, (struct record){ 1, 0, 0, 0, 0 });
    put(index_at + RECORD * count++, (struct record){ 2, 0, 1, 0, 0 });
    while (count < entries + 2) put(index_at + RECORD * count, (struct record){ 5, 1, 0, starts[0] + 1, step * count }), count++;
    put(index_at + RECORD * count++, (struct record){ 6, 1, 0, starts[0] + 1, 0 });
    bind(1, step * (entries + 1));
    return measure(WALK, what);
}

/* 1,024 clauses, 32,768 code records, the call expands a table at every argument */
static size_t deep_walk(size_t room, uint32_t mode) {
    size_t most;
    flags = mode;
    make_clauses(CLAUSES, 31, 2);
    size_t need = build_it(MOST);
    build_it(need + room < MOST ? need + room : MOST);
    most = measure(BUILD, "1,024 clauses of arity 32, 31 keys each");
    most = larger(most, measure(SIZE, "the same clauses"));
    most = larger(most, measure(LOCATE, "the same clauses, nothing at fault"));
    bind(31, 1);
    most = larger(most, measure(WALK, room < MOST ? "expansions that do not fit" : "expansions at 30 arguments"));
    return larger(most, measure(WITNESS, "the same call"));
}

/* 1,024 clauses whose index no buffer has room for; then the last of them at fault */
static size_t no_room(void) {
    size_t most;
    flags = PODRULKA_DYNAMIC | PODRULKA_EXTENSIBLE;
    make_clauses(CLAUSES, 1, CLAUSES);
    index_len = 0;
    most = measure(SIZE, "1,024 clauses of arity 32, each with a line of its own");
    printf("%zu records in that index\n", (size_t)result[PODRULKA_SIZED_COUNT]);
    put(code + code_len - 2 * RECORD, (struct record){ 18, 0, 1, ARITY + 1, 0 });
    return larger(most, measure(LOCATE, "the last clause's register is wrong"));
}

int main(void) {
    static const size_t rooms[] = { 0, 60, MOST };
    size_t most;
    stack = mmap(NULL, STACK, PROT_READ | PROT_WRITE, MAP_PRIVATE | MAP_ANONYMOUS, -1, 0);
    if (stack == MAP_FAILED) return perror("stack"), 2;
    call = fence_take(CALL, ARITY * RECORD, false);
    out = fence_take(OUT, CLAUSES * sizeof *out, false);
    result = fence_take(RESULT, PODRULKA_WALKED_PLACES * sizeof *result, false);
    measure(NOTHING, "the thread itself");
    most = larger(full_index(), no_room());
    most = larger(most, wide_switch(MOST - 3, 1, "a switch of 65,532 entries"));
    most = larger(most, wide_switch(2000, 4294967291, "a switch of 2,000 entries, all in one bucket"));
    most = larger(most, wide_switch(1024, 1021, "a switch of 1,024 entries, all in one bucket"));
    for (uint32_t mode = 0; mode < 4; mode++)
        for (int k = 0; k < 3; k++) most = larger(most, deep_walk(rooms[k], mode));
    fence_drop();
    printf("most: %zu bytes; PODRULKA_STACK is %d\n", most, PODRULKA_STACK);
    return most > PODRULKA_STACK / 5 * 4;
}
