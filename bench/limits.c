/* Limits: a build of 1,024 clauses of arity 4 with 1,024 distinct keys, and walks whose time is the check of a large index (number 12).
 * Prints minimum and median of the rounds, in milliseconds of processor time.  usage: limits */
#define _POSIX_C_SOURCE 200809L
#include <podrulka.h>
#include <stdio.h>
#include <stdlib.h>
#include <string.h>
#include <time.h>

enum { GET_CONSTANT = 18, BODY = 64, LINE = 1, SWITCH = 2, DEMAND = 3, DEAD = 4, ENTRY = 5, OFFSET = 6, DEAD_CLAUSE = 7 };
enum { CODE_ROOM = PODRULKA_MAX_CODE * PODRULKA_RECORD, INDEX_ROOM = PODRULKA_MAX_INDEX * PODRULKA_RECORD };

static uint8_t code[CODE_ROOM], index_buffer[INDEX_ROOM];
static uint32_t starts[PODRULKA_MAX_CLAUSES], out[PODRULKA_MAX_CLAUSES];
static uint8_t call[PODRULKA_MAX_ARITY * PODRULKA_RECORD]; /* all zero: every argument unbound */

static void put(uint8_t *records, size_t at, uint8_t kind, uint8_t sub, uint16_t half, uint32_t word, uint64_t bits) {
    uint8_t *r = records + PODRULKA_RECORD * at;
    r[0] = kind;
    r[1] = sub;
    for (int i = 0; i < 2; i++) r[2 + i] = (uint8_t)(half >> 8 * i);
    for (int i = 0; i < 4; i++) r[4 + i] = (uint8_t)(word >> 8 * i);
    for (int i = 0; i < 8; i++) r[8 + i] = (uint8_t)(bits >> 8 * i);
}

static double now_ms(void) {
    struct timespec t;
    clock_gettime(CLOCK_THREAD_CPUTIME_ID, &t);
    return (double)t.tv_sec * 1e3 + (double)t.tv_nsec * 1e-6;
}

static int by_size(const void *a, const void *b) {
    double x = *(const double *)a, y = *(const double *)b;
    return (x > y) - (x < y);
}

static void report(const char *what, double *times, int rounds) {
    qsort(times, (size_t)rounds, sizeof *times, by_size);
    printf("| %s | %.3f | %.3f | %d |\n", what, times[0], times[rounds / 2], rounds);
}

static void refused(const char *what, uint32_t number) {
    fprintf(stderr, "%s: refused with %u\n", what, number);
    exit(1);
}

/* Clauses of keys at every argument; the key at argument 1 is the clause's own number, the others come from few. */
static size_t clauses(size_t n, uint32_t arity) {
    size_t at = 0;
    for (size_t i = 0; i < n; i++) {
        starts[i] = (uint32_t)at;
        for (uint32_t a = 1; a <= arity; a++) put(code, at++, GET_CONSTANT, 0, PODRULKA_ATOM, a, a == 1 ? 1000 + i : i % 8);
        put(code, at++, BODY, 0, 0, 0, 0);
    }
    return at;
}

static void build(int rounds) {
    uint64_t built[PODRULKA_BUILT_PLACES];
    size_t records = clauses(1024, 4);
    double *times = malloc((size_t)rounds * sizeof *times);
    for (int i = 0; i < rounds; i++) {
        double t = now_ms();
        uint32_t r = podrulka_build(code, records * PODRULKA_RECORD, starts, 1024, 4, 0, 0, 1, index_buffer, sizeof index_buffer, built, PODRULKA_BUILT_PLACES);
        times[i] = now_ms() - t;
        if (r != 0) refused("build", r);
    }
    report("build: 1,024 clauses, arity 4, 1,024 distinct keys", times, rounds);
    free(times);
}

/* One line: a switch with so many entries, then so many more tables (a dead one with one clause, an on-demand one), and offsets. */
static size_t small_line(size_t at, uint32_t number, uint16_t a, int internal, int entries, int more, int offsets) {
    put(index_buffer, at++, LINE, 0, 0, number, 0);
    put(index_buffer, at++, SWITCH, 0, a, 0, 0);
    for (int e = 0; e < entries; e++) put(index_buffer, at++, ENTRY, PODRULKA_ATOM, 0, e == 0 && internal ? 0x80000001u : 1, (uint64_t)e);
    if (more > 0) put(index_buffer, at++, DEAD, 0, (uint16_t)(a + 1), 0, 0), put(index_buffer, at++, DEAD_CLAUSE, 0, 0, 1, 0);
    if (more > 1) put(index_buffer, at++, DEMAND, 0, (uint16_t)(a + 2), 0, 0);
    for (int o = 0; o < offsets; o++) put(index_buffer, at++, OFFSET, 0 == o ? 1 : 4, 0, 1 + 33 * (uint32_t)o, 0);
    return at;
}

/* Lines of one shape, size records each, up to 65,535 records. Each first entry leads to the next line, whose arguments are higher,
 * except where they start again from 1. */
static size_t small_lines(size_t size, int entries, int more, int offsets) {
    size_t lines = PODRULKA_MAX_INDEX / size, at = 0, step = 1 + (size_t)more, turns = 32 / step;
    for (size_t i = 0; i < lines; i++) {
        int internal = i + 1 < lines && i % turns + 1 < turns;
        at = small_line(at, (uint32_t)i, (uint16_t)(1 + step * (i % turns)), internal, entries, more, offsets);
    }
    return at;
}

/* One line with one switch of so many literals, each an external pointer; their bits are multiples of step. */
static size_t one_switch(uint32_t keys, uint64_t step) {
    put(index_buffer, 0, LINE, 0, 0, 0, 0);
    put(index_buffer, 1, SWITCH, 0, 1, 0, 0);
    for (uint32_t i = 0; i < keys; i++) put(index_buffer, 2 + i, ENTRY, PODRULKA_ATOM, 0, 1, step * i);
    put(index_buffer, 2 + keys, OFFSET, 1, 0, 1, 0);
    return 3 + keys;
}

/* The time of a walk whose arguments are all unbound, so that little but the checks is done: two clauses of arity 32. */
static void walk(const char *what, size_t count, int rounds) {
    uint64_t w[PODRULKA_WALKED_PLACES];
    size_t records = clauses(2, 32);
    double *times = malloc((size_t)rounds * sizeof *times);
    char line[200];
    for (int i = 0; i < rounds; i++) {
        double t = now_ms();
        uint32_t r = podrulka_walk(code, records * PODRULKA_RECORD, starts, 2, 32, 0, 0, call, sizeof call, index_buffer, sizeof index_buffer, count, out, 2, w, PODRULKA_WALKED_PLACES);
        times[i] = now_ms() - t;
        if (r != 0) refused(what, r);
    }
    snprintf(line, sizeof line, "walk: %s, %zu records", what, count);
    report(line, times, rounds);
    free(times);
}

/* A heavy check of an index that builder and walks made: 1,024 clauses of 31 keys each, as many as code has room for, no two alike at
 * any argument, and a switch on every argument, made by calls that bind one argument each. */
static void full(void) {
    enum { ARITY = 31, CLAUSES = 1024, ROUNDS = 50 };
    uint64_t built[PODRULKA_BUILT_PLACES], w[PODRULKA_WALKED_PLACES];
    double times[ROUNDS];
    uint8_t one[ARITY * PODRULKA_RECORD];
    size_t at = 0;
    for (uint32_t i = 0; i < CLAUSES; i++) {
        starts[i] = (uint32_t)at;
        for (uint32_t a = 1; a <= ARITY; a++) put(code, at++, GET_CONSTANT, 0, PODRULKA_ATOM, a, i);
        put(code, at++, BODY, 0, 0, 0, 0);
    }
    uint32_t r = podrulka_build(code, at * PODRULKA_RECORD, starts, CLAUSES, ARITY, 0, 0, 1, index_buffer, sizeof index_buffer, built, PODRULKA_BUILT_PLACES);
    if (r != 0) refused("build of 31 arguments", r);
    size_t count = built[PODRULKA_BUILT_COUNT];
    for (int a = 2; a <= ARITY + ROUNDS; a++) { /* then calls with every argument unbound */
        memset(one, 0, sizeof one);
        if (a <= ARITY) put(one, (size_t)a - 1, 0, PODRULKA_ATOM, 0, 0, 7);
        double t = now_ms();
        r = podrulka_walk(code, at * PODRULKA_RECORD, starts, CLAUSES, ARITY, 0, 0, one, sizeof one, index_buffer, sizeof index_buffer, count, out, CLAUSES, w, PODRULKA_WALKED_PLACES);
        if (r != 0 || w[PODRULKA_WALKED_MARK] != 0) refused("walk of 31 arguments", r);
        if (a > ARITY) times[a - ARITY - 1] = now_ms() - t;
        count = w[PODRULKA_WALKED_RECORDS];
    }
    char line[200];
    snprintf(line, sizeof line, "walk: 1,024 clauses of 31 keys, all 31 switches of 1,024 keys, %zu records", count);
    report(line, times, ROUNDS);
}

int main(void) {
    printf("| | minimum, ms | median, ms | rounds |\n|---|---|---|---|\n");
    build(200);
    walk("one line, one switch of 2 keys", one_switch(2, 1), 2000);
    walk("13,107 lines of 5 (switch of 2 keys, 1 offset)", small_lines(5, 2, 0, 1), 200);
    walk("lines of 11 (switch of 4 keys, dead, on demand, 2 offsets)", small_lines(11, 4, 2, 2), 200);
    walk("one switch of 1,024 keys", one_switch(1024, 1), 100);
    full();
    walk("one switch of 10,000 keys", one_switch(10000, 1), 7);
    walk("one switch of 60,000 keys", one_switch(60000, 1), 50);
    /* this number is the divisor in well_formed's bucket_of */
    walk("one switch of 60,000 keys made for one bucket", one_switch(60000, 4294967291), 3);
    return 0;
}
