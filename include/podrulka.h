/* SPDX-License-Identifier: BSD-3-Clause
 * LICENSE covers Podrulka's own code, NOTICE what was carried over from Scryer Prolog.
 *
 * Podrulka: a Prolog clause index whose every answer is proved.
 *
 * The functions read compiled clauses (code), build an index of them, and walk the index for calls. Every
 * function is total: whatever bytes and numbers it is handed, it returns 0 or a refusal's number (below), and a
 * refusal changes neither index nor out. No function keeps anything between calls, allocates or calls back.
 *
 * What a caller owes, as to any C function that takes buffers:
 *  - each pointer leads to as many items as the length after it says; where the length is 0 the pointer is not read
 *    and may be NULL;
 *  - index, out and result overlap neither each other nor code, starts or call, and nobody writes any of them
 *    during the call. So functions may run at the same time where each has an index, out and result of its own; they may
 *    share code, starts and call;
 *  - about PODRULKA_STACK bytes of stack are free.
 *
 * Every function lays its result over the first places of result, as many as result has: the number first, zeros
 * after it if the call is refused. The enums below name the places.
 *
 * Records. Code, calls and index are records of 16 bytes, numbers little-endian: kind (1 byte), sub (1), half (2), word (4),
 * long (8). What follows is the short form; docs/FORMAT.md says it at length, with examples
 * (installed in share/doc/podrulka).
 *
 * Code. kind is the opcode. A clause begins at each of starts (a number of records) and ends at the next one or at the
 * code's end; its offset is its start plus 1. Reading a clause stops at its first body record.
 *     kind 0 to 9, 32 to 38    prologue and heads without a key: passed over
 *     kind 16 GetStructure     half the structure's arity (1 to 255), word the register, long the name
 *     kind 17 GetList          word the register; half and long are not read
 *     kind 18 GetConstant      half the literal's sort (1 atom, 2 integer, 3 float), word the register, long the bits
 *     kind 19 GetPartialString as GetList: it counts as a list
 *     every other kind         body
 * The register is the argument, counted from 1; registers rise within a clause. sub of kinds 16 to 19 is 0; bit 0 (not
 * shallow) or bit 1 (not a temporary register) makes the record a body record, bits 2 to 7 are refused. An argument without
 * a key is open: it agrees with everything. Two keys are equal if sort, arity and bits are; floats compare by their bits.
 *
 * Call. One record for each argument: kind 0, sub the sort (enum podrulka_sort), half a structure's arity (1 to 255) and else
 * 0, word 0, long the bits (a literal's, or a structure's name; 0 for a list). An unbound argument is a record of zeros.
 *
 * Index. Lines, numbered from 0: a line's record, its tables, each with its entries or dead clauses, then its offsets.
 * Fields that are not named are 0.
 *     kind 1 line              sub 0 static, 1 dynamic; word its number
 *     kind 2 switch            half the argument; its entries follow
 *     kind 3 on demand         half the argument: a switch that a walk makes when it first needs it
 *     kind 4 dead table        half the argument, which some clauses leave open; these follow
 *     kind 5 entry             sub the sort, half the arity, word the pointer, long the bits. A pointer with bit 31 set is
 *                              internal: its lower bits added to the line's own number give a line. Any other pointer is
 *                              a clause's offset
 *     kind 6 offset            sub the choice tag: 1 Try, 2 Retry, 3 DefaultRetry, 4 Trust, 5 DefaultTrust, 6 A, 7 Z;
 *                              word the offset
 *     kind 7 dead clause       word the offset
 */
#ifndef PODRULKA_H
#define PODRULKA_H

#include <stddef.h>
#include <stdint.h>

#ifdef __cplusplus
extern "C" {
#endif

/* the version of this header and of the library that it comes with. While the major version is 0, a new minor version may
 * change the functions; the shared library's soname has both numbers. */
#define PODRULKA_VERSION_MAJOR 0
#define PODRULKA_VERSION_MINOR 2
#define PODRULKA_VERSION_PATCH 0
#define PODRULKA_VERSION "0.2.0"

/* bytes of a record of code, call or index */
#define PODRULKA_RECORD 16
/* most arguments of a predicate, clauses, records of code, and records of an index that are used of a longer buffer */
#define PODRULKA_MAX_ARITY 32
#define PODRULKA_MAX_CLAUSES 1024
#define PODRULKA_MAX_CODE 32768
#define PODRULKA_MAX_INDEX 65535
/* bytes of stack that are enough for every call */
#define PODRULKA_STACK 524288

/* opcodes of code records that have a key, and one of a body record */
enum podrulka_opcode {
    PODRULKA_GET_STRUCTURE = 16,
    PODRULKA_GET_LIST = 17,
    PODRULKA_GET_CONSTANT = 18,
    PODRULKA_GET_PARTIAL_STRING = 19,
    PODRULKA_BODY_RECORD = 64
};

/* kinds of index records */
enum podrulka_kind {
    PODRULKA_KIND_LINE = 1,
    PODRULKA_KIND_SWITCH = 2,
    PODRULKA_KIND_ON_DEMAND = 3,
    PODRULKA_KIND_DEAD = 4,
    PODRULKA_KIND_ENTRY = 5,
    PODRULKA_KIND_OFFSET = 6,
    PODRULKA_KIND_DEAD_CLAUSE = 7
};

/* flags of the settings; other bits are not read */
enum podrulka_flag {
    PODRULKA_DYNAMIC = 1,     /* a predicate whose clauses may change: every bucket is a line of its own */
    PODRULKA_EXTENSIBLE = 2,  /* lines keep a dead table for an argument that some clause leaves open */
    PODRULKA_NON_COUNTED = 4, /* choice points that inferences do not count: DefaultRetry and DefaultTrust */
    PODRULKA_SKIP = 8         /* the variable offset is 2, not 1 */
};

/* The numbers that a call returns. The first that applies is returned; 5 to 7 go clause by clause, record by record, a clause's 5
 * first and within a record 6 before 7.
 * The builder refuses with 1 to 9, podrulka_size with 1 to 8, the walk with 1, 3 to 7 and 10 to 12, the witness with 1, 3 to 7
 * and 10. */
enum podrulka_number {
    PODRULKA_OK = 0,
    PODRULKA_ARITY = 1,       /* the arity is not 1 to 32 */
    PODRULKA_CHOSEN = 2,      /* the chosen argument c is 0 or above the arity */
    PODRULKA_CODE = 3,        /* the code is not whole records, or more than 32,768 of them */
    PODRULKA_STARTS = 4,      /* no starts, more than 1,024, not strictly rising, or one at or past the code's end */
    PODRULKA_BODY = 5,        /* a clause without a body record */
    PODRULKA_KEY = 6,         /* a keyed record with sub bits 2 to 7 set; if neither bit 0 nor bit 1 is set, a literal's sort not 1 to 3 or a
                                 structure's arity not 1 to 255 */
    PODRULKA_REGISTER = 7,    /* a register that is 0, above the arity, or not above that of an earlier key of the clause */
    PODRULKA_NO_KEY = 8,      /* a clause with no key at the chosen argument */
    PODRULKA_ROOM = 9,        /* the built index has more records than the buffer has room for */
    PODRULKA_CALL = 10,       /* the call is not one well-made record for each argument */
    PODRULKA_OUT = 11,        /* out has fewer places than there are clauses */
    PODRULKA_INDEX = 12       /* the record count is above the capacity, or the records are not a well-formed index */
};

/* what a number says, in words */
static inline const char *podrulka_message(uint32_t number) {
    switch (number) {
    case PODRULKA_OK: return "not refused";
    case PODRULKA_ARITY: return "the arity is not 1 to 32";
    case PODRULKA_CHOSEN: return "the chosen argument is 0 or above the arity";
    case PODRULKA_CODE: return "the code is not whole records, or more than 32,768 of them";
    case PODRULKA_STARTS: return "no starts, more than 1,024, not strictly rising, or one at or past the code's end";
    case PODRULKA_BODY: return "a clause without a body record";
    case PODRULKA_KEY: return "a keyed record with a wrong field";
    case PODRULKA_REGISTER: return "a register that is 0, above the arity, or not above that of an earlier key of the clause";
    case PODRULKA_NO_KEY: return "a clause with no key at the chosen argument";
    case PODRULKA_ROOM: return "the built index has more records than the buffer has room for";
    case PODRULKA_CALL: return "the call is not one well-made record for each argument";
    case PODRULKA_OUT: return "out has fewer places than there are clauses";
    case PODRULKA_INDEX: return "the record count is above the capacity, or the records are not a well-formed index";
    default: return "no such number";
    }
}

/* sorts of keys, in the sub field of a call's records; 0 is an unbound argument */
enum podrulka_sort {
    PODRULKA_UNBOUND = 0,
    PODRULKA_ATOM = 1,
    PODRULKA_INTEGER = 2,
    PODRULKA_FLOAT = 3,
    PODRULKA_STRUCTURE = 4,
    PODRULKA_LIST = 5
};

/* the places of a builder's result */
enum podrulka_built {
    PODRULKA_BUILT_NUMBER = 0,
    PODRULKA_BUILT_COUNT = 1,    /* records of the index */
    PODRULKA_BUILT_VARIABLE = 2, /* the variable offset: 1, or 2 with PODRULKA_SKIP */
    PODRULKA_BUILT_PLACES = 3
};

/* the places of podrulka_size's result */
enum podrulka_sized {
    PODRULKA_SIZED_NUMBER = 0,
    PODRULKA_SIZED_COUNT = 1, /* records of the index that podrulka_build would write */
    PODRULKA_SIZED_PLACES = 2
};

/* the places of podrulka_locate's result */
enum podrulka_located {
    PODRULKA_LOCATED_NUMBER = 0, /* what refuses: 0 nothing */
    PODRULKA_LOCATED_CLAUSE = 1, /* for 5 to 8 the first clause at fault, counted from 0; else 0 */
    PODRULKA_LOCATED_RECORD = 2, /* for 5 to 8 the record of the code first at fault, counted from 0; else 0 */
    PODRULKA_LOCATED_PLACES = 3
};

/* the places of a walk's result */
enum podrulka_walked {
    PODRULKA_WALKED_NUMBER = 0,
    PODRULKA_WALKED_CASE = 1,    /* one of enum podrulka_case */
    PODRULKA_WALKED_LINE = 2,    /* the stored line of a Sequence, else 0 */
    PODRULKA_WALKED_COUNT = 3,   /* how many of out's first places hold the selected clauses' offsets */
    PODRULKA_WALKED_TABLES = 4,  /* tables looked at */
    PODRULKA_WALKED_MARK = 5,    /* 0: every expansion of this call is stored; 1: one did not fit (the answer is the same) */
    PODRULKA_WALKED_RECORDS = 6, /* the new record count: hand it to the next walk */
    PODRULKA_WALKED_PLACES = 7
};

/* the cases of an accepted walk */
enum podrulka_case {
    PODRULKA_FAIL = 1,     /* nothing is left to try */
    PODRULKA_EXTERNAL = 2, /* one clause is left to try */
    PODRULKA_SEQUENCE = 3, /* the clauses of one line */
    PODRULKA_VARIADIC = 4  /* the clauses of line 0, in a built index all: no argument decided */
};

/* the places of a witness's result */
enum podrulka_witnessed {
    PODRULKA_WITNESSED_NUMBER = 0,
    PODRULKA_WITNESSED_OFFSET = 1, /* the offset (start plus 1) of some clause that agrees with the call; 0: none agrees */
    PODRULKA_WITNESSED_PLACES = 2
};

/* Builds the index of the clauses of code that begin at starts (numbers of records), with its first switch on
 * argument c (1 is the first). mask bit i set: argument i + 1 is never indexed on demand. index has room for
 * index_len / 16 records, at most 65,535 are used; bytes beyond the built records are left as they were.
 * Returns 0 or a number from 1 to 9. */
uint32_t podrulka_build(const uint8_t *code, size_t code_len, const uint32_t *starts, size_t starts_len,
                        uint32_t arity, uint32_t mask, uint32_t flags, uint64_t c,
                        uint8_t *index, size_t index_len, uint64_t *result, size_t result_len);

/* The record count of the index that podrulka_build would write for these arguments, whatever the room: a buffer of 16
 * times as many bytes is enough, and a smaller one is refused with 9. A count above PODRULKA_MAX_INDEX fits no buffer. Walks
 * store what they expand only while there is room, so a caller who wants that stored allocates more.
 * Returns 0 or a number from 1 to 8. */
uint32_t podrulka_size(const uint8_t *code, size_t code_len, const uint32_t *starts, size_t starts_len,
                       uint32_t arity, uint32_t mask, uint32_t flags, uint64_t c, uint64_t *result, size_t result_len);

/* What refuses code, starts and c, and where. The number is the first of 1 to 8 that applies; with c 0 it is the first of 1
 * and 3 to 7, which is what walk and witness check before they read the call. For 5 to 7 the clause is the first that is
 * refused, for 8 the first with no key at c. The record is, for 5, the clause's last one; for 6 and 7, the first of the
 * clause at which its check fails; for 8, the clause's first body record. For 1 to 4 clause and record are 0. mask and flags
 * are not read.
 * It reports and never refuses: it returns 0, and the number stands in result alone. */
uint32_t podrulka_locate(const uint8_t *code, size_t code_len, const uint32_t *starts, size_t starts_len,
                         uint32_t arity, uint32_t mask, uint32_t flags, uint64_t c, uint64_t *result, size_t result_len);

/* Walks the index's first count records for a call (one record for each argument, as above). code, starts, arity, mask and
 * flags are those that the index was built with. Tables are expanded on demand while there is room. The offsets of the
 * selected clauses go to out's first places, in source order; its other places are left as they were. On an index that
 * podrulka_build made for this code and these settings and that only walks have written since, every clause that agrees with
 * the call is selected, once, and the case is Fail only if none agrees. A selected clause need not agree: the caller tries it.
 * An index from elsewhere is only checked to be well formed: it may leave out clauses.
 * Returns 0 or one of 1, 3 to 7, 10, 11, 12. */
uint32_t podrulka_walk(const uint8_t *code, size_t code_len, const uint32_t *starts, size_t starts_len,
                       uint32_t arity, uint32_t mask, uint32_t flags, const uint8_t *call, size_t call_len,
                       uint8_t *index, size_t index_len, size_t count, uint32_t *out, size_t out_len,
                       uint64_t *result, size_t result_len);

/* From code and call alone: the offset of some clause that agrees with the call at every argument, 0 if none does.
 * Returns 0 or one of 1, 3 to 7, 10. */
uint32_t podrulka_witness(const uint8_t *code, size_t code_len, const uint32_t *starts, size_t starts_len,
                          uint32_t arity, uint32_t mask, uint32_t flags, const uint8_t *call, size_t call_len,
                          uint64_t *result, size_t result_len);

#ifdef __cplusplus
}
#endif

#endif
