/* Document 01's keys, refusal numbers and well-formed indexes once more, in plain C: what the checks of target.c expect of the archive.
 * Written from the paper, with no regard for speed. */
#ifndef PLAIN_H
#define PLAIN_H

#include <podrulka.h>
#include <stdbool.h>

enum { RECORD = PODRULKA_RECORD };

struct record {
    uint8_t kind, sub;
    uint16_t half;
    uint32_t word;
    uint64_t bits;
};

/* sort 0: no key */
struct key {
    uint32_t sort, arity;
    uint64_t bits;
};

/* what every call is handed alike */
struct program {
    const uint8_t *code;
    size_t code_len;
    const uint32_t *starts;
    size_t starts_len;
    uint32_t arity, mask, flags;
};

struct record get(const uint8_t *at);
void put(uint8_t *at, struct record r);

/* the first of 1 and 3 to 7 that applies, or 0 */
uint32_t code_number(const struct program *p);
/* the first of 1 to 8 that applies, or 0 */
uint32_t build_number(const struct program *p, uint64_t c);
/* what refuses, and for 5 to 8 the clause and the record of the code that are first at fault, else zeros */
struct fault {
    uint32_t number;
    size_t clause, record;
};
/* the first of 1 to 8 that applies; c 0: of 1 and 3 to 7 */
struct fault fault_of(const struct program *p, uint64_t c);
/* of code that no number refuses: the records of its index, whatever the room */
size_t built_count(const struct program *p, uint32_t c);
/* 10 or 0 */
uint32_t call_number(const struct program *p, const uint8_t *call, size_t call_len);
/* number 12 does not apply */
bool well_formed(const struct program *p, const uint8_t *index, size_t index_len, size_t count);

/* of checked code: the key of clause i at an argument, counted from 1, and whether the clause agrees with a call */
struct key clause_key(const struct program *p, size_t i, uint32_t argument);
bool agrees(const struct program *p, size_t i, const uint8_t *call);

size_t capacity(size_t index_len);
/* whether some clause has this offset */
bool known(const struct program *p, uint32_t offset);

#endif
