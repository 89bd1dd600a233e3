/* The restatement of document 01 for C (librestated_c.a): functions of the archive's types, which answer as the archive must.
 *
 * Pointers and lengths are those of podrulka.h, and so is what is written: the first places of result, the records of index and out's first
 * places, nothing if the call is refused. Memory is allocated. A fault of the restatement itself ends the process. */
#ifndef RESTATED_H
#define RESTATED_H

#include <podrulka.h>

extern __typeof__(podrulka_build) restated_build;
extern __typeof__(podrulka_size) restated_size;
extern __typeof__(podrulka_locate) restated_locate;
extern __typeof__(podrulka_walk) restated_walk;

/* all witnesses: the number, how many clauses agree with the call, and their offsets in source order */
extern __typeof__(podrulka_witness) restated_agreeing;

/* What the clauses ask for: result has the number (0, 1 or 3 to 7), and keys, clause by clause, a call's record for each argument, of zeros
 * where there is no key. Records for which keys has no room are left out. */
uint32_t restated_keys(const uint8_t *code, size_t code_len, const uint32_t *starts, size_t starts_len, uint32_t arity, uint32_t mask,
                       uint32_t flags, uint8_t *keys, size_t keys_len, uint64_t *result, size_t result_len);

#endif
