/* What the archive did: counted for the table at the end, and told to the fuzzer as features of an input. */
#ifndef TALLY_H
#define TALLY_H

#include <stddef.h>
#include <stdint.h>

/* LOCATE is with c, LOCATE_CODE without */
enum call_kind { BUILD, WALK_BUILT, WALK_HANDED_IN, WITNESS, SIZE, LOCATE, LOCATE_CODE, CALL_KINDS };

/* the subjects of features; each has 64 values */
enum feature {
    F_NUMBER, F_CASE = F_NUMBER + CALL_KINDS, F_TABLES, F_GROWN, F_LINES, F_FLAGS, F_PAIRS, F_ENTRIES, F_TAGS, F_SELECTED, F_AGREEING,
    F_UNSTORED, F_ARGUMENT, F_SIZE, F_FAULT, FEATURES
};

/* an input has this feature */
void seen(enum feature subject, size_t value);
/* 0 to 7 as they are, then by powers of two: for features that are sizes */
size_t rough(size_t value);
void count_call(enum call_kind k, uint32_t number);
void count_case(enum call_kind k, uint64_t kind, uint64_t mark);
void count_execution(void);

/* Prints the table. Gives back how many numbers of a call's own were not reached. */
int print_tally(void);

/* the archive's blocks, if a list of them is named by the variable BLOCKS: prints how many were reached */
void watch_blocks(void);
void print_blocks(void);

#endif
