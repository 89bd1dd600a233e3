/* An input of the fuzzer, taken apart: see input.c for the format. */
#ifndef INPUT_H
#define INPUT_H

#include "plain.h"

enum {
    HEAD = 16,
    ITEM = 4,
    MAX_STARTS = PODRULKA_MAX_CLAUSES + 1,
    MAX_CODE = PODRULKA_MAX_CODE + 1,
    MAX_INDEX = PODRULKA_MAX_INDEX + 2,
    MAX_CALLS = 4,
    MAX_EDITS = 64
};

/* the head's bytes */
enum {
    AT_ARITY, AT_CHOSEN, AT_FLAGS, AT_MASK, AT_ROOM, AT_ODD, AT_STARTS, AT_OUT,
    AT_RESULT, AT_CALL_LEN, AT_COUNT, AT_WAYS, AT_COPIES, AT_STEP, AT_LONG_CODE, AT_PAINT
};

/* bits of AT_WAYS */
enum { WAY_FRONT = 1, WAY_EMPTY = 2, WAY_FRESH = 4 };

struct input {
    uint8_t head[HEAD];
    uint32_t arity, mask, flags;
    uint64_t chosen;
    uint8_t code[MAX_CODE * RECORD + RECORD];
    size_t code_len;
    uint32_t starts[MAX_STARTS + 2];
    size_t starts_len;
    /* call items and where each call's begin */
    uint8_t calls[MAX_CALLS][PODRULKA_MAX_ARITY + 1][ITEM];
    size_t arguments[MAX_CALLS], calls_len;
    uint8_t edits[MAX_EDITS][ITEM];
    size_t edits_len;
};

void take_apart(const uint8_t *data, size_t size, struct input *in);

/* the bytes of call k; its length is given back, at most 34 records are written */
size_t make_call(const struct input *in, size_t k, const struct program *p, bool checked, uint8_t *call);

/* bytes of an index buffer, where the index that was built needs that many records */
size_t room(const struct input *in, size_t need);
size_t out_length(const struct input *in);
/* the record count that goes with an edited index of that many records */
size_t claimed_count(const struct input *in, size_t count, size_t index_len);
/* edits the index's records, at most MAX_INDEX of them, and gives back how many there are then */
size_t edit_index(const struct input *in, const struct program *p, uint8_t *index, size_t count);

#endif
