/* A mutator that knows where the items are: half of the time whole items are copied, moved, erased or made, and single bytes of head or
 * items are changed; otherwise libFuzzer's own mutations are used. */
#include "input.h"
#include <string.h>

size_t LLVMFuzzerMutate(uint8_t *data, size_t size, size_t max_size);
size_t LLVMFuzzerCustomMutator(uint8_t *data, size_t size, size_t max_size, unsigned int seed);

static uint32_t state;

static uint32_t upto(size_t n) {
    state = state * 1664525 + 1013904223;
    return n ? (uint32_t)((state >> 8) % n) : 0;
}

/* an item that is often sound: a key record, a body record, an argument, an edit */
static void make_item(uint8_t *at) {
    static const uint8_t firsts[] = { 0x00, 0x18, 0x20, 0x28, 0x30, 0x40, 0x58, 0x60, 0x68, 0x80, 0x81, 0x84, 0x85, 0x86, 0xa6, 0xa0, 0xa1, 0x08, 0x10, 0x48 };
    at[0] = (uint8_t)(upto(4) ? firsts[upto(sizeof firsts)] : 0xc0 | upto(64));
    at[1] = (uint8_t)(upto(8) ? upto(5) : upto(256));
    at[2] = (uint8_t)(upto(4) ? upto(4) : upto(256));
    at[3] = (uint8_t)(upto(8) ? upto(4) : upto(256));
}

static size_t change_items(uint8_t *data, size_t size, size_t max_size) {
    size_t n = (size - HEAD) / ITEM, i = upto(n), run = 1 + upto(4);
    uint8_t *items = data + HEAD, kept[4 * ITEM];
    if (i + run > n) run = n - i;
    memcpy(kept, items + i * ITEM, run * ITEM);
    switch (upto(4)) {
    case 0: /* erase a run */
        memmove(items + i * ITEM, items + (i + run) * ITEM, (n - i - run) * ITEM);
        return HEAD + (n - run) * ITEM;
    case 1: /* copy a run to another place */
    case 2: {
        size_t to = upto(n + 1);
        if (HEAD + (n + run) * ITEM > max_size) return size;
        memmove(items + (to + run) * ITEM, items + to * ITEM, (n - to) * ITEM);
        memcpy(items + to * ITEM, kept, run * ITEM);
        return HEAD + (n + run) * ITEM;
    }
    default: /* one byte */
        items[i * ITEM + upto(ITEM)] = (uint8_t)(upto(2) ? upto(8) : upto(256));
        return size;
    }
}

static size_t add_item(uint8_t *data, size_t size, size_t max_size) {
    size_t n = (size - HEAD) / ITEM, to = upto(n + 1);
    uint8_t *items = data + HEAD;
    if (HEAD + (n + 1) * ITEM > max_size) return size;
    memmove(items + (to + 1) * ITEM, items + to * ITEM, (n - to) * ITEM);
    make_item(items + to * ITEM);
    return HEAD + (n + 1) * ITEM;
}

/* Very large buffers make an execution a hundred times slower, so of their descendants few keep them. */
static void seldom_large(uint8_t *data, size_t size) {
    if (upto(64) == 0) return;
    for (size_t at = HEAD; at + ITEM <= size; at += ITEM)
        if ((data[at] & 0xfc) == 0xe4 && (data[at + 2] & 6) == 6) data[at + 2] &= 0xfb; /* more than 1,000 entries */
    if (data[AT_COPIES] >= 224 && data[AT_COPIES] % 8 >= 4) data[AT_COPIES] = (uint8_t)upto(240);
    if (data[AT_ROOM] >= 253) data[AT_ROOM] = (uint8_t)upto(240);
    if (data[AT_LONG_CODE] >= 250) data[AT_LONG_CODE] = 0;
}

static size_t change(uint8_t *data, size_t size, size_t max_size) {
    if (upto(2) || size < HEAD || max_size < HEAD) return LLVMFuzzerMutate(data, size, max_size);
    for (uint32_t times = 1 + upto(3); times > 0; times--) {
        uint32_t way = upto(8);
        if (way == 0) data[upto(HEAD)] = (uint8_t)(upto(2) ? upto(8) : upto(256));
        else if (way < 4 || size < HEAD + ITEM) size = add_item(data, size, max_size);
        else size = change_items(data, size, max_size);
    }
    return size;
}

size_t LLVMFuzzerCustomMutator(uint8_t *data, size_t size, size_t max_size, unsigned int seed) {
    state = seed;
    size = change(data, size, max_size);
    if (size >= HEAD) seldom_large(data, size);
    return size;
}
