#define _DEFAULT_SOURCE
#include "fence.h"
#include "input.h"
#include <stdio.h>
#include <stdlib.h>
#include <string.h>
#include <sys/mman.h>

enum { PAGE = 4096, GUARD = 64, GUARD_BYTE = 0xd6 };

#ifdef EXACT

static void *taken[BUFFERS];

void *fence_take(enum buffer b, size_t len, bool front) {
    (void)front;
    free(taken[b]);
    taken[b] = malloc(len);
    if (!taken[b]) abort();
    return taken[b];
}

bool fence_whole(void) { return true; }

void fence_drop(void) {
    for (int b = 0; b < BUFFERS; b++) free(taken[b]), taken[b] = NULL;
}

#else

static const size_t sizes[BUFFERS] = {
    [CODE] = (MAX_CODE + 1) * RECORD, [STARTS] = (MAX_STARTS + 2) * 4, [CALL] = (PODRULKA_MAX_ARITY + 2) * RECORD,
    [INDEX] = MAX_INDEX * RECORD, [OUT] = (MAX_STARTS + 256) * 4, [RESULT] = 64 * 8
};
static uint8_t *begins[BUFFERS], *ends[BUFFERS], *guards[BUFFERS];

static void reserve(enum buffer b) {
    size_t len = (sizes[b] + GUARD + PAGE - 1) / PAGE * PAGE;
    uint8_t *at = mmap(NULL, len + 2 * PAGE, PROT_NONE, MAP_PRIVATE | MAP_ANONYMOUS, -1, 0);
    if (at == MAP_FAILED || mprotect(at + PAGE, len, PROT_READ | PROT_WRITE)) perror("fence"), abort();
    begins[b] = at + PAGE;
    ends[b] = at + PAGE + len;
}

void *fence_take(enum buffer b, size_t len, bool front) {
    if (!begins[b]) reserve(b);
    if (len > sizes[b]) abort();
    uint8_t *at = front ? begins[b] : ends[b] - len;
    guards[b] = front ? at + len : at - GUARD;
    memset(guards[b], GUARD_BYTE, GUARD);
    return at;
}

bool fence_whole(void) {
    for (int b = 0; b < BUFFERS; b++)
        for (int i = 0; guards[b] && i < GUARD; i++)
            if (guards[b][i] != GUARD_BYTE) return false;
    return true;
}

void fence_drop(void) { memset(guards, 0, sizeof guards); }

#endif
