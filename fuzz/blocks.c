/* Which blocks of the archive's machine code were reached.
 *
 * The archive is compiled without coverage counters. fuzz/blocks lists the beginnings of its basic blocks in the linked program; a
 * breakpoint is laid on each, and is taken away when it is reached for the first time. Each is a counter of libFuzzer, so an input
 * that reaches a new block of the archive is kept. Without the variable BLOCKS nothing is done. x86-64 Linux. */
#define _GNU_SOURCE
#include "tally.h"
#include <inttypes.h>
#include <podrulka.h>
#include <stdbool.h>
#include <signal.h>
#include <stdio.h>
#include <stdlib.h>
#include <string.h>
#include <sys/mman.h>
#include <ucontext.h>

enum { MAX_BLOCKS = 2048, BREAKPOINT = 0xcc, PAGE = 4096 };

__attribute__((section("__libfuzzer_extra_counters"))) static volatile uint8_t reached_now[MAX_BLOCKS];

static struct block {
    uint8_t *at, byte;
    bool reached;
} blocks[MAX_BLOCKS];
static size_t blocks_len;

static int by_place(const void *a, const void *b) {
    const struct block *x = a, *y = b;
    return x->at < y->at ? -1 : x->at > y->at;
}

static void on_breakpoint(int signal, siginfo_t *info, void *context) {
    (void)signal, (void)info;
    greg_t *rip = &((ucontext_t *)context)->uc_mcontext.gregs[REG_RIP];
    struct block wanted = { (uint8_t *)(uintptr_t)*rip - 1, 0, false };
    struct block *b = bsearch(&wanted, blocks, blocks_len, sizeof *blocks, by_place);
    if (!b || b->reached) abort();
    *b->at = b->byte;
    b->reached = true;
    reached_now[b - blocks] = 1;
    *rip = (greg_t)(uintptr_t)b->at;
}

void watch_blocks(void) {
    const char *name = getenv("BLOCKS");
    FILE *f = name ? fopen(name, "r") : NULL;
    int64_t distance;
    if (!f) return;
    while (blocks_len < MAX_BLOCKS && fscanf(f, "%" SCNd64 "%*[^\n]", &distance) == 1)
        blocks[blocks_len++].at = (uint8_t *)(uintptr_t)podrulka_build + distance;
    fclose(f);
    qsort(blocks, blocks_len, sizeof *blocks, by_place);
    struct sigaction action = { .sa_sigaction = on_breakpoint, .sa_flags = SA_SIGINFO };
    sigaction(SIGTRAP, &action, NULL);
    for (size_t i = 0; i < blocks_len; i++) {
        void *page = (void *)((uintptr_t)blocks[i].at & ~(uintptr_t)(PAGE - 1));
        if (mprotect(page, PAGE, PROT_READ | PROT_WRITE | PROT_EXEC)) perror("blocks"), abort();
        blocks[i].byte = *blocks[i].at;
        *blocks[i].at = BREAKPOINT;
    }
}

void print_blocks(void) {
    size_t reached = 0;
    if (blocks_len == 0) return;
    for (size_t i = 0; i < blocks_len; i++) reached += blocks[i].reached;
    printf("blocks of the archive reached: %zu of %zu\n", reached, blocks_len);
    for (size_t i = 0; i < blocks_len; i++)
        if (!blocks[i].reached) printf("block not reached: %" PRId64 "\n", (int64_t)(blocks[i].at - (uint8_t *)(uintptr_t)podrulka_build));
}
