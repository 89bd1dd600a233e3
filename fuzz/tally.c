#include "tally.h"
#include <inttypes.h>
#include <stdio.h>
#include <string.h>

enum { VALUES = 64, NUMBERS = 13 };

/* libFuzzer takes these bytes as counters beside those of the compiled-in coverage */
__attribute__((section("__libfuzzer_extra_counters"))) static uint8_t counters[FEATURES * VALUES];

static uint64_t numbers[CALL_KINDS][NUMBERS], cases[CALL_KINDS][5][2], executions;

static const char *const names[CALL_KINDS] = { "build", "walk, built", "walk, handed in", "witness", "size", "locate, c", "locate" };
/* the numbers that a call may give, locate as what refuses: bit n for number n; the code of a built index has passed 1 to 9, and the index is
 * well formed */
static const uint32_t due[CALL_KINDS] = { 0x3ff, 0xc01, 0x1cfb, 0x4fb, 0x1ff, 0x1ff, 0xfb };

void seen(enum feature subject, size_t value) {
    uint8_t *c = &counters[(size_t)subject * VALUES + (value < VALUES ? value : VALUES - 1)];
    if (*c < 255) ++*c;
}

size_t rough(size_t value) {
    size_t power = 8;
    if (value < power) return value;
    while (value >>= 1) power++;
    return power;
}

void count_call(enum call_kind k, uint32_t number) {
    numbers[k][number < NUMBERS ? number : 0]++;
    seen((enum feature)(F_NUMBER + k), number);
}

void count_case(enum call_kind k, uint64_t kind, uint64_t mark) {
    if (kind < 5 && mark < 2) cases[k][kind][mark]++;
    seen(F_CASE, k * 16 + kind * 2 + mark);
}

void count_execution(void) { executions++; }

int print_tally(void) {
    int missing = 0;
    printf("executions %" PRIu64 "\n\n%-16s", executions, "number");
    for (int k = 0; k < CALL_KINDS; k++) printf(" %16s", names[k]);
    for (int n = 0; n < NUMBERS; n++) {
        printf("\n%-16d", n);
        for (int k = 0; k < CALL_KINDS; k++) {
            if (due[k] >> n & 1 || numbers[k][n]) printf(" %16" PRIu64, numbers[k][n]);
            else printf(" %16s", "-");
            missing += due[k] >> n & 1 && !numbers[k][n];
        }
    }
    static const char *const what[] = { "", "Fail", "External", "Sequence", "Variadic" };
    for (int m = 0; m < 2; m++)
        for (int c = 1; c < 5; c++) {
            printf("\n%-9s%-7s", what[c], m ? "unst." : "");
            for (int k = 0; k < CALL_KINDS; k++) {
                if (k == WALK_BUILT || k == WALK_HANDED_IN) printf(" %16" PRIu64, cases[k][c][m]);
                else printf(" %16s", "");
            }
            missing += !cases[WALK_HANDED_IN][c][m];
            missing += !cases[WALK_BUILT][c][m] && !(m && c == 4); /* a built index has no table that expands to a dead one */
        }
    printf("\nnumbers and cases not reached: %d\n", missing);
    return missing;
}
