/* Rules that leave the chosen argument open, a default rule among them.  usage: groups
 *
 * podrulka_build refuses a clause that has no key at c (number 8). So the rules are parted into groups, and each group whose rules all have
 * a key at some argument gets an index of its own: group c has the rules whose first key is at argument c. Rules that are open
 * everywhere have no index: they agree with every call. A call is walked through each group's index, and the selected offsets are merged.
 *
 * A group is the same code with some of the starts. Its offsets are start plus 1, so they are those of the whole, and rising offsets are
 * source order. A clause of the group ends at the group's next start, so it may reach over rules that are left out; reading stops at
 * its first body record, so its keys are the same if it has a body record of its own. The check of all the starts together says so (number
 * 5 where one has none), and the program makes it first. */
#include <podrulka.h>
#include <inttypes.h>
#include <stdio.h>
#include <string.h>

enum { ARITY = 2, RULES = 8, RECORDS = RULES * (ARITY + 1), ROOM = 256, OPEN = 0 };
enum { ALEXA = 1, VENICE, RED, CAMERAS };
enum { LOGC = 1, SLOG, PQ, REC709, CURVES };

static const char *const cameras[CAMERAS] = { "any", "alexa", "venice", "red" };
static const char *const curves[CURVES] = { "any", "logc", "slog", "pq", "rec709" };

/* the rulebook: camera and curve of each rule */
static const struct { uint8_t camera, curve; } rules[RULES] = {
    { OPEN, OPEN },   /* 1: for every shot, as a clip to the legal range */
    { ALEXA, LOGC },
    { OPEN, PQ },
    { VENICE, SLOG },
    { ALEXA, OPEN },
    { OPEN, SLOG },
    { VENICE, PQ },
    { OPEN, OPEN },   /* 8: the default rule */
};

struct group {
    uint32_t starts[RULES];
    size_t rules, count; /* starts of the group; records of its index */
    uint8_t index[ROOM * PODRULKA_RECORD];
};

static uint8_t code[RECORDS * PODRULKA_RECORD];
static size_t code_len;
static uint32_t starts[RULES];
static struct group groups[ARITY + 1]; /* groups[c - 1] is group c; the last one has the rules that are open everywhere */

static void put(uint8_t *at, uint8_t kind, uint8_t sub, uint8_t half, uint8_t word, uint8_t bits) {
    memset(at, 0, PODRULKA_RECORD);
    at[0] = kind, at[1] = sub, at[2] = half, at[4] = word, at[8] = bits;
}

static void add(uint8_t kind, uint8_t half, uint8_t word, uint8_t bits) {
    put(code + code_len, kind, 0, half, word, bits);
    code_len += PODRULKA_RECORD;
}

/* Whether the rule that begins at start has a key at argument c, by the code alone: the rule by itself is refused with 8 if not. */
static int has_key(const uint32_t *start, uint64_t c) {
    return podrulka_size(code, code_len, start, 1, ARITY, 0, 0, c, NULL, 0) == PODRULKA_OK;
}

/* The offset of a rule as its number in the rulebook. */
static int number(uint32_t offset) {
    int i = 0;
    while (starts[i] + 1 != offset) i++;
    return i + 1;
}

/* Puts offsets into a rising list, and gives its new length. */
static size_t merge(uint32_t *list, size_t length, const uint32_t *offsets, size_t more) {
    for (size_t k = 0; k < more; k++) {
        size_t at = length++;
        for (; at > 0 && list[at - 1] > offsets[k]; at--) list[at] = list[at - 1];
        list[at] = offsets[k];
    }
    return length;
}

/* Looks a call up in every group, and gives how many rules were selected; -1 after a refusal. */
static int look_up(const uint8_t *call, size_t call_len, uint32_t *selected) {
    size_t length = 0;
    for (int g = 0; g <= ARITY; g++) {
        uint32_t out[RULES];
        size_t more = 0;
        if (g == ARITY) /* open everywhere: always selected */
            for (; more < groups[g].rules; more++) out[more] = groups[g].starts[more] + 1;
        else if (groups[g].rules) {
            uint64_t w[PODRULKA_WALKED_PLACES];
            if (podrulka_walk(code, code_len, groups[g].starts, groups[g].rules, ARITY, 0, 0, call, call_len, groups[g].index, sizeof groups[g].index,
                              groups[g].count, out, RULES, w, PODRULKA_WALKED_PLACES))
                return -1;
            groups[g].count = (size_t)w[PODRULKA_WALKED_RECORDS];
            more = (size_t)w[PODRULKA_WALKED_COUNT];
        }
        length = merge(selected, length, out, more);
    }
    return (int)length;
}

int main(void) {
    for (int i = 0; i < RULES; i++) {
        starts[i] = (uint32_t)(code_len / PODRULKA_RECORD);
        if (rules[i].camera != OPEN) add(PODRULKA_GET_CONSTANT, PODRULKA_ATOM, 1, rules[i].camera);
        if (rules[i].curve != OPEN) add(PODRULKA_GET_CONSTANT, PODRULKA_ATOM, 2, rules[i].curve);
        add(PODRULKA_BODY_RECORD, 0, 0, 0);
    }

    /* all rules together: the code is in order, but it has no index on argument 1 */
    uint64_t fault[PODRULKA_LOCATED_PLACES];
    podrulka_locate(code, code_len, starts, RULES, ARITY, 0, 0, 0, fault, PODRULKA_LOCATED_PLACES);
    printf("all rules, checked: %s\n", podrulka_message((uint32_t)fault[PODRULKA_LOCATED_NUMBER]));
    if (fault[PODRULKA_LOCATED_NUMBER]) return 1;
    uint32_t refused = podrulka_build(code, code_len, starts, RULES, ARITY, 0, 0, 1, groups[0].index, sizeof groups[0].index, NULL, 0);
    printf("all rules, built on argument 1: refused with %" PRIu32 ", %s\n", refused, podrulka_message(refused));

    /* each rule to the group of its first key */
    for (int i = 0; i < RULES; i++) {
        int g = 0;
        while (g < ARITY && !has_key(&starts[i], (uint64_t)g + 1)) g++;
        groups[g].starts[groups[g].rules++] = starts[i];
    }
    for (int g = 0; g <= ARITY; g++) {
        if (g < ARITY) printf("group %d: rules", g + 1);
        else printf("open everywhere: rules");
        for (size_t k = 0; k < groups[g].rules; k++) printf(" %d", number(groups[g].starts[k] + 1));
        if (g < ARITY && groups[g].rules) {
            uint64_t b[PODRULKA_BUILT_PLACES];
            if (podrulka_build(code, code_len, groups[g].starts, groups[g].rules, ARITY, 0, 0, (uint64_t)g + 1, groups[g].index, sizeof groups[g].index, b,
                               PODRULKA_BUILT_PLACES))
                return 1;
            groups[g].count = (size_t)b[PODRULKA_BUILT_COUNT];
            printf(", an index of %zu records", groups[g].count);
        }
        printf("\n");
    }

    /* every call: the selected rules, and which of them agree, found by trying each rule by itself */
    int calls = 0;
    for (uint8_t camera = 0; camera < CAMERAS; camera++)
        for (uint8_t curve = 0; curve < CURVES; curve++, calls++) {
            uint8_t call[ARITY * PODRULKA_RECORD];
            put(call, 0, camera ? PODRULKA_ATOM : PODRULKA_UNBOUND, 0, 0, camera);
            put(call + PODRULKA_RECORD, 0, curve ? PODRULKA_ATOM : PODRULKA_UNBOUND, 0, 0, curve);
            uint32_t selected[RULES];
            int length = look_up(call, sizeof call, selected), at = 0;
            if (length < 0) return 1;
            printf("(%s, %s):", cameras[camera], curves[curve]);
            for (int i = 0; i < RULES; i++) {
                uint64_t seen[PODRULKA_WITNESSED_PLACES];
                podrulka_witness(code, code_len, &starts[i], 1, ARITY, 0, 0, call, sizeof call, seen, PODRULKA_WITNESSED_PLACES);
                int agrees = seen[PODRULKA_WITNESSED_OFFSET] == starts[i] + 1;
                int is_selected = at < length && selected[at] == starts[i] + 1;
                if (is_selected) at++;
                if (agrees && !is_selected) {
                    printf(" rule %d agrees and was not selected\n", i + 1);
                    return 1;
                }
                if (is_selected) printf(agrees ? " %d" : " %d (does not agree)", i + 1);
            }
            printf("\n");
            if (at != length) return 1; /* a rule twice, or out of order */
        }
    printf("%d calls: every rule that agrees was selected, once and in source order\n", calls);
    return 0;
}
