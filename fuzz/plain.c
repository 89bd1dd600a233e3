/* Keys, refusal numbers and well-formed indexes in plain C. The sections are document 01's. */
#include "plain.h"
#include <string.h>

enum { BODY, PROLOGUE, ARGLESS, STRUCTURE, LIST, CONSTANT, PARTIAL_STRING };

struct record get(const uint8_t *at) {
    struct record r = { at[0], at[1], 0, 0, 0 };
    for (int i = 0; i < 2; i++) r.half = (uint16_t)(r.half | at[2 + i] << 8 * i);
    for (int i = 0; i < 4; i++) r.word |= (uint32_t)at[4 + i] << 8 * i;
    for (int i = 0; i < 8; i++) r.bits |= (uint64_t)at[8 + i] << 8 * i;
    return r;
}

void put(uint8_t *at, struct record r) {
    at[0] = r.kind;
    at[1] = r.sub;
    for (int i = 0; i < 2; i++) at[2 + i] = (uint8_t)(r.half >> 8 * i);
    for (int i = 0; i < 4; i++) at[4 + i] = (uint8_t)(r.word >> 8 * i);
    for (int i = 0; i < 8; i++) at[8 + i] = (uint8_t)(r.bits >> 8 * i);
}

/* section 1 */
static int class_of(uint8_t opcode) {
    if (opcode <= 9) return PROLOGUE;
    if (opcode >= 32 && opcode <= 38) return ARGLESS;
    if (opcode >= 16 && opcode <= 19) return STRUCTURE + (opcode - 16);
    return BODY;
}

static bool keyed(struct record r) { return class_of(r.kind) >= STRUCTURE; }

static bool is_body(struct record r) { return class_of(r.kind) == BODY || (keyed(r) && (r.sub & 3)); }

static struct record code_at(const struct program *p, size_t at) { return get(p->code + RECORD * at); }

/* a clause runs to the next start or the end */
static size_t clause_end(const struct program *p, size_t i) {
    return i + 1 < p->starts_len ? p->starts[i + 1] : p->code_len / RECORD;
}

/* number 6 */
static bool key_wrong(struct record r) {
    if (!keyed(r)) return false;
    if (r.sub & 0xfc) return true;
    if (r.sub & 3) return false;
    if (class_of(r.kind) == CONSTANT) return r.half < 1 || r.half > 3;
    if (class_of(r.kind) == STRUCTURE) return r.half < 1 || r.half > 255;
    return false;
}

/* 5 to 7 of one clause */
static uint32_t clause_number(const struct program *p, size_t i) {
    size_t end = clause_end(p, i), body = p->starts[i];
    while (body < end && !is_body(code_at(p, body))) body++;
    if (body == end) return 5;
    uint32_t last = 0;
    for (size_t at = p->starts[i]; at <= body; at++) {
        struct record r = code_at(p, at);
        if (key_wrong(r)) return 6;
        if (!keyed(r) || is_body(r)) continue;
        if (r.word == 0 || r.word > p->arity || r.word <= last) return 7;
        last = r.word;
    }
    return 0;
}

static bool starts_wrong(const struct program *p) {
    if (p->starts_len < 1 || p->starts_len > 1024) return true;
    for (size_t i = 0; i < p->starts_len; i++) {
        if (p->starts[i] >= p->code_len / RECORD) return true;
        if (i > 0 && p->starts[i] <= p->starts[i - 1]) return true;
    }
    return false;
}

/* 3 to 7 */
static uint32_t clauses_number(const struct program *p) {
    if (p->code_len % RECORD || p->code_len / RECORD > 32768) return 3;
    if (starts_wrong(p)) return 4;
    for (size_t i = 0; i < p->starts_len; i++) {
        uint32_t n = clause_number(p, i);
        if (n) return n;
    }
    return 0;
}

static bool arity_wrong(const struct program *p) { return p->arity < 1 || p->arity > 32; }

uint32_t code_number(const struct program *p) { return arity_wrong(p) ? 1 : clauses_number(p); }

uint32_t build_number(const struct program *p, uint64_t c) {
    if (arity_wrong(p)) return 1;
    if (c == 0 || c > p->arity) return 2;
    uint32_t n = clauses_number(p);
    for (size_t i = 0; !n && i < p->starts_len; i++)
        if (clause_key(p, i, (uint32_t)c).sort == 0) n = 8;
    return n;
}

/* The record itself is wrong, or its register beside those before it in the clause: what 6 and 7 say of one record, by looking back. */
static bool record_wrong(const struct program *p, size_t start, size_t at) {
    struct record r = code_at(p, at);
    if (key_wrong(r)) return true;
    if (!keyed(r) || is_body(r)) return false;
    bool risen = r.word >= 1 && r.word <= p->arity;
    for (size_t before = start; before < at; before++)
        if (keyed(code_at(p, before)) && code_at(p, before).word >= r.word) risen = false;
    return !risen;
}

static size_t first_body(const struct program *p, size_t i) {
    size_t at = p->starts[i];
    while (at < clause_end(p, i) && !is_body(code_at(p, at))) at++;
    return at;
}

/* 5 to 7 of clause i, with the record */
static struct fault clause_fault(const struct program *p, size_t i) {
    size_t body = first_body(p, i);
    if (body == clause_end(p, i)) return (struct fault){ 5, i, body - 1 };
    for (size_t at = p->starts[i]; at <= body; at++)
        if (record_wrong(p, p->starts[i], at)) return (struct fault){ key_wrong(code_at(p, at)) ? 6 : 7, i, at };
    return (struct fault){ 0, 0, 0 };
}

struct fault fault_of(const struct program *p, uint64_t c) {
    struct fault f = { c ? build_number(p, c) : code_number(p), 0, 0 };
    if (f.number < 5) return f;
    for (size_t i = 0; i < p->starts_len; i++)
        if (clause_fault(p, i).number) return clause_fault(p, i);
    for (size_t i = 0; i < p->starts_len; i++)
        if (clause_key(p, i, (uint32_t)c).sort == 0) return (struct fault){ 8, i, first_body(p, i) };
    return (struct fault){ 0, 0, 0 };
}

/* section 2 */
struct key clause_key(const struct program *p, size_t i, uint32_t argument) {
    struct key none = { 0, 0, 0 };
    for (size_t at = p->starts[i]; at < clause_end(p, i); at++) {
        struct record r = code_at(p, at);
        if (is_body(r)) break;
        if (!keyed(r) || r.word != argument) continue;
        switch (class_of(r.kind)) {
        case CONSTANT: return (struct key){ r.half, 0, r.bits };
        case STRUCTURE: return (struct key){ PODRULKA_STRUCTURE, r.half, r.bits };
        default: return (struct key){ PODRULKA_LIST, 0, 0 };
        }
    }
    return none;
}

static bool same(struct key a, struct key b) { return a.sort == b.sort && a.arity == b.arity && a.bits == b.bits; }

/* section 3, counted: a line's own record, its offsets, and its tables above c */
static size_t line_count(const struct program *p, uint32_t c, const size_t *clauses, size_t n) {
    size_t count = 1 + n;
    for (uint32_t a = c + 1; a <= p->arity; a++) {
        size_t open = 0;
        if (p->mask >> (a - 1) & 1) continue;
        for (size_t i = 0; i < n; i++) open += clause_key(p, clauses[i], a).sort == 0;
        if (open == 0) count++;
        else if (p->flags & PODRULKA_EXTENSIBLE) count += 1 + open;
    }
    return count;
}

size_t built_count(const struct program *p, uint32_t c) {
    static size_t clauses[PODRULKA_MAX_CLAUSES];
    size_t n, count;
    bool dynamic = p->flags & PODRULKA_DYNAMIC, list = false;
    for (n = 0; n < p->starts_len; n++) clauses[n] = n;
    count = line_count(p, c, clauses, n) + 1; /* line 0 and its switch; then its entries, each with its line */
    for (size_t i = 0; i < p->starts_len; i++) {
        struct key k = clause_key(p, i, c);
        n = 0;
        for (size_t j = 0; j < p->starts_len; j++)
            if (same(k, clause_key(p, j, c))) clauses[n++] = j;
        if (clauses[0] < i) continue; /* an earlier clause's key */
        count += 1 + (n > 1 || dynamic ? line_count(p, c, clauses, n) : 0);
        list |= k.sort == PODRULKA_LIST;
    }
    if (dynamic && !list) count += 1 + line_count(p, c, clauses, 0);
    return count;
}

bool agrees(const struct program *p, size_t i, const uint8_t *call) {
    for (uint32_t a = 1; a <= p->arity; a++) {
        struct record r = get(call + RECORD * (a - 1));
        struct key asked = { r.sub, r.half, r.bits }, kept = clause_key(p, i, a);
        if (asked.sort && kept.sort && !same(asked, kept)) return false;
    }
    return true;
}

/* section 5 and number 10 */
static bool argument_wrong(struct record r) {
    if (r.kind || r.word || r.sub > PODRULKA_LIST) return true;
    if (r.sub == PODRULKA_STRUCTURE) return r.half < 1 || r.half > 255;
    return r.half || ((r.sub == PODRULKA_UNBOUND || r.sub == PODRULKA_LIST) && r.bits);
}

uint32_t call_number(const struct program *p, const uint8_t *call, size_t call_len) {
    if (call_len != (size_t)p->arity * RECORD) return 10;
    for (size_t a = 0; a < p->arity; a++)
        if (argument_wrong(get(call + RECORD * a))) return 10;
    return 0;
}

size_t capacity(size_t index_len) { return index_len / RECORD < 65535 ? index_len / RECORD : 65535; }

bool known(const struct program *p, uint32_t offset) {
    for (size_t i = 0; i < p->starts_len; i++)
        if ((uint64_t)p->starts[i] + 1 == offset) return true;
    return false;
}

/* Number 12, line by line and table by table. */
struct index {
    const struct program *p;
    const uint8_t *bytes;
    size_t count, at, lines;
};

enum { LINE = 1, SWITCH, ON_DEMAND, DEAD, ENTRY, OFFSET, DEAD_CLAUSE };

static struct record peek(const struct index *x, size_t at) {
    struct record end = { 0, 0, 0, 0, 0 };
    return at < x->count ? get(x->bytes + RECORD * at) : end;
}

static bool table(struct record r) { return r.kind >= SWITCH && r.kind <= DEAD; }

/* the place of line number n, the count if there is none */
static size_t line_place(const struct index *x, uint64_t n) {
    size_t at = 0;
    while (at < x->count && (peek(x, at).kind != LINE || n-- > 0)) at++;
    return at;
}

/* a pointer of the switch on argument a in line number n */
static bool pointer_ok(const struct index *x, size_t n, uint32_t a, uint32_t word) {
    bool dynamic = x->p->flags & PODRULKA_DYNAMIC;
    if (!(word >> 31)) return !dynamic && known(x->p, word);
    uint32_t distance = word & 0x7fffffff;
    if (distance == 0 || (uint64_t)n + distance >= x->lines) return false;
    for (size_t at = line_place(x, (uint64_t)n + distance) + 1; at < x->count && peek(x, at).kind != LINE; at++)
        if (table(peek(x, at)) && peek(x, at).half <= a) return false;
    return true;
}

static bool entry_ok(struct record r) {
    if (r.sub >= PODRULKA_ATOM && r.sub <= PODRULKA_FLOAT) return r.half == 0;
    if (r.sub == PODRULKA_LIST) return r.half == 0 && r.bits == 0;
    return r.sub == PODRULKA_STRUCTURE;
}

/* literals, list, structures */
static int group(struct record r) { return r.sub <= PODRULKA_FLOAT ? 1 : r.sub == PODRULKA_LIST ? 2 : 3; }

/* sort, arity and bits of two records */
static bool same_fields(const uint8_t *a, const uint8_t *b) { return a[1] == b[1] && !memcmp(a + 2, b + 2, 2) && !memcmp(a + 8, b + 8, 8); }

static bool entries_ok(struct index *x, size_t n, uint32_t a) {
    size_t first = x->at;
    for (; peek(x, x->at).kind == ENTRY; x->at++) {
        struct record r = peek(x, x->at);
        if (!entry_ok(r) || !pointer_ok(x, n, a, r.word)) return false;
        if (x->at > first && group(r) < group(peek(x, x->at - 1))) return false;
        for (size_t j = first; j < x->at; j++)
            if (same_fields(x->bytes + RECORD * j, x->bytes + RECORD * x->at)) return false;
    }
    return true;
}

/* a run of records of one kind with rising known offsets */
static bool offsets_ok(struct index *x, int kind, uint8_t low, uint8_t high) {
    uint32_t last = 0;
    for (; peek(x, x->at).kind == kind; x->at++) {
        struct record r = peek(x, x->at);
        if (r.sub < low || r.sub > high || r.half || r.bits || r.word <= last || !known(x->p, r.word)) return false;
        last = r.word;
    }
    return true;
}

static bool line_ok(struct index *x, size_t n) {
    bool dynamic = x->p->flags & PODRULKA_DYNAMIC;
    struct record head = peek(x, x->at++);
    if (head.kind != LINE || head.sub != dynamic || head.half || head.word != n || head.bits) return false;
    uint32_t last = 0;
    while (table(peek(x, x->at))) {
        struct record t = peek(x, x->at++);
        if (t.sub || t.word || t.bits || t.half <= last || t.half > x->p->arity) return false;
        last = t.half;
        if (t.kind == SWITCH && !entries_ok(x, n, last)) return false;
        if (t.kind == DEAD && !offsets_ok(x, DEAD_CLAUSE, 0, 0)) return false;
    }
    size_t first = x->at;
    if (!offsets_ok(x, OFFSET, dynamic ? 6 : 1, dynamic ? 7 : 5)) return false;
    return dynamic || x->at > first;
}

bool well_formed(const struct program *p, const uint8_t *bytes, size_t index_len, size_t count) {
    if (count < 1 || count > capacity(index_len)) return false;
    struct index x = { p, bytes, count, 0, 0 };
    for (size_t at = 0; at < count; at++) x.lines += peek(&x, at).kind == LINE;
    size_t n = 0;
    while (x.at < count)
        if (!line_ok(&x, n++)) return false;
    return true;
}
