/* The format of an input, made so that small changes of the bytes are small changes of what the archive is handed.
 *
 * 16 bytes of head, then items of 4 bytes; what is missing is 0, odd bytes at the end are left out.
 *
 *  0 arity; 250 to 255 are large numbers        8 places of the short result arrays (low and high half byte)
 *  1 c; 250 to 255 are large numbers            9 1 to 8: the last call is so many bytes or records shorter or longer
 *  2 flags; bits 4 to 7 are the flags 28 to 31  10 what the count of the edited index is changed to
 *  3 mask, repeated four times                  11 bit 0: buffers begin, not end, at a fence; 1: edits begin with an
 *  4 room of the index: below 160 that many       empty index; 2: with the fresh, not the walked one
 *    records more than needed, to 199 fewer     12 from 224 on: the code is laid several times
 *  5 odd bytes of index and of code             13 what a copy's key bits differ by from the copy's before
 *  6 from 240 on: starts damaged                14 from 250 on: the code is made very long
 *  7 out: 0 to 127 places more than clauses,    15 what the buffers are painted with
 *    from 240 on fewer
 *
 * Items by the upper bits of their first byte:
 *  00, 01: a code record (01: a clause starts here). Bits 3 to 5 the class (7: the opcode is byte 3), bits 0 to 2 the opcode in it;
 *      byte 1 register, byte 2 key bits (lower half byte, shifted by 4 times the upper one), byte 3 sort or arity, from 240 on sub.
 *  10: an argument of a call (bit 5: of the next call). Bits 0 to 2 the sort, 6: the key of clause byte 1 there, 7: the sort is byte 1;
 *      bits 3 and 4 both set: a field damaged; byte 2 key bits, byte 3 arity.
 *  11: an edit of the index: bits 0 to 5 what is done, byte 1 the record, bytes 2 and 3 values. */
#include "input.h"
#include <string.h>

static const uint16_t halves[] = { 0, 4, 5, 255, 256, 257, 65535, 32768 };
static const uint8_t subs[] = { 1, 2, 3, 4, 5, 8, 16, 32, 64, 128, 255, 6, 129, 130, 252, 7 };
static const uint64_t large[] = { 256, 1 << 16, 0x80000000, 0xffffffff, 0x100000001, UINT64_MAX };

static uint64_t number(uint8_t b) { return b < 250 ? b : large[b - 250]; }

static uint64_t bits(uint8_t b) { return (uint64_t)(b & 15) << 4 * (b >> 4); }

static uint8_t opcode(const uint8_t *item) {
    static const uint8_t body[] = { 64, 10, 15, 20, 31, 39, 240, 255 };
    uint8_t k = item[0] & 7;
    switch (item[0] >> 3 & 7) {
    case 0: return body[k];
    case 1: return (uint8_t)(k < 7 ? k : 7 + item[1] % 3);
    case 2: return (uint8_t)(32 + k % 7);
    case 3: return 16;
    case 4: return 17;
    case 5: return 18;
    case 6: return 19;
    default: return item[3];
    }
}

static uint16_t half(uint8_t b, uint8_t sorts) {
    return b < 192 || b >= 240 ? (uint16_t)(1 + b % sorts) : halves[b % 8];
}

static struct record code_record(const uint8_t *item) {
    static const uint32_t high[] = { 0, 0, 0x100, 0x80000000 };
    struct record r = { opcode(item), 0, 0, 0, bits(item[2]) };
    r.sub = item[3] >= 240 && (item[0] >> 3 & 7) != 7 ? subs[item[3] & 15] : 0;
    r.half = half(item[3], r.kind == 18 ? 3 : 4);
    r.word = (item[1] & 63) | high[item[1] >> 6];
    return r;
}

static void add_code(struct input *in, const uint8_t *item, uint64_t more) {
    if (in->code_len / RECORD >= 4096) return;
    struct record r = code_record(item);
    if (r.kind == 16 || r.kind == 18) r.bits += more;
    if (item[0] & 0x40 && in->starts_len < MAX_STARTS) in->starts[in->starts_len++] = (uint32_t)(in->code_len / RECORD);
    put(in->code + in->code_len, r);
    in->code_len += RECORD;
}

static void add_argument(struct input *in, const uint8_t *item) {
    if (item[0] & 0x20 || in->calls_len == 0) {
        if (in->calls_len == MAX_CALLS) return;
        in->arguments[in->calls_len++] = 0;
    }
    size_t k = in->calls_len - 1;
    if (in->arguments[k] > PODRULKA_MAX_ARITY) return;
    memcpy(in->calls[k][in->arguments[k]++], item, ITEM);
}

static void add_items(struct input *in, const uint8_t *data, size_t size) {
    static const uint16_t copies[] = { 2, 3, 4, 6, 8, 16, 32, 1025 };
    size_t n = in->head[AT_COPIES] < 224 ? 1 : copies[in->head[AT_COPIES] % 8];
    for (size_t k = 0; k < n; k++)
        for (size_t at = HEAD; at + ITEM <= size; at += ITEM)
            if (data[at] < 0x80) add_code(in, data + at, k * in->head[AT_STEP]);
    for (size_t at = HEAD; at + ITEM <= size; at += ITEM) {
        if (data[at] >> 6 == 2) add_argument(in, data + at);
        if (data[at] >> 6 == 3 && in->edits_len < MAX_EDITS) memcpy(in->edits[in->edits_len++], data + at, ITEM);
    }
}

static void damage_starts(struct input *in) {
    uint32_t *s = in->starts, end = (uint32_t)(in->code_len / RECORD);
    size_t n = in->starts_len;
    switch (in->head[AT_STARTS]) {
    case 240: in->starts_len = 0; break;
    case 241: s[n] = n ? s[n - 1] : 0, in->starts_len++; break;
    case 242: s[n] = end, in->starts_len++; break;
    case 243: s[n] = UINT32_MAX, in->starts_len++; break;
    case 244: if (n > 1) s[n - 1] = s[0]; break;
    case 245: if (n) s[0] = s[n - 1]; break;
    case 246: if (n) s[n - 1] |= 0x80000000; break;
    case 247: if (n) s[0]++; break;
    case 248: s[n] = end - 1, in->starts_len++; break;
    case 249:
        for (uint32_t i = 0; i < MAX_STARTS; i++) s[i] = i;
        in->starts_len = MAX_STARTS;
        break;
    case 250: s[n] = n ? s[n - 1] + 1 : 0, in->starts_len++; break;
    default: break;
    }
}

/* longer code: from 250 on so many records that 32,768 is passed, just not passed, or passed by some bytes; the records are body records */
static void lengthen(struct input *in) {
    static const size_t records[] = { 32768, 32769, 32767, 32768, 5000, 32768 };
    if (in->head[AT_LONG_CODE] < 250) return;
    size_t len = records[in->head[AT_LONG_CODE] - 250] * RECORD;
    memset(in->code + in->code_len, 64, len - in->code_len);
    in->code_len = len;
}

void take_apart(const uint8_t *data, size_t size, struct input *in) {
    static const uint8_t odd[] = { 0, 0, 0, 0, 0, 0, 0, 0, 0, 0, 0, 0, 0, 1, 8, 15 };
    memset(in->head, 0, HEAD);
    memcpy(in->head, data, size < HEAD ? size : HEAD);
    in->code_len = in->starts_len = in->calls_len = in->edits_len = 0;
    in->arity = (uint32_t)number(in->head[AT_ARITY]);
    in->chosen = number(in->head[AT_CHOSEN]);
    in->flags = (in->head[AT_FLAGS] & 15) | (uint32_t)(in->head[AT_FLAGS] >> 4) << 28;
    in->mask = in->head[AT_MASK] * 0x01010101u;
    add_items(in, data, size);
    damage_starts(in);
    lengthen(in);
    in->code_len += odd[in->head[AT_ODD] >> 4];
    if (in->calls_len == 0) in->arguments[in->calls_len++] = 0;
}

static struct record argument(const uint8_t *item, const struct program *p, bool checked, uint32_t a) {
    struct record r = { 0, item[0] & 7, 0, 0, bits(item[2]) };
    if (r.sub == 6) {
        struct key k = { 0, 0, 0 };
        if (checked) k = clause_key(p, item[1] % p->starts_len, a);
        r.sub = (uint8_t)k.sort, r.half = (uint16_t)k.arity, r.bits = k.bits;
    } else {
        if (r.sub == 7) r.sub = item[1];
        if (r.sub == PODRULKA_STRUCTURE) r.half = half(item[3], 4);
        if (r.sub == PODRULKA_UNBOUND || r.sub == PODRULKA_LIST) r.bits = 0;
    }
    if ((item[0] >> 3 & 3) == 3) switch (item[1] & 3) {
        case 0: r.kind = item[3]; break;
        case 1: r.half ^= item[3]; break;
        case 2: r.word = item[3] * 0x01000001u; break;
        default: r.bits = item[3]; break;
        }
    return r;
}

size_t make_call(const struct input *in, size_t k, const struct program *p, bool checked, uint8_t *call) {
    static const int change[] = { 0, -1, 1, -8, 8, -16, 16, -15, 15 };
    size_t n = in->arity <= PODRULKA_MAX_ARITY ? in->arity : PODRULKA_MAX_ARITY;
    memset(call, 0, RECORD * (PODRULKA_MAX_ARITY + 2));
    for (size_t a = 0; a < in->arguments[k] && a < n; a++) put(call + RECORD * a, argument(in->calls[k][a], p, checked, (uint32_t)a + 1));
    long len = (long)n * RECORD;
    if (k == in->calls_len - 1 && in->head[AT_CALL_LEN] <= 8) len += change[in->head[AT_CALL_LEN]];
    return len < 0 ? 0 : (size_t)len;
}

size_t room(const struct input *in, size_t need) {
    size_t v = in->head[AT_ROOM], records = need + v;
    if (v >= 160) records = need >= v - 159 ? need - (v - 159) : 0;
    if (v >= 200) records = need + (v - 199) * 32;
    if (v >= 253) records = PODRULKA_MAX_INDEX + (v - 254);
    if (records > MAX_INDEX - 1) records = MAX_INDEX - 1;
    return records * RECORD + (in->head[AT_ODD] & 15);
}

size_t out_length(const struct input *in) {
    size_t v = in->head[AT_OUT], n = in->starts_len;
    if (v >= 240) return n >= v - 239 ? n - (v - 239) : 0;
    return n + v % 128;
}

size_t claimed_count(const struct input *in, size_t count, size_t index_len) {
    size_t v = in->head[AT_COUNT];
    if (v < 16) return count + v;
    if (v < 32) return count >= v - 15 ? count - (v - 15) : 0;
    switch (v) {
    case 32: return 0;
    case 33: return capacity(index_len);
    case 34: return capacity(index_len) + 1;
    case 35: return SIZE_MAX;
    case 36: return (size_t)1 << 32;
    case 37: return ((size_t)1 << 60) + count;
    case 38: return PODRULKA_MAX_INDEX;
    case 39: return PODRULKA_MAX_INDEX + 1;
    default: return count;
    }
}

static uint32_t start_of(const struct program *p, uint8_t i) { return p->starts_len ? p->starts[i % p->starts_len] + 1 : i; }

static struct record new_record(const struct program *p, uint8_t b, uint8_t c) {
    struct record r = { b & 7, 0, 0, 0, 0 };
    uint8_t sub = b >> 3 & 7;
    switch (r.kind) {
    case 1: r.sub = sub & 1, r.word = c; break;
    case 2: case 3: case 4: r.half = c; break;
    case 5: r.sub = sub, r.bits = b >> 6, r.word = c & 0x80 ? 0x80000000u | (c & 0x7f) : start_of(p, c); break;
    case 6: r.sub = sub, r.word = start_of(p, c); break;
    case 7: r.word = start_of(p, c); break;
    default: r.word = c; break;
    }
    return r;
}

/* Entries of a switch, at place i: from 2 to 1,100 of them with the multiples of a number as their keys, so that they fall into buckets of
 * their own or all into one; b bit 7: the last has the first one's key. Gives back how many. */
static size_t add_entries(const struct program *p, uint8_t *index, size_t count, size_t i, uint8_t b, uint8_t c) {
    static const size_t runs[] = { 2, 31, 33, 40, 70, 150, 1023, 1100 };
    static const uint64_t steps[] = { 1, 1021, 16381, 4294967291 };
    size_t n = runs[b & 7];
    if (count + n + 1 >= MAX_INDEX) return 0;
    memmove(index + RECORD * (i + n), index + RECORD * i, RECORD * (count - i));
    for (size_t k = 0; k < n; k++) {
        struct record r = { 5, (uint8_t)(1 + (b >> 5 & 3)), 0, 0, steps[b >> 3 & 3] * (k == n - 1 && b >> 7 ? 1 : k + 1) };
        r.half = r.sub == PODRULKA_STRUCTURE;
        r.word = c & 0x80 ? 0x80000000u | (c & 0x7f) : start_of(p, c);
        put(index + RECORD * (i + k), r);
    }
    return n;
}

/* fields of one record */
static struct record edited(const struct program *p, struct record r, const uint8_t *e) {
    switch (e[0] & 15) {
    case 0: r.kind = e[2]; break;
    case 1: r.sub = e[2]; break;
    case 2: r.half = e[2]; break;
    case 3: r.half = (uint16_t)(r.half + e[2] * 256 + e[3]); break;
    case 4: r.word ^= 0x80000000; break;
    case 5: r.word += (uint32_t)(int8_t)e[2]; break;
    case 6: r.word = start_of(p, e[2]); break;
    case 7: r.word = 0x80000000 | e[2]; break;
    case 8: r.bits = bits(e[2]); break;
    case 9: r.word = e[2] | (uint32_t)e[3] << 24; break;
    case 10: r.kind = e[2] & 7, r.half = e[3]; break;
    default: r = new_record(p, e[2], e[3]); break;
    }
    return r;
}

size_t edit_index(const struct input *in, const struct program *p, uint8_t *index, size_t count) {
    for (size_t k = 0; k < in->edits_len; k++) {
        const uint8_t *e = in->edits[k];
        size_t i = count ? e[1] % (count + 1) : 0, j = count ? e[2] % count : 0;
        uint8_t *at = index + RECORD * i, other[RECORD];
        memcpy(other, index + RECORD * j, RECORD);
        if ((e[0] & 0x3c) == 0x24) {
            count += add_entries(p, index, count, i, e[2], e[3]);
        } else if (e[0] & 0x20 && !(e[0] & 0x10)) { /* a record more, at i */
            if (count + 1 >= MAX_INDEX) continue;
            memmove(at + RECORD, at, RECORD * (count++ - i));
            if (e[0] & 8) memcpy(at, other, RECORD);
            else put(at, new_record(p, e[2], e[3]));
        } else if (i == count) {
            continue;
        } else if (!(e[0] & 0x20)) {
            put(at, edited(p, get(at), e));
        } else if (e[0] & 8) { /* two records change places */
            memcpy(index + RECORD * j, at, RECORD), memcpy(at, other, RECORD);
        } else if (e[0] & 4) {
            at[e[2] >> 3 & 15] ^= (uint8_t)(1 << (e[2] & 7));
        } else {
            memmove(at, at + RECORD, RECORD * (--count - i));
        }
    }
    return count;
}
