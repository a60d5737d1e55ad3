/* The packed form in plain C: read through 64-bit loads, written through 32-bit stores. */
#include "plain.h"
#include "stamp.h"
#include <string.h>

enum { MOST = 117, REFUSED = 1000 };

static inline uint64_t word_at(const uint8_t *b) {
    uint64_t v;
    memcpy(&v, b, 8);
    return __builtin_bswap64(v);
}

/* The 8 bytes from `at` on, with zeros for those behind the end; len is at least 8. */
static inline uint64_t bytes_at(const uint8_t *b, size_t len, size_t at) {
    if (at + 8 <= len) return word_at(b + at);
    return at < len ? word_at(b + len - 8) << 8 * (at + 8 - len) : 0;
}

/* One name from bit *pos on; *pair tells whether it has s0 and s1. */
static inline bool read_name(name *to, const uint8_t *b, size_t len, size_t bits, size_t *pos, bool *pair) {
    size_t at = *pos;
    unsigned n = (unsigned)(bytes_at(b, len, at / 8) << at % 8 >> 60) + 1;
    uint64_t before = ~UINT64_C(0), last = 0;
    bool two = false;
    at += 4;
    for (unsigned k = 0; k < n; k++) {
        if (at > bits) return false;
        uint64_t v = bytes_at(b, len, at / 8) << at % 8, size = v >> 59;
        if (size > DIGITS) return false;
        uint64_t rest = ~UINT64_C(0) >> size, s = (v << 5 & ~rest) | size;
        if (s <= last && k) return false;
        two |= (before ^ s) == rest + 1;
        to->w[k] = before = s;
        last = s | rest;
        at += 5 + size;
    }
    to->n = n;
    *pos = at;
    *pair = two;
    return true;
}

/* 0, 1 or 2. */
static unsigned read_stamp(stamp *to, const uint8_t *b, size_t len) {
    uint8_t few[8] = {0};
    size_t bits = 8 * len, pos = 0, room = len;
    bool pair;
    if (len > MOST || len < 3) return 1;
    unsigned end = b[len - 1];
    if (len < 8) {
        for (size_t k = 0; k < len; k++) few[k] = b[k];
        b = few;
        room = 8;
    }
    if (!read_name(&to->u, b, room, bits, &pos, &pair)) return 1;
    if (pos > bits || !read_name(&to->i, b, room, bits, &pos, &pair)) return 1;
    if (pos > bits || bits - pos > 7 || (end & ((1u << (bits - pos)) - 1))) return 1;
    return pair || !below(&to->u, &to->i) ? 2 : 0;
}

static inline size_t bits_of(const name *n) {
    size_t bits = 4 + 5 * n->n;
    for (unsigned k = 0; k < n->n; k++) bits += length_of(n->w[k]);
    return bits;
}

/* Up to 31 bits that wait, and where they go. */
typedef struct {
    uint8_t *at;
    uint64_t acc;
    unsigned held;
} pen;

static inline void put(pen *p, uint64_t v, unsigned width) {
    p->acc = p->acc << width | v;
    p->held += width;
    if (p->held >= 32) {
        p->held -= 32;
        uint32_t four = __builtin_bswap32((uint32_t)(p->acc >> p->held));
        memcpy(p->at, &four, 4);
        p->at += 4;
    }
}

static inline void put_name(pen *p, const name *n) {
    put(p, n->n - 1, 4);
    for (unsigned k = 0; k < n->n; k++) {
        uint64_t s = n->w[k], size = length_of(s);
        put(p, (size << 24 | s >> 40) >> (24 - size), 5 + (unsigned)size);
    }
}

static void write_stamp(uint8_t *out, const name *u, const name *i) {
    pen p = {out, 0, 0};
    put_name(&p, u);
    put_name(&p, i);
    uint32_t rest = (uint32_t)(p.acc << (32 - p.held));
    for (unsigned done = 0; done < p.held; done += 8, rest <<= 8) *p.at++ = (uint8_t)(rest >> 24);
}

uint64_t plain_update(const uint8_t *b, size_t len, uint8_t *out, size_t out_len) {
    stamp s;
    unsigned no = read_stamp(&s, b, len);
    if (no) return REFUSED + no;
    size_t n = (2 * bits_of(&s.i) + 7) / 8;
    if (out_len < n) return REFUSED + 10;
    write_stamp(out, &s.i, &s.i);
    return n;
}

uint64_t plain_fork(const uint8_t *b, size_t len, uint8_t *zero, size_t zero_len, uint8_t *one, size_t one_len) {
    stamp s;
    name grown;
    unsigned no = read_stamp(&s, b, len);
    if (no) return REFUSED + no;
    if (has_longest(&s.i)) return REFUSED + 6;
    size_t n = (bits_of(&s.u) + bits_of(&s.i) + s.i.n + 7) / 8;
    if (zero_len < n || one_len < n) return REFUSED + 10;
    grow(&grown, &s.i, 0);
    write_stamp(zero, &s.u, &grown);
    grow(&grown, &s.i, 1);
    write_stamp(one, &s.u, &grown);
    return n;
}

uint64_t plain_join(const uint8_t *a, size_t a_len, const uint8_t *b, size_t b_len, uint8_t *out, size_t out_len) {
    stamp s, t, both;
    unsigned no = read_stamp(&s, a, a_len);
    if (!no) no = read_stamp(&t, b, b_len);
    if (!no) no = meet(&s, &t);
    if (!no) no = joined(&both, &s, &t);
    if (no) return REFUSED + no;
    size_t n = (bits_of(&both.u) + bits_of(&both.i) + 7) / 8;
    if (out_len < n) return REFUSED + 10;
    write_stamp(out, &both.u, &both.i);
    return n;
}

uint64_t plain_compare(const uint8_t *a, size_t a_len, const uint8_t *b, size_t b_len) {
    stamp s, t;
    unsigned no = read_stamp(&s, a, a_len);
    if (!no) no = read_stamp(&t, b, b_len);
    if (!no) no = meet(&s, &t);
    return no ? REFUSED + no : verdict(&s, &t);
}
