/* The rules on stamps in plain C, for speed: names are sorted words, so every question about two names is one walk over both.
 * A word has a string's digits from the top down and its length in the six low bits; words in rising order are strings in
 * rising order, and a string stands before those that it is a prefix of. */
#ifndef BENCH_STAMP_H
#define BENCH_STAMP_H

#include <stdbool.h>
#include <stdint.h>

enum { STRINGS = 16, DIGITS = 24 };

typedef struct {
    unsigned n;
    uint64_t w[STRINGS];
} name;

typedef struct {
    name u, i;
} stamp;

static inline unsigned length_of(uint64_t w) { return w & 63; }

/* All the bits behind the digits of s. */
static inline uint64_t behind(uint64_t s) { return ~UINT64_C(0) >> length_of(s); }

/* No string that s is a prefix of has a larger word. */
static inline uint64_t last_of(uint64_t s) { return s | behind(s); }

/* Two different strings are s0 and s1. */
static inline bool siblings(uint64_t a, uint64_t b) { return (a ^ b) == behind(a) + 1; }

/* Each string of m is a prefix of one of n. */
static inline bool below(const name *m, const name *n) {
    unsigned j = 0;
    for (unsigned i = 0; i < m->n; i++) {
        uint64_t s = m->w[i];
        while (j < n->n && n->w[j] < s) j++;
        if (j == n->n || n->w[j] > last_of(s)) return false;
    }
    return true;
}

/* No string of a is a prefix of one of b, nor the other way round. */
static inline bool apart(const name *a, const name *b) {
    unsigned i = 0, j = 0;
    while (i < a->n && j < b->n) {
        uint64_t x = a->w[i], y = b->w[j];
        if (x < y) {
            if (y <= last_of(x)) return false;
            i++;
        } else {
            if (x <= last_of(y)) return false;
            j++;
        }
    }
    return true;
}

/* Some string of u is below i and not below v. */
static inline bool unknown_to(const name *u, const name *i, const name *v) {
    unsigned j = 0, k = 0;
    for (unsigned x = 0; x < u->n; x++) {
        uint64_t s = u->w[x], last = last_of(s);
        while (j < i->n && i->w[j] < s) j++;
        if (j == i->n) return false;
        if (i->w[j] > last) continue;
        while (k < v->n && v->w[k] < s) k++;
        if (k == v->n || v->w[k] > last) return true;
    }
    return false;
}

/* 8, 9 or 0. */
static inline unsigned meet(const stamp *a, const stamp *b) {
    if (!apart(&a->i, &b->i)) return 8;
    if (unknown_to(&a->u, &b->i, &b->u) || unknown_to(&b->u, &a->i, &a->u)) return 9;
    return 0;
}

/* 0 equal, 1 obsolete, 2 newer, 3 conflict. */
static inline unsigned verdict(const stamp *a, const stamp *b) {
    return (below(&a->u, &b->u) ? 0u : 2u) + (below(&b->u, &a->u) ? 0u : 1u);
}

static inline bool has_longest(const name *n) {
    for (unsigned k = 0; k < n->n; k++)
        if (length_of(n->w[k]) == DIGITS) return true;
    return false;
}

/* The id with the digit d behind each string. */
static inline void grow(name *to, const name *from, uint64_t d) {
    to->n = from->n;
    for (unsigned k = 0; k < from->n; k++) {
        uint64_t s = from->w[k];
        to->w[k] = s + 1 + (d << (63 - length_of(s)));
    }
}

/* One string more of an id, in rising order: s0 and s1 become s at once. */
static inline unsigned push_id(uint64_t *w, unsigned n, uint64_t s) {
    while (n && siblings(w[n - 1], s)) s = w[--n] - 1;
    w[n] = s;
    return n + 1;
}

/* The join, or 7. The ids are apart. An update string that a reduced id string is a prefix of has become that string. */
static inline unsigned joined(stamp *to, const stamp *a, const stamp *b) {
    uint64_t id[2 * STRINGS];
    unsigned n = 0, i = 0, j = 0;
    while (i < a->i.n && j < b->i.n)
        n = push_id(id, n, a->i.w[i] < b->i.w[j] ? a->i.w[i++] : b->i.w[j++]);
    while (i < a->i.n) n = push_id(id, n, a->i.w[i++]);
    while (j < b->i.n) n = push_id(id, n, b->i.w[j++]);
    if (n > STRINGS) return 7;
    to->i.n = n;
    for (unsigned k = 0; k < n; k++) to->i.w[k] = id[k];

    const name *u = &a->u, *v = &b->u;
    unsigned m = 0, k = 0;
    i = j = 0;
    while (i < u->n || j < v->n) {
        uint64_t s;
        if (j == v->n || (i < u->n && u->w[i] < v->w[j])) {
            s = u->w[i++];
            if (j < v->n && v->w[j] <= last_of(s)) continue;
        } else {
            s = v->w[j++];
            if (i < u->n && u->w[i] == s) i++;
            else if (i < u->n && u->w[i] <= last_of(s)) continue;
        }
        while (last_of(id[k]) < s) k++;
        if (id[k] < s) s = id[k];
        if (!m || to->u.w[m - 1] != s) to->u.w[m++] = s;
    }
    to->u.n = m;
    return 0;
}

#endif
