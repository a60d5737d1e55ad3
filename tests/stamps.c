/* Stamps to test with: the copies of random histories, and stamps that no history reaches: fields in any order, the largest, damaged,
 * cut short, too long, and random bytes. All of them are made by the second implementation. */
#include "stamps.h"
#include "second.h"
#include <string.h>

static uint64_t state;

void seed(uint64_t s) { state = s; }

uint64_t next(void) {
    uint64_t z = (state += 0x9E3779B97F4A7C15u);
    z = (z ^ (z >> 30)) * 0xBF58476D1CE4E5B9u;
    z = (z ^ (z >> 27)) * 0x94D049BB133111EBu;
    return z ^ (z >> 31);
}

size_t below(size_t n) { return (size_t)(next() % n); }

/* ---- a pool of stamps that side by side make up a whole: forks and joins by the second implementation */

bytes pool[POOL], before[POOL];
size_t copies, copies_before;
static size_t most_copies, edits, joins;

/* A new pool, with a temper of its own: how many copies, how many edits and joins among the steps. */
void start_pool(void) {
    memset(pool, 0, sizeof pool);
    copies = 1;
    pool[0].len = 3;
    most_copies = 2 + below(below(2) ? 4 : POOL - 2);
    edits = below(4);
    joins = 1 + below(6);
    memcpy(before, pool, sizeof pool);
    copies_before = copies;
}

static void forked(size_t a) {
    bytes x, y;
    if (copies == most_copies) return;
    x.len = (size_t)second_fork(pool[a].b, pool[a].len, x.b, BUFFER, y.b, BUFFER);
    if (x.len >= 1000) return;
    y.len = x.len;
    pool[a] = x;
    pool[copies++] = y;
}

static void joined(size_t a, size_t b) {
    bytes x;
    if (a == b) return;
    x.len = (size_t)second_join(pool[a].b, pool[a].len, pool[b].b, pool[b].len, x.b, BUFFER);
    if (x.len >= 1000) return;
    pool[a] = x;
    pool[b] = pool[--copies];
}

void evolve(void) {
    bytes x;
    size_t a = below(copies), step = below(4 + edits + joins);
    if (step < 4) forked(a);
    else if (step < 4 + edits) {
        x.len = (size_t)second_update(pool[a].b, pool[a].len, x.b, BUFFER);
        if (x.len < 1000) pool[a] = x;
    } else if (step % 2) joined(a, below(copies));
    else {
        size_t was = copies;
        joined(a, below(copies));
        if (copies < was && a < copies) forked(a);
    }
    if (below(16) == 0) {
        memcpy(before, pool, sizeof pool);
        copies_before = copies;
    }
}

/* ---- stamps that are not reachable */

static void put_bits(bytes *x, size_t *at, unsigned v, unsigned w) {
    for (unsigned k = w; k-- > 0; ++*at)
        if (*at < 8 * (BUFFER - 1)) x->b[*at / 8] |= (uint8_t)(((v >> k) & 1) << (7 - *at % 8));
}

/* Fields that mostly read: any strings in rising order, lengths near the limit at times. */
void some_fields(bytes *x) {
    size_t at = 0;
    memset(x, 0, sizeof *x);
    for (int name = 0; name < 2; name++) {
        unsigned count = (unsigned)(below(3) ? below(3) : below(16)), deep = (unsigned)(1 + below(24));
        put_bits(x, &at, count, 4);
        unsigned v = (unsigned)below(4);
        for (unsigned k = 0; k <= count && at < 8 * (BUFFER - 8); k++) {
            unsigned len = count == 0 && below(2) ? (unsigned)below(26) : deep;
            put_bits(x, &at, len, 5);
            put_bits(x, &at, v, len > 24 ? 24 : len);
            v += (unsigned)(1 + below(3));
        }
    }
    x->len = (at + 7) / 8;
    if (x->len > BUFFER - 1) x->len = BUFFER - 1;
}

/* Sixteen strings of 24 digits in both names, as a whole or with the last ones shorter. */
void large(bytes *x) {
    size_t at = 0;
    unsigned step = (unsigned)(2 + below(1000)), deep = below(3) ? 24 : (unsigned)(20 + below(5));
    memset(x, 0, sizeof *x);
    for (int name = 0; name < 2; name++) {
        put_bits(x, &at, 15, 4);
        for (unsigned k = 0; k < 16; k++) {
            put_bits(x, &at, deep, 5);
            put_bits(x, &at, k * step, deep);
        }
    }
    x->len = (at + 7) / 8;
}

static void damage(bytes *x) {
    switch (below(6)) {
    case 0:
        if (x->len) x->b[below(x->len)] ^= (uint8_t)(1u << below(8));
        break;
    case 1:
        x->len = below(x->len + 1);
        break;
    case 2:
        if (x->len < BUFFER - 1) x->b[x->len++] = (uint8_t)(below(2) ? 0 : next());
        break;
    case 3:
        if (x->len) x->b[x->len - 1] |= (uint8_t)below(4);
        break;
    case 4:
        x->len = below(2) ? 118 + below(60) : x->len;
        break;
    default:
        break;
    }
}

void any_stamp(bytes *x) {
    size_t kind = below(16);
    if (kind < 8) *x = pool[below(copies)];
    else if (kind < 10) *x = before[below(copies_before)];
    else if (kind < 12) some_fields(x);
    else if (kind < 14) large(x);
    else {
        x->len = below(BUFFER);
        for (size_t k = 0; k < x->len; k++) x->b[k] = (uint8_t)(below(3) ? next() : 0);
    }
    if (below(5) == 0) damage(x);
}

/* ---- two stamps that meet: the ids are apart, most strings of the updates are in both */

typedef struct {
    unsigned n, v[16], len[16];
} field;

static void put_string(field *f, unsigned v, unsigned len) { f->v[f->n] = v, f->len[f->n++] = len; }

static void pack(bytes *x, const field *u, const field *i) {
    const field e = {.n = 1}, *names[2] = {u->n ? u : &e, i};
    size_t at = 0;
    memset(x, 0, sizeof *x);
    for (int k = 0; k < 2; k++) {
        put_bits(x, &at, names[k]->n - 1, 4);
        for (unsigned j = 0; j < names[k]->n; j++) {
            put_bits(x, &at, names[k]->len[j], 5);
            put_bits(x, &at, names[k]->v[j], names[k]->len[j]);
        }
    }
    x->len = (at + 7) / 8;
}

/* String after string: both have it, one was edited there since (1, 2) or has it alone (3, 4), or one lacks it though its id would know
 * it (5, 6: refused 9). The first string is in both ids. */
void two_apart(bytes *x, bytes *y) {
    field u = {0}, i = {0}, v = {0}, j = {0};
    unsigned n = (unsigned)(below(2) ? 16 : 1 + below(16)), alike = (unsigned)(1 + below(40)), strange = below(4) == 0;
    unsigned deep = (unsigned)(6 + below(18)), step = (unsigned)(2 + below((1u << (deep - 4)) - 2)), s = (unsigned)below(step);
    if (below(3) == 0) deep = 23;
    for (unsigned k = 0; k < n; k++, s += step) {
        unsigned kind = below(alike) ? 0 : (unsigned)(1 + below(k == 0 ? 2 : strange ? 6 : 4));
        int mine = kind != 4, yours = kind != 3;
        if (mine && yours) put_string(&i, 2 * s, deep + 1), put_string(&j, 2 * s + 1, deep + 1);
        else put_string(mine ? &i : &j, 2 * s + (unsigned)below(2), deep + 1);
        if (kind == 1 || kind == 3) put_string(&u, i.v[i.n - 1], deep + 1);
        else if (mine && kind != 5) put_string(&u, s, deep);
        if (kind == 2 || kind == 4) put_string(&v, j.v[j.n - 1], deep + 1);
        else if (yours && kind != 6) put_string(&v, s, deep);
    }
    pack(x, &u, &i);
    pack(y, &v, &j);
}

void any_two(bytes *x, bytes *y) {
    if (below(4) == 0) return two_apart(x, y);
    any_stamp(x);
    any_stamp(y);
}

/* [e|i] with count id strings: first, first + step, ..., of deep digits. */
bytes with_ids(unsigned count, unsigned deep, unsigned first, unsigned step) {
    bytes x;
    size_t at = 0;
    memset(&x, 0, sizeof x);
    put_bits(&x, &at, 0, 9);
    put_bits(&x, &at, count - 1, 4);
    for (unsigned k = 0; k < count; k++) {
        put_bits(&x, &at, deep, 5);
        put_bits(&x, &at, first + k * step, deep);
    }
    x.len = (at + 7) / 8;
    return x;
}
