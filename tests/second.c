/* The library once more, told over text: bits are the characters 0 and 1, a string is a C string, a name an
 * unsorted heap of them. Nothing is shared with the library, neither code nor representation: order is strcmp,
 * prefix is strncmp, and reduction settles the id alone and then lifts the update to it in one go. */
#define _GNU_SOURCE
#include "second.h"
#include <stdlib.h>
#include <string.h>

enum { DIGITS = 24, STRINGS = 16, SLOTS = 32, ROOM = 64, WIDTH = 32, REFUSED = 1000 };

typedef struct {
    int n;
    char s[ROOM][WIDTH];
} name;

typedef struct {
    name u, i;
} stamp;

static int below_string(const char *a, const char *b) { return strncmp(a, b, strlen(a)) == 0; }

static int by_text(const void *a, const void *b) { return strcmp(a, b); }

static int holds(const name *n, const char *s) {
    for (int k = 0; k < n->n; k++)
        if (strcmp(n->s[k], s) == 0) return 1;
    return 0;
}

static void put(name *n, const char *s) {
    if (!holds(n, s)) strcpy(n->s[n->n++], s);
}

static void drop(name *n, const char *s) {
    char gone[WIDTH];
    strcpy(gone, s);
    for (int k = 0; k < n->n; k++)
        if (strcmp(n->s[k], gone) == 0) memmove(n->s[k], n->s[--n->n], WIDTH);
}

static int covers(const name *n, const char *s) {
    for (int k = 0; k < n->n; k++)
        if (below_string(s, n->s[k])) return 1;
    return 0;
}

static int is_below(const name *m, const name *n) {
    for (int k = 0; k < m->n; k++)
        if (!covers(n, m->s[k])) return 0;
    return 1;
}

/* ---- reading */

typedef struct {
    const uint8_t *b;
    size_t bits, at;
} reader;

/* The next w bits as text, or 0 where they are not there. */
static int take(reader *r, int w, char *text) {
    if (r->bits - r->at < (size_t)w) return 0;
    for (int k = 0; k < w; k++, r->at++) text[k] = (r->b[r->at / 8] & (0x80 >> r->at % 8)) ? '1' : '0';
    text[w] = 0;
    return 1;
}

static int read_name(reader *r, name *n) {
    char f[WIDTH];
    if (!take(r, 4, f)) return 0;
    int count = (int)strtol(f, NULL, 2) + 1;
    n->n = 0;
    for (int k = 0; k < count; k++) {
        if (!take(r, 5, f)) return 0;
        int len = (int)strtol(f, NULL, 2);
        if (len > DIGITS || !take(r, len, f)) return 0;
        if (k > 0) {
            const char *last = n->s[k - 1];
            if (below_string(last, f) || below_string(f, last) || strcmp(last, f) >= 0) return 0;
        }
        strcpy(n->s[n->n++], f);
    }
    return 1;
}

static int is_lawful(const stamp *x) {
    if (!is_below(&x->u, &x->i)) return 0;
    for (int k = 0; k < x->i.n; k++) {
        char twin[WIDTH];
        strcpy(twin, x->i.s[k]);
        size_t len = strlen(twin);
        if (len == 0) continue;
        twin[len - 1] ^= 1;
        if (holds(&x->i, twin)) return 0;
    }
    return 1;
}

static int read_stamp(const uint8_t *b, size_t len, stamp *x) {
    reader r = {b, len * 8, 0};
    if (!read_name(&r, &x->u) || !read_name(&r, &x->i)) return 1;
    if (r.bits - r.at >= 8) return 1;
    char f[WIDTH];
    take(&r, (int)(r.bits - r.at), f);
    if (strchr(f, '1')) return 1;
    return is_lawful(x) ? 0 : 2;
}

/* ---- writing: the bits as text first */

static char *number_text(char *to, int v, int w) {
    for (int k = w - 1; k >= 0; k--) *to++ = (v >> k) & 1 ? '1' : '0';
    return to;
}

static char *name_text(char *to, name n) {
    qsort(n.s, (size_t)n.n, sizeof n.s[0], by_text);
    to = number_text(to, n.n - 1, 4);
    for (int k = 0; k < n.n; k++) {
        to = number_text(to, (int)strlen(n.s[k]), 5);
        to = stpcpy(to, n.s[k]);
    }
    return to;
}

static size_t pack(const stamp *x, uint8_t *to) {
    char text[2 * ROOM * WIDTH], *end = name_text(name_text(text, x->u), x->i);
    while ((end - text) % 8) *end++ = '0';
    size_t n = (size_t)(end - text) / 8;
    for (size_t k = 0; k < n; k++) {
        char byte[9] = {0};
        memcpy(byte, text + 8 * k, 8);
        to[k] = (uint8_t)strtol(byte, NULL, 2);
    }
    return n;
}

/* ---- two stamps that meet */

static int touches(const name *m, const name *n) {
    for (int k = 0; k < m->n; k++)
        if (covers(n, m->s[k])) return 1;
    return 0;
}

static int unknown(const stamp *a, const stamp *b) {
    for (int k = 0; k < a->u.n; k++)
        if (covers(&b->i, a->u.s[k]) && !covers(&b->u, a->u.s[k])) return 1;
    return 0;
}

/* ---- join */

static void unite(const name *m, const name *n, name *to) {
    name all = *m;
    for (int k = 0; k < n->n; k++) put(&all, n->s[k]);
    to->n = 0;
    for (int k = 0; k < all.n; k++) {
        int outgrown = 0;
        for (int j = 0; j < all.n; j++)
            if (j != k && below_string(all.s[k], all.s[j])) outgrown = 1;
        if (!outgrown) put(to, all.s[k]);
    }
}

/* Twins become what they share, until there are none; then a string of the update that such a string now begins is lifted to it. */
static void reduce(const stamp *x, stamp *to) {
    char t[WIDTH];
    to->i = x->i;
    to->u.n = 0;
    for (int k = 0; k < to->i.n;) {
        strcpy(t, to->i.s[k]);
        size_t len = strlen(t);
        if (len) t[len - 1] ^= 1;
        if (len && holds(&to->i, t)) {
            drop(&to->i, to->i.s[k]);
            drop(&to->i, t);
            t[len - 1] = 0;
            put(&to->i, t);
            k = 0;
        } else k++;
    }
    for (int k = 0; k < x->u.n; k++) {
        const char *lifted = x->u.s[k];
        for (int j = 0; j < to->i.n; j++)
            if (below_string(to->i.s[j], x->u.s[k])) lifted = to->i.s[j];
        put(&to->u, lifted);
    }
}

static uint64_t give(const stamp *x, uint8_t *out, size_t out_len) {
    uint8_t b[512];
    size_t n = pack(x, b);
    if (out_len < n) return REFUSED + 10;
    memcpy(out, b, n);
    return n;
}

/* ---- the rules on stamps that are lawful: 0, or the refusal */

static int meets(const stamp *a, const stamp *b) {
    if (touches(&a->i, &b->i) || touches(&b->i, &a->i)) return 8;
    if (unknown(a, b) || unknown(b, a)) return 9;
    return 0;
}

static int forks(const stamp *x, stamp *zero, stamp *one) {
    for (int k = 0; k < x->i.n; k++)
        if (strlen(x->i.s[k]) == DIGITS) return 6;
    *zero = *one = *x;
    for (int k = 0; k < x->i.n; k++) {
        strcat(zero->i.s[k], "0");
        strcat(one->i.s[k], "1");
    }
    return 0;
}

static int joins(const stamp *a, const stamp *b, stamp *to) {
    stamp x;
    unite(&a->u, &b->u, &x.u);
    unite(&a->i, &b->i, &x.i);
    reduce(&x, to);
    return to->i.n > STRINGS ? 7 : 0;
}

static int verdict(const stamp *a, const stamp *b) {
    int x = is_below(&a->u, &b->u), y = is_below(&b->u, &a->u);
    return x ? (y ? 0 : 1) : (y ? 2 : 3);
}

/* ---- packed stamps */

static int read_two(const uint8_t *first, size_t first_len, const uint8_t *second, size_t second_len, stamp *a, stamp *b) {
    int r = read_stamp(first, first_len, a);
    if (r == 0) r = read_stamp(second, second_len, b);
    return r ? r : meets(a, b);
}

uint64_t second_update(const uint8_t *s, size_t s_len, uint8_t *out, size_t out_len) {
    stamp x;
    int r = read_stamp(s, s_len, &x);
    if (r) return REFUSED + (uint64_t)r;
    x.u = x.i;
    return give(&x, out, out_len);
}

uint64_t second_fork(const uint8_t *s, size_t s_len, uint8_t *zero, size_t zero_len, uint8_t *one, size_t one_len) {
    stamp x, y, z;
    int r = read_stamp(s, s_len, &x);
    if (r == 0) r = forks(&x, &y, &z);
    if (r) return REFUSED + (uint64_t)r;
    uint8_t p[512], q[512];
    size_t n = pack(&y, p), m = pack(&z, q);
    if (zero_len < n || one_len < m) return REFUSED + 10;
    memcpy(zero, p, n);
    memcpy(one, q, m);
    return n;
}

uint64_t second_join(const uint8_t *first, size_t first_len, const uint8_t *second, size_t second_len, uint8_t *out, size_t out_len) {
    stamp a, b, x;
    int r = read_two(first, first_len, second, second_len, &a, &b);
    if (r == 0) r = joins(&a, &b, &x);
    return r ? REFUSED + (uint64_t)r : give(&x, out, out_len);
}

uint64_t second_compare(const uint8_t *first, size_t first_len, const uint8_t *second, size_t second_len) {
    stamp a, b;
    int r = read_two(first, first_len, second, second_len, &a, &b);
    return r ? REFUSED + (uint64_t)r : (uint64_t)verdict(&a, &b);
}

kept second_keep(const uint8_t *first, size_t first_len, const uint8_t *second, size_t second_len) {
    switch (second_compare(first, first_len, second, second_len)) {
    case 0:
    case 2: return (kept){first, first_len};
    case 1: return (kept){second, second_len};
    default: return (kept){first, 0};
    }
}

/* ---- records: a string's word has its digits from the top down and its length in the six low bits */

static uint64_t word_of(const char *s) {
    uint64_t w = strlen(s);
    for (int k = 0; s[k]; k++)
        if (s[k] == '1') w += 1ull << (63 - k);
    return w;
}

/* The string that the word says, or 0 where it says none. */
static int string_of(uint64_t w, char *s) {
    size_t len = w % 64;
    if (len > DIGITS) return 0;
    for (size_t k = 0; k < len; k++) s[k] = (w >> (63 - k)) & 1 ? '1' : '0';
    s[len] = 0;
    return word_of(s) == w;
}

static void store_name(name n, record_name *to) {
    qsort(n.s, (size_t)n.n, sizeof n.s[0], by_text);
    memset(to, 0, sizeof *to);
    to->count = (uint64_t)n.n;
    for (int k = 0; k < n.n; k++) to->words[k] = word_of(n.s[k]);
}

static void store(const stamp *x, record *to) {
    store_name(x->u, &to->update);
    store_name(x->i, &to->id);
}

static int told_name(const record_name *from, name *n) {
    if (from->count < 1 || from->count > STRINGS) return 0;
    n->n = (int)from->count;
    for (int k = 0; k < STRINGS; k++) {
        if (k >= n->n) {
            if (from->words[k]) return 0;
            continue;
        }
        if (!string_of(from->words[k], n->s[k])) return 0;
        if (k > 0 && (below_string(n->s[k - 1], n->s[k]) || strcmp(n->s[k - 1], n->s[k]) >= 0)) return 0;
    }
    return 1;
}

/* Whether the record is the stored shape of a lawful stamp, and that stamp. */
static int told(const record *r, stamp *x) { return told_name(&r->update, &x->u) && told_name(&r->id, &x->i) && is_lawful(x); }

/* The stamp, or none and the refusal: what every call by value answers. */
static uint64_t give_record(int refusal, const stamp *x, record *out) {
    memset(out, 0, sizeof *out);
    if (refusal) return REFUSED + (uint64_t)refusal;
    store(x, out);
    return 0;
}

static int told_two(const record *r, const record *s, stamp *a, stamp *b) {
    if (!told(r, a) || !told(s, b)) return 2;
    return meets(a, b);
}

/* Of the strings of m that no string of n extends the least; its place is how many strings of m are less. */
static void lacked(const name *m, const name *n, uint64_t out[2]) {
    const char *least = NULL;
    for (int k = 0; k < m->n; k++)
        if (!covers(n, m->s[k]) && (!least || strcmp(m->s[k], least) < 0)) least = m->s[k];
    out[0] = out[1] = 0;
    if (!least) return;
    for (int k = 0; k < m->n; k++) out[0] += strcmp(m->s[k], least) < 0;
    out[1] = word_of(least);
}

/* The verdict and the uncovered strings of both, or the refusal and none. */
static uint64_t stands(int refusal, const stamp *a, const stamp *b, uint64_t out[4]) {
    memset(out, 0, 4 * sizeof *out);
    if (refusal) return REFUSED + (uint64_t)refusal;
    lacked(&a->u, &b->u, out);
    lacked(&b->u, &a->u, out + 2);
    return (uint64_t)verdict(a, b);
}

uint64_t second_stood(const uint8_t *first, size_t first_len, const uint8_t *second, size_t second_len, uint64_t out[4]) {
    stamp a, b;
    return stands(read_two(first, first_len, second, second_len, &a, &b), &a, &b, out);
}

uint64_t second_read(const uint8_t *b, size_t len, record *out) {
    stamp x;
    return give_record(read_stamp(b, len, &x), &x, out);
}

uint64_t second_write(const record *r, uint8_t *out, size_t out_len) {
    stamp x;
    return told(r, &x) ? give(&x, out, out_len) : REFUSED + 2;
}

size_t second_size(const record *r) {
    stamp x;
    uint8_t b[512];
    return told(r, &x) ? pack(&x, b) : 0;
}

uint64_t second_entry(const uint8_t *b, size_t len, size_t k, record *out) {
    size_t at = 0;
    if (len > 65536) return give_record(1, NULL, out);
    for (;; k--) {
        if (at == len) return give_record(13, NULL, out);
        size_t n = b[at++];
        if (n < 3 || n > 117 || len - at < n) return give_record(1, NULL, out);
        if (k == 0) return second_read(b + at, n, out);
        at += n;
    }
}

int second_is_lawful(const record *r) {
    stamp x;
    return told(r, &x);
}

uint64_t second_updated(const record *r, record *out) {
    stamp x;
    int bad = told(r, &x) ? 0 : 2;
    if (!bad) x.u = x.i;
    return give_record(bad, &x, out);
}

uint64_t second_forked(const record *r, record *zero, record *one) {
    stamp x, y, z;
    int bad = told(r, &x) ? forks(&x, &y, &z) : 2;
    give_record(bad, &y, zero);
    return give_record(bad, &z, one);
}

uint64_t second_joined(const record *r, const record *s, record *out) {
    stamp a, b, x;
    int bad = told_two(r, s, &a, &b);
    if (!bad) bad = joins(&a, &b, &x);
    return give_record(bad, &x, out);
}

uint64_t second_met(const record *r, const record *s) {
    stamp a, b;
    int bad = told_two(r, s, &a, &b);
    return bad ? REFUSED + (uint64_t)bad : 0;
}

uint64_t second_compared(const record *r, const record *s, uint64_t out[4]) {
    stamp a, b;
    return stands(told_two(r, s, &a, &b), &a, &b, out);
}

/* ---- the table of copies */

static int is_absent(const record *r) {
    static const record none;
    return memcmp(r, &none, sizeof none) == 0;
}

/* What is asked of the size, the slots and their stamps, in this order: 0, or the refusal. One slot twice is asked for where `twice` is set. */
static int slots(const record *t, size_t n, size_t a, size_t b, int twice, stamp *x, stamp *y) {
    if (n == 0 || n > SLOTS) return 12;
    if (a >= n || is_absent(&t[a])) return 3;
    if (b >= n || is_absent(&t[b])) return 3;
    if (twice && a == b) return 4;
    if (!told(&t[a], x) || !told(&t[b], y)) return 12;
    return 0;
}

uint64_t second_table_fresh(record *t, size_t n) {
    if (n == 0 || n > SLOTS) return REFUSED + 12;
    memset(t, 0, n * sizeof *t);
    t[0].update.count = t[0].id.count = 1;
    return 0;
}

uint64_t second_table_update(record *t, size_t n, size_t a) {
    stamp x, y;
    int bad = slots(t, n, a, a, 0, &x, &y);
    if (bad) return REFUSED + (uint64_t)bad;
    t[a].update = t[a].id;
    return a;
}

uint64_t second_table_fork(record *t, size_t n, size_t a) {
    stamp x, y, z;
    size_t free = 0;
    int bad = slots(t, n, a, a, 0, &x, &y);
    if (bad) return REFUSED + (uint64_t)bad;
    while (free < n && !is_absent(&t[free])) free++;
    if (free == n) return REFUSED + 5;
    bad = forks(&x, &y, &z);
    if (bad) return REFUSED + (uint64_t)bad;
    store(&y, &t[a]);
    store(&z, &t[free]);
    return free;
}

uint64_t second_table_join(record *t, size_t n, size_t a, size_t b) {
    stamp x, y, z;
    int bad = slots(t, n, a, b, 1, &x, &y);
    if (!bad) bad = meets(&x, &y);
    if (!bad) bad = joins(&x, &y, &z);
    if (bad) return REFUSED + (uint64_t)bad;
    store(&z, &t[a]);
    memset(&t[b], 0, sizeof t[b]);
    return a;
}

uint64_t second_table_compare(const record *t, size_t n, size_t a, size_t b) {
    stamp x, y;
    int bad = slots(t, n, a, b, 0, &x, &y);
    if (!bad && a == b) return 0;
    if (!bad) bad = meets(&x, &y);
    return bad ? REFUSED + (uint64_t)bad : (uint64_t)verdict(&x, &y);
}

uint64_t second_table_spare(const record *t, size_t n, size_t a) {
    stamp x, y;
    int bad = slots(t, n, a, a, 0, &x, &y);
    if (bad) return REFUSED + (uint64_t)bad;
    for (size_t b = 0; b < n; b++) {
        if (b == a || is_absent(&t[b])) continue;
        uint64_t v = second_table_compare(t, n, a, b);
        if (v >= REFUSED) return v;
        if (v == 1) return 1;
    }
    return 0;
}

uint64_t second_room(const uint8_t *s, size_t s_len) {
    stamp x;
    if (read_stamp(s, s_len, &x)) return 0;
    size_t most = 0;
    for (int k = 0; k < x.i.n; k++)
        if (strlen(x.i.s[k]) > most) most = strlen(x.i.s[k]);
    return 100 * (uint64_t)x.i.n + most;
}
