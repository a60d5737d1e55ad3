/* The trace tool in plain C: a table of 32 stamps in memory, large reads and writes. It asks 8 and 9 of every pair, as the
 * rules say; that its own records are lawful (12) it does not ask again.
 *
 * usage: plain_trace < TRACE */
#include "stamp.h"
#include <stddef.h>
#include <string.h>
#include <unistd.h>

enum { SLOTS = 32, IN = 1 << 16, OUT = 1 << 16, LINE = 8, ANSWER = 64 };

static stamp table[SLOTS];
static uint32_t present = 1; /* a bit for each slot */
static uint8_t in[IN + LINE], out[OUT];
static size_t out_len;

static void flush(void) {
    for (size_t done = 0; done < out_len;) {
        ssize_t n = write(1, out + done, out_len - done);
        if (n <= 0) _exit(1);
        done += (size_t)n;
    }
    out_len = 0;
}

static inline void say(const char *word, size_t len) {
    memcpy(out + out_len, word, len);
    out_len += len;
}

static inline void say_number(unsigned n) {
    if (n > 9) out[out_len++] = (uint8_t)('0' + n / 10);
    out[out_len++] = (uint8_t)('0' + n % 10);
    out[out_len++] = '\n';
}

static void refused(unsigned no) {
    say("refused ", 8);
    say_number(no);
}

static void ok(unsigned slot) {
    say("ok ", 3);
    say_number(slot);
}

static inline void say_string(uint64_t s) {
    out[out_len++] = ' ';
    for (unsigned k = length_of(s); k; k--, s <<= 1) out[out_len++] = (uint8_t)('0' + (s >> 63));
}

static inline bool absent(unsigned a) { return a >= SLOTS || !(present >> a & 1); }

static void update(unsigned a) {
    if (absent(a)) return refused(3);
    table[a].u = table[a].i;
    ok(a);
}

static void fork_slot(unsigned a) {
    if (absent(a)) return refused(3);
    if (!~present) return refused(5);
    if (has_longest(&table[a].i)) return refused(6);
    unsigned b = (unsigned)__builtin_ctz(~present);
    present |= UINT32_C(1) << b;
    table[b].u = table[a].u;
    grow(&table[b].i, &table[a].i, 1);
    grow(&table[a].i, &table[a].i, 0);
    ok(b);
}

static void join(unsigned a, unsigned b) {
    stamp both;
    if (absent(a) || absent(b)) return refused(3);
    if (a == b) return refused(4);
    unsigned no = meet(&table[a], &table[b]);
    if (!no) no = joined(&both, &table[a], &table[b]);
    if (no) return refused(no);
    table[a] = both;
    present &= ~(UINT32_C(1) << b);
    ok(a);
}

/* The place of the first string of m that none of n extends, or how many m has. */
static inline unsigned uncovered(const name *m, const name *n) {
    unsigned i = 0, j = 0;
    for (; i < m->n; i++) {
        uint64_t s = m->w[i];
        while (j < n->n && n->w[j] < s) j++;
        if (j == n->n || n->w[j] > last_of(s)) break;
    }
    return i;
}

static void compare(unsigned a, unsigned b) {
    if (absent(a) || absent(b)) return refused(3);
    if (a == b) return say("equal\n", 6);
    unsigned no = meet(&table[a], &table[b]);
    if (no) return refused(no);
    const name *u = &table[a].u, *v = &table[b].u;
    unsigned p = uncovered(u, v), q = uncovered(v, u);
    if (p == u->n) return q == v->n ? say("equal\n", 6) : say("obsolete\n", 9);
    if (q == v->n) return say("newer\n", 6);
    say("conflict", 8);
    say_string(u->w[p]);
    say_string(v->w[q]);
    out[out_len++] = '\n';
}

static void spare(unsigned a) {
    if (absent(a)) return refused(3);
    for (uint32_t left = present & ~(UINT32_C(1) << a); left; left &= left - 1) {
        unsigned b = (unsigned)__builtin_ctz(left), no = meet(&table[a], &table[b]);
        if (no) return refused(no);
        if (below(&table[a].u, &table[b].u) && !below(&table[b].u, &table[a].u)) return say("spare\n", 6);
    }
    say("kept\n", 5);
}

/* One or two digits with no leading zero but for 0 itself, after a space; gives what stands behind, or null. */
static inline const uint8_t *number(const uint8_t *s, const uint8_t *end, unsigned *n) {
    if (end - s < 2 || s[0] != ' ' || s[1] < '0' || s[1] > '9') return NULL;
    *n = s[1] - '0';
    s += 2;
    if (*n && s < end && *s >= '0' && *s <= '9') *n = 10 * *n + (*s++ - '0');
    return s;
}

static void line(const uint8_t *s, const uint8_t *end) {
    unsigned a = 0, b = 0;
    if (out_len > OUT - ANSWER) flush();
    if (s == end) return refused(11);
    uint8_t op = *s;
    if (!(s = number(s + 1, end, &a))) return refused(11);
    if (op == 'J' || op == 'C') {
        s = number(s, end, &b);
        if (s != end) return refused(11);
        return op == 'J' ? join(a, b) : compare(a, b);
    }
    if (s != end) return refused(11);
    switch (op) {
    case 'U': return update(a);
    case 'F': return fork_slot(a);
    case 'S': return spare(a);
    default: return refused(11);
    }
}

int main(void) {
    size_t held = 0;
    table[0].u.n = table[0].i.n = 1;
    for (;;) {
        ssize_t got = read(0, in + held, IN);
        if (got < 0) return 1;
        if (got == 0) break;
        uint8_t *s = in, *end = in + held + got, *stop;
        while ((stop = memchr(s, '\n', (size_t)(end - s)))) {
            line(s, stop);
            s = stop + 1;
        }
        held = (size_t)(end - s) < LINE ? (size_t)(end - s) : LINE; /* so many bytes are too many already */
        memmove(in, s, held);
    }
    if (held) line(in, in + held);
    flush();
    return 0;
}
