/* The library's four calls beside plain C's, on the same inputs: first that both give the same results and bytes, then how long
 * each takes, or how many instructions.
 *
 * usage: bench check ROUNDS     both sides on the cases below and on damaged ones; status 1 on a difference
 *        bench list 0           the cases: number, call, strings, what
 *        bench time 0           number, nanoseconds of a call of the library and of plain C
 *        bench count ROUNDS     marks for count.c around ROUNDS times 16 calls; where the processor's own counter can be had it
 *                               prints number, side, instructions of a call
 * A third word `growth`: other cases, lawful ones of 1 to 16 strings of 23 and 24 digits. */
#include "../include/ebbmuslin.h"
#include "plain.h"
#include "stamp.h"
#include <inttypes.h>
#include <linux/perf_event.h>
#include <stdio.h>
#include <stdlib.h>
#include <string.h>
#include <sys/ioctl.h>
#include <sys/syscall.h>
#include <time.h>
#include <unistd.h>

enum { MOST = EBBMUSLIN_MOST, KINDS = 16, CASES = 160, BUFFER = 192, MARK = 1000000 };

typedef struct {
    size_t len;
    uint8_t b[BUFFER];
} bytes;

typedef enum { NOTHING, UPDATE, FORK, JOIN, COMPARE } call;
static const char *const call_names[] = {"nothing", "update", "fork", "join", "compare"};

/* One case: so many inputs of one kind, and what the call gives on each (1,000 and a refusal, a verdict, or 0 for written). */
typedef struct {
    call call;
    unsigned strings;
    const char *what;
    uint64_t want;
    bytes a[KINDS], b[KINDS];
    size_t room[KINDS];
} one_case;

static one_case cases[CASES];
static size_t count;

/* ---- stamps */

static uint64_t state = 1;

static uint64_t next(void) {
    uint64_t z = (state += 0x9E3779B97F4A7C15u);
    z = (z ^ (z >> 30)) * 0xBF58476D1CE4E5B9u;
    z = (z ^ (z >> 27)) * 0x94D049BB133111EBu;
    return z ^ (z >> 31);
}

static uint64_t string_of(unsigned digits, unsigned n) { return n ? (uint64_t)digits << (64 - n) | n : 0; }

/* Adds s in its place, unless it touches a string of n or is the sibling of one. */
static bool add(name *n, uint64_t s) {
    unsigned k = 0;
    for (unsigned j = 0; j < n->n; j++) {
        uint64_t t = n->w[j];
        if ((t <= s && s <= last_of(t)) || (s <= t && t <= last_of(s)) || siblings(s, t)) return false;
    }
    while (k < n->n && n->w[k] < s) k++;
    memmove(n->w + k + 1, n->w + k, (n->n - k) * sizeof n->w[0]);
    n->w[k] = s;
    n->n++;
    return true;
}

/* Strings as copies have them after some forks; of 23 digits where the name is full. */
static name some_name(unsigned strings) {
    name n = {0};
    while (n.n < strings) {
        unsigned len = strings == STRINGS ? 23 : 1 + strings / 2 + (unsigned)(next() % 8);
        add(&n, string_of((unsigned)(next() % (1u << len)), len));
    }
    return n;
}

static name grown(name n, uint64_t d) {
    name r;
    grow(&r, &n, d);
    return r;
}

static name without_last(name n) {
    n.n--;
    return n;
}

/* The even (0) or odd (1) places of n. */
static name half(name n, unsigned odd) {
    name r = {0};
    for (unsigned k = odd; k < n.n; k += 2) r.w[r.n++] = n.w[k];
    return r;
}

/* The strings base, base + step, .. of 24 digits. */
static name stairs(unsigned base, unsigned step) {
    name n = {STRINGS, {0}};
    for (unsigned k = 0; k < STRINGS; k++) n.w[k] = string_of(base + k * step, 24);
    return n;
}

static void put_bits(bytes *x, size_t *at, uint64_t v, unsigned w) {
    for (unsigned k = w; k-- > 0; ++*at) x->b[*at / 8] |= (uint8_t)(((v >> k) & 1) << (7 - *at % 8));
}

static bytes packed(name u, name i) {
    bytes x = {0};
    const name *both[] = {&u, &i};
    size_t at = 0;
    for (int m = 0; m < 2; m++) {
        put_bits(&x, &at, both[m]->n - 1, 4);
        for (unsigned k = 0; k < both[m]->n; k++) {
            uint64_t s = both[m]->w[k];
            put_bits(&x, &at, length_of(s), 5);
            put_bits(&x, &at, s >> 40 >> (24 - length_of(s)), length_of(s));
        }
    }
    x.len = (at + 7) / 8;
    return x;
}

/* ---- the cases */

static one_case *add_case(call c, unsigned strings, const char *what, uint64_t want) {
    for (size_t k = 0; k < count; k++)
        if (cases[k].call == c && cases[k].strings == strings && !strcmp(cases[k].what, what)) return &cases[k];
    if (count == CASES) abort();
    cases[count] = (one_case){.call = c, .strings = strings, .what = what, .want = want};
    return &cases[count++];
}

static void one(call c, unsigned strings, unsigned k, const char *what, uint64_t want, bytes a, size_t room) {
    one_case *x = add_case(c, strings, what, want);
    x->a[k] = a;
    x->room[k] = room;
}

static void two(call c, unsigned strings, unsigned k, const char *what, uint64_t want, bytes a, bytes b, size_t room) {
    one_case *x = add_case(c, strings, what, want);
    x->a[k] = a;
    x->b[k] = b;
    x->room[k] = room;
}

/* x has so many strings; x0 and x1 are what a fork makes of it. */
static void lawful_cases(unsigned n, unsigned k, name x) {
    name x0 = grown(x, 0), x1 = grown(x, 1), e = {1, {0}};
    bytes left = packed(x, x0), right = packed(x, x1), left_new = packed(x0, x0), right_new = packed(x1, x1);
    one(UPDATE, n, k, "lawful", 0, left, MOST);
    one(FORK, n, k, "lawful", 0, packed(x, x), MOST);
    two(JOIN, n, k, "all pairs reduce", 0, left_new, right, MOST);
    if (n > 1) two(JOIN, n, k, "two halves, none reduces", 0, packed(half(x, 0), half(x, 0)), packed(half(x, 1), half(x, 1)), MOST);
    two(COMPARE, n, k, "equal", 0, left, right, 0);
    two(COMPARE, n, k, "equal, updates e", 0, packed(e, x0), packed(e, x1), 0);
    two(COMPARE, n, k, "obsolete", 1, left, right_new, 0);
    two(COMPARE, n, k, "newer", 2, left_new, right, 0);
    two(COMPARE, n, k, "conflict", 3, left_new, right_new, 0);
}

static void damaged_cases(unsigned n, unsigned k, name x) {
    name x0 = grown(x, 0), x1 = grown(x, 1), e = {1, {0}}, mixed = x1, pair = x0;
    bytes left = packed(x, x0), right = packed(x, x1), early = left, cut = left, cut_right = right;
    mixed.w[n - 1] = x0.w[n - 1];
    pair.w[n - 1] = x1.w[n - 2]; /* behind its sibling */
    early.b[0] |= 0x0F; /* the first length is above 24 */
    early.b[1] |= 0x80;
    cut.len--;
    cut_right.len--;
    bytes uncovered = packed(x, without_last(x1));
    one(UPDATE, n, k, "refused 1, first string", 1001, early, MOST);
    one(UPDATE, n, k, "refused 1, last byte", 1001, cut, MOST);
    one(UPDATE, n, k, "refused 2, last string", 1002, uncovered, MOST);
    one(UPDATE, n, k, "refused 2, s0 and s1", 1002, packed(without_last(x), pair), MOST);
    one(UPDATE, n, k, "refused 10", 1010, left, plain_update(left.b, left.len, early.b, BUFFER) - 1);
    one(FORK, n, k, "refused 2, last string", 1002, uncovered, MOST);
    bytes whole = packed(x, x);
    one(FORK, n, k, "refused 10", 1010, whole, right.len - 1);
    two(JOIN, n, k, "second refused 1, last byte", 1001, left, cut_right, MOST);
    two(JOIN, n, k, "refused 8, last string", 1008, left, packed(x, mixed), MOST);
    two(JOIN, n, k, "refused 9, last string", 1009, left, packed(without_last(x), x1), MOST);
    two(JOIN, n, k, "refused 10", 1010, left, right, packed(x, x).len - 1);
    two(COMPARE, n, k, "second refused 1, last byte", 1001, left, cut_right, 0);
    two(COMPARE, n, k, "second refused 2, last string", 1002, left, uncovered, 0);
    two(COMPARE, n, k, "refused 8, first string", 1008, left, left, 0);
    two(COMPARE, n, k, "refused 8, last string", 1008, left, packed(x, mixed), 0);
    two(COMPARE, n, k, "refused 9, first string", 1009, left, packed(e, x1), 0);
    two(COMPARE, n, k, "refused 9, last string", 1009, left, packed(without_last(x), x1), 0);
}

static void full_cases(unsigned k, name x) {
    name x0 = grown(x, 0);
    unsigned base = (unsigned)(next() % 0x8000) * 0x200;
    one(FORK, STRINGS, k, "refused 6", 1006, packed(x, x0), MOST);
    two(JOIN, STRINGS, k, "all reduces to one string", 0, packed(stairs(base, 2), stairs(base, 2)), packed(stairs(base + 1, 2), stairs(base + 1, 2)), MOST);
    two(JOIN, STRINGS, k, "refused 7", 1007, packed(stairs(base, 8), stairs(base, 8)), packed(stairs(base + 4, 8), stairs(base + 4, 8)), MOST);
}

static void make_cases(const char *only) {
    static const unsigned sizes[] = {1, 2, 6, STRINGS};
    add_case(NOTHING, 0, "an empty call", 0);
    for (unsigned k = 0; k < KINDS; k++) {
        if (only && !strcmp(only, "growth")) {
            for (unsigned n = 1; n <= STRINGS; n++) {
                name x = {0};
                while (x.n < n) add(&x, string_of((unsigned)(next() % (1u << 23)), 23));
                lawful_cases(n, k, x);
            }
            continue;
        }
        for (size_t j = 0; j < sizeof sizes / sizeof sizes[0]; j++) {
            name x = some_name(sizes[j]);
            lawful_cases(sizes[j], k, x);
            if (sizes[j] > 1) damaged_cases(sizes[j], k, x);
            if (sizes[j] == STRINGS) full_cases(k, x);
        }
    }
}

/* ---- the two sides */

typedef struct {
    uint64_t (*nothing)(const uint8_t *, size_t, const uint8_t *, size_t);
    uint64_t (*update)(const uint8_t *, size_t, uint8_t *, size_t);
    uint64_t (*fork)(const uint8_t *, size_t, uint8_t *, size_t, uint8_t *, size_t);
    uint64_t (*join)(const uint8_t *, size_t, const uint8_t *, size_t, uint8_t *, size_t);
    uint64_t (*compare)(const uint8_t *, size_t, const uint8_t *, size_t);
} side;

static __attribute__((noinline)) uint64_t nothing(const uint8_t *a, size_t n, const uint8_t *b, size_t m) {
    __asm__ volatile("" ::"r"(a), "r"(n), "r"(b), "r"(m));
    return 0;
}

static const side sides[] = {{nothing, ebbmuslin_update, ebbmuslin_fork, ebbmuslin_join, ebbmuslin_compare},
                             {nothing, plain_update, plain_fork, plain_join, plain_compare}};

static uint8_t zero[BUFFER], other[BUFFER];
static volatile uint64_t sink;

static uint64_t called(const side *s, const one_case *c, unsigned k) {
    const bytes *a = &c->a[k], *b = &c->b[k];
    switch (c->call) {
    case UPDATE: return s->update(a->b, a->len, zero, c->room[k]);
    case FORK: return s->fork(a->b, a->len, zero, c->room[k], other, c->room[k]);
    case JOIN: return s->join(a->b, a->len, b->b, b->len, zero, c->room[k]);
    case COMPARE: return s->compare(a->b, a->len, b->b, b->len);
    default: return s->nothing(a->b, a->len, b->b, b->len);
    }
}

static __attribute__((noinline)) void rounds_of(const side *s, const one_case *c, uint64_t rounds) {
    uint64_t sum = 0;
    for (uint64_t r = 0; r < rounds; r++)
        for (unsigned k = 0; k < KINDS; k++) sum += called(s, c, k);
    sink = sum;
}

/* ---- check */

static void differ(const one_case *c, unsigned k, uint64_t x, uint64_t y) {
    printf("%s, %u strings, %s, input %u: library %" PRIu64 ", plain %" PRIu64 ", expected %" PRIu64 "\n", call_names[c->call], c->strings, c->what,
           k, x, y, c->want);
    exit(1);
}

static void check_one(const one_case *c, unsigned k, bool wanted) {
    uint8_t was[2][2 * BUFFER];
    uint64_t r[2];
    for (int s = 0; s < 2; s++) {
        memset(zero, 0x5A, BUFFER);
        memset(other, 0xA5, BUFFER);
        r[s] = called(&sides[s], c, k);
        memcpy(was[s], zero, BUFFER);
        memcpy(was[s] + BUFFER, other, BUFFER);
    }
    bool as_wanted = c->want ? r[0] == c->want : r[0] < 1000 && (c->call != COMPARE || r[0] == 0);
    if (r[0] != r[1] || memcmp(was[0], was[1], sizeof was[0]) || (wanted && !as_wanted)) differ(c, k, r[0], r[1]);
}

static void check(uint64_t rounds) {
    for (size_t c = 0; c < count; c++)
        for (unsigned k = 0; k < KINDS; k++) check_one(&cases[c], k, true);
    for (uint64_t r = 0; r < rounds; r++) {
        static one_case x;
        x = cases[next() % count];
        bytes *d = next() % 2 ? &x.a[0] : &x.b[0];
        x.a[0] = x.a[next() % KINDS];
        x.b[0] = cases[next() % count].b[next() % KINDS];
        if (next() % 4) d->b[next() % (d->len + 1)] ^= (uint8_t)(1u << next() % 8);
        if (next() % 4 == 0) d->len = next() % 120;
        x.room[0] = next() % BUFFER;
        check_one(&x, 0, false);
    }
    printf("%zu cases of %d inputs, %" PRIu64 " altered ones: same results, same bytes\n", count, KINDS, rounds);
}

/* ---- time */

static double now(void) {
    struct timespec t;
    clock_gettime(CLOCK_PROCESS_CPUTIME_ID, &t); /* what other programs take is not counted */
    return (double)t.tv_sec * 1e9 + (double)t.tv_nsec;
}

static double timed(const side *s, const one_case *c, uint64_t rounds) {
    double from = now();
    rounds_of(s, c, rounds);
    return (now() - from) / (double)(rounds * KINDS);
}

/* About 4 ms of each side, one after the other; one run of the program measures each case once. */
static void time_all(void) {
    double empty = 1e9, ns[2];
    for (int r = 0; r < 9; r++) {
        double t = timed(&sides[0], &cases[0], 5000);
        if (t < empty) empty = t;
    }
    for (size_t c = 1; c < count; c++) {
        for (int s = 0; s < 2; s++) {
            timed(&sides[s], &cases[c], 16);
            double once = timed(&sides[s], &cases[c], 16);
            ns[s] = timed(&sides[s], &cases[c], 1 + (uint64_t)(4e6 / KINDS / once)) - empty;
        }
        printf("%zu\t%.1f\t%.1f\n", c, ns[0], ns[1]);
    }
}

/* ---- count */

static int counter = -1;

static void open_counter(void) {
    struct perf_event_attr a = {.type = PERF_TYPE_HARDWARE, .size = sizeof a, .config = PERF_COUNT_HW_INSTRUCTIONS, .exclude_kernel = 1, .exclude_hv = 1};
    counter = (int)syscall(SYS_perf_event_open, &a, 0, -1, -1, 0);
}

static uint64_t counted(void) {
    uint64_t n = 0;
    return counter >= 0 && read(counter, &n, sizeof n) == sizeof n ? n : 0;
}

/* Tags: 2 for each case, the library's and plain C's; count.c prints what came since the mark before. */
static void mark(uint64_t tag) { syscall(SYS_dup, -MARK - (long)tag); }

static void count_all(uint64_t rounds) {
    double empty = 0;
    open_counter();
    for (size_t c = 0; c < count; c++)
        for (unsigned s = 0; s < 2; s++) {
            rounds_of(&sides[s], &cases[c], 1);
            mark(0);
            uint64_t from = counted();
            rounds_of(&sides[s], &cases[c], rounds);
            double n = (double)(counted() - from) / (double)(rounds * KINDS);
            mark(2 + 2 * c + s);
            if (c == 0) empty = n;
            else if (counter >= 0) printf("%zu\t%u\t%.0f\n", c, s, n - empty);
        }
}

int main(int argc, char **argv) {
    if (argc < 2) return 2;
    uint64_t n = argc > 2 ? strtoull(argv[2], NULL, 10) : 1;
    make_cases(argc > 3 ? argv[3] : NULL);
    if (!strcmp(argv[1], "check")) check(n);
    else if (!strcmp(argv[1], "list"))
        for (size_t c = 1; c < count; c++) printf("%zu\t%s\t%u\t%s\n", c, call_names[cases[c].call], cases[c].strings, cases[c].what);
    else if (!strcmp(argv[1], "time")) time_all();
    else if (!strcmp(argv[1], "count")) count_all(n);
    else return 2;
    return 0;
}
