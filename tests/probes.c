/* What the header does not export, through crates/probes, against the second implementation: every answer, every record and every
 * byte, with guards around what is lent. Stamps by value, packed reading and writing by value, the uncovered strings of two stamps,
 * entries of bundles, which of two to keep and where it stands; and the table of copies at every size from 0 to 35, with absent,
 * lawful, unlawful, old and doubled records.
 *
 * usage: probes ROUNDS SEED     (prints what was met, or the first difference; status 1 on a difference) */
#include "probes.h"
#include "stamps.h"
#include "tally.h"
#include <stdlib.h>
#include <string.h>

enum { SLOTS = 32, SIZES = 36, BUNDLE = 65536 };

static void differ(const char *call, uint64_t got, uint64_t want) {
    printf("%s differs: library %" PRIu64 ", second %" PRIu64 "\n", call, got, want);
    exit(1);
}

static void same(const char *call, tallied *t, uint64_t got, uint64_t want, int alike) {
    if (got != want || !alike) differ(call, got, want);
    tally(t, got);
}

/* ---- records */

/* The record of the stamp that the bytes pack; all zeros where they pack none. */
static record record_from(const bytes *x) {
    record r;
    second_read(x->b, x->len, &r);
    return r;
}

static void spoil(record *r) {
    record_name *n = below(2) ? &r->update : &r->id;
    uint64_t *w = &n->words[below(below(2) ? 16 : n->count % 16 + 1)], v;
    switch (below(10)) {
    case 0: *w ^= 1ull << below(64); break;
    case 1: n->count = below(19); break;
    case 2: n->count = next(); break;
    case 3: *w = next(); break;
    case 4: *w = (*w & ~63ull) | (24 + below(40)); break;
    case 5: v = n->words[0], n->words[0] = n->words[1], n->words[1] = v; break;
    case 6: *w = 0; break;
    case 7: r->update = r->id; break;
    case 8: r->id = r->update; break;
    default: n->words[1] = n->words[0] ^ 1ull << (64 - (n->words[0] % 64 ? n->words[0] % 64 : 1)), n->count = 2; break;
    }
}

/* Records of one history, of its past, of the limits, blank and spoilt. */
static record any_record(void) {
    bytes x;
    record r;
    size_t kind = below(16);
    if (kind < 9) x = pool[below(copies)];
    else if (kind < 11) x = before[below(copies_before)];
    else if (kind < 13) large(&x);
    else if (kind < 15) x = with_ids((unsigned)(1 + below(16)), (unsigned)(5 + below(20)), (unsigned)below(3), (unsigned)(2 + below(2)));
    else some_fields(&x);
    r = record_from(&x);
    if (below(40) == 0) memset(&r, 0, sizeof r);
    if (below(6) == 0) spoil(&r);
    return r;
}

static int alike(const record *r, const record *s) { return memcmp(r, s, sizeof *r) == 0; }

static void noise(void *to, size_t len) {
    for (size_t k = 0; k < len; k++) ((uint8_t *)to)[k] = (uint8_t)next();
}

/* ---- how two stand: the uncovered strings, their places and their words */

enum { FIRST, SECOND, SIDES };
static tallied places_met[SIDES] = {{"place of the first's uncovered string", "", {0, 1, 2, 3, 4, 5, 6, 7, 8, 9, 10, 11, 12, 13, 14, 15}, 16, {0}},
                                    {"place of the second's", "", {0, 1, 2, 3, 4, 5, 6, 7, 8, 9, 10, 11, 12, 13, 14, 15}, 16, {0}}};
static tallied digits_met = {"conflicts of 24 digits, on neither side, on one, on both", "", {0, 1, 2}, 3, {0}};

/* What is lent, with a guard on both sides. */
typedef struct {
    uint64_t front, out[4], back;
} places;

static void same_places(const char *call, tallied *t, uint64_t got, const places *p, uint64_t want, const places *q) {
    for (int k = 0; k < 4; k++)
        if (p->out[k] != q->out[k]) printf("number %d: library %" PRIx64 ", second %" PRIx64 "\n", k, p->out[k], q->out[k]);
    same(call, t, got, want, memcmp(p, q, sizeof *p) == 0);
    if (got != 3) return;
    tally(&places_met[FIRST], p->out[0]);
    tally(&places_met[SECOND], p->out[2]);
    tally(&digits_met, (p->out[1] % 64 == 24) + (p->out[3] % 64 == 24));
}

/* ---- stamps by value */

static tallied is_lawful_met = {"is_lawful", "", {0, 1}, 2, {0}};
static tallied updated_met = {"update by value", "", {0, 1002}, 2, {0}};
static tallied forked_met = {"fork by value", "", {0, 1002, 1006}, 3, {0}};
static tallied joined_met = {"join by value", "", {0, 1002, 1007, 1008, 1009}, 5, {0}};
static tallied met_met = {"meet by value", "", {0, 1002, 1008, 1009}, 4, {0}};
static tallied compared_met = {"compare by value", "", {0, 1, 2, 3, 1002, 1008, 1009}, 7, {0}};

static void by_value(void) {
    record r = any_record(), s = any_record(), p, q, v, w;
    if (below(4) == 0) {
        bytes x, y;
        two_apart(&x, &y);
        r = record_from(&x);
        s = record_from(&y);
    }
    record was_r = r, was_s = s;
    same("is_lawful", &is_lawful_met, probe_is_lawful(&r), (uint64_t)second_is_lawful(&r), 1);
    noise(&p, sizeof p);
    uint64_t got = probe_updated(&r, &p), want = second_updated(&r, &q);
    same("update by value", &updated_met, got, want, alike(&p, &q));
    noise(&p, sizeof p);
    noise(&v, sizeof v);
    got = probe_forked(&r, &p, &v), want = second_forked(&r, &q, &w);
    same("fork by value", &forked_met, got, want, alike(&p, &q) && alike(&v, &w));
    noise(&p, sizeof p);
    got = probe_joined(&r, &s, &p), want = second_joined(&r, &s, &q);
    same("join by value", &joined_met, got, want, alike(&p, &q));
    same("meet by value", &met_met, probe_met(&r, &s), second_met(&r, &s), 1);
    places a, b;
    noise(&a, sizeof a);
    b = a;
    got = probe_compared(&r, &s, a.out), want = second_compared(&r, &s, b.out);
    same_places("compare by value", &compared_met, got, &a, want, &b);
    if (!alike(&r, &was_r) || !alike(&s, &was_s)) differ("a record that was lent to be read", 0, 0);
}

/* ---- packed, by value */

static tallied read_met = {"read", "", {0, 1001, 1002}, 3, {0}};
static tallied write_met = {"write", "written", {ACCEPTED, 3, MOST, 1002, 1010}, 5, {0}};

static void packed(void) {
    bytes x;
    record r, p, q;
    any_stamp(&x);
    noise(&p, sizeof p);
    uint64_t got = probe_read(x.b, x.len, &p), want = second_read(x.b, x.len, &q);
    same("read", &read_met, got, want, alike(&p, &q));

    uint8_t out[GUARD + BUFFER], to[GUARD + BUFFER];
    r = any_record();
    size_t size = second_size(&r), len = below(3) ? below(BUFFER) : size - (size > 0 && below(2));
    noise(out, sizeof out);
    memcpy(to, out, sizeof to);
    got = probe_write(&r, out + GUARD / 2, len), want = second_write(&r, to + GUARD / 2, len);
    same("write", &write_met, got, want, memcmp(out, to, sizeof out) == 0);
}

static tallied stood_met = {"compare packed", "", {0, 1, 2, 3, 1001, 1002, 1008, 1009}, 8, {0}};

static void standing(void) {
    bytes x, y;
    places p, q;
    any_two(&x, &y);
    noise(&p, sizeof p);
    q = p;
    uint64_t got = probe_stood(x.b, x.len, y.b, y.len, p.out), want = second_stood(x.b, x.len, y.b, y.len, q.out);
    same_places("compare packed", &stood_met, got, &p, want, &q);
}

/* ---- bundles */

static tallied entry_met = {"entry", "", {0, 1001, 1002, 1013}, 4, {0}};

/* Entries of stamps, some of them spoilt, and a bundle that is cut, grown or filled up to its limit at times. */
static void bundles(void) {
    static uint8_t b[BUNDLE + 8];
    size_t len = 0, entries = below(below(4) ? 6 : 400);
    for (size_t k = 0; k < entries; k++) {
        bytes x;
        any_stamp(&x);
        size_t n = x.len < MOST ? x.len : MOST;
        if (below(50) == 0) n = below(3);
        if (len + 1 + n > BUNDLE) break;
        b[len++] = (uint8_t)(below(60) ? n : next());
        memcpy(b + len, x.b, n);
        len += n;
    }
    switch (below(12)) {
    case 0: len = below(len + 1); break;
    case 1: b[len++ % BUNDLE] = (uint8_t)next(); break;
    case 2:
        for (len = 0; len < BUNDLE; len += 4) memcpy(b + len, "\3\0\0", 4);
        len += below(3);
        entries = len / 4;
        break;
    default: break;
    }
    for (int k = 0; k < 4; k++) {
        record p, q;
        size_t at = below(3) ? below(entries + 2) : below(2) ? entries : (size_t)next();
        noise(&p, sizeof p);
        uint64_t got = probe_entry(b, len, at, &p), want = second_entry(b, len, at, &q);
        same("entry", &entry_met, got, want, alike(&p, &q));
    }
}

/* ---- which to keep: the library tells how many bytes, and lends out the part, of which it is seen here where it stands */

static tallied keep_met = {"keep", "", {0, 1, 2}, 3, {0}};

static void keeping(void) {
    bytes x, y;
    any_two(&x, &y);
    kept want = second_keep(x.b, x.len, y.b, y.len);
    kept given = {NULL, (size_t)-1};
    uint64_t got = probe_keep(x.b, x.len, y.b, y.len);
    probe_kept(x.b, x.len, y.b, y.len, &given);
    if (given.at != want.at || given.len != want.len || got != want.len) differ("keep", got, want.len);
    tally(&keep_met, want.len == 0 ? 0 : want.at == x.b ? 1 : 2);
}

/* ---- the table */

static tallied fresh_met = {"table: fresh", "", {0}, 1, {0}};
static tallied update_met = {"table: update", "slot", {ACCEPTED, 1003, 1012}, 3, {0}};
static tallied fork_met = {"table: fork", "slot", {ACCEPTED, 1003, 1005, 1006, 1012}, 5, {0}};
static tallied join_met = {"table: join", "slot", {ACCEPTED, 1003, 1004, 1007, 1008, 1009, 1012}, 7, {0}};
static tallied compare_met = {"table: compare", "", {0, 1, 2, 3, 1003, 1008, 1009, 1012}, 8, {0}};
static tallied spare_met = {"table: spare", "", {0, 1, 1003, 1008, 1009, 1012}, 6, {0}};
static tallied outsized_met = {"table of no allowed size", "", {1012}, 1, {0}};
static uint64_t sizes[SIZES];

/* the run that is lent begins at 1; the records around it are guards */
static record mine[SIZES + 2], its[SIZES + 2];

static void tables_alike(const char *call, tallied *t, size_t n, uint64_t got, uint64_t want) {
    same(call, 0 < n && n <= SLOTS ? t : &outsized_met, got, want, memcmp(mine, its, sizeof mine) == 0);
}

/* One record comes from elsewhere: of this history or its past, one that is there already, a spoilt one, or none. */
static void disturb(record *t, size_t n) {
    if (n == 0) return;
    size_t a = below(n);
    switch (below(4)) {
    case 0: t[a] = any_record(); break;
    case 1: t[a] = t[below(n)]; break;
    case 2: spoil(&t[a]); break;
    default: memset(&t[a], 0, sizeof t[a]); break;
    }
    memcpy(its, mine, sizeof mine);
}

static void start_table(size_t n) {
    noise(mine, sizeof mine);
    memcpy(its, mine, sizeof mine);
    tables_alike("table: fresh", &fresh_met, n, probe_fresh(mine + 1, n), second_table_fresh(its + 1, n));
    if (n == 0 || n > SLOTS || below(2)) return;
    for (size_t a = 0; a < n; a++) {
        bytes *from = below(12) ? pool : before;
        if (a < copies && a < copies_before) mine[1 + a] = record_from(&from[a]);
        else if (below(4) == 0) mine[1 + a] = any_record();
    }
    memcpy(its, mine, sizeof mine);
}

static void table_step(record *t, record *u, size_t n) {
    size_t a = below(8) ? below(n + 1) : below(SIZES), b = below(8) ? below(n + 1) : below(SIZES);
    if (below(200) == 0) a = (size_t)next();
    switch (below(8)) {
    case 0: tables_alike("table: update", &update_met, n, probe_update(t, n, a), second_table_update(u, n, a)); break;
    case 1:
    case 2:
    case 3: tables_alike("table: fork", &fork_met, n, probe_fork(t, n, a), second_table_fork(u, n, a)); break;
    case 4: tables_alike("table: join", &join_met, n, probe_join(t, n, a, b), second_table_join(u, n, a, b)); break;
    case 5:
    case 6: tables_alike("table: compare", &compare_met, n, probe_compare(t, n, a, b), second_table_compare(u, n, a, b)); break;
    default: tables_alike("table: spare", &spare_met, n, probe_spare(t, n, a), second_table_spare(u, n, a)); break;
    }
}

static void tables(void) {
    size_t n = below(3) ? below(SIZES) : 1 + below(4), steps = 8 + below(80);
    int rough = below(2);
    sizes[n]++;
    start_table(n);
    for (size_t k = 0; k < steps; k++) {
        if (rough && below(10) == 0) disturb(mine + 1, n);
        table_step(mine + 1, its + 1, n);
    }
}

int main(int argc, char **argv) {
    uint64_t rounds = argc > 1 ? strtoull(argv[1], NULL, 10) : 100000;
    seed(argc > 2 ? strtoull(argv[2], NULL, 10) : 1);
    start_pool();
    for (uint64_t k = 0; k < rounds; k++) {
        if (k % 64 == 0) start_pool();
        for (int j = 0; j < 3; j++) evolve();
        by_value();
        packed();
        standing();
        keeping();
        if (k % 8 == 0) bundles();
        if (k % 8 == 4) tables();
    }
    const tallied *all[] = {&is_lawful_met, &updated_met, &forked_met, &joined_met, &met_met, &compared_met, &stood_met, &places_met[FIRST],
                            &places_met[SECOND], &digits_met, &read_met, &write_met, &entry_met, &keep_met, &fresh_met, &update_met,
                            &fork_met, &join_met, &compare_met, &spare_met, &outsized_met};
    int missing = 0, unused = 0;
    for (size_t k = 0; k < sizeof all / sizeof all[0]; k++) missing += tally_show(all[k]);
    for (size_t n = 0; n < SIZES; n++) unused += sizes[n] == 0;
    if (rounds >= 20000 && (missing || unused)) {
        printf("%d answers and %d sizes of tables were never met\n", missing, unused);
        return 1;
    }
    printf("%" PRIu64 " rounds, tables of 0 to %d records, no difference\n", rounds, SIZES - 1);
    return 0;
}
