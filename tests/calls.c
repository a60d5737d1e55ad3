/* The library's four calls against the second implementation: every result and every byte of every buffer, with guard
 * bytes around each, on reachable, lawful, damaged, truncated, oversized and random stamps, and buffers that are exact,
 * one short, longer and empty.
 *
 * usage: calls ROUNDS SEED     (prints what was met, or the first difference; status 1 on a difference) */
#include "../include/ebbmuslin.h"
#include "second.h"
#include "stamps.h"
#include "tally.h"
#include <stdlib.h>
#include <string.h>

/* ---- buffers with guards */

typedef struct {
    uint8_t front[GUARD], b[BUFFER], back[GUARD];
} guarded;

static void fill(guarded *g, guarded *h) {
    for (size_t k = 0; k < sizeof *g; k++) ((uint8_t *)g)[k] = (uint8_t)next();
    *h = *g;
}

static size_t room(uint64_t n) {
    switch (below(6)) {
    case 0: return 0;
    case 1: return n < 1000 ? (size_t)n : below(BUFFER);
    case 2: return n < 1000 && n > 0 ? (size_t)n - 1 : below(BUFFER);
    case 3: return MOST;
    case 4: return MOST - 1;
    default: return below(BUFFER);
    }
}

static tallied update_met = {"update", "written", {ACCEPTED, MOST, 1001, 1002, 1010}, 5, {0}};
static tallied fork_met = {"fork", "written", {ACCEPTED, 1001, 1002, 1006, 1010}, 5, {0}};
static tallied join_met = {"join", "written", {ACCEPTED, 1001, 1002, 1007, 1008, 1009, 1010}, 7, {0}};
static tallied compare_met = {"compare", "", {0, 1, 2, 3, 1001, 1002, 1008, 1009}, 8, {0}};

static void differ(const char *call, const bytes *x, const bytes *y, uint64_t got, uint64_t want) {
    printf("%s differs: library %" PRIu64 ", second %" PRIu64 "\nfirst  ", call, got, want);
    for (size_t k = 0; k < x->len; k++) printf("%02x ", x->b[k]);
    printf("\nsecond ");
    for (size_t k = 0; k < y->len; k++) printf("%02x ", y->b[k]);
    printf("\n");
    exit(1);
}

/* Early warning: the room that a stamp has left is the same by both, refused stamps too, and the stamp is left alone. */
static uint64_t rooms[2], most_room;

static void same_room(const bytes *x) {
    bytes was = *x;
    uint64_t got = ebbmuslin_room(x->b, x->len), want = second_room(x->b, x->len);
    if (got != want) differ("room", x, x, got, want);
    if (memcmp(x, &was, sizeof was)) differ("room changed its input", &was, &was, 0, 0);
    rooms[got != 0]++;
    if (got > most_room) most_room = got;
}

static void one_round(void) {
    bytes x, y, was_x, was_y, tmp;
    guarded p, q, r, s;
    any_two(&x, &y);
    was_x = x;
    was_y = y;
    uint64_t got, want;
    same_room(&x);
    same_room(&y);

    size_t n = room(second_update(x.b, x.len, tmp.b, BUFFER));
    fill(&p, &q);
    got = ebbmuslin_update(x.b, x.len, p.b, n);
    want = second_update(x.b, x.len, q.b, n);
    if (got != want || memcmp(&p, &q, sizeof p)) differ("update", &x, &y, got, want);
    tally(&update_met, got);

    uint64_t length = second_fork(x.b, x.len, tmp.b, BUFFER, p.b, BUFFER);
    n = room(length);
    size_t m = room(length);
    fill(&p, &q);
    fill(&r, &s);
    got = ebbmuslin_fork(x.b, x.len, p.b, n, r.b, m);
    want = second_fork(x.b, x.len, q.b, n, s.b, m);
    if (got != want || memcmp(&p, &q, sizeof p) || memcmp(&r, &s, sizeof r)) differ("fork", &x, &y, got, want);
    tally(&fork_met, got);

    n = room(second_join(x.b, x.len, y.b, y.len, tmp.b, BUFFER));
    fill(&p, &q);
    got = ebbmuslin_join(x.b, x.len, y.b, y.len, p.b, n);
    want = second_join(x.b, x.len, y.b, y.len, q.b, n);
    if (got != want || memcmp(&p, &q, sizeof p)) differ("join", &x, &y, got, want);
    tally(&join_met, got);

    got = ebbmuslin_compare(x.b, x.len, y.b, y.len);
    want = second_compare(x.b, x.len, y.b, y.len);
    if (got != want) differ("compare", &x, &y, got, want);
    tally(&compare_met, got);
    if (memcmp(&x, &was_x, sizeof x) || memcmp(&y, &was_y, sizeof y)) differ("an input was changed", &was_x, &was_y, 0, 0);
}

/* A stamp of 117 bytes into 117, all of them looked at, and into 116. */
static void largest(void) {
    bytes x;
    guarded p, q;
    do {
        large(&x);
    } while (x.len != MOST || second_update(x.b, x.len, p.b, MOST) != MOST);
    fill(&p, &q);
    uint64_t got = ebbmuslin_update(x.b, MOST, p.b, MOST), want = second_update(x.b, MOST, q.b, MOST);
    if (got != MOST || got != want || memcmp(&p, &q, sizeof p)) differ("117 into 117", &x, &x, got, want);
    fill(&p, &q);
    if (ebbmuslin_update(x.b, MOST, p.b, MOST - 1) != 1010 || memcmp(&p, &q, sizeof p)) differ("117 into 116", &x, &x, 0, 0);
}

static void expect(const char *what, uint64_t got, uint64_t want) {
    if (got == want) return;
    printf("%s: %" PRIu64 ", wanted %" PRIu64 "\n", what, got, want);
    exit(1);
}

/* A null pointer with length 0 is an empty slice, in every place. */
static void nulls(void) {
    uint8_t x[3] = {0}, out[MOST];
    expect("update of nothing", ebbmuslin_update(NULL, 0, out, sizeof out), 1001);
    expect("update into nothing", ebbmuslin_update(x, 3, NULL, 0), 1010);
    expect("fork of nothing", ebbmuslin_fork(NULL, 0, out, sizeof out, NULL, 0), 1001);
    expect("fork into nothing", ebbmuslin_fork(x, 3, NULL, 0, out, sizeof out), 1010);
    expect("fork into nothing", ebbmuslin_fork(x, 3, out, sizeof out, NULL, 0), 1010);
    expect("join of nothing", ebbmuslin_join(NULL, 0, x, 3, out, sizeof out), 1001);
    expect("join with nothing", ebbmuslin_join(x, 3, NULL, 0, out, sizeof out), 1001);
    expect("join into nothing", ebbmuslin_join((const uint8_t *)"\0\0\x40", 3, (const uint8_t *)"\0\0\x60", 3, NULL, 0), 1010);
    expect("compare of nothing", ebbmuslin_compare(NULL, 0, x, 3), 1001);
    expect("compare with nothing", ebbmuslin_compare(x, 3, NULL, 0), 1001);
}

/* An id string of 23 digits forks, of 24 is refused; a reduced id of 16 strings is accepted, of 17 refused, and 16 of 17
 * before reduction are accepted. */
static void limits(void) {
    uint8_t p[MOST], q[MOST];
    bytes x = with_ids(1, 23, 5, 0), y = with_ids(1, 24, 5, 0);
    expect("fork of 23 digits", ebbmuslin_fork(x.b, x.len, p, sizeof p, q, sizeof q), (13 + 5 + 4 + 5 + 24 - 9 + 7) / 8);
    expect("fork of 24 digits", ebbmuslin_fork(y.b, y.len, p, sizeof p, q, sizeof q), 1006);
    x = with_ids(15, 6, 0, 4);
    y = with_ids(1, 6, 62, 0);
    expect("16 strings", ebbmuslin_join(x.b, x.len, y.b, y.len, p, sizeof p), (13 + 16 * 11 + 7) / 8);
    x = with_ids(16, 6, 0, 4);
    y = with_ids(1, 6, 62, 0);
    expect("17 strings", ebbmuslin_join(x.b, x.len, y.b, y.len, p, sizeof p), 1007);
    y = with_ids(1, 6, 61, 0);
    expect("17 strings that become 16", ebbmuslin_join(x.b, x.len, y.b, y.len, p, sizeof p), (13 + 15 * 11 + 10 + 7) / 8);
}

/* Known answers: the first stamp, [e|00,1], 3 strings of 16 digits (316), the largest, and refusals 1 and 2. */
static void known_rooms(void) {
    bytes x = with_ids(3, 16, 7, 5), y = with_ids(16, 24, 0, 2), z = with_ids(2, 6, 4, 1);
    expect("room of nothing", ebbmuslin_room(NULL, 0), 0);
    expect("room of the first", ebbmuslin_room((const uint8_t *)"\0\0\0", 3), 100);
    expect("room of [e|00,1]", ebbmuslin_room((const uint8_t *)"\x00\x08\x80\xc0", 4), 202);
    expect("room of 3 strings of 16", ebbmuslin_room(x.b, x.len), 316);
    expect("room of 16 strings of 24", ebbmuslin_room(y.b, y.len), 1624);
    expect("room of bytes cut short", ebbmuslin_room(x.b, x.len - 1), 0);
    expect("room of two siblings", ebbmuslin_room(z.b, z.len), 0);
}

int main(int argc, char **argv) {
    uint64_t rounds = argc > 1 ? strtoull(argv[1], NULL, 10) : 100000;
    seed(argc > 2 ? strtoull(argv[2], NULL, 10) : 1);
    start_pool();
    largest();
    nulls();
    limits();
    known_rooms();
    for (uint64_t k = 0; k < rounds; k++) {
        if (k % 64 == 0) start_pool();
        for (int j = 0; j < 3; j++) evolve();
        one_round();
    }
    int missing = tally_show(&update_met) + tally_show(&fork_met) + tally_show(&join_met) + tally_show(&compare_met);
    if (missing && rounds >= 50000) {
        printf("%d answers were never met\n", missing);
        return 1;
    }
    printf("room: %" PRIu64 " stamps, %" PRIu64 " refused, at most %" PRIu64 "\n", rooms[1], rooms[0], most_room);
    if (rounds >= 50000 && (rooms[0] == 0 || rooms[1] == 0 || most_room != 1624)) return 1;
    printf("%" PRIu64 " rounds, no difference\n", rounds);
    return 0;
}
