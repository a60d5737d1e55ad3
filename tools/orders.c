/* In which order copies can be joined within the limits.
 *
 * An order of joins is a tree over the copies, and what stands at a node depends on the set below it alone, not on the order:
 * union and reduction have one result. So a set can be joined if it has one copy, or if it falls into two sets that can be joined
 * and the join of those two is not refused. All sets are gone through, the small ones first: up to COPIES_TRIED copies with every
 * one of these joins made by the library, and held to give the same bytes; up to COPIES_SETS with one accepted join a set, or one
 * refused 7, standing for the others of that set, and only where the quick way finds no order for all. The quick way, and beyond
 * COPIES_SETS the only one: the pair that leaves the fewest strings first, and many tries with other pairs; what that does not find
 * may still be there. */
#include "orders.h"
#include <stdio.h>
#include <stdlib.h>
#include <string.h>

uint64_t ebbmuslin_room(const uint8_t *stamp, size_t stamp_len);

int copies_joined(const copy *a, const copy *b, copy *to) {
    uint64_t r = ebbmuslin_join(a->b, a->len, b->b, b->len, to->b, EBBMUSLIN_MOST);
    if (r >= EBBMUSLIN_REFUSED) return (int)(r - EBBMUSLIN_REFUSED);
    to->len = (size_t)r;
    return 0;
}

int copy_strings(const copy *a) { return (int)(ebbmuslin_room(a->b, a->len) / 100); }
int copy_digits(const copy *a) { return (int)(ebbmuslin_room(a->b, a->len) % 100); }

static int members(uint64_t set) { return __builtin_popcountll(set); }
static int lowest(uint64_t set) { return __builtin_ctzll(set); }

int carry_out(const copy *copies, int n, const order *o, copy *to) {
    copy slot[COPIES_MOST];
    memcpy(slot, copies, (size_t)n * sizeof *copies);
    for (int k = 0; k < o->steps; k++) {
        copy joined;
        int r = copies_joined(&slot[o->step[k].into], &slot[o->step[k].from], &joined);
        if (r) return r;
        slot[o->step[k].into] = joined;
    }
    *to = slot[o->steps ? o->step[o->steps - 1].into : lowest(o->set)];
    return 0;
}

/* ---- every set */

typedef struct {
    uint8_t known, visits, peak;
    uint32_t part; /* of the best way: the part with the lowest copy; the rest is joined to it */
    copy is;
} node;

/* How many joins bring together two parts that were both joined before, and the most strings on the way. */
static void weigh(node *at, uint8_t *can, uint32_t set, uint32_t part) {
    const node *a = at + part, *b = at + (set ^ part);
    node *s = at + set;
    int visits = a->visits + b->visits + (members(part) > 1 && members(set ^ part) > 1);
    int peak = copy_strings(&s->is);
    if (a->peak > peak) peak = a->peak;
    if (b->peak > peak) peak = b->peak;
    if (can[set] && (visits > s->visits || (visits == s->visits && peak >= s->peak))) return;
    can[set] = 1;
    s->part = part;
    s->visits = (uint8_t)visits;
    s->peak = (uint8_t)peak;
}

/* Joins the two parts of a set; 0 where no other parts of this set need be looked at. */
static int join_parts(node *at, uint8_t *can, uint32_t set, uint32_t part, int all) {
    node *s = at + set;
    copy joined;
    if (!s->known || all) {
        int r = copies_joined(&at[part].is, &at[set ^ part].is, &joined);
        if (r) return r != 7 || all;
        if (s->known && (s->is.len != joined.len || memcmp(s->is.b, joined.b, joined.len))) {
            fprintf(stderr, "orders: a set of copies was joined to two different stamps\n");
            exit(2);
        }
        s->is = joined;
        s->known = 1;
    }
    weigh(at, can, set, part);
    return 1;
}

static void write_steps(const node *at, uint32_t set, order *o) {
    if (members(set) < 2) return;
    uint32_t part = at[set].part;
    write_steps(at, part, o);
    write_steps(at, set ^ part, o);
    o->step[o->steps++] = (step){lowest(part), lowest(set ^ part)};
}

static void every_order(const copy *copies, int n, order *o) {
    uint32_t full = (uint32_t)((1ull << n) - 1), best = 1;
    node *at = calloc((size_t)full + 1, sizeof *at);
    uint8_t *can = calloc((size_t)full + 1, 1);
    if (!at || !can) {
        fprintf(stderr, "orders: no memory\n");
        exit(2);
    }
    for (uint32_t set = 1; set <= full; set++) {
        uint32_t low = set & (~set + 1);
        if (set == low) at[set] = (node){.known = 1, .is = copies[lowest(set)], .peak = (uint8_t)copy_strings(&copies[lowest(set)])}, can[set] = 1;
        for (uint32_t from = set ^ low; from; from = (from - 1) & (set ^ low))
            if (can[from] && can[set ^ from] && !join_parts(at, can, set, set ^ from, n <= COPIES_TRIED)) break;
        if (can[set] && members(set) > members(best)) best = set;
    }
    *o = (order){.set = best, .size = members(best), .every = 1};
    write_steps(at, best, o);
    free(at);
    free(can);
}

/* ---- beyond that: greedy, many times */

typedef struct {
    int gain; /* strings that the join leaves, less those of both; or refused */
    copy is;
} met;

enum { REFUSED = 1 << 20, QUICK = 8 };

static uint64_t state;

static uint64_t draw(uint64_t n) {
    uint64_t z = (state += 0x9E3779B97F4A7C15u);
    z = (z ^ (z >> 30)) * 0xBF58476D1CE4E5B9u;
    z = (z ^ (z >> 27)) * 0x94D049BB133111EBu;
    return (z ^ (z >> 31)) % n;
}

static void meet(const copy *slot, int a, int b, met *m) {
    copy joined;
    m->gain = REFUSED;
    if (copies_joined(&slot[a], &slot[b], &joined)) return;
    m->gain = copy_strings(&joined) - copy_strings(&slot[a]) - copy_strings(&slot[b]);
    m->is = joined;
}

/* The pair to join next: one that leaves the fewest strings; among the best in the first try the first one, later any, at times any pair. */
static step choose(const met (*pair)[COPIES_MOST], const int *live, int n, int try) {
    int best = REFUSED, seen = 0, loose = try > 0 && draw(4) == 0;
    step chosen = {-1, -1};
    for (int a = 0; a < n; a++)
        for (int b = a + 1; b < n; b++) {
            if (!live[a] || !live[b] || pair[a][b].gain == REFUSED) continue;
            int gain = loose ? 0 : pair[a][b].gain;
            if (gain < best) best = gain, seen = 0;
            if (gain == best && (seen++ == 0 || (try > 0 && draw((uint64_t)seen) == 0))) chosen = (step){a, b};
        }
    return chosen;
}

static void one_try(const copy *copies, int n, int try, met (*pair)[COPIES_MOST], order *o) {
    copy slot[COPIES_MOST];
    order group[COPIES_MOST];
    int live[COPIES_MOST], best = 0;
    for (int k = 0; k < n; k++) slot[k] = copies[k], live[k] = 1, group[k] = (order){.set = 1ull << k, .size = 1};
    for (int a = 0; a < n; a++)
        for (int b = a + 1; b < n; b++) meet(slot, a, b, &pair[a][b]);
    for (step s; (s = choose((const met(*)[COPIES_MOST])pair, live, n, try)).into >= 0;) {
        int x = s.into, y = s.from;
        slot[x] = pair[x][y].is;
        live[y] = 0;
        group[x].set |= group[y].set;
        group[x].size += group[y].size;
        memcpy(group[x].step + group[x].steps, group[y].step, (size_t)group[y].steps * sizeof(step));
        group[x].steps += group[y].steps;
        group[x].step[group[x].steps++] = s;
        for (int k = 0; k < n; k++)
            if (live[k] && k != x) meet(slot, x < k ? x : k, x < k ? k : x, x < k ? &pair[x][k] : &pair[k][x]);
    }
    for (int k = 0; k < n; k++)
        if (live[k] && group[k].size > group[best].size) best = k;
    if (group[best].size > o->size) *o = group[best];
}

static void greedy(const copy *copies, int n, int tries, order *o) {
    met(*pair)[COPIES_MOST] = calloc(COPIES_MOST, sizeof *pair);
    if (!pair) {
        fprintf(stderr, "orders: no memory\n");
        exit(2);
    }
    state = 1;
    *o = (order){.size = 0};
    for (int try = 0; try < tries && o->size < n; try++) one_try(copies, n, try, pair, o);
    o->every = o->size == n;
    free(pair);
}

void find_order(const copy *copies, int n, order *found) {
    found->size = 0;
    if (n > COPIES_TRIED) greedy(copies, n, n <= COPIES_SETS ? QUICK : COPIES_TRIES, found);
    if (found->size < n && n <= COPIES_SETS) every_order(copies, n, found);
}
