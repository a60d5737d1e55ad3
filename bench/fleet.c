/* Fleets of sites that keep copies of one set and meet in pairs: every join, fork and comparison is the library's.
 *
 * Reads lines `SITES LINKS WAY EDITS GATHER MEETINGS SEED` and carries each out until the first refusal, or so many meetings.
 * Prints for each: the words of the line, the meeting that was refused first (0: none) and the number of the refusal.
 * A line with a `+` before it has its meetings printed too: `+ MEETING STRINGS DIGITS`, the most of any site, and each site's own.
 * One with a `?` has more behind the refusal, as the sites stand there: how many pairs could still meet, of how many, whether the
 * first site can take in the others in turn, how many of the copies can be joined in an order that is looked for; and after MORE
 * meetings more, the refused ones left out: how many of these were accepted, and again how many copies can be joined.
 * The line `limits` prints how many digits a string and how many strings a name may have.
 *
 * LINKS  star  the first site meets each other site in turn       ring   each site meets the next, round and round
 *        chain each site meets the next, to and fro               random two sites, drawn
 * WAY    always  a meeting is a join and a fork                   equal  nothing is done where the two are equal
 *        giveup  and of two where one is obsolete, that one is given up and the newer forked
 *        frugal  it is joined where that leaves no more strings than the newer has, else given up
 *        late    it is joined wherever that is not refused, else given up
 * EDITS  few   one site, drawn, has an edit before every tenth meeting; many  before each meeting; one  the first site, before each
 * GATHER 0, or after how many meetings all copies are joined and forked anew; -1: as soon as one has half of the strings or three
 *        quarters of the digits that it may have, and then how often is printed behind the refusal */
#include "../tools/orders.h"
#include <stdio.h>
#include <stdlib.h>
#include <string.h>

enum { SITES = 16, MORE = 100 };

static uint64_t state;

static uint64_t next(void) {
    uint64_t z = (state += 0x9E3779B97F4A7C15u);
    z = (z ^ (z >> 30)) * 0xBF58476D1CE4E5B9u;
    z = (z ^ (z >> 27)) * 0x94D049BB133111EBu;
    return z ^ (z >> 31);
}

static int below(int n) { return (int)(next() % (uint64_t)n); }

static copy site[SITES];
static int sites, most_digits, most_strings, gatherings;

static int refusal(uint64_t r) { return r < EBBMUSLIN_REFUSED ? 0 : (int)(r - EBBMUSLIN_REFUSED); }

/* Nothing here is damaged or cloned: only 6 and 7 may come. */
static void must(int ok, const char *what) {
    if (ok) return;
    fprintf(stderr, "fleet: %s\n", what);
    exit(2);
}

static void edit(copy *a) {
    copy x;
    uint64_t r = ebbmuslin_update(a->b, a->len, x.b, sizeof x.b);
    must(!refusal(r), "an edit was refused");
    x.len = (size_t)r;
    *a = x;
}

/* One copy becomes two; 6, and nothing changed, where a string has all its digits. */
static int forked(const copy *whole, copy *zero, copy *one) {
    copy x, y;
    uint64_t r = ebbmuslin_fork(whole->b, whole->len, x.b, sizeof x.b, y.b, sizeof y.b);
    if (refusal(r)) return refusal(r);
    x.len = y.len = (size_t)r;
    *zero = x;
    *one = y;
    return 0;
}

static int joined_and_forked(copy *a, copy *b) {
    copy whole;
    int r = copies_joined(a, b, &whole);
    return r ? r : forked(&whole, a, b);
}

/* ---- a meeting of two */

enum { ALWAYS, EQUAL, GIVEUP, FRUGAL, LATE };

/* The obsolete copy is joined to the newer or given up, and the newer is forked to both. */
static int renewed(copy *newer, copy *old, int way) {
    copy whole;
    int joins = way >= FRUGAL && copies_joined(newer, old, &whole) == 0 && (way == LATE || copy_strings(&whole) <= copy_strings(newer));
    return joins && forked(&whole, newer, old) == 0 ? 0 : forked(newer, newer, old);
}

static int meet(copy *a, copy *b, int way) {
    if (way == ALWAYS) return joined_and_forked(a, b);
    uint64_t verdict = ebbmuslin_compare(a->b, a->len, b->b, b->len);
    must(verdict < EBBMUSLIN_REFUSED, "a comparison was refused");
    if (verdict == EBBMUSLIN_EQUAL) return 0;
    if (way == EQUAL || verdict == EBBMUSLIN_CONFLICT) return joined_and_forked(a, b);
    return verdict == EBBMUSLIN_OBSOLETE ? renewed(b, a, way) : renewed(a, b, way);
}

/* ---- all of them: one copy forked to every site, each time the copy with the fewest digits */

static int spread(const copy *whole) {
    copy all[SITES];
    all[0] = *whole;
    for (int n = 1; n < sites; n++) {
        int k = 0;
        for (int j = 1; j < n; j++)
            if (copy_digits(&all[j]) < copy_digits(&all[k])) k = j;
        int r = forked(&all[k], &all[k], &all[n]);
        if (r) return r;
    }
    memcpy(site, all, sizeof all);
    return 0;
}

/* Each in turn to the first site. */
static int in_turn(copy *to) {
    order o = {.steps = sites - 1};
    for (int k = 1; k < sites; k++) o.step[k - 1] = (step){0, k};
    return carry_out(site, sites, &o, to);
}

/* In turn; where that is refused, in an order that is looked for. */
static int gathered(copy *to) {
    order o;
    if (in_turn(to) == 0) return 0;
    find_order(site, sites, &o);
    return o.size == sites ? carry_out(site, sites, &o, to) : 7;
}

static int gather(void) {
    copy whole;
    int r = gathered(&whole);
    return r ? r : spread(&whole);
}

/* ---- a run */

typedef struct {
    char links[16], way[16], edits[16];
    int gather, meetings;
    unsigned long long seed;
} plan;

static int word(const char *w, const char *const *of, int n) {
    for (int k = 0; k < n; k++)
        if (strcmp(w, of[k]) == 0) return k;
    must(0, "an unknown word");
    return 0;
}

static int way_of(const plan *p) { return word(p->way, (const char *const[]){"always", "equal", "giveup", "frugal", "late"}, 5); }

static void who(const plan *p, int t, int *a, int *b) {
    int links = word(p->links, (const char *const[]){"star", "ring", "chain", "random"}, 4), k = t % (2 * (sites - 1));
    *a = links == 0 ? 0 : links == 1 ? t % sites : links == 2 ? (k < sites - 1 ? k : 2 * (sites - 1) - 1 - k) : below(sites);
    *b = links == 0 ? 1 + t % (sites - 1) : *a + 1;
    if (links == 1) *b %= sites;
    if (links == 3) *b = (*a + 1 + below(sites - 1)) % sites;
}

static void edits(const plan *p, int t) {
    int kind = word(p->edits, (const char *const[]){"few", "many", "one"}, 3);
    if (kind == 0 && t % 10 != 0) return;
    edit(&site[kind == 2 ? 0 : below(sites)]);
}

static void show(int t) {
    int strings = 0, digits = 0;
    for (int k = 0; k < sites; k++) {
        if (copy_strings(&site[k]) > strings) strings = copy_strings(&site[k]);
        if (copy_digits(&site[k]) > digits) digits = copy_digits(&site[k]);
    }
    printf("+ %d %d %d", t, strings, digits);
    for (int k = 0; k < sites; k++) printf(" %d/%d", copy_strings(&site[k]), copy_digits(&site[k]));
    printf("\n");
}

/* On after the refusal at meeting t, without the refused ones, for so many meetings more; how many of them were accepted. */
static int go_on(const plan *p, int t, int more) {
    int accepted = 0;
    for (int k = 0; k < more; k++) {
        int a, b;
        who(p, t + k, &a, &b);
        accepted += meet(&site[a], &site[b], way_of(p)) == 0;
    }
    return accepted;
}

/* Digits: how often a copy can be forked. Strings: how many of every other of many copies can be joined. */
static void find_limits(void) {
    copy x = {.len = EBBMUSLIN_FIRST_LEN}, y;
    int digits = 0, strings = 1;
    while (forked(&x, &x, &y) == 0) digits++;
    static copy all[256];
    all[0] = (copy){.len = EBBMUSLIN_FIRST_LEN};
    for (int n = 1; n < 256; n *= 2)
        for (int k = n; k-- > 0;) must(forked(&all[k], &all[2 * k], &all[2 * k + 1]) == 0, "a fresh set was refused");
    while (2 * strings < 256 && copies_joined(&all[0], &all[2 * strings], &x) == 0) all[0] = x, strings++;
    most_digits = digits;
    most_strings = strings;
}

static int is_due(const plan *p, int t) {
    int due = p->gather > 0 && t % p->gather == 0;
    for (int k = 0; p->gather < 0 && k < sites; k++)
        due |= 2 * copy_strings(&site[k]) >= most_strings || 4 * copy_digits(&site[k]) >= 3 * most_digits;
    return due;
}

static int run(const plan *p, int shown, int *number) {
    state = p->seed;
    gatherings = 0;
    memset(site, 0, sizeof site);
    copy first = {.len = EBBMUSLIN_FIRST_LEN};
    must(spread(&first) == 0, "a fresh set was refused");
    if (shown) show(0);
    for (int t = 1; t <= p->meetings; t++) {
        int a, b;
        edits(p, t);
        who(p, t - 1, &a, &b);
        *number = meet(&site[a], &site[b], way_of(p));
        if (*number == 0 && is_due(p, t)) *number = gather(), gatherings++;
        must(*number == 0 || *number == 6 || *number == 7, "another refusal than 6 and 7");
        if (*number) return t;
        if (shown) show(t);
    }
    return 0;
}

static int pairs_left(int way) {
    int left = 0;
    for (int a = 0; a < sites; a++)
        for (int b = a + 1; b < sites; b++) {
            copy x = site[a], y = site[b];
            left += meet(&x, &y, way) == 0;
        }
    return left;
}

static void limits_or_nothing(const char *line) {
    must(strcmp(line, "limits\n") == 0, "a line that is none");
    printf("limits %d %d\n", most_digits, most_strings);
}

/* What is left after the first refusal, at meeting `first`. */
static void afterwards(const plan *p, int first) {
    copy whole;
    order o;
    int left = pairs_left(way_of(p)), turn = in_turn(&whole) == 0;
    find_order(site, sites, &o);
    printf(" %d %d %d %d", left, sites * (sites - 1) / 2, turn, o.size);
    int on = go_on(p, first, MORE);
    find_order(site, sites, &o);
    printf(" %d %d", on, o.size);
}

int main(void) {
    plan p;
    char line[128];
    find_limits();
    while (fgets(line, sizeof line, stdin)) {
        int marked = line[0] == '+' || line[0] == '?', number = 0;
        if (sscanf(line + marked, "%d %15s %15s %15s %d %d %llu", &sites, p.links, p.way, p.edits, &p.gather, &p.meetings, &p.seed) != 7) {
            limits_or_nothing(line);
            continue;
        }
        must(sites >= 2 && sites <= SITES && p.gather >= -1, "a line that is none");
        int first = run(&p, line[0] == '+', &number);
        printf("%d %s %s %s %d %d %llu %d %d", sites, p.links, p.way, p.edits, p.gather, p.meetings, p.seed, first, number);
        if (p.gather < 0) printf(" %d", gatherings);
        if (line[0] == '?' && first) afterwards(&p, first);
        printf("\n");
    }
    return 0;
}
