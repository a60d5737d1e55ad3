/* An order in which the copies in a bundle can all be joined within the limits, or the largest set of them that can. See ../gather.
 * Reads a bundle on standard input: entries back to back, each a length byte and that many bytes of packed stamp. */
#include "orders.h"
#include <stdio.h>
#include <string.h>

enum { BUNDLE = 65536, SHORTEST = 3 };

static uint8_t bundle[BUNDLE + 1];
static copy entry[COPIES_MOST];

static const char *const words[] = {
    [1] = "no packed stamp, or an entry that is cut short",
    [2] = "a stamp that no copy has",
    [8] = "they carry one identity: one was cloned, in place of a fork",
    [9] = "one of them is not what its stamp says: put back from a backup, or cloned",
    [13] = "the bundle has no entry",
};

static int refused(int k, int number) {
    fprintf(stderr, "gather: entry %d: refused %d (%s)\n", k, number, words[number]);
    return 1;
}

/* The copies of the bundle; their number, or less than 0 where something was told on standard error. */
static int entries(size_t len) {
    size_t at = 0;
    int n = 0;
    if (len > BUNDLE) return -refused(0, 1);
    if (len == 0) return -refused(0, 13);
    for (; at < len; n++) {
        size_t size = bundle[at];
        copy x = {.len = size}, y;
        if (size < SHORTEST || size > EBBMUSLIN_MOST || size > len - at - 1) return -refused(n, 1);
        uint64_t r = ebbmuslin_update(bundle + at + 1, size, y.b, sizeof y.b);
        if (r >= EBBMUSLIN_REFUSED) return -refused(n, (int)(r - EBBMUSLIN_REFUSED));
        if (n == COPIES_MOST) {
            fprintf(stderr, "gather: more than %d copies: give a part of them\n", COPIES_MOST);
            return -1;
        }
        memcpy(x.b, bundle + at + 1, size);
        entry[n] = x;
        at += 1 + size;
    }
    return n;
}

/* Two copies that no order brings together. */
static void pairs_apart(int n) {
    copy joined;
    for (int a = 0; a < n; a++)
        for (int b = a + 1; b < n; b++) {
            int r = copies_joined(&entry[a], &entry[b], &joined);
            if (r == 8 || r == 9) printf("apart: %d %d: refused %d (%s)\n", a, b, r, words[r]);
        }
}

static void not_all(int n, const order *o) {
    if (o->every) printf("none: no order joins all %d copies\n", n);
    else printf("none found: no order for all %d copies in %d tries; not every order was looked at\n", n, COPIES_TRIES);
    printf("most: %d of %d:", o->size, n);
    for (int k = 0; k < n; k++)
        if (o->set >> k & 1) printf(" %d", k);
    printf("\n");
    pairs_apart(n);
}

int main(void) {
    order o;
    copy whole;
    size_t len = fread(bundle, 1, sizeof bundle, stdin);
    if (ferror(stdin)) {
        fprintf(stderr, "gather: a read failed\n");
        return 1;
    }
    int n = entries(len);
    if (n < 0) return 1;
    find_order(entry, n, &o);
    int r = carry_out(entry, n, &o, &whole);
    if (r) {
        fprintf(stderr, "gather: the order that was found is refused %d\n", r);
        return 2;
    }
    if (o.size < n) not_all(n, &o);
    for (int k = 0; k < o.steps; k++) printf("J %d %d\n", o.step[k].into, o.step[k].from);
    if (n == 1) fprintf(stderr, "gather: one copy, nothing to join\n");
    if (fflush(stdout) || ferror(stdout)) {
        fprintf(stderr, "gather: a write failed\n");
        return 1;
    }
    return o.size < n ? 3 : 0;
}
