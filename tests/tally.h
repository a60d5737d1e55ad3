/* What each call answered: a verdict or how many bytes, or 1,000 plus the refusal's number. A call's tally names what it must have met. */
#ifndef TALLY_H
#define TALLY_H
#include <inttypes.h>
#include <stdint.h>
#include <stdio.h>

typedef struct {
    const char *call;
    const char *what;     /* what an answer below 1,000 is, where it is counted as one */
    int must[16], musts;  /* the answers that must have been met; ACCEPTED is any below 1,000 */
    uint64_t met[1020];
} tallied;

enum { ACCEPTED = -1 };

static inline void tally(tallied *t, uint64_t r) { t->met[r < 1020 ? r : 1019]++; }

static inline uint64_t tally_of(const tallied *t, int r) {
    uint64_t all = 0;
    if (r != ACCEPTED) return t->met[r];
    for (int k = 0; k < 1000; k++) all += t->met[k];
    return all;
}

/* Prints the tally in a line; how many of what it must have met it has not. */
static inline int tally_show(const tallied *t) {
    int missing = 0;
    printf("%s:", t->call);
    for (int k = 0; k < t->musts; k++) {
        int r = t->must[k];
        if (r == ACCEPTED) printf(" %s", t->what);
        else if (r < 1000) printf(" %d", r);
        else printf(" refused %d", r - 1000);
        printf(" %" PRIu64 "%s", tally_of(t, r), k + 1 < t->musts ? "," : "\n");
        missing += tally_of(t, r) == 0;
    }
    return missing;
}
#endif
