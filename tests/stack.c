/* How deep each call goes: it runs on a painted stack of its own, and what it has not touched is counted.
 * Prints the bytes of each call at its deepest over stamps small and large, less what an empty thread uses. What each call
 * answers and writes is held to the second implementation, so that no depth is that of a refusal.
 *
 * usage: stack [MOST]     (status 1 where a call uses more than MOST bytes, or answers something else) */
#include "../include/ebbmuslin.h"
#include "second.h"
#include <pthread.h>
#include <stdio.h>
#include <stdlib.h>
#include <string.h>

enum { SIZE = 1 << 18, PAINT = 0xA5 };

static uint8_t *painted;
static uint8_t first[EBBMUSLIN_MOST], second[EBBMUSLIN_MOST], out[EBBMUSLIN_MOST], other[EBBMUSLIN_MOST];
static uint8_t want_out[EBBMUSLIN_MOST], want_other[EBBMUSLIN_MOST];
static size_t first_len, second_len;
static uint64_t answered;

static void *nothing(void *unused) { return unused; }

static void *update(void *unused) {
    answered = ebbmuslin_update(first, first_len, out, sizeof out);
    return unused;
}

static void *fork_both(void *unused) {
    answered = ebbmuslin_fork(first, first_len, out, sizeof out, other, sizeof other);
    return unused;
}

static void *join(void *unused) {
    answered = ebbmuslin_join(first, first_len, second, second_len, out, sizeof out);
    return unused;
}

static void *compare(void *unused) {
    answered = ebbmuslin_compare(first, first_len, second, second_len);
    return unused;
}

static void *room(void *unused) {
    answered = ebbmuslin_room(first, first_len);
    return unused;
}

static size_t used(void *(*call)(void *)) {
    pthread_attr_t attr;
    pthread_t thread;
    memset(painted, PAINT, SIZE);
    pthread_attr_init(&attr);
    if (pthread_attr_setstack(&attr, painted, SIZE) || pthread_create(&thread, &attr, call, NULL)) {
        printf("no thread\n");
        exit(2);
    }
    pthread_join(thread, NULL);
    size_t free = 0;
    while (free < SIZE && painted[free] == PAINT) free++;
    return SIZE - free;
}

static void put(uint8_t *b, size_t *at, unsigned v, unsigned w) {
    for (unsigned k = w; k-- > 0; ++*at) b[*at / 8] |= (uint8_t)(((v >> k) & 1) << (7 - *at % 8));
}

/* A stamp whose names both have the strings base, base + 2, ..: count of them, of so many digits. */
static size_t stamp(uint8_t *b, unsigned base, unsigned count, unsigned digits) {
    size_t at = 0;
    memset(b, 0, EBBMUSLIN_MOST);
    for (int name = 0; name < 2; name++) {
        put(b, &at, count - 1, 4);
        for (unsigned k = 0; k < count; k++) {
            put(b, &at, digits, 5);
            put(b, &at, base + 2 * k, digits);
        }
    }
    return (at + 7) / 8;
}

static uint64_t want_update(void) { return second_update(first, first_len, want_out, sizeof want_out); }

static uint64_t want_fork(void) {
    return second_fork(first, first_len, want_out, sizeof want_out, want_other, sizeof want_other);
}

static uint64_t want_join(void) { return second_join(first, first_len, second, second_len, want_out, sizeof want_out); }

static uint64_t want_compare(void) { return second_compare(first, first_len, second, second_len); }

static uint64_t want_room(void) { return second_room(first, first_len); }

/* Buffers with the same bytes, for the library and for the second implementation. */
static void same_buffers(void) {
    memset(out, 0x5C, sizeof out);
    memset(other, 0x5C, sizeof other);
    memcpy(want_out, out, sizeof out);
    memcpy(want_other, other, sizeof other);
}

static size_t deepest(const char *name, unsigned digits, void *(*call)(void *), uint64_t (*want)(void)) {
    size_t most = 0;
    for (unsigned count = 1; count <= 16; count++) {
        first_len = stamp(first, 0, count, digits);
        second_len = stamp(second, 1, count, digits); /* so that a join reduces all the way down */
        same_buffers();
        size_t n = used(call);
        uint64_t wanted = want();
        int refused = want == want_room ? answered == 0 : answered >= 1000;
        if (answered != wanted || refused || memcmp(out, want_out, sizeof out) || memcmp(other, want_other, sizeof other)) {
            printf("%s of %u strings answers %llu, wanted %llu, or writes other bytes\n", name, count, (unsigned long long)answered,
                   (unsigned long long)wanted);
            exit(1);
        }
        if (n > most) most = n;
    }
    return most;
}

int main(int argc, char **argv) {
    size_t most = argc > 1 ? strtoul(argv[1], NULL, 10) : SIZE;
    painted = aligned_alloc(4096, SIZE);
    size_t base = used(nothing);
    struct {
        const char *name;
        unsigned digits; /* a string of 24 can be forked no more */
        void *(*call)(void *);
        uint64_t (*want)(void);
    } calls[] = {{"update", 24, update, want_update},
                 {"fork", 23, fork_both, want_fork},
                 {"join", 24, join, want_join},
                 {"compare", 24, compare, want_compare},
                 {"room", 24, room, want_room}};
    int bad = 0;
    for (size_t k = 0; k < sizeof calls / sizeof calls[0]; k++) {
        size_t n = deepest(calls[k].name, calls[k].digits, calls[k].call, calls[k].want) - base;
        printf("%s: %zu bytes of stack\n", calls[k].name, n);
        bad |= n > most;
    }
    return bad;
}
