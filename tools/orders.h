/* In which order copies can be joined within the limits: a search over the library's own joins. */
#ifndef ORDERS_H
#define ORDERS_H
#include "../include/ebbmuslin.h"

enum {
    COPIES_MOST = 64, /* copies that are looked at */
    COPIES_SETS = 16, /* up to so many, every order is looked at */
    COPIES_TRIED = 8, /* up to so many, every join of every order is tried on the library */
    COPIES_TRIES = 200, /* how often an order is tried for more copies */
};

typedef struct {
    size_t len;
    uint8_t b[EBBMUSLIN_MOST];
} copy;

/* A join: the result stands in `into`, `from` is gone. */
typedef struct {
    int into, from;
} step;

/* An order for the largest set of copies that was found. */
typedef struct {
    uint64_t set; /* bit k: copy k is in it */
    int size, steps;
    step step[COPIES_MOST];
    int every; /* whether every order was looked at: then no larger set can be joined */
} order;

/* The join of two copies: 0, or the number of the refusal. */
int copies_joined(const copy *a, const copy *b, copy *to);

/* How many id strings a stamp has, and the digits of the longest. */
int copy_strings(const copy *a);
int copy_digits(const copy *a);

/* The order for the largest set; 1 to COPIES_MOST copies. */
void find_order(const copy *copies, int n, order *found);

/* Carries out the joins of an order; 0, or the number of the refusal that one of them met. The result is in `to`. */
int carry_out(const copy *copies, int n, const order *o, copy *to);

#endif
