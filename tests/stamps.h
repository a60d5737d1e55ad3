/* Stamps to test with, made by the second implementation: see stamps.c. */
#ifndef STAMPS_H
#define STAMPS_H
#include <stddef.h>
#include <stdint.h>

enum { MOST = 117, GUARD = 16, POOL = 48, BUFFER = 192 };

typedef struct {
    size_t len;
    uint8_t b[BUFFER];
} bytes;

/* the copies of one history, side by side, and as they were some steps ago */
extern bytes pool[POOL], before[POOL];
extern size_t copies, copies_before;

void seed(uint64_t s);
uint64_t next(void);
size_t below(size_t n);
void start_pool(void);
void evolve(void);
void some_fields(bytes *x);
void large(bytes *x);
void any_stamp(bytes *x);
void two_apart(bytes *x, bytes *y);
void any_two(bytes *x, bytes *y);
bytes with_ids(unsigned count, unsigned deep, unsigned first, unsigned step);
#endif
