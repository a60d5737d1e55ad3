/* The functions of crates/probes. A record is the library's own: two names, each a count and 16 words. */
#ifndef PROBES_H
#define PROBES_H
#include "second.h"
#include <stdbool.h>

uint64_t probe_fresh(record *t, size_t n);
uint64_t probe_update(record *t, size_t n, size_t a);
uint64_t probe_fork(record *t, size_t n, size_t a);
uint64_t probe_join(record *t, size_t n, size_t a, size_t b);
uint64_t probe_compare(const record *t, size_t n, size_t a, size_t b);
uint64_t probe_spare(const record *t, size_t n, size_t a);

uint64_t probe_read(const uint8_t *b, size_t len, record *out);
uint64_t probe_write(const record *r, uint8_t *out, size_t out_len);
uint64_t probe_entry(const uint8_t *b, size_t len, size_t k, record *out);
uint64_t probe_stood(const uint8_t *first, size_t first_len, const uint8_t *second, size_t second_len, uint64_t out[4]);
uint64_t probe_keep(const uint8_t *first, size_t first_len, const uint8_t *second, size_t second_len);
void probe_kept(const uint8_t *first, size_t first_len, const uint8_t *second, size_t second_len, kept *out);
bool probe_is_lawful(const record *r);
uint64_t probe_updated(const record *r, record *out);
uint64_t probe_forked(const record *r, record *zero, record *one);
uint64_t probe_joined(const record *r, const record *s, record *out);
uint64_t probe_met(const record *r, const record *s);
uint64_t probe_compared(const record *r, const record *s, uint64_t out[4]);
#endif
