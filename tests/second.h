/* The second implementation, for the tests: see second.c. */
#ifndef SECOND_H
#define SECOND_H
#include <stddef.h>
#include <stdint.h>

/* A copy record: two names, each a count and 16 words. */
typedef struct {
    uint64_t count, words[16];
} record_name;

typedef struct {
    record_name update, id;
} record;

/* A part of one of two stamps. */
typedef struct {
    const uint8_t *at;
    size_t len;
} kept;

/* the calls of the header, compare with the uncovered strings too, and which of two to keep. Out is the place and the word of the
 * first's uncovered string, then of the second's; 0 and 0 where the verdict has none, and on refusal. */
uint64_t second_update(const uint8_t *stamp, size_t stamp_len, uint8_t *out, size_t out_len);
uint64_t second_fork(const uint8_t *stamp, size_t stamp_len, uint8_t *zero, size_t zero_len, uint8_t *one, size_t one_len);
uint64_t second_join(const uint8_t *first, size_t first_len, const uint8_t *second, size_t second_len, uint8_t *out, size_t out_len);
uint64_t second_compare(const uint8_t *first, size_t first_len, const uint8_t *second, size_t second_len);
uint64_t second_stood(const uint8_t *first, size_t first_len, const uint8_t *second, size_t second_len, uint64_t out[4]);
uint64_t second_room(const uint8_t *stamp, size_t stamp_len);
kept second_keep(const uint8_t *first, size_t first_len, const uint8_t *second, size_t second_len);

/* stamps by value: 0, a verdict, how many bytes, or 1,000 plus the refusal's number */
uint64_t second_read(const uint8_t *b, size_t len, record *out);
uint64_t second_write(const record *r, uint8_t *out, size_t out_len);
size_t second_size(const record *r);
uint64_t second_entry(const uint8_t *b, size_t len, size_t k, record *out);
int second_is_lawful(const record *r);
uint64_t second_updated(const record *r, record *out);
uint64_t second_forked(const record *r, record *zero, record *one);
uint64_t second_joined(const record *r, const record *s, record *out);
uint64_t second_met(const record *r, const record *s);
uint64_t second_compared(const record *r, const record *s, uint64_t out[4]);

/* the table of copies */
uint64_t second_table_fresh(record *t, size_t n);
uint64_t second_table_update(record *t, size_t n, size_t a);
uint64_t second_table_fork(record *t, size_t n, size_t a);
uint64_t second_table_join(record *t, size_t n, size_t a, size_t b);
uint64_t second_table_compare(const record *t, size_t n, size_t a, size_t b);
uint64_t second_table_spare(const record *t, size_t n, size_t a);
#endif
