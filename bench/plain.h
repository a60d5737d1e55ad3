/* The four calls of include/ebbmuslin.h in plain C: same arguments, same results. */
#ifndef BENCH_PLAIN_H
#define BENCH_PLAIN_H

#include <stddef.h>
#include <stdint.h>

uint64_t plain_update(const uint8_t *stamp, size_t stamp_len, uint8_t *out, size_t out_len);
uint64_t plain_fork(const uint8_t *stamp, size_t stamp_len, uint8_t *zero, size_t zero_len, uint8_t *one, size_t one_len);
uint64_t plain_join(const uint8_t *first, size_t first_len, const uint8_t *second, size_t second_len, uint8_t *out, size_t out_len);
uint64_t plain_compare(const uint8_t *first, size_t first_len, const uint8_t *second, size_t second_len);

#endif
