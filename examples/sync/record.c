/* FILE.stamp: one line, what the file held when the stamp was made, and the stamp.
 *
 *   size 16 fnv1a 5d0b4e6a0c1f2a33 stamp 000040
 *
 * Both stand in one file, so that no crash can part them. */
#include "sync.h"
#include <inttypes.h>
#include <stdio.h>
#include <stdlib.h>
#include <string.h>

bool is_same(content a, content b) { return a.size == b.size && a.hash == b.hash; }

char *record_text(const record *r) {
    char digits[2 * EBBMUSLIN_MOST + 1] = "";
    for (size_t k = 0; k < r->stamp.len; k++) sprintf(digits + 2 * k, "%02x", r->stamp.bytes[k]);
    return text("size %" PRIu64 " fnv1a %016" PRIx64 " stamp %s\n", r->of.size, r->of.hash, digits);
}

/* Reads a record. Only what record_text writes is one: it is written again and compared. */
bool record_of(const char *s, record *r) {
    char digits[2 * EBBMUSLIN_MOST + 1] = "";
    *r = (record){.stamp.len = 0};
    if (sscanf(s, "size %" SCNu64 " fnv1a %" SCNx64 " stamp %234[0-9a-f]", &r->of.size, &r->of.hash, digits) == 3)
        for (unsigned byte; sscanf(digits + 2 * r->stamp.len, "%2x", &byte) == 1;) r->stamp.bytes[r->stamp.len++] = (uint8_t)byte;
    char *again = record_text(r);
    bool reads = r->stamp.len > 0 && strcmp(s, again) == 0;
    free(again);
    if (!reads) *r = (record){.stamp.len = 0};
    return reads;
}

char *stamp_file(const char *file) { return text("%s.stamp", file); }

/* The record of a file: 1, 0 where it has none, -1 where it cannot be read from the disk (errno says why). */
int get_record(const folder *at, const char *file, record *r) {
    char *bytes, *name = stamp_file(file);
    size_t n;
    int found = get(at, name, &bytes, &n);
    free(name);
    *r = (record){.stamp.len = 0};
    if (found != 1) return found;
    if (strlen(bytes) == n) record_of(bytes, r);
    free(bytes);
    return 1;
}

void put_record(const folder *at, const char *file, const record *r) {
    char *line = record_text(r), *name = stamp_file(file);
    put(at, name, line, strlen(line));
    free(line);
    free(name);
}
