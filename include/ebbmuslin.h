/* Ebbmuslin: which copies of a record set have seen which edits.
 *
 * Each copy of a set carries a stamp, 3 to 117 bytes. Keep it beside the copy. Four calls make the stamp of an edited copy,
 * of a copy made from another, of two copies that became one, and say how two copies stand to each other; a fifth tells how
 * much room a stamp has left. They read no clock, no file and no list of stations. Link libebbmuslin.a (`bash install PREFIX`
 * and pkg-config, or rt lib in crates/ebbmuslin; x86-64 Linux).
 *
 * The first copy of a set has the stamp of three zero bytes, EBBMUSLIN_FIRST below. Every other copy comes from a fork.
 *
 * What no compiler checks, and the caller must see to:
 *  - A pointer with a length is the address of that many bytes. A null pointer with length 0 has been tested and is taken as
 *    an empty slice; any valid address with length 0 is safer.
 *  - An output must not overlap another argument, neither an input nor the other output: to update a stamp in place, write
 *    into a second buffer and copy it back. Two inputs may overlap, or be the same bytes.
 *  - No alignment is asked of any pointer.
 *  - EBBMUSLIN_MOST bytes always suffice for an output. A shorter one is refused (10) where the result does not fit.
 *  - Stack: at most 1,560 bytes were measured for a join, 1,096 for a compare, 1,048 for a fork, 728 for an update,
 *    696 for room; allow 4,096.
 *  - The calls keep nothing between them and may be made from any number of threads, on buffers of their own.
 *
 * A refused call writes nothing. An accepted one writes the result at the front of the output and keeps the rest of it.
 *
 * Durability, which the caller must see to as well. A stamp is an identity: two copies that carry the same one, or parts of
 * one, are refused (8), or worse, compare as if the edits of the one were the other's.
 *  - Fork: the 0 branch is stored where the old copy lies, and flushed to disk, before the 1 branch leaves for anywhere else.
 *    A crash in between loses the 1 branch, which costs room and nothing more. The other way round it makes a clone.
 *  - Join: both inputs are retired together. Write down what is to be done first, then take the one away, then put the result
 *    in place of the other, so that after a crash the next run finishes, or refuses. Never leave an input beside the result.
 *  - Never use a stamp twice: not after it was forked, joined or updated, not out of a backup, not in a copy of a folder made
 *    whole. Whoever puts a backup back gives it a new identity from a living copy (a fork).
 *  - Write each stamp to a temporary name, flush it, rename it, and flush the folder. One process at a time.
 * examples/sync does all of it, and a test stops it at every write.
 */
#ifndef EBBMUSLIN_H
#define EBBMUSLIN_H

#include <stddef.h>
#include <stdint.h>

#ifdef __cplusplus
extern "C" {
#endif

/* The version of this interface: a new number in front where a caller must change, in the middle where something was added. */
#define EBBMUSLIN_VERSION_MAJOR 1
#define EBBMUSLIN_VERSION_MINOR 0
#define EBBMUSLIN_VERSION_PATCH 0
#define EBBMUSLIN_VERSION "1.0.0"

/* No stamp is longer. */
#define EBBMUSLIN_MOST 117

/* The stamp of the first copy of a set: three bytes, all zero. */
#define EBBMUSLIN_FIRST "\0\0\0"
#define EBBMUSLIN_FIRST_LEN 3

/* What ebbmuslin_compare says of the first copy beside the second. */
#define EBBMUSLIN_EQUAL 0    /* both have seen the same edits: either may go */
#define EBBMUSLIN_OBSOLETE 1 /* the second has seen all that the first has, and more: take the second */
#define EBBMUSLIN_NEWER 2    /* the first has seen all that the second has, and more: take the first */
#define EBBMUSLIN_CONFLICT 3 /* each has seen edits that the other lacks: somebody must settle it */

/* A result of EBBMUSLIN_REFUSED or more is a refusal: 1,000 plus its number. Ask before a result is used as a length. */
#define EBBMUSLIN_REFUSED 1000
#define EBBMUSLIN_IS_REFUSED(r) ((r) >= EBBMUSLIN_REFUSED)
#define EBBMUSLIN_MALFORMED 1001 /* these bytes are no packed stamp: cut short, damaged, or something else; fetch them again */
#define EBBMUSLIN_UNLAWFUL 1002  /* the bytes read, and say something that no copy's stamp says: do not use them; call us */
#define EBBMUSLIN_LONG 1006      /* fork: this copy has been forked too often since it was last joined: see docs/FLEETS.md */
#define EBBMUSLIN_MANY 1007      /* join: the result would not fit a stamp, its identity is in too many pieces: see docs/FLEETS.md */
#define EBBMUSLIN_OVERLAP 1008   /* the two carry one identity: a copy was cloned with its stamp, in place of a fork; neither may replace the other */
#define EBBMUSLIN_UNSEEN 1009    /* one of the two is not what its stamp says: a stamp was put back from an older backup, or cloned */
#define EBBMUSLIN_SHORT 1010     /* an output buffer is too short for the result */

/* After an edit of the copy: its new stamp into out. Gives the bytes written. Refused: 1, 2, 10. */
uint64_t ebbmuslin_update(const uint8_t *stamp, size_t stamp_len, uint8_t *out, size_t out_len);

/* To make a copy of a copy: the stamp that the old copy has from now on into zero, that of the new copy into one. They have the
 * same length, which is given. If either buffer is too short, neither is written. Refused: 1, 2, 6, 10. */
uint64_t ebbmuslin_fork(const uint8_t *stamp, size_t stamp_len, uint8_t *zero, size_t zero_len, uint8_t *one, size_t one_len);

/* Two copies become one that has seen the edits of both: its stamp into out; the stamps of the two must not be used again.
 * Gives the bytes written. Refused: 1 and 2 of the first, 1 and 2 of the second, 8, 9, 7, 10. */
uint64_t ebbmuslin_join(const uint8_t *first, size_t first_len, const uint8_t *second, size_t second_len, uint8_t *out, size_t out_len);

/* How the first copy stands to the second: a verdict, 0 to 3. Refused: 1 and 2 of the first, 1 and 2 of the second, 8, 9. */
uint64_t ebbmuslin_compare(const uint8_t *first, size_t first_len, const uint8_t *second, size_t second_len);

/* How much of its room a stamp uses: 100 times the number of its id strings (a join is refused, 7, beyond 16) plus the digits of
 * the longest of them (a fork is refused, 6, at 24). 316 is 3 strings, the longest of 16 digits. 0 where the stamp is refused.
 * From 8 strings or 18 digits on it is time to gather copies: docs/FLEETS.md. */
uint64_t ebbmuslin_room(const uint8_t *stamp, size_t stamp_len);

/* A result of ebbmuslin_compare, or a refusal of any call, in words for a person; never null. Numbers that no call of this
 * header gives (3 to 5 and 11 to 13 are refusals of tables, traces and bundles) have words too. A number of bytes has none. */
static inline const char *ebbmuslin_words(uint64_t result) {
    static const char *const verdicts[] = {
        "equal: both have seen the same edits",
        "obsolete: the second has seen all that the first has, and more",
        "newer: the first has seen all that the second has, and more",
        "conflict: each has seen edits that the other lacks",
    };
    static const char *const refusals[] = {
        "refused",
        "the bytes are no packed stamp: cut short, damaged, or something else",
        "the bytes read, and say what no copy's stamp says",
        "there is no such slot, or no copy in it",
        "a copy cannot be joined with itself",
        "the table has no slot left for the new copy",
        "forked too often since it was last joined: join some copies first, as docs/FLEETS.md tells",
        "the joined identity is in too many pieces: join copies that were forked from each other first, as docs/FLEETS.md tells",
        "the two carry one identity: a copy was cloned with its stamp, in place of a fork",
        "one of the two is not what its stamp says: a stamp was put back from an older backup, or cloned",
        "an output buffer is too short for the result",
        "the line of the trace cannot be read",
        "the table is no table of 1 to 32 records, or a record in it is no lawful stamp",
        "the bundle has no such entry",
    };
    if (result < sizeof verdicts / sizeof verdicts[0]) return verdicts[result];
    if (!EBBMUSLIN_IS_REFUSED(result)) return "done";
    if (result - EBBMUSLIN_REFUSED < sizeof refusals / sizeof refusals[0]) return refusals[result - EBBMUSLIN_REFUSED];
    return "refused, with a number that this version does not know";
}

#ifdef __cplusplus
}
#endif

#endif
