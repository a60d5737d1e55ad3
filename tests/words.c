/* The header's words: every number has some of its own, none is empty, and the macros and the version agree. */
#include "../include/ebbmuslin.h"
#include <assert.h>
#include <inttypes.h>
#include <stdio.h>
#include <string.h>

int main(void) {
    static const uint64_t told[] = {0, 1, 2, 3, 1001, 1002, 1003, 1004, 1005, 1006, 1007, 1008, 1009, 1010, 1011, 1012, 1013};
    size_t n = sizeof told / sizeof told[0];
    for (size_t k = 0; k < n; k++) {
        assert(strlen(ebbmuslin_words(told[k])) > 10);
        for (size_t j = 0; j < k; j++) assert(strcmp(ebbmuslin_words(told[j]), ebbmuslin_words(told[k])) != 0);
        assert(EBBMUSLIN_IS_REFUSED(told[k]) == (told[k] > 3));
    }
    assert(!EBBMUSLIN_IS_REFUSED((uint64_t)EBBMUSLIN_MOST) && !EBBMUSLIN_IS_REFUSED((uint64_t)999) && EBBMUSLIN_IS_REFUSED(UINT64_MAX));
    assert(strstr(ebbmuslin_words(EBBMUSLIN_EQUAL), "equal") && strstr(ebbmuslin_words(EBBMUSLIN_OBSOLETE), "obsolete"));
    assert(strstr(ebbmuslin_words(EBBMUSLIN_NEWER), "newer") && strstr(ebbmuslin_words(EBBMUSLIN_CONFLICT), "conflict"));
    assert(strstr(ebbmuslin_words(EBBMUSLIN_LONG), "docs/FLEETS.md") && strstr(ebbmuslin_words(EBBMUSLIN_MANY), "docs/FLEETS.md"));
    assert(strcmp(ebbmuslin_words(4), "done") == 0 && strcmp(ebbmuslin_words(999), "done") == 0);
    assert(strcmp(ebbmuslin_words(1014), ebbmuslin_words(UINT64_MAX)) == 0);
    char version[32];
    snprintf(version, sizeof version, "%d.%d.%d", EBBMUSLIN_VERSION_MAJOR, EBBMUSLIN_VERSION_MINOR, EBBMUSLIN_VERSION_PATCH);
    assert(strcmp(version, EBBMUSLIN_VERSION) == 0);
    printf("words: %zu numbers, each with words of its own; version %s\n", n, version);
}
