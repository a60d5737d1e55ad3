/* For tests/crash.py, linked to the example synchroniser built with SYNC_STEPS: the process ends, as if it had been killed, before
 * the step of the number in SYNC_STEP. It also holds the program to its rule: what it wrote is on the disk before the next step
 * builds on it, so that what a loss of power leaves is what some kill leaves too. Status 77: ended; 78: the rule is broken. */
#include <stdbool.h>
#include <stdio.h>
#include <stdlib.h>
#include <string.h>
#include <unistd.h>

static bool written, named, moved; /* not yet flushed: bytes of a file, the name of a new file, a rename or removal */

static void broken(const char *what) {
    fprintf(stderr, "steps: '%s' comes before a flush (file %d, name %d, folder %d)\n", what, written, named, moved);
    _exit(78);
}

static void at_end(void) {
    if (written || named || moved) broken("the end");
}

void step(const char *what) {
    static long count;
    const char *last = getenv("SYNC_STEP");
    if (count == 0) atexit(at_end);
    if (++count == (last ? atol(last) : 0)) _exit(77);
    if (strcmp(what, "flush file") == 0) written = false;
    else if (strcmp(what, "flush folder") == 0) named = moved = false;
    else if (strcmp(what, "write") == 0) written = true;
    else if (strcmp(what, "create") == 0) {
        if (written || named || moved) broken(what);
        written = named = true;
    } else if (strcmp(what, "rename") == 0) {
        if (written || moved) broken(what);
        named = false, moved = true;
    } else if (strcmp(what, "remove") == 0) {
        if (written || named || moved) broken(what);
        moved = true;
    } else if (strcmp(what, "lock") != 0) broken(what);
}
