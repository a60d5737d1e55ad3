/* How each name of two folders stands. Nothing is passed over in silence. */
#include "sync.h"
#include <dirent.h>
#include <errno.h>
#include <fcntl.h>
#include <inttypes.h>
#include <stdarg.h>
#include <stdio.h>
#include <stdlib.h>
#include <string.h>
#include <sys/stat.h>
#include <unistd.h>

typedef struct {
    char **name;
    size_t n, room;
} names;

static void add(names *to, const char *name, size_t n) {
    if (to->n == to->room && !(to->name = realloc(to->name, (to->room = 2 * to->room + 64) * sizeof to->name[0]))) abort();
    if (!(to->name[to->n++] = strndup(name, n))) abort();
}

/* The names of a folder without our own; a stamp's name is that of its file. */
static void list(const folder *at, names *to) {
    int fd = openat(at->fd, ".", O_RDONLY | O_DIRECTORY | O_CLOEXEC);
    DIR *d = fd < 0 ? NULL : fdopendir(fd);
    if (!d) fail(at->name, "the folder cannot be listed: %s", strerror(errno));
    errno = 0;
    for (struct dirent *e; (e = readdir(d)); errno = 0) {
        size_t n = strlen(e->d_name), end = strlen(".stamp");
        if (strcmp(e->d_name, ".") == 0 || strcmp(e->d_name, "..") == 0 || strncmp(e->d_name, OURS, strlen(OURS)) == 0) continue;
        add(to, e->d_name, n > end && strcmp(e->d_name + n - end, ".stamp") == 0 ? n - end : n);
    }
    if (errno) fail(at->name, "the folder cannot be listed: %s", strerror(errno));
    closedir(d);
}

static int by_name(const void *a, const void *b) { return strcmp(*(char *const *)a, *(char *const *)b); }

/* One line of a file, and 1: that a person has to look at it. */
static int __attribute__((format(printf, 2, 3))) tell(const char *file, const char *format, ...) {
    va_list list;
    printf("%s: ", shown(file));
    va_start(list, format);
    vprintf(format, list);
    va_end(list);
    putchar('\n');
    return 1;
}

/* What is the matter with a file in one folder: 0 where it is sound, or has no stamp there. */
static int fault(const folder *at, const char *file, int has, const record *r) {
    struct stat is;
    content now;
    if (has < 0) return tell(file, "its stamp in %s cannot be read: %s", shown(at->name), strerror(errno));
    bool there = fstatat(at->fd, file, &is, AT_SYMLINK_NOFOLLOW) == 0;
    if (!there && errno != ENOENT) return tell(file, "it cannot be looked at in %s: %s", shown(at->name), strerror(errno));
    if (there && S_ISDIR(is.st_mode)) return tell(file, "a folder in %s: sync does not look into it", shown(at->name));
    if (there && !S_ISREG(is.st_mode)) return tell(file, "no plain file in %s: sync leaves it alone", shown(at->name));
    if (!has) return 0;
    if (!there) return tell(file, "gone from %s, and its stamp is still there: put it back, or take the stamp away too", shown(at->name));
    if (look(at, file, &now) != 1) return tell(file, "it cannot be read in %s: %s", shown(at->name), strerror(errno));
    if (r->stamp.len && !is_same(now, r->of))
        return tell(file, "edited in %s, and nobody reported it: run sync edited %s %s", shown(at->name), shown(at->name), shown(file));
    return 0;
}

/* A file with a stamp in one folder only, or in none. */
static int lonely(const folder *with, const folder *without, const char *file) {
    if (!with) return tell(file, "no stamp: run sync first where it is to begin");
    if (is_there(without, file))
        return tell(file, "a stamp in %s only, and %s has a file of that name: move that away, run sync copy, and bring in what it has", shown(with->name),
                    shown(without->name));
    return tell(file, "only in %s: run sync copy %s %s %s", shown(with->name), shown(with->name), shown(file), shown(without->name));
}

static int check_file(const folder *at, const folder *other, const char *file) {
    record a, b;
    int here = get_record(at, file, &a);
    if (fault(at, file, here, &a)) return 1;
    int there = get_record(other, file, &b);
    if (fault(other, file, there, &b)) return 1;
    if (!here || !there) return lonely(here ? at : there ? other : NULL, here ? other : at, file);
    uint64_t r = ebbmuslin_compare(a.stamp.bytes, a.stamp.len, b.stamp.bytes, b.stamp.len);
    if (EBBMUSLIN_IS_REFUSED(r)) return tell(file, "refused %" PRIu64 ": %s", r - EBBMUSLIN_REFUSED, advice(r));
    if (r == EBBMUSLIN_CONFLICT) return tell(file, "conflict: each side has edits that the other lacks");
    if (r == EBBMUSLIN_EQUAL && !is_same(a.of, b.of)) return tell(file, "equal by their stamps, and the files differ: settle them");
    if (r == EBBMUSLIN_EQUAL) tell(file, "equal");
    else tell(file, "take the one in %s", shown((r == EBBMUSLIN_OBSOLETE ? other : at)->name));
    if (!warn(file, &a.stamp)) warn(file, &b.stamp);
    return 0;
}

/* 1 where there is something that a person must look at. */
int check(folder *at, folder *other) {
    names all = {NULL, 0, 0};
    int told = 0;
    list(at, &all);
    list(other, &all);
    if (all.n) qsort(all.name, all.n, sizeof all.name[0], by_name);
    for (size_t k = 0; k < all.n; k++)
        if (k == 0 || strcmp(all.name[k - 1], all.name[k]) != 0) told |= check_file(at, other, all.name[k]);
    return told;
}
