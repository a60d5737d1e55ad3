/* Files that are written whole or not at all, and folders that one process has to itself.
 *
 * Every file is written to a name of ours, flushed to disk, renamed, and the folder is flushed: each step is on the disk before
 * the next one begins, so a crash, or a loss of power, leaves what stands between two steps. With SYNC_STEPS every step is told
 * to a function of tests/steps.c, which ends the process before the step that it was asked to, and sees that this rule is kept. */
#define _GNU_SOURCE
#include "sync.h"
#include <errno.h>
#include <fcntl.h>
#include <stdarg.h>
#include <stdio.h>
#include <stdlib.h>
#include <string.h>
#include <sys/file.h>
#include <sys/stat.h>
#include <unistd.h>

#ifdef SYNC_STEPS
void step(const char *what);
enum { PIECE = 64 };
#else
#define step(what) ((void)0)
enum { PIECE = 1 << 16 };
#endif

void fail(const char *where, const char *format, ...) {
    va_list list;
    fprintf(stderr, "sync: %s: ", shown(where));
    va_start(list, format);
    vfprintf(stderr, format, list);
    va_end(list);
    fputc('\n', stderr);
    exit(2);
}

static _Noreturn void fail_with(const folder *at, const char *name, const char *what) {
    fail(at->name, "%s: %s: %s", shown(name), what, strerror(errno));
}

/* A text of any length; it is kept until the program ends, as all texts here. */
char *text(const char *format, ...) {
    char *s;
    va_list list;
    va_start(list, format);
    if (vasprintf(&s, format, list) < 0) abort();
    va_end(list);
    return s;
}

/* A mark that is not seen and hides, breaks or turns the text around it: U+200B to 200F, 2028 to 202E, 2060 to 206F, FEFF. */
static bool is_hidden(const unsigned char *s) {
    if (s[0] == 0xEF) return s[1] == 0xBB && s[2] == 0xBF;
    if (s[0] != 0xE2) return false;
    return s[1] == 0x80 ? (s[2] >= 0x8B && s[2] <= 0x8F) || (s[2] >= 0xA8 && s[2] <= 0xAE) : s[1] == 0x81 && s[2] >= 0xA0 && s[2] <= 0xAF;
}

/* How many bytes a printable character at s has; 0 where there is none: a control character, a hidden mark, or no UTF-8. */
static size_t printable(const unsigned char *s) {
    if (s[0] < 0x80) return s[0] >= 0x20 && s[0] != 0x7F && s[0] != '\\';
    size_t n = s[0] >= 0xF0 && s[0] < 0xF5 ? 4 : s[0] >= 0xE0 && s[0] < 0xF0 ? 3 : s[0] >= 0xC2 && s[0] < 0xE0 ? 2 : 0;
    for (size_t k = 1; k < n; k++)
        if ((s[k] & 0xC0) != 0x80) return 0;
    if ((s[0] == 0xC2 && s[1] < 0xA0) || (s[0] == 0xE0 && s[1] < 0xA0) || (s[0] == 0xED && s[1] > 0x9F)) return 0;
    if ((s[0] == 0xF0 && s[1] < 0x90) || (s[0] == 0xF4 && s[1] > 0x8F)) return 0;
    return n == 3 && is_hidden(s) ? 0 : n;
}

/* A name as it can be printed on one line: bytes that cannot are written \xNN, as bash reads them in $'..'. */
const char *shown(const char *name) {
    char *out = malloc(4 * strlen(name) + 1), *at = out;
    if (!out) abort();
    for (const unsigned char *s = (const unsigned char *)name; *s;) {
        size_t n = printable(s);
        if (n) memcpy(at, s, n);
        at += n ? n : (size_t)sprintf(at, "\\x%02x", *s);
        s += n ? n : 1;
    }
    *at = 0;
    return out;
}

const content EMPTY = {0, 0xCBF29CE484222325u};

content hashed(content c, const void *bytes, size_t n) {
    const unsigned char *b = bytes;
    for (size_t k = 0; k < n; k++) c.hash = (c.hash ^ b[k]) * 0x100000001B3u;
    c.size += n;
    return c;
}

static folder *entered;

static folder *opened(const char *name, bool is_known) {
    folder *f = malloc(sizeof *f);
    if (!f) abort();
    *f = (folder){.name = name, .path = realpath(name, NULL), .fd = open(name, O_RDONLY | O_DIRECTORY | O_CLOEXEC)};
    if (f->path && f->fd >= 0) return f;
    if (is_known) fail(name, "a command on this folder was cut off, and it cannot be opened: bring it back and run again: %s", strerror(errno));
    fail(name, "the folder cannot be opened: %s", strerror(errno));
}

/* Opens a folder and takes its lock, or gives the one that was opened before. A folder that is known must have a lock already:
 * an empty place where a disk was mounted is not that folder. The lock is the system's (flock) and ends with the process, so there
 * is never a stale one; the file itself stays, and is empty. */
folder *enter(const char *name, bool is_known) {
    folder *f = opened(name, is_known);
    for (folder *g = entered; g; g = g->next)
        if (strcmp(g->path, f->path) == 0) {
            close(f->fd);
            free(f->path);
            free(f);
            return g;
        }
    step("lock");
    int lock = openat(f->fd, LOCK, O_RDWR | O_CLOEXEC | O_NOFOLLOW | (is_known ? 0 : O_CREAT), 0666);
    if (lock < 0 && is_known && errno == ENOENT)
        fail(name, "a command on this folder was cut off, and what is there now is another folder: bring it back and run again");
    if (lock < 0) fail(name, "its lock %s cannot be opened: %s", LOCK, strerror(errno));
    if (flock(lock, LOCK_EX | LOCK_NB) != 0) {
        if (errno != EWOULDBLOCK) fail(name, "it cannot be locked: %s", strerror(errno));
        fail(name, "another sync is at work in this folder: try again when it has ended");
    }
    f->next = entered;
    return entered = f;
}

/* Whether there is anything of that name. */
bool is_there(const folder *at, const char *name) {
    struct stat is;
    return fstatat(at->fd, name, &is, AT_SYMLINK_NOFOLLOW) == 0 || errno != ENOENT;
}

/* A plain file for reading: its descriptor, -1 where there is none, -2 where it cannot be read (errno says why). */
static int open_plain(const folder *at, const char *name) {
    struct stat is;
    int fd = openat(at->fd, name, O_RDONLY | O_CLOEXEC | O_NOFOLLOW | O_NONBLOCK);
    if (fd < 0) return errno == ENOENT ? -1 : -2;
    if (fstat(fd, &is) == 0 && S_ISREG(is.st_mode)) return fd;
    close(fd);
    errno = EINVAL;
    return -2;
}

/* The next bytes of a file: how many, 0 at its end, -1 where it cannot be read. */
static ssize_t read_some(int fd, void *to, size_t n) {
    ssize_t got;
    do got = read(fd, to, n);
    while (got < 0 && errno == EINTR);
    return got;
}

/* A small file whole, with a zero behind it: 1, 0 where it is not there, -1 where it cannot be read. */
int get(const folder *at, const char *name, char **bytes, size_t *n) {
    int fd = open_plain(at, name);
    if (fd < 0) return fd == -1 ? 0 : -1;
    size_t room = 1024;
    ssize_t got = 1;
    for (*bytes = malloc(room), *n = 0; *bytes && got > 0; *n += got > 0 ? (size_t)got : 0) {
        if (room - *n < 2) *bytes = realloc(*bytes, room *= 2);
        if (*bytes) got = read_some(fd, *bytes + *n, room - *n - 1);
    }
    if (!*bytes) abort();
    (*bytes)[*n] = 0;
    close(fd);
    return got < 0 ? -1 : 1;
}

/* What a file holds: 1, 0 where it is not there, -1 where it cannot be read. */
int look(const folder *at, const char *name, content *c) {
    char buffer[1 << 16];
    int fd = open_plain(at, name);
    if (fd < 0) return fd == -1 ? 0 : -1;
    ssize_t got;
    for (*c = EMPTY; (got = read_some(fd, buffer, sizeof buffer)) > 0;) *c = hashed(*c, buffer, (size_t)got);
    close(fd);
    return got < 0 ? -1 : 1;
}

static void flush_folder(const folder *at) {
    step("flush folder");
    if (fsync(at->fd) != 0) fail_with(at, ".", "the folder cannot be flushed to disk");
}

static int create(const folder *at, const char *name) {
    step("create");
    int fd = openat(at->fd, name, O_WRONLY | O_CREAT | O_TRUNC | O_CLOEXEC | O_NOFOLLOW, 0666);
    if (fd < 0) fail_with(at, name, "it cannot be written");
    return fd;
}

static void write_all(const folder *at, const char *name, int fd, const char *bytes, size_t n) {
    for (size_t done = 0; done < n;) {
        step("write");
        ssize_t got = write(fd, bytes + done, n - done < PIECE ? n - done : PIECE);
        if (got < 0 && errno != EINTR) fail_with(at, name, "it cannot be written");
        done += got > 0 ? (size_t)got : 0;
    }
}

static void flush_file(const folder *at, const char *name, int fd) {
    step("flush file");
    if (fsync(fd) != 0 || close(fd) != 0) fail_with(at, name, "it cannot be flushed to disk");
}

/* Where nothing may be replaced the system sees to it, if the file system can; else we have looked just before. */
static void rename_in(const folder *at, const char *from, const char *to, bool replaces) {
    step("rename");
    int failed = renameat2(at->fd, from, at->fd, to, replaces ? 0 : RENAME_NOREPLACE);
    if (failed && (errno == EINVAL || errno == ENOSYS)) failed = renameat(at->fd, from, at->fd, to);
    if (failed) fail_with(at, to, "it cannot be put in place");
    flush_folder(at);
}

/* A small file in place of the one of that name: afterwards it is the old one or the new one, whatever happens. */
void put(const folder *at, const char *name, const void *bytes, size_t n) {
    int fd = create(at, NEW);
    write_all(at, name, fd, bytes, n);
    flush_file(at, name, fd);
    rename_in(at, NEW, name, true);
}

/* Takes a file away, if it is there. */
void drop(const folder *at, const char *name) {
    step("remove");
    if (unlinkat(at->fd, name, 0) != 0 && errno != ENOENT) fail_with(at, name, "it cannot be removed");
    flush_folder(at);
}

/* The staged copy becomes the file of that name. */
void put_in_place(const folder *at, const char *name, bool replaces) { rename_in(at, STAGED, name, replaces); }

/* A copy of a file into the other folder, whole and on the disk, under the name of staged ones: what it holds. */
content stage(const folder *from, const char *file, const folder *to) {
    char buffer[1 << 16];
    struct stat is;
    int in = open_plain(from, file);
    if (in < 0 || fstat(in, &is) != 0) fail_with(from, file, "it cannot be copied");
    int out = create(to, STAGED);
    content c = EMPTY;
    ssize_t got;
    while ((got = read_some(in, buffer, sizeof buffer)) > 0) {
        c = hashed(c, buffer, (size_t)got);
        write_all(to, file, out, buffer, (size_t)got);
    }
    if (got < 0) fail_with(from, file, "it cannot be read");
    if (fchmod(out, is.st_mode & 0777) != 0) fail_with(to, file, "its permissions cannot be set");
    flush_file(to, file, out);
    flush_folder(to);
    close(in);
    return c;
}
