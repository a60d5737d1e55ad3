/* A change of two folders that is made whole, though a crash may come between any two of its steps.
 *
 * 1. The file is staged in `to`, under a name of ours.
 * 2. What is to be done is written down in `to`, and then, in the same words, in `from`. From there on it counts.
 * 3. The stamp in `to` is taken away, the staged file put in place, the new stamp stored in `from`, then that in `to`; or, of a
 *    copy that leaves, the file in `to` is taken away.
 * 4. The note is taken away in `from`, then in `to`.
 *
 * So of a fork the branch that stays is stored before the other arrives, of a join the one input is gone before the result
 * stands in place of the other, and at no time two stamps on the disk carry one identity. Every command begins with
 * recover: a folder with a note is part of a change that was cut off. If `from` has it too, step 3 is done again from its
 * beginning, which changes nothing that was done already. If it stands in `to` alone, the change had not begun to count or was
 * finished. Both folders are needed for that; without the other nothing is touched. Two notes are the same change exactly if
 * they are the same bytes: a folder gets a second note for the same two folders only after both were recovered. */
#include "sync.h"
#include <errno.h>
#include <inttypes.h>
#include <stdio.h>
#include <stdlib.h>
#include <string.h>

enum { MAGIC, FROM, TO, NAME, WAS, FROM_RECORD, TO_RECORD, SUM, FIELDS };
static const char magic[] = "ebbmuslin sync change 1";
static char NONE[] = "none"; /* in place of what a file was, or of a record */

/* A note: fields that each end in a zero byte, since a path may hold anything else; the last is the hash of those before. */
typedef struct {
    char *bytes;
    size_t n;
    const char *field[FIELDS];
} note;

static note note_of(const folder *from, const folder *to, const change *c) {
    note w = {.bytes = NULL};
    char *was = c->had ? text("%" PRIu64 " %" PRIx64, c->was.size, c->was.hash) : NONE;
    const char *field[] = {magic, from->path, to->path, c->file, was, record_text(&c->from), c->leaves ? NONE : record_text(&c->to)};
    for (int k = 0; k < SUM; k++) {
        size_t n = strlen(field[k]) + 1;
        if (!(w.bytes = realloc(w.bytes, w.n + n + 32))) abort();
        memcpy(w.bytes + w.n, field[k], n);
        w.n += n;
    }
    w.n += (size_t)sprintf(w.bytes + w.n, "%016" PRIx64, hashed(EMPTY, w.bytes, w.n).hash) + 1;
    return w;
}

/* The note in a folder, if there is one. One that does not read is nothing to guess at. */
static bool get_note(const folder *at, note *w) {
    int found = get(at, CHANGE, &w->bytes, &w->n);
    if (found < 0) fail(at->name, "%s cannot be read: %s", CHANGE, strerror(errno));
    if (!found) return false;
    size_t k = 0, start = 0;
    for (size_t i = 0; i < w->n && k < FIELDS; i++)
        if (!w->bytes[i]) w->field[k++] = w->bytes + start, start = i + 1;
    size_t before = k == FIELDS ? (size_t)(w->field[SUM] - w->bytes) : 0;
    if (k != FIELDS || start != w->n || strcmp(w->field[MAGIC], magic) != 0 ||
        strtoull(w->field[SUM], NULL, 16) != hashed(EMPTY, w->bytes, before).hash)
        fail(at->name, "%s, the note of a command that was cut off, is damaged: nothing is done in this folder", CHANGE);
    return true;
}

static change change_of(const note *w) {
    change c = {.file = w->field[NAME]};
    c.had = sscanf(w->field[WAS], "%" SCNu64 " %" SCNx64, &c.was.size, &c.was.hash) == 2;
    c.leaves = strcmp(w->field[TO_RECORD], NONE) == 0;
    if (c.leaves) c.to.of = c.was;
    if (!record_of(w->field[FROM_RECORD], &c.from) || (!c.leaves && !record_of(w->field[TO_RECORD], &c.to)))
        fail(c.file, "the note of a command that was cut off has no records: nothing is done");
    return c;
}

/* A file that is to be replaced is still what it was; an edit since then is not overwritten. (What an editor writes between this look
 * and the rename, a moment later, no program can see without the editor's help.) */
static void guard(const folder *to, const change *c) {
    content now;
    int found = look(to, c->file, &now);
    if (found < 0) fail(to->name, "%s cannot be read: %s", shown(c->file), strerror(errno));
    if (found && !(c->had && is_same(now, c->was)) && !is_same(now, c->to.of))
        fail(to->name, "%s was edited or put there while a command on it was not finished: move it out of the folder, run the command "
                       "again, and bring its edits into the file that is there then", shown(c->file));
}

/* Steps 3 and 4, from any state that a crash can leave. */
static void finish(folder *from, folder *to, const change *c) {
    content staged;
    int found = look(to, STAGED, &staged);
    if (found < 0) fail(to->name, "%s cannot be read: %s", STAGED, strerror(errno));
    if (found && !is_same(staged, c->to.of)) fail(to->name, "%s is not what a command that was cut off put there", STAGED);
    if (found || c->leaves) guard(to, c);
    char *name = stamp_file(c->file);
    drop(to, name);
    free(name);
    if (found) put_in_place(to, c->file, c->had);
    put_record(from, c->file, &c->from);
    if (c->leaves) drop(to, c->file);
    else put_record(to, c->file, &c->to);
    drop(from, CHANGE);
    drop(to, CHANGE);
}

/* The file is staged already, unless the copy leaves. */
void carry_out(folder *from, folder *to, const change *c) {
    guard(to, c);
    note w = note_of(from, to, c);
    put(to, CHANGE, w.bytes, w.n);
    put(from, CHANGE, w.bytes, w.n);
    free(w.bytes);
    finish(from, to, c);
}

/* What is left of a command that was cut off before it counted. */
static void clear(const folder *at) {
    if (is_there(at, STAGED)) drop(at, STAGED);
    if (is_there(at, NEW)) drop(at, NEW);
}

/* Completes what was cut off in a folder, takes back what had not begun to count, or refuses. */
void recover(folder *at) {
    note ours, theirs;
    if (!get_note(at, &ours)) {
        clear(at);
        return;
    }
    bool is_from = strcmp(at->path, ours.field[FROM]) == 0;
    if (!is_from && strcmp(at->path, ours.field[TO]) != 0)
        fail(at->name, "a command was cut off when this folder was at %s or %s: put it back there, or take %s away if this is a copy of it",
             shown(ours.field[FROM]), shown(ours.field[TO]), CHANGE);
    folder *other = enter(ours.field[is_from ? TO : FROM], true);
    bool same = get_note(other, &theirs) && theirs.n == ours.n && memcmp(theirs.bytes, ours.bytes, ours.n) == 0;
    if (is_from && !same)
        fail(at->name, "a command was cut off, and %s, the other folder, does not know of it: it is not the folder that it was; put that back",
             shown(other->name));
    change c = change_of(&ours);
    if (same) {
        finish(is_from ? at : other, is_from ? other : at, &c);
        clear(other);
    } else drop(at, CHANGE);
    clear(at);
}
