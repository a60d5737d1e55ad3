#!/usr/bin/env python3
"""The trace tool told by event sets: the second implementation that the tool is held against.

usage: model.py < TRACE

Each copy is the set of the edits it has seen and a set of id strings. Verdicts are
inclusion of event sets; the id strings decide refusals 6 and 7. Which strings a conflict
names is asked of a third set: all strings that begin a string of the update name, so that
a string is covered by a copy exactly when it is in that copy's set. There are no names in
order here, no words and no packed form, and no code is shared with the library.
"""
import re
import sys

SLOTS, DIGITS, STRINGS = 32, 24, 16
ONE = re.compile(rb"([UFS]) (0|[1-9][0-9]?)")
TWO = re.compile(rb"([JC]) (0|[1-9][0-9]?) (0|[1-9][0-9]?)")


class Refused(Exception):
    pass


class Copy:
    def __init__(self, events, ids, begun=("",)):
        self.events, self.ids, self.begun = frozenset(events), frozenset(ids), frozenset(begun)

    def update_name(self):
        """The strings that no longer one of the set goes on from."""
        return {s for s in self.begun if s + "0" not in self.begun and s + "1" not in self.begun}


def beginnings(strings):
    """All that a string of these begins with, itself and the empty string too."""
    return {s[:n] for s in strings for n in range(len(s) + 1)}


def uncovered(c, d):
    """The strings of c's update name that no string of d's extends."""
    return c.update_name() - d.begun


def merged(ids):
    """Siblings s0, s1 become s until there are none."""
    ids = set(ids)
    work = list(ids)
    while work:
        s = work.pop()
        if s and s in ids:
            twin = s[:-1] + ("1" if s[-1] == "0" else "0")
            if twin in ids:
                ids -= {s, twin}
                ids.add(s[:-1])
                work.append(s[:-1])
    return ids


class Table:
    def __init__(self):
        self.copies = [None] * SLOTS
        self.copies[0] = Copy([], [""])
        self.edits = 0

    def at(self, a):
        if a >= SLOTS or self.copies[a] is None:
            raise Refused(3)
        return self.copies[a]

    def update(self, a):
        c = self.at(a)
        self.copies[a] = Copy(c.events | {self.edits}, c.ids, beginnings(c.ids))
        self.edits += 1
        return "ok %d" % a

    def fork(self, a):
        c = self.at(a)
        free = [b for b in range(SLOTS) if self.copies[b] is None]
        if not free:
            raise Refused(5)
        if any(len(s) == DIGITS for s in c.ids):
            raise Refused(6)
        self.copies[a] = Copy(c.events, {s + "0" for s in c.ids}, c.begun)
        self.copies[free[0]] = Copy(c.events, {s + "1" for s in c.ids}, c.begun)
        return "ok %d" % free[0]

    def join(self, a, b):
        c, d = self.at(a), self.at(b)
        if a == b:
            raise Refused(4)
        ids = merged(c.ids | d.ids)
        if len(ids) > STRINGS:
            raise Refused(7)
        self.copies[a] = Copy(c.events | d.events, ids, (c.begun | d.begun) & beginnings(ids))
        self.copies[b] = None
        return "ok %d" % a

    def compare(self, a, b):
        c, d = self.at(a), self.at(b)
        if c.events == d.events:
            return "equal"
        if c.events < d.events:
            return "obsolete"
        return "newer" if c.events > d.events else self.conflict(c, d)

    def conflict(self, c, d):
        """The first of each, as digits: 0 comes before 1 in text too."""
        return "conflict %s %s" % (min(uncovered(c, d)), min(uncovered(d, c)))

    def spare(self, a):
        x = self.at(a).events
        return "spare" if any(c is not None and x < c.events for c in self.copies) else "kept"

    def line(self, text):
        try:
            one, two = ONE.fullmatch(text), TWO.fullmatch(text)
            if one:
                act = {b"U": self.update, b"F": self.fork, b"S": self.spare}[one.group(1)]
                return act(int(one.group(2)))
            if two:
                act = {b"J": self.join, b"C": self.compare}[two.group(1)]
                return act(int(two.group(2)), int(two.group(3)))
            raise Refused(11)
        except Refused as r:
            return "refused %d" % r.args[0]


def lines_of(data):
    parts = data.split(b"\n")
    return parts[:-1] if parts[-1] == b"" else parts


def run(data, table=None):
    table = table or Table()
    return "".join(table.line(text) + "\n" for text in lines_of(data)).encode()


if __name__ == "__main__":
    sys.stdout.buffer.write(run(sys.stdin.buffer.read()))
