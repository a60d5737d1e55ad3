#!/usr/bin/env python3
"""Traces to measure with. The copies' ids are followed here, so that nearly every line is accepted.

usage: traces.py LINES SEED mix             copies come and go: forks, edits, questions, joins; 2 to 32 copies, one at the end of a cycle
       traces.py LINES SEED spare COPIES    so many copies, each with an edit of its own; then `S` lines, all of which try every copy
       traces.py LINES SEED rough           as mix, with slots at random and lines that do not read: for checking
"""
import random
import sys

SLOTS, DIGITS, STRINGS = 32, 24, 16
ROUGH = ["", "U", "U 01", "F  1", "X 1", "J 1", "C 1 2 3", "S 100", "U 1 ", "u 0", "J 1 -", "a line that is much too long to be one of these"]


def reduced(ids):
    ids, work = set(ids), list(ids)
    while work:
        s = work.pop()
        twin = s[:-1] + ("1" if s[-1:] == "0" else "0")
        if s and s in ids and twin in ids:
            ids -= {s, twin}
            ids.add(s[:-1])
            work.append(s[:-1])
    return ids


class Copies:
    def __init__(self):
        self.ids = {0: {""}}
        self.lines = []

    def fork(self, a):
        self.lines.append("F %d" % a)
        if len(self.ids) == SLOTS or any(len(s) == DIGITS for s in self.ids[a]):
            return
        b = next(k for k in range(SLOTS) if k not in self.ids)
        self.ids[b] = {s + "1" for s in self.ids[a]}
        self.ids[a] = {s + "0" for s in self.ids[a]}

    def near(self, rng):
        """Two copies of which the deepest id strings are siblings, or part of one copy."""
        deep = max(((s, a) for a in self.ids for s in self.ids[a]), key=lambda x: len(x[0]))
        twin = deep[0][:-1] + ("1" if deep[0][-1] == "0" else "0")
        for b, ids in self.ids.items():
            if b != deep[1] and any(s.startswith(twin) for s in ids):
                return deep[1], b
        return rng.sample(sorted(self.ids), 2)

    def join(self, a, b):
        self.lines.append("J %d %d" % (a, b))
        both = reduced(self.ids[a] | self.ids[b])
        if len(both) <= STRINGS:
            self.ids[a] = both
            del self.ids[b]


def mix(lines, rng, rough):
    c = Copies()
    while len(c.lines) < lines:
        most = rng.choice([2, 3, 4, 8, 16, 32])
        for _ in range(3 * most):
            here = list(c.ids)
            a, b = rng.choice(here), rng.choice(here)
            if len(here) < most and rng.random() < 0.5:
                c.fork(a)
            else:
                c.lines.append(rng.choice(["U %d" % a, "C %d %d" % (a, b), "S %d" % a]))
            if rough and rng.random() < 0.2:
                a, b = rng.randrange(40), rng.randrange(40)
                c.lines.append(rng.choice(ROUGH + ["C %d %d" % (a, b), "S %d" % a, "J %d %d" % (a, a)]))
        if rough:
            deep = rng.choice(sorted(c.ids))
            for _ in range(rng.choice([1, 26, 40])):  # past 24 digits, past 32 copies
                c.fork(deep if rng.random() < 0.95 else rng.choice(sorted(c.ids)))
        while len(c.ids) > 1 and len(c.lines) < lines:
            c.join(*c.near(rng) if rng.random() < (0.05 if rough else 0.5) else rng.sample(sorted(c.ids), 2))
            if rng.random() < 0.3:
                c.lines.append("U %d" % rng.choice(list(c.ids)))
    return c.lines[:lines]


def spare(lines, rng, copies):
    c = Copies()
    while len(c.ids) < copies:
        c.fork(rng.choice([a for a in c.ids if all(len(s) < DIGITS for s in c.ids[a])]))
    c.lines += ["U %d" % a for a in c.ids]
    return c.lines + ["S %d" % rng.randrange(copies) for _ in range(lines)]


def main():
    lines, rng, kind = int(sys.argv[1]), random.Random(int(sys.argv[2])), sys.argv[3]
    text = spare(lines, rng, int(sys.argv[4])) if kind == "spare" else mix(lines, rng, kind == "rough")
    sys.stdout.write("".join(x + "\n" for x in text))


if __name__ == "__main__":
    main()
