#!/usr/bin/env python3
"""Wrong trace programs, to see that the tests find them out: the model with one slip each.

usage: wrong.py SLIP < TRACE        (SLIP `none` is the model itself)
"""
import os
import re
import sys

sys.dont_write_bytecode = True
import model


class VerdictsSwapped(model.Table):
    def compare(self, a, b):
        word = super().compare(a, b)
        return {"newer": "obsolete", "obsolete": "newer"}.get(word, word)


class Counted(model.Table):
    def compare(self, a, b):
        x, y = len(self.at(a).events), len(self.at(b).events)
        return "equal" if x == y else "obsolete" if x < y else "newer"


class SpareIfEqual(model.Table):
    def spare(self, a):
        x = self.at(a).events
        return "spare" if any(c is not None and b != a and x <= c.events for b, c in enumerate(self.copies)) else "kept"


class SpareToLowerOnly(model.Table):
    def spare(self, a):
        x = self.at(a).events
        return "spare" if any(c is not None and x < c.events for c in self.copies[:a]) else "kept"


class HighestSlot(model.Table):
    def fork(self, a):
        told = super().fork(a)
        made = int(told.split()[1])
        high = max(b for b in range(model.SLOTS) if b == made or self.copies[b] is None)
        self.copies[made], self.copies[high] = (self.copies[made], self.copies[high]) if high == made else (None, self.copies[made])
        return "ok %d" % high


class OneDigitLess(model.Table):
    def fork(self, a):
        if None in self.copies and any(len(s) == 23 for s in self.at(a).ids):
            raise model.Refused(6)
        return super().fork(a)


class DigitsBeforeRoom(model.Table):
    def fork(self, a):
        if any(len(s) == 24 for s in self.at(a).ids):
            raise model.Refused(6)
        return super().fork(a)


class OneSlotBeforeAbsent(model.Table):
    def join(self, a, b):
        if a == b:
            raise model.Refused(4)
        return super().join(a, b)


class CountedBeforeReduction(model.Table):
    def join(self, a, b):
        if a != b and len(self.at(a).ids | self.at(b).ids) > 16:
            raise model.Refused(7)
        return super().join(a, b)


class RefusedJoinDrops(model.Table):
    def join(self, a, b):
        try:
            return super().join(a, b)
        except model.Refused as r:
            if r.args[0] == 7:
                self.copies[b] = None
            raise


class JoinKeepsSecond(model.Table):
    def join(self, a, b):
        second = self.copies[b] if b < model.SLOTS else None
        told = super().join(a, b)
        self.copies[b] = second
        return told


class JoinForgets(model.Table):
    def join(self, a, b):
        first = self.at(a)
        told = super().join(a, b)
        ids = self.copies[a].ids
        self.copies[a] = model.Copy(first.events, ids, first.begun & model.beginnings(ids))
        return told


class LastTold(model.Table):
    def conflict(self, c, d):
        return "conflict %s %s" % (max(model.uncovered(c, d)), max(model.uncovered(d, c)))


class FirstOfAllTold(model.Table):
    def conflict(self, c, d):
        return "conflict %s %s" % (min(c.update_name()), min(d.update_name()))


class PlaceInTheOther(model.Table):
    def conflict(self, c, d):
        x, y = sorted(c.update_name()), sorted(d.update_name())
        at = lambda name, other, lacked: other[min(name.index(min(lacked)), len(other) - 1)]
        return "conflict %s %s" % (at(x, y, model.uncovered(c, d)), at(y, x, model.uncovered(d, c)))


class StringsSwapped(model.Table):
    def conflict(self, c, d):
        return super().conflict(d, c)


class LongestTold(model.Table):
    def conflict(self, c, d):
        longest = lambda some: max(sorted(some), key=len)
        return "conflict %s %s" % (longest(model.uncovered(c, d)), longest(model.uncovered(d, c)))


class IdsTold(model.Table):
    def conflict(self, c, d):
        return "conflict %s %s" % (min(c.ids), min(d.ids))


def reduced_once(ids):
    ids = set(ids)
    for s in sorted(ids):
        if s and s[-1] == "0" and s[:-1] + "1" in ids:
            ids = ids - {s, s[:-1] + "1"} | {s[:-1]}
    return ids


TABLES = {"verdicts swapped": VerdictsSwapped, "edits counted": Counted, "equal is spare": SpareIfEqual, "spare looks below only": SpareToLowerOnly,
          "highest slot": HighestSlot, "23 digits refused": OneDigitLess, "6 before 5": DigitsBeforeRoom, "4 before 3": OneSlotBeforeAbsent,
          "strings counted before reduction": CountedBeforeReduction, "refused join drops": RefusedJoinDrops,
          "join keeps the second": JoinKeepsSecond, "join forgets the second": JoinForgets,
          "last string told": LastTold, "first string of all told": FirstOfAllTold, "place in the other name": PlaceInTheOther,
          "strings swapped": StringsSwapped, "longest string told": LongestTold, "ids told": IdsTold}
# what it makes of the input, where that alone is wrong
INPUTS = {"unfinished line lost": lambda data: data[:data.rfind(b"\n") + 1],
          "carriage return dropped": lambda data: data.replace(b"\r", b""),
          "empty lines passed over": lambda data: re.sub(rb"\n+", b"\n", data).lstrip(b"\n"),
          "zero byte ends a line": lambda data: re.sub(rb"\0[^\n]*", b"", data),
          "leading zero read": lambda data: re.sub(rb" 0(?=\d)", b" ", data),
          "lower case read": lambda data: data.upper(),
          "end blanks dropped": lambda data: re.sub(rb" +(?=\n|$)", b"", data),
          "high bit dropped": lambda data: bytes(b & 127 for b in data),
          "input cut at 1 MiB": lambda data: data[:1 << 20],
          "line cut at 4096": lambda data: re.sub(rb"([^\n]{4096})(?=[^\n])", rb"\1\n", data)}
OUTPUTS = {"last answer lost": lambda text: text[:text.rfind(b"\n", 0, -1) + 1],
           "last newline lost": lambda text: text[:-1],
           "one line too many": lambda text: text + b"ok 0\n"}
READS = {"a read ends a line": 1 << 16, "a read of 4096 ends a line": 4096}
OTHERS = ["seventeen strings", "25 digits", "reduced once", "status 1", "silent", "answers to 4096 bytes cut at 16384"]
NAMES = [*TABLES, *INPUTS, *OUTPUTS, *READS, *OTHERS]


def pieces(size):
    table = model.Table()
    while data := os.read(0, size):
        for text in model.lines_of(data):
            os.write(1, (table.line(text) + "\n").encode())


def cut_answers():
    """What a piece of 4096 bytes prints is cut where a buffer of 16384 bytes ends."""
    table, held = model.Table(), b""
    for data in iter(lambda: sys.stdin.buffer.read(4096), b""):
        *whole, held = (held + data).split(b"\n")
        sys.stdout.buffer.write("".join(table.line(text) + "\n" for text in whole).encode()[:16384])
    if held:
        sys.stdout.buffer.write((table.line(held) + "\n").encode())


def or_none(uncovered):
    """A program with a slip may tell of a conflict where nothing is uncovered."""
    return lambda c, d: uncovered(c, d) or {""}


def main(slip):
    if slip in READS:
        return pieces(READS[slip])
    if slip == "answers to 4096 bytes cut at 16384":
        return cut_answers()
    model.Table = TABLES.get(slip, model.Table)
    model.STRINGS = 17 if slip == "seventeen strings" else model.STRINGS
    model.DIGITS = 25 if slip == "25 digits" else model.DIGITS
    model.merged = reduced_once if slip == "reduced once" else model.merged
    model.uncovered = model.uncovered if slip == "none" else or_none(model.uncovered)
    data = INPUTS.get(slip, bytes)(sys.stdin.buffer.read())
    text = b"" if slip == "silent" else OUTPUTS.get(slip, bytes)(model.run(data))
    sys.stdout.buffer.write(text)
    return 1 if slip == "status 1" else 0


if __name__ == "__main__":
    if sys.argv[1:] != ["none"] and sys.argv[1:2] not in [[name] for name in NAMES]:
        sys.exit("usage: wrong.py none|" + "|".join(NAMES))
    sys.exit(main(sys.argv[1]))
