#!/usr/bin/env python3
"""Holds the trace tool against the model of event sets: limit cases, input in pieces, random traces of several kinds.

usage: traces.py [--seed N] COMMAND..   how the trace tool is run
       traces.py --self-test            wrong programs must be found out, the model itself must pass
"""
import collections
import concurrent.futures
import contextlib
import fcntl
import io
import os
import random
import re
import signal
import struct
import subprocess
import sys
import tempfile
import termios
import threading
import time

sys.dont_write_bytecode = True
import limits
import model
import wrong

HERE = os.path.dirname(os.path.abspath(__file__))
WAIT = 120      # seconds for one run
EACH = 24       # random traces of each kind; in the self-test 6
REACHED = {"ok", "equal", "obsolete", "newer", "conflict", "spare", "kept", *("refused %d" % n for n in (3, 4, 5, 6, 7, 11))}
CONFLICT = re.compile("conflict [01]{1,24} [01]{1,24}")
MANY = 8        # strings of an update name


class Wrong(Exception):
    pass


# Running the tool

def finished(process, output, what):
    if process.returncode != 0:
        raise Wrong("%s: status %s" % (what, process.returncode))
    return output


@contextlib.contextmanager
def started(command, stdin):
    """The tool, in a group of its own that is ended when it takes too long."""
    process = subprocess.Popen(command, stdin=stdin, stdout=subprocess.PIPE, bufsize=0, start_new_session=True)
    late = threading.Timer(WAIT, os.killpg, (process.pid, signal.SIGKILL))
    late.start()
    try:
        yield process
    finally:
        late.cancel()


def on_a_file(command, data, what):
    """What it prints with DATA as a file on standard input."""
    with tempfile.TemporaryFile() as file:
        file.write(data)
        file.seek(0)
        with started(command, file) as process:
            return finished(process, process.communicate()[0], what)


def on_a_pipe(command, data, what):
    with started(command, subprocess.PIPE) as process:
        return finished(process, process.communicate(data)[0], what)


def write_and_wait(process, part):
    """Writes PART, and waits until the program has read it or is gone."""
    pipe, waiting = process.stdin.fileno(), bytearray(4)
    while part:
        part = part[os.write(pipe, part):]
    while process.poll() is None:
        fcntl.ioctl(pipe, termios.FIONREAD, waiting)
        if struct.unpack("i", waiting) == (0,):
            return
        time.sleep(0.00005)


def in_pieces(command, parts, what):
    """What it prints when each part is written only after the one before has been read."""
    with started(command, subprocess.PIPE) as process:
        printed = []
        reader = threading.Thread(target=lambda: printed.extend(iter(lambda: process.stdout.read(1 << 16), b"")))
        reader.start()
        try:
            for part in parts:
                write_and_wait(process, part)
        except BrokenPipeError:
            pass                                # it ended early: its status and what it printed tell the rest
        process.stdin.close()
        reader.join()
        process.wait()
    return finished(process, b"".join(printed), what)


# Comparing

def same(got, want, data, what):
    """Byte for byte; else the first line that differs, with the lines that led to it."""
    if got == want:
        return
    lines, printed, wanted = model.lines_of(data), model.lines_of(got), model.lines_of(want)
    k = next((n for n, (a, b) in enumerate(zip(printed, wanted)) if a != b), min(len(printed), len(wanted)))
    at = lambda some: some[k][:80] if k < len(some) else None
    led = [text[:80] for text in lines[max(0, k - 30):k + 1]]
    raise Wrong("%s: line %d of %d: printed %r, wanted %r\n  the lines up to it: %r\n  %d bytes printed, %d wanted"
                % (what, k + 1, len(lines), at(printed), at(wanted), led, len(got), len(want)))


class Conflict:
    """Two copies in conflict: their update names in rising order, which strings of each the other lacks, and the place of the first of these."""
    def __init__(self, c, d):
        self.copies = c, d
        self.names = [sorted(x.update_name()) for x in (c, d)]
        self.lacked = [sorted(model.uncovered(c, d)), sorted(model.uncovered(d, c))]
        self.places = [name.index(some[0]) for name, some in zip(self.names, self.lacked)]


# what has to be seen in some conflict between update names of many strings; the conflict of the line before, if it told one, is at hand
SEEN = {"in all": lambda now, before: True,
        "the other way round in the next line": lambda now, before: before and before.copies == now.copies[::-1],
        "24 digits told of both": lambda now, before: all(len(some[0]) == 24 for some in now.lacked),
        "the first string of both covered": lambda now, before: min(now.places) > 0,
        "the last string of both covered": lambda now, before: all(name[-1] != some[-1] for name, some in zip(now.names, now.lacked)),
        "more than one string of both lacking": lambda now, before: all(len(some) > 1 for some in now.lacked),
        "at two places": lambda now, before: now.places[0] != now.places[1]}


class Watched(model.Table):
    """The model; what is seen in its conflicts is counted."""
    def __init__(self, seen):
        super().__init__()
        self.seen, self.now = seen, None

    def line(self, text):
        self.before, self.now = self.now, None
        return super().line(text)

    def conflict(self, c, d):
        self.now = Conflict(c, d)
        if all(len(name) >= MANY for name in self.now.names):
            self.seen.update(what for what, is_so in SEEN.items() if is_so(self.now, self.before))
        return super().conflict(c, d)


class Count:
    """What was run, which answers were met, and what was seen in the conflicts of random traces."""
    def __init__(self):
        self.traces, self.answers, self.slots, self.seen = 0, collections.Counter(), set(), collections.Counter()

    def add(self, printed):
        self.traces += 1
        for text in printed.decode().splitlines():
            word, _, number = text.partition(" ")
            self.answers[word if word == "ok" or CONFLICT.fullmatch(text) else text] += 1
            if word == "ok":
                self.slots.add(int(number))

    def wanted(self, data):
        """What the model prints."""
        return model.run(data, Watched(self.seen))

    def check(self):
        if set(SEEN) - set(self.seen):
            raise Wrong("in no conflict between names of %d strings: %s" % (MANY, ", ".join(sorted(set(SEEN) - set(self.seen)))))
        if REACHED - set(self.answers):
            raise Wrong("never printed: %s" % ", ".join(sorted(REACHED - set(self.answers))))
        if set(self.answers) - REACHED:
            raise Wrong("no trace can lead to: %s" % ", ".join(sorted(set(self.answers) - REACHED)))
        if self.slots != set(range(model.SLOTS)):
            raise Wrong("ok with slots %s alone" % sorted(self.slots))


def compare(command, data, want, what, count, run=on_a_pipe):
    got = run(command, data, what)
    same(got, want, data, what)
    count.add(got)


# Limit cases: the answers written by hand; the model has to give them too

def limit_cases(command, count, *_):
    cases = [(case.__name__, *(b"".join(b"%s\n" % pair[n].encode() for pair in case()) for n in (0, 1))) for case in limits.CASES]
    cases.append(("lines", *(b"".join(b"%s\n" % pair[n] for pair in limits.LINES) for n in (0, 1))))
    cases += [("end %d" % n, *pair) for n, pair in enumerate(limits.ENDS)]
    cases += [(whole.__name__, *whole()) for whole in limits.WHOLE]
    for name, data, want in cases:
        same(model.run(data), want, data, "the model: " + name)
        compare(command, data, want, name, count, on_a_file)
        if len(data) > 100000:
            compare(command, data, want, name + " through a pipe", count)
    print("limit cases: %d, as worked out by hand" % len(cases), flush=True)


# Input in pieces

def cut(data, sizes):
    """DATA in parts whose sizes come from SIZES, one after the other."""
    parts, at = [], 0
    while at < len(data):
        size = next(sizes)
        parts.append(data[at:at + size])
        at += size
    return parts


def piece_cases(command, count, seed, *_):
    rng = random.Random("%s pieces" % seed)
    short = b"F 0\nU 1\n\nC 0 1\nU 0\rx\nS 0\nJ 0 1\nC 0 0 0\nC 0 0"
    runs = [("cut at %d" % n, short, [short[:n], short[n:]]) for n in range(1, len(short))]
    for size, least in [(1, 400), (2, 400), (3, 600), (7, 1500), (64, 4000), (511, 20000), (4095, 60000), (4096, 60000), (4097, 60000),
                        (65535, 200000), (65536, 200000), (65537, 200000)]:
        data = mixed(rng, min(least // 5, 1000))
        data *= 1 + least // len(data)
        runs.append(("pieces of %d" % size, data, cut(data, iter(lambda: size, 0))))
    for n in range(6):
        data = mixed(rng, 2000)
        runs.append(("random pieces %d" % n, data, cut(data, iter(lambda: rng.choice([1, 1, 2, 3, 5, 8, 40, 200, 1000, 4096, 9000]), 0))))
    for name, data, parts in runs:
        compare(command, data, model.run(data), name, count, lambda command, _, what: in_pieces(command, parts, what))
    print("input in pieces: %d runs" % len(runs), flush=True)


# Random traces

class Walk:
    """A trace in the making; the model says what is present, so that most lines mean something."""
    def __init__(self, rng):
        self.rng, self.table, self.lines = rng, model.Table(), []

    def do(self, text):
        self.lines.append(text)
        return self.table.line(text)

    def present(self):
        return [a for a, c in enumerate(self.table.copies) if c is not None]

    def slot(self, far=0.03):
        """Mostly a present slot."""
        return self.rng.randrange(100) if self.rng.random() < far else self.rng.choice(self.present())

    def step(self, weights, far=0.03):
        letter = self.rng.choices("UFJCS", weights)[0]
        slots = (self.slot(far), self.slot(far)) if letter in "JC" else (self.slot(far),)
        return self.do(b"%s %s" % (letter.encode(), b" ".join(b"%d" % a for a in slots)))

    def data(self):
        """The trace, at times with its last line unfinished. Its ids are the whole, no part twice, and both ways to tell what was seen agree."""
        copies = [c for c in self.table.copies if c is not None]
        ids = sorted(s for c in copies for s in c.ids)
        if sum(2 ** (24 - len(s)) for s in ids) != 2 ** 24 or any(b.startswith(a) for a, b in zip(ids, ids[1:])):
            raise Wrong("the model's ids are not the whole: %s" % ids)
        if any((c.events <= d.events) != (c.begun <= d.begun) for c in copies for d in copies):
            raise Wrong("the model's edits and update names tell two stories")
        return b"\n".join(self.lines) + (b"\n" if self.rng.random() < 0.8 else b"")


def long(rng, size):
    walk = Walk(rng)
    while len(walk.lines) < size:
        weights = rng.choice([(3, 3, 2, 3, 1), (1, 5, 3, 3, 1), (3, 2, 4, 3, 1), (6, 1, 1, 4, 2)])
        for _ in range(60):
            walk.step(weights)
    return walk.data()


def deep(rng, size):
    """One line of descent forked again and again, to 24 digits; now and then two copies meet."""
    walk = Walk(rng)
    last = 0
    while len(walk.lines) < size:
        if walk.table.copies[last] is None or rng.random() < 0.04:
            last = max(walk.present(), key=lambda a: max(map(len, walk.table.copies[a].ids)))
        told = walk.do(b"F %d" % last)
        if told.startswith("ok") and rng.random() < 0.5:
            last = int(told.split()[1])
        elif told == "refused 5" or rng.random() < 0.1:
            a, b = rng.choice(walk.present()), rng.choice(walk.present())
            walk.do(b"J %d %d" % (a, b))
        elif told == "refused 6" and rng.random() < 0.2:
            for _ in range(40):                 # no room either: 5 comes before 6
                walk.do(b"F %d" % walk.slot(0))
        walk.step((4, 0, 0, 4, 1))
    return walk.data()


def full(rng, size):
    """32 present copies most of the time."""
    walk = Walk(rng)
    while len(walk.lines) < size:
        while len(walk.present()) < 32 and len(walk.lines) < size:
            few = rng.sample(walk.present(), min(3, len(walk.present())))
            walk.do(b"F %d" % rng.choice([min, max])(few, key=lambda a: max(map(len, walk.table.copies[a].ids))))
        for _ in range(rng.randrange(1, 30)):
            walk.step((5, 3, 0.6, 5, 2))
    return walk.data()


def wide(rng, size):
    """Ids of many strings: one copy takes in others until 16 strings are passed, and is forked."""
    walk = Walk(rng)
    strings = lambda a: len(walk.table.copies[a].ids)
    while len(walk.lines) < size:
        while len(walk.present()) < rng.randrange(20, 33):
            walk.do(b"F %d" % min(rng.sample(walk.present(), min(4, len(walk.present()))), key=strings))
        most = max(walk.present(), key=strings)
        for _ in range(rng.randrange(5, 30)):
            other = rng.choice(walk.present())
            walk.do(b"J %d %d" % ((most, other) if rng.random() < 0.8 else (other, most)))
            if walk.table.copies[most] is None:
                most = other
            walk.step((3, 0.5, 0.2, 4, 1))
    return walk.data()


def gather(walk):
    """The two copies that have the longest siblings are joined, until there is one copy or a join is refused."""
    told = "ok"
    while told.startswith("ok") and len(walk.present()) > 1:
        owner = {s: a for a in walk.present() for s in walk.table.copies[a].ids}
        s = max(sorted(owner), key=len)
        told = walk.do(b"J %d %d" % (owner[s[:-1] + "0"], owner[s[:-1] + "1"]))


def clash(rng, size):
    """Conflicts between update names of many strings, most of them in both names, up to 24 digits; each is asked both ways."""
    walk = Walk(rng)
    while len(walk.lines) < size:
        gather(walk)
        last, ones = walk.present()[0], rng.choice([0, 0.5, 1])
        for _ in range(rng.choice([20, 24, 24])):
            told = walk.do(b"F %d" % last)
            if told.startswith("ok") and rng.random() < ones:
                last = int(told.split()[1])
        cards = sorted(walk.present(), key=lambda a: max(map(len, walk.table.copies[a].ids)))
        if len(cards) < 20:
            continue
        longest, cards = cards[-2:], rng.sample(cards[:-2], len(cards) - 2)
        deal = lambda n: [cards.pop() for _ in range(n)]
        pair = x, y = deal(2)
        for a in deal(rng.randrange(4, 8)):                 # what both will have seen: x collects it, is edited and tells y
            walk.do(b"J %d %d" % (x, a))
        walk.do(b"U %d" % x)
        walk.do(b"J %d %s" % (y, walk.do(b"F %d" % x).split()[1].encode()))
        for hand, a in zip(pair, longest):                  # and what only one has seen
            for other in deal(rng.choice([0, 0, 1, 2, 3])) + [a]:
                walk.do(b"U %d" % other)
                walk.do(b"J %d %d" % (hand, other))
        for _ in range(rng.randrange(1, 5)):
            for a, b in (pair, pair[::-1]):
                walk.do(b"C %d %d" % (a, b))
            walk.step((4, 0.3, 0.3, 4, 1))
            pair = rng.choice([(x, y), (x, walk.slot(0)), (walk.slot(0), y)])
    return walk.data()


def spare(rng, size):
    """Few edits and many questions, among many copies that have met."""
    walk = Walk(rng)
    while len(walk.lines) < size:
        walk.step((1, 3, 2, 2, 8), 0.01)
    return walk.data()


def quiet(rng, size):
    """Many equal copies: hardly an edit."""
    walk = Walk(rng)
    while len(walk.lines) < size:
        walk.step((0.1, 3, 3, 5, 2))
    return walk.data()


def far(rng, size):
    """Slots that are absent or past the table, to 99."""
    walk = Walk(rng)
    while len(walk.lines) < size:
        walk.step((1, 2, 2, 2, 1), 0.5)
    return walk.data()


def spoilt(rng, line):
    """A line with one thing wrong, or now and then still right."""
    at = rng.randrange(len(line) + 1)
    some = rng.choice([b" ", b"  ", b"\r", b"\0", b"\n", b"0", b"1", b"9", b"U", b"c", b"\x80", b"\xff", bytes([rng.randrange(256)])])
    high = bytes(b | 128 for b in line[at:at + 1])
    return rng.choice([line[:at] + some + line[at:], line[:at] + line[at + 1:], line[:at] + some + line[at + 1:], line[:at] + high + line[at + 1:],
                       line + some, line.lower(), line + b" " + line, line.replace(b" ", b" 0"), some * rng.choice([1, 2, 3, 20, 700, 5000])])


def spoil(walk):
    """A spoilt line, which may hold a newline and so be several."""
    text = spoilt(walk.rng, walk.rng.choice([b"U %d", b"F %d", b"S %d", b"C %d 0", b"J 0 %d"]) % walk.slot())
    for line in text.split(b"\n"):
        walk.do(line)


def malformed(rng, size):
    walk = Walk(rng)
    while len(walk.lines) < size:
        spoil(walk) if rng.random() < 0.6 else walk.step((2, 2, 1, 3, 1))
    return walk.data()


def mixed(rng, size):
    """A bit of everything; the one that is also sent in pieces."""
    walk = Walk(rng)
    while len(walk.lines) < size:
        spoil(walk) if rng.random() < 0.02 else walk.step((0.3, 2, 1.4, 5, 1), 0.05)
    return walk.data()


def noise(rng, size):
    """Bytes at random, most of them such as commands have."""
    return bytes(rng.choices(b"UFJCS 01239\n\r\0\xff", (3, 4, 1, 3, 2, 14, 9, 3, 2, 1, 1, 12, 0.2, 0.2, 0.2), k=6 * size))


KINDS = {kind.__name__: kind for kind in (long, deep, full, wide, clash, spare, quiet, far, malformed, mixed, noise)}


def random_cases(command, count, seed, each):
    for name, kind in KINDS.items():
        for n in range(each):
            rng = random.Random("%s %s %d" % (seed, name, n))
            data = kind(rng, rng.choice([20, 100, 400, 1000]))
            what = "seed %s, %s %d" % (seed, name, n)
            compare(command, data, count.wanted(data), what, count, on_a_file if n % 2 else on_a_pipe)
    print("random traces with seed %s: %d of each kind: %s" % (seed, each, ", ".join(KINDS)), flush=True)


PARTS = {"limits": limit_cases, "pieces": piece_cases, "random": random_cases}


def check(command, seed):
    count = Count()
    subprocess.run(command, stdin=subprocess.DEVNULL, stdout=subprocess.DEVNULL)     # it may have to be built first
    for part in PARTS.values():
        part(command, count, seed, EACH)
    count.check()
    print("conflicts of random traces between names of %d strings or more: " % MANY + ", ".join("%d %s" % (count.seen[what], what) for what in SEEN))
    print("answers: " + ", ".join("%d %s" % (count.answers[a], a) for a in sorted(count.answers, key=lambda a: (len(a) > 9, a))))
    print("traces: %d run, %d lines, all as the model of event sets says" % (count.traces, sum(count.answers.values())))


# The tests tested

def examples(command):
    """The worked histories."""
    if subprocess.run([os.path.join(HERE, "examples"), *command], stdout=subprocess.DEVNULL).returncode != 0:
        raise Wrong("the worked histories")


FINDERS = {**{name: lambda command, part=part: part(command, Count(), "1", 6) for name, part in PARTS.items()}, "examples": examples}


def found_by(slip, first):
    """Which test finds out the program with that slip: they are tried one after the other, from number FIRST on; none may find the model itself out."""
    command, names = [sys.executable, os.path.join(HERE, "wrong.py"), slip], list(FINDERS)
    for name in names[first:] + names[:first]:
        try:
            with contextlib.redirect_stdout(io.StringIO()):
                FINDERS[name](command)
        except Wrong:
            return name
    return None


def self_test():
    tests = collections.Counter()
    missed = []
    slips = ["none", *wrong.NAMES]
    with concurrent.futures.ProcessPoolExecutor(os.cpu_count()) as pool:
        for slip, found in zip(slips, pool.map(found_by, slips, (n % len(FINDERS) for n in range(len(slips))))):
            print("%s: %s" % (slip, "found by " + found if found else "passes"), flush=True)
            if bool(found) != (slip != "none"):
                missed.append(slip)
            if found:
                tests[found] += 1
    if missed or set(tests) != set(FINDERS):
        sys.exit("WRONG: judged wrongly: %s; found by %s" % (missed, dict(tests)))
    print("self-test: %d wrong programs, all found out (%s); the model passes"
          % (len(wrong.NAMES), ", ".join("%d by %s" % (n, name) for name, n in tests.items())))


def main(words):
    if words == ["--self-test"]:
        return self_test()
    seed = "1"
    if words[:1] == ["--seed"] and len(words) > 1:
        seed, words = words[1], words[2:]
    if not words or words[0].startswith("-"):
        sys.exit(__doc__.strip())
    try:
        check(words, seed)
    except Wrong as error:
        sys.exit("WRONG: %s" % error)


if __name__ == "__main__":
    main(sys.argv[1:])
