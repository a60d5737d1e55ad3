#!/usr/bin/env python3
"""The tables of bench/run, from what `bench list`, `bench time` and the counting wrote into a folder.

usage: tables.py cases FOLDER ROUNDS      every case: times (the middle one of the runs), instructions, ratios
       tables.py summary FOLDER ROUNDS    the ratios by call and number of strings
       tables.py growth FOLDER ROUNDS     instructions from 1 to 16 strings
       tables.py symbols FOLDER ROUNDS    every case's instructions by function
"""
import os
import sys

INPUTS = 16
OWN = {"main", "called", "rounds_of", "syscall", "nothing"}  # the driver's functions, which are not counted
COPIES = {"memmove": "memcpy", "memcpy": "memcpy", "memset": "memset"}


def rows(path):
    if not os.path.exists(path):
        return []
    with open(path) as f:
        return [line.rstrip("\n").split("\t") for line in f]


def cases(folder):
    return {int(r[0]): r[1:] for r in rows(folder + "/cases")}


def counts(folder, rounds):
    """(case, side) -> instructions of one call, and by function; from the processor's counter or from count.c."""
    own = {(int(c), int(s)): (float(n), {}) for c, s, n in rows(folder + "/counted")}
    if own:
        return own
    marks = {}
    for (line,) in rows(folder + "/marks"):
        words = line.split()
        if int(words[0]) >= 2:
            by = [w.rsplit("=", 1) for w in words[2:]]
            marks[divmod(int(words[0]) - 2, 2)] = {n: int(v) for n, v in by}
    told = {}
    for key, by in marks.items():
        mine = {f: v / (rounds * INPUTS) for f, v in by.items() if f not in OWN}
        told[key] = sum(mine.values()), mine
    return told


def shown(function):
    for word, name in COPIES.items():
        if word in function:
            return name
    return "(jumps to them)" if function == "_init" else function


def middle(values):
    return sorted(values)[len(values) // 2]


def times(folder):
    """case -> nanoseconds of the library and of plain C in each run."""
    told = {}
    for c, ns, plain_ns in rows(folder + "/times"):
        told.setdefault(int(c), []).append((float(ns), float(plain_ns)))
    return told


def print_cases(folder, rounds):
    told, timed = counts(folder, rounds), times(folder)
    print("| call | strings | stamps | library ns | plain ns | ratio (least, most) | library instr. | plain instr. | ratio |")
    print("|---|---|---|---|---|---|---|---|---|")
    for k, (call, strings, what) in sorted(cases(folder).items()):
        ns, plain_ns = (middle([run[side] for run in timed[k]]) for side in (0, 1))
        ratios = [a / b for a, b in timed[k]]
        a, b = told[k, 0][0], told[k, 1][0]
        print(f"| {call} | {strings} | {what} | {ns:.0f} | {plain_ns:.0f} | {middle(ratios):.2f} ({min(ratios):.2f}, {max(ratios):.2f})"
              f" | {a:.0f} | {b:.0f} | {a / b:.2f} |")


def print_summary(folder, rounds):
    told, timed, at = counts(folder, rounds), times(folder), {}
    for k, (call, strings, what) in cases(folder).items():
        pair = middle([a / b for a, b in timed[k]]), told[k, 0][0] / told[k, 1][0]
        at.setdefault((call, int(strings)), {}).setdefault("refused" in what, []).append(pair)
    span = lambda values: f"{min(values):.2f} to {max(values):.2f}" if values else "-"
    print("| call | strings | accepted: times | accepted: instr. | refused: times | refused: instr. |")
    print("|---|---|---|---|---|---|")
    for (call, strings), by in at.items():
        cells = [span([pair[j] for pair in by.get(no, [])]) for no in (False, True) for j in (0, 1)]
        print(f"| {call} | {strings} | " + " | ".join(cells) + " |")


def print_growth(folder, rounds):
    told, at = counts(folder, rounds), {}
    for k, (call, strings, what) in cases(folder).items():
        at.setdefault(call + ", " + what, {})[int(strings)] = "%.0f / %.0f" % (told[k, 0][0], told[k, 1][0])
    print("| strings | " + " | ".join(at) + " |")
    print("|---" * (len(at) + 1) + "|")
    for n in range(1, 17):
        print(f"| {n} | " + " | ".join(column.get(n, "") for column in at.values()) + " |")


def print_symbols(folder, rounds):
    told = counts(folder, rounds)
    for k, (call, strings, what) in sorted(cases(folder).items()):
        print(f"{call}, {strings} strings, {what}")
        for side, name in enumerate(("library", "plain")):
            total, by = told[k, side]
            merged = {}
            for f, v in by.items():
                merged[shown(f)] = merged.get(shown(f), 0) + v
            parts = sorted(((v, f) for f, v in merged.items() if v >= 1), reverse=True)
            print(f"    {name} {total:.0f}: " + ", ".join(f"{f} {v:.0f}" for v, f in parts))


if __name__ == "__main__":
    {"cases": print_cases, "summary": print_summary, "growth": print_growth, "symbols": print_symbols}[sys.argv[1]](sys.argv[2], int(sys.argv[3]))
