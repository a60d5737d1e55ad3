"""Limit cases of the trace tool, each with the answers worked out by hand from the rules."""

# 32 copies, five digits each: slot s has the bits of s, the lowest first, so that s and s + 16 are siblings
GROWN = [("F %d" % s, "ok %d" % (s + half)) for half in (1, 2, 4, 8, 16) for s in range(half)]


def to_the_end(made):
    """Slot 0 is the whole again: after n forks it has n digits, and one of 24 digits is refused."""
    return [("F 0", "ok %d" % slot) for slot in made] + [("F 0", "refused 6")]


def digits():
    """An id string of 23 digits forks, one of 24 is refused; slot n, made by fork n, has n digits too."""
    return [*to_the_end(range(1, 25)), ("F 24", "refused 6"),
            ("F 23", "ok 25"), ("F 23", "refused 6"), ("F 25", "refused 6"),
            ("J 0 24", "ok 0"), ("F 0", "ok 24"), ("F 0", "refused 6"), ("F 22", "ok 26"), ("F 22", "ok 27"), ("F 22", "refused 6")]


def room():
    """32 present copies, then fork: 5, for slots with 24 digits too; a join makes room for one."""
    return [*[("F 0", "ok %d" % n) for n in range(1, 25)], *[("F 1", "ok %d" % n) for n in range(25, 32)],
            *[("F %d" % s, "refused 5") for s in range(32)], ("F 32", "refused 3"), ("F 99", "refused 3"),
            ("J 1 31", "ok 1"), ("F 31", "refused 3"), ("F 0", "refused 6"), ("F 2", "ok 31"), ("F 0", "refused 5"),
            ("J 9 9", "refused 4"), ("J 4 7", "ok 4"), ("J 5 3", "ok 5"), ("F 6", "ok 3"), ("F 6", "ok 7"), ("F 6", "refused 5")]


def strings():
    """A reduced id of 16 strings is accepted, also out of a union of 17; one of 17 is refused and changes nothing."""
    return [*GROWN, ("F 0", "refused 5"), ("U 17", "ok 17"),
            *[("J 0 %d" % s, "ok 0") for s in range(1, 16)],            # all end in 0: 16 strings
            ("J 0 16", "ok 0"),                                         # 17 strings, two of them siblings
            ("C 0 17", "obsolete"), ("F 17", "ok 1"),                   # 17 has 100010 now and 1 has 100011
            ("J 0 17", "refused 7"), ("J 17 0", "refused 7"), ("J 0 1", "refused 7"), ("J 1 0", "refused 7"),
            ("C 0 17", "obsolete"), ("C 0 1", "obsolete"), ("C 17 1", "equal"), ("S 0", "spare"), ("S 17", "kept"),
            ("J 1 17", "ok 1"), ("C 17 1", "refused 3"), ("J 0 1", "ok 0"),
            *[("J 0 %d" % s, "ok 0") for s in range(18, 32)],           # the whole again
            *to_the_end(range(1, 25))]


def halves():
    """16 strings and their 16 siblings make a union of 32 that reduces to the whole; against half of itself it stays 32."""
    return [*GROWN, *[("J 0 %d" % s, "ok 0") for s in range(1, 16)], *[("J 16 %d" % s, "ok 16") for s in range(17, 32)],
            ("U 0", "ok 0"), ("U 16", "ok 16"), ("C 0 16", "conflict 00000 00001"),
            ("F 0", "ok 1"), ("J 0 16", "refused 7"), ("J 16 1", "refused 7"), ("C 0 1", "equal"), ("C 1 16", "conflict 00000 00001"),
            ("J 0 1", "ok 0"), ("J 16 0", "ok 16"), ("J 16 0", "refused 3"), ("J 0 16", "refused 3"),
            ("F 16", "ok 0"), ("J 0 16", "ok 0"), *to_the_end(range(1, 25))]


def both_sides():
    """Joins in a row: verdicts and spare after edits on both sides, on one, and after they met."""
    return [("S 0", "kept"), ("C 0 0", "equal"), ("U 0", "ok 0"), ("S 0", "kept"), ("F 0", "ok 1"), ("C 0 1", "equal"), ("S 1", "kept"),
            ("U 1", "ok 1"), ("C 0 1", "obsolete"), ("C 1 0", "newer"), ("S 0", "spare"), ("S 1", "kept"),
            ("U 0", "ok 0"), ("C 0 1", "conflict 0 1"), ("C 1 0", "conflict 1 0"), ("S 0", "kept"), ("S 1", "kept"),
            ("F 1", "ok 2"), ("J 0 2", "ok 0"), ("C 1 0", "obsolete"), ("C 0 1", "newer"), ("S 1", "spare"), ("S 0", "kept"),
            ("S 2", "refused 3"), ("U 1", "ok 1"), ("C 0 1", "conflict 0 10"), ("J 1 0", "ok 1"), ("C 1 1", "equal"), ("C 0 1", "refused 3")]


# after 24 forks slot 0 has 24 zeros and slot n, made by fork n, has n - 1 zeros and a 1; the even ones go to slot 0, the odd ones to 24
DEALT = [*[("F 0", "ok %d" % n) for n in range(1, 25)], *[("J 0 %d" % n, "ok 0") for n in range(2, 24, 2)],
         *[("J 24 %d" % n, "ok 24") for n in range(23, 0, -2)], ("U 0", "ok 0"), ("U 24", "ok 24")]
ZEROS, ONE = "0" * 24, "0" * 23 + "1"


def longest():
    """Names of 12 and 13 strings that have nothing in common: the first string of both has 24 digits, and it is the longest line there is."""
    return [*DEALT, ("C 0 24", "conflict %s %s" % (ZEROS, ONE)), ("C 24 0", "conflict %s %s" % (ONE, ZEROS)), ("C 0 0", "equal"),
            ("J 0 24", "ok 0"), *to_the_end(range(1, 25))]


def lacking():
    """Slots 0 and 8 have the edits of 8 strings in common, xyz0; which string a conflict names is decided by the rest."""
    return [*[pair for pair in GROWN if int(pair[1][3:]) < 16],             # slot s has the four bits of s, the lowest first
            *[("J 0 %d" % s, "ok 0") for s in range(1, 8)], ("U 0", "ok 0"),
            ("F 0", "ok 1"), ("J 8 1", "ok 8"), ("C 0 8", "equal"),         # all strings of both are xyz0
            ("U 9", "ok 9"), ("U 12", "ok 12"), ("J 0 9", "ok 0"), ("C 0 8", "newer"), ("J 8 12", "ok 8"),
            ("C 0 8", "conflict 1001 0011"), ("C 8 0", "conflict 0011 1001"),  # the sixth of 9 strings and the third of 9
            ("U 13", "ok 13"), ("J 8 13", "ok 8"), ("C 0 8", "conflict 1001 0011"),  # 1011 is lacking too, but comes later
            ("U 10", "ok 10"), ("J 0 10", "ok 0"), ("C 0 8", "conflict 0101 0011"),  # 0101 is lacking too, and comes first
            ("F 0", "ok 1"), ("C 1 8", "conflict 0101 0011"), ("C 8 1", "conflict 0011 0101"), ("J 8 1", "refused 7"),
            ("U 8", "ok 8"), ("C 0 8", "conflict 0101 00001"), ("C 8 0", "conflict 00001 0101")]  # xyz01 now, which covers xyz0


CASES = [digits, room, strings, halves, both_sides, longest, lacking]

# lines on a table with a copy in slot 0 alone; none of these changes that
LINES = [(line, b"refused 11") for line in [
    b"", b" ", b"U", b"U ", b"U0", b"U  0", b" U 0", b"U 0 ", b"U 0  ", b"U\t0", b"U 0\t", b"u 0", b"f 0", b"j 0 0", b"c 0 0", b"s 0", b"UU 0",
    b"U 00", b"U 01", b"U 09", b"U 000", b"U 100", b"U 032", b"U 320", b"U 4294967296", b"U 18446744073709551616", b"U 0x", b"U a", b"U /", b"U :",
    b"U 9:", b"U 1/", b"U -0", b"U +0", b"U -1", b"U 0.", b"U 0,", b"U 0 0", b"F 0 0", b"S 0 0", b"U 0 0 0", b"C", b"C 0", b"C 0 ", b"C  0 0",
    b"C 0  0", b"C 0 0 ", b" C 0 0", b"C 0 0 0", b"C 00 0", b"C 0 00", b"C 0 01", b"C 01 0", b"C 100 0", b"C 0 100", b"C 0,0", b"C 0\t0", b"C00",
    b"C 0 -1", b"J 0", b"J", b"J 0 0 0", b"J 00", b"J 0 00", b"J 0  0", b"J 0 100", b"X 0", b"T 0", b"V 0", b"D 0", b"E 0", b"G 0", b"I 0 0", b"K 0 0",
    b"B 0 0", b"R 0", b"0 U", b"0", b"ok 0", b"refused 11", b"#", b"# U 0", b"---", b"U 0#", b"U 0;U 0", b"\r", b"U 0\r", b"\rU 0", b"U\r0", b"C 0 0\r",
    b"C 0\r0", b"\0", b"U 0\0", b"\0U 0", b"U\0000", b"U \0", b"U \0000", b"C 0 0\0", b"C 0 \0", b"\x80", b"\xff", b"\xff" * 9, b"U 0\xff", b"\xffU 0",
    b"U\xa00", b"U \xb0", b"\xd5 0", b"U 0\x8a", b"U\xc2\xa00", b"U \xd9\xa0", b"\xef\xbb\xbfU 0", b"U 0\x0b", b"U 0\x0c", b"U 0\x1a", b"U 0\x85",
    b"U 0\xe2\x80\xa8", b"\x7f", b"U 0" * 50, b"U " + b"0" * 50, b"C 0 " + b"0" * 50, b" " * 200]] + [
    (b"U 0", b"ok 0"), (b"S 0", b"kept"), (b"C 0 0", b"equal"), (b"J 0 0", b"refused 4")] + [
    (line, b"refused 3") for line in [
        b"U 1", b"F 1", b"S 1", b"U 9", b"U 10", b"U 19", b"U 31", b"U 32", b"U 33", b"U 64", b"U 99", b"F 31", b"F 32", b"F 99", b"S 31", b"S 32", b"S 99",
        b"C 0 1", b"C 1 0", b"C 1 1", b"C 0 31", b"C 0 32", b"C 32 0", b"C 99 99", b"C 10 10", b"C 0 99", b"J 0 1", b"J 1 0", b"J 1 1", b"J 0 31", b"J 0 32",
        b"J 32 0", b"J 32 32", b"J 99 99", b"J 0 99", b"J 31 31"]]

# whole inputs, where the end matters
ENDS = [(b"", b""), (b"\n", b"refused 11\n"), (b"\n\n\n", b"refused 11\n" * 3), (b"U 0", b"ok 0\n"), (b"U 0\n", b"ok 0\n"),
        (b"U 0\n\n", b"ok 0\nrefused 11\n"), (b"U 0\nC 0 0", b"ok 0\nequal\n"), (b"U 0\nC 0", b"ok 0\nrefused 11\n"), (b"\nU 0", b"refused 11\nok 0\n"),
        (b"U 0\r\n", b"refused 11\n"), (b"U 0\r", b"refused 11\n"), (b"U", b"refused 11\n"), (b"\0", b"refused 11\n"), (b"S 0\n\0", b"kept\nrefused 11\n"),
        (b"U 0\nU 0\xff", b"ok 0\nrefused 11\n")]


def long_lines():
    """Lines of some megabytes, the last one unfinished, and what stands between them."""
    data = b"U 0\nF " + b"0" * 3000000 + b"\nU 0" + b"\0" * 2000000 + b"\nC 0 0\nU 0" + b" " * 1000000 + b"\nS 0\n" + b"C 0 0" * 400000
    return data, b"ok 0\nrefused 11\nrefused 11\nequal\nrefused 11\nkept\nrefused 11\n"


def large_input():
    """Several megabytes: a round of answers that ends where it began, 3000 times, then short lines alone."""
    turn = [("C 0 0", "equal"), ("F 0", "ok 1"), ("C 0 1", "equal"), ("U 1", "ok 1"), ("C 0 1", "obsolete"), ("S 0", "spare"), ("J 0 1", "ok 0"),
            ("S 0", "kept"), ("S 1", "refused 3"), ("x" * 1000, "refused 11")]
    lines, answers = b"".join(b"%s\n" % a.encode() for a, _ in turn), b"".join(b"%s\n" % b.encode() for _, b in turn)
    return lines * 3000 + b"C 0 0\n\n" * 60000, answers * 3000 + b"equal\nrefused 11\n" * 60000


def at_the_seams():
    """A line that begins just before, at and just after each place where a buffer of usual size may end."""
    data, answers = bytearray(), bytearray()
    for size in (64, 128, 256, 512, 1024, 2048, 4096, 8192, 16384, 32768, 65536, 131072):
        for before in range(8, -2, -1):
            start = (len(data) // size + 2) * size - before
            data += b"x" * (start - len(data) - 1) + b"\nC 0 0\nJ 0 0\n"
            answers += b"refused 11\nequal\nrefused 4\n"
    return bytes(data), bytes(answers)


def lines_of_length():
    """Lines that are about as long as a buffer: a good beginning makes none of them good."""
    lengths = [n + d for n in (64, 256, 512, 1024, 4096, 8192, 16384, 65536) for d in range(-4, 5)]
    data = b"".join(b"U 0" + b" " * (n - 3) + b"\nC 0 0\n" + b" " * (n - 3) + b"U 0\n" for n in lengths)
    return data, b"refused 11\nequal\nrefused 11\n" * len(lengths)


def long_answers():
    """Far more bytes out than in: the longest answers there are, alone and among short ones."""
    turn = [("C 0 24", "conflict %s %s" % (ZEROS, ONE)), ("C 0 0", "equal"), ("C 24 0", "conflict %s %s" % (ONE, ZEROS)), ("S 0", "kept")]
    lines = [*DEALT, *turn[:1] * 6000, *turn * 4000, *turn[2:3] * 3000]
    return tuple(b"".join(b"%s\n" % pair[n].encode() for pair in lines) for n in (0, 1))


WHOLE = [long_lines, large_input, at_the_seams, lines_of_length, long_answers]
