#!/usr/bin/env python3
"""Writes the calls that crates/call_vectors is run on, and what it must say of them: outcomes, steps, rows and names, and refusals 1 to
8. Matches, listings and explanations come first, then successive matches, a day's lines, and proposals that are checked.

What must be said comes from reference.py, an independent reading of documents 01 and 02: no line of it is shared with the library.
Usage: harness/call_vectors.py (in the repository's root)
"""
import itertools
import re
import sys
from pathlib import Path

import reference
from reference import DEPOT, ENTRY, FLAGS, GROUPS, I, INDEX, M, PART, ROW, RULE_AREA, S, X
from walk_vectors import HELD_READINGS, NAMED_READINGS, READINGS, within_references

TARGET = Path(__file__).resolve().parent.parent / "crates" / "call_vectors"
RESULTS = 100 * ROW  # the numbers of the largest result area that the program lends, and the whole parts in it
PARTS = RESULTS // PART
MOST = 100000  # the largest budget
ROOM = 262144  # what the program reads of its input
MATCH, LIST, EXPLAIN, SCAN, BATCH, CHECK = range(6)
ENDINGS = {"M": "matched", "N": "not matched", "C": "complete", "F": "full", "Y": "a reading", "O": "no reading"}
# Classes of every kind of member, complemented and not.
CLASSES = [b"[k]", b"[^k]", b"[W-c]", b"[^A-Y]", b"[[:upper:]]", b"[^[:^upper:]b]", b"[[:^lower:]0-9]", b"[\\x00\\x1F-!\\x7e-\\x81\\xFE\\xff]", b"[^\\W_[:digit:]]", b"[^\\d\\D]"]


def row_line(row):
    spans = "".join(" %d:%d-%d" % (g, row[2 * g], row[2 * g + 1]) for g in range(1, GROUPS + 1) if row[2 * g] != reference.U)
    return "  %d %d%s" % (row[0], row[1], spans)


def names_line(index):
    """The entries that are not all 00, each with its group and its bytes; no line where there is none."""
    entries = [(g, index[ENTRY * g - ENTRY:ENTRY * g]) for g in range(1, GROUPS + 1)]
    shown = "".join(" %d:%s" % (g, entry.hex()) for g, entry in entries if any(entry))
    return ["  names" + shown] if shown else []


def why_lines(furthest, closest, items, marks):
    """What an explanation tells of a line that is not matched, with so many marks."""
    marked = "".join("1" if place in items else "0" for place in range(marks))
    return ["  furthest %d %d" % furthest, "  closest %d %d %d" % closest, "  marks " + marked]


def part_line(got):
    """What a line of a batch gets: its outcome, its steps and its row."""
    if got[0] == "R":
        return "  refused %d, 0 steps" % got[1]
    head = "exhausted at %d, %d steps" % got[1:3] if got[0] == "X" else "%s, %d steps" % (ENDINGS[got[0]], got[1])
    row = row_line(got[2]).split() if got[0] == "M" else []
    return "  " + " ".join([head] + (["-".join(row[:2])] + row[2:] if row else []))


def refusal(kind, rule, flags, subject, budget, areas):
    """Refusals 1 to 8, in their order; 0 for none. An explanation is lent no result area; of a batch the lines may be too long, and too many."""
    is_short = {EXPLAIN: lambda: False, BATCH: lambda: len(reference.lines(subject)) > areas[2] // PART}.get(kind, lambda: areas[2] < ROW)
    tests = [len(rule) > 1000, kind != BATCH and len(subject) > 65535, flags >= FLAGS, budget > 100000, areas[0] < RULE_AREA,
             areas[1] < 16 * budget, is_short(), areas[3] < INDEX]
    return tests.index(True) + 1 if True in tests else 0


def told(kind, rule, flags, subject, budget, areas, proposal=b""):
    """The lines of one call: its outcome, its rows or the parts of its lines, its names if it has some, and, if it was to explain, why the line is
    not matched. The last of an explanation's areas are the marks."""
    number = refusal(kind, rule, flags, subject, budget, areas)
    if number:
        return ["refused %d at 0" % number]
    call = {MATCH: reference.match, LIST: reference.listing, EXPLAIN: reference.explain, SCAN: reference.scan, BATCH: reference.batch, CHECK: reference.check}[kind]
    try:
        got = call(rule, flags, subject, budget, *([areas[2] // ROW] if kind in (LIST, SCAN) else [proposal] if kind == CHECK else []))
    except reference.Refuse as refused:
        return ["refused %d at %d" % (refused.n, refused.p)]
    if kind == BATCH:
        return ["done %d lines" % len(got)] + [part_line(part) for part in got] + names_line(reference.index(rule, flags))
    head = "exhausted at %d %d steps" % got[1:3] if got[0] == "X" else "%s %d steps" % (ENDINGS[got[0]], got[1])
    rows = got[-1] if kind in (LIST, SCAN) else [got[2]] if (kind, got[0]) in ((MATCH, "M"), (CHECK, "Y")) else []
    why = why_lines(*got[2:], min(areas[-1], len(rule))) if kind == EXPLAIN and got[0] == "N" else []
    return [head] + [row_line(row) for row in rows] + names_line(reference.index(rule, flags)) + why


def sound(rule, flags):
    try:
        return bool(reference.read(rule, flags))
    except reference.Refuse:
        return False


def cases():
    """kind, rule, flags, subject, budget, lengths of the areas, and of the name index where it is not just enough; for a check its proposal."""
    for rule, flags, subject in READINGS + HELD_READINGS:
        for kind in (0, 1):
            yield kind, rule, flags, subject, 1000, (RULE_AREA, 16000, RESULTS)
        yield 1, rule, flags, subject, 1000, (RULE_AREA, 16000, ROW)
        for budget in (0, 1, 6, 7) if sound(rule, flags) else (0,):
            yield 0, rule, flags, subject, budget, (RULE_AREA, 16 * budget, ROW)
        for budget in (0, 6, 8) if sound(rule, flags) else (0,):
            yield 1, rule, flags, subject, budget, (RULE_AREA, 16 * budget, 2 * ROW)
    for rule, flags, subject, _, budget in within_references():
        yield budget % 2, rule, flags, subject, budget, (RULE_AREA, 16 * budget, ROW)
    yield from classes()
    for kind in (0, 1):
        for budget, work in ((MOST, 16 * MOST), (MOST, 16 * MOST - 1), (MOST + 1, 16 * MOST), (20000, 320000), (1000, 15999), (1000, 16000), (1000, 16001)):
            yield kind, b"a*", 0, b"aa", budget, (RULE_AREA, work, ROW)
        for area in (0, RULE_AREA - 1, RULE_AREA):
            yield kind, b"a", 0, b"a", 10, (area, 160, ROW)
        for results in (0, ROW - 1, ROW, ROW + 1, 2 * ROW - 1, 2 * ROW, 2 * ROW + 1):
            yield kind, b"", 0, b"a", 10, (RULE_AREA, 160, results)
        for flags in (*range(FLAGS + 2), 2 * FLAGS - 1, 2 * FLAGS, 1000):
            yield kind, b"^.$", flags, b"\n", 10, (RULE_AREA, 160, 10 * ROW)
            yield kind, b"a ^ B", flags, b"A\nb", 10, (RULE_AREA, 160, 10 * ROW)
        for size in (1000, 1001):
            yield kind, b"a" * size, 0, b"a", 10, (RULE_AREA, 160, ROW)
            yield kind, b"a" + b" " * (size - 2) + b"*", X, b"a", 10, (RULE_AREA, 160, ROW)
        for size in (0, 1, 65535, 65536):
            yield kind, b"b", 0, b"a" * size, 10, (RULE_AREA, 160, ROW)
            yield kind, b"a*", 0, b"a" * size, 20000, (RULE_AREA, 320000, ROW)
            yield kind, b"\\z", 0, b"a" * size, 10, (RULE_AREA, 160, ROW)
        yield from at_the_largest_budget(kind)
        # two faults: the lower number
        yield kind, b"a" * 1001, FLAGS, b"a" * 65536, 100001, (0, 0, 0)
        yield kind, b"(", FLAGS, b"a" * 65536, 100001, (0, 0, 0)
        yield kind, b"(", FLAGS, b"a", 100001, (0, 0, 0)
        yield kind, b"(", 0, b"a", 100001, (0, 0, 0)
        yield kind, b"(", 0, b"a", 10, (0, 0, 0)
        yield kind, b"(", 0, b"a", 10, (RULE_AREA, 0, 0)
        yield kind, b"(", 0, b"a", 10, (RULE_AREA, 160, 0)
        yield kind, b"(", 0, b"a", 10, (RULE_AREA, 160, ROW)
        yield from names(kind)
    yield from profile()
    yield from most_groups()
    yield from explanations()
    yield from scans()
    yield from batches()
    yield from checks()


def profile():
    """Each call under the depot profile: taken, and refused by each of its numbers and by others before them."""
    for kind, need in ((MATCH, ROW), (LIST, 9 * ROW), (EXPLAIN, 9), (SCAN, 9 * ROW), (BATCH, 2 * PART)):
        for rule, flags in ((b"(?<n>a+)(?:,[0-9])*", DEPOT), (b"( a | b ) {0,2}", DEPOT | X), (b"[A-z]", DEPOT), (b"(a?)*", DEPOT), (b"(a)\\1", DEPOT), (b"()*(a)\\2", DEPOT | I), (b"\\1[a-z]*", DEPOT)):
            yield kind, rule, flags, b"aa,1", 99, (RULE_AREA, 1584, need, INDEX)
    for kind in (MATCH, SCAN):
        for rule, areas in ((b"[A-z]", (RULE_AREA, 1584, ROW, INDEX - 1)), (b"(a?)*", (RULE_AREA, 1584, ROW - 1, INDEX)), (b"(a)\\1", (RULE_AREA - 1, 1584, ROW, INDEX))):
            yield kind, rule, DEPOT, b"a", 99, areas


def most_groups():
    """As many groups as a rule can have, in every call, each with a span; one more; references to the last and behind it."""
    many, line = b"(a)" * GROUPS, b"a" * GROUPS
    for kind, need in ((MATCH, ROW), (LIST, 2 * ROW), (EXPLAIN, 9), (SCAN, 2 * ROW), (BATCH, 2 * PART)):
        for rule in (many, many + b"()", many + b"\\%d" % GROUPS, many + b"\\%d" % (GROUPS + 1)):
            yield kind, rule, 0, line + b"a", 999, (RULE_AREA, 15984, need, INDEX)
    # what was enough for half as many groups
    for kind in (MATCH, LIST, SCAN):
        for results in (GROUPS + 2, ROW - 1, ROW):
            yield kind, b"a", 0, b"a", 9, (RULE_AREA, 144, results, INDEX)
    for results in (GROUPS + 6, PART - 1, PART):
        yield BATCH, b"a", 0, b"a", 9, (RULE_AREA, 144, results, INDEX)


# What f)'s open points turn on, and each kind of item and of node: rule, flags, line.
UNFIT = [(b"^abc$", 0, b"abd"), (b"abc", 0, b"abd"), (b"(ab)\\1", 0, b"aba"), (b"a$b", 0, b"a"), (b"(?:a|b)c", 0, b"a"), (b"b*a", 0, b"bb"),
         (b"^tank (\\w+): (\\d+) L$", 0, b"tank A1 820 L"), (b"a{2}b", 0, b"xaac"), (b"(?:ab)*?c", 0, b"abab"), (b"\\b\\d+\\z", 0, b"12 a"),
         (b"(?<n>a)\\k<n>", I, b"aAb"), (b"(?:a|b|cd)x", 0, b"cdy"), (b"(a)(b)?\\2", 0, b"ab"), (b"[^a]\\Z", 0, b"\nba"), (b"a b", X, b"aa"),
         (b"(?!a|$)", 0, b""), (b"(?=a)", 0, b""), (b"(?!a)b", 0, b"a"), (b"\\Rb", 0, b"\r"), (b"(?=abc)a", 0, b"abd"), (b"a(?!b)c", 0, b"abab"), (b"(?!(?!a))", 0, b"b"),
         (b"(?>a|ab)c", 0, b"abc"), (b"a++b", 0, b"aac"), (b"(?!(a)b)\\1", 0, b"aa")]


def explanations():
    """Lines that are not matched, with marks of several lengths; the other answers, and refusal 8 where 7 would be."""
    for rule, flags, subject in UNFIT:
        for marks in (len(rule), len(rule) - 1):
            yield EXPLAIN, rule, flags, subject, 200, (RULE_AREA, 3200, marks, INDEX)
    for marks in (0, 1, 4, 1001):
        yield EXPLAIN, b"abc", 0, b"abd", 10, (RULE_AREA, 160, marks, INDEX)
    for rule, budget, index in ((b"a", 9, INDEX), (b"a*b", 4, INDEX + 56), (b"(", 9, INDEX), (b"(", 9, INDEX - 1), (b"b", 9, INDEX - 1), (b"(?<n>b)", 9, INDEX)):
        yield EXPLAIN, rule, 0, b"aa", budget, (RULE_AREA, 16 * budget, 9, index)


# What g)'s open points turn on, and ends that are barred in every way that the walk goes on behind them: rule, flags, line.
SUCCESSIVE = [(b"(\\d+) L", 0, b"820 L, 64 L"), (b"aa", 0, b"aaaaa"), (b"a??", 0, b"a"), (b"(a??)", 0, b"a"), (b"|a|b", 0, b"b"), (b"a", 0, b"bb"),
              (b"a", 0, b""), (b"", 0, b""), (b"\\z", 0, b"a"), (b"a*", 0, b"aab"), (b"a*?", 0, b"aa"), (b"(a?)", 0, b"a"), (b"\\b", 0, b"ab"),
              (b"^a", 0, b"aa"), (b"\\Aa", 0, b"aa"), (b"^a", M, b"aa\na"), (b"$", M, b"a\n\n"), (b"\\ba", 0, b"aa a"), (b"(a)|b", 0, b"ab"),
              (b"(a)|\\1b", 0, b"ab"), (b"(|a)(b?)", 0, b"ab"), (b"(?:a??){3}", 0, b"aaaa"), (b"(|a)*\\1", 0, b"aa"), (b".*", S, b"a\nb"),
              (b"(?<n>a)|(?<m>B)", I, b"Ab"), (b"(?>|a)", 0, b"a"), (b"(?=a)", 0, b"aa"), (b"(?!a)", 0, b"ba"), (b"a(?=(b))", 0, b"abab"), (b"\\R", 0, b"\r\n\n"), (b"a*+", 0, b"aab")]


def scans():
    """Successive matches: the open points, room that is full or just enough, budgets that end at a try with its empty end barred or beside it."""
    for rule, flags, subject in SUCCESSIVE:
        yield SCAN, rule, flags, subject, 100, (RULE_AREA, 1600, 10 * ROW)
    for rule, subject, results in ((b"a", b"a", ROW), (b"a", b"aa", ROW), (b"a", b"aa", 2 * ROW - 1), (b"a", b"aa", 2 * ROW), (b"", b"a", ROW),
                                   (b"", b"a", 2 * ROW), (b"a??", b"a", ROW), (b"a??", b"a", 3 * ROW)):
        yield SCAN, rule, 0, subject, 9, (RULE_AREA, 144, results)
    for rule, subject, budgets in ((b"", b"abc", (0, 1)), (b"|a", b"", (1, 2, 3)), (b"|a{3}", b"a", (2, 3, 4, 5, 6)), (b"a{3}|b", b"baa", (6, 7)),
                                   (b"a*", b"aa", (6, 7))):
        for budget in budgets:
            yield SCAN, rule, 0, subject, budget, (RULE_AREA, 16 * budget, 10 * ROW)
    # room for one row: the second try is exhausted before it is known whether the room is full
    yield SCAN, b"|a{3}", 0, b"a", 3, (RULE_AREA, 48, ROW)
    # a line of 65,536 bytes is too long, one of 65,535 is not
    for size in (65535, 65536):
        yield SCAN, b"a{255}", 0, b"a" * size, 257, (RULE_AREA, 4112, 2 * ROW)
    yield from refusals(SCAN, b"", ROW)


# What h)'s open points turn on, apart from the room: rule, flags, buffer.
DAYS = [(b"(\\d+),(\\d+)", 0, b"1,5\nab\n"), (b"a", 0, b"a\nb\na"), (b"^b$", 0, b"a\nb\nb"), (b"^.$", M | S, b"a\n\nb"), (b"a", 0, b""), (b"", 0, b"\n"),
        (b"a", 0, b"\n\na"), (b"", 0, b"\n\n\n\n"), (b"\\n", 0, b"a\n\n"), (b"a$", 0, b"a\r\na\n"), (b"^\\r$", 0, b"\r\n"), (b"a*", 0, b"aa\n\na"),
        (b"(a)|b", 0, b"a\nb"), (b"a(?!b)", 0, b"a\nb\nab"), (b"a\\R", 0, b"a\r\na\n"), (b"a(?=(b*+))", 0, b"ab\nabb"), (b"(?<n>a)(?<m>b)?", I, b"AB\na\n"), (b"(?<n>a)", 0, b""), (b"(", 0, b""), (b"a**", 0, b"a\na")]


def batches():
    """A day's lines: the open points, as many parts as lines, one more and one less, exhausted lines among others, and lines that are too long."""
    for rule, flags, buffer in DAYS:
        yield BATCH, rule, flags, buffer, 100, (RULE_AREA, 1600, 5 * PART)
    for rule, buffer, results in ((b"a", b"a\nb", 2 * PART - 1), (b"a", b"a\nb", 2 * PART), (b"a", b"a\nb", 2 * PART + 1), (b"a", b"a\nb\n", 2 * PART),
                                  (b"a", b"a\nb\n\n", 2 * PART), (b"a", b"\n", PART - 1), (b"a", b"a", 3 * PART + 5), (b"a", b"", 0),
                                  (b"(?<n>a)", b"", 0), (b"(", b"", 0), (b"", b"\n" * PARTS, PARTS * PART), (b"", b"\n" * (PARTS + 1), RESULTS)):
        yield BATCH, rule, 0, buffer, 9, (RULE_AREA, 144, results)
    for rule, buffer, budgets in ((b"a*", b"aa\na\n\naa", (0, 2, 3, 6, 7)), (b"b|a{2}", b"caa\nb", (5, 6))):
        for budget in budgets:
            yield BATCH, rule, 0, buffer, budget, (RULE_AREA, 16 * budget, 4 * PART)
    # a line that is too long has its own part and no other effect; 65,535 bytes are not too long, an 0D counts
    long = b"a" * 65536
    for buffer in (b"b\n" + long + b"\nb\n", long + b"\nb", b"b\n" + long, long[1:] + b"\n" + long[1:] + b"b", long[1:] + b"\r\nb", long[:40000] + b"\n" + long[:40000] + b"\nb"):
        yield BATCH, b"b", 0, buffer, 9, (RULE_AREA, 144, 3 * PART)
    yield BATCH, b"(?<n>a)", 0, long + b"\n" + long, 9, (RULE_AREA, 144, 2 * PART)
    yield BATCH, b"a**", 0, long + b"\na", 9, (RULE_AREA, 144, 2 * PART)
    yield BATCH, b"a", 0, long, 9, (RULE_AREA, 144, PART - 1)
    yield from refusals(BATCH, b"\n", PART)


# What m)'s open points turn on: rule, flags, line, and the most choices that are tried with each other.
PROPOSED = [(b"", 0, b"", 1), (b"|", 0, b"a", 2), (b"a", 0, b"b", 1), (b"a{2}", 0, b"aa", 1), (b"a?", 0, b"a", 2), (b"()*", 0, b"", 2), (b"a*", 0, b"aa", 4), (b"a*?", 0, b"a", 3),
            (b"(){2,}", 0, b"", 1), (b"a{1,2}", 0, b"aa", 2), (b"(a|b)*", 0, b"ab", 5), (b"(?:a|b)|c", 0, b"b", 3), (b"a|ab|", 0, b"ab", 2), (b"(a*)\\1", 0, b"aa", 3), (b"(a)?\\1", 0, b"aa", 2),
            (b"(?<n>A)|(?<m>b )", I | X, b"aB", 2), (b"^a*$", M, b"a\na", 3), (b".*\\b", S, b"a\n", 3), (b"(?:a?b)*", 0, b"bab", 5), (b"(?:(a|)b?){2}", DEPOT, b"ab", 4), (b"((a)|b)+\\2", 0, b"aba", 6)]
BARS = b"|" * 256


def checks():
    """Of all proposals of so many choices, from every start and from behind the line, those that are a reading and some of the others; budgets up to what a path
    needs; refusals 35 and 36 with their places, and those before them; as many branches as there can be."""
    for rule, flags, subject, most in PROPOSED:
        every = [bytes([start, 0, *chosen]) for start in range(len(subject) + 2) for n in range(most + 1) for chosen in itertools.product(range(3 if n < 4 else 2), repeat=n)]
        for number, proposal in enumerate(every):
            if number % 7 == 0 or reference.check(rule, flags, subject, 99, proposal)[0] == "Y":
                yield CHECK, rule, flags, subject, 99, (RULE_AREA, 1584, ROW, INDEX), proposal
    for rule, subject, proposal in ((b"(a*)\\1", b"aa", "00000100"), (b"|", b"", "000001"), (b"|", b"", "000002"), (b"|", b"", "0000"), (b"a*", b"a", "0000"), (b"a*", b"a", "000002"), (b"", b"", "000000"),
                                    (b"", b"", "0000"), (b"a", b"b", "0000"), (b"a", b"a", ""), (b"a", b"a", "00"), (b"a", b"a", "0200"), (b"a", b"a", "0001"), (b"a", b"a", "ffff01"), (b"(?<n>a)+", b"aa", "00000100")):
        for budget in range(10):
            yield CHECK, rule, 0, subject, budget, (RULE_AREA, 16 * budget, ROW, INDEX), bytes.fromhex(proposal)
    # the start's second byte counts 256
    for start in (255, 256, 299, 300, 301, 65535):
        yield CHECK, b"a?", 0, b"a" * 300, 9, (RULE_AREA, 144, ROW, INDEX), start.to_bytes(2, "little") + b"\1"
    for rule in (BARS[1:], BARS, BARS + b"a|b", b"(?:" + BARS + b")" + BARS, BARS + b"(?:" + BARS + b")", b"a|(?:" + BARS + b")" + BARS, b"(?:" + BARS[1:] + b")" + BARS[1:], BARS + b"a*+", b"\\R" + BARS,
                 BARS + b"\\1", BARS + b"(", BARS + b"()*"):
        yield CHECK, rule, DEPOT if rule.endswith(b"*") else 0, b"a", 9, (RULE_AREA, 144, ROW, INDEX), b"\0\0\xff"
    for proposal in (b"\0\0\xfe\0", b"\0\0\xff\0", b"\1\0\xff\xff"):
        yield CHECK, b"(?:" + BARS[1:] + b"){1,2}?", 0, b"a", 9, (RULE_AREA, 144, ROW, INDEX), proposal
    for rule in (b"b(?=a)", b"b(?!a)", b"(?>a)", b"a\\R", b"a*+", b"a{1,2}+", b"(?=a*+)", b"(a\\R)*+", b"(a)(?:b|c++)\\R", b"(?=a)(", b"(?=a)\\1", b"(?=(a))\\1", b"(?=a)*", b"(?=[A-z])", b"(?=[a-z])", b"[(?=a)]"):
        for flags in (0, DEPOT, X):
            yield CHECK, rule, flags, b"a", 9, (RULE_AREA, 144, ROW, INDEX), b"\0\0"
    for areas in ((RULE_AREA, 144, ROW - 1, INDEX), (RULE_AREA, 144, ROW, INDEX - 1), (RULE_AREA, 143, ROW, INDEX), (RULE_AREA, 144, 3 * ROW, INDEX + 9)):
        for rule in (b"(?<n>a)", b"(?=a)", BARS):
            yield CHECK, rule, 0, b"a", 9, areas, b"\0\0"
    # a path of as many steps as there can be, and of one more
    for rule in (b"(?:a{248}){200}a{198}a", b"(?:a{248}){200}a{198}a\\z"):
        yield CHECK, rule, 0, b"a" * 49799, MOST, (RULE_AREA, 16 * MOST, ROW, INDEX), b"\0\0"
    yield from refusals(CHECK, b"", ROW)


def refusals(kind, subject, need):
    """Each of the refusals 1 to 8 at its last good and its first bad value, then faults together: the lower number."""
    for size in (1000, 1001):
        yield kind, b"a" * size, 0, subject, 9, (RULE_AREA, 144, need)
    for flags in (FLAGS - 1, FLAGS):
        yield kind, b"a", flags, subject, 9, (RULE_AREA, 144, need)
    for budget in (MOST, MOST + 1):
        yield kind, b"a", 0, subject, budget, (RULE_AREA, 16 * MOST, need)
    for area, work, results, index in ((RULE_AREA, 144, need, INDEX), (RULE_AREA - 1, 144, need, INDEX), (RULE_AREA, 143, need, INDEX),
                                       (RULE_AREA, 144, need - 1, INDEX), (RULE_AREA, 144, need, INDEX - 1)):
        yield kind, b"a", 0, subject, 9, (area, work, results, index)
    for rule, size, flags, budget, areas in ((b"a" * 1001, 65536, FLAGS, MOST + 1, (0, 0, 0, 0)), (b"(", 65536, FLAGS, MOST + 1, (0, 0, 0, 0)),
                                             (b"(", 1, FLAGS, MOST + 1, (0, 0, 0, 0)), (b"(", 1, 0, MOST + 1, (0, 0, 0, 0)), (b"(", 1, 0, 9, (0, 0, 0, 0)),
                                             (b"(", 1, 0, 9, (RULE_AREA, 0, 0, 0)), (b"(", 1, 0, 9, (RULE_AREA, 144, 0, 0)),
                                             (b"(", 1, 0, 9, (RULE_AREA, 144, need, 0)), (b"(", 1, 0, 9, (RULE_AREA, 144, need, INDEX))):
        yield kind, rule, flags, b"a" * size, budget, areas


def names(kind):
    """Indices around what is needed; refusals 7, 8 and those of the rule in their order; the index after each outcome; the most names and the longest."""
    for index in (0, INDEX - 1, INDEX, INDEX + 1):
        for rule in (b"", b"(?<n>a)", b"(?<n>a", b"(?<n>a)(?<n>b)", b"\\k<n>"):
            yield kind, rule, 0, b"a", 10, (RULE_AREA, 160, ROW, index)
        yield kind, b"(?<n>a", 0, b"a", 10, (RULE_AREA, 160, ROW - 1, index)
        yield kind, b"(", FLAGS, b"a" * 65536, 100001, (0, 0, 0, index)
    for index in (INDEX + 2, INDEX + ENTRY, INDEX + 55, INDEX + 56):
        yield kind, b"(?<n>a)", 0, b"a", 10, (RULE_AREA, 160, ROW, index)
    for rule, flags, subject in NAMED_READINGS:
        yield kind, rule, flags, subject, 1000, (RULE_AREA, 16000, RESULTS)
    for rule, budget in ((b"(?<n>b)", 10), (b"(?<n>a)(?<m>b)?", 3), (b"()(?<litres>\\d+)()", 100), (b"(?<A>a)|(?<a>a)|(?<_>a)", 100)):
        yield kind, rule, 0, b"a1", budget, (RULE_AREA, 16 * budget, 4 * ROW, INDEX + 56)
    many = b"(?<n%d>a?)" if kind else b"(?<abcdefghijkl_%03d>a?)"
    yield kind, b"".join(many % k for k in range(min(GROUPS, 1000 // len(many % 0)))), 0, b"aa", 1000, (RULE_AREA, 16000, ROW, INDEX + 1)
    yield kind, b"()" * (GROUPS - 1) + b"(?<abcdefghijklmnop>a)", 0, b"a", 1000, (RULE_AREA, 16000, ROW, INDEX)


def classes():
    """Classes with and without `i` on all 256 bytes: a listing has a row for each byte that is in the class."""
    for rule in CLASSES:
        for flags in (0, I):
            for first in range(0, 256, 64):
                yield 1, rule, flags, bytes(range(first, first + 64)), 10, (RULE_AREA, 160, 64 * ROW)


def at_the_largest_budget(kind):
    most = lambda rule, subject, rows: (kind, rule, 0, subject, MOST, (RULE_AREA, 16 * MOST, rows * ROW))
    # `^a*` takes its last step just within the budget, one more `a` needs two more
    yield most(b"^a*", b"a" * 49998, 1)
    yield most(b"^a*", b"a" * 49999, 1)
    # steps double with each `a`: all starts are within the budget, the first is beyond it, or a later one
    for size in (5, 11, 12, 13, 14, 20, 1000):
        yield most(b"(a*)*b", b"a" * size, 1)
    yield most(b"(a*)*c", b"b" + b"a" * 20, 1)
    yield most(b"(?:a|a)*$", b"a" * 14 + b"b", 1)
    yield most(b"(?:(a*)*b|a*)", b"a" * 13, 1)
    # a reference of 10,000 bytes: it begins after 20,084 steps and costs 10,001, two more are `$` and the rule's end
    for budget in (20084, 20085, 30084, 30085, 30086, 30087):
        yield kind, b"^((?:a{250}){40})\\1$", 0, b"a" * 20000, budget, (RULE_AREA, 16 * budget, ROW)
    # many ways to few readings, many readings with room for some, and with room for all
    yield most(b"(?:a*)*", b"a" * 20, 100)
    yield most(b"(a*)*", b"a" * 20, 100)
    yield most(b"(?:a?){9}", b"a" * 9, 100)


def given(text, most):
    """Bytes in hex; in a word of their own, `x` and a count, the letters `a` of which more than so many stand in a row."""
    pieces = re.split(b"(a{%d,})" % (most + 1), text)
    return " ".join("x%d" % len(piece) if k % 2 else piece.hex() for k, piece in enumerate(pieces) if piece)


def main():
    asked, answers = [], []
    for kind, rule, flags, subject, budget, areas, *proposal in cases():
        areas += (INDEX,) * (4 - len(areas))
        proposal = b"".join(proposal)
        # a rule is one word: in hex, or as so many letters; and so is what is proposed, in hex
        written = given(rule, 999)
        # call, flags, budget, the lengths of the areas and of the name index, rule, proposal, subject
        asked.append("%d %d %d %d %d %d %d %s %s %s\n" % (kind, flags, budget, *areas, written, proposal.hex(), given(subject, 1000)))
        # in these calls an explanation has as many marks as another call has numbers in its result area
        answers += told(kind, rule, flags, subject, budget, areas + areas[2:3], proposal)
    if sum(map(len, asked)) > ROOM:
        sys.exit("more than the %d bytes that the program reads" % ROOM)
    TARGET.joinpath("stdin").write_text("".join(asked))
    TARGET.joinpath("stdout").write_text("".join(line + "\n" for line in answers))
    print("%d calls, %d bytes, %d lines" % (len(asked), sum(map(len, asked)), len(answers)), file=sys.stderr)


if __name__ == "__main__":
    main()
