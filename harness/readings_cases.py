#!/usr/bin/env python3
"""Runs the office report, target/bin/readings, on cases of its own and compares what it writes.

Small cases and all messages are held to texts written here by hand. Large ones, and random rules and lines, are held to `report` below: the
layout written a second time, over the rows of reference.py. It shares nothing with the program.
Usage: harness/readings_cases.py [SEED] (in the repository's root, after `./build readings`). The last line is 'N passed, M failed'.
"""
import random
import subprocess
import sys
from pathlib import Path

import reference
from cases import FLAGS_USAGE, Cases
from reference import ENTRY, FLAGS, GROUPS

ROOT = Path(__file__).resolve().parent.parent
PROGRAM = ROOT / "target" / "bin" / "readings"
DATA = ROOT / "crates" / "readings" / "data"
WIDTH, ROWS = 64, 1000
LITRES = rb"^(?:(\d{1,3},\d{3})|(\d+,\d+)) L$"


# The report written a second time ---------------------------------------------


def labels(rule, flags):
    """What each group is called, from 1 on, and how wide the labels are."""
    index = reference.index(rule, flags)
    names = [index[at + 1:at + 1 + index[at]].decode() for at in range(0, len(index), ENTRY)]
    return [name or "group %d" % group for group, name in enumerate(names, 1)], max(12, *map(len, names))


def spans(number, row, groups):
    yield "reading %d" % number, "-", row[0], row[1]
    for group, label in enumerate(groups, 1):
        if row[2 * group] != reference.U:
            yield label, "^", row[2 * group], row[2 * group + 1]


def block(line, rows, groups, margin):
    """A line in its windows, each with the readings that have something there."""
    for at in range(0, max(len(line), 1), WIDTH):
        window = line[at:at + WIDTH]
        yield "%*s  %s" % (margin, "column %d" % at if len(line) > WIDTH else "", shown(window))
        for number, row in enumerate(rows, 1):
            for label, mark, first, end in spans(number, row, groups):
                if at <= first <= at + WIDTH if first == end else first < at + WIDTH and at < end:
                    marks = "".join(mark if first <= at + k < end else " " for k in range(len(window)))
                    yield "%*s  %s  %d-%d%s" % (margin, label, marks, first, end, " empty" if first == end else "")


# Why a line does not fit, written a second time -------------------------------


def item(rule, flags, place):
    """The own text of the item at a place, repeats and all; of a `(?!` its opening."""
    if rule[place:place + 3] == b"(?!":
        return b"(?!"
    p = reference.Parser(rule, flags)
    p.i = place
    p.atom()
    end = p.i
    p.blanks()
    repeat = p.quant()
    if repeat is not None:
        end = repeat[3] + (rule[repeat[3]:repeat[3] + 1] in (b"?", b"+"))
    return rule[place:end]


def shown(text):
    return "".join(chr(b) if 32 <= b <= 126 else "." for b in text)


def byte(b):
    return {32: "a blank", 9: "a tab"}.get(b) or ("`%c`" % b if 32 < b < 127 else "the byte %02X" % b)


def sentence(line, start, stop, items):
    """How far the line fits, which items could have come next, each text once, and what stands there."""
    taken = line[start:stop]
    texts = [byte(text[0]) if len(text) == 1 else "`%s`" % shown(text[:32]) + ".." * (len(text) > 32) for text in dict.fromkeys(items)]
    if not taken:
        fits = "Nothing of it fits: "
    else:
        fits = ("From column %d it fits up to " % start if start else "It fits up to ") + ".." * (len(taken) > 32) + "`%s`; then " % shown(taken[-32:])
    if len(texts) > 3:
        expected = ", ".join(texts[:3]) + ", or another item marked above"
    else:
        expected = " or ".join(filter(None, (", ".join(texts[:-1]), texts[-1])))
    return fits + expected + " was expected, and %s was found." % (byte(line[stop]) if stop < len(line) else "the line's end")


def reason(rule, flags, line, budget, margin):
    """A line that is not matched, in its windows, with what fits; the rule in windows, with what was expected; and the sentence."""
    (start, stop, _), places = reference.explain(rule, flags, line, budget)[3:]
    items = [item(rule, flags, place) for place in places]
    dashes = "".join("-" if start <= at < stop else " " for at in range(stop)) + "^"
    under = [" "] * len(rule)
    for place, text in zip(places, items):
        under[place:place + len(text)] = "^" * len(text)
    for text, signs, whole, column, label in ((line, dashes, "", "column %d", "fits up to"), (rule, "".join(under), "rule", "rule %d", "expected")):
        for at in range(0, max(len(text), 1), WIDTH):
            yield "%*s  %s" % (margin, column % at if len(text) > WIDTH else whole, shown(text[at:at + WIDTH]))
            last = at + WIDTH >= len(text)
            if signs[at:at + WIDTH + last].strip():
                yield "%*s  %s" % (margin, label, signs[at:at + WIDTH + last].rstrip())
    yield "%*s  %s" % (margin, "", sentence(line, start, stop, items))


# The report ---------------------------------------------------------------------


def readings(count):
    return "1 reading" if count == 1 else "%d readings" % count


def told(rule, flags, line, budget):
    """What is said of a line, the rows under it, and its kind."""
    if len(line) > 65535:
        return "too long, over 65535 bytes", None, "too long"
    got = reference.listing(rule, flags, line, budget, ROWS)
    rows = got[-1]
    if got[0] == "X":
        return "exhausted at start %d, %s until then" % (got[1], readings(len(rows))), rows, "exhausted"
    if got[0] == "F":
        return "more than %s, the first are shown" % readings(len(rows)), rows, "ambiguous"
    if not rows:
        return "not matched", rows, "not matched"
    return readings(len(rows)), None if len(rows) == 1 else rows, "matched once" if len(rows) == 1 else "ambiguous"


def report(rule, text, flags=0, budget=100000):
    lines = text.split(b"\n")
    if not lines[-1]:
        lines.pop()
    kinds = dict.fromkeys(("matched once", "ambiguous", "not matched", "exhausted", "too long"), 0)
    groups, margin = labels(rule, flags)
    out, many, unsettled, dotted = [], 0, 0, 0
    for number, line in enumerate(lines, 1):
        says, rows, kind = told(rule, flags, line, budget)
        kinds[kind] += 1
        many += says.startswith("more than")
        unsettled += kind == "exhausted" and len(rows) > 1
        out.append("line %d: %s" % (number, says))
        if rows is not None:
            out.extend(reason(rule, flags, line, budget, margin) if kind == "not matched" else block(line, rows, groups, margin))
            dotted += any(not 32 <= b <= 126 for b in line)
    out += ["", "lines: %d" % len(lines)]
    notes = {"ambiguous": ("with more readings than are shown", many), "exhausted": ("ambiguous already", unsettled)}
    for kind, count in kinds.items():
        note, some = notes.get(kind, ("", 0))
        out.append("%s: %d%s" % (kind, count, " (%s: %d)" % (note, some) if some else ""))
    if dotted:
        out.append("A dot may stand for a byte that cannot be shown; lines shown with such a dot: %d" % dotted)
    return "\n".join(out) + "\n"


# Running ------------------------------------------------------------------------


class Reports(Cases):
    def on(self, name, rule, text, out=None, err="", flags=0, budget=100000, words=None):
        """The report on a rule and lines; without a text of its own it is held to `report`."""
        Path("rule").write_bytes(rule + b"\n")
        Path("lines").write_bytes(text)
        words = ["%d" % flags, "%d" % budget] if words is None else words
        self.run(name, ["rule", "lines", *words], report(rule, text, flags, budget) if out is None else out, err)


def summary(lines, once=0, ambiguous="0", unmatched=0, exhausted="0", long=0):
    return "\nlines: %d\nmatched once: %d\nambiguous: %s\nnot matched: %d\nexhausted: %s\ntoo long: %d\n" % (lines, once, ambiguous, unmatched, exhausted, long)


USAGE = """\
usage: readings [--page] RULE-FILE LINES-FILE [FLAGS [BUDGET]]

Says of every line how many readings the rule has of it. A line with two or more is shown with
each of them, - standing under what the reading took and ^ under what a group of it took. A group
that has a name is called by it. A line that is not matched is shown with - under what fits and ^
under the place where that ends, and the rule with ^ under what was expected there.

--page      write a page for a browser, HTML with no script: the counts, then the lines that are
            ambiguous, not matched, exhausted or too long (the lines are read twice)
RULE-FILE   the rule is what stands before its first line end
LINES-FILE  lines of up to 65535 bytes, ended by 0A (a 0D before it is a byte of the line)
""" + FLAGS_USAGE + """\
BUDGET      the steps that each start in a line may take, 0 to 100000; without it 100000

Readings are counted from every start in the line: (\\d+) has three on 12. For readings of whole
lines the rule begins with ^ and ends with $.
A byte outside 20 to 7E (hex) is shown as a dot. A line over 64 bytes is shown in windows of 64
columns, the first of each named. Up to 1000 readings of a line are shown.
"""

TWO = """\
line 1: 2 readings
              1,500 L
   reading 1  -------  0-7
     group 1  ^^^^^    0-5
   reading 2  -------  0-7
     group 2  ^^^^^    0-5
"""


def arguments(t):
    Path("rule").write_bytes(LITRES + b"\n")
    Path("lines").write_bytes(b"1,500 L\n")
    both = ["rule", "lines"]
    two = TWO + summary(1, ambiguous="1")
    for words in ([], ["rule"], both + ["0", "5", "x"], both + ["%d" % FLAGS], both + ["000%d" % FLAGS], both + ["%d" % (2 * FLAGS - 1)], both + [""], both + ["a"], both + ["I"], both + ["d"], both + ["sax"], both + ["i x"],
                  both + ["x8"], both + ["--"], both + ["-1"], both + ["-i"],
                  both + ["0", "100001"], both + ["0", "4294967296"], both + ["0", "99999999999999999999"], both + ["0", ""], both + ["0", "1k"], both + ["0", "-"]):
        t.run("arguments %r" % words, words, "", USAGE)
    for words in ([], ["-"], ["0"], ["3"], ["s"], ["m"], ["sm"], ["ms"], ["03"], ["-", "100000"], ["-", "1000"], ["-", "0100"], ["i"], ["4"], ["7"], ["007"], ["mis"],
                  ["i", "1000"], ["D"], ["16"], ["23"], ["Dims"]):
        t.run("arguments %r" % words, both + words, two, "")
    # Under `x` the rule's blank is none, and a line with one does not fit.
    without = """\
line 1: not matched
              1,500 L
  fits up to  -----^
        rule  ^(?:(\\d{1,3},\\d{3})|(\\d+,\\d+)) L$
    expected                           ^^^   ^
              It fits up to `1,500`; then `\\d+` or `L` was expected, and a blank was found.
""" + summary(1, unmatched=1)
    for words in (["x"], ["8"], ["15"], ["31"], ["0012"], ["ix"], ["smix"], ["xims"], ["xD"], ["x", "100000"]):
        t.run("arguments %r" % words, both + words, without, "")
    t.run("no rule file", ["none", "lines"], "", "readings: none: No such file or directory\n")
    t.run("no lines file", ["rule", "none"], "", "readings: none: No such file or directory\n")
    t.run("an empty name", ["rule", ""], "", "readings: : No such file or directory\n")
    t.run("a name over 4096 bytes", ["x" * 4097, "lines"], "", "readings: the name of a file: File name too long\n")
    t.run("a name that is not UTF-8", [b"\xe9", "lines"], "", "readings: \xe9: Invalid or incomplete multibyte or wide character\n")
    t.run("a folder for the rule", [".", "lines"], "", "readings: the rule could not be read: Is a directory\n")
    t.run("a folder for the lines", ["rule", "."], "\nThe lines could not be read to their end. Up to there:" + summary(0),
          "readings: the lines could not be read to their end: Is a directory\n")


def refusals(t):
    def refused(name, rule, err, flags=0):
        t.on("refused rule " + name, rule, b"a\n", out="", err="readings: the rule is refused, " + err, flags=flags)

    refused("a**", b"a**", "19 at 2: a repeat of a repeat\n  a**\n    ^\n")
    refused("(", b"(", "20 at 0: this bracket is not closed by )\n  (\n  ^\n")
    refused("[z-a]", b"[z-a]", "15 at 1: a range that runs backwards, or with a set of bytes at one of its ends\n  [z-a]\n   ^   \n")
    refused("no group", b"(a)\\2", "13 at 3: a reference to a group that the rule has not\n  (a)\\2\n     ^ \n")
    refused("no such name", b"(?<a>a)\\k<b>", "13 at 7: a reference to a group that the rule has not\n  (?<a>a)\\k<b>\n         ^    \n")
    refused("a name twice", b"(?<a>a)|(?<a>b)", "26 at 8: this name is used twice\n  (?<a>a)|(?<a>b)\n          ^      \n")
    refused("a name that begins with a digit", b"a(?<7>b)", "25 at 1: a name is missing, malformed or not closed\n  a(?<7>b)\n   ^      \n")
    refused("a name with a blank, under x", b"(?<a b>b)", "25 at 0: a name is missing, malformed or not closed\n  (?<a b>b)\n  ^        \n", flags=8)
    refused("odd bytes", b"\t\xff)", "21 at 2: a ) that closes nothing\n  ..)\n    ^\n")
    refused("a blank before the `?`", b" \ta* ?", "19 at 5: a repeat of a repeat\n   .a* ?\n       ^\n", flags=8)
    refused("a blank in an opening", b"( ?:a)", "17 at 2: a repeat with nothing before it that it could repeat\n  ( ?:a)\n    ^   \n", flags=8)
    refused("a reference in the depot profile", b"(a)\\1", "27 at 3: a reference, which the depot profile does not allow\n  (a)\\1\n     ^ \n", flags=16)
    refused("a repeat in the depot profile", b"(a?)*", "28 at 4: a repeat without upper bound of what may take no bytes, which the depot profile does not allow\n  (a?)*\n      ^\n", flags=16)
    refused("a range in the depot profile", b"[A-z]", "29 at 1: a range whose ends are not two digits, two upper or two lower letters, as the depot profile wants them\n  [A-z]\n   ^   \n", flags=16)
    refused("1001 bytes", b"a" * 1001, "1 at 0: the rule has more than 1000 bytes\n")
    refused("5000 bytes", b"a" * 5000, "1 at 0: the rule has more than 1000 bytes\n")
    refused("in the second window", b"a" * 70 + b"\\", "10 at 70: a backslash with nothing behind it\n  %s\n  aaaaaa\\\n        ^\n" % ("a" * 64))
    rules = {11: (b"\\q", "this escape may not stand here"), 12: (b"\\x", "the number or letter of this escape is missing, malformed, unclosed or too large"),
             14: (b"[a", "this class is not closed by ]"), 16: (b"[[:no:]]", "no set has this name"),
             17: (b"*", "a repeat with nothing before it that it could repeat"),
             18: (b"a{256}", "a { that begins no repeat, or a repeat over 255 or with its bounds the wrong way round"),
             22: (b"(?a)", "(? is followed by none of : < > = and !"), 23: (b"()" * (GROUPS + 1), "one group too many; a rule has at most %d" % GROUPS),
             24: (b"(" * 25, "the 25th bracket inside another; they nest at most 24 deep"), 25: (b"\\k<", "a name is missing, malformed or not closed"),
             26: (b"(?<n>)(?<n>)", "this name is used twice")}
    for number, (rule, meaning) in rules.items():
        Path("rule").write_bytes(rule)
        ran = subprocess.run([str(PROGRAM), "rule", "lines"], capture_output=True)
        first, place, told = ran.stderr.decode().split("\n")[0].partition(" at ")
        t.same("refused rule %d" % number, first, "readings: the rule is refused, %d" % number)
        t.same("meaning of %d" % number, told.partition(": ")[2], meaning)
    Path("rule").write_bytes(b"")
    Path("lines").write_bytes(b"\n")
    t.run("an empty rule file", ["rule", "lines"], "line 1: 1 reading\n" + summary(1, once=1), "")
    t.on("a rule of 1000 bytes", b"a" * 1000, b"a" * 1000, out="line 1: 1 reading\n" + summary(1, once=1))
    Path("rule").write_bytes(LITRES)
    Path("lines").write_bytes(b"1,500 L\n")
    t.run("a rule without 0A", ["rule", "lines"], TWO + summary(1, ambiguous="1"), "")
    Path("rule").write_bytes(LITRES + b"\r\n")
    t.run("a rule with 0D", ["rule", "lines"], """\
line 1: not matched
              1,500 L
  fits up to  -------^
        rule  ^(?:(\\d{1,3},\\d{3})|(\\d+,\\d+)) L$.
    expected                                   ^
              It fits up to `1,500 L`; then the byte 0D was expected, and the line's end was found.
""" + summary(1, unmatched=1), "")


def files(t):
    t.on("no lines", LITRES, b"", out=summary(0))
    t.on("an empty line", LITRES, b"\n", out="""\
line 1: not matched
              
  fits up to  ^
        rule  ^(?:(\\d{1,3},\\d{3})|(\\d+,\\d+)) L$
    expected       ^^^^^^^         ^^^
              Nothing of it fits: `\\d{1,3}` or `\\d+` was expected, and the line's end was found.
""" + summary(1, unmatched=1))
    t.on("no 0A at the end", LITRES, b"1,5 L\n2,5 L", out="line 1: 1 reading\nline 2: 1 reading\n" + summary(2, once=2))
    t.on("only 0A", b"^$", b"\n\n\n", out="line 1: 1 reading\nline 2: 1 reading\nline 3: 1 reading\n" + summary(3, once=3))
    t.on("a line of 65536 bytes", b"^a", b"b" * 65536 + b"\n1\na\n",
         out="""\
line 1: too long, over 65535 bytes
line 2: not matched
              1
  fits up to  ^
        rule  ^a
    expected   ^
              Nothing of it fits: `a` was expected, and `1` was found.
line 3: 1 reading
""" + summary(3, once=1, unmatched=1, long=1))
    t.on("a line of 200000 bytes, the last", b"^a", b"a\n" + b"a" * 200000, out="line 1: 1 reading\nline 2: too long, over 65535 bytes\n" + summary(2, once=1, long=1))
    t.on("a line of 65535 bytes", b"^a", b"a" * 65535 + b"\n", out="line 1: 1 reading\n" + summary(1, once=1))
    t.on("65535 bytes, not matched", b"^b", b"\x80" * 65535 + b"\na\nb")
    t.on("odd bytes", rb"^(.)(.*)$", b"\x00\x1b\x7f\x80\xff~ \n\x0d\n",
         out="line 1: 1 reading\nline 2: 1 reading\n" + summary(2, once=2))
    t.on("odd bytes, two readings", rb"^(?:(.)|(.+?))(.+)$", b"\x1b[2J\xff")
    t.on("odd bytes shown", rb"^b", b"\x1b[2J\xff\n \x09~\n",
         out="""\
line 1: not matched
              .[2J.
  fits up to  ^
        rule  ^b
    expected   ^
              Nothing of it fits: `b` was expected, and the byte 1B was found.
line 2: not matched
               .~
  fits up to  ^
        rule  ^b
    expected   ^
              Nothing of it fits: `b` was expected, and a blank was found.
""" + summary(2, unmatched=2)
         + "A dot may stand for a byte that cannot be shown; lines shown with such a dot: 2\n")
    Path("rule").write_bytes(b"^a$")
    Path("lines").write_bytes(b"a\n" * 25000)
    t.run("25000 lines", ["rule", "lines"], "".join("line %d: 1 reading\n" % n for n in range(1, 25001)) + summary(25000, once=25000))


def pieces(t):
    """Lines that lie across the pieces of 65,536 bytes in which a file is read, and input in pieces of any size through a pipe."""
    chance = random.Random(5)
    lines = [b"1,500 L" if chance.random() < 0.1 else b"x" * chance.randint(0, 3000) for _ in range(200)] + [b"y" * 65535, b"z" * 65536, b"1,5 L"]
    t.on("lines across pieces", LITRES, b"\n".join(lines))
    for at in (65534, 65535, 65536):
        t.on("a line that ends at %d" % at, LITRES, b"w" * at + b"\n1,500 L")
    Path("rule").write_bytes(LITRES + b"\n")
    text = b"1,5 L\n\n1,500 L\n\xff\n7,250 L"
    t.in_pieces(text, report(LITRES, text))


def listings(t):
    t.on("every start", rb"(\d+)", b"12", out="""\
line 1: 3 readings
              12
   reading 1  --  0-2
     group 1  ^^  0-2
   reading 2  -   0-1
     group 1  ^   0-1
   reading 3   -  1-2
     group 1   ^  1-2
""" + summary(1, ambiguous="1"))
    t.on("empty spans", rb"(a?)*", b"b", out="""\
line 1: 4 readings
              b
   reading 1     0-0 empty
     group 1     0-0 empty
   reading 2     0-0 empty
   reading 3     1-1 empty
     group 1     1-1 empty
   reading 4     1-1 empty
""" + summary(1, ambiguous="1"))
    t.on("groups in groups", rb"^((a)(b?))(b?)$", b"ab", out="""\
line 1: 2 readings
              ab
   reading 1  --  0-2
     group 1  ^^  0-2
     group 2  ^   0-1
     group 3   ^  1-2
     group 4      2-2 empty
   reading 2  --  0-2
     group 1  ^   0-1
     group 2  ^   0-1
     group 3      1-1 empty
     group 4   ^  1-2
""" + summary(1, ambiguous="1"))
    t.on("a group behind what the reading took", rb"a|a(?=(b))", b"ab", out="""\
line 1: 2 readings
              ab
   reading 1  -   0-1
   reading 2  -   0-1
     group 1   ^  1-2
""" + summary(1, ambiguous="1"))
    t.on("a held group has one reading", rb"^(?>(a*))(a*)$", b"aaa", out="line 1: 1 reading\n" + summary(1, once=1))
    t.on("a group ahead, in another window", rb"^(?:a|(a))(?=a*(b))", b"a" * 70 + b"b")
    t.on("line ends", rb"^(\R*)(\R*)$|^(\R*+)(\R*)$", b"\r\x0b\x85\n\r\n")
    t.on("exhausted at once", rb"a*", b"aa", budget=6, out="line 1: exhausted at start 0, 0 readings until then\n              aa\n" + summary(1, exhausted="1"))
    t.on("exhausted with one reading", rb"a*", b"aa", budget=7, out="""\
line 1: exhausted at start 0, 1 reading until then
              aa
   reading 1  --  0-2
""" + summary(1, exhausted="1"))
    t.on("exhausted with two readings", rb"a*", b"aa", budget=8, out="""\
line 1: exhausted at start 0, 2 readings until then
              aa
   reading 1  --  0-2
   reading 2  -   0-1
""" + summary(1, exhausted="1 (ambiguous already: 1)"))
    t.on("budget 0", rb"", b"\n", budget=0, out="line 1: exhausted at start 0, 0 readings until then\n              \n" + summary(1, exhausted="1"))
    t.on("flags", rb"^a$.^b$", b"a\n", flags=3)
    t.on("the letter s", rb"^.$", b"\x0d", flags=1, words=["s"])
    t.on("the letter i", rb"^(tank|Hall) (\d+) \1$", b"TANK 7 tank\nhall 3 HALL\nHALL 3 tank", words=["i"],
         out="""\
line 1: 1 reading
line 2: 1 reading
line 3: not matched
              HALL 3 tank
  fits up to  -------^
        rule  ^(tank|Hall) (\\d+) \\1$
    expected                     ^^
              It fits up to `HALL 3 `; then `\\1` was expected, and `t` was found.
""" + summary(3, once=2, unmatched=1))
    t.on("the letter x", rb"^ (?: ( \d{1,3},\d{3} ) | ( \d+,\d+ ) ) \  L $  # 1,5 L and 1,500 L (both", b"1,500 L\n", words=["x"],
         out=TWO + summary(1, ambiguous="1"))
    t.on("references by name", rb"^(?<tank>\w+) (?<litres>\d+) \g{tank}$", b"A1 7 A1\nA1 7 B2", out="""\
line 1: 1 reading
line 2: not matched
              A1 7 B2
  fits up to  -----^
        rule  ^(?<tank>\\w+) (?<litres>\\d+) \\g{tank}$
    expected                               ^^^^^^^^
              It fits up to `A1 7 `; then `\\g{tank}` was expected, and `B` was found.
""" + summary(2, once=1, unmatched=1))
    t.on("a name before its group", rb"(?:\k'n'c|(?<n>b))+", b"bbc\n")
    t.on("both letters", rb"( A ) \1 | [ B ] + # twice", b"aAbB\n A b \n", flags=12, words=["xi"])
    for flags in range(16):
        t.on("flags %d" % flags, rb"^ A .* [^b]$|[[:^upper:]] #", b"aXb\n A  B\n#", flags=flags)
    for length in (63, 64, 65, 127, 128, 129, 192):
        t.on("windows of a line of %d bytes" % length, rb"^(a*)(b*)(a*)(.*)$", b"a" * (length - 1) + b"b", budget=100000)
        t.on("an empty group at %d" % length, rb"^(?:(.*)|.*)()$", b"a" * length)
        t.on("a span up to %d" % length, rb"^(?:(a{%d})|(a{%d}a))" % (min(length, 255) - 1, min(length, 255) - 1), b"a" * length)
    t.on("a start of more than 1000 steps", rb"^(a*)(a*)(b?)$", b"a" * 30 + b"\n" + b"a" * 44)
    full, many, few = b"a" * 44, b"a" * 12, b"a"
    t.on("nothing is left of a line", rb"^(a*)(a*)(a*)(b?)$|^c(a*)*d", b"\n".join([few, full, few, many, full, b"c" + full, many, b"c" + full, few, b"", many, b"d", many]))
    t.on("more than 1000 readings", rb"^(a*)(a*)(a*)$", b"a" * 44 + b"\na\n")
    t.on("1000 readings", rb"(a*?)(a*)$", b"a" * 43 + b"\n" + b"a" * 44)
    t.on("the most groups", b"^" + b"(a?)" * GROUPS + b"$", b"a")
    t.on("exhausted at a later start", rb"b(a*)*c", b"ba" * 3 + b"b" + b"a" * 30, budget=3000)


def names(t):
    """A group is called by its name. The labels are as wide as the longest, and 12 columns at least."""
    t.on("names", rb"^(?:(?<thousands>\d{1,3},\d{3})|(?<litres>\d+,\d+)) L$", b"1,500 L\n", out="""\
line 1: 2 readings
              1,500 L
   reading 1  -------  0-7
   thousands  ^^^^^    0-5
   reading 2  -------  0-7
      litres  ^^^^^    0-5
""" + summary(1, ambiguous="1"))
    t.on("a name of 16 bytes", rb"^(?<n>a?)(?<litres_delivered>a?)(b?)$", b"a\n\nc\n", out="""\
line 1: 2 readings
                  a
       reading 1  -  0-1
               n  ^  0-1
litres_delivered     1-1 empty
         group 3     1-1 empty
       reading 2  -  0-1
               n     0-0 empty
litres_delivered  ^  0-1
         group 3     1-1 empty
line 2: 1 reading
line 3: not matched
                  c
      fits up to  ^
            rule  ^(?<n>a?)(?<litres_delivered>a?)(b?)$
        expected        ^^                     ^^  ^^ ^
                  Nothing of it fits: `a?`, `b?` or `$` was expected, and `c` was found.
""" + summary(3, once=1, ambiguous="1", unmatched=1))
    t.on("a name of 12 bytes, and `_` first", rb"(a)|(?<_litres_of_1>a)", b"a\n", out="""\
line 1: 2 readings
              a
   reading 1  -  0-1
     group 1  ^  0-1
   reading 2  -  0-1
_litres_of_1  ^  0-1
""" + summary(1, ambiguous="1"))
    t.on("a name of 13 bytes", rb"(a)|(?<litres_of_day>a)", b"a\n", out="""\
line 1: 2 readings
               a
    reading 1  -  0-1
      group 1  ^  0-1
    reading 2  -  0-1
litres_of_day  ^  0-1
""" + summary(1, ambiguous="1"))
    t.on("the most names", b"^" + b"".join(b"(?<g%d>a?)" % g for g in range(1, GROUPS + 1)) + b"$", b"a")
    t.on("the last of the most groups has a name", b"^" + b"(a?)" * (GROUPS - 1) + b"(?<the_last>a?)$", b"a")
    t.on("a name in windows", rb"^(?:(?<the_first_column>a+)|(a+))b*(?<rest>.*)$", b"a" * 60 + b"b" * 10 + b"c" * 90)

TANK = rb"^tank (\w+): (\d+) L$"


def told_why(t, name, rule, line, fits, expected, sentence, flags=0, dots=0):
    """A line of one window that a rule of one window does not match: the signs under both, and the sentence."""
    show = [("", shown(line)), ("fits up to", fits), ("rule", shown(rule)), ("expected", expected), ("", sentence)]
    note = "A dot may stand for a byte that cannot be shown; lines shown with such a dot: %d\n" % dots if dots else ""
    t.on(name, rule, line + b"\n", flags=flags, out="line 1: not matched\n" + "".join("%12s  %s\n" % row for row in show) + summary(1, unmatched=1) + note)


def reasons(t):
    """Why a line does not fit."""
    t.on("two lines that do not fit", TANK, b"tank A1 820 L\ntank A1: 820 L\nlorry 7\n", out="""\
line 1: not matched
              tank A1 820 L
  fits up to  -------^
        rule  ^tank (\\w+): (\\d+) L$
    expected         ^^^ ^
              It fits up to `tank A1`; then `\\w+` or `:` was expected, and a blank was found.
line 2: 1 reading
line 3: not matched
              lorry 7
  fits up to  ^
        rule  ^tank (\\w+): (\\d+) L$
    expected   ^
              Nothing of it fits: `t` was expected, and `l` was found.
""" + summary(3, once=1, unmatched=2))
    told_why(t, "the line's end", TANK, b"tank A1: 820", "------------^", "              ^^^ ^",
             "It fits up to `tank A1: 820`; then `\\d+` or a blank was expected, and the line's end was found.")
    told_why(t, "more than the rule has", TANK, b"tank A1: 820 L.", "--------------^", "                    ^",
             "It fits up to `tank A1: 820 L`; then `$` was expected, and `.` was found.")
    told_why(t, "a line that ends in 0D", TANK, b"tank A1: 820 L\r", "--------------^", "                    ^",
             "It fits up to `tank A1: 820 L`; then `$` was expected, and the byte 0D was found.", dots=1)
    told_why(t, "not from the beginning", rb"tank (\w+): (\d+) L", b"the tank A1 820 L", "    -------^", "      ^^^ ^",
             "From column 4 it fits up to `tank A1`; then `\\w+` or `:` was expected, and a blank was found.")
    told_why(t, "nothing fits, and no ^", rb"b", b"aa", "^", "^", "Nothing of it fits: `b` was expected, and `a` was found.")
    told_why(t, "the first of two that come as far", rb"ab|cde", b"ac cx", "-^", " ^", "It fits up to `a`; then `b` was expected, and `c` was found.")
    told_why(t, "a tab", b"^caf\xe9 (\\d+)$", b"caf\xe9\t7", "----^", "     ^", "It fits up to `caf.`; then a blank was expected, and a tab was found.", dots=1)
    told_why(t, "an odd byte in the rule", b"^caf\xe9 (\\d+)$", b"cafe 7", "---^", "    ^", "It fits up to `caf`; then the byte E9 was expected, and `e` was found.")
    told_why(t, "an odd byte in the line", b"^caf\xe9 (\\d+)$", b"caf\xe9 \xa07", "-----^", "       ^^^",
             "It fits up to `caf. `; then `\\d+` was expected, and the byte A0 was found.", dots=1)
    told_why(t, "a tab in the rule", b"^a\tb", b"ab", "-^", "  ^", "It fits up to `a`; then a tab was expected, and `b` was found.")
    told_why(t, "odd bytes with a repeat", b"^\xe9+\x01{2}", b"\xe9.", "-^", " ^^^^^^",
             "It fits up to `.`; then `.+` or `.{2}` was expected, and `.` was found.", dots=1)
    told_why(t, "bytes 00 and 7F", b"^\\x7f", b"\x00", "^", " ^^^^", "Nothing of it fits: `\\x7f` was expected, and the byte 00 was found.", dots=1)
    told_why(t, "three items", b"^(?:a1|b2|c3)$", b"x", "^", "    ^  ^  ^", "Nothing of it fits: `a`, `b` or `c` was expected, and `x` was found.")
    told_why(t, "four items", b"^(?:a1|b2|c3|d4)$", b"x", "^", "    ^  ^  ^  ^",
             "Nothing of it fits: `a`, `b`, `c`, or another item marked above was expected, and `x` was found.")
    told_why(t, "five items, two of them alike", b"^(?:a1|b2|a3|d4|b5)$", b"x", "^", "    ^  ^  ^  ^  ^", "Nothing of it fits: `a`, `b` or `d` was expected, and `x` was found.")
    told_why(t, "all alike", b"^(?:a1|a2|a3|a4)$", b"x", "^", "    ^  ^  ^  ^", "Nothing of it fits: `a` was expected, and `x` was found.")
    told_why(t, "alike but for the repeat", b"^(?:a*1|a+2|a1)$", b"x", "^", "    ^^^ ^^  ^", "Nothing of it fits: `a*`, `1`, `a+`, or another item marked above was expected, and `x` was found.")
    told_why(t, "a run", rb"^\d+$", b"12a4", "--^", " ^^^^", "It fits up to `12`; then `\\d+` or `$` was expected, and `a` was found.")
    told_why(t, "a lazy run", rb"^\d{1,}?,", b"12.", "--^", " ^^^^^^^^", "It fits up to `12`; then `\\d{1,}?` or `,` was expected, and `.` was found.")
    told_why(t, "a run that is full", rb"^\d{1,2},", b"123", "--^", "        ^", "It fits up to `12`; then `,` was expected, and `3` was found.")
    told_why(t, "a class", rb"^[]a-c[:digit:]-]{2}?x", b"a", "-^", " ^^^^^^^^^^^^^^^^^^^^", "It fits up to `a`; then `[]a-c[:digit:]-]{2}?` was expected, and the line's end was found.")
    told_why(t, "a reference that is not set", rb"^(?:(a)|b)\1$", b"b", "-^", "          ^^", "It fits up to `b`; then `\\1` was expected, and the line's end was found.")
    told_why(t, "a reference that is repeated", rb"^(\w)\g{-1}{2}$", b"aab", "--^", "     ^^^^^^^^^", "It fits up to `aa`; then `\\g{-1}{2}` was expected, and `b` was found.")
    told_why(t, "a place", rb"^\d+\bL", b"10L", "--^", " ^^^^^", "It fits up to `10`; then `\\d+` or `\\b` was expected, and `L` was found.")
    told_why(t, "a repeat behind a blank", rb"^ \d {2} \  L $ # two digits", b"1 L", "-^", "  ^^^^^^", "It fits up to `1`; then `\\d {2}` was expected, and a blank was found.", flags=8)
    told_why(t, "no repeat behind blanks", rb"^ \d   L # one digit", b"1 L", "-^", "       ^", "It fits up to `1`; then `L` was expected, and a blank was found.", flags=8)
    told_why(t, "what must not follow", rb"^tank (?!0)\d+ L$", b"tank 07 L", "-----^", "      ^^^", "It fits up to `tank `; then `(?!` was expected, and `0` was found.")
    told_why(t, "an item ahead", rb"^(?=\d+ L)\d+", b"15 kg", "---^", "        ^", "It fits up to `15 `; then `L` was expected, and `k` was found.")
    told_why(t, "a line end", rb"^a\R$", b"a b", "-^", "  ^^", "It fits up to `a`; then `\\R` was expected, and a blank was found.")
    told_why(t, "a line end that is repeated", rb"^a\R{2}+$", b"a\r", "--^", "  ^^^^^^", "It fits up to `a.`; then `\\R{2}+` was expected, and the line's end was found.", dots=1)
    told_why(t, "a possessive run", rb"^\d++,", b"12.", "--^", " ^^^^^", "It fits up to `12`; then `\\d++` or `,` was expected, and `.` was found.")
    told_why(t, "ignoring case", rb"^TANK$", b"tang", "---^", "    ^", "It fits up to `tan`; then `K` was expected, and `g` was found.", flags=4)
    told_why(t, "names", rb"^(?<tank>[A-C]\d) \k<tank>!", b"A1 A2", "---^", "                  ^^^^^^^^", "It fits up to `A1 `; then `\\k<tank>` was expected, and `A` was found.")
    told_why(t, "32 bytes", rb"^a*b", b"a" * 32, "-" * 32 + "^", " ^^^", "It fits up to `%s`; then `a*` or `b` was expected, and the line's end was found." % ("a" * 32))
    told_why(t, "33 bytes", rb"^ca*b", b"c" + b"a" * 32, "-" * 33 + "^", "  ^^^", "It fits up to ..`%s`; then `a*` or `b` was expected, and the line's end was found." % ("a" * 32))
    told_why(t, "an item of 32 bytes", rb"^[abcdefghijklmnopqrstuvwxyz0123]$", b"-", "^", " " + "^" * 32, "Nothing of it fits: `[abcdefghijklmnopqrstuvwxyz0123]` was expected, and `-` was found.")
    told_why(t, "an item of 33 bytes", rb"^[abcdefghijklmnopqrstuvwxyz0123]+$", b"-", "^", " " + "^" * 33, "Nothing of it fits: `[abcdefghijklmnopqrstuvwxyz0123]`.. was expected, and `-` was found.")
    t.on("windows", b"[a-z ]+[;:]" + b"x" * 53 + b"[0-9]+y", b"the lorry comes in the morning, and the second one in the afternoon\n" + b"A" * 70 + b" that is all for today: xxx\n" + b"a" * 70
         + b"1" + b"B" * 29, out="""\
line 1: not matched
    column 0  the lorry comes in the morning, and the second one in the aftern
  fits up to                                 ---------------------------------
   column 64  oon
  fits up to  ---^
      rule 0  [a-z ]+[;:]xxxxxxxxxxxxxxxxxxxxxxxxxxxxxxxxxxxxxxxxxxxxxxxxxxxxx
    expected  ^^^^^^^^^^^
     rule 64  [0-9]+y
              From column 31 it fits up to ..` the second one in the afternoon`; then `[a-z ]+` or `[;:]` was expected, and the line's end was found.
line 2: not matched
    column 0  AAAAAAAAAAAAAAAAAAAAAAAAAAAAAAAAAAAAAAAAAAAAAAAAAAAAAAAAAAAAAAAA
   column 64  AAAAAA that is all for today: xxx
  fits up to        -----------------------^
      rule 0  [a-z ]+[;:]xxxxxxxxxxxxxxxxxxxxxxxxxxxxxxxxxxxxxxxxxxxxxxxxxxxxx
    expected             ^
     rule 64  [0-9]+y
              From column 70 it fits up to ` that is all for today:`; then `x` was expected, and a blank was found.
line 3: not matched
    column 0  aaaaaaaaaaaaaaaaaaaaaaaaaaaaaaaaaaaaaaaaaaaaaaaaaaaaaaaaaaaaaaaa
  fits up to  ----------------------------------------------------------------
   column 64  aaaaaa1BBBBBBBBBBBBBBBBBBBBBBBBBBBBB
  fits up to  ------^
      rule 0  [a-z ]+[;:]xxxxxxxxxxxxxxxxxxxxxxxxxxxxxxxxxxxxxxxxxxxxxxxxxxxxx
    expected  ^^^^^^^^^^^
     rule 64  [0-9]+y
              It fits up to ..`aaaaaaaaaaaaaaaaaaaaaaaaaaaaaaaa`; then `[a-z ]+` or `[;:]` was expected, and `1` was found.
""" + summary(3, unmatched=3))

    for length in (63, 64, 65, 127, 128, 129, 200):
        line = b"a" * length
        t.on("up to a line's end at %d" % length, rb"^a*b", line + b"\n" + line[1:] + b"c\n" + line + b"c" * 70 + b"\n")
        t.on("from a start at %d" % length, rb"ba+c", line + b"baaa\n" + line + b"b" + line + b"\n")
        t.on("a rule of %d bytes" % length, b"^" + b"a" * (length - 11) + b"[abcdef]+?$", line[:length - 12] + b"\n" + line[:length - 11] + b"\n" + line + b"-\n")
    t.on("a rule of 1000 bytes", b"^" + b"a?" * 499 + b"b", b"a" * 300 + b"\n" + b"c")
    for flags in range(16):
        t.on("items under flags %d" % flags, rb"^(a|B) [ x]*#\x41 {2}\k{n} ?(?<n>.)$|\t +", b"b \nA  #AAq\nA  #aa\nb #AA\n\t\n", flags=flags)


def unwritten(t):
    Path("rule").write_bytes(b"^y$\n")
    t.unwritten("readings: the report could not be written")


def random_rules(t, seed):
    chance = random.Random(seed)
    atoms = [b"a", b"b", b"A", b".", b" ", b"\\d", b"(a)", b"(a|B)", b"(?:a|ab)", b"(b ?)", b"^", b"$", b"([aB]+)", b"(\\w)", b"[^A]", b"[[:upper:]]", b"(?<n>a+)", b"(?<m>[bB])", b"\\k<n>",
             b"\\g{m}", b"(?<thirteen_long>a|\\w)", b"(?<sixteen_letters_>a?)", b"(?=(a+))", b"(?!b(B)?)", b"(?>a|ab)", b"(?>(\\w*))", b"\\R"]
    for n in range(180):
        rule = b"".join(chance.choice(atoms) + chance.choice([b"", b"", b"", b"*", b"?", b"+?", b"{1,2}", b"*+", b"{1,2}+"]) for _ in range(chance.randint(1, 4)))
        lines = [bytes(chance.choice(b"aAabB1 \t\r\xe9\xc9") for _ in range(chance.choice([0, 1, 2, 3, 5, 8, 70]))) for _ in range(chance.randint(1, 6))]
        flags, budget = chance.randrange(16), chance.choice([0, 5, 30, 300, 1000, 1001, 5000])
        try:
            reference.read(rule, flags)
        except reference.Refuse:
            continue
        t.on("random %d, rule %r" % (n, rule), rule, b"\n".join(lines), flags=flags, budget=budget)


def random_reasons(t, seed):
    """Rules for whole lines, of items of every form, and lines that often fit up to somewhere."""
    chance = random.Random(seed)
    # each with something that it takes
    atoms = {b"a": b"a", b"b": b"b", b"A": b"A", b".": b"-", b" ": b" ", b"\xe9": b"\xe9", b"\t": b"\t", b"#": b"#", b"\\d": b"7", b"\\W": b"-", b"\\x61": b"a", b"\\x{62}": b"b", b"\\o{61}": b"1",
             b"\\01": b"\x01", b"\\cA": b"\x01", b"\\-": b"-", b"\\ ": b" ", b"[ab]": b"b", b"[^]a]": b"B", b"[a-c\\d]": b"c", b"[[:^alpha:]b-]": b"-", b"\\b": b"", b"\\B": b"", b"\\Z": b"", b"$": b"",
             b"^": b"", b"\\1": b"a", b"\\g1": b"b", b"\\g{-1}": b"a", b"\\k<n>": b"ab", b"\\k'n'": b"1", b"\\g{n}": b"a", b"(a|b)": b"a", b"(?<n>ab?|\\d+)": b"ab", b"(?:a|[bB]*|\\d{2})": b"bb",
             b"a#b": b"a#b", b"(?=a)": b"", b"(?=(\\d| )b?)": b"", b"(?!b)": b"", b"(?!(a)b|\\d)": b"", b"(?>ab?|\\d+)": b"ab", b"\\R": b"\r"}
    repeats = [b"", b"", b"", b"", b"*", b"?", b"+?", b"{1,2}", b"{2}?", b"{0,}", b" *", b" {2}", b"*+", b"++", b" {2}+"]
    for n in range(480):
        picked = [chance.choice(list(atoms)) for _ in range(chance.choice([1, 2, 3, 4, 6, 12, 40]))]
        rule = b"^" * (chance.random() < 0.7) + b"".join(atom + chance.choice(repeats) for atom in picked) + b"$" * (chance.random() < 0.7)
        flags = chance.randrange(16)
        try:
            reference.read(rule, flags)
        except reference.Refuse:
            continue
        lines = []
        for _ in range(6):
            fitting = b"".join(atoms[atom] * chance.choice([1, 1, 1, 2]) for atom in picked[:chance.randint(0, len(picked))])
            lines.append(fitting + bytes(chance.choice(b"aaabbAB11 #-\t\x01\xe9\r") for _ in range(chance.choice([0, 1, 2, 3, 70]))))
        t.on("random reasons %d, rule %r" % (n, rule), rule, b"\n".join(lines), flags=flags, budget=chance.choice([50, 1000, 5000]))


def main():
    t = Reports(PROGRAM)
    seed = int(sys.argv[1]) if len(sys.argv) > 1 else 1
    rule, text = (DATA / "rule.txt").read_bytes().split(b"\n")[0], (DATA / "lines.txt").read_bytes()
    t.same("the crate's own file", (DATA.parent / "stdout").read_text(), report(rule, text, 0, 1100))
    for part in (arguments, refusals, files, pieces, listings, names, reasons, unwritten):
        part(t)
    random_rules(t, seed)
    random_reasons(t, seed)
    t.end()


if __name__ == "__main__":
    main()
