#!/usr/bin/env python3
"""Runs the office's proposals and the gateway's check of them, target/bin/propose and target/bin/gateway_check, and compares what they write.

A proposal is held to reference.py, which shares no line with the library: its follower has to accept it, with the match's row and in the steps that are
told. What the check answers is written by hand, or told a second time over that follower. Messages are written by hand.
Usage: harness/propose_cases.py [SEED] (in the repository's root, after `./build gateway propose gateway_check`). The last line is 'N passed, M failed'.
"""
import os
import random
import re
import shutil
import subprocess
import sys
from pathlib import Path

import reference
import unwritable
from cases import FLAGS_USAGE, Cases, fed, marked
from walk_vectors import random_rule

ROOT = Path(__file__).resolve().parent.parent
PROGRAMS = ROOT / "target" / "bin"
CRATES = ROOT / "crates"
DEMO = ROOT / "demo" / "check"

# what the box has, and the office at most
BOX_LINE, BOX_STEPS = 256, 1000
BOX_PROPOSAL = 2 + BOX_STEPS
OFFICE_LINE, OFFICE_STEPS = 65535, 100000

USAGE = """\
usage: propose RULE-FILE LINES-FILE [FLAGS [BUDGET]]

Makes a proposal of each line that the rule matches: the choices of the match, by which a box that
is exhausted on the line can check that reading. Every proposal that is written was checked: it is
accepted with the match's row by every check whose budget has the steps that are told.

RULE-FILE   the rule is what stands before its first line end
LINES-FILE  lines of up to 65535 bytes, ended by 0A (a 0D before it is a byte of the line)
""" + FLAGS_USAGE + """\
BUDGET      the steps that each start in a line may take, 0 to 100000; without it 100000

For each line one is written: its number, from 1, a blank, the proposal in hexadecimal digits, a
blank, and the steps of its path. A line that has none has - in place of the proposal, and then why:
not matched, exhausted, too long, no room, or not made. A rule that no check follows is refused.
"""
HELD = "this looks ahead or holds on, which a check does not follow"
MANY = "the 257th branch begins behind this bar; a check follows at most 256"


# The two programs, a second time ------------------------------------------------


def verdict(rule, flags=0):
    """The refusal of a rule for a check with its place, or None and its groups."""
    try:
        if len(rule) > 1000:
            raise reference.Refuse(1, 0)
        groups = reference.read(rule, flags)[1]
        reference.check(rule, flags, b"", 0, b"")
    except reference.Refuse as refused:
        return (refused.n, refused.p), 0
    return None, groups


def row_line(row, groups):
    spans = [" -" if row[2 * g] == reference.U else " %d-%d" % (row[2 * g], row[2 * g + 1]) for g in range(1, groups + 1)]
    return "A %d %d" % row[:2] + "".join(spans)


def answer(rule, groups, line):
    """What the gateway's check says of a line with something in front. Of what is too long and is also no proposal nothing is said here."""
    sent, blank, subject = line.partition(b" ")
    if not blank or len(sent) % 2 or not re.fullmatch(rb"[0-9a-fA-F]*", sent):
        return "H"
    if len(sent) > 2 * BOX_PROPOSAL or len(subject) > BOX_LINE:
        return "L"
    told = reference.check(rule, 0, subject, BOX_STEPS, bytes.fromhex(sent.decode()))
    return {"Y": lambda: row_line(told[2], groups), "O": lambda: "N", "X": lambda: "X %d" % told[1]}[told[0]]()


def answers(rule, data):
    refused, groups = verdict(rule)
    if refused:
        return "R %d %d\n" % refused
    return "".join(answer(rule, groups, line) + "\n" for line in reference.lines(data))


# Running ------------------------------------------------------------------------


class Proposals(Cases):
    def held(self, name, rule, flags, budget, lines, out):
        """Each line of the output: its number, and a proposal that the follower accepts with the match's row in the steps told, or why there is none."""
        told = out.split("\n")
        self.same("%s, lines" % name, (len(told), told[-1]), (len(lines) + 1, ""))
        for number, (line, said) in enumerate(zip(lines, told), 1):
            words = said.split(" ", 2)
            got = ("R", 2) if len(line) > OFFICE_LINE else reference.match(rule, flags, line, budget)
            if got[0] != "M":
                self.same("%s, line %d" % (name, number), said, "%d - %s" % (number, {"N": "not matched", "X": "exhausted", "R": "too long"}[got[0]]))
                continue
            if not re.fullmatch(r"%d (?:[0-9a-f]{2})+ \d+" % number, said):
                self.same("%s, line %d" % (name, number), said, "a proposal")
                continue
            proposal, steps = bytes.fromhex(words[1]), int(words[2])
            self.same("%s, line %d" % (name, number), reference.check(rule, flags, line, steps, proposal), ("Y", steps, got[2]))
            # and with one step less it is exhausted: so many steps are on that path, and no fewer
            self.same("%s, line %d, a step less" % (name, number), reference.check(rule, flags, line, steps - 1, proposal)[0], "X")

    def on(self, name, rule, text, out=None, err="", flags=0, budget=None):
        """Runs it on a rule and lines; without an output each proposal is held to the follower."""
        Path("rule").write_bytes(rule + b"\n")
        Path("lines").write_bytes(text)
        words = ["rule", "lines", str(flags), *([] if budget is None else [str(budget)])]
        if out is not None:
            self.run(name, words, out, err)
            return
        ran = subprocess.run([self.program, *words], capture_output=True, timeout=300, stdin=subprocess.DEVNULL)
        self.same("%s, stderr" % name, ran.stderr.decode("latin1"), err)
        self.held(name, rule, flags, OFFICE_STEPS if budget is None else budget, reference.lines(text), ran.stdout.decode("latin1"))

    def refuses(self, name, rule, number, place, meaning, flags=0):
        """A rule that is refused: nothing is written, and the lines are not asked for."""
        Path("rule").write_bytes(rule)
        shown = marked(rule, place) if number >= 10 else ""
        for lines in ("lines", "nothing"):
            self.run("refused, %s" % name, ["rule", lines, str(flags)], "", "propose: the rule is refused, %d at %d: %s\n%s" % (number, place, meaning, shown))


class Checks:
    """The gateway's check in a folder of its own; what it says is counted with the other program's."""

    def __init__(self, t):
        self.t = t
        self.program = str(PROGRAMS / "gateway_check")

    def answered(self, make, data, size=0):
        """What it writes with the input in pieces of a size, 0 for one; `make` makes rule.txt."""
        shutil.rmtree("box", ignore_errors=True)
        Path("box").mkdir()
        make(Path("box/rule.txt"))
        out, said, status = fed(self.program, "box", data, size)
        return out.decode("latin1"), said.decode("latin1"), status

    def on(self, name, rule, data, out=None, sizes=(0,)):
        """`out` is what was written by hand; the answers that are told a second time have to be the same, too."""
        again = answers(rule, data)
        if out is not None:
            self.t.same("%s, by hand and told again" % name, out, again)
        for size in sizes:
            got = self.answered(lambda file: file.write_bytes(rule + b"\n"), data, size)
            self.t.same("%s, pieces of %d" % (name, size), got, (again, "", 0))


# propose --------------------------------------------------------------------------


def arguments(t):
    Path("rule").write_bytes(b"^(\\d+|a) L$\n")
    Path("lines").write_bytes(b"12 L\nA L\n")
    both = ["rule", "lines"]
    for words in ([], ["rule"], both + ["0", "5", "x"], both + ["32"], both + ["0032"], both + [""], both + ["a"], both + ["I"], both + ["sax"], both + ["--"], both + ["-1"], both + ["x8"], both + ["d" * 5000],
                  both + ["0", "100001"], both + ["0", "4294967296"], both + ["0", "99999999999999999999"], both + ["0", ""], both + ["0", "-"], both + ["0", "-1"], both + ["0", "1k"], both + ["0", "7" * 5000],
                  ["nothing", "lines", "I"], ["nothing", "nothing", "0", "x"]):
        t.run("arguments %r" % [word[:20] for word in words], words, "", USAGE)
    # start 0; branch 0, one more digit, no more: ^, group, branch, repeat, digit, repeat, digit, repeat, group's end, blank, L, $ and the end
    two = "1 0000000100 13\n2 - not matched\n"
    for words in ([], ["-"], ["0"], ["3"], ["s"], ["sm"], ["D"], ["16"], ["0019"], ["-", "100000"], ["-", "0100"]):
        t.run("arguments %r" % words, both + words, two, "")
    # branch 1: ^, group, branch, a, group's end, blank, L, $ and the end
    for words in (["i"], ["4"], ["mis"], ["Di", "1000"]):
        t.run("arguments %r" % words, both + words, "1 0000000100 13\n2 000001 9\n", "")
    # the match of the first line has a step more than its path: a third digit is tried
    t.run("all steps", both + ["0", "14"], two, "")
    t.run("a step too few", both + ["0", "13"], "1 - exhausted\n2 - not matched\n", "")
    t.run("no steps", both + ["0", "0"], "1 - exhausted\n2 - exhausted\n", "")


def mistakes(t):
    Path("rule").write_bytes(b"a\n")
    Path("lines").write_bytes(b"a\n")
    t.run("no rule file", ["nothing", "lines"], "", "propose: nothing: No such file or directory\n")
    t.run("no lines file", ["rule", "nothing"], "", "propose: nothing: No such file or directory\n")
    t.run("neither", ["nothing", "none"], "", "propose: nothing: No such file or directory\n")
    t.run("no name", ["rule", ""], "", "propose: : No such file or directory\n")
    t.run("a long name", ["c" * 5000, "lines"], "", "propose: the name of a file: File name too long\n")
    t.run("a long name of lines", ["rule", "c" * 5000], "", "propose: the name of a file: File name too long\n")
    t.run("the rule is a folder", [".", "lines"], "", "propose: the rule could not be read: Is a directory\n")
    t.run("the lines are a folder", ["rule", "."], "", "propose: the lines could not be read to their end: Is a directory\n")
    t.run("lines that cannot be read", ["rule", "/proc/self/mem"], "", "propose: the lines could not be read to their end: Input/output error\n")


def refusals(t):
    Path("lines").write_bytes(b"a\n")
    t.refuses("a bracket", b"a(b", 20, 1, "this bracket is not closed by )")
    t.refuses("a reference in the depot profile", b"(a)\\1", 27, 3, "a reference, which the depot profile does not allow", 16)
    for size in (1001, 1002, 70000):
        t.refuses("%d bytes" % size, b"a" * size, 1, 0, "the rule has more than 1000 bytes")
    t.refuses("a held part", b"a(?>b|c)d", 35, 1, HELD)
    t.refuses("looking ahead", b"^(?=a)", 35, 1, HELD)
    t.refuses("looking ahead for none", b"(b(?!a))", 35, 2, HELD)
    t.refuses("a possessive repeat", b"a*+", 35, 2, HELD)
    t.refuses("a line break", b"ab\\R", 35, 2, HELD)
    t.refuses("the first of two", b"(?>a(?>b))|(?=c)", 35, 0, HELD)
    t.refuses("a held part that is never reached", b"(?:(?>a)){0}", 35, 3, HELD)
    t.refuses("257 branches", b"|".join([b"a"] * 257), 36, 511, MANY)
    t.refuses("257 empty branches in a group", b"x(" + b"|" * 256 + b")", 36, 257, MANY)
    t.refuses("a held part behind 257 branches", b"(?:" + b"|" * 256 + b")(?>a)", 35, 260, HELD)
    t.refuses("a rule that is no rule comes first", b"(?>a)(", 20, 5, "this bracket is not closed by )")
    # 256 branches are followed: the last one is FF, and costs a step as the first does
    t.on("256 branches", b"|".join([b"a"] * 255 + [b"b"]), b"b\na\n", "1 0000ff 3\n2 000000 3\n")


def lines(t):
    t.on("no lines", b"a", b"", "")
    t.on("an empty line", b"", b"\n", "1 0000 1\n")
    t.on("an empty line that is not matched", b"a", b"\n\n", "1 - not matched\n2 - not matched\n")
    t.on("no 0A at the end", b"a", b"a\nba", "1 0000 2\n2 0100 2\n")
    t.on("a line with 0D", b"a$", b"a\r\n", "1 - not matched\n")
    t.on("blanks of a rule", b"a #", b"a\n", "1 0000 2\n", flags=8)
    # branch 0, a and no more; a b first, and no more: branch, repeat, a, repeat, repeat, b, repeat, b, $ and the end
    t.on("the greedy and the lazy way", b"(?:a*|x)(?:b*?)b$", b"abb\n", "1 00000001000100 10\n")
    t.on("the last start", b"b", b"a" * 65534 + b"b\n", "1 feff 2\n")
    t.on("the line's end", b"\\z", b"a" * 65535 + b"\n", "1 ffff 2\n")
    t.on("a line of 65536 bytes", b"^a", b"b" * 65536 + b"\na\n", "1 - too long\n2 0000 3\n")
    t.on("a line of 200000 bytes, the last", b"^a", b"a\n" + b"a" * 200000, "1 0000 3\n2 - too long\n")
    # each round costs two steps, the last repeat and the end one more each; the match also tries an a at the line's end
    t.on("49999 choices", b"a*", b"a" * 49998 + b"\n", "1 0000%s00 99998\n" % ("01" * 49998))
    t.on("50000 choices", b"a*", b"a" * 49999 + b"\n", "1 - exhausted\n")
    t.on("every byte", rb"^.(.)$", b"".join(bytes([b, b]) + b"\n" for b in range(256) if b != 10), "".join("%d 0000 7\n" % n for n in range(1, 256)))
    t.on("25000 lines", b"a", b"a\n" * 25000, "".join("%d 0000 2\n" % n for n in range(1, 25001)))
    Path("rule").write_bytes(b"")
    Path("lines").write_bytes(b"a\n")
    t.run("an empty rule file", ["rule", "lines"], "1 0000 1\n")
    Path("rule").write_bytes(b"a")
    t.run("a rule without 0A", ["rule", "lines"], "1 0000 2\n")
    Path("rule").write_bytes(b"a\n(\n")
    t.run("what follows the first line", ["rule", "lines"], "1 0000 2\n")
    Path("rule").write_bytes(b"a\n")
    t.in_pieces(b"a\n\nba\nb\nbba", "1 0000 2\n2 - not matched\n3 0100 2\n4 - not matched\n5 0200 2\n")
    chance = random.Random(5)
    long = [b"a" if chance.random() < 0.1 else b"x" * chance.randint(0, 3000) for _ in range(200)] + [b"y" * 65535, b"z" * 65536, b"a"]
    t.on("lines across pieces", b"^a$", b"\n".join(long))


def unwritten(t):
    Path("rule").write_bytes(b"y\n")
    for name, data, said in (("lines that never end", None, ["propose: the proposals could not be written"]), ("one line", b"y\n", ["propose: the proposals could not be written"]), ("no lines", b"", [])):
        for place, output, _ in unwritable.OUTPUTS:
            with output() as out:
                t.same("%s, %s" % (name, place), unwritable.said([t.program, "rule", "/dev/stdin"], out, data).splitlines(), said)


def random_rules(t, checks, seed):
    """Rules of every kind that a check follows, on lines of their letters: the proposals by the follower, and by the gateway's check, as they are and damaged."""
    random.seed(seed)
    done = 0
    while done < 400:
        flags = random.choice([0, 0, 0, 1, 2, 4, 8, 15, 16])
        rule = random_rule(random.randint(1, 3), flags, random.random() < 0.3).encode()
        if verdict(rule, flags)[0] or b"\n" in rule:
            continue
        done += 1
        text = b"\n".join(bytes(random.choice(b"aabAb1c ") for _ in range(random.choice([0, 1, 2, 3, 5, 8, 20]))) for _ in range(random.randint(1, 4)))
        name = "random %d, rule %r, flags %d, lines %r" % (done, rule, flags, text)
        t.on(name, rule, text, flags=flags, budget=random.choice([0, 5, 30, 100, 300, 1000, 1000, 100000]))
        if flags == 0 and done % 3 == 0:
            damaged(t, checks, name, rule, reference.lines(text))


def damaged(t, checks, name, rule, subjects):
    """The proposals of these lines, and each of them cut, with a byte changed, with one more, and for another line."""
    ran = subprocess.run([t.program, "rule", "lines"], capture_output=True, timeout=300, stdin=subprocess.DEVNULL)
    sent = []
    for said, subject in zip(ran.stdout.decode().splitlines(), subjects):
        digits = said.split(" ")[1].encode()
        if digits == b"-":
            sent.append(b"- " + subject)
            continue
        changes = [digits, digits[:-1], digits[:-2], digits[:2], b"", digits + b"00", digits + b"01", digits.upper(), b"01" + digits[2:], b"0a00" + digits[4:]]
        for at in range(0, len(digits), 2):
            changes.append(digits[:at] + b"%02x" % random.choice([0, 1, 2, 255]) + digits[at + 2:])
        sent += [change + b" " + subject for change in changes] + [digits + b" " + random.choice(subjects), digits + b" " + subject + b" ", digits + b" " + subject[:-1]]
    checks.on(name + ", damaged", rule, b"\n".join(sent))


# gateway_check --------------------------------------------------------------------


def by_hand(checks):
    rule = b"^(?:(\\d+)|note (.*))$"
    a, b = b"0000000100", b"0000010100"
    spoken = (
        (a + b" 12", "A 0 2 0-2 -"), (b + b" note x", "A 0 6 - 5-6"), (b"00000100 note ", "A 0 5 - 5-5"),
        (b"000000 1", "N"), (b"000000010000 12", "N"), (b"0000000101 12", "N"), (b"0000020100 12", "N"), (a + b" 1a", "N"), (a + b" 123", "N"), (a + b" ", "N"), (b"0100 12", "N"), (b"0300 12", "N"), (b"ffff 12", "N"),
        (b"0000 12", "N"), (b"00 12", "N"), (b" 12", "N"), (b" ", "N"),
        (b"", "H"), (b"12", "H"), (b"0000000112", "H"), (b"000 12", "H"), (b"0 12", "H"), (b"- 12", "H"), (b"00g0 12", "H"), (b"0x00 12", "H"), (b"00/0 12", "H"), (b"00:0 12", "H"), (b"00@0 12", "H"),
        (b"00G0 12", "H"), (b"00`0 12", "H"), (b"00\0000 12", "H"), (b"00\xff0 12", "H"), (b"0000\t12", "H"), (b"0000\r", "H"),
    )
    checks.on("one line after another", rule, b"\n".join(line for line, _ in spoken), "".join(told + "\n" for _, told in spoken), (0, 1, 7, 257))
    checks.on("0A at the end", rule, a + b" 12\n", "A 0 2 0-2 -\n")
    checks.on("no 0A at the end", rule, a + b" 12", "A 0 2 0-2 -\n")
    checks.on("an empty line", rule, b"\n\n" + a + b" 12", "H\nH\nA 0 2 0-2 -\n")
    checks.on("no input", rule, b"", "")
    checks.on("a line with 0D", rule, a + b" 12\r\n", "N\n")
    checks.on("a blank in the line", b" (.) ", b"0000  a \n0100 b c \n", "A 0 3 1-2\nA 1 4 2-3\n")
    proposed = ("000001010000", "A 0 2 0-2 2-2"), ("000001000100", "A 0 2 0-1 1-2"), ("000000010100", "A 0 2 0-0 0-2"), ("00000000", "A 0 0 0-0 0-0"), ("0100010000", "A 1 2 1-2 2-2"), ("0100000100", "A 1 2 1-1 1-2"), ("02000000", "A 2 2 2-2 2-2"), ("0000010100", "N")
    checks.on("it need not be the match", b"(a*)(a*)", "".join(sent + " aa\n" for sent, _ in proposed).encode(), "".join(told + "\n" for _, told in proposed))
    checks.on("digits of both cases", b"\xab|b", b"0a00 %s\n0A0001 %s\n0a0001 %s\n" % ((b"a" * 10 + b"b",) * 3), "N\nA 10 11\nA 10 11\n")
    checks.on("the last branch", b"|".join([b"a"] * 255 + [b"b"]), b"0000ff b\n0000FF b\n0000fF b\n0000fe b\n", "A 0 1\nA 0 1\nA 0 1\nN\n")
    checks.on("all groups", b"(a)|" + b"()" * 63, b"000000 a\n000001 a\n", "A 0 1 0-1%s\nA 0 0 -%s\n" % (" -" * 63, " 0-0" * 63))


def limits(checks):
    for size, told in ((255, "A 0 1\n"), (256, "A 0 1\n"), (257, "L\n"), (258, "L\n"), (2000, "L\n"), (70000, "L\n")):
        checks.on("a line of %d bytes" % size, b".", b"0000 " + b"x" * size + b"\n0000 x\n", told + "A 0 1\n", (0, 257))
    checks.on("the last start", b"\\z", b"0001 %s\n0101 %s\n" % ((b"x" * 256,) * 2), "A 256 256\nN\n")
    for size, told in ((1001, "N\n"), (1002, "N\n"), (1003, "L\n"), (1004, "L\n"), (40000, "L\n")):
        checks.on("a proposal of %d bytes" % size, b".", b"00" * size + b" x\n0000 x\n", told + "A 0 1\n", (0, 257))
    checks.on("both as long as they may be", b".", b"00" * 1002 + b" " + b"x" * 256, "N\n")
    checks.on("both longer", b".", b"00" * 1003 + b" " + b"x" * 257, "L\n")
    # a round is four steps: repeat, group, a, group's end; then the last repeat and the end
    for rounds, told in ((249, "A 0 249 248-249\n"), (250, "X 0\n"), (256, "X 0\n")):
        checks.on("%d rounds" % rounds, b"(a)*", b"0000" + b"01" * rounds + b"00 " + b"a" * rounds, told)
    checks.on("exhausted at another start", b"(a)*", b"0300" + b"01" * 250 + b"00 " + b"bbb" + b"a" * 250, "X 3\n")


def rules(t, checks):
    """Refusals and rule files that cannot be read; no line is answered then."""
    for name, rule, told in (
        ("a bracket", b"a(b", "R 20 1\n"), ("1001 bytes", b"a" * 1001, "R 1 0\n"), ("70000 bytes", b"a" * 70000, "R 1 0\n"), ("a held part", b"a(?>b)", "R 35 1\n"), ("looking ahead", b"(?=a)", "R 35 0\n"), ("a possessive repeat", b"a*+", "R 35 2\n"),
        ("a line break", b"a\\R", "R 35 1\n"), ("257 branches", b"|".join([b"a"] * 257), "R 36 511\n"), ("both", b"(?:" + b"|" * 256 + b")(?!a)", "R 35 260\n"), ("no rule, and held", b"(?>a)(", "R 20 5\n"),
    ):
        checks.on("refused, %s" % name, rule, b"0000 a\n0000 b\n", told)
        checks.on("refused, %s, no input" % name, rule, b"", told)
    t.same("no rule file", checks.answered(lambda file: None, b"0000 a\n"), ("F\n", "", 0))
    t.same("the rule is a folder", checks.answered(lambda file: file.mkdir(), b"0000 a\n"), ("F\n", "", 0))
    t.same("a read that fails", checks.answered(lambda file: file.symlink_to("/proc/self/mem"), b"0000 a\n"), ("F\n", "", 0))
    t.same("an empty rule", checks.answered(lambda file: file.write_bytes(b""), b"0000 a\n0200 a\n"), ("A 0 0\nN\n", "", 0))
    t.same("a rule without 0A", checks.answered(lambda file: file.write_bytes(b"a"), b"0000 a\n"), ("A 0 1\n", "", 0))
    t.same("what follows the first line", checks.answered(lambda file: file.write_bytes(b"a\n" + b"(" * 100000), b"0000 a\n"), ("A 0 1\n", "", 0))
    Path("rule.txt").write_bytes(b"a\n")
    folder = os.open(".", os.O_RDONLY)
    ran = subprocess.run([checks.program], stdin=folder, capture_output=True)
    os.close(folder)
    t.same("an input that cannot be read", (ran.stdout, ran.stderr), (b"", b"gateway_check: standard input: Is a directory\n"))


def unanswered(t, checks):
    """Where the answers cannot be written, that is said once."""
    for name, rule, data in (("lines that never end", b"y", None), ("one line", b"y", b"0000 y"), ("more answers than wait at once", b"y", b"\n" * 65536), ("a refused rule", b"(", b"")):
        for place, output, _ in unwritable.OUTPUTS:
            Path("rule.txt").write_bytes(rule)
            with output() as out:
                t.same("check, %s, %s" % (name, place), unwritable.said([checks.program], out, data), "gateway_check: the answers could not be written\n")
    for place, output, _ in unwritable.OUTPUTS:
        with output() as out:
            Path("rule.txt").write_bytes(b"y")
            t.same("check, nothing to write, %s" % place, unwritable.said([checks.program], out, b""), "")


# Both -----------------------------------------------------------------------------


def round_trip(t, checks):
    """The demo: the gateway is exhausted, and with the office's proposals the box says the matches, by the guide's own command."""
    for name in ("rule.txt", "lines.txt"):
        shutil.copy(DEMO / name, name)
    env = {**os.environ, "PATH": "%s:%s" % (PROGRAMS, os.environ["PATH"])}
    command = re.search(r"^    (propose rule\.txt .*gateway_check)$", (ROOT / "docs" / "GUIDE.md").read_text(), re.M).group(1)
    spoken = []
    for words in ("gateway <lines.txt", command):
        spoken.append(subprocess.run(words, shell=True, env=env, capture_output=True, text=True))
        t.same("%s, stderr" % words, spoken[-1].stderr, "")
    t.same("the box alone", spoken[0].stdout, "M 0 13 8-11 -\nX 0\nX 0\nX 0\n")
    t.same("the box with proposals", spoken[1].stdout, "A 0 13 8-11 -\nA 0 14 - 5-14\nA 0 13 - 5-13\nH\n")
    rule, text = (DEMO / "rule.txt").read_bytes().split(b"\n")[0], (DEMO / "lines.txt").read_bytes()
    t.on("the demo's lines", rule, text)
    matches = [reference.match(rule, 0, line, OFFICE_STEPS) for line in reference.lines(text)]
    t.same("the demo's matches", [row_line(got[2], 2) if got[0] == "M" else "H" for got in matches], spoken[1].stdout.splitlines())


def own_files(t):
    """The crates' own files, by the follower."""
    data, box = CRATES / "propose" / "data", CRATES / "gateway_check"
    t.held("the crate's own file", (data / "rule.txt").read_bytes().split(b"\n")[0], 0, OFFICE_STEPS, reference.lines((data / "lines.txt").read_bytes()), (data.parent / "stdout").read_text())
    t.same("the check's own file", (box / "stdout").read_text(), answers((box / "data" / "rule.txt").read_bytes().split(b"\n")[0], (box / "stdin").read_bytes()))


def main():
    t = Proposals(PROGRAMS / "propose")
    checks = Checks(t)
    seed = int(sys.argv[1]) if len(sys.argv) > 1 else 1
    own_files(t)
    for part in (arguments, mistakes, refusals, lines, unwritten):
        part(t)
    for part in (by_hand, limits):
        part(checks)
    for part in (rules, unanswered, round_trip):
        part(t, checks)
    random_rules(t, checks, seed)
    t.end()


if __name__ == "__main__":
    main()
