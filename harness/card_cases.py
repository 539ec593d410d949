#!/usr/bin/env python3
"""Runs the program of rule cards, target/bin/card, on cases of its own and compares what it writes.

Cards are written and read here a second time, from document 02 alone, with the rules' refusals and groups of reference.py. Messages are written by hand.
Usage: harness/card_cases.py [SEED] (in the repository's root, after `./build card`). The last line is 'N passed, M failed'.
"""
import os
import random
import resource
import subprocess
import sys
from pathlib import Path

import reference
import unwritable
from cases import FLAGS_USAGE, Cases, marked

ROOT = Path(__file__).resolve().parent.parent
PROGRAM = ROOT / "target" / "bin" / "card"
DATA = ROOT / "crates" / "card" / "data"
LITRES = rb"^(?:(?<thousands>\d{1,3},\d{3})|(?<decimal>\d+,\d+)) L$"

# bit 0 first
FLAGS = (("s", "a dot takes every byte"), ("m", "^ and $ hold at every newline"), ("i", "A to Z and a to z match each other"),
         ("x", "blanks, and # up to the line's end, are skipped"), ("D", "the narrower rules of the depot profile"))

USAGE = """\
usage: card write RULE-FILE CARD-FILE [FLAGS [BUDGET]]
       card show CARD-FILE

Writes a card: the bytes of a rule with its flags, its budget and the number of its groups, which
can be kept and sent. Shows what a card says, or why it is none.

RULE-FILE   the rule is what stands before its first line end
CARD-FILE   a card has at most 1064 bytes. It is written into a new file: no file is written over
""" + FLAGS_USAGE + """\
BUDGET      the steps that each start in a line may take, 0 to 65535; without it 65535

What is written is shown, too. A byte of the rule outside 20 to 7E (hex) is shown as \\xHH, with ^
under it.
"""
NO_FLAGS = "card: FLAGS are a number from 0 to 31, letters out of s, m, i, x and D, or - for none\n"
NO_BUDGET = "card: BUDGET is a number from 0 to 65535\n"

OF_CARD = {
    30: "a record begins with a byte that is none of the kinds 1, 2 and 3",
    31: "it ends before its last record does",
    32: "its records are in the wrong order, or not as many as the rule's length needs",
    33: "a byte that pads the rule is not 00, or bytes stand behind the last record",
    34: "the number of groups that it says is not the rule's",
}
OF_RULE = {1: "the rule has more than 1000 bytes", 3: "a flag that there is not", 20: "this bracket is not closed by )"}


# Cards, from 02 ---------------------------------------------------------------


def two(n):
    return bytes([n % 256, n // 256])


def settings(flags=0, budget=0, groups=0):
    return b"\1" + bytes([flags]) + two(budget) + bytes([groups])


def pieces(rule):
    return b"".join(b"\2" + rule[at:at + 32].ljust(32, b"\0") for at in range(0, len(rule), 32))


def length(n):
    return b"\3" + two(n)


def card(rule, flags=0, budget=65535, groups=None):
    return settings(flags, budget, reference.read(rule, flags)[1] if groups is None else groups) + pieces(rule) + length(len(rule))


BODIES = {1: 4, 2: 32, 3: 2}


def read(s):
    """The refusal with its place, or 0, and what the card says."""
    at, records = 0, []
    while not records or records[-1][0] != 3:
        if at == len(s):
            return 31, 0, None
        if s[at] not in BODIES:
            return 30, 0, None
        end = at + 1 + BODIES[s[at]]
        if end > len(s):
            return 31, 0, None
        records.append((s[at], s[at + 1:end]))
        at = end
    size = records[-1][1][0] + 256 * records[-1][1][1]
    if [kind for kind, _ in records] != [1] + [2] * ((size + 31) // 32) + [3]:
        return 32, 0, None
    text = b"".join(body for kind, body in records if kind == 2)
    if any(text[size:]) or at < len(s):
        return 33, 0, None
    rule, (flags, low, high, groups) = text[:size], records[0][1]
    if size > 1000:
        return 1, 0, None
    if flags >= 1 << len(FLAGS):
        return 3, 0, None
    try:
        counted = reference.read(rule, flags)[1]
    except reference.Refuse as refused:
        return refused.n, refused.p, rule
    if counted != groups:
        return 34, 0, None
    return 0, 0, (rule, flags, low + 256 * high, groups)


# What is shown, written a second time --------------------------------------------


def words(rule, flags=0, budget=65535, groups=None):
    odd = [not 32 <= b <= 126 for b in rule]
    out = ["rule    " + "".join("\\x%02X" % b if o else chr(b) for b, o in zip(rule, odd))]
    if any(odd):
        out.append("        " + "".join("^^^^" if o else " " for o in odd))
    out += ["flag    %s: %s" % flag for bit, flag in enumerate(FLAGS) if flags >> bit & 1] or ["flags   none"]
    out += ["budget  %d" % budget, "groups  %d" % (reference.read(rule, flags)[1] if groups is None else groups)]
    return "".join(line + "\n" for line in out)


def refused(number, place=0, rule=b""):
    """Why a card, or the rule that is to become one or stands in one, is refused."""
    if number in OF_CARD:
        return "card: the card is refused, %d: %s\n" % (number, OF_CARD[number])
    return "card: the rule is refused, %d at %d: %s\n%s" % (number, place, OF_RULE[number], marked(rule, place) if number >= 10 else "")


# Running ------------------------------------------------------------------------


class Programs(Cases):
    def shows(self, name, content):
        """Shows a file and compares it with what the reader above says. Of a rule's own refusal the number and the place are compared."""
        Path("shown").write_bytes(content)
        number, place, said = read(content)
        if number == 0:
            self.run(name, ["show", "shown"], words(*said))
        elif number in OF_CARD or number in OF_RULE:
            self.run(name, ["show", "shown"], "", refused(number, place, said or b""))
        else:
            ran = subprocess.run([self.program, "show", "shown"], capture_output=True)
            self.same("%s, stdout" % name, ran.stdout, b"")
            self.same("%s, stderr" % name, ran.stderr.decode("latin1").split(":")[1], " the rule is refused, %d at %d" % (number, place))

    def writes(self, name, rule, flags=0, budget=65535, given=None, file=None):
        """Writes a card, and compares its bytes and what is shown of it."""
        Path("rule").write_bytes(rule + b"\n" if file is None else file)
        Path("card").unlink(missing_ok=True)
        self.run(name, ["write", "rule", "card", *([str(flags), str(budget)] if given is None else given)], words(rule, flags, budget))
        self.same("%s, the card" % name, Path("card").read_bytes(), card(rule, flags, budget))
        self.shows("%s, shown" % name, card(rule, flags, budget))

    def leaves(self, name, arguments, out, err):
        """A call that makes no file."""
        Path("card").unlink(missing_ok=True)
        before = os.listdir()
        self.run(name, arguments, out, err)
        self.same("%s, no file" % name, sorted(os.listdir()), sorted(before))


def written(t):
    t.writes("a rule", LITRES)
    t.writes("no flags and no budget", LITRES, given=[])
    t.writes("no budget", LITRES, 4, given=["i"])
    t.writes("letters", rb"a #b", 13, 1000, given=["xis", "1000"])
    t.writes("zeros in front", b"a", 3, 7, given=["03", "0007"])
    t.writes("- for none", b"a", 0, 0, given=["-", "0"])
    t.writes("an empty rule", b"")
    t.writes("a rule without 0A", b"a", file=b"a")
    t.writes("an empty file", b"", file=b"")
    t.writes("what follows the first line", b"a", file=b"a\n(\n")
    t.writes("0D", b"a\r", file=b"a\r\n")
    t.writes("odd bytes", b"\x00\t\x1f \x7e\x7f\x80\xff\\x80")
    t.writes("every byte", bytes(b for b in range(256) if b not in b"\n()[]{}*+?|^$\\."))
    t.writes("32 groups", b"()" * 32)
    t.writes("looking ahead and holding on", rb"(?=(a))(?!(b)c)(?>d|\R)e*+")
    for size in (1, 31, 32, 33, 63, 64, 65, 255, 256, 257, 992, 993, 999, 1000):
        t.writes("%d bytes" % size, b"a" * size, 15, 258)
        t.writes("%d odd bytes" % size, b"\xff" * size)
    for flags in range(1 << len(FLAGS)):
        t.writes("flags %d" % flags, b"a b", flags, 256 * flags)
    for budget in (0, 1, 255, 256, 65534, 65535):
        t.writes("budget %d" % budget, b"a", 0, budget)


def mistakes(t):
    """A message; no card is made, and no file is changed."""
    Path("rule").write_bytes(LITRES + b"\n")
    for words_ in ([], ["write"], ["write", "rule"], ["show"], ["show", "rule", "x"], ["write", "rule", "card", "0", "5", "x"], ["read", "rule"], ["Show", "rule"], ["", "rule"], ["shows", "rule"], ["sho", "rule"],
                   ["write rule"], ["w" * 5000, "rule"]):
        t.leaves("arguments %r" % [w[:20] for w in words_], words_, "", USAGE)
    for flags in ("%d" % (1 << len(FLAGS)), "000%d" % (1 << len(FLAGS)), "", "a", "I", "sax", "--", "-1", "x8", "d" * 5000):
        t.leaves("flags %r" % flags[:20], ["write", "rule", "card", flags], "", NO_FLAGS)
        t.leaves("flags %r and a budget" % flags[:20], ["write", "rule", "card", flags, "70000"], "", NO_FLAGS)
    for budget in ("65536", "65537", "70000", "100000", "100001", "4294967296", "99999999999999999999", "", "-", "-1", "1k", "0x10", "7" * 5000):
        t.leaves("budget %r" % budget[:20], ["write", "rule", "card", "-", budget], "", NO_BUDGET)
    t.leaves("no rule file", ["write", "nothing", "card"], "", "card: nothing: No such file or directory\n")
    t.leaves("the rule is a folder", ["write", ".", "card"], "", "card: the rule could not be read: Is a directory\n")
    Path("bad").write_bytes(b"a(b\n")
    t.leaves("a refused rule", ["write", "bad", "card"], "", refused(20, 1, b"a(b"))
    for size in (1001, 1002, 70000):
        Path("long").write_bytes(b"a" * size)
        t.leaves("a rule of %d bytes" % size, ["write", "long", "card"], "", refused(1))
    t.leaves("no such folder", ["write", "rule", "none/card"], "", "card: none/card: No such file or directory\n")
    t.leaves("no name", ["write", "rule", ""], "", "card: : No such file or directory\n")
    t.leaves("a long name", ["write", "rule", "c" * 5000], "", "card: the name of a file: File name too long\n")
    t.leaves("a name that is not UTF-8", ["write", "rule", b"\xe9"], "", "card: \xe9: Invalid or incomplete multibyte or wide character\n")
    t.run("no card file", ["show", "nothing"], "", "card: nothing: No such file or directory\n")
    t.run("the card is a folder", ["show", "."], "", "card: the card could not be read: Is a directory\n")
    t.run("a long name of a card", ["show", "c" * 5000], "", "card: the name of a file: File name too long\n")


def kept(t):
    """A file that is there stays as it was, whatever it is; and nothing is left of a card that could not be written."""
    Path("rule").write_bytes(LITRES + b"\n")
    for content in (b"", b"something else\n", card(b"a")):
        Path("there").write_bytes(content)
        t.run("a file that is there", ["write", "rule", "there"], "", "card: there: File exists\n")
        t.same("a file that is there, its bytes", Path("there").read_bytes(), content)
    Path("folder").mkdir()
    t.run("a folder", ["write", "rule", "folder"], "", "card: folder: File exists\n")
    Path("link").symlink_to("target")
    t.run("a link to nothing", ["write", "rule", "link"], "", "card: link: File exists\n")
    t.same("a link to nothing, its target", Path("target").exists(), False)
    t.run("standard output", ["write", "rule", "/dev/stdout"], "", "card: /dev/stdout: File exists\n")
    t.run("the rule itself", ["write", "rule", "rule"], "", "card: rule: File exists\n")
    t.same("the rule itself, its bytes", Path("rule").read_bytes(), LITRES + b"\n")
    # no file may have more than so many bytes; the signal that says so is ignored
    for limit in (0, 1, 20, len(card(LITRES)) - 1):
        ran = subprocess.run([t.program, "write", "rule", "part"], capture_output=True, restore_signals=False, preexec_fn=lambda: resource.setrlimit(resource.RLIMIT_FSIZE, (limit, limit)))
        t.same("a limit of %d bytes" % limit, (ran.stdout, ran.stderr), (b"", b"card: the card could not be written: File too large\n"))
        t.same("a limit of %d bytes, no card" % limit, Path("part").exists(), False)
    for place, output, _ in unwritable.OUTPUTS:
        Path("shown").write_bytes(card(LITRES))
        with output() as out:
            t.same("shown, %s" % place, unwritable.said([t.program, "show", "shown"], out, b""), "card: what the card says could not be written\n")
        Path("card").unlink(missing_ok=True)
        with output() as out:
            t.same("written, %s" % place, unwritable.said([t.program, "write", "rule", "card"], out, b""), "card: what the card says could not be written\n")
        t.same("written, %s, the card" % place, Path("card").read_bytes(), card(LITRES))


def shown(t):
    """Cards that are none: 02's refusals, in their order."""
    zero = settings() + length(0)
    for name, content in (
        ("no byte", b""), ("no kind", b"\4"), ("a kind of 0", b"\0"), ("kind 3 alone", length(0)), ("kind 1 alone", settings()), ("a cut kind 2", settings() + b"\2"),
        ("a kind 2, then no kind", pieces(b"a") + b"\4"), ("two kind 1, cut", settings() * 2 + b"\3"), ("two kind 1", settings() * 2 + length(0)), ("no kind, then a kind", b"\4\1"),
        ("no kind behind kind 3", zero + b"\4"), ("kind 3 twice", zero + length(0)), ("kind 3 first, then no kind", length(0) + b"\4"),
        ("no kind 2", settings() + length(1)), ("a kind 2 too many", settings() + pieces(b"a") + length(0)), ("kind 2 first", pieces(b"a") + settings() + length(1)), ("a length that no card has", settings() + length(59651)),
        ("1001 bytes", settings() + pieces(b"a" * 1001) + length(1001)), ("1024 bytes", settings() + pieces(b"a" * 1024) + length(1024)), ("1025 bytes in 32 pieces", settings() + pieces(b"a" * 1024) + length(1025)),
        ("padding and 1001 bytes", settings() + pieces(b"a" * 1024) + length(1001)), ("a byte behind", card(b"a") + b"\0"), ("a flag and a byte behind", settings(1 << len(FLAGS)) + length(0) + b"\0"),
        ("a flag", settings(1 << len(FLAGS)) + length(0)), ("all bits", settings(255) + length(0)), ("padding", card(b"(a)").replace(b"(a)\0", b"(a)a")), ("padding that is a rule", settings() + pieces(b"(a)") + length(1)),
        ("a refused rule", card(b"a(b", groups=1)), ("a refused rule in windows", card(b"a" * 100 + b"(" + b"b" * 90, groups=1)), ("a refused rule, odd bytes", card(b"\n(\xff", groups=1)), ("too many groups", card(b"a", groups=1)),
        ("too few groups", card(b"(a)", groups=0)), ("255 groups", card(b"(a)", groups=255)), ("a rule that ends in 00", card(b"a\0")), ("a rule of 00", card(b"\0")),
        ("65535 bytes", settings() + pieces(b"a" * 63520) + bytes(65535 - 5 - 33 * 1985)), ("many records", settings() * 13107), ("text", LITRES + b"\n"),
    ):
        t.shows(name, content)
    for size in (65536, 65537, 200000):
        Path("large").write_bytes(card(b"a").ljust(size, b"\1"))
        t.run("%d bytes" % size, ["show", "large"], "", "card: the file has more than 65535 bytes, and a card at most 1064\n")
    t.run("lines that never end", ["show", "/dev/zero"], "", "card: the file has more than 65535 bytes, and a card at most 1064\n")
    t.run("nothing", ["show", "/dev/null"], "", refused(31))
    text = card(b"a" * 40, 5, 300)
    for size in (1, 2, 7, 33):
        ran = subprocess.Popen([t.program, "show", "/dev/stdin"], stdin=subprocess.PIPE, stdout=subprocess.PIPE)
        for at in range(0, len(text), size):
            ran.stdin.write(text[at:at + size])
            ran.stdin.flush()
        t.same("pieces of %d bytes" % size, ran.communicate()[0].decode("latin1"), words(b"a" * 40, 5, 300))


def changed(t, seed):
    """Every truncation, every byte changed and a byte more, of small cards; and random ones."""
    chance = random.Random(seed)
    whole = card(rb"(\d+) L", 4, 1000)
    for end in range(len(whole)):
        t.shows("the first %d bytes" % end, whole[:end])
    for at in range(len(whole)):
        for byte in {0, 1, 2, 3, 4, 255, whole[at] ^ 1, whole[at] ^ 128, chance.randrange(256)}:
            t.shows("byte %d is %d" % (at, byte), whole[:at] + bytes([byte]) + whole[at + 1:])
    for _ in range(300):
        rule = b"".join(chance.choice([b"a", b"(", b")", b"(b)", b"\\d", b"[a-z]", b"*", b"|", b"\xa0", b"\0"]) for _ in range(chance.randrange(40)))
        parts = [settings(chance.choice([0, 1, 8, 15, 16, 31, 32]), chance.randrange(65536), chance.randrange(4)), pieces(rule), length(len(rule))]
        if chance.random() < 0.3:
            chance.shuffle(parts)
        if chance.random() < 0.2:
            parts.insert(chance.randrange(4), chance.choice([settings(), pieces(b"a"), length(0), b"\0", b"\4"]))
        t.shows("random, rule %r" % rule, b"".join(parts))


def main():
    t = Programs(PROGRAM)
    seed = int(sys.argv[1]) if len(sys.argv) > 1 else 1
    said = read((DATA / "litres.card").read_bytes())
    t.same("the crate's own card", said[0], 0)
    t.same("the crate's own file", (DATA.parent / "stdout").read_text(), words(*said[2]))
    for part in (written, mistakes, kept, shown):
        part(t)
    changed(t, seed)
    t.end()


if __name__ == "__main__":
    main()
