#!/usr/bin/env python3
"""Runs the table of fields, target/bin/fields, on cases of its own and compares what it writes.

Small cases and all messages are held to texts written here by hand. Large ones, and random rules and lines, are held to `table` below: the table
written a second time, over the rows and the lookup of reference.py. It shares nothing with the program.
Usage: harness/fields_cases.py [SEED] (in the repository's root, after `./build fields`). The last line is 'N passed, M failed'.
"""
import random
import subprocess
import sys
from pathlib import Path

import reference
from cases import Cases
from reference import ENTRY, FLAGS, GROUPS

ROOT = Path(__file__).resolve().parent.parent
PROGRAM = ROOT / "target" / "bin" / "fields"
DATA = ROOT / "crates" / "fields" / "data"
ROWS = 1000
LITRES = rb"^(?:(?<thousands>\d{1,3},\d{3})|(?<decimal>\d+,\d+)) L$"
HEAD = "line\tanswer\tthousands\tdecimal\n"


# The table written a second time ------------------------------------------------


def escaped(field):
    short = {9: "\\t", 10: "\\n", 13: "\\r", 92: "\\\\"}
    return "".join(short.get(b, chr(b) if 32 <= b <= 126 else "\\x%02X" % b) for b in field)


def names_of(rule, flags):
    index = reference.index(rule, flags)
    entries = [index[i:i + ENTRY] for i in range(0, len(index), ENTRY)]
    return [e[1:1 + e[0]] for e in entries if e[0]]


def looked_up(names, index, line, kind, row, standing):
    texts = (line, standing)
    spans = [reference.field(name, index, line, kind, row, standing) for name in names]
    return [texts[which][start:end] for which, start, end in spans]


def word_and_row(rule, flags, line, budget, fields):
    if len(line) > 65535:
        return "too long", 1, ()
    got = reference.match(rule, flags, line, budget)
    if got[0] != "M":
        return {"N": "not matched", "X": "exhausted"}[got[0]], 1, ()
    row = got[2]
    listed = reference.listing(rule, flags, line, budget, ROWS)
    rows = listed[-1]
    if any(y[:2] == row[:2] and fields(y) != fields(row) for y in rows):
        return "ambiguous", 0, row
    if listed[0] == "X" and listed[1] == row[0] or listed[0] == "F" and rows[-1][0] == row[0]:
        return "undecided", 0, row
    return "matched", 0, row


def table(rule, text, flags=0, budget=100000, standing=b"", names=None):
    lines = text.split(b"\n")
    if not lines[-1]:
        lines.pop()
    index = reference.index(rule, flags)
    names = names_of(rule, flags) if not names else names
    out = ["\t".join(["line", "answer"] + [n.decode() for n in names])]
    for number, line in enumerate(lines, 1):
        word, kind, row = word_and_row(rule, flags, line, budget, lambda y: looked_up(names, index, line, 0, y, standing))
        out.append("\t".join(["%d" % number, word] + [escaped(f) for f in looked_up(names, index, line, kind, row, standing)]))
    return "\n".join(out) + "\n"


# Running ------------------------------------------------------------------------


class Tables(Cases):
    def on(self, name, rule, text, out=None, err="", flags=0, budget=None, standing=None, names=()):
        """The table of a rule and lines; without a text of its own it is held to `table`."""
        Path("rule").write_bytes(rule + b"\n")
        Path("lines").write_bytes(text)
        options = ["-f", "%d" % flags] if flags else []
        options += ["-b", "%d" % budget] if budget is not None else []
        options += ["-s", standing] if standing is not None else []
        if out is None:
            out = table(rule, text, flags, 100000 if budget is None else budget, standing or b"", names)
        self.run(name, [*options, "rule", "lines", *names], out, err)


def words(t):
    """The issue's own line, and each word."""
    t.on("the comma", LITRES, b"1,500 L\n1,5 L\n", HEAD + "1\tambiguous\t1,500\t\n2\tmatched\t\t1,5\n")
    t.on("the comma, one field", LITRES, b"1,500 L\n1,5 L\n", "line\tanswer\tdecimal\n1\tambiguous\t\n2\tmatched\t1,5\n", names=[b"decimal"])
    t.on("not matched", LITRES, b"1500 L\n\n", HEAD + "1\tnot matched\t\t\n2\tnot matched\t\t\n")
    t.on("exhausted", rb"^(?<n>(?:a*)*)b", b"a" * 30 + b"\nab\n", "line\tanswer\tn\n1\texhausted\t\n2\tmatched\ta\n", budget=1000)
    t.on("too long", rb"^(?<n>a)", b"a" * 65536 + b"\nab\n" + b"a" * 65535 + b"\n", "line\tanswer\tn\n1\ttoo long\t\n2\tmatched\ta\n3\tmatched\ta\n")
    t.on("too long, the last", rb"^(?<n>a)", b"ab\n" + b"a" * 200000, "line\tanswer\tn\n1\tmatched\ta\n2\ttoo long\t\n")
    # two readings with the same fields
    t.on("the same fields", rb"^(?<n>a)(?:b|[b])$", b"ab\n", "line\tanswer\tn\n1\tmatched\ta\n")
    t.on("another group differs", rb"^(?<n>a)(b?)(b?)$", b"ab\n", "line\tanswer\tn\n1\tmatched\ta\n")
    t.on("a field differs that is not asked for", rb"^(?<n>a)(?<m>b?)(?<o>b?)$", b"ab\n", "line\tanswer\tn\n1\tmatched\ta\n", names=[b"n"])
    t.on("a field differs that is asked for", rb"^(?<n>a)(?<m>b?)(?<o>b?)$", b"ab\n", "line\tanswer\to\tn\n1\tambiguous\t\ta\n", names=[b"o", b"n"])
    # other places, the same bytes
    t.on("the same bytes elsewhere", rb"^(?:(?<n>a)a|a(?<m>a))$", b"aa\n", "line\tanswer\tn\n1\tambiguous\ta\n", names=[b"n"])
    t.on("the same bytes elsewhere, two places", rb"^a?(?<n>a)a?$", b"aa\n", "line\tanswer\tn\n1\tmatched\ta\n")
    t.on("unset and the standing text", rb"^(?:(?<n>a)|a)$", b"a\n", "line\tanswer\tn\n1\tmatched\ta\n", standing=b"a")
    t.on("unset and another standing text", rb"^(?:(?<n>a)|a)$", b"a\n", "line\tanswer\tn\n1\tambiguous\ta\n", standing=b"b")
    t.on("unset and empty", rb"^(?:(?<n>)|)a$", b"a\n", "line\tanswer\tn\n1\tmatched\t\n")
    # what is only looked at
    t.on("a field ahead", rb"a(?=(?<n>b+))", b"abb\na\n", "line\tanswer\tn\n1\tmatched\tbb\n2\tnot matched\t\n")
    t.on("a field that must not follow", rb"^(?!(?<n>a)b)\w", b"ac\nab\n", "line\tanswer\tn\n1\tmatched\t-\n2\tnot matched\t\n", standing=b"-")
    t.on("the first of two ahead", rb"^(?=(?<n>a|ab))", b"ab\n", "line\tanswer\tn\n1\tmatched\ta\n")
    t.on("a held field", rb"^(?>(?<n>a|ab))(?<m>b?)", b"ab\n", "line\tanswer\tn\tm\n1\tmatched\ta\tb\n")
    # no ^ and no $: another start or end is not another reading of the stretch
    t.on("it could begin elsewhere", rb"(?<n>\d+) L", b"150 L\n", "line\tanswer\tn\n1\tmatched\t150\n")
    t.on("it could end elsewhere", rb"^(?<n>\d+)", b"150 L\n", "line\tanswer\tn\n1\tmatched\t150\n")
    t.on("both", rb"(?<n>\d+)", b"150 and 7\n", "line\tanswer\tn\n1\tmatched\t150\n")
    t.on("the same end, another start", rb"(?<n>\d+)(?<m>\d*) L", b"15 L\n", "line\tanswer\tn\tm\n1\tambiguous\t15\t\n")


def cuts(t):
    """Listings that are cut: by the budget at the match's start or behind it, and by their room."""
    t.on("cut at the match's start", rb"^(?<n>a)(?:b*)*$|c", b"a" + b"b" * 20 + b"\n", "line\tanswer\tn\n1\tundecided\ta\n", budget=1000)
    t.on("cut behind the match's start", rb"(?<n>x)|(?:a*)*c", b"x" + b"a" * 25 + b"\n", "line\tanswer\tn\n1\tmatched\tx\n", budget=1000)
    t.on("ambiguous before the cut", rb"^(?:(?<n>a)|(?<m>a))(?:b*)*$", b"a" + b"b" * 20 + b"\n", None, budget=1000)
    t.on("1000 readings from one start", rb"^(?<n>x)?(?:(a*?)(a*)(a*))$", b"a" * 50 + b"\nx\n", None)
    t.on("1000 readings, the first start done", rb"(?<n>x)|(a*)(a*)(a*)", b"x" + b"a" * 30 + b"\n", None)
    t.on("ambiguous within 1000 readings", rb"^(?<n>a*)(a*)(a*)$", b"a" * 50 + b"\n", None)
    t.on("budget 0", rb"", b"a\n", "line\tanswer\n1\texhausted\n", budget=0)
    for budget in range(0, 60):
        t.on("budget %d" % budget, rb"(?<n>a*)(?<m>a?)b", b"xaab\naab\nb\n", None, budget=budget)


def bytes_and_columns(t):
    every = bytes(b for b in range(256) if b != 10)
    t.on("every byte", rb"^(?<all>(?:.|\n)*)$", every + b"\n", None, flags=1)
    t.on("escapes", rb"^(?<n>.*)$", b"a\tb\\c\rd\x00\x1f\x7f\x80\xff~ \n", "line\tanswer\tn\n1\tmatched\ta\\tb\\\\c\\rd\\x00\\x1F\\x7F\\x80\\xFF~ \n")
    t.on("a forged column", rb"^(?<n>.*)$", b"1\tmatched\t2\n", "line\tanswer\tn\n1\tmatched\t1\\tmatched\\t2\n")
    t.on("an escape that was written", rb"^(?<n>.*)$", b"\\t\n", "line\tanswer\tn\n1\tmatched\t\\\\t\n")
    t.on("0D", rb"^(?<n>.*)$", b"a\r\n", "line\tanswer\tn\n1\tmatched\ta\\r\n")
    t.on("a standing text", LITRES, b"1,5 L\nx\n", HEAD + "1\tmatched\t-\\t\\\\\t1,5\n2\tnot matched\t\t\n", standing=b"-\t\\")
    t.on("an empty standing text", LITRES, b"1,5 L\n", HEAD + "1\tmatched\t\t1,5\n", standing=b"")
    t.on("a standing text of 4096 bytes", LITRES, b"1,5 L\n", HEAD + "1\tmatched\t" + "s" * 4096 + "\t1,5\n", standing=b"s" * 4096)
    t.on("no names", rb"^(\d+)$", b"12\nx\n", "line\tanswer\n1\tmatched\n2\tnot matched\n")
    t.on("a name twice", LITRES, b"1,5 L\n", "line\tanswer\tdecimal\tdecimal\n1\tmatched\t1,5\t1,5\n", names=[b"decimal", b"decimal"])
    many = b"".join(b"(?<n%d>a?)" % n for n in range(GROUPS))
    t.on("the most names", b"^" + many + b"$", b"\na\n" + b"a" * GROUPS + b"\n", None)
    t.on("the most names, the last alone", b"^" + many + b"$", b"a" * GROUPS + b"\n", None, names=[b"n%d" % (GROUPS - 1)])
    for length in (4095, 4096, 4097, 8191, 8192, 8193, 65535):
        t.on("a field of %d bytes" % length, rb"^(?<n>\xff*)(?<m>b?)$", b"\xff" * length + b"\n" + b"\xff" * (length - 1) + b"b\n", None)
    nested = b"^" + b"".join(b"(?<n%d>" % n for n in range(24)) + b"." * 1 + b"*" + b")" * 24 + b"$"
    t.on("24 long fields", nested, b"\xfe" * 20000 + b"\nab\n", None)


def arguments(t):
    Path("rule").write_bytes(LITRES + b"\n")
    Path("lines").write_bytes(b"1,5 L\n")
    good = HEAD + "1\tmatched\t\t1,5\n"
    t.run("plain", ["rule", "lines"], good)
    t.run("all options", ["-f", "i", "-b", "500", "-s", "", "rule", "lines"], good)
    t.run("the depot profile", ["-f", "iD", "rule", "lines"], good)
    t.run("options in another order", ["-b", "500", "-f", "-", "rule", "lines"], good)
    t.run("the last of two counts", ["-b", "0", "-b", "500", "rule", "lines"], good)
    t.run("an option behind the files is a name", ["rule", "lines", "-f"], "", "fields: the rule has no name -f\n")
    for name, line in (("nothing", []), ("one file", ["rule"]), ("an option without its value", ["-f"]), ("an option and one file", ["-b", "5", "rule"]), ("no such option", ["-z", "1", "rule", "lines"]),
                       ("a long option", ["--flags", "1", "rule", "lines"]), ("bad flags", ["-f", "q", "rule", "lines"]), ("flags over their limit", ["-f", "%d" % FLAGS, "rule", "lines"]), ("bad budget", ["-b", "100001", "rule", "lines"]), ("a budget that is no number", ["-b", "1x", "rule", "lines"]),
                       ("a standing text of 4097 bytes", ["-s", "s" * 4097, "rule", "lines"])):
        ran = subprocess.run([str(PROGRAM), *line], capture_output=True)
        t.same("%s, stdout" % name, ran.stdout, b"")
        t.same("%s, stderr" % name, ran.stderr.decode().split("\n")[0], "usage: fields [--page] [-f FLAGS] [-b BUDGET] [-s TEXT] RULE-FILE LINES-FILE [NAME ..]")


def mistakes(t):
    """A message, and nothing that looks like a table."""
    Path("rule").write_bytes(LITRES + b"\n")
    Path("lines").write_bytes(b"1,5 L\n")
    t.run("no such name", ["rule", "lines", "litres"], "", "fields: the rule has no name litres\n")
    t.run("no such name behind one that there is", ["rule", "lines", "decimal", "litres"], "", "fields: the rule has no name litres\n")
    t.run("an empty name", ["rule", "lines", ""], "", "fields: the rule has no name \n")
    t.run("the beginning of a name", ["rule", "lines", "dec"], "", "fields: the rule has no name dec\n")
    t.run("a long name", ["rule", "lines", "decimal" * 9], "", "fields: the rule has no name " + "decimal" * 9 + "\n")
    t.run("a name too many", ["rule", "lines"] + ["decimal"] * (GROUPS + 1), "", "fields: more than %d names\n" % GROUPS)
    t.run("a name as often as there can be", ["rule", "lines"] + ["decimal"] * GROUPS, "line\tanswer" + "\tdecimal" * GROUPS + "\n1\tmatched" + "\t1,5" * GROUPS + "\n")
    t.run("no rule file", ["nothing", "lines"], "", "fields: nothing: No such file or directory\n")
    t.run("no lines file", ["rule", "nothing"], "", "fields: nothing: No such file or directory\n")
    t.run("no lines file, an unknown name", ["rule", "nothing", "litres"], "", "fields: the rule has no name litres\n")
    t.run("the rule is a folder", [".", "lines"], "", "fields: the rule could not be read: Is a directory\n")
    t.run("the lines are a folder", ["rule", "."], "", "fields: the lines could not be read to their end: Is a directory\n")
    Path("bad").write_bytes(b"a(b\n")
    t.run("a refused rule", ["bad", "lines"], "", "fields: the rule is refused, 20 at 1: this bracket is not closed by )\n  a(b\n   ^ \n")
    t.run("a refused rule, an unknown name", ["bad", "lines", "x"], "", None)
    Path("long").write_bytes(b"a" * 1001)
    t.run("a rule of 1001 bytes", ["long", "lines"], "", "fields: the rule is refused, 1 at 0: the rule has more than 1000 bytes\n")


def files(t):
    t.on("no lines", LITRES, b"", HEAD)
    t.on("no 0A at the end", LITRES, b"1,5 L\n2,5 L", HEAD + "1\tmatched\t\t1,5\n2\tmatched\t\t2,5\n")
    Path("rule").write_bytes(LITRES)
    Path("lines").write_bytes(b"1,5 L\n")
    t.run("a rule without 0A", ["rule", "lines"], HEAD + "1\tmatched\t\t1,5\n")
    Path("lines").write_bytes(b"1,5 L\n" * 25000)
    t.run("25000 lines", ["rule", "lines"], HEAD + "".join("%d\tmatched\t\t1,5\n" % n for n in range(1, 25001)))
    text = b"1,5 L\n\n1,500 L\n\xff\n7,250 L"
    t.in_pieces(text, table(LITRES, text))
    t.unwritten("fields: the table could not be written")


def random_rules(t, seed):
    chance = random.Random(seed)
    atoms = [b"a", b"b", b".", b" ", b"(?<A>a)", b"(?<B>a|ab)", b"(?<C>[ab]+)", b"(?<D>b?)", b"(?<E>\\w*?)", b"(a*)", b"^", b"$", b"(?:(?<F>a)|(?<G>b))", b"(?<H>)", b"\\k<A>", b"[^a]", b"(?=(?<I>\\w+))", b"(?!(?<J>a)b)", b"(?>(?<K>a|ab))", b"\\R"]
    done = 0
    while done < 350:
        chosen = [chance.choice(atoms) for _ in range(chance.randint(1, 5))]
        rule = b"".join(a + chance.choice([b"", b"", b"", b"*", b"?", b"+?", b"{1,2}", b"*+"]) for a in chosen)
        flags = chance.choice([0, 0, 1, 2, 4])
        try:
            reference.read(rule, flags)
        except reference.Refuse:
            continue
        done += 1
        lines = [bytes(chance.choice(b"aabbA \t\\\xe9") for _ in range(chance.choice([0, 1, 2, 3, 5, 8, 20]))) for _ in range(chance.randint(1, 5))]
        known = names_of(rule, flags)
        names = [chance.choice(known) for _ in range(chance.randint(0, 3))] if known else []
        t.on("random %d, rule %r" % (done, rule), rule, b"\n".join(lines), flags=flags, budget=chance.choice([0, 5, 30, 100, 300, 1000, 100000]),
             standing=chance.choice([None, b"", b"a", b"-\t"]), names=names)


def main():
    t = Tables(PROGRAM)
    seed = int(sys.argv[1]) if len(sys.argv) > 1 else 1
    rule, text = (DATA / "rule.txt").read_bytes().split(b"\n")[0], (DATA / "lines.txt").read_bytes()
    t.same("the crate's own file", (DATA.parent / "stdout").read_text(), table(rule, text, standing=b"-"))
    for part in (words, cuts, bytes_and_columns, arguments, mistakes, files):
        part(t)
    random_rules(t, seed)
    t.end()


if __name__ == "__main__":
    main()
