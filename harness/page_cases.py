#!/usr/bin/env python3
"""Runs target/bin/readings --page and fields --page on a dairy's day and on hostile lines, and compares the page, as an HTML parser reads it, with one written here a second time.

The page has to be ASCII, to have no element and no attribute but those of the fixed markup, and for each line that needs a person exactly the parts
that `articles` below makes of the rows of reference.py: so no byte of a line, of a rule or of a name becomes markup, and none is lost.
Both programs also run at a terminal, where they say how far they are, and without one, where they do not.
Usage: harness/page_cases.py [SEED] (in the repository's root, after `./build readings fields`). The last line is 'N passed, M failed'.
With `--keep FOLDER` the pages of the dairy's day and of the hostile lines are left there, for a look at them in a browser.
"""
import os
import pty
import random
import re
import subprocess
import sys
from html.parser import HTMLParser
from pathlib import Path

import fields_cases
import reference
import unwritable
from cases import Cases
from readings_cases import PROGRAM, ROOT, item, labels, sentence, told

DEMO = ROOT / "demo"
VOID = {"meta", "input"}
SHAPES = {("html", (("lang", "en"),)), ("head", ()), ("title", ()), ("style", ()), ("body", ()), ("main", ()), ("h1", ()), ("h2", ()), ("h3", ()), ("h4", ()),
          ("meta", (("charset", "utf-8"),)), ("meta", (("name", "viewport"), ("content", "width=device-width, initial-scale=1"))),
          ("meta", (("http-equiv", "Content-Security-Policy"), ("content", "default-src 'none'; style-src 'unsafe-inline'"))),
          ("p", ()), ("p", (("class", "line"),)), ("b", ()), ("i", ()), ("code", ()), ("ul", ()), ("ul", (("class", "counts"),)), ("li", ()), ("mark", ()), ("mark", (("class", "stop"),)),
          ("span", (("class", "t"),)), ("span", (("class", "fit"),))}
SHAPES |= {(tag, (("class", "f%d" % k),)) for tag in ("li", "span") for k in range(8)}
SHAPES |= {("article", (("class", k),)) for k in "ane"} | {("label", (("for", k),)) for k in "ane"} | {("input", (("type", "checkbox"), ("id", k), ("checked", None))) for k in "ane"}
KINDS = "lines", "matched once", "ambiguous", "not matched", "exhausted", "too long"
FIELD_KINDS = "lines", "matched", "ambiguous", "undecided", "not matched", "exhausted", "too long"


# The page as a parser reads it --------------------------------------------------


class Page(HTMLParser):
    """A tree of [tag, attributes, children]; what is wrong is noted in `faults`."""

    def __init__(self, text):
        super().__init__(convert_charrefs=True)
        self.root = ["", (), []]
        self.open, self.faults = [self.root], []
        self.feed(text)
        self.close()
        if len(self.open) > 1:
            self.faults.append("not closed: %s" % [node[0] for node in self.open])

    def handle_starttag(self, tag, attributes):
        node = [tag, tuple(attributes), []]
        if (tag, tuple(attributes)) not in SHAPES:
            self.faults.append("%s %s" % (tag, attributes))
        self.open[-1][2].append(node)
        if tag not in VOID:
            self.open.append(node)

    def handle_endtag(self, tag):
        if self.open[-1][0] != tag:
            self.faults.append("closes %s in %s" % (tag, self.open[-1][0]))
        else:
            self.open.pop()

    def handle_data(self, data):
        self.open[-1][2].append(data)

    def fault(self, *words):
        self.faults.append("%s" % (words,))

    handle_comment = handle_pi = unknown_decl = fault

    def handle_decl(self, decl):
        if decl != "DOCTYPE html":
            self.fault(decl)

    def all(self, tag, node=None):
        for child in (node or self.root)[2]:
            if not isinstance(child, str):
                if child[0] == tag:
                    yield child
                yield from self.all(tag, child)


def tidy(node):
    """Without the line ends between blocks."""
    tag, attributes, children = node
    return (tag, dict(attributes).get("class"), tuple(child if isinstance(child, str) else tidy(child) for child in children if child != "\n"))


# The page written a second time ---------------------------------------------------


def shown(text):
    return "".join(chr(b) if 32 <= b <= 126 else "\u2039%02X\u203a" % b for b in text)


def left_out(count):
    return [("i", None, (" \u2026 %d bytes more \u2026 " % count,))] if count else []


def joined(parts):
    """Texts that stand beside each other are one."""
    out = []
    for part in parts:
        if isinstance(part, str) and out and isinstance(out[-1], str):
            out[-1] += part
        elif part != "":
            out.append(part)
    return tuple(out)


def part(line, row):
    """A line in the colours of a row."""
    first = max(0, row[0] - 1000) if row else 0
    end = min(len(line), first + 2000)

    def span(at):
        return next((k for k in range(len(row) // 2 - 1, -1, -1) if row[2 * k] <= at < row[2 * k + 1]), None)

    runs, at = [], first
    while at < end:
        group, stop = span(at), at
        while stop < end and span(stop) == group:
            stop += 1
        text = shown(line[at:stop])
        runs.append(text if group is None else ("span", "f%d" % ((group - 1) % 8) if group else "t", (text,)))
        at = stop
    return ("p", "line", joined(left_out(first) + runs + left_out(len(line) - end)))


def fields(line, row, groups):
    out = []
    for group, name in enumerate(groups, 1):
        if 2 * group + 1 < len(row) and row[2 * group] != reference.U:
            value = line[row[2 * group]:row[2 * group + 1]]
            tail = ("code", None, joined([shown(value[:200])] + left_out(max(0, len(value) - 200)))) if value else ("i", None, ("empty",))
            out.append(("li", "f%d" % ((group - 1) % 8), (("b", None, (name,)), " ", tail)))
    return ("ul", None, tuple(out))


def blocks(line, rows, groups):
    if not rows:
        return [part(line, ())]
    out = []
    for number, row in enumerate(rows[:20], 1):
        out += [("h4", None, ("Reading %d" % number,)), part(line, row), fields(line, row, groups)]
    return out + ([("p", None, ("Readings that are not shown here: %d" % (len(rows) - 20),))] if len(rows) > 20 else [])


def reason(rule, flags, line, budget):
    (start, stop, _), places = reference.explain(rule, flags, line, budget)[3:]
    items = [item(rule, flags, place) for place in places]
    first = max(0, stop - 1000)
    end = min(len(line), first + 2000)
    attempt = left_out(first) + [shown(line[first:start])] if first < start else left_out(first)
    taken = line[max(first, start):stop]
    attempt += [("span", "fit", (shown(taken),))] if taken else []
    attempt += [("mark", "stop", (shown(line[stop:stop + 1]) or "the line\u2019s end",)), shown(line[stop + 1:end])] + left_out(len(line) - end)
    under = [False] * len(rule)
    for place, text in zip(places, items):
        under[place:place + len(text)] = [True] * len(text)
    marked, at = [("b", None, ("rule ",))], 0
    while at < len(rule):
        stop_at = at
        while stop_at < len(rule) and under[stop_at] == under[at]:
            stop_at += 1
        text = shown(rule[at:stop_at])
        marked.append(("mark", None, (text,)) if under[at] else text)
        at = stop_at
    return [("p", "line", joined(attempt)), ("p", "line", joined(marked)), ("p", None, (sentence(line, start, stop, items),))]


def rows_part(rule, flags, line, budget, groups):
    """What a listing of the line tells, and its readings."""
    got = reference.listing(rule, flags, line, budget, 1000)
    rows = got[-1]
    notes = {"F": "There are more than %d readings." % len(rows), "X": "The steps were used up at column %s; readings until then: %d." % (got[1], len(rows))}
    return ([("p", None, (notes[got[0]],))] if got[0] in notes else []) + blocks(line, rows, groups)


def articles(rule, text, flags, budget, word):
    """The counts by the words that `word` gives the lines, and the parts of those that need a person."""
    lines = text.split(b"\n")
    if not lines[-1]:
        lines.pop()
    groups, _ = labels(rule, flags)
    counts = dict.fromkeys(KINDS + FIELD_KINDS, 0)
    counts["lines"] = len(lines)
    out = []
    for number, line in enumerate(lines, 1):
        kind = word(line)
        counts[kind] += 1
        if kind in ("matched", "matched once"):
            continue
        letter = {"ambiguous": "a", "not matched": "n"}.get(kind, "e")
        if kind == "too long":
            kind, parts = "too long, over 65535 bytes", []
        elif kind == "not matched":
            parts = reason(rule, flags, line, budget)
        else:
            parts = rows_part(rule, flags, line, budget, groups)
        out.append(("article", letter, (("h3", None, ("Line %d: %s" % (number, kind),)), *parts)))
    return counts, out, groups


# Running ------------------------------------------------------------------------


class Pages(Cases):
    keep = None

    def page(self, name, words, rule, text, flags, budget, kinds, word, keep):
        """Runs the program for a page, and compares all of it but for its fixed sentences. It gives back the paragraphs above the lines."""
        Path("rule").write_bytes(rule + b"\n")
        Path("lines").write_bytes(text)
        ran = subprocess.run(words, capture_output=True, timeout=300, stdin=subprocess.DEVNULL)
        self.same(name + ", stderr", ran.stderr.decode("latin1"), "")
        self.same(name + ", bytes", sorted(set(ran.stdout) - set(range(32, 127)) - {10}), [])
        page = Page(ran.stdout.decode("latin1"))
        self.same(name + ", markup", page.faults, [])
        counts, expected, groups = articles(rule, text, flags, budget, word)
        found = [tidy(node) for node in page.all("article")]
        for at, (got, wanted) in enumerate(zip(found, expected)):
            self.same("%s, part %d" % (name, at + 1), [got], [wanted])
        self.same(name + ", parts", len(found), len(expected))
        lists = [tidy(node) for node in page.all("ul")][:2]
        self.same(name + ", counts", [lists[0]], [("ul", "counts", tuple(("li", None, (("b", None, ("%d" % counts[kind],)), " " + kind)) for kind in kinds))])
        parser = reference.Parser(rule, flags)
        parser.parse()
        if parser.opened:
            self.same(name + ", legend", [lists[1]], [("ul", None, tuple(("li", "f%d" % (k % 8), (("b", None, (groups[k],)),)) for k in range(parser.opened)))])
        paragraphs = [tidy(node) for node in page.all("p")]
        self.same(name + ", rule", [paragraphs[0]], [("p", "line", (("b", None, ("rule ",)), shown(rule)))])
        if keep and self.keep:
            (Path(self.keep) / keep).write_bytes(ran.stdout)
        return paragraphs

    def on(self, name, rule, text, flags=0, budget=100000, keep=None):
        """A page by all readings of a line."""
        words = [self.program, "--page", "rule", "lines", "%d" % flags, "%d" % budget]
        self.page(name, words, rule, text, flags, budget, KINDS, lambda line: told(rule, flags, line, budget)[2], keep)

    def on_fields(self, name, rule, text, flags=0, budget=100000, standing=b"", names=(), keep=None):
        """A page by the fields of a line's match."""
        index = reference.index(rule, flags)
        columns = names or fields_cases.names_of(rule, flags)

        def word(line):
            return fields_cases.word_and_row(rule, flags, line, budget, lambda row: fields_cases.looked_up(columns, index, line, 0, row, standing))[0]

        words = [str(fields_cases.PROGRAM), "--page", "-f", "%d" % flags, "-b", "%d" % budget, "-s", standing, "rule", "lines", *names]
        paragraphs = self.page("fields, " + name, words, rule, text, flags, budget, FIELD_KINDS, word, keep)
        judged = ["A line is ambiguous if another reading of what the rule took has another value in one of:"]
        for column in columns:
            judged += [" ", ("b", None, (shown(column),))]
        if not columns:
            judged = ["The table has no columns, so that no line is ambiguous."]
        self.same("fields, %s, columns" % name, [part for part in paragraphs if part[2][:1] and str(part[2][0]).startswith(("A line is", "The table"))], [("p", None, joined(judged))])

    def at_terminal(self, name, words, stdout):
        """What a program says to a terminal, while its standard output is a file, or that terminal."""
        ours, theirs = pty.openpty()
        ran = subprocess.Popen(words, stdin=subprocess.DEVNULL, stdout=theirs if stdout is None else stdout, stderr=theirs)
        os.close(theirs)
        said = b""
        while True:
            try:
                piece = os.read(ours, 65536)
            except OSError:  # the last of those who hold the other end has ended
                break
            if not piece:
                break
            said += piece
        ran.wait()
        os.close(ours)
        return said.decode("latin1").replace("\r\n", "\n")


HOSTILE = [b"<script>alert(1)</script>", b"</article></main><script src=//x.example/a.js></script>", b"\"><img src=x onerror=alert(1)>", b"' onmouseover='alert(1)", b"&lt;script&gt; &amp;#60; &#x3c; &copy",
           b"]]><!--", b"--><!-- <![CDATA[", b"<style>body{display:none}</style>", b"\x00\x01\x02\x07\x08\t\x0b\x0c\r\x1b[31m\x1f\x7f", bytes(range(128, 192)), bytes(range(192, 256)), b"\xe2\x80\xb90A\xe2\x80\xba", b"  two  blanks  ",
           b"", b" ", b"\\x41 \\ \\\\", b"<" * 3000, b"a" * 65536, b"x" * 1500 + b"<b>" + b"y" * 1500]
LONG = [b"a" * 65535, b"&" * 65535]  # the reference takes its time over starts in these: only under a rule that begins with ^ and is exhausted


def dairy(seed):
    """A day of a dairy's lines: orders and readings of tanks, a few of them ambiguous, misspelt or empty."""
    chance = random.Random(seed)
    out = []
    for k in range(600):
        litres = chance.choice(["%d" % chance.randrange(100, 999), "%d,%02d" % (chance.randrange(1, 40), chance.randrange(100))] * 12 + ["%d,%d00" % (chance.randrange(1, 9), chance.randrange(1, 9))])
        words = chance.choice(["Please send", "Send", "Order:"] * 20 + ["Plaese send"])
        milk = chance.choice(["", " of raw milk", " of skim milk"] * 20 + [" of oat milk"])
        day = chance.choice(["", " by Friday", " by Monday"])
        out.append("%s %s %s%s%s%s" % (words, litres, chance.choice(["L", "litres"] * 30 + ["ltrs"]), milk, day, chance.choice(["", "."])))
    return "\n".join(out).encode() + b"\n"


def main():
    words = sys.argv[1:]
    t = Pages(PROGRAM)
    if "--keep" in words:
        at = words.index("--keep")
        t.keep = words[at + 1]
        del words[at:at + 2]
    seed = int(words[0]) if words else 1
    orders = (DEMO / "orders-rule.txt").read_bytes().split(b"\n")[0]
    t.on("the demo's orders", orders, (DEMO / "orders.txt").read_bytes(), keep="orders.html")
    t.on("the demo's tanks", (DEMO / "rule.txt").read_bytes().split(b"\n")[0], (DEMO / "lines.txt").read_bytes(), keep="tanks.html")
    t.on("a dairy's day", orders, dairy(seed), keep="day.html")
    t.on("no lines", orders, b"")
    hostile = b"\n".join(HOSTILE) + b"\n"
    t.on("hostile lines, not matched", b"^(?<a>[a-z]+) <\"&'>$", hostile, keep="hostile.html")
    t.on("hostile lines, ambiguous", b"^(?:(?<first>.*)|(?<second>.*))$", b"\n".join(HOSTILE + LONG), keep="hostile-ambiguous.html")
    t.on("hostile lines, parts", b"(?<tag>[<&\"']+)|(?<odd>[^ -~]+)", b"\n".join(HOSTILE[:16]))
    t.on("hostile lines, exhausted", b"(?:a*)*b", b"<b>" + b"a" * 40 + b"\n<i>" + b"a" * 80, budget=50)
    t.on("no budget", b"a|b", b"<a>\nb\n", budget=0)
    t.on("groups in groups", b"((a)(b?))*|(?=(ab))a(bc)?", b"ababc\nabc\nb")
    t.on("more readings than are shown", b"a*", b"a" * 60)
    t.on("a rule of odd bytes", b"^\xff\x01<b>&'\"(\t)$", b"<b>\n\xff\x01<b>&'\"\t")
    t.on("many groups", b"".join(b"(%c?)" % (97 + k % 26) for k in range(64)), b"abcdef\nxyz")
    chance = random.Random(seed)
    for done in range(60):
        rule = chance.choice([b"^(?:(\\w+)|(.+))$", b"(<\\w*>)|(\\W+)", b"^(a|<)(b|&)?(.*)$", b"^(?<x>[^<]*)<(?<y>.*)>$", b"(.)(.)?"])
        lines = [bytes(chance.choice(b"ab<>&\"' \x00\xff\t;#x") for _ in range(chance.randrange(12))) for _ in range(6)]
        t.on("random %d" % done, rule, b"\n".join(lines), budget=chance.choice([5, 30, 100000]))
    by_fields(t, orders, hostile, seed)
    arguments(t, orders)
    progress(t)
    t.end()


def by_fields(t, orders, hostile, seed):
    """Pages of the table's words."""
    t.on_fields("the demo's orders", orders, (DEMO / "orders.txt").read_bytes(), keep="orders-fields.html")
    t.on_fields("a dairy's day", orders, dairy(seed), keep="day-fields.html")
    t.on_fields("some columns", orders, dairy(seed + 1), names=[b"milk", b"day"])
    t.on_fields("no lines", orders, b"")
    t.on_fields("no names", b"(a)(b)?", b"ab\n<\n")
    t.on_fields("hostile lines, ambiguous", b"^(?:(?<first>.*)|(?<second>.*))$", hostile)
    t.on_fields("hostile lines, the standing text", b"^(?:(?<n>.*)|.*)$", hostile, standing=b"<b>&\xff")
    t.on_fields("hostile lines, not matched", b"^(?<a>[a-z]+) <\"&'>$", hostile)
    t.on_fields("undecided", b"^(?<n>(?:a|a)*)$", b"a" * 12 + b"\na\n<\n", budget=200)
    t.on_fields("exhausted", b"(?<n>(?:a*)*)b", b"<b>" + b"a" * 40 + b"\n<i>" + b"a" * 80, budget=50)
    chance = random.Random(seed)
    for done in range(40):
        rule = chance.choice([b"^(?:(?<v>\\w+)|(?<w>.+))$", b"(?<t><\\w*>)|(?<o>\\W+)", b"^(?<a>a|<)(?<b>b|&)?(.*)$", b"^(?<x>[^<]*)<(?<y>.*)>$", b"(?<x>.)(?<y>.)?"])
        lines = [bytes(chance.choice(b"ab<>&\"' \x00\xff\t;#x") for _ in range(chance.randrange(12))) for _ in range(6)]
        t.on_fields("random %d" % done, rule, b"\n".join(lines), budget=chance.choice([5, 30, 100000]))


def arguments(t, orders):
    """Arguments, and what cannot be done."""
    Path("rule").write_bytes(orders)
    Path("lines").write_bytes(b"")
    fields = str(fields_cases.PROGRAM)
    usage = subprocess.run([t.program], capture_output=True).stderr.decode()
    for words in (["--page"], ["--page", "rule"], ["--page", "rule", "lines", "-", "5", "x"], ["--page", "rule", "lines", "q"], ["rule", "lines", "--page"]):
        t.run("arguments %r" % words, words, "", usage)
    readings, t.program = t.program, fields
    usage = subprocess.run([fields], capture_output=True).stderr.decode()
    for words in (["--page"], ["--page", "rule"], ["-f", "s", "--page", "rule", "lines"], ["--page", "--page", "rule", "lines"], ["--page", "-q", "rule", "lines"]):
        t.run("fields, arguments %r" % words, words, "", usage)
    t.run("fields, no such name", ["--page", "rule", "lines", "tank"], "", "fields: the rule has no name tank\n")
    t.program = readings
    for program in (readings, fields):
        name = Path(program).name
        t.program = program
        t.run(name + ", no lines file", ["--page", "rule", "none"], "", name + ": none: No such file or directory\n")
        piped = subprocess.run([program, "--page", "rule", "/dev/stdin"], input=b"x\n", capture_output=True)
        t.same(name + ", lines through a pipe", [piped.stdout, piped.stderr.decode()], [b"", name + ": a page needs lines that can be read twice: Illegal seek\n"])
        Path("lines").write_bytes(b"x<\n" * 25000)
        for place, output, _ in unwritable.OUTPUTS:
            with output() as out:
                ran = subprocess.run([program, "--page", "rule", "lines"], stdin=subprocess.DEVNULL, stdout=out, stderr=subprocess.PIPE)
            message = {"readings": "readings: the report could not be written\n", "fields": "fields: the page could not be written\n"}[name]
            t.same("%s, %s" % (name, place), [ran.stderr.decode()], [message])
    t.program = readings


def progress(t):
    """After each 10,000 lines, to a terminal, unless the report itself goes there."""
    Path("rule").write_bytes(b"^(?<n>a)$")
    Path("lines").write_bytes(b"a\n" * 25000)
    steps = {"": [" lines"], "--page": [" lines counted", " lines shown"]}
    for program in (t.program, str(fields_cases.PROGRAM)):
        for option, ends in steps.items():
            words = [program, *filter(None, [option]), "rule", "lines"]
            name = "progress, %s %s" % (Path(program).name, option)
            expected = "".join("%s: %d%s\n" % (Path(program).name, n, end) for end in ends for n in (10000, 20000))
            with open("out", "wb") as out:
                t.same(name + ", a file", t.at_terminal(name, words, out), expected)
            plain = subprocess.run(words, capture_output=True, stdin=subprocess.DEVNULL)
            t.same(name + ", no terminal", plain.stderr.decode(), "")
            t.same(name + ", the same is written", [Path("out").read_bytes() == plain.stdout], [True])
            t.same(name + ", all to the terminal", [t.at_terminal(name, words, None) == plain.stdout.decode("latin1")], [True])


if __name__ == "__main__":
    main()
