"""The examples of the documents and the guide that are written down in harness/data, each as `bytes` and as `str`.

Examples that lend areas of other lengths ask for what a rule, which owns its areas, does not do: they are for the interface in C, and are counted. So are the
files of lookups and cards, which hand in indices, rows and areas by themselves; test_match.py and test_cards.py have such cases.
"""
import re
import unittest
from pathlib import Path

import terravisco

DATA = Path(__file__).resolve().parents[3] / "harness" / "data"
FILES = ("source-examples.txt", "checked-readings.txt", "guide-examples.txt", "explanations.txt", "scans.txt", "batches.txt", "checks.txt")
OTHER_AREAS = {"numbers", "index", "parts", "marks"}
# a word that stands for what a line is told
WORDS = {"matched": "matched", "not matched": "not matched", "exhausted": "exhausted", "too long": "refused 2"}


def unescaped(text):
    named = {"n": b"\n", "r": b"\r", "t": b"\t", "\\": b"\\"}

    def meant(piece):
        if piece.startswith("\\x"):
            return bytes([int(piece[2:], 16)])
        return named[piece[1:]] if piece.startswith("\\") else piece.encode()

    return b"".join(meant(piece) for piece in re.findall(r"\\x[0-9A-Fa-f]{2}|\\.|[^\\]", text))


class Example:
    """What one example asks and expects; fields that stand more than once are lists."""

    def __init__(self, name, lines):
        pairs = [(line.split(" ", 1) + [""])[:2] for line in lines]
        self.name, self.fields = name, dict(pairs)
        self.expected = [value for field, value in pairs if field == "expect"]
        self.lines = [value for field, value in pairs if field == "line"]
        self.rule = unescaped(self.fields["escaped"]) if "escaped" in self.fields else self.fields.get("rule", "").encode()
        self.subject = unescaped(self.fields.get("subject", ""))
        if "long" in self.fields:
            self.subject = self.subject.replace(b"~", b"a" * int(self.fields["long"]))
        if "bars" in self.fields:
            self.rule = self.rule.replace(b"~", b"|" * int(self.fields["bars"]))
        self.proposal = bytes.fromhex(self.fields.get("proposal", ""))
        flags = self.fields.get("flags", "")
        self.flags = int(flags) if flags.isdigit() else flags
        self.budget = int(self.fields.get("budget", 10_000))
        self.call = self.fields.get("call", "match")

    def lends_other_areas(self):
        # successive matches always get all the rows that they need
        return bool(OTHER_AREAS & set(self.fields)) or self.call == "scan" and "rows" in self.fields


def examples(file):
    for number, block in enumerate(re.split(r"\n(?:\s*\n|#.*\n)+", "\n" + (DATA / file).read_text()), 1):
        lines = [line for line in block.split("\n") if line and not line.startswith("#")]
        if lines:
            yield Example(f"{file} {number}", lines)


def row(match):
    """A match as the files write it: its span, and that of each group that is set."""
    spans = [(number, match.span(number)) for number in range(1, match.rule.groups + 1)]
    return "%d-%d" % match.span() + "".join(" %d:%d-%d" % (number, *span) for number, span in spans if span[0] >= 0)


def rows_and_ending(found, ask):
    """The rows that a call gives before it ends, and how it ends."""
    try:
        found += ask()
    except terravisco.Exhausted as error:
        return [*map(row, error.found), f"exhausted {error.start}"], error.steps
    except terravisco.Full as error:
        return [*map(row, error.found), "full"], error.steps
    return [*map(row, found), "complete"], found[0].steps if found else None


class Documents(unittest.TestCase):
    def test_each_file(self):
        every = left_out = 0
        for file in FILES:
            tried = 0
            for example in examples(file):
                every += 1
                if example.lends_other_areas():
                    left_out += 1
                    continue
                tried += 1
                for kind in (bytes, str):
                    with self.subTest(example.name, kind=kind, rule=example.rule[:40]):
                        self.hold(example, (lambda text: text) if kind is bytes else (lambda text: text.decode("latin-1")))
            with self.subTest(file):
                self.assertGreater(tried, 0)
        print(f"  {every} examples, of which {left_out} lend areas of other lengths and are left out")

    def hold(self, example, text):
        if example.expected and example.expected[-1].startswith("refused"):
            return self.hold_refusal(example, text)
        rule = terravisco.compile(text(example.rule), example.flags, example.budget)
        if "same" in example.fields:
            same = terravisco.compile(text(example.fields["same"].encode()), example.flags)
            every = [text(bytes([byte])) for byte in range(256)]
            self.assertEqual([bool(rule.search(sign)) for sign in every], [bool(same.search(sign)) for sign in every])
        else:
            getattr(self, "hold_" + example.call)(example, rule, text(example.subject))
        if "names" in example.fields:
            self.assertEqual(" ".join(f"{number}:{name}" for name, number in rule.groupindex.items()), example.fields["names"])

    def hold_refusal(self, example, text):
        with self.assertRaises(terravisco.Refused) as raised:
            rule = terravisco.compile(text(example.rule), example.flags, example.budget)
            if example.call == "check":
                rule.check(text(example.subject), example.proposal)
            else:
                rule.search(text(example.subject))
        self.assertEqual("refused %d at %d" % (raised.exception.number, raised.exception.place), example.expected[-1])

    def steps(self, example, steps):
        if steps is not None and "steps" in example.fields:
            self.assertEqual(steps, int(example.fields["steps"]))

    def hold_match(self, example, rule, line):
        try:
            match = rule.search(line)
        except terravisco.Exhausted as error:
            self.assertEqual([f"exhausted {error.start}"], example.expected)
            return self.steps(example, error.steps)
        self.assertEqual(["none" if match is None else row(match)], example.expected)
        self.steps(example, match and match.steps)

    def hold_check(self, example, rule, line):
        try:
            reading = rule.check(line, example.proposal)
        except terravisco.Exhausted as error:
            self.assertEqual([f"exhausted {error.start}"], example.expected)
            return self.steps(example, error.steps)
        self.assertEqual(["none" if reading is None else row(reading)], example.expected)
        self.steps(example, reading and reading.steps)

    def hold_list(self, example, rule, line):
        told, steps = rows_and_ending([], lambda: rule.readings(line, most=int(example.fields.get("rows", 10))))
        self.assertEqual(told, example.expected)
        self.steps(example, steps)

    def hold_scan(self, example, rule, line):
        told, steps = rows_and_ending([], lambda: list(rule.finditer(line)))
        self.assertEqual(told, example.expected)
        self.steps(example, steps)

    def hold_explain(self, example, rule, line):
        try:
            told = rule.explain(line)
        except terravisco.Exhausted as error:
            self.assertEqual([f"exhausted {error.start}"], example.expected)
            return self.steps(example, error.steps)
        self.assertEqual(["matched" if told is None else "none"], example.expected)
        if told is not None:
            for field, numbers in (("furthest", told.furthest), ("closest", told.closest), ("marked", told.wanted)):
                self.assertEqual(" ".join(map(str, numbers)), example.fields[field])
            self.steps(example, told.steps)

    def hold_batch(self, example, rule, buffer):
        self.assertEqual(example.expected, ["done"])
        told = []
        for answer in rule.match_lines(buffer):
            start = answer.word == "exhausted" and f" at {answer._answer.start}" or ""
            told.append(f"{WORDS[answer.word]}{start}, {answer.steps} steps" + (" " + row(answer.match) if answer.word == "matched" else ""))
        self.assertEqual(told, example.lines)
