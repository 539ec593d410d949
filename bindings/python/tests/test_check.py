"""Proposed readings: what `check` says of them. The examples of document 02 m) are in harness/data/checks.txt, which test_documents.py runs."""
import itertools
import unittest

import terravisco

SPLIT = r"(\d+)*x|(?<all>.*)"
DIGITS = "12345678901234567890"
# From 0 on, the second branch, and twenty rounds of its repeat.
WHOLE = bytes([0, 0, 1, *[1] * 20, 0])


class Checks(unittest.TestCase):
    def test_what_was_exhausted(self):
        """A line that is exhausted at 1,000 steps is checked within 45."""
        rule = terravisco.compile(SPLIT, budget=1_000)
        with self.assertRaises(terravisco.Exhausted):
            rule.search(DIGITS)
        reading = rule.check(DIGITS, WHOLE)
        self.assertEqual((reading.span(), reading.group(1), reading["all"], reading.steps), ((0, 20), None, DIGITS, 45))
        self.assertEqual(reading.field("all"), DIGITS)

    def test_another_than_the_match(self):
        rule = terravisco.compile("a|ab")
        self.assertEqual((rule.search("ab").span(), rule.check("ab", b"\0\0\1").span()), ((0, 1), (0, 2)))

    def test_no_reading(self):
        rule = terravisco.compile("a*")
        for proposal in (b"", b"\0", b"\0\0", b"\2\0", b"\0\1\0", b"\0\0\2", b"\0\0\1", b"\0\0\1\1\0", b"\0\0\0\0", b"\xff\xff\0"):
            with self.subTest(proposal):
                self.assertIsNone(rule.check("a", proposal))

    def test_exhausted(self):
        rule = terravisco.compile(SPLIT, budget=44)
        for budget in (None, 44, 1, 0):
            with self.subTest(budget), self.assertRaises(terravisco.Exhausted) as raised:
                rule.check(DIGITS, WHOLE, budget)
            steps = 44 if budget is None else budget
            self.assertEqual((raised.exception.start, raised.exception.steps, raised.exception.found), (0, steps, ()))

    def test_a_budget_of_its_own(self):
        """It may be smaller or larger than the rule's, which stays as it is."""
        for own in (0, 44, 45, 100_000):
            rule = terravisco.compile(SPLIT, budget=own)
            for budget in (45, 46, 1_000, 100_000):
                with self.subTest(own=own, budget=budget):
                    self.assertEqual(rule.check(DIGITS, WHOLE, budget).steps, 45)
            self.assertEqual(rule.budget, own)
        with self.assertRaises(terravisco.RuleError) as raised:
            rule.check(DIGITS, WHOLE, 100_001)
        self.assertEqual(raised.exception.number, 4)
        for budget in (-1, "1", 1.5):
            with self.subTest(budget), self.assertRaises((ValueError, TypeError)):
                rule.check(DIGITS, WHOLE, budget)

    def test_refused(self):
        """02 m): 35 for what looks ahead or holds on, then 36 for more than 256 branches; such a rule can be matched all the same."""
        for text, number, place in (("ab(?=c)", 35, 2), ("a*+", 35, 2), (r"a\R", 35, 1), ("(?>a)", 35, 0), ("|" * 256, 36, 255), ("|" * 256 + "a++", 35, 258)):
            rule = terravisco.compile(text)
            with self.subTest(text), self.assertRaises(terravisco.RuleError) as raised:
                rule.check("abc", b"\0\0")
            self.assertEqual((raised.exception.number, raised.exception.place), (number, place))
            rule.search("abc")
        with self.assertRaises(terravisco.RuleError) as raised:
            terravisco.compile("ab(?=c)").check("abc", b"\0\0")
        self.assertEqual(str(raised.exception), "the rule is refused, 35 at 2: this looks ahead or holds on, which a check does not follow\n  ab(?=c)\n    ^")
        with self.assertRaises(terravisco.LineError):
            terravisco.compile("a").check("a" * 65_536, b"\0\0")
        self.assertEqual(terravisco.compile("|" * 255).check("", b"\0\0\xff").span(), (0, 0))

    def test_kinds_of_text(self):
        """Rule and line are of one kind, and a proposal is bytes whatever that is."""
        for proposal in (b"\0\0\1\0", bytearray(b"\0\0\1\0"), memoryview(b"\0\0\1\0")):
            with self.subTest(type(proposal)):
                self.assertEqual(terravisco.compile("a*").check("a", proposal)[0], "a")
                self.assertEqual(terravisco.compile(b"a*").check(b"a", proposal)[0], b"a")
        with self.assertRaises(TypeError):
            terravisco.compile("a*").check("a", "\0\0\1\0")
        with self.assertRaises(TypeError):
            terravisco.compile("a*").check(b"a", b"\0\0\1\0")

    def test_every_reading_of_a_listing(self):
        """Each is made by some choices, and nothing else is: all proposals of up to six choices are tried."""
        for text, line in (("(a|ab)(b?)", "ab"), ("(a?)*", "b"), (r"(\w)+?", "ab"), ("a{1,2}|b??", "aab"), (r"(a*)\1", "aa")):
            rule = terravisco.compile(text)
            listed = {(reading.span(), reading.groups()) for reading in rule.readings(line)}
            made = set()
            for start in range(len(line) + 1):
                for number in range(7):
                    for choices in itertools.product((0, 1), repeat=number):
                        reading = rule.check(line, bytes([start, 0, *choices]), 100)
                        if reading is not None:
                            made.add((reading.span(), reading.groups()))
            with self.subTest(text):
                self.assertEqual(made, listed)
