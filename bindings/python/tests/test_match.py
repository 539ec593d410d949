"""Searches and matches."""
import array
import copy
import mmap
import pickle
import tempfile
import unittest

import terravisco
from terravisco import _limits
from terravisco._library import Row
from terravisco._rule import Match

LITRES = r"^tank (?<tank>\w+):(?: (?<litres>\d+) L)?( late)?$"


class Searches(unittest.TestCase):
    def test_the_leftmost_first(self):
        # 01, "Checked readings" and "Traps of this trade"
        for rule, line, span, groups, steps in (
            ("", "", (0, 0), (), 1),
            ("a", "a", (0, 1), (), 2),
            ("a|b", "b", (0, 1), (), 5),
            ("a*", "aa", (0, 2), (), 7),
            (r"(\d+),(\d+)", "1,5", (0, 3), ("1", "5"), 14),
            ("(a?)*", "b", (0, 0), ("",), 7),
            ("a|ab", "ab", (0, 1), (), None),
        ):
            with self.subTest(rule):
                match = terravisco.compile(rule).search(line)
                self.assertEqual((match.span(), match.groups()), (span, groups))
                self.assertIn(steps, (None, match.steps))

    def test_not_matched(self):
        self.assertIsNone(terravisco.compile("a").search("b"))
        self.assertIsNone(terravisco.compile(".").search("\n"))

    def test_exhausted_is_never_none(self):
        """01: `a*` on `aa` with budget 6 is exhausted at 0."""
        with self.assertRaises(terravisco.Exhausted) as raised:
            terravisco.compile("a*", budget=6).search("aa")
        error = raised.exception
        self.assertEqual((error.start, error.steps, error.found), (0, 6, ()))
        self.assertEqual(str(error), "exhausted at 0, after 6 steps in all and 0 found")
        self.assertIsInstance(error, terravisco.Incomplete)
        again = pickle.loads(pickle.dumps(error))
        self.assertEqual((again.start, again.steps), (0, 6))

    def test_exhausted_at_a_later_start(self):
        # 02 H7: `a{3}` on `baaa`, budget 5
        with self.assertRaises(terravisco.Exhausted) as raised:
            terravisco.compile("a{3}", budget=5).search("baaa")
        self.assertEqual((raised.exception.start, raised.exception.steps), (1, 7))

    def test_catastrophes_end(self):
        with self.assertRaises(terravisco.Exhausted):
            terravisco.compile("^(?:a*)*b", budget=1000).search("a" * 60)

    def test_long_lines(self):
        rule = terravisco.compile(b"b$")
        self.assertEqual(rule.search(b"a" * 65_534 + b"b").span(), (65_534, 65_535))
        with self.assertRaises(terravisco.LineError) as raised:
            rule.search(b"a" * 65_535 + b"b")
        self.assertEqual((raised.exception.number, raised.exception.place), (2, 0))
        self.assertEqual(str(raised.exception), "the line is refused, 2 at 0: the line has more than 65535 bytes")

    def test_a_rule_can_be_used_after_an_error(self):
        rule = terravisco.compile(b"(?:a|ab)+c", budget=100)
        for _ in range(3):
            with self.assertRaises(terravisco.Exhausted):
                rule.search(b"ab" * 200)
            with self.assertRaises(terravisco.LineError):
                rule.search(b"a" * 70_000)
            self.assertEqual(rule.search(b"xabac").span(), (1, 5))
            self.assertIsNone(rule.search(b"b"))

    def test_mixed_kinds(self):
        for rule, line in (("a", b"a"), (b"a", "a"), ("a", bytearray(b"a"))):
            with self.subTest(type(rule)), self.assertRaises(TypeError):
                terravisco.compile(rule).search(line)

    def test_odd_lines(self):
        for line in (None, 5, ["a"]):
            with self.subTest(line), self.assertRaises(TypeError):
                terravisco.compile(b"a").search(line)
            with self.subTest(line), self.assertRaises(TypeError):
                terravisco.compile("a").search(line)

    def test_bytes_like_lines(self):
        rule = terravisco.compile(b"b+")
        for line in (bytearray(b"abb"), memoryview(b"abb"), memoryview(b"xabb")[1:], memoryview(b"a.b.b.")[::2], array.array("B", b"abb")):
            with self.subTest(type(line)):
                match = rule.search(line)
                self.assertEqual((match.span(), match.group(), match.line), ((1, 3), b"bb", b"abb"))
        with tempfile.TemporaryFile() as file:
            file.write(b"abb")
            file.flush()
            with mmap.mmap(file.fileno(), 0, access=mmap.ACCESS_READ) as line:
                self.assertEqual(rule.search(line).group(), b"bb")

    def test_a_line_that_is_changed_later(self):
        line = bytearray(b"ab")
        match = terravisco.compile(b"b").search(line)
        line[:] = b"xyz"
        self.assertEqual(match.group(), b"b")


class Matches(unittest.TestCase):
    def setUp(self):
        self.match = terravisco.compile(LITRES).search("tank A1:")
        self.full = terravisco.compile(LITRES).search("tank A1: 820 L")

    def test_group(self):
        self.assertEqual(self.full.group(), "tank A1: 820 L")
        self.assertEqual(self.full.group(0), "tank A1: 820 L")
        self.assertEqual(self.full.group(1), "A1")
        self.assertEqual(self.full.group("litres"), "820")
        self.assertEqual(self.full.group("litres", 1, 3), ("820", "A1", None))
        self.assertIsNone(self.match.group("litres"))

    def test_item(self):
        self.assertEqual((self.full[0], self.full[2], self.full["tank"], self.full[3]), ("tank A1: 820 L", "820", "A1", None))

    def test_groups(self):
        self.assertEqual(self.match.groups(), ("A1", None, None))
        self.assertEqual(self.match.groups("-"), ("A1", "-", "-"))

    def test_groupdict(self):
        self.assertEqual(self.full.groupdict(), {"tank": "A1", "litres": "820"})
        self.assertEqual(self.match.groupdict(), {"tank": "A1", "litres": None})
        self.assertEqual(self.match.groupdict("-"), {"tank": "A1", "litres": "-"})

    def test_spans(self):
        self.assertEqual((self.full.span(), self.full.span(1), self.full.span("litres")), ((0, 14), (5, 7), (9, 12)))
        self.assertEqual((self.full.start(1), self.full.end(1), self.full.start(), self.full.end()), (5, 7, 0, 14))
        self.assertEqual((self.match.span(2), self.match.start("litres"), self.match.end(2)), ((-1, -1), -1, -1))

    def test_an_empty_group_is_set(self):
        match = terravisco.compile("a()(b)?").search("xa")
        self.assertEqual((match.groups(), match.span(1), match.span(2)), (("", None), (2, 2), (-1, -1)))

    def test_no_such_group(self):
        for group in (4, -1, 64, 65, 2**40, "x", "", "Litres", b"litres"):
            with self.subTest(group), self.assertRaises((IndexError, TypeError)):
                self.full.group(group)
        for group in (1.0, None):
            with self.subTest(group), self.assertRaises(TypeError):
                self.full.span(group)

    def test_bytes(self):
        match = terravisco.compile(LITRES.encode()).search(b"tank A1: 820 L")
        self.assertEqual((match.group(1), match["litres"], match.groupdict()), (b"A1", b"820", {"tank": b"A1", "litres": b"820"}))

    def test_shown(self):
        self.assertEqual(repr(terravisco.compile("b+").search("abb")), "<terravisco.Match span=(1, 3) match='bb'>")

    def test_copies(self):
        for again in (copy.copy(self.full), pickle.loads(pickle.dumps(self.full))):
            self.assertEqual((again.groupdict(), again.span(), again.steps), (self.full.groupdict(), self.full.span(), self.full.steps))

    def test_many_groups(self):
        match = terravisco.compile("(a)?" * 63 + "(b)").search("aab")
        self.assertEqual(match.groups(), ("a", "a", *[None] * 61, "b"))
        self.assertEqual(match.span(64), (2, 3))

    def test_a_match_stays_as_it_was(self):
        """What a rule answers later changes no match that it answered before."""
        rule = terravisco.compile(r"(\d+)")
        matches = [rule.search("x" * number + "7") for number in range(20)]
        self.assertEqual([match.span(1) for match in matches], [(number, number + 1) for number in range(20)])


class Fields(unittest.TestCase):
    def test_of_a_line(self):
        rule = terravisco.compile(LITRES)
        self.assertEqual(rule.fields("tank 7: 820 L"), {"tank": "7", "litres": "820"})
        self.assertEqual(rule.fields("tank 7:", standing="600"), {"tank": "7", "litres": "600"})
        self.assertEqual(rule.fields("tank 7:"), {"tank": "7", "litres": ""})
        self.assertIsNone(rule.fields("hall 3", standing="600"))

    def test_an_empty_field_is_not_the_standing_text(self):
        self.assertEqual(terravisco.compile("(?<n>)a").fields("a", standing="600"), {"n": ""})

    def test_exhausted(self):
        with self.assertRaises(terravisco.Exhausted):
            terravisco.compile("(?<n>a*)", budget=6).fields("aa")

    def test_bytes(self):
        self.assertEqual(terravisco.compile(LITRES.encode()).fields(b"tank 7:", standing=b"600"), {"tank": b"7", "litres": b"600"})

    def test_mixed_kinds(self):
        with self.assertRaises(TypeError):
            terravisco.compile(LITRES).fields("tank 7:", standing=b"600")

    def test_one_field(self):
        match = terravisco.compile(LITRES).search("tank 7:")
        self.assertEqual((match.field("tank"), match.field("litres", "600"), match.field("litres")), ("7", "600", ""))
        for name in ("x", "", "Tank", 1, b"tank"):
            with self.subTest(name), self.assertRaises(IndexError):
                match.field(name)

    def test_signs_above_ascii(self):
        self.assertEqual(terravisco.compile("(?<n>.)(?<m>x)?$").fields("né", standing="ü"), {"n": "é", "m": "ü"})

    def test_a_row_that_breaks_its_rules(self):
        """02 e): it counts as not matched, and the field is the standing text's empty beginning."""
        rule = terravisco.compile("(?<n>a)(b)?")
        good = [0, 1, 0, 1, *[_limits.UNSET] * (_limits.ROW - 4)]
        self.assertEqual(Match(rule, "ab", bytes(Row(*good)), 0).field("n", "600"), "a")
        for at, value in ((0, 2), (1, 3), (2, 2), (3, 3), (3, _limits.UNSET), (2, _limits.UNSET), (5, 0), (_limits.ROW - 1, 0)):
            with self.subTest(at=at, value=value):
                row = list(good)
                row[at] = value
                self.assertEqual(Match(rule, "ab", bytes(Row(*row)), 0).field("n", "600"), "")
