"""Successive matches and readings, and answers that are cut off."""
import pickle
import unittest

import terravisco

COMMA = r"^(?:(\d{1,3},\d{3})|(\d+,\d+)) L$"


def spans(matches):
    return [match.span() for match in matches]


class Successive(unittest.TestCase):
    def test_the_guides(self):
        for rule, line, found in (
            (r"(\d+) (L|kg)", "820 L, 25 kg", [(0, 5), (7, 12)]),
            (r"\d*", "12 L", [(0, 2), (2, 2), (3, 3), (4, 4)]),
            (r"\d+", "12 L", [(0, 2)]),
            ("a??", "a", [(0, 0), (0, 1), (1, 1)]),
            ("", "", [(0, 0)]),
            ("x", "abc", []),
        ):
            with self.subTest(rule):
                self.assertEqual(spans(terravisco.compile(rule).finditer(line)), found)

    def test_groups_of_each(self):
        found = terravisco.compile(r"(?<amount>\d+) (?<unit>L|kg)").finditer("820 L, 25 kg")
        self.assertEqual([match.groupdict() for match in found], [{"amount": "820", "unit": "L"}, {"amount": "25", "unit": "kg"}])

    def test_exhausted_behind_what_was_found(self):
        """02 G4: `|a{3}` on `a` with budget 3 has the row 0-0, and is then exhausted at 0 with 5 steps."""
        found, matches = terravisco.compile("|a{3}", budget=3).finditer("a"), []
        with self.assertRaises(terravisco.Exhausted) as raised:
            for match in found:
                matches.append(match)
        self.assertEqual(spans(matches), [(0, 0)])
        error = raised.exception
        self.assertEqual((error.start, error.steps, spans(error.found)), (0, 5, [(0, 0)]))

    def test_a_list_of_it_cannot_overlook_it(self):
        with self.assertRaises(terravisco.Exhausted):
            list(terravisco.compile("|a{3}", budget=3).finditer("a"))

    def test_any_number(self):
        """There is always room: as many as a line can have."""
        for rule, length, number in (("a", 15, 15), ("a", 16, 16), ("a", 17, 17), ("", 64, 65), ("a??", 500, 1001), ("a", 65_535, 65_535)):
            with self.subTest(rule=rule, length=length):
                found = list(terravisco.compile(rule).finditer("a" * length))
                self.assertEqual(len(found), number)
                self.assertEqual(found[-1].end(), length)

    def test_mistakes_are_told_at_the_call(self):
        for line in (5, "a"):
            with self.subTest(line), self.assertRaises(TypeError):
                terravisco.compile(b"a").finditer(line)
        with self.assertRaises(terravisco.LineError):
            terravisco.compile(b"a").finditer(b"a" * 65_536)


class Readings(unittest.TestCase):
    def test_the_comma(self):
        readings = terravisco.compile(COMMA).readings("1,500 L")
        self.assertEqual([(reading.span(), reading.groups()) for reading in readings], [((0, 7), ("1,500", None)), ((0, 7), (None, "1,500"))])

    def test_the_guides(self):
        for rule, line, found in ((r"^(\d+)$", "12", [(0, 2)]), (r"(\d+)", "12", [(0, 2), (0, 1), (1, 2)]), ("x", "abc", [])):
            with self.subTest(rule):
                self.assertEqual(spans(terravisco.compile(rule).readings(line)), found)

    def test_captures_that_differ(self):
        """01: `(a?)*` on `b`, listed: 0-0 with 0-0, 0-0 unset, 1-1 with 1-1, 1-1 unset; 16 steps."""
        readings = terravisco.compile("(a?)*").readings("b")
        found = [(reading.span(), reading.span(1)) for reading in readings]
        self.assertEqual(found, [((0, 0), (0, 0)), ((0, 0), (-1, -1)), ((1, 1), (1, 1)), ((1, 1), (-1, -1))])
        self.assertEqual({reading.steps for reading in readings}, {16})

    def test_full(self):
        """01: on the first new reading with no row left."""
        rule = terravisco.compile(COMMA)
        self.assertEqual(len(rule.readings("1,500 L", most=2)), 2)
        with self.assertRaises(terravisco.Full) as raised:
            rule.readings("1,500 L", most=1)
        self.assertEqual([reading.groups() for reading in raised.exception.found], [("1,500", None)])
        self.assertEqual(str(raised.exception), "there are more than the 1 readings asked for")
        self.assertEqual(len(pickle.loads(pickle.dumps(raised.exception)).found), 1)

    def test_exhausted(self):
        """docs/DECISIONS.md: `a*` on `aa` with budget 8 is exhausted when it has two readings or more."""
        with self.assertRaises(terravisco.Exhausted) as raised:
            terravisco.compile("a*", budget=8).readings("aa")
        self.assertEqual((raised.exception.start, spans(raised.exception.found)), (0, [(0, 2), (0, 1)]))

    def test_any_number(self):
        """n(n+1)/2 stretches of n letters, whatever room is made for them on the way."""
        for length in (5, 6, 10, 11, 40):
            number = length * (length + 1) // 2
            with self.subTest(length):
                self.assertEqual(len(terravisco.compile("a+").readings("a" * length, most=number)), number)
                with self.assertRaises(terravisco.Full) as raised:
                    terravisco.compile("a+").readings("a" * length, most=number - 1)
                self.assertEqual(len(raised.exception.found), number - 1)

    def test_the_first_is_the_match(self):
        for rule, line in ((COMMA, "1,500 L"), ("a*?b?", "aab"), (r"(\w+) ?(\w*)", "milk tank")):
            with self.subTest(rule):
                made = terravisco.compile(rule)
                first, match = made.readings(line)[0], made.search(line)
                self.assertEqual((first.span(), first.groups()), (match.span(), match.groups()))

    def test_none_asked_for(self):
        for most in (0, -1):
            with self.subTest(most), self.assertRaises(ValueError):
                terravisco.compile("a").readings("a", most=most)
