"""Rules that are made: refusals with their places and sentences, flags, budgets, kinds of text."""
import copy
import pickle
import re
import unittest

import terravisco
from terravisco import RuleError

# The number, a rule, its flags and the place, from the tables of documents 01 and 02 and of the guide.
REFUSED = [
    (1, "a" * 1001, 0, 0),
    (3, "a", 32, 0),
    (3, "(", 2**31, 0),
    (10, "ab\\", 0, 2),
    (11, r"\q", 0, 0),
    (11, r"[\A]", 0, 1),
    (12, r"\x4", 0, 0),
    (12, r"a\g{}", 0, 1),
    (13, r"(a)\2", 0, 3),
    (13, r"(?<a>a)\k<b>", 0, 7),
    (14, "[abc", 0, 0),
    (15, "[z-a]", 0, 1),
    (15, r"[\d-z]", 0, 1),
    (16, "[[:digits:]]", 0, 1),
    (17, "*a", 0, 0),
    (17, "a|+", 0, 2),
    (18, "a{,3}", 0, 1),
    (18, "a{256}", 0, 1),
    (18, "a{2,1}", 0, 1),
    (19, "a**", 0, 2),
    (20, "(ab", 0, 0),
    (21, "ab)", 0, 2),
    (22, "b(?a)", 0, 1),
    (22, "(?P<a>b)", 0, 0),
    (23, "()" * 65, 0, 128),
    (24, "(" * 25 + ")" * 25, 0, 24),
    (25, "(?<1st>a)", 0, 0),
    (25, r"a\k<a", 0, 1),
    (26, "(?<n>a)|(?<n>b)", 0, 8),
    (27, r"(\w)\1", 16, 4),
    (28, r"(\d*)*", 16, 5),
    (29, "[A-z]", 16, 1),
]


class Refusals(unittest.TestCase):
    def test_each(self):
        for number, rule, flags, place in REFUSED:
            for kind in (rule, rule.encode()):
                with self.subTest(rule=rule[:20], flags=flags, kind=type(kind)):
                    with self.assertRaises(RuleError) as raised:
                        terravisco.compile(kind, flags)
                    error = raised.exception
                    self.assertEqual((error.number, error.place, error.rule), (number, place, rule.encode()))
                    self.assertIsInstance(error, ValueError)
                    self.assertIn(f"{number} at {place}: {error.sentence}", str(error))

    def test_every_number_of_a_rule_is_tried(self):
        self.assertEqual({number for number, *_ in REFUSED} | {2, 4}, {1, 2, 3, 4, *range(10, 30)})

    def test_what_is_shown(self):
        for rule, flags, text in (
            ("a**", 0, "the rule is refused, 19 at 2: a repeat of a repeat\n  a**\n    ^"),
            ("(", 0, "the rule is refused, 20 at 0: this bracket is not closed by )\n  (\n  ^"),
            # a byte that cannot be shown has one column too
            ("\t\xff)", 0, "the rule is refused, 21 at 2: a ) that closes nothing\n  ..)\n    ^"),
            # a rule of several lines is shown in its lines
            ("a  # one\n  b **\n  c", 8, "the rule is refused, 19 at 14: a repeat of a repeat\n  a  # one\n    b **\n       ^\n    c"),
            # a longer one in rows of 64
            ("a" * 70 + "\\", 0, "the rule is refused, 10 at 70: a backslash with nothing behind it\n  %s\n  aaaaaa\\\n        ^" % ("a" * 64)),
            ("a" * 63 + "\\", 0, "the rule is refused, 10 at 63: a backslash with nothing behind it\n  %s\\\n%s^" % ("a" * 63, " " * 65)),
            ("a" * 1001, 0, "the rule is refused, 1 at 0: the rule has more than 1000 bytes"),
        ):
            with self.subTest(rule=rule[:20]):
                with self.assertRaises(RuleError) as raised:
                    terravisco.compile(rule, flags)
                self.assertEqual(str(raised.exception), text)

    def test_the_first_of_several(self):
        """1, 3 and 4 come before what is wrong with the rule itself, in that order."""
        for rule, flags, budget, number in (("(" * 1001, 32, 100_001, 1), ("(", 32, 100_001, 3), ("(", 0, 100_001, 4), ("(", 0, 100_000, 20)):
            with self.subTest(number):
                with self.assertRaises(RuleError) as raised:
                    terravisco.compile(rule, flags, budget)
                self.assertEqual(raised.exception.number, number)

    def test_pickled(self):
        with self.assertRaises(RuleError) as raised:
            terravisco.compile("a**")
        again = pickle.loads(pickle.dumps(raised.exception))
        self.assertEqual((again.number, again.place, str(again)), (19, 2, str(raised.exception)))


class Flags(unittest.TestCase):
    def test_numbers_and_names(self):
        for names, number in (("S DOTALL", 1), ("M MULTILINE", 2), ("I IGNORECASE", 4), ("X VERBOSE", 8), ("D DEPOT", 16)):
            for name in names.split():
                with self.subTest(name):
                    self.assertEqual(getattr(terravisco, name), number)

    def test_letters(self):
        for letters, number in (("", 0), ("-", 0), ("s", 1), ("m", 2), ("i", 4), ("x", 8), ("D", 16), ("xi", 12), ("smixD", 31), ("ii", 4)):
            with self.subTest(letters):
                self.assertEqual(terravisco.compile("a", letters).flags, number)

    def test_what_is_no_letter(self):
        for letters in ("d", "q", "i x", "--", "1", "I"):
            with self.subTest(letters), self.assertRaises(ValueError):
                terravisco.compile("a", letters)

    def test_what_they_do(self):
        for rule, flags, line, span in (
            ("a.b", "s", "a\nb", (0, 3)), ("^b", "m", "a\nb", (2, 3)), ("tank", "i", "TANK", (0, 4)), ("a  b # c", "x", "ab", (0, 2)),
        ):
            with self.subTest(flags):
                self.assertIsNone(terravisco.compile(rule).search(line))
                self.assertEqual(terravisco.compile(rule, flags).search(line).span(), span)

    def test_all_settings(self):
        for flags in range(32):
            with self.subTest(flags):
                self.assertEqual(int(terravisco.compile("a", flags).flags), flags)

    def test_those_of_re_are_not_taken(self):
        """`re.I` is 2, which is `M` here."""
        for flags in (re.I, re.M, re.S, re.X, re.A, re.I | re.M):
            with self.subTest(flags), self.assertRaises(TypeError):
                terravisco.compile("a", flags)

    def test_odd_ones(self):
        for flags, kind in ((-1, ValueError), (2.0, TypeError), (None, TypeError), (2**32, RuleError), (2**64 + 1, RuleError)):
            with self.subTest(flags), self.assertRaises(kind):
                terravisco.compile("a", flags)


class Budgets(unittest.TestCase):
    def test_limits(self):
        self.assertEqual(terravisco.compile("a", budget=100_000).search("a").span(), (0, 1))
        for budget in (100_001, 2**32, 2**32 + 5, 2**70):
            with self.subTest(budget), self.assertRaises(RuleError) as raised:
                terravisco.compile("a", budget=budget)
            self.assertEqual((raised.exception.number, raised.exception.place), (4, 0))

    def test_none_at_all(self):
        with self.assertRaises(terravisco.Exhausted) as raised:
            terravisco.compile("", budget=0).search("")
        self.assertEqual((raised.exception.start, raised.exception.steps), (0, 0))

    def test_odd_ones(self):
        for budget, kind in ((-1, ValueError), (1.5, TypeError), ("7", TypeError)):
            with self.subTest(budget), self.assertRaises(kind):
                terravisco.compile("a", budget=budget)


class Kinds(unittest.TestCase):
    def test_odd_rules(self):
        for rule in (None, 5, ["a"], object()):
            with self.subTest(rule), self.assertRaises(TypeError):
                terravisco.compile(rule)

    def test_bytes_like(self):
        for rule in (bytearray(b"a+"), memoryview(b"a+")):
            with self.subTest(type(rule)):
                made = terravisco.compile(rule)
                self.assertEqual((made.pattern, made.search(b"xaa").span()), (b"a+", (1, 3)))

    def test_a_rule_that_is_changed_later_is_the_old_one(self):
        rule = bytearray(b"a")
        made = terravisco.compile(rule)
        rule[:] = b"("
        self.assertEqual(made.search(b"a").span(), (0, 1))

    def test_a_sign_is_a_byte(self):
        """Latin-1: places in a `str` are places in its bytes, and a class has its signs."""
        made = terravisco.compile("[é-ü]+.$")
        self.assertEqual(made.search("caféü°").span(), (3, 6))
        self.assertEqual(terravisco.compile(b"[\xe9-\xfc]+.$").search("caféü°".encode("latin-1")).span(), (3, 6))

    def test_signs_that_are_no_byte(self):
        with self.assertRaises(UnicodeEncodeError):
            terravisco.compile("€")
        with self.assertRaises(UnicodeEncodeError):
            terravisco.compile("a").search("5 €")

    def test_no_sign_is_halved(self):
        """In UTF-8 both signs would begin with the same byte."""
        self.assertIsNone(terravisco.compile("[é]").search("ü"))

    def test_letters_are_the_ascii_ones(self):
        self.assertIsNone(terravisco.compile(r"\w").search("é"))

    def test_every_byte(self):
        for byte in range(256):
            with self.subTest(byte):
                rule = b"^\\x%02x$" % byte
                self.assertEqual(terravisco.compile(rule, "s").search(bytes([byte])).group(), bytes([byte]))
                self.assertEqual(terravisco.compile(rule.decode(), "s").search(chr(byte)).group(), chr(byte))

    def test_nul(self):
        """A byte 00 ends neither a rule nor a line."""
        self.assertEqual(terravisco.compile(b"\0a").search(b"b\0a\0").span(), (1, 3))
        self.assertEqual(terravisco.compile(b"a\0(\0)").groups, 1)


class Rules(unittest.TestCase):
    def test_what_a_rule_tells(self):
        rule = terravisco.compile(r"(?<a>x)(y)(?<b>z)?", "i", 500)
        self.assertEqual((rule.pattern, rule.flags, rule.budget), (r"(?<a>x)(y)(?<b>z)?", terravisco.I, 500))
        self.assertEqual((rule.groups, dict(rule.groupindex)), (3, {"a": 1, "b": 3}))
        with self.assertRaises(TypeError):
            rule.groupindex["c"] = 1

    def test_groups(self):
        for rule, groups in (("", 0), ("(?:a)", 0), ("((a)(b))", 3), ("()" * 64, 64), (r"\(a\)[(]", 0)):
            with self.subTest(rule[:10]):
                self.assertEqual(terravisco.compile(rule).groups, groups)

    def test_names(self):
        longest = "abcdefghijklmnop"
        self.assertEqual(dict(terravisco.compile(f"()(?<{longest}>)(?<_>)(?<A1>)").groupindex), {longest: 2, "_": 3, "A1": 4})
        rule = terravisco.compile("".join(f"(?<n{number}>)" for number in range(64)))
        self.assertEqual(dict(rule.groupindex), {f"n{number}": number + 1 for number in range(64)})

    def test_the_longest(self):
        self.assertEqual(terravisco.compile("a" * 1000).search("b" + "a" * 1000).span(), (1, 1001))

    def test_the_default_budget(self):
        self.assertEqual(terravisco.compile("a").budget, terravisco.BUDGET)

    def test_shown(self):
        self.assertEqual(repr(terravisco.compile("a", "i", 5)), "terravisco.compile('a', flags=4, budget=5)")

    def test_copies(self):
        rule = terravisco.compile(b"(?<n>a)", "x", 77)
        for again in (copy.copy(rule), copy.deepcopy(rule), pickle.loads(pickle.dumps(rule))):
            self.assertIsNot(again, rule)
            self.assertIsNot(again._areas, rule._areas)
            self.assertEqual((again.pattern, again.flags, again.budget, again.groupindex["n"]), (b"(?<n>a)", terravisco.X, 77, 1))
            self.assertEqual(again.search(b"ba").span("n"), (1, 2))
