"""A day's lines."""
import unittest

import terravisco
from terravisco import _rule

TANK = r"^tank (?<tank>\w+): (?<litres>\d+) L$"


def words(answers):
    return [answer.word for answer in answers]


class Lines(unittest.TestCase):
    def test_each_word(self):
        rule = terravisco.compile(b"^(?:a*)*b$", budget=1000)
        answers = list(rule.match_lines(b"aab\nc\n" + b"a" * 60 + b"\n" + b"a" * 65_536 + b"\nb"))
        self.assertEqual(words(answers), ["matched", "not matched", "exhausted", "too long", "matched"])
        self.assertEqual(answers[0].match.span(), (0, 3))
        self.assertIsNone(answers[1].match)
        self.assertEqual([answer.line[:3] for answer in answers], [b"aab", b"c", b"aaa", b"aaa", b"b"])
        self.assertEqual(answers[4].match.span(), (0, 1))

    def test_what_is_not_known_is_raised(self):
        rule = terravisco.compile(b"a{3}", budget=5)
        # 02 H7: `baaa` is exhausted at 1 with 7 steps, and `aaa` at 0 with 5
        first, second, third = rule.match_lines(b"baaa\naaa\n" + b"x" * 70_000)
        for answer, start, steps in ((first, 1, 7), (second, 0, 5)):
            with self.assertRaises(terravisco.Exhausted) as raised:
                answer.match
            self.assertEqual((raised.exception.start, raised.exception.steps, answer.steps), (start, steps, steps))
        with self.assertRaises(terravisco.LineError) as raised:
            third.match
        self.assertEqual((raised.exception.number, third.steps), (2, 0))

    def test_fields(self):
        answers = terravisco.compile(TANK).match_lines("tank A1: 820 L\nhall 3\ntank A2: 64 L\n")
        found = [answer.match and answer.match.fields() for answer in answers]
        self.assertEqual(found, [{"tank": "A1", "litres": "820"}, None, {"tank": "A2", "litres": "64"}])

    def test_which_lines_there_are(self):
        for buffer, lines in (
            ("", []), ("\n", [""]), ("a", ["a"]), ("a\n", ["a"]), ("\n\na", ["", "", "a"]), ("a\r\nb", ["a\r", "b"]),
            # only an 0A ends a line, whatever `str.splitlines` takes for an end
            ("a\x0bb\x85c\x1cd\n", ["a\x0bb\x85c\x1cd"]),
        ):
            for kind in (buffer, buffer.encode("latin-1")):
                with self.subTest(buffer=buffer, kind=type(kind)):
                    found = [answer.line for answer in terravisco.compile(kind[:0]).match_lines(kind)]
                    self.assertEqual(found, lines if isinstance(kind, str) else [line.encode("latin-1") for line in lines])

    def test_as_one_search_after_another(self):
        rule = terravisco.compile(r"(\d+)(,\d+)?")
        buffer = "1,5\nab\n\n7\n,8\n" * 3
        for answer in rule.match_lines(buffer):
            with self.subTest(answer.line):
                match = rule.search(answer.line)
                self.assertEqual(answer.match and answer.match.groups(), match and match.groups())
                self.assertEqual(answer.match and answer.steps, match and match.steps)

    def test_more_than_one_call_takes(self):
        for lines in (_rule.LINES_AT_ONCE - 1, _rule.LINES_AT_ONCE, _rule.LINES_AT_ONCE + 1, 3 * _rule.LINES_AT_ONCE + 5):
            for end in ("", "\n"):
                with self.subTest(lines=lines, end=end):
                    answers = list(terravisco.compile(r"\d+$").match_lines("\n".join(f"n{number}" for number in range(lines)) + end))
                    self.assertEqual([answer.match.group() for answer in answers], [str(number) for number in range(lines)])

    def test_empty_lines_at_the_cut(self):
        buffer = "\n" * (2 * _rule.LINES_AT_ONCE)
        self.assertEqual(words(terravisco.compile("^$").match_lines(buffer)), ["matched"] * (2 * _rule.LINES_AT_ONCE))

    def test_lines_come_one_by_one(self):
        answers = terravisco.compile("a").match_lines("a\n" * 5000)
        self.assertEqual(next(answers).word, "matched")

    def test_mistakes_are_told_at_the_call(self):
        for buffer in (5, None, "a\n"):
            with self.subTest(buffer), self.assertRaises(TypeError):
                terravisco.compile(b"a").match_lines(buffer)
        with self.assertRaises(UnicodeEncodeError):
            terravisco.compile("a").match_lines("€\n")

    def test_a_buffer_that_is_changed_later(self):
        buffer = bytearray(b"a\nb\n")
        answers = terravisco.compile(b"[ab]").match_lines(buffer)
        buffer[:] = b"xxxx"
        self.assertEqual(words(answers), ["matched", "matched"])

    def test_shown(self):
        (answer,) = terravisco.compile("a").match_lines("ba")
        self.assertEqual(repr(answer), "<terravisco.LineAnswer matched: 'ba'>")
