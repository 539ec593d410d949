"""Rule cards. Their bytes are those of document 02 i)."""
import unittest

import terravisco
from terravisco import CardError, RuleError, card_read, card_write


def card(rule, flags=0, budget=0, groups=0):
    """A card, written down from document 02."""
    pieces = b"".join(b"\2" + rule[at:at + 32].ljust(32, b"\0") for at in range(0, len(rule), 32))
    return bytes([1, flags, budget % 256, budget // 256, groups]) + pieces + bytes([3, len(rule) % 256, len(rule) // 256])


class Writing(unittest.TestCase):
    def test_the_bytes(self):
        for rule, flags, budget, groups in (
            (b"", 0, 0, 0), (b"(?<litres>\\d+) L", 0, 1000, 1), (b"(a)(b)", 31, 65_535, 2), (b"a" * 32, 0, 1, 0), (b"a" * 33, 0, 256, 0),
            (b"a" * 1000, 15, 258, 0), (b"()" * 64, 0, 7, 64),
        ):
            with self.subTest(rule[:10]):
                self.assertEqual(card_write(terravisco.compile(rule, flags, budget)), card(rule, flags, budget, groups))

    def test_a_budget_that_no_card_has(self):
        for budget in (65_536, 100_000):
            with self.subTest(budget), self.assertRaises(RuleError) as raised:
                card_write(terravisco.compile("a", budget=budget))
            self.assertEqual((raised.exception.number, raised.exception.place), (4, 0))

    def test_bytes_above_ascii(self):
        self.assertEqual(card_write(terravisco.compile("\xa0", budget=5)), card(b"\xa0", budget=5))


class Reading(unittest.TestCase):
    def test_what_was_written(self):
        for rule, flags, budget in ((b"", 0, 0), (b"(?<n>\xa0) # x", 12, 65_535), (b"a" * 1000, 16, 1)):
            with self.subTest(rule[:10]):
                made = terravisco.compile(rule, flags, budget)
                read = card_read(card_write(made))
                self.assertEqual((read.pattern, read.flags, read.budget, read.groups), (rule, flags, budget, made.groups))

    def test_as_str(self):
        read = card_read(card(b"(\xe9)", groups=1, budget=100), str)
        self.assertEqual((read.pattern, read.search("café").span(1)), ("(é)", (3, 4)))

    def test_bytes_like(self):
        self.assertEqual(card_read(bytearray(card(b"a"))).pattern, b"a")
        for odd in ("text", 5, None):
            with self.subTest(odd), self.assertRaises(TypeError):
                card_read(odd)

    def test_refusals(self):
        good = card(b"(a)", 0, 1000, 1)
        for number, place, bad in (
            (30, 0, b"rule\n"), (31, 0, b""), (31, 0, good[:-1]), (32, 0, good[5:]), (33, 0, good + b"\n"), (33, 0, good.replace(b"(a)\0", b"(a)x")),
            (34, 0, card(b"(a)", 0, 1000, 2)), (20, 1, card(b"a(", 0, 0, 0)), (3, 0, card(b"a", 32)), (19, 2, card(b"a**")), (28, 4, card(b"(b?)*", 16, 0, 1)),
            (1, 0, card(b"a" * 1001)),
        ):
            with self.subTest(number=number):
                with self.assertRaises(CardError) as raised:
                    card_read(bad)
                self.assertEqual((raised.exception.number, raised.exception.place), (number, place))
                self.assertIn(f"the card is refused, {number} at {place}: ", str(raised.exception))

    def test_every_truncation(self):
        good = card(b"^tank (\\w+): (\\d+) L$", 4, 1000, 2)
        self.assertEqual(card_read(good).groups, 2)
        for length in range(len(good)):
            with self.subTest(length), self.assertRaises(CardError) as raised:
                card_read(good[:length])
            self.assertEqual(raised.exception.number, 31)
