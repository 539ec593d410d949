"""Why a line does not fit."""
import pickle
import unittest

import terravisco

TANK = r"^tank (\w+): (\d+) L$"


class Explanations(unittest.TestCase):
    def test_the_guides(self):
        """The places are those of harness/data/explanations.txt."""
        told = terravisco.compile(TANK).explain("tank A1 820 L")
        self.assertEqual((told.steps, told.furthest, told.closest, told.wanted), (30, (13, 0), (0, 7, 7), (7, 11)))
        self.assertEqual((told.furthest.at, told.furthest.item, told.closest.start, told.closest.at, told.closest.item), (13, 0, 0, 7, 7))

    def test_shown(self):
        told = terravisco.compile(TANK).explain("tank A1 820 L")
        self.assertEqual(repr(told), "<terravisco.Explanation closest=(0, 7, 7) wanted=(7, 11)>")
        self.assertEqual(str(told), """\
the attempt from 0 fits up to 7:
  tank A1 820 L
  -------^
what was wanted there:
  ^tank (\\w+): (\\d+) L$
         ^   ^""")

    def test_shown_from_a_later_start(self):
        told = terravisco.compile("abc").explain("xabx")
        self.assertEqual((told.closest, told.wanted), ((1, 3, 2), (2,)))
        self.assertIn("\n  xabx\n   --^\n", str(told))

    def test_shown_at_the_end(self):
        """A mark may stand behind the line's last byte, also where a row ends there."""
        for length in (1, 63, 64, 65, 128):
            with self.subTest(length):
                told = terravisco.compile("^a*b").explain("a" * length)
                self.assertEqual((told.closest.at, told.wanted), (length, (1, 3)))
                last = (length - 1) % 64 + 1
                self.assertIn("\n  %s\n  %s^\nwhat" % ("a" * last, "-" * last), str(told))

    def test_of_nothing(self):
        told = terravisco.compile("a").explain("")
        self.assertEqual((told.furthest, told.closest, told.wanted), ((0, 0), (0, 0, 0), (0,)))
        self.assertIn("\n  \n  ^\n", str(told))

    def test_matched(self):
        self.assertIsNone(terravisco.compile(TANK).explain("tank A1: 820 L"))
        self.assertIsNone(terravisco.compile("").explain(""))

    def test_exhausted(self):
        with self.assertRaises(terravisco.Exhausted) as raised:
            terravisco.compile("a*", budget=6).explain("aa")
        self.assertEqual((raised.exception.start, raised.exception.steps), (0, 6))

    def test_too_long(self):
        with self.assertRaises(terravisco.LineError):
            terravisco.compile("a").explain("a" * 65_536)

    def test_bytes(self):
        told = terravisco.compile(TANK.encode()).explain(bytearray(b"tank A1 820 L"))
        self.assertEqual((told.line, told.closest, told.wanted), (b"tank A1 820 L", (0, 7, 7), (7, 11)))

    def test_the_last_item_of_the_longest_rule(self):
        told = terravisco.compile("a" * 999 + "b").explain("a" * 999)
        self.assertEqual((told.closest, told.wanted), ((0, 999, 999), (999,)))

    def test_pickled(self):
        told = terravisco.compile(TANK).explain("tank A1 820 L")
        self.assertEqual(str(pickle.loads(pickle.dumps(told))), str(told))
