"""Random rules and lines of what Terravisco and Python's `re` share: search and successive matches, with their groups.

No rule is made with a repeat over what may take no bytes, where Python's rounds are others. A difference passes only if it has the marks of a class in
`explained`, and the line says how many did.
"""
import random
import re
import unittest

import terravisco

CASES = 20_000
SEED = 1
FLAGS = (("s", re.S), ("m", re.M), ("i", re.I))
LETTERS = "abAB1 ,\n"
BYTES = ("a", "b", "A", "1", ",", " ", ".", r"\d", r"\w", r"\s", r"\D", r"\W", r"\S", "[ab]", "[^a]", "[a-b1]", r"[\d,]", r"\x61", r"\n")
PLACES = ("^", "$", r"\b", r"\B", r"\A")


class Maker:
    """Makes a rule; each part is told with the fewest bytes that it takes."""

    def __init__(self, chance):
        self.chance = chance
        self.opened = 0
        self.closed = []

    def alternation(self, depth):
        branches = [self.sequence(depth) for _ in range(self.chance.choice((1, 1, 1, 2, 3)))]
        return "|".join(text for text, _ in branches), min(least for _, least in branches)

    def sequence(self, depth):
        parts = [self.repeated(depth) for _ in range(self.chance.choice((0, 1, 2, 2, 3)))]
        return "".join(text for text, _ in parts), sum(least for _, least in parts)

    def repeated(self, depth):
        text, least = self.item(depth)
        if not least or self.chance.random() < 0.6:
            return text, least
        low = self.chance.randrange(3)
        high = low + self.chance.randrange(3)
        mark, times = self.chance.choice((("*", 0), ("+", 1), ("?", 0), (f"{{{low}}}", low), (f"{{{low},}}", low), (f"{{{low},{high}}}", low)))
        return text + mark + self.chance.choice(("", "", "?")), least * times

    def item(self, depth):
        if depth and self.chance.random() < 0.35:
            return self.group(depth)
        if self.closed and self.chance.random() < 0.1:
            # in brackets, so that no digit behind it belongs to it
            return f"(?:\\{self.chance.choice(self.closed)})", 0
        if self.chance.random() < 0.12:
            return self.chance.choice(PLACES), 0
        return self.chance.choice(BYTES), 1

    def group(self, depth):
        if self.chance.random() < 0.4:
            text, least = self.alternation(depth - 1)
            return f"(?:{text})", least
        self.opened += 1
        number = self.opened
        text, least = self.alternation(depth - 1)
        self.closed.append(number)
        return f"({text})", least


def told(rule, line):
    """What a rule of either kind tells of a line: the match and all successive ones, with the groups and what they took."""
    numbers = range(1, rule.groups + 1)
    return [match and (match.span(), match.groups(), [match.span(number) for number in numbers]) for match in (rule.search(line), *rule.finditer(line))]


def explained(rule, flags, line):
    """The class of a difference, or nothing."""
    if "m" in flags and "^" in rule and line.endswith("\n"):
        return "`^` under `m` behind a last newline, where it holds in Python alone"
    if line == "" and r"\B" in rule:
        return r"`\B` on an empty line, where it does not hold in Python (before 3.14)"
    return None


class AgainstRe(unittest.TestCase):
    def test_random_rules(self):
        aside = {}
        for number in range(CASES):
            chance = random.Random(SEED * 1_000_003 + number)
            rule, _ = Maker(chance).alternation(3)
            letters = "".join(letter for letter, _ in FLAGS if chance.random() < 0.3)
            line = "".join(chance.choice(LETTERS) for _ in range(chance.choice((0, 1, 2, 3, 5, 8, 12))))
            with self.subTest(number=number, rule=rule, flags=letters, line=line):
                kind = self.hold(rule, letters, line)
                if kind:
                    aside[kind] = aside.get(kind, 0) + 1
        print("  set aside: " + (", ".join(f"{count} by {kind}" for kind, count in aside.items()) or "none"))
        with self.subTest("most are held"):
            self.assertLess(sum(aside.values()), CASES / 50)

    def hold(self, rule, letters, line):
        """Holds a case, or tells by which class it is set aside."""
        ours = terravisco.compile(rule, letters, 5_000)
        theirs = re.compile(rule, re.A | sum(flag for letter, flag in FLAGS if letter in letters))
        self.assertEqual((ours.groups, dict(ours.groupindex)), (theirs.groups, {}))
        try:
            here = told(ours, line)
        except terravisco.Exhausted:
            return "exhausted"
        there = told(theirs, line)
        if here == there:
            return None
        kind = explained(rule, letters, line)
        self.assertIsNotNone(kind, f"here {here}, in Python {there}")
        return kind
