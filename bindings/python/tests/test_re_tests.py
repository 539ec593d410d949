"""CPython's own table of cases for `re`, `test.re_tests`: each case as it stands, and, where only its spelling is Python's, spelt as here.

Each difference has the marks of a class below, with its reason. One without is a fault, and so is a class without a case.
"""
import re
import unittest
from test import re_tests

import terravisco

OUTCOMES = {re_tests.SUCCEED: "succeeds", re_tests.FAIL: "fails", re_tests.SYNTAX_ERROR: "is refused"}

# What is Python's spelling alone: flags at the front of a rule, and named groups with their references.
FLAGS = re.compile(r"\(\?([ismx]+)\)")
SPELLINGS = ((re.compile(r"\(\?P<"), "(?<"), (re.compile(r"\(\?P=(\w*)(\)?)"), lambda found: r"\k<" + found[1] + (">" if found[2] else "")))


def has(pattern):
    return lambda rule: re.search(pattern, rule) is not None


# A name, the marks that a rule has, what is answered here in place of the table's outcome, and why.
CLASSES = [
    ("looking ahead", has(r"\(\?[=!]"), {22}, "request l) of document 02 brings `(?=` and `(?!`; before it they are refused"),
    ("looking behind", has(r"\(\?<[=!]"), {25}, "01 does not hold it; `(?<` begins a name"),
    ("comments in brackets", has(r"\(\?#"), {22}, "01 does not hold `(?#`; under `x` there are comments from `#` on"),
    ("octal numbers outside a class", has(r"\\[1-9]\d\d"), {13}, "01: a backslash and 1 to 9 takes the whole run of digits as a reference; `\\o{141}` is held"),
    ("a reference inside its own group", has(r"\(\(\.\)\\1"), {"fails"}, "01: there it sees the former span; Python refuses it"),
    ("letters beyond ASCII", has(r"\(\?u\)"), {22}, "01: the sets are those of Perl's `/a`, and no rule changes its flags"),
]


def respelt(rule):
    """A rule with Python's spelling taken out, and its flags."""
    front = FLAGS.match(rule)
    flags, rule = (front[1], rule[front.end():]) if front else ("", rule)
    for spelling, ours in SPELLINGS:
        rule = spelling.sub(ours, rule)
    return rule, flags


def answer(rule, flags, line):
    """The outcome here: the match, "fails", or the number of a refusal."""
    try:
        match = terravisco.compile(rule, flags).search(line)
    except terravisco.RuleError as error:
        return error.number
    return "fails" if match is None else match


def evaluated(match, expression):
    """What an expression of the table is on a match: `found`, `g1` and so on, and each named group."""
    names = {"found": match.group(0), "groups": match.groups()}
    for number in range(1, 100):
        names[f"g{number}"] = "Error" if number > match.rule.groups else "None" if match[number] is None else text(match[number])
    names.update({name: text(value) for name, value in match.groupdict("None").items()})
    names["found"] = text(names["found"])
    return eval(expression, names)


def text(part):
    return part.decode("latin-1") if isinstance(part, bytes) else part


def outcome(found):
    return found if isinstance(found, (str, int)) else "succeeds"


def agrees(case, found):
    """Whether an answer is the one of the table."""
    wanted = OUTCOMES[case[2]]
    if wanted == "is refused":
        return isinstance(found, int)
    if wanted == "fails" or isinstance(found, (int, str)):
        return found == wanted
    return evaluated(found, case[3]) == case[4]


class Table(unittest.TestCase):
    def test_each_case(self):
        counts = {}
        for number, case in enumerate(re_tests.tests):
            with self.subTest(number=number, case=case[:3]):
                kind = self.hold(case)
                counts[kind] = counts.get(kind, 0) + 1
        told = sorted(counts.items(), key=lambda pair: -pair[1])
        print(f"  {len(re_tests.tests)} cases of test.re_tests: " + ", ".join(f"{kind} {count}" for kind, count in told))
        with self.subTest("every class has a case"):
            self.assertEqual([name for name, marks, *_ in CLASSES if not any(marks(case[0]) for case in re_tests.tests)], [])

    def hold(self, case):
        """Holds a case to the table, and tells how it was: as it stands, respelt, or by which class it differs."""
        rule, flags = respelt(case[0])
        kind = "as it stands" if (rule, flags) == (case[0], "") else "respelt"
        if kind == "respelt":
            # as it stands it is refused: `(?` begins neither flags nor such a name here
            self.assertEqual(answer(case[0], "", case[1]), 22)
        found = answer(rule, flags, case[1])
        # as bytes it is the same
        self.assertEqual(outcome(answer(rule.encode("latin-1"), flags, case[1].encode("latin-1"))), outcome(found))
        if agrees(case, found):
            return kind
        named = [(name, here) for name, marks, here, _ in CLASSES if marks(rule)]
        self.assertEqual(len(named), 1, f"no class, or several, for a difference: {outcome(found)} here")
        self.assertIn(outcome(found), named[0][1])
        return named[0][0]
