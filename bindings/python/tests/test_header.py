"""The numbers and sentences of the module, held to include/terravisco.h and docs/GUIDE.md."""
import re
import unittest
from pathlib import Path

import terravisco
from terravisco import _errors, _library, _limits

ROOT = Path(__file__).resolve().parents[3]
HEADER = (ROOT / "include" / "terravisco.h").read_text()


def constants():
    """The header's constants, worked out in their order."""
    values = {}
    body = re.sub(r"/\*.*?\*/", "", re.search(r"enum \{(.*?)\};", HEADER, re.S).group(1), flags=re.S)
    for name, expression in re.findall(r"TERRAVISCO_(\w+) = ([^,]+?)\s*(?:,|$)", body):
        values[name] = eval(expression.replace("TERRAVISCO_", ""), {}, values)
    values["UNSET"] = int(re.search(r"TERRAVISCO_UNSET UINT32_C\((\d+)\)", HEADER).group(1))
    return values


class Header(unittest.TestCase):
    def test_each_constant(self):
        found = constants()
        in_words = {"MOST_BUDGET", "MOST_CARD_BUDGET", "LONGEST_LINE"}
        for name in sorted({name for name in vars(_limits) if name.isupper()} - in_words):
            with self.subTest(name):
                self.assertEqual(getattr(_limits, name), found[name])

    def test_each_call(self):
        """As many arguments as the header has, and of the same kinds."""
        kinds = {"const uint8_t *": "c_char_p", "size_t ": "c_ulong", "uint32_t ": "c_uint", "uint32_t *": "LP_c_uint", "uint8_t *": "LP_c_ubyte",
                 "const uint32_t *": "LP_c_uint", "uint64_t ": "LP_c_ulong"}
        found = dict(re.findall(r"void (terravisco_\w+)\((.*?)\);", HEADER, re.S))
        for name in _library._CALLS:
            with self.subTest(name):
                parameters = found[name]
                wanted = []
                for parameter in re.sub(r"\s+", " ", parameters).split(", "):
                    kind = re.match(r"(.*?)\w+(\[\w+\])?$", parameter)
                    # an array is handed over as a pointer
                    wanted.append("LP_c_uint" if kind.group(2) and kind.group(1) == "uint32_t " else kinds[kind.group(1)])
                self.assertEqual([kind.__name__ for kind in _library._CALLS[name]], wanted)

    def test_limits_in_words(self):
        in_words = ((_limits.MOST_BUDGET, "at most 100,000"), (_limits.MOST_CARD_BUDGET, "budget    at most 65,535"), (_limits.LONGEST_LINE, "to 65,535 bytes"))
        for limit, words in in_words:
            with self.subTest(words):
                self.assertIn(words, HEADER)
                self.assertIn(f"{limit:,}", words)

    def test_flags(self):
        for bit, letter in enumerate("smix"):
            with self.subTest(letter):
                self.assertIn(f"bit {bit} is `{letter}`", HEADER)
                self.assertEqual(getattr(terravisco, letter.upper()), 1 << bit)
        self.assertEqual(terravisco.D, constants()["DEPOT"])

    def test_each_sentence_is_of_a_refusal_of_the_guide(self):
        guide = (ROOT / "docs" / "GUIDE.md").read_text().split("## When a rule is refused")[1].split("\n## ")[0]
        numbers = {int(number) for number in re.findall(r"^\| (\d+) \|", guide, re.M)}
        self.assertEqual(list(_errors.SENTENCES), list(range(1, 37)))
        self.assertLessEqual(set(_errors.SENTENCES), numbers)
