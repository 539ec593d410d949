"""The examples in the module's own text and in its README."""
import doctest
import inspect
import re
import unittest
from pathlib import Path

import terravisco

README = Path(__file__).resolve().parents[1] / "README.md"


class Docs(unittest.TestCase):
    def test_the_module(self):
        result = doctest.testmod(terravisco)
        self.assertGreater(result.attempted, 3)
        self.assertEqual(result.failed, 0)

    def test_the_readme(self):
        result = doctest.testfile(str(README), module_relative=False)
        self.assertGreater(result.attempted, 5)
        self.assertEqual(result.failed, 0)

    def test_every_public_name_is_described(self):
        text = README.read_text()
        for name in terravisco.__all__:
            with self.subTest(name):
                self.assertRegex(text, rf"`(?:terravisco\.)?{re.escape(name)}\b")

    def test_every_call_has_a_text_and_hints(self):
        public = [getattr(terravisco, name) for name in terravisco.__all__]
        classes = [kind for kind in public if isinstance(kind, type)]
        calls = [call for call in public if inspect.isfunction(call)]
        for kind in classes:
            with self.subTest(kind.__name__):
                self.assertTrue(kind.__doc__)
            # those that a class has by itself
            calls += [call for name, call in vars(kind).items() if inspect.isfunction(call) and not name.startswith("_") and kind is not terravisco.Flag]
        self.assertGreater(len(calls), 15)
        for call in calls:
            with self.subTest(call.__qualname__):
                signature = inspect.signature(call)
                kinds = [parameter.annotation for name, parameter in signature.parameters.items() if name != "self"] + [signature.return_annotation]
                self.assertNotIn(inspect.Signature.empty, kinds)
                self.assertTrue(call.__doc__)
