"""How the shared library is found, and what is said if it is not."""
import os
import shutil
import subprocess
import sys
import tempfile
import types
import unittest
from pathlib import Path

import terravisco
from terravisco import _library, _limits

PACKAGE = Path(terravisco.__file__).resolve().parent
LOADED = Path(_library.library._name)


def imported(folder=PACKAGE.parent, **variables):
    """What a new interpreter says on `import terravisco`, and whether it could."""
    environment = {name: value for name, value in os.environ.items() if name not in ("LD_LIBRARY_PATH", _library.VARIABLE)}
    environment.update(variables, PYTHONPATH=str(folder))
    program = "import terravisco, terravisco._library as l; print(terravisco.compile('b').search('ab').span(), l.library._name)"
    ran = subprocess.run([sys.executable, "-c", program], capture_output=True, text=True, env=environment, cwd="/")
    return ran.returncode == 0, ran.stdout + ran.stderr


class Finding(unittest.TestCase):
    def setUp(self):
        self.assertTrue(LOADED.is_absolute() and LOADED.is_file(), "name the library's file in TERRAVISCO_LIBRARY for the tests")
        folder = tempfile.TemporaryDirectory()
        self.addCleanup(folder.cleanup)
        self.folder = Path(folder.name)

    def copied(self):
        """The package without a library, elsewhere."""
        shutil.copytree(PACKAGE, self.folder / "terravisco", ignore=shutil.ignore_patterns("*.so", "__pycache__"))
        return self.folder

    def test_by_the_variable(self):
        self.assertEqual(imported(TERRAVISCO_LIBRARY=str(LOADED)), (True, f"(1, 2) {LOADED}\n"))

    def test_beside_the_package(self):
        beside = self.copied() / "terravisco" / _library.FILE
        shutil.copy(LOADED, beside)
        self.assertEqual(imported(self.folder), (True, f"(1, 2) {beside.resolve()}\n"))

    def test_by_the_loader(self):
        self.copied()
        for name in (_library.SONAME, _library.FILE):
            with self.subTest(name):
                path = self.folder / name[-4:]
                path.mkdir()
                shutil.copy(LOADED, path / name)
                self.assertEqual(imported(self.folder, LD_LIBRARY_PATH=str(path)), (True, f"(1, 2) {name}\n"))

    def test_nowhere(self):
        good, said = imported(self.copied())
        self.assertFalse(good, "a library is installed where the loader looks: take it away for this test")
        self.assertIn("ImportError: the Terravisco library cannot be loaded:", said)
        self.assertIn(str(self.folder.resolve() / "terravisco" / _library.FILE), said)
        for word in (_library.SONAME, _library.VARIABLE, "./install PREFIX", "LD_LIBRARY_PATH"):
            self.assertIn(word, said)

    def test_the_variable_alone_counts(self):
        """A name that is wrong is told, and no other library is taken instead."""
        shutil.copy(LOADED, self.copied() / "terravisco" / _library.FILE)
        good, said = imported(self.folder, TERRAVISCO_LIBRARY="/none/here.so")
        self.assertFalse(good)
        self.assertIn("/none/here.so", said)
        self.assertNotIn(_library.SONAME, said)

    def test_another_library(self):
        text = self.folder / "text.so"
        text.write_text("no library\n")
        for name, word in (("libc.so.6", "terravisco_match"), (str(text), "text.so")):
            with self.subTest(name):
                good, said = imported(TERRAVISCO_LIBRARY=name)
                self.assertFalse(good)
                self.assertIn("ImportError: the Terravisco library cannot be loaded:", said)
                self.assertIn(word, said)


class Agreement(unittest.TestCase):
    """A library whose areas have other lengths is not used."""

    def with_limit(self, name, value):
        limits = types.SimpleNamespace(**{key: getattr(_limits, key) for key in dir(_limits) if key.isupper()})
        setattr(limits, name, value)
        return _library.disagreements(_library.library, limits)

    def test_this_one(self):
        self.assertEqual(_library.disagreements(_library.library), [])

    def test_others(self):
        for name, said in (
            ("RULE_AREA", "the rule area"), ("WORK_PER_STEP", "the work area"), ("ROW", "a row"), ("PART", "a line's part"),
            ("NAME_INDEX", "the name index"), ("CARD", "a card"),
        ):
            for by in (-1, 1):
                with self.subTest(name=name, by=by):
                    self.assertIn(said, self.with_limit(name, getattr(_limits, name) + by))
