#!/usr/bin/env python3
"""Builds the programs of docs/GUIDE.md as it says, runs them, and compares what they print with what stands below them.

Usage: harness/guide_programs.py (after `./build library`). The last line is 'N passed, M failed'.
"""
import os
import re
import subprocess
import sys
from pathlib import Path

from cases import Cases

ROOT = Path(__file__).resolve().parent.parent
LIBRARY = ROOT / "target" / "staticlib"
SUFFIXES = {"c": "c", "rust": "rs", "python": "py"}
BUILDS = {
    "c": ["gcc", "-std=c99", "-pedantic", "-Wall", "-Wextra", "-Werror", "-I", ROOT / "include", "program.c", LIBRARY / "libterravisco.a", "-o", "program"],
    "rust": ["cargo", "build", "--offline", "--quiet", "--target-dir", "target"],
    "python": [ROOT / "bindings" / "link-shared", "libterravisco.so"],
}
RUNS = {"c": ("./program", []), "rust": ("target/debug/program", []), "python": (sys.executable, ["-W", "error", "program.py"])}
CARGO = """[package]
name = "program"
edition = "2021"

[[bin]]
name = "program"
path = "program.rs"

[dependencies]
terravisco = { path = "%s" }
"""


def programs(guide):
    """Language, text and output of each program: a block `text` is what the programs before it print."""
    before = []
    for language, text in re.findall(r"^```(\w+)\n(.*?)^```$", guide, re.S | re.M):
        if language != "text":
            before.append((language, text))
            continue
        yield from ((*program, text) for program in before)
        before = []


def main():
    t = Cases("./program")
    os.environ.update(TERRAVISCO_LIBRARY="./libterravisco.so", PYTHONPATH=str(ROOT / "bindings" / "python"), RUSTFLAGS="-D warnings")
    Path("Cargo.toml").write_text(CARGO % (ROOT / "bindings" / "rust"))
    for number, (language, text, out) in enumerate(programs((ROOT / "docs" / "GUIDE.md").read_text()), 1):
        Path("program." + SUFFIXES[language]).write_text(text)
        built = subprocess.run(BUILDS[language], capture_output=True, text=True)
        name = "program %d, %s" % (number, language)
        t.same(name + ", build", built.stderr if built.returncode else "", "")
        if built.returncode == 0:
            t.program, arguments = RUNS[language]
            t.run(name, arguments, out)
    t.end()


if __name__ == "__main__":
    main()
