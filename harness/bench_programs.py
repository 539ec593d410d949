#!/usr/bin/env python3
"""Times the two programs on one file of short lines, beside PCRE2's own grep with its interpreter: a table for docs/BENCHMARKS.md.

The file has 500,000 lines such as `1234,5 L`, a third of which the rule does not match. The programs take turns, and of each the shortest of
several runs counts. With a folder that holds other builds of `gateway` and `readings`, such as those from before a change, they are run too,
and what both builds write has to be the same.
Usage: harness/bench_programs.py [RUNS] [FOLDER] (in the repository's root; target/bin is made by `./build gateway readings`)
"""
import os
import random
import subprocess
import sys
import tempfile
import time
from pathlib import Path

RUNS = int(sys.argv[1]) if len(sys.argv) > 1 else 5
BEFORE = Path(sys.argv[2]).resolve() if len(sys.argv) > 2 else None
PROGRAMS = Path("target/bin").resolve()
RULE = r"^(\d+),(\d+)( L)?$"
LINES = 500000


def lines():
    chosen = random.Random(7)
    for _ in range(LINES):
        whole, part = chosen.randint(1, 99999), chosen.randint(0, 999)
        yield chosen.choice((f"{whole} L\n", f"{whole},{part}\n", f"{whole},{part} L\n"))


def commands():
    """What is run: its name, the command, and whether the lines come on standard input."""
    for name, folder in (("", PROGRAMS), (" before", BEFORE)):
        if folder:
            yield "gateway" + name, [folder / "gateway"], True
            yield "readings" + name, [folder / "readings", "rule.txt", "lines.txt"], False
    yield "pcre2grep --no-jit -o", ["pcre2grep", "--no-jit", "-o", RULE], True


def timed(name, command, piped):
    with open("lines.txt", "rb") as given, open(name.replace(" ", "_"), "wb") as written:
        began = time.perf_counter()
        subprocess.run(command, stdin=given if piped else subprocess.DEVNULL, stdout=written, stderr=subprocess.DEVNULL, check=True)
        return time.perf_counter() - began


def main():
    with tempfile.TemporaryDirectory() as folder:
        os.chdir(folder)
        Path("rule.txt").write_text(RULE + "\n")
        Path("lines.txt").write_text("".join(lines()))
        best = {}
        for _ in range(RUNS):
            for name, command, piped in commands():
                took = timed(name, command, piped)
                best[name] = min(took, best.get(name, took))
        for name in ("gateway", "readings"):
            if BEFORE and Path(name).read_bytes() != Path(name + "_before").read_bytes():
                sys.exit(f"{name}: the two builds write different answers")
    grep = best["pcre2grep --no-jit -o"]
    print("| Program | ns a line | / pcre2grep | / before |\n|---|---|---|---|")
    for name, took in best.items():
        before = best.get(name + " before")
        print("| %s | %.0f | %.2f | %s |" % (name, took / LINES * 1e9, took / grep, "%.2f" % (took / before) if before else ""))


if __name__ == "__main__":
    main()
