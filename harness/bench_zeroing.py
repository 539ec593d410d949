#!/usr/bin/env python3
"""Times the clearing of the largest work area, 1,600,000 numbers, against C's memset, and prints a table for docs/BENCHMARKS.md.

Clearing is no call of its own: it is the difference between a match of the empty rule on the empty subject with a budget of 100,000 and one
with a budget of 0, which clears no work area. One process makes all runs in turn; the shortest of each counts.
Usage: harness/bench_zeroing.py [RUNS] (in the repository's root, after `./build library`; it needs a C compiler, cc)
"""
import subprocess
import sys
import tempfile
from pathlib import Path

RUNS = sys.argv[1] if len(sys.argv) > 1 else "1000"
HERE = Path(__file__).resolve().parent
ARCHIVE = HERE.parent / "target" / "staticlib" / "libterravisco.a"


def main():
    if not ARCHIVE.exists():
        sys.exit("bench_zeroing: no %s; make it by `./build library`" % ARCHIVE)
    with tempfile.TemporaryDirectory() as folder:
        program = Path(folder) / "bench_zeroing"
        subprocess.run(["cc", "-O2", "-I", HERE.parent / "include", HERE / "bench_zeroing.c", ARCHIVE, "-o", program], check=True)
        most, none, memset = map(float, subprocess.run([program, RUNS], capture_output=True, check=True).stdout.split())
    print("| What | µs |\n|---|---|")
    for name, took in (("a match with budget 100,000", most), ("a match with budget 0", none), ("the difference: clearing 1,600,000 numbers", most - none),
                       ("`memset` of the same 6.4 MB", memset)):
        print("| %s | %.0f |" % (name, took / 1000))
    print("| ratio of the two | %.2f |" % ((most - none) / memset))


if __name__ == "__main__":
    main()
