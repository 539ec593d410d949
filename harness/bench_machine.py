#!/usr/bin/env python3
"""Times the walking machine: nanoseconds a step, by kind of rule.

It runs target/bin/walk_vectors (made by `./build walk_vectors`) on many copies of a walk, once with a budget and once with none, takes the
shortest of many runs of each, and divides the difference by the steps. What both runs do (reading lines, compiling the rule) falls out.
Usage: harness/bench_machine.py [RUNS] (in the repository's root)
"""
import subprocess
import sys

from timing import shortest

RUNS = int(sys.argv[1]) if len(sys.argv) > 1 else 40
PROGRAM = "target/bin/walk_vectors"
WORDS = "alpha bravo charlie delta echo foxtrot golf hotel india juliett kilo lima mike november oscar papa quebec romeo sierra tango".split()
WALKS = {
    "long greedy repeats, `a*a*a*b`": (b"a*a*a*b", b"a" * 60),
    "an alternation of twenty words": (("(?:" + "|".join(WORDS) + ")+!").encode(), ("".join(reversed(WORDS)) * 6).encode()[:600]),
    "nested counted repeats": (b"(?:(?:a{1,3}){1,3}){1,9}b", b"a" * 40),
    "groups, `(?:(a)|(b))*c`": (b"(?:(a)|(b))*c", b"ab" * 200),
    "classes, `[a-f]*[d-k]*x`": (b"[a-f]*[d-k]*x", b"abcdef" * 30),
}


def main():
    for name, (rule, subject) in WALKS.items():
        line = lambda budget: b"0 %d 0 %s %s\n" % (budget, rule.hex().encode(), subject.hex().encode())
        copies = 60000 // len(line(20000))
        out = subprocess.run([PROGRAM], input=line(20000), capture_output=True, check=True).stdout.decode().split()
        steps = int(out[-1])
        took = shortest(PROGRAM, line(20000) * copies, RUNS) - shortest(PROGRAM, line(0) * copies, RUNS)
        print("%-34s %6d steps a walk  %5.2f ns a step" % (name, steps, took / copies / steps * 1e9))


if __name__ == "__main__":
    main()
