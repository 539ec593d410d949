#!/usr/bin/env python3
"""Times the rule reader on rules of 1,000 bytes: microseconds a rule, by kind.

It runs target/bin/rule_vectors (made by `./build rule_vectors`) on 32 copies of a rule and on none, takes the shortest of many runs of
each, and divides the difference by 32. Decoding the hex digits and writing the verdict are in the time.
Usage: harness/bench_reader.py [RUNS] (in the repository's root)
"""
import sys

from timing import shortest

RUNS = int(sys.argv[1]) if len(sys.argv) > 1 else 300
PROGRAM = "target/bin/rule_vectors"
COPIES = 32
RULES = {
    "literals, `a`": b"a" * 1000,
    "set escapes, `\\d`": b"\\d" * 500,
    "classes, `[a-z]`": b"[a-z]" * 200,
    "one class of sets, `[\\d..]`": b"[" + b"\\d" * 499 + b"]",
    "repeats, `a*`": b"a*" * 500,
    "bounded repeats, `a{1,9}`": (b"a{1,9}" * 167)[:996],
    "alternation, `a|`": b"a|" * 500,
    "groups, `(?:a)`": b"(?:a)" * 200,
    "named sets, `[[:alpha:]]`": b"[[:alpha:]]" * 90,
    "references, `\\1`": b"(a)" + b"\\1" * 498,
    "references by name, `\\k<n>`": b"(?<n>a)" + b"\\k<n>" * 198,
    "32 names, alike up to the end": b"".join(b"(?<abcdefghijklmn%02d>)" % k for k in range(32)) + b"\\k<abcdefghijklmn31>" * 13,
}


def main():
    nothing = shortest(PROGRAM, b"", RUNS)
    for name, rule in RULES.items():
        data = (b"0 " + rule.hex().encode() + b"\n") * COPIES
        print("%-32s %5d bytes  %6.1f us" % (name, len(rule), (shortest(PROGRAM, data, RUNS) - nothing) / COPIES * 1e6))


if __name__ == "__main__":
    main()
