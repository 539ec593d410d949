#!/usr/bin/env python3
"""Runs the gateway program over cases and compares what it writes; run in the repository's root after `./build gateway`.

A case is a folder harness/gateway/NAME with stdin, stdout and, unless the file is to be missing, rule.txt. Each is run with its input
in one piece and in pieces of several sizes through a pipe. What is expected was written by hand or, with --write, by reference.py, which
shares no line with the library; never by the program. Where the answers cannot be written, it is held to what it has to say of that.
"""
import os
import random
import shutil
import subprocess
import sys
import tempfile
import time

import reference
import unwritable
from cases import fed

HERE = os.path.dirname(os.path.abspath(__file__))
CASES = os.path.join(HERE, "gateway")
PROGRAM = os.path.join(HERE, "..", "target", "bin", "gateway")
PIECES = (0, 1, 7, 257, 4095)


def expected(rule_file, data):
    """01, "The gateway program"; rule_file is None where it cannot be read."""
    if rule_file is None:
        return b"F\n"
    rule = rule_file.split(b"\n", 1)[0]
    try:
        if len(rule) > 1000:
            raise reference.Refuse(1, 0)
        groups = reference.read(rule, 0)[1]
    except reference.Refuse as r:
        return b"R %d %d\n" % (r.n, r.p)
    lines = data.split(b"\n")
    if lines[-1] == b"":
        lines.pop()
    return b"".join(answer(rule, groups, line) + b"\n" for line in lines)


def answer(rule, groups, line):
    if len(line) > 256:
        return b"L"
    told = reference.match(rule, 0, line, 1000)
    if told[0] == "N":
        return b"N"
    if told[0] == "X":
        return b"X %d" % told[1]
    row = told[2]
    spans = [b" -" if row[2 * g] == reference.U else b" %d-%d" % (row[2 * g], row[2 * g + 1]) for g in range(1, groups + 1)]
    return b"M %d %d" % row[:2] + b"".join(spans)


def run(folder, data, size):
    """What the program writes in a folder, with the input in pieces of a size; 0 is the whole at once."""
    return fed(PROGRAM, folder, data, size)[0]


def stored():
    """(name, what makes rule.txt in a folder, input, expected) of the folders."""
    for name in sorted(os.listdir(CASES)):
        folder = os.path.join(CASES, name)
        rule = os.path.join(folder, "rule.txt")
        data = open(os.path.join(folder, "stdin"), "rb").read()
        want = open(os.path.join(folder, "stdout"), "rb").read()
        yield name, (lambda f, r=rule: os.path.exists(r) and shutil.copy(r, f)), data, want


def write_file(content):
    def make(folder):
        with open(os.path.join(folder, "rule.txt"), "wb") as f:
            f.write(content)
    return make


def made():
    """Cases that no folder can hold, or that are too large for one."""
    yield "a directory", (lambda f: os.mkdir(os.path.join(f, "rule.txt"))), b"a\n", b"F\n"
    yield "a read that fails", (lambda f: os.symlink("/proc/self/mem", os.path.join(f, "rule.txt"))), b"a\n", b"F\n"
    yield "megabytes with no 0A", write_file(b"a" * 5000000), b"a\n", b"R 1 0\n"
    yield "megabytes behind the rule", write_file(b"a\n" + b"(" * 5000000), b"a\nb\n", b"M 0 1\nN\n"
    rng = random.Random(7)
    for k, rule in enumerate([b"(a)|(b)*c", b"^(\\d+)(?:-(\\d+))?$", b"(a*)*b", b"(\\w+) (\\w+)", b"(?<word>\\w+) (?:\\k<word>|(?<rest>\\d+))",
                              b"(\\w)(?!\\1)(?=(\\w*+))\\w", b"^(?>(a|ab)c|(\\d++))|b(?=(\\R))"]):
        lines = [bytes(rng.choice(b"ab c-129\r\x00\xff") for _ in range(rng.choice([0, 1, 3, 9, 30, 255, 256, 257, 300, 70000]))) for _ in range(60)]
        data = b"\n".join(lines)
        yield f"random lines {k}", write_file(rule + b"\n"), data, expected(rule, data)


def unwritten():
    """(name, what is said on standard error, expected) where the answers cannot be written."""
    cases = [
        ("lines that never end", write_file(b"y\n"), None),
        ("more answers than wait at once", write_file(b"\n"), b"\n" * 65536),
        ("a last piece", write_file(b"y\n"), b"y"),
        ("a refused rule", write_file(b"(\n"), b""),
        ("no rule file", (lambda f: None), b""),
    ]
    for name, make, data in cases:
        for place, output, why in unwritable.OUTPUTS:
            with tempfile.TemporaryDirectory() as folder, output() as out:
                make(folder)
                yield f"{name}, {place}", unwritable.said([PROGRAM], out, data, folder), f"gateway: the answers could not be written: {why}\n"
    for place, output, _ in unwritable.OUTPUTS:
        with tempfile.TemporaryDirectory() as folder, output() as out:
            write_file(b"y\n")(folder)
            yield f"nothing to write, {place}", unwritable.said([PROGRAM], out, b"", folder), ""


def timed():
    """100,000 short lines: printed, not tested."""
    folder = tempfile.mkdtemp()
    try:
        write_file(b"^(\\d+),(\\d+)( L)?$\n")(folder)
        data = b"".join(b"%d,%d L\n" % (i % 1000, i % 97) for i in range(100000))
        begin = time.time()
        out = subprocess.run([PROGRAM], cwd=folder, input=data, capture_output=True).stdout
        print(f"100,000 short lines: {time.time() - begin:.2f} s, {out.count(10)} answers")
    finally:
        shutil.rmtree(folder)


def main():
    if sys.argv[1:] == ["--write"]:
        for name in sorted(os.listdir(CASES)):
            folder = os.path.join(CASES, name)
            rule = os.path.join(folder, "rule.txt")
            content = open(rule, "rb").read() if os.path.exists(rule) else None
            with open(os.path.join(folder, "stdout"), "wb") as f:
                f.write(expected(content, open(os.path.join(folder, "stdin"), "rb").read()))
        return
    passed = failed = 0
    for name, make, data, want in list(stored()) + list(made()):
        for size in PIECES:
            if size == 1 and len(data) > 100000:
                continue
            folder = tempfile.mkdtemp()
            try:
                make(folder)
                got = run(folder, data, size)
            finally:
                shutil.rmtree(folder)
            if got == want:
                passed += 1
            else:
                failed += 1
                print(f"{name}, pieces of {size}: got {got[:80]!r}, expected {want[:80]!r}")
    for name, got, want in unwritten():
        if got == want:
            passed += 1
        else:
            failed += 1
            print(f"{name}: said {got!r}, expected {want!r}")
    timed()
    print(f"{passed} passed, {failed} failed")


main()
