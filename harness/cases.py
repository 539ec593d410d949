"""What the scripts of cases for the office programs share: a folder to run a program in, what it writes compared, and the counts."""
import os
import subprocess
import sys
import tempfile
import threading
import time

import unwritable

# what the usage texts of several programs say of the flags
FLAGS_USAGE = """\
FLAGS       0 to 31, or letters: s (a dot in the rule takes every byte), m (^ and $ at each 0A),
            i (A to Z and a to z match each other), x (blanks in the rule, and # up to the line's
            end, are skipped), D (the depot profile, which refuses some rules: no references, no
            repeat without upper bound of what may take no bytes, and no range but of digits, of
            upper or of lower letters); - for none, as without it
"""


def fed(program, folder, data, size=0):
    """What a program writes in a folder, to both outputs, and its status, with its input in pieces of a size; 0 is the whole at once."""
    ran = subprocess.Popen([str(program)], cwd=folder, stdin=subprocess.PIPE, stdout=subprocess.PIPE, stderr=subprocess.PIPE, bufsize=0)

    def feed():
        try:
            for at in range(0, len(data), size or max(1, len(data))):
                ran.stdin.write(data[at:at + (size or len(data))])
            ran.stdin.close()
        except BrokenPipeError:
            pass

    feeder = threading.Thread(target=feed)
    feeder.start()
    out, said = ran.stdout.read(), ran.stderr.read()
    feeder.join()
    return out, said, ran.wait()


def window(text):
    """Bytes as a message shows them."""
    return "".join(chr(b) if 32 <= b <= 126 else "." for b in text)


def marked(rule, place):
    """A refused rule as a message shows it, in windows of 64 bytes, with the place marked."""
    out = ""
    for at in range(0, len(rule), 64):
        part = rule[at:at + 64]
        out += "  %s\n" % window(part)
        if at <= place < at + 64:
            out += "  %s\n" % "".join("^" if at + k == place else " " for k in range(len(part)))
    return out


class Cases:
    def __init__(self, program):
        self.program = str(program)
        self.passed = self.failed = 0
        self.folder = tempfile.TemporaryDirectory()
        os.chdir(self.folder.name)

    def same(self, name, got, expected):
        if got == expected:
            self.passed += 1
            return
        self.failed += 1
        at = next((i for i, (a, b) in enumerate(zip(got, expected)) if a != b), min(len(got), len(expected)))
        print("FAILED %s: at %d expected %r, found %r" % (name, at, expected[at:at + 200], got[at:at + 200]))

    def run(self, name, arguments, out, err=""):
        """Runs the program and compares both of what it writes; a text that is None is not looked at."""
        ran = subprocess.run([self.program, *arguments], capture_output=True, timeout=300, stdin=subprocess.DEVNULL)
        for kind, got, expected in (("stdout", ran.stdout, out), ("stderr", ran.stderr, err)):
            if expected is not None:
                self.same("%s, %s" % (name, kind), got.decode("latin1"), expected)
        self.same("%s, status" % name, str(ran.returncode), "0")

    def in_pieces(self, text, out):
        """The lines through a pipe, in pieces of several sizes."""
        for size in (1, 2, 3, 7):
            ran = subprocess.Popen([self.program, "rule", "/dev/stdin"], stdin=subprocess.PIPE, stdout=subprocess.PIPE)
            for at in range(0, len(text), size):
                ran.stdin.write(text[at:at + size])
                ran.stdin.flush()
                time.sleep(0.002)
            self.same("pieces of %d bytes" % size, ran.communicate()[0].decode("latin1"), out)

    def unwritten(self, message):
        """An output that cannot be written: that is said once, and lines that never end are not read on."""
        for name, data in (("lines that never end", None), ("one line", b"y\n"), ("no lines", b"")):
            for place, output, _ in unwritable.OUTPUTS:
                with output() as out:
                    said = unwritable.said([self.program, "rule", "/dev/stdin"], out, data)
                heard = [line for line in said.splitlines() if not line.endswith(" lines")]  # but for its progress
                self.same("%s, %s" % (name, place), heard, [message])

    def end(self):
        print("%d passed, %d failed" % (self.passed, self.failed))
        sys.exit(self.failed > 0)
