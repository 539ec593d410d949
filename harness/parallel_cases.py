#!/usr/bin/env python3
"""Runs the guide's commands for several processes and hosts, as they stand in it, and compares what they write with one run, byte by byte.

The commands are the indented lines of docs/GUIDE.md, "Several processes and hosts"; only the blocks are made smaller, so that small files have several. What one
run writes is the claim, and so it is what is expected; the programs by themselves are tested elsewhere. Processes are killed by a stand-in for the program,
which kills itself, or parallel, at its first tries of one block. Hosts are folders with a home and a PATH of their own, reached by a stand-in for ssh.
Usage: harness/parallel_cases.py (after `./build gateway fields`; needs GNU parallel). The last line is 'N passed, M failed'.
"""
import os
import random
import re
import shutil
import signal
import subprocess
import sys
import time
from pathlib import Path

from cases import Cases

ROOT = Path(__file__).resolve().parent.parent
PROGRAMS = ROOT / "target" / "bin"
RULE = rb"^(?:tank (?<tank>\w+): (?<litres>\d+) L|(?:(?<thousands>\d{1,3},\d{3})|(?<decimal>\d+,\d+)) L|(?<rest>\w*\xff+))\r?$"
LINES = 20000
# No command of these cases takes nearly so long.
SECONDS = 40

# What stands in for ssh: the command is a text for the user's shell, started at home with an environment of its own, and what is read goes through a pipe.
SSH = r'''#!%(python)s
import os, subprocess, sys
words = [word for word in sys.argv[1:] if word != "--"]
home = %(hosts)r + "/" + words[0]
if os.path.exists(home + "/unreachable"):
    print("ssh: connect to host", words[0], "port 22: No route to host", file=sys.stderr)
    sys.exit(255)
there = {"HOME": home, "PATH": open(home + "/path").read(), "SHELL": "/bin/bash", "LANG": "C"}
started = subprocess.Popen(["/bin/bash", "-c", " ".join(words[1:])], cwd=home, env=there, stdin=subprocess.PIPE, bufsize=0)
try:
    while data := os.read(0, 65536):
        started.stdin.write(data)
    started.stdin.close()
except BrokenPipeError:
    pass
status = started.wait()
sys.exit(status if status >= 0 else 255)
'''

# What stands in for a program: at its first TIMES tries of a block it answers 500 lines and then kills itself or parallel.
KILLED = r'''#!/bin/bash
tries=%(folder)s/tries
if [ "$PARALLEL_SEQ" = %(block)d ] && [ "$(cat "$tries" 2>/dev/null | wc -l)" -lt %(times)d ]; then
    echo "$PARALLEL_SSHLOGIN" >>"$tries"
    head -n 500 | %(program)s "$@"
    kill -9 %(victim)s
fi
exec %(program)s "$@"
'''


def commands():
    """The guide's commands, by what they are for; and what it shows of a run with a gap."""
    guide = (ROOT / "docs" / "GUIDE.md").read_text()
    told = re.search(r"^## Several processes and hosts\n(.*?)(?=^## )", guide, re.S | re.M).group(1)
    found = ["\n".join(line[4:] for line in block.split("\n")) for block in re.split(r"\n\n+", told) if block.startswith("    ")]
    names = ("filter", "check", "gap", "parts", "again", "hosts", "table", "split")
    if len(found) != len(names):
        sys.exit("the guide has %d blocks of commands and not %d" % (len(found), len(names)))
    return told, dict(zip(names, found))


def odd_lines(seed):
    """Lines of every kind: 0D, 00, FF, empty, around 256 bytes and over 65,535."""
    chance = random.Random(seed)
    lines = []
    for number in range(LINES):
        kind = chance.random()
        if kind < 0.6:
            line = b"tank A%d: %d L" % (number % 9, chance.randrange(2000))
        elif kind < 0.8:
            line = b"%d,%03d L\r" % (chance.randrange(1, 999), chance.randrange(1000))
        elif kind < 0.9:
            line = b""
        else:
            line = bytes(chance.choice(b"ab \t\\\x00\r\xe9\xff") for _ in range(chance.choice([1, 5, 20])))
        lines.append(line)
    for length in (255, 256, 257, 300, 65534, 65535, 65536, 70000):
        lines[chance.randrange(LINES)] = b"a" * (length // 2) + b"\xff" * (length - length // 2)
    return b"\n".join(lines)


def sessions():
    """The sessions of all processes that have not ended."""
    found = set()
    for file in Path("/proc").glob("[0-9]*/stat"):
        try:
            state, _, _, session = file.read_text(errors="replace").rsplit(")", 1)[1].split()[:4]
        except OSError:
            continue
        if state != "Z":
            found.add(int(session))
    return found


class Spreads(Cases):
    def __init__(self):
        super().__init__(PROGRAMS / "gateway")
        self.top = Path.cwd()
        self.told, self.commands = commands()
        self.first = self.top / "first"
        self.hosts = self.top / "hosts"
        for folder in (self.first, self.hosts, self.top / "home", self.top / "tmp"):
            folder.mkdir()
        plain = {name: value for name, value in os.environ.items() if not name.startswith("PARALLEL")}
        self.env = {**plain, "HOME": str(self.top / "home"), "TMPDIR": str(self.top / "tmp"), "PATH": "%s:%s:%s" % (self.first, PROGRAMS, os.environ["PATH"]), "SHELL": "/bin/bash"}
        self.number = 0

    def day(self, data, rule=RULE):
        """A new folder with a day's file, and all stand-ins gone."""
        self.number += 1
        folder = self.top / ("case%d" % self.number)
        folder.mkdir()
        os.chdir(folder)
        Path("day.txt").write_bytes(data)
        Path("rule.txt").write_bytes(rule + b"\n")
        for file in self.first.iterdir():
            file.unlink()
        shutil.rmtree(self.hosts)
        self.hosts.mkdir()

    def one_run(self, program):
        """What one run writes, and how many lines a day has."""
        with open("day.txt", "rb") as lines:
            words = [PROGRAMS / program] + (["rule.txt", "/dev/stdin"] if program == "fields" else [])
            return subprocess.run(words, stdin=lines, stdout=subprocess.PIPE, stderr=subprocess.DEVNULL, timeout=SECONDS).stdout

    def do(self, command, block="100K", added="", shell="bash"):
        """Runs commands of the guide, with a smaller block and with options added behind `--pipe`; status, standard output and standard error."""
        text = self.commands[command]
        if block and "--block 10M" in text:
            text = text.replace("--block 10M", "--block " + block)
        text = text.replace("--pipe ", "--pipe %s " % added) if added else text
        ran = subprocess.Popen([shell, "-c", text], env=self.env, stdin=subprocess.DEVNULL, stdout=subprocess.PIPE, stderr=subprocess.PIPE, start_new_session=True)
        try:
            out, said = ran.communicate(timeout=SECONDS)
        except subprocess.TimeoutExpired:
            os.killpg(ran.pid, signal.SIGKILL)
            out, said = ran.communicate()
            said += b"no end after %d seconds\n" % SECONDS
        # where parallel was killed, its processes may still have a part to write
        end = time.monotonic() + SECONDS
        while ran.pid in sessions() and time.monotonic() < end:
            time.sleep(0.05)
        return ran.returncode, out.decode("latin1"), said.decode("latin1")

    def quietly(self, name, command, **options):
        """Commands that have nothing to say, but for how far they are."""
        status, out, said = self.do(command, **options)
        self.same(name + ", said", "%d %s%s" % (status, out, re.sub(r"^fields: \d+ lines\n", "", said, flags=re.M)), "0 ")

    def written(self, name, file, expected):
        self.same(name, Path(file).read_bytes(), expected)

    def nothing_missing(self, name, log="day.log"):
        """The guide's check, on answers that are whole."""
        data = Path("day.txt").read_bytes()
        lines = data.count(b"\n") + (data[-1:] not in (b"", b"\n"))
        if log != "day.log":
            shutil.copy(log, "day.log")
        self.same(name + ", checked", "%d %s%s" % self.do("check"), "0 day.txt:%d\nday.answers:%d\n" % (lines, lines))

    def kill(self, program, block, times, victim="$$"):
        """Has a block's process killed at so many tries."""
        file = self.first / program
        file.write_text(KILLED % {"folder": Path.cwd(), "block": block, "times": times, "program": PROGRAMS / program, "victim": victim})
        file.chmod(0o755)

    def tries(self):
        return Path("tries").read_text().splitlines()

    def reachable(self, *hosts, unreachable=()):
        ssh = self.first / "ssh"
        ssh.write_text(SSH % {"python": sys.executable, "hosts": str(self.hosts)})
        ssh.chmod(0o755)
        for host in (*hosts, *unreachable):
            (self.hosts / host).mkdir()
            (self.hosts / host / "path").write_text("%s:%s:/usr/bin:/bin" % (self.first, PROGRAMS))
        for host in unreachable:
            (self.hosts / host / "unreachable").touch()

    def rows(self, log="day.log"):
        """The rows of a log: block, host, exit value and signal."""
        rows = [row.split("\t") for row in Path(log).read_text().splitlines()[1:]]
        return [(int(row[0]), row[1], int(row[6]), int(row[7])) for row in rows]


DAYS = (("lines of every kind, no 0A at the end", odd_lines(1)), ("lines of every kind", odd_lines(2) + b"\n"), ("no lines", b""), ("one line without 0A", b"tank A1: 7 L"),
        ("one empty line", b"\n"), ("empty lines", b"\n" * 120000))
ODD = DAYS[0][1]
ALIKE = b"tank A1: 820 L\n" * LINES


def filters(t):
    for name, data in DAYS:
        t.day(data)
        t.quietly(name, "filter")
        t.written(name + ", answers", "day.answers", t.one_run("gateway"))
        t.nothing_missing(name)
        blocks = len(t.rows())
        t.same(name + ", several blocks", str(blocks if len(data) < 100000 else blocks > 1), {b"": "0"}.get(data, "1") if len(data) < 100000 else "True")
    t.day(ODD)
    t.quietly("by another shell", "filter", shell="sh")
    t.written("by another shell, answers", "day.answers", t.one_run("gateway"))
    # the command as it stands, with its own block
    t.day(b"".join(line + b"x" * 1300 * (number % 3 > 0) + b"\n" for number, line in enumerate(ALIKE.split(b"\n")[:-1])))
    t.quietly("blocks of 10 MB", "filter", block=None)
    t.written("blocks of 10 MB, answers", "day.answers", t.one_run("gateway"))
    t.same("blocks of 10 MB, blocks", str(len(t.rows())), "2")


def killed(t):
    """A process that is killed, and its block done again; or not, as often as it is tried."""
    t.day(ODD)
    t.kill("gateway", 3, 1)
    t.quietly("killed once", "filter")
    t.written("killed once, answers", "day.answers", t.one_run("gateway"))
    t.same("killed once, tries", t.tries(), [":"])
    t.nothing_missing("killed once")
    t.day(ODD)
    t.kill("gateway", 1, 2)
    t.quietly("killed twice", "filter", block="200K")
    t.written("killed twice, answers", "day.answers", t.one_run("gateway"))
    t.same("killed twice, tries", t.tries(), [":", ":"])

    t.day(ALIKE)
    t.kill("gateway", 2, 3)
    t.same("killed at each try, status", str(t.do("filter")[0]), "1")
    t.same("killed at each try, tries", t.tries(), [":"] * 3)
    t.same("killed at each try, what is seen", t.do("check")[1], t.commands["gap"] + "\n")
    # One job after another too, since with more all other blocks may be done before the last try; with more the first is killed, whose row waits for none.
    halt = re.search(r"`(--halt \S+)`", t.told).group(1)
    for name, failed, added in (("with --halt", 1, halt), ("with --halt, one job", 2, "--jobs 1 " + halt)):
        t.day(ALIKE)
        t.kill("gateway", failed, 3)
        status = t.do("filter", block="10K", added=added)[0]
        t.same(name + ", status", [status], [value or 128 + number for block, _, value, number in t.rows() if block == failed])
    t.same("with --halt, other blocks are not begun", [block for block, *_ in t.rows()], [1, 2])


def rules(t):
    """No rule, or one that is refused: an answer for each block."""
    for name, rule, answer in (("a refused rule", b"(", "R 20 0\n"), ("no rule", None, "F\n")):
        t.day(ALIKE, rule or b"")
        if rule is None:
            Path("rule.txt").unlink()
        t.do("filter")
        t.same(name, Path("day.answers").read_text(), answer * 3)
        t.same(name + ", what is seen", t.do("check")[1].split("\n")[:2], ["day.txt:%d" % LINES, "day.answers:3"])


def put_together(t, name, **options):
    t.quietly(name, "again", **options)
    t.written(name + ", answers", "day.answers", t.one_run("gateway"))


def gap(t, name):
    """The parts that are there put together, and the guide's check of them."""
    shutil.copy("parts/log", "day.log")
    subprocess.run(["sh", "-c", t.commands["again"].split("\n")[1]], check=True)
    there = sum(path.read_bytes().count(b"\n") for path in Path("parts").iterdir() if path.name.isdigit())
    t.same(name + ", numbers", t.do("check")[1].split("\n")[:2], ["day.txt:%d" % LINES, "day.answers:%d" % there])
    t.same(name + ", fewer", str(there < LINES), "True")


def parts(t):
    """Parts in files: one that was killed, parallel itself killed, a file that is gone, a full disk."""
    t.day(ODD)
    t.quietly("parts", "parts")
    put_together(t, "parts, nothing to do again")
    t.nothing_missing("parts", "parts/log")
    before = sorted(path.name for path in Path("parts").iterdir() if path.name.isdigit())
    Path("parts/2").unlink()
    gap(t, "a file that is gone")
    t.same("a file that is gone, files", sorted(path.name for path in Path("parts").iterdir() if path.name.isdigit()), [name for name in before if name != "2"])

    t.day(b"".join(b"tank A1: %d L\n" % number for number in range(LINES)))
    t.quietly("more than nine parts", "parts", block="20K")
    t.same("more than nine parts, how many", str(len(t.rows("parts/log")) > 9), "True")
    put_together(t, "more than nine parts", block="20K")

    t.day(ODD)
    t.kill("gateway", 3, 1)
    t.same("a part is killed, status", str(t.do("parts")[0]), "1")
    t.same("a part is killed, its answers", str(Path("parts/3").read_bytes().count(b"\n")), "500")
    failed = [row[0] for row in t.rows("parts/log") if row[2] or row[3]]
    t.same("a part is killed, the log", failed, [3])
    done = len(t.rows("parts/log"))
    put_together(t, "a part is done again")
    t.same("nothing else is done again", [block for block, *_ in t.rows("parts/log")[done:]], [3])

    t.day(ODD)
    t.kill("gateway", 3, 1, "$PARALLEL_PID")
    # one part after another, since with more all others may be done before it is killed
    t.same("parallel is killed, status", str(t.do("parts", added="--jobs 1")[0]), "137")
    done = [block for block, *_ in t.rows("parts/log")]
    t.same("parallel is killed, the log", str(len(done) < 4 and 3 not in done), "True")
    put_together(t, "parallel is run again")
    t.same("what was done is not done again", sorted(block for block, *_ in t.rows("parts/log")), list(range(1, len(t.rows("parts/log")) + 1)))

    t.day(ODD)
    Path("parts").mkdir()
    Path("parts/2").symlink_to("/dev/full")
    t.commands["full"] = t.commands["parts"].split("\n")[1]
    status, _, said = t.do("full")
    t.same("a full disk", said, "")
    t.same("a full disk, what is said", Path("parts/2.err").read_text(), "gateway: the answers could not be written: No space left on device\n")
    Path("parts/2").unlink()
    gap(t, "a full disk")
    # a last block that is read before its answers are written
    t.day(b"\n" * 5)
    Path("parts").mkdir()
    Path("parts/1").symlink_to("/dev/full")
    t.same("a full disk at the end, status", str(t.do("full")[0]), "0")
    t.same("a full disk at the end, the log", [row[2:] for row in t.rows("parts/log")], [(0, 0)])
    t.same("a full disk at the end, what is said", Path("parts/1.err").read_text(), "gateway: the answers could not be written: No space left on device\n")


def hosts(t):
    t.day(ODD)
    t.reachable("host1", "host2")
    t.quietly("hosts", "hosts")
    t.written("hosts, answers", "day.answers", t.one_run("gateway"))
    t.nothing_missing("hosts")
    t.same("hosts, both", sorted({host for _, host, _, _ in t.rows()}), ["host1", "host2"])
    for host in ("host1", "host2"):
        t.same("the rule on " + host, (t.hosts / host / "day" / "rule.txt").read_bytes(), RULE + b"\n")

    t.day(ODD)
    t.reachable("host1", "host2")
    t.kill("gateway", 2, 1)
    t.quietly("killed on a host", "hosts")
    t.written("killed on a host, answers", "day.answers", t.one_run("gateway"))
    done = [host for block, host, _, _ in t.rows() if block == 2]
    t.same("killed on a host, done on the other", sorted(done + t.tries()), ["host1", "host2"])

    t.day(ODD)
    t.reachable("host1", unreachable=["host2"])
    status, out, said = t.do("hosts")
    t.same("a host that cannot be reached", "%d %s" % (status, out), "0 ")
    t.same("a host that cannot be reached, what is said", sorted(set(said.splitlines())), ["ssh: connect to host host2 port 22: No route to host"])
    t.written("a host that cannot be reached, answers", "day.answers", t.one_run("gateway"))
    t.same("a host that cannot be reached, the other", sorted({host for _, host, _, _ in t.rows()}), ["host1"])


def tables(t):
    for name, data in DAYS:
        t.day(data)
        t.quietly("table, " + name, "table")
        t.written("table, %s, rows" % name, "day.table", t.one_run("fields"))
    t.day(ODD)
    t.kill("fields", 2, 1)
    t.quietly("table, killed once", "table")
    t.written("table, killed once, rows", "day.table", t.one_run("fields"))
    t.same("table, killed once, tries", t.tries(), [":"])
    t.day(ALIKE)
    t.kill("fields", 2, 3)
    status, out, said = t.do("table")
    # bash tells of the killed process too
    t.same("table, killed at each try", "%d %s%s" % (status, out, said.splitlines()[-1]), "1 13674 rows for 20000 lines: do not use them")
    t.day(ODD)
    t.reachable("host1", "host2")
    for host in ("host1", "host2"):
        (t.hosts / host / "day").mkdir()
        shutil.copy("rule.txt", t.hosts / host / "day")
    t.quietly("table, hosts", "table", added="--sshlogin 4/host1,4/host2 --workdir day")
    t.written("table, hosts, rows", "day.table", t.one_run("fields"))


def without_parallel(t):
    for name, data in DAYS[:3]:
        t.day(data)
        t.quietly("split, " + name, "split", shell="sh")
        t.written("split, %s, answers" % name, "day.answers", t.one_run("gateway"))


def what_is_said(t):
    """No command of the guide does what it warns of, and its options are those of its commands."""
    for name, text in t.commands.items():
        t.same("%s: no options that go wrong" % name, re.findall(r"--(?:pipepart|cat|fifo)\b", text), [])
    used = set(re.findall(r"--[a-z-]+", " ".join(text for name, text in t.commands.items() if name == "filter")))
    t.same("each option is told", sorted(option for option in used if "`%s" % option not in t.told and " %s" % option not in t.told), [])
    version = subprocess.run(["parallel", "--version"], capture_output=True, text=True).stdout.split("\n")[0]
    t.same("GNU parallel", version[:13], "GNU parallel ")
    print(version)


def main():
    t = Spreads()
    for part in (what_is_said, filters, killed, rules, parts, hosts, tables, without_parallel):
        part(t)
    os.chdir(t.top)
    t.end()


if __name__ == "__main__":
    main()
