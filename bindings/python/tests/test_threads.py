"""Several threads and processes with one rule."""
import concurrent.futures
import threading
import unittest

import terravisco

LINES = [f"tank {number}: {number * 7} L" for number in range(200)]
RULE = terravisco.compile(r"^tank (?<tank>\d+): (?<litres>\d+) L$")


def fields(line):
    return RULE.fields(line)


def told():
    """What one thread after another would be told."""
    return [{"tank": str(number), "litres": str(number * 7)} for number in range(200)]


class Threads(unittest.TestCase):
    def test_one_rule(self):
        with concurrent.futures.ThreadPoolExecutor(8) as pool:
            for _ in range(5):
                self.assertEqual(list(pool.map(fields, LINES)), told())

    def test_several_calls_of_one_rule(self):
        """Calls of every kind at once, with rows and marks of their own."""
        rule, faults = terravisco.compile(r"(\d+),(\d+)"), []

        def work(number):
            line = "x" * number + "1,5 and 22,75"
            for _ in range(50):
                found = [match.span() for match in rule.finditer(line)]
                closest = rule.explain("x" * number + "1;5").closest
                answers = [answer.match.span(2) for answer in rule.match_lines(line + "\n" + line)]
                told = found, closest, answers
                if told != ([(number, number + 3), (number + 8, number + 13)], (number, number + 1, 1), [(number + 2, number + 3)] * 2):
                    faults.append(told)

        threads = [threading.Thread(target=work, args=(number,)) for number in range(6)]
        for thread in threads:
            thread.start()
        for thread in threads:
            thread.join()
        self.assertEqual(faults, [])

    def test_long_calls_of_one_rule(self):
        """Calls that take milliseconds, in which the interpreter's lock is free: without a lock of its own a rule would be cleared under another's walk."""
        rule = terravisco.compile(b"[ab]x|a(c)")
        lines = [b"a" * (30_000 + number) + b"c" for number in range(8)]
        with concurrent.futures.ThreadPoolExecutor(4) as pool:
            for _ in range(10):
                spans = [match.span(1) for match in pool.map(rule.search, lines)]
                self.assertEqual(spans, [(30_000 + number, 30_001 + number) for number in range(8)])

    def test_processes(self):
        with concurrent.futures.ProcessPoolExecutor(2) as pool:
            self.assertEqual(list(pool.map(fields, LINES, chunksize=50)), told())
            # a rule that is sent there, and a match that is sent back
            match = pool.submit(RULE.search, LINES[3]).result()
        self.assertEqual(match.groupdict(), {"tank": "3", "litres": "21"})
