#!/usr/bin/env python3
"""Compares the matches of reference.py with those of the machine's Perl, start, end and captures: each escape for a set on all 256 bytes, and
random rules.

Each difference must be one of docs/DECISIONS.md, "Where Perl 5.36 and PCRE2 10.42 differ", or it is a fault of reference.py.
Usage: harness/compare_perl.py [SEED [CASES]]
"""
import random
import subprocess
import sys

import reference
from walk_vectors import random_rule

PERL = r"""
no warnings;
while (<STDIN>) {
    chomp;
    my ($flags, $rule, $subject, $groups) = split /\t/, $_, -1;
    ($rule, $subject) = (pack("H*", $rule), pack("H*", $subject));
    my $text = "(?^a" . join("", map { $flags & 1 << $_ ? qw(s m i x)[$_] : () } 0 .. 3) . ":$rule" . ($flags & 8 ? "\n" : "") . ")";
    my $compiled = eval { qr/$text/ };
    if (!defined $compiled) { print "refused\n"; next }
    if ($subject !~ $compiled) { print "none\n"; next }
    print join(" ", $-[0], $+[0], map { defined $-[$_] ? "$-[$_]-$+[$_]" : "-" } 1 .. $groups), "\n";
}
"""


def shown(answer, groups):
    if answer[0] == "N":
        return "none"
    row = answer[2]
    spans = ["-" if row[2 * g] == reference.U else "%d-%d" % (row[2 * g], row[2 * g + 1]) for g in range(1, groups + 1)]
    return " ".join(["%d %d" % (row[0], row[1])] + spans)


def set_cases():
    """Each escape for a set, alone, in a class and in a complemented one, on each single byte."""
    for letter in "dDwWsShHvV":
        for form in ("\\%s", "[\\%s]", "[^\\%s]"):
            for b in range(256):
                yield (form % letter).encode(), 0, bytes([b])


def random_case():
    flags = random.randint(0, 15)
    rule = random_rule(3, flags, random.random() < 0.4).encode()
    return rule, flags, "".join(random.choice("aAab1\ncB") for _ in range(random.randint(0, 6))).encode()


def with_answer(rule, flags, subject):
    """The case with what reference.py answers, or none where it refuses the rule or is exhausted."""
    try:
        groups = reference.read(rule, flags)[1]
    except reference.Refuse:
        return None
    answer = reference.match(rule, flags, subject, 20000)
    return None if answer[0] == "X" else (rule, flags, subject, groups, shown(answer, groups))


def main():
    random.seed(int(sys.argv[1]) if len(sys.argv) > 1 else 1)
    cases = [with_answer(*case) for case in set_cases()]
    wanted = len(cases) + (int(sys.argv[2]) if len(sys.argv) > 2 else 5000)
    while len(cases) < wanted:
        case = with_answer(*random_case())
        if case:
            cases.append(case)
    asked = "".join("%d\t%s\t%s\t%d\n" % (flags, rule.hex(), subject.hex(), groups) for rule, flags, subject, groups, _ in cases)
    lines = subprocess.run(["perl", "-e", PERL], input=asked, capture_output=True, text=True, check=True).stdout.split("\n")
    differ = [(case, line) for case, line in zip(cases, lines) if case[4] != line]
    for (rule, flags, subject, _, ours), theirs in differ:
        print("%r flags %d on %r: here %s, Perl %s" % (rule, flags, subject, ours, theirs))
    print("%d matches compared, %d differ" % (len(cases), len(differ)))


if __name__ == "__main__":
    main()
