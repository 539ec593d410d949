#!/usr/bin/env python3
"""Compares reference.py with the independent matcher in src/independent on random calls: outcomes, steps, rows, names, refusals with
their places, what explanations tell and mark, the parts of a batch's lines, and what is said of proposals.

Neither is the library, and they share no line: where they differ, one of the two reads the documents wrongly.
Usage: harness/compare_reference.py [ARGUMENTS OF print_calls] (after `cargo build --release` in harness/), such as --explanations,
       --scans, --batches or --checks
       harness/compare_reference.py --lookups [ARGUMENTS OF print_lookups], for the field lookup
       harness/compare_reference.py --cards [ARGUMENTS OF print_cards], for rule cards
"""
import subprocess
import sys
from pathlib import Path

import call_vectors
import reference

PROGRAMS = Path(__file__).resolve().parent / "target" / "release"


def shown(lines):
    """The lines of call_vectors in the words of the independent matcher."""
    head, rows, others = lines[0], [], ""
    for line in lines[1:]:
        first, *more = line.split()
        if first.isdigit():
            rows.append(" ".join([first + "-" + more[0]] + more[1:]))
        elif head.startswith("done") and first != "names":
            rows.append(line[2:])
        else:
            others += line[1:]
    if head.startswith("refused"):
        return head
    ending, number, what = head.rsplit(" ", 2)
    return "%s, %s %s [%s]%s" % (ending, number, what, "; ".join(rows), others)


def call(fields):
    """What reference.py says of a line of print_calls."""
    *numbers, rule, subject, proposal = fields
    kind, flags, budget, *areas = map(int, numbers)
    return shown(call_vectors.told(kind, bytes.fromhex(rule), flags, bytes.fromhex(subject), budget, areas, bytes.fromhex(proposal)))


def lookup(fields):
    """What reference.py says of a line of print_lookups."""
    name, index, line, kind, row, standing = fields
    field = reference.field(bytes.fromhex(name), bytes.fromhex(index), bytes(int(line)), int(kind), list(map(int, row.split())), bytes(int(standing)))
    return "%d %d %d" % field


def card(fields):
    """What reference.py says of a line of print_cards."""
    rule, flags, given, *areas = fields
    try:
        if rule != "read":
            return "written " + reference.card_write(bytes.fromhex(rule), int(flags), int(given), *map(int, areas)).hex()
        rule, *said = reference.card_read(bytes.fromhex(given), *map(int, areas))
        return "read %s flags %d budget %d groups %d" % (rule.hex(), *said)
    except reference.Refuse as refused:
        return "refused %d at %d" % (refused.n, refused.p)


OTHERS = {"--lookups": ("print_lookups", lookup, "lookups"), "--cards": ("print_cards", card, "cards")}


def main():
    arguments, compared, differ = sys.argv[1:], 0, 0
    program, told, what = next((OTHERS[word] for word in arguments if word in OTHERS), ("print_calls", call, "calls"))
    given = [word for word in arguments if word not in OTHERS]
    for line in subprocess.run([PROGRAMS / program, *given], capture_output=True, text=True, check=True).stdout.splitlines():
        *fields, answer = line.split("\t")
        ours = told(fields)
        compared += 1
        if ours != answer:
            differ += 1
            print("%s\n  reference:   %s\n  independent: %s" % (line.rsplit("\t", 1)[0], ours, answer))
    print("%d %s compared, %d differ" % (compared, what, differ))
    sys.exit(differ > 0)


if __name__ == "__main__":
    main()
