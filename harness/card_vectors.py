#!/usr/bin/env python3
"""Writes the rules and cards that crates/card_vectors is run on, and what it must say of them: cards that are written, and cards that are read.

What must be said comes from reference.py, an independent reading of documents 01 and 02: no line of it is shared with the library.
Usage: harness/card_vectors.py (in the repository's root)
"""
import sys
from pathlib import Path

import reference
from reference import CARD_AREA, DEPOT, FLAGS, GROUPS, I, RULE_AREA, RULE_BYTES, X

TARGET = Path(__file__).resolve().parent.parent / "crates" / "card_vectors"
ROOM = 262144  # what the program reads of its input
WRITE, READ = range(2)

# Rules that are written, with flags and budget: with padding and without, with bytes that are kinds of records, at the limits.
RULES = [
    (b"", 0, 0), (b"", FLAGS - 1, 65535), (b"a", 0, 1000), (b"\0", 0, 0x0302), (b"\0\0", 0, 1), (b"(\\d+),(\\d+)", 0, 1000), (b"(?<litres>\\d+) l", I, 0x0101),
    (b"( a ) # b", X, 65535), (b"( a* ) {2}", DEPOT | X, 255), (b"\1\2\3\0\0\3", 0, 3), (b"\3" * 31, 0, 3), (b"\2" * 32, 0, 0x0203), (b"\1" * 33, 0, 0x0300),
    (b"a" * 64, 0, 1), (b"()" * GROUPS, 0, 9), (b"[" + b"a-z" * 332 + b"\xff]", I, 256), (b"a" * 1000, 0, 1),
]

# Rules that are refused, by each number that writing can give but for the areas, and by several at once.
REFUSED = [
    (b"a" * 1001, 0, 1), (b"a", FLAGS, 1), (b"a", 255, 1), (b"a", 256, 1), (b"a", 0, 65536), (b"a", 0, 4294967295), (b"(", 0, 1), (b"a**", 0, 1), (b"()\\2", 0, 1),
    (b"()" * (GROUPS + 1), 0, 1), (b"(?<n>)(?<n>)", 0, 1), (b"(a?)*", DEPOT, 1), (b"(a)\\1", DEPOT, 1), (b"[A-z]", DEPOT, 1), (b"(", 0, 65536), (b"(", FLAGS, 65536),
    (b"a" * 1001, FLAGS, 65536),
]


def form(flags, budget, groups, text, length):
    """A card by its form, whatever it says."""
    pieces = b"".join(b"\2" + text[at:at + 32].ljust(32, b"\0") for at in range(0, len(text), 32))
    return bytes([1, flags]) + budget.to_bytes(2, "little") + bytes([groups]) + pieces + b"\3" + length.to_bytes(2, "little")


def changed(card, values):
    """A card cut off at each place, with each byte changed, with bytes behind it, and with each record left out, doubled and put first."""
    yield from (card[:size] for size in range(len(card) + 1))
    for at, byte in enumerate(card):
        yield from (card[:at] + bytes([value]) + card[at + 1:] for value in (*values, byte ^ 1))
    yield from (card + behind for behind in (b"\0", b"\1", b"\2", b"\3", b"\4", card))
    records = [card[:5], *(card[at:at + 33] for at in range(5, len(card) - 3, 33)), card[-3:]]
    for at in range(len(records)):
        yield b"".join(records[:at] + records[at + 1:])
        yield b"".join(records[:at + 1] + records[at:])
        yield b"".join(records[at:] + records[:at])


def cards():
    """Cards as they are written, changed ones, and others that have their form but for one thing or several."""
    yield from (reference.card_write(*rule, RULE_AREA, CARD_AREA) for rule in RULES)
    yield from changed(form(0, 0, 0, b"", 0), (0, 1, 2, 3, 4, 32, 128, 255))
    yield from changed(form(0, 1000, 2, b"(\\d+),(\\d+)", 11), (0, 1, 2, 3, 4, 255))
    yield from changed(form(0, 0x0302, 0, b"\1\2\3" * 11, 33), (0,))
    # the first refusal is due, whatever else is wrong behind it
    yield from (b"\4", b"\0", b"\xff", b"\3\0\0\4", b"\2" + bytes(32) + b"\4", b"\1\0\0\0\0" * 2 + b"\3\0", b"\1\0\0\0\0\3\3\xe9")
    for flags in (15, 16, 31, 32, 63, 255):
        yield form(flags, 1, 1, b"(a)", 3)
    for text in (b"(a)\\1", b"(a?)*", b"[A-z]", b"a**", b"( a )"):
        for flags in (0, DEPOT, DEPOT | X):
            yield from (form(flags, 1, groups, text, len(text)) for groups in (0, 1))
    for groups in (0, 1, 31, 32, 33, 63, 64, 65, 255):
        yield from (form(0, 1, number, b"()" * groups, 2 * groups) for number in (groups, GROUPS, groups ^ 1))
    for size, length in ((1000, 1000), (1001, 1001), (1024, 1024), (1025, 1025), (1024, 1000), (1056, 1025), (992, 993), (992, 992), (992, 960)):
        yield form(0, 1, 0, b"a" * size, length)


def cases():
    """kind, flags, budget, the lengths of the rule area and of the area that is written, and the bytes of a rule or a card."""
    for rule, flags, budget in RULES + REFUSED:
        yield WRITE, flags, budget, RULE_AREA, CARD_AREA, rule
    for card in dict.fromkeys(cards()):
        yield READ, 0, 0, RULE_AREA, RULE_BYTES, card
    for rule_area in (0, RULE_AREA - 1, RULE_AREA + 1):
        for more in (-1, 0, 1):
            for rule, flags, budget in ((b"(a)", 0, 1), (b"(", 0, 1), (b"(", FLAGS, 65536)):
                yield WRITE, flags, budget, rule_area, CARD_AREA + more, rule
            for card in (form(0, 1, 1, b"(a)", 3), form(0, 1, 0, b"(a)", 3), form(0, 1, 0, b"(a", 2), form(FLAGS, 1, 0, b"(a", 2), form(0, 1, 0, b"a", 0), b"\1"):
                yield READ, 0, 0, rule_area, RULE_BYTES + more, card


def told(kind, flags, budget, rule_area, area, given):
    try:
        if kind == WRITE:
            card = reference.card_write(given, flags, budget, rule_area, area)
            words = ["written", len(card), *card]
        else:
            rule, *settings = reference.card_read(given, rule_area, area)
            words = ["read", len(rule), *settings, *rule]
    except reference.Refuse as refused:
        words = ["refused", refused.n, "at", refused.p]
    return " ".join(map(str, words))


def main():
    asked = ["%d %d %d %d %d %s\n" % (*numbers, given.hex()) for *numbers, given in cases()]
    size = sum(map(len, asked))
    if size > ROOM:
        sys.exit("more than the %d bytes that the program reads" % ROOM)
    TARGET.joinpath("stdin").write_text("".join(asked))
    TARGET.joinpath("stdout").write_text("".join(told(*case) + "\n" for case in cases()))
    print("%d cards, %d bytes" % (len(asked), size), file=sys.stderr)


if __name__ == "__main__":
    main()
