#!/usr/bin/env python3
"""Writes the walks that crates/walk_vectors is run on, and what it must say of them: each end with its captures and steps.

What must be said comes from reference.py, an independent reading of documents 01 and 02: no line of it is shared with the library.
Usage: harness/walk_vectors.py (in the repository's root)
"""
import random
import sys
from pathlib import Path

import reference
from reference import DEPOT, GROUPS, I, M, S, X

TARGET = Path(__file__).resolve().parent.parent / "crates" / "walk_vectors"

# The readings of document 01, its traps, and the inputs that tell the readings of open points of 01 and 02 apart: rule, flags, subject.
READINGS = [
    (b"", 0, b""), (b"a", 0, b"a"), (b"a", 0, b"b"), (b"a|b", 0, b"b"), (b"a*", 0, b"aa"), (b"(\\d+),(\\d+)", 0, b"1,5"), (b"(a?)*", 0, b"b"),
    (b"^(?:(\\d{1,3},\\d{3})|(\\d+,\\d+)) L$", 0, b"1,500 L"), (b"[][]", 0, b"]"), (b"[[]]", 0, b"[]"), (b".", 0, b"\n"), (b".", 1, b"\n"), (b"(", 0, b""),
    (b"a**", 0, b""), (b"\\1", 0, b""), (b"[z-a]", 0, b""), (b"a|ab", 0, b"ab"), (b"(a)b|a", 0, b"a"), (b"(?:()a|()b){2}", 0, b"bb"), (b"\\1*?(a)$", 0, b"aa"),
    (b"(a?)*", 0, b"aa"), (b"(|a){2,3}$", 0, b"a"), (b"(){3}", 0, b""), (b"a$", 0, b"a\n"), (b"a\\z", 0, b"a\n"), (b"a\\Z", 0, b"a\n"), (b"a$", 2, b"a\nb"), (b"^", 2, b"a\nb\n"),
    (b"^b", 2, b"a\nb"), (b"\\bab\\b", 0, b"ab c"), (b"\\B.", 0, b"ab"), (b"(a)|a", 0, b"a"), (b"((a)*)*", 0, b"a"), (b"(a|b\\1)+", 0, b"aba"), (b"a?", 0, b"a"), (b"a{1}", 0, b"a"),
    (b"a{0}", 0, b""), (b"a|a", 0, b"a"), (b"a|a|(a)", 0, b"a"), (b"\\1(a)", 0, b"a"), (b"(?:|a)", 0, b""), (b"(?:)", 0, b""), (b"a*?", 0, b"aa"), (b"a+?b", 0, b"aab"), (b"(a{2}){2}", 0, b"aaaa"),
    (b"(?:a|ab)(?:c|bcd)", 0, b"abcd"), (b"(.)(.)\\g{-2}\\g{-1}", 0, b"ABAB"), (b"(\\w+)\\s+\\1", 0, b"the the"), (b"(a*)*", 0, b"aa"), (b"(a*)+", 0, b"b"), (b"(?:a*?)*?b", 0, b"aab"),
    (b"(a|ab)(c|bcd)(d*)", 0, b"abcd"), (b"x*", 0, b"aaa"), (b"(?:a?){3}a{3}", 0, b"aaa"), (b"(a+)(a+)(a+)", 0, b"aaaaa"), (b"[^a]", 0, b"\n"), (b"[\\x80-\\xff]", 0, b"\x80"), (b"\\x00", 0, b"\x00"),
    (b"(?:a{0,2}){0,2}", 0, b"aaaa"), (b"(a){2,}?", 0, b"aaaa"), (b"\\d+(?:,\\d{3})*", 0, b"1,500,000"), (b"(foo|foobar)(bar)?", 0, b"foobar"),
    (b"^(\\d+)\\h(\\d{3}) L$", 0, b"1\xa0500 L"), (b"[^\\H]|\\s", 0, b"\xa0"), (b"(\\v|[\\H])*", 0, b"\x85\xa0"), (b"[[:blank:]\\s\\w]", 0, b"\xa0\x85"), (b"a$", 2, b"a\x85"),
    (b"(aa)\\1", 0, b"aaaa"), (b"()\\1", 0, b""), (b"(abc)\\1", 0, b"abcxx"), (b"(ab)\\1", 0, b"aba"), (b"(a)\\1", 0, b"ab"), (b"(?:(a+)\\1)+", 0, b"aaaa"),
    (b"(a*)\\1\\1", 0, b"aaaaaaa"), (b"(a|ab)+?\\1$", 0, b"aabab"),
    (b"(a)\\1", I, b"aA"), (b"(ab)\\1", I, b"abAcAB"), (b"[[:^upper:]]", I, b"a"), (b"[^a]", I, b"A"), (b"[^[:^upper:]]", I, b"a"), (b"\\x41", I, b"a"), (b"\\o{101}", I, b"a"),
    (b"[\\101]", I, b"a"), (b"[Z-a]", I, b"zb"), (b"[a-Z]", I, b""), (b"[\\x41-\\x5a]", I, b"q"), (b"\xe9", I, b"\xc9"), (b"\\bA\\b|\\W", I, b"a b"), (b"tank (\\d+) L", I, b"TANK 7 l"),
    (b"(?:a|B)*", I, b"Ab"), (b"[^A-Y]+?\\z", I, b"zZ1"),
    (b"#\ra", X, b"a"), (b"a#(", X, b"a"), (b"#\\", X, b""), (b"\t\n\x0b\x0c\r a", X, b"a"), (b"a\x85b\xa0", X, b"a\x85b\xa0"), (b"( ?:a)", X, b"a"), (b"(? :a)", X, b"a"), (b"(?: a)", X, b"a"),
    (b"(a)\\1 0", X, b"aa0"), (b"(a)\\10", X, b"aa0"), (b"\\ \\#", X, b" #"), (b"\\c ", X, b""), (b"\\x4 1", X, b""), (b"()\\g {1}", X, b""), (b"a* ?", X, b""), (b"a{2} ?", X, b""), (b"a{2 }", X, b""),
    (b"a {2}", X, b"aa"), (b"a #c\n*", X, b"aa"), (b"a *?", X, b"aa"), (b"^ *", X, b""), (b"( *)", X, b""), (b"\\N {", X, b""), (b"[ ][#][a #]", X, b" ##"), (b"a| ", X, b""), (b"  a**", X, b""),
    (b"^ (?: ( \\d{1,3} , \\d{3} ) | ( \\d+ , \\d+ ) ) \\ L $ # litres", X, b"1,500 L"), (b"( A ) \\1 # twice", I | X, b"aA"), (b"^ A . B $ #\n", S | M | I | X, b"a\nb\n"),
    (b" a B | [^ a ] ", I | X, b"Ab"),
    (b"(\\d+),(\\d+)", DEPOT, b"1,5"), (b"(?:a+)*", DEPOT, b"aa"), (b"(?:ab|c)*?$", DEPOT, b"cab"), (b"[a-z]+(?:,[0-9]{3})*", DEPOT, b"ab,500"), (b"(){0,9}", DEPOT, b""), (b"(a?){2}", DEPOT, b"a"),
    (b"(a?)*", DEPOT, b"a"), (b"(a)\\1", DEPOT, b"aa"), (b"[A-z]", DEPOT, b"a"), (b"()*\\1", DEPOT, b""),
]
# The same for what looks ahead or holds on.
HELD_READINGS = [
    (b"(?=a)", 0, b"a"), (b"(?!b)", 0, b"a"), (b"(?!a)", 0, b"a"), (b"(?!)", 0, b""), (b"(?=)(?>)", 0, b""), (b"\\R", 0, b"\n"), (b"\\R", 0, b"\r\n"), (b"\\R\\n", 0, b"\r\n"), (b"\\R*b", 0, b"\r\r\n\x0b\x85b"),
    (b"a*+", 0, b""), (b"a{2}+", 0, b"aa"), (b"a++a", 0, b"aaa"), (b"a?+a", 0, b"aa"), (b"(?:ab|a)*+c", 0, b"abac"), (b"(?>a|b)", 0, b"b"), (b"(?>a|ab)c", 0, b"abc"), (b"(?>a*?)a", 0, b"aa"), (b"(?>a|a)", 0, b"a"),
    (b"(?=(a))\\1", 0, b"a"), (b"(?!(a)b)a", 0, b"a"), (b"(?!(a)b)\\1a", 0, b"a"), (b"(a)(?!\\1)", 0, b"aab"), (b"(?=(a))b|a", 0, b"a"), (b"(?:(?=(a))a|b)*", 0, b"ab"), (b"(?>(a)|b)*", 0, b"ab"), (b"(a(?!\\1))+", 0, b"aa"),
    (b"a(?=(b))", 0, b"ab"), (b"(?=(a|ab))", 0, b"ab"), (b"(?=(a))?", 0, b"a"), (b"(?=a)*", 0, b"a"), (b"(?=a){2}", 0, b"a"), (b"(?!a)*", 0, b"a"), (b"(?=a)*+a", 0, b"a"), (b"(?!(?!a))", 0, b"a"), (b"(?=(?>a|ab)c)", 0, b"abc"),
    (b"(?!a*b)", 0, b"aaa"), (b"(?=(aa)\\1)", 0, b"aaaa"), (b"((?!\\1)){2}", 0, b""), (b"(?=A)a", I, b"a"), (b"(?= a ) a ++ # b", X, b"aa"), (b"a* +", X, b""), (b"(?=a)*", DEPOT, b"a"), (b"\\R*", DEPOT, b"\n"), (b"a*+?", 0, b""),
]
# The same with names.
NAMED_READINGS = [
    (b"(?<litres>\\d+)=\\k<litres>", 0, b"7=7"), (b"(?<a>b|c\\g{a})+", 0, b"bcb"), (b"\\k'a'(?<a>b)", 0, b"bb"), (b"(?:\\k{a}c|(?<a>b))+", 0, b"bbc"), (b"(?<a>b)(?<A>c)\\k<A>", I, b"bcC"),
    (b"(?<n> a* ) , \\k<n> $", X, b"aa,aa"), (b"(?<a>)|(?<a>)", 0, b""), (b"(?<a>b)\\k<c>", 0, b"bb"), (b"(?<a", 0, b""), (b"\\k{ a}(?<a>)", X, b""), (b"(a)(?<b>b)?(?:c)((?<d>d))", 0, b"acd"),
]
# As many groups as a rule can have, set and unset, nested and in branches, with references to the last and to one behind it.
MANY_GROUPS = [
    (b"(a)" * (GROUPS // 2) + b"(b)?" * 2 + b"(c)?" * (GROUPS // 2 - 2) + b"\\%d?" % (GROUPS // 2 + 1), b"a" * (GROUPS // 2) + b"bb"), (b"(" * 24 + b"a" + b")" * 24 + b"(b)" * (GROUPS - 24) + b"\\%d" % GROUPS, b"a" + b"b" * (GROUPS - 23)),
    (b"(?:" + b"(a)|" * (GROUPS - 1) + b"(b))*\\%d" % GROUPS, b"abb"), (b"()" * GROUPS + b"\\%d" % (GROUPS + 1), b""), (b"()" * (GROUPS + 1), b""), (b"()" * (GROUPS - 1) + b"(?<n>a)\\k<n>", b"aa"),
]
ATOMS = ["a", "b", "c", ".", "^", "$", "\\b", "\\B", "\\A", "\\z", "\\Z", "\\d", "\\w", "[ab]", "[^a]", "[a-c]", "\\1", "\\2", "\\g-1", "\\n", "1", "\\N", "\\R"]
FOLDED = ["A", "B", "[A-B]", "[^B]", "[[:upper:]]", "[[:^lower:]]", "[Z-a]", "\\x41", "(A)", "\\1"]  # what `i` makes a difference to
BLANKS = [" ", "\t", "\n", "\x0b", "#\n", "# (\n"]  # what `x` skips
NAMED = ["(?<%s>a)", "(?<%s>a|b)", "(?<%s>[ab]*)", "(?<%s>)", "\\k<%s>", "\\k{%s}", "\\k'%s'", "\\g{%s}"]  # with one of two names, which may be used twice or never
REPEATS = ["*", "+", "?", "*?", "+?", "??", "{2}", "{0,2}", "{1,}", "{1,2}?", "{0}", "*+", "?+", "{1,2}+"]
OPENINGS = ["", "", "", "?:", "?:", "?:", "?>", "?=", "?!"]


def blank(flags):
    return random.choice(BLANKS) if flags & X and random.random() < 0.3 else ""


def random_rule(depth, flags=0, named=False):
    """A rule; under `i` half of its atoms are such as `i` tells apart, under `x` blanks and comments stand between its parts; `named` has names."""
    branches = []
    for _ in range(random.choice([1, 1, 1, 2, 3])):
        text = blank(flags)
        for _ in range(random.randint(0, 3)):
            if depth > 0 and random.random() < 0.4:
                part = "(" + random.choice(OPENINGS) + random_rule(depth - 1, flags, named) + ")"
            elif named and random.random() < 0.5:
                part = random.choice(NAMED) % random.choice(["n", "m"])
            else:
                part = random.choice(FOLDED if flags & I and random.random() < 0.5 else ATOMS)
            if part not in ("^", "$", "\\b", "\\B", "\\A", "\\z", "\\Z") and random.random() < 0.4:
                part += blank(flags) + random.choice(REPEATS)
            text += part + blank(flags)
        branches.append(text)
    return "|".join(branches)


def told(rule, flags, subject, start, budget):
    """The lines of one walk, and the steps that it takes."""
    try:
        tree, groups = reference.read(rule, flags)
    except reference.Refuse as refusal:
        return ["%d at %d" % (refusal.n, refusal.p)], 0
    lines, walk = [], reference.Walk(subject, tree, budget)

    def on_end(at, spans):
        shown = "".join(" %d-%d" % spans[g] if g in spans else " -" for g in range(1, groups + 1))
        lines.append("end %d %d%s" % (walk.steps, at, shown))

    try:
        walk.run(start, on_end)
    except reference.Done:
        pass
    lines.append("%s %d" % ("spent" if walk.cut else "done", walk.steps))
    return lines, walk.steps


def cases():
    for rule, flags, subject in READINGS + NAMED_READINGS + HELD_READINGS:
        for start in range(len(subject) + 1):
            yield rule, flags, subject, start, 20000
        steps = told(rule, flags, subject, 0, 20000)[1]
        for budget in {0, steps - 1, steps, steps // 2} - {-1}:
            yield rule, flags, subject, 0, budget
    yield from within_references()
    for rule, subject in MANY_GROUPS:
        for budget in {20000, told(rule, 0, subject, 0, 20000)[1] - 1} - {-1}:
            yield rule, 0, subject, 0, budget
    random.seed(1)
    yield from random_walks(250, 0, "aab1\nc")
    yield from random_walks(150, I, "aAbB1\nZ")
    yield from random_walks(100, X, "aab1\nc")
    yield from random_walks(100, I | X, "aAbB1\nZ")
    yield from random_walks(150, 0, "aabab", True)
    yield from random_walks(50, I | X, "aAbB", True)
    yield from random_walks(100, DEPOT, "aab1\nc")


def random_walks(wanted, flags, letters, named=False):
    """So many walks of few ends under these flags, with `s` and `m` or without; of the rules with names, or under the depot profile, a third may be refused."""
    made = 0
    while made < wanted:
        rule, subject = random_rule(3, flags, named).encode(), "".join(random.choice(letters) for _ in range(random.randint(0, 6))).encode()
        both, start, budget = flags | random.randint(0, 3), random.randint(0, len(subject)), random.choice([50, 500, 2000])
        lines = told(rule, both, subject, start, budget)[0]
        if len(lines) < 25 and not ((named or flags & DEPOT) and " at " in lines[0] and made % 3):
            made += 1
            yield rule, both, subject, start, budget


def within_references():
    """Budgets that end before a reference, at each of its bytes and behind it."""
    for rule, flags, subject, budgets in ((b"(aa)\\1", 0, b"aaaa", range(4, 8)), (b"(a)\\1", 0, b"ab", range(3, 6)), (b"(abc)\\1", 0, b"abcax", range(5, 9)),
                                          (b"(ab)\\1", 0, b"aba", range(4, 7)), (b"(a*),\\1$", 0, b"aaaaaaaa,aaaaaaaa", range(21, 33)),
                                          (b"(ab)\\1", I, b"aBAb", range(4, 8)), (b"(ab)\\1", I, b"aBAc", range(5, 8))):
        for budget in budgets:
            yield rule, flags, subject, 0, budget


def main():
    asked, answers = [], []
    for rule, flags, subject, start, budget in cases():
        asked.append("%d %d %d %s %s\n" % (flags, budget, start, rule.hex(), subject.hex()))
        answers += told(rule, flags, subject, start, budget)[0]
    TARGET.joinpath("stdin").write_text("".join(asked))
    TARGET.joinpath("stdout").write_text("".join(line + "\n" for line in answers))
    print("%d walks, %d bytes, %d lines" % (len(asked), sum(map(len, asked)), len(answers)), file=sys.stderr)


if __name__ == "__main__":
    main()
