#!/usr/bin/env python3
"""Writes the rules that crates/rule_vectors is run on, and what it must say of them.

The verdicts come from reference.py, an independent reading of documents 01 and 02: no line of it is shared with the library.
Usage: harness/rule_vectors.py (in the repository's root)
"""
import re
import sys
from pathlib import Path

import reference
from reference import DEPOT, FLAGS, GROUPS, I, X

ROOT = Path(__file__).resolve().parent.parent
TARGET = ROOT / "crates" / "rule_vectors"
ROOM = 262144  # what the program reads of its input

# As many groups as a rule can have, and a reference to the last of them.
MOST, LAST = b"()" * GROUPS, b"\\%d" % GROUPS

# A fault for each refusal number; 10 and 14 take what follows them with them.
FAULTS = {
    10: b"\\", 11: b"\\q", 12: b"\\x", 13: b"\\9", 14: b"[a", 15: b"[z-a]", 16: b"[[:no:]]", 17: b"|*", 18: b"a{", 19: b"a**",
    20: b"(", 21: b")", 22: b"(?a", 23: b"()" * (GROUPS + 1), 24: b"(" * 25, 25: b"(?<1>", 26: b"(?<a>)(?<a>)",
}

# Examples of Perl's documents that are about syntax: those within this build, and those that it refuses by design.
DOCUMENTS = r"""
[+?*]
[:alpha:]
[[:alpha:]]
[[]]
[\b]
[][]
\A[\0-\x{ff}]\z
\A[\xDF-\xDF]\z
^[^\xDF]+$
[$+<=>^`|~]
['-?]
[()]
[-!]
[.class.]
[=class=]
[0-9]
[0-9a-fA-F]
[1]
[A-Za-z0-9_]
[[:punct:]]
[\h\v]
[]
[^\S\cK]
[^a-z]
[a-f\d]
[aeiou]+
\N{3}
\N{4F}
\N{5,}
\N{COLON}
\N{name}
\p{Thai}
\pL
\R
\X
(?s)
(?[
\d+
\w+
\cH
\x{0e0b}
\xDF
\x{1E9E}
(?>\x0D\x0A|\v)
.+?\b{gcb}
[\R]
\\
\g137
[\da-z]
[^\n]
\000
\001
\0018
\053
\120
\18
\b{wb}
\B{wb}
\E
\F
\G(\w+)
\K
\L
\Q
\U
\N{U+0041}
\PP
\b=head\d\b
\c\X
\cA
\cb
\g-1
\g1
\g{name}
\k'name'
\k<name>
\k{name}
\l
\u
\o{120}
\o{}
(\w+)
P\053
P\x2B
\120+
\x50+
\o{120}+
\Acat
\bcat\B
\bcat\b
\cK
\t
^\R$
^\R\x0A$
^\X$
cat\Z
cat\z
(.)(.)\g{-2}\g{-1}
(.)(.)\g-2\g-1
(.)(.)\2\1
(\w+)\s+\1
(?-n:(hi|hello))
(?:hi|hello)
(?<greet>hi|hello)
(hi|hello)
(f)(i)
[fi][fi]
^\w
a++a
fi*
"(?:[^"\\]++|\\.)*+"
[{]
\{
^\C\C$
(?#text)
a{2,4}
a{2,}
a{2}
a{,4}
a{ 2, 4 }
a*?
a+?
a??
a{3}?
a{3,}?
a{3,5}?
x{abc}
foo(?=bar)
foo(?!bar)
(?<=a)b
(?i)a
(?^:a)
(?|a|b)
(?1)
(?&name)
(*FAIL)
(*ACCEPT)
[^]a]
[]a]
[a\]b]
[\]]
[\-a]
[a-]
[-a]
[a-z-9]
[--/]
[!--]
[\x41-\x5A]
[\101-\132]
[\cA-\cZ]
[\t-\r]
[[:^digit:]]
[[:word:]]
[[:xdigit:]G]
[[:foo:]]
[[:alpha:][:digit:]]
[01[:alpha:]%]
[[:space:]-z]
"""

BOUNDARIES = [
    b"a{255}", b"a{256}", b"a{0,255}", b"a{0,256}", b"a{255,}", b"a{256,}", b"a{255,255}", b"a{256,255}", b"a{255,256}", b"a{2,1}", b"a{1,1}",
    b"a{00000255}", b"a{00000256}", b"a{" + b"9" * 300 + b"}", b"a{" + b"0" * 300 + b"}", b"a{0," + b"9" * 300 + b"}",
    b"(" * 24 + b")" * 24, b"(" * 25 + b")" * 25, b"(?:" * 24 + b")" * 24, b"(?:" * 25 + b")" * 25, (b"(" + b"(?:") * 12 + b")" * 24,
    (b"(" + b"(?:") * 12 + b"(" + b")" * 25, MOST, MOST + b"()", MOST + b"(?:)", MOST + LAST, MOST + b"\\%d" % (GROUPS + 1),
    MOST[2:] + LAST, LAST + MOST, MOST + b"\\g-%d" % GROUPS, MOST + b"\\g-%d" % (GROUPS + 1), MOST + b"\\g{-%d}" % GROUPS, MOST + b"\\g{%d}" % GROUPS,
    b"\\x{ff}", b"\\x{FF}", b"\\x{100}", b"\\x{0}", b"\\x{00000ff}", b"\\x{" + b"0" * 300 + b"41}", b"\\x{" + b"f" * 300 + b"}", b"\\xff", b"\\xfg", b"\\xf",
    b"\\o{377}", b"\\o{400}", b"\\o{0}", b"\\o{" + b"7" * 300 + b"}", b"\\o{8}", b"\\o{7", b"\\x{7", b"[\\377]", b"[\\400]", b"[\\777]", b"[\\3777]", b"[\\0]",
    b"\\0", b"\\00", b"\\000", b"\\0000", b"\\08", b"\\09", b"\\377", b"\\1" + b"0" * 300, b"()\\1" + b"0" * 300, b"()\\g" + b"0" * 300 + b"1",
    b"()\\g{-" + b"0" * 300 + b"1}", b"\\g" + b"0" * 300, b"a" * 1000, b"a" * 999 + b"(", b"a" * 998 + b"**", b"|" * 1000, b"[" + b"a" * 998 + b"]",
    b"[" + b"a" * 999, b"a*" * 500, b"\\d" * 500, b"(?:)" * 250, MOST + b"a" * (1000 - len(MOST)), b"a|" * 500, b"[a-z]" * 200, b"[^" + b"\\d" * 498 + b"]]",
    b"(" * 24 + b"a|b" + b")*" * 24, b"(?:" * 24 + b"a*" + b")*" * 24, b"a{1}" * 250, b"\\x41" * 250, b"\\1" * 499 + b"()",
]

PRECEDENCE = [
    b"[\\", b"(\\", b"({", b"[\\c", b"[\\x{4", b"(?", b"a(?b", b"{1,0}", b"{256}", b"\\b{256}", b"(?:{256}", b"a*{1,0}", b"a*{256}", b"a*{", b"a*{2}", b"^{2}", b"^{", b"a|{2}",
    b"a|{", b"({2}", b"$*", b"\\A*", b"\\z+", b"\\Z?", b"\\b*", b"\\B*", b"^*?", b"a?*", b"a?{2}", b"a??*", b"a*?{256}", b"a*?{3}", b"(a*)*", b"(?:a*)*", b"a*|*", b"()**",
    b"(?:)**", b"[a]**", b"\\d**", b".**", b"\\1**", b"\\1(", b"\\1[", b"\\1)", b"\\1\\", b"\\1\\q", b"\\2\\1()", b"()\\2\\3", b"(\\2)", b"(\\1)", b"\\g-1()", b"()\\g-1", b"(\\g-1)",
    b"(()\\g-2)", b"(()\\g-3)", b"[z-\\q]", b"[\\w-\\q]", b"[\\q-\\w]", b"[a-[:no:]]", b"[[:no:]-a]", b"[\\w-[:no:]", b"[\\d-", b"[a-", b"[a-\\", b"[b-a", b"[z-\\d", b"[a--", b"[--",
    b"[-", b"[^-", b"[^--a]", b"[^", b"[^]", b"[^]]", b"[]", b"[]]", b"[]-a]", b"[]-\\]]", b"[[", b"[[]", b"[[:", b"[[:a", b"[[:a:", b"[[:a:]", b"[[:alpha:", b"[[:^alpha:]]",
    b"[[:^^alpha:]]", b"[[:^no:]]", b"[[:ALPHA:]]", b"[[:alpha :]]", b"[[:alpha:]a]", b"[a[:alpha:]]", b"[[a:alpha:]]", b"(a(b)", b"((", b"(()", b"([", b"([)", b"(a|b", b"a|(", b"a|)",
    b")(", b"())", b"(()))", b"a)b(", b"(?:a", b"(?:", b"(?:(", b"(?:[", b"]", b"}", b"a]", b"a}", b"a{1}}", b"a{1}{", b"a{1}{2}", b"a{x}", b"a{1x}", b"a{1,x}", b"a{1,2x}", b"a{1,2",
    b"a{1,", b"a{1", b"a{-1}", b"a{+1}", b"a{1 }", b"a{ 1}", b"a{1, }", b"a{,}", b"a{}", b"\\c{", b"\\c1", b"\\c\x80", b"\\c@\\c[\\c]\\c^\\c_\\c?", b"\\ca\\cz\\cA\\cZ", b"[\\c]", b"[\\c]]",
    b"\\g{1", b"\\g{-1", b"\\g{", b"\\g{-", b"\\g{-}", b"\\g-", b"\\g--1", b"\\g{--1}", b"\\g{1}()", b"\\g1()", b"\\g{1 }", b"\\g 1", b"\\g+1", b"()\\g{01}", b"()\\g{1}{2}", b"()\\g1*",
    b"\\_", b"\\-", b"\\ ", b"\\\x00", b"\\\x80", b"\\\xff", b"[\\_]", b"[\\-]", b"[\\B]", b"[\\A]", b"[\\z]", b"[\\Z]", b"[\\N]", b"[\\g]", b"[\\8]", b"[\\9]", b"[\\1]", b"[\\7]", b"[\\18]", b"[\\b-\\n]",
]

# Sets with a byte above 7F: no name for them, and no end of a range.
NO_BREAK_SPACES = [b"^(\\d+)\\h(\\d{3}) L$", b"[\\h\xa0\\v\x85]", b"[^\\H\\V]", b"\\h\xa0*", b"[\\h-\xa0]", b"[\x85-\\v]", b"[\x85-\xa0]", b"[\xa0-\x85]", b"[[:horizspace:]]"]


# Blanks where `x` skips them and where it does not.
BLANKS = [
    b"#\ra", b"a#(", b"#\\", b"#)[*", b"#\\\na", b"(a#)", b"(a#)\n)", b"\t\n\x0b\x0c\r a", b"( ?:a)", b"(#\n?:a)", b"( ?<n>a)", b"( ?=a)", b"(? :a)", b"(?: a)", b"( a )", b"(?:)\n*",
    b"()\\1 0", b"()\\10", b"\\ \\\n\\#\\\t", b"\\c ", b"\\c\n", b"\\x4 1", b"\\x{4 1}", b"\\x {41}", b"\\o {101}", b"()\\g {1}", b"()\\g{ 1}", b"()\\g- 1", b"()\\g-1 1", b"a \\", b"\\0 1",
    b"a* ?", b"a{2} ?", b"a *#\n?", b"a* *", b"a*  {2,1}", b"a*\n{2}", b"a{2 }", b"a{ 2}", b"a{1, 2}", b"a{1 ,2}", b"a {2}", b"a #c\n*", b"a *?", b"a ??", b"^ *", b"$ ?", b"( *)", b"( {2})", b"a|#c\n*",
    b" *", b"#\n{2}", b"\\N {", b"\\b {2}", b"\\b {", b"[ ]", b"[#]", b"[a #]", b"[ ^a]", b"[#", b"[a- b]", b"[b- a]", b"[[:alpha :]]", b"[a] *", b"  a**", b"#(\n)", b" ( ", b"#\n\\1", b"a| ", b"#\n|#", b" \t#a",
    MOST + b" (", b" (" * 25, b" (" * 24 + b" )" * 24, b" " * 1000, b" " * 999 + b"(", b"a" + b"\n" * 998 + b"*", b"#" * 999 + b"\n", b" " * 998 + b"\\1",
]

# Names and references by name: sound ones, and each way in which they are not.
NAMES = [
    b"(?<litres>\\d+)", b"(?<litres>\\d+)\\g{litres}\\k{litres}\\k<litres>\\k'litres'", b"\\k<a>(?<a>b)", b"\\g{b}(?<a>)|(?<b>)", b"(?<a>\\k<a>)*", b"(a)(?<b>b)((?<c>c))\\g{c}\\3\\g-1",
    b"(?<_>)(?<_1>)(?<Z>)(?<z9_>)", b"(?<a>)(?<A>)\\k<A>", b"(?<a>)(?<aa>)(?<aaa>)", b"(?<aa>)\\k<a>", b"(?<a>)\\k<aa>", b"(?<a>)\\k<A>", b"(?<n>)?\\k{n}*?", b"(?<n>)**", b"(?<n>*)", b"\\k<n>**(?<n>)",
    b"(?<", b"(?<a", b"(?<a>", b"(?<>)", b"(?<1>)", b"(?<a-b>)", b"(?<a b>)", b"(?< a>)", b"(?<a >)", b"(?<a}b)", b"(?<a'b)", b"(?<=a)", b"(?<!a)", b"(?'a'b)", b"(?P<a>b)", b"(?P=a)", b"(?&a)", b"(?<a>)(?<a", b"(?<a>)(?<a>",
    b"(?<a>(?<a>))", b"(?<a>)|(?<a>)", b"(?<a>)(?<b>)(?<a>)", b"(?<a>)(?<a1>)(?<a>)", MOST + b"(?<1>)", MOST + b"(?<a>)", b"(?<a>)" + MOST[2:] + b"(?<a>)", b"(" * 24 + b"(?<1>)", b"(" * 24 + b"(?<a>)",
    b"(?<a>" + b"(" * 23 + b"(?<a>)", b"(?<a>" * 25, b"(?<a>(?<b>(?<c>(?<d>", b"(?<a>[", b"(?<a>\\", b"\\k<b>(?<a>)(?<a>)", b"\\2\\k<z>", b"\\k<z>\\2", b"(?<a>)\\k<z>\\2", b"\\k<z>(", b"\\k<z>**", b"a\\k<z>\\k<1>",
    b"\\k", b"\\ka", b"\\k1", b"\\k<1>", b"\\k{}", b"\\k<>", b"\\k''", b"\\k<a}", b"\\k{a>", b"\\k'a>", b"\\k<a'", b"\\k<a", b"\\k{a", b"\\k'a", b"\\k<", b"\\k{", b"\\k'", b"\\k\\", b"\\k{1}", b"(a)\\k{1}", b"\\k{-1}", b"\\k(a)", b"\\k[a]", b"\\k<a-b>",
    b"(?<a>)\\k{ a}", b"(?<a>)\\k{a }", b"(?<a>)\\k< a>", b"\\k {a}", b"[\\k]", b"[\\k<a>]", b"[\\g{a}]", b"[(?<a>]", b"[\\k", b"(\\k", b"(?<a>)[a-\\k<a>]", b"\\g{a", b"\\g{a b}", b"\\g{a }", b"\\g{_", b"\\g{_}", b"\\g{a-}", b"\\g{a>",
    b"\\g{1a}", b"\\g{-a}", b"\\g{ a}", b"\\ga", b"\\g_", b"\\g<a>", b"\\g'a'", b"\\g{\\", b"(?<a>)\\ga", b"(?<a>)\\g{a}{2}", b"(?<a>)\\k<a>{", b"\\g{a}",
    *(b"(?<%s>)\\k<%s>\\g{%s}" % (n, n, n) for n in (b"a" * 15, b"a" * 16, b"_9" * 8)), *(b"(?<%s>)" % (b"a" * n) for n in (17, 18, 272)),
    *(form % (b"a" * n) for n in (16, 17, 257) for form in (b"\\k<%s>", b"\\k{%s}", b"\\k'%s'", b"\\g{%s}")), b"\\g{" + b"c" * 996 + b"}",
    *(b"".join(b"(?<n%d>)" % k for k in range(n)) for n in (GROUPS - 1, GROUPS, GROUPS + 1)), b"".join(b"(?<abcdefghijkl_%03d>)" % k for k in range(32)) + b"\\k'abcdefghijkl_031'" * 15,
    b"".join(b"(?<n%d>)" % (k % (GROUPS - 1)) for k in range(GROUPS)), b"\\k<n%d>\\g{n0}" % (GROUPS - 1) + b"".join(b"(?<n%d>)" % k for k in range(GROUPS)),
]

# What the depot profile takes and refuses, in the order of its refusals.
PROFILE = [
    b"(\\d+),(\\d+)", b"[a-z]", b"[A-Z]", b"[0-9]", b"[a-a]", b"[\\x41-\\x5a]", b"[\\101-Z]", b"[\\o{141}-z]", b"[a-\\x{7A}]", b"[A-z]", b"[0-a]", b"[9-A]", b"[,-,]", b"[/-9]", b"[0-:]", b"[@-Z]", b"[A-[]", b"[`-z]", b"[a-{]",
    b"[\\x00-\\xff]", b"[\\x80-\\xff]", b"[!--]", b"[--/]", b"[-~]", b"[~-]", b"[]-a]", b"[^Z-a]", b"[a-z-9]", b"[a-zA-z]", b"[a-z0-9!-~]", b"[[:alpha:]A-z]", b"[~-!]", b"[\\d-z]", b"[a-\\d]", b"[A-\\q]", b"[!-~", b"[A-z](", b"a**[A-z]", b"[A-z]a**",
    b"[A-z]\\", b"([A-z]", b")[A-z]", b"[A-z])", b"[A-z][z-a]", b"[z-a][A-z]", b"\\1()*[A-z]", b"()*(b)\\2", b"(b)\\1\\g{-1}", b"(b)\\1\\2", b"()*\\2", b"\\1", b"\\1()", b"(\\1)", b"()\\1**", b"(?:(a)\\1){0}", b"(?<n>a)\\k<n>", b"\\g{n}(?<n>a)", b"\\k<m>(?<n>a)",
    b"(?<n>)(?<n>)\\1", b"()*()*\\g{2}", b"()*", b"()+", b"()*?", b"()+?", b"(){0,}", b"(){2,}", b"(){255,}?", b"()?", b"(){0,9}", b"(){3}", b"(?:()*)*", b"()+()*", b"(?:(?:)*)?", b"(?:a{0})*", b"(?:a?)*", b"(?:a*)*", b"(?:a+)*", b"(?:a{2,3})*", b"(?:(?:a?){3})*",
    b"(?:(?:a{2}){0})*", b"(?:(?:a{2}){1})*", b"[^\\d\\D]*", b".*", b"\\N+", b"(?:()*){0}", b"(?:ab|)*", b"(?:|ab)*", b"(?:ab|c|a?)+", b"(?:ab|c)*", b"(?:a?b?c)*", b"(?:a?b?c?)*", b"(?:^|a)*", b"(?:^a)*", b"(?:\\b)*", b"(?:\\ba)+", b"(?:$|\\z|\\Z)+", b"((a)|(b?))*",
    b"(?:(?:(?:(?:(?:a{128}){128}){128}){128}){128})*", b"(?:(?:(?:(?:(?:a?{128}){128}){128}){128}){128})*", b"(?:(?:(?:(?:(?:(?:a?){128}){128}){128}){128}){128})*", b"(?:" * 23 + b"a" + b"){255}" * 23 + b"*", b"(?:" * 24 + b"a" + b"){255}" * 23 + b")*", b"(?:" * 24 + b"" + b"){255}" * 23 + b")*",
    b"(?:" * 12 + b"a" + b"){64}" * 11 + b")*", b"(?:(?:(?:a{128}){128}){4}(?:(?:a{128}){128}){4})*", b"(?:" + b"(?:a{255}){255}" * 9 + b")*", b"(?:" + b"a|" * 497 + b")*",
    b"(" * 24 + b"a?" + b")*" * 24, b"(" * 24 + b"a" + b")*" * 24, b"(" * 24 + b"a" + b")+" * 24,
]

# What looks ahead or holds on: sound ones, nesting, and each way in which they are refused.
HELD = [
    b"(?=a)", b"(?!a)", b"(?>a)", b"(?=)", b"(?!)", b"(?>)", b"(?=(a))\\1", b"(?!(a))\\1", b"(?>(a)|(b))", b"(?=(?!(?>a)))", b"(?=a)*", b"(?!a)+?", b"(?>a){2}", b"(?=a)*+", b"\\R", b"\\R*", b"\\R{2}?", b"\\R++", b"a\\Rb",
    b"a*+", b"a++", b"a?+", b"a{2}+", b"a{2,}+", b"a{2,3}+", b"()*+", b"[a]?+", b"\\d++", b".*+", b"()\\1*+", b"(?<a>)\\k<a>?+",
    b"(?=", b"(?!", b"(?>", b"(?=a", b"(?!(a)", b"a(?>", b"(?=a))", b"(?=*)", b"(?!{2})", b"(?>a|+)", b"(?=^*)", b"(?=[)", b"(?=\\)", b"(?>\\q)", b"(?=)**", b"(?!a)*+?", b"(?=\\1)", b"(?!(a))\\2", b"(?=(?<a>))(?!(?<a>))",
    b"a*+?", b"a*++", b"a+++", b"a?+?", b"a?++", b"a{2}++", b"a{2}+{3}", b"a*+*", b"a*?+", b"a+?+", b"a??+", b"a{2}?+", b"a**+", b"a*+{2}", b"a*+{256}", b"a*+{2,1}", b"a*+{", b"a{,2}+", b"a{256}+", b"++", b"*+", b"(++)", b"a|++", b"^++", b"\\b*+",
    b"(?", b"(?#a)", b"(?|a)", b"(?i)", b"(?i:a)", b"(?^:a)", b"(?*a)", b"(?+1)", b"(?-1)", b"(?0)", b"(?R)", b"(?P=a)", b"(?P>a)", b"(?[a])", b"(?{a})", b"(??{a})", b"(?(1)a)", b"(?<=a)", b"(?<!a)", b"(?<>a)", b"(?=:a)", b"(?:=a)",
    b"[\\R]", b"[^\\R]", b"[a-\\R]", b"[\\R-a]", b"[\\w-\\R]", b"[\\R", b"\\R(", b"(\\R", b"\\R**", b"\\r\\R\\RR",
    *(opening * n + b"a" + b")" * n for opening in (b"(?=", b"(?!", b"(?>") for n in (24, 25)), b"(?:" * 24 + b"\\R*+" + b")" * 24, b"(?:" * 24 + b"(?=", b"(?=(?!" * 12 + b"(", b"(?>(" * 12 + b"\\R" + b"))" * 12, b"(?>(" * 13,
    MOST + b"(?=a)(?!a)(?>a)", MOST + b"(?=())", b"(?=()" * 24 + b")" * 24, b"\\R" * 500, b"a++" * 333, b"(?=)" * 250, b"(?=" * 24 + b"\\R?+" * 226 + b")" * 24,
]
# The same under the depot profile.
HELD_PROFILE = [
    b"(?=a)", b"(?!a)b", b"(?>a)*", b"\\R", b"\\R*", b"\\R{0,}+", b"a*+", b"(?:a++)*", b"(?:(?=a)b)*", b"(?>a|bc)*", b"(?=a*)", b"(?=a){2}", b"(?=a)*", b"(?!a)+", b"(?=a)*+", b"(?=a){2,}?", b"(?>a?)*", b"(?>a|)*", b"(?>)*", b"(a?)*+",
    b"(?:a*+)*", b"(?:(?=ab))*", b"(?=()*)", b"(?!(?:a?)+)", b"(?>(?:^)*)", b"(?=(a)\\1)", b"(?!()*\\1)", b"(?=[A-z])", b"[\\R]", b"(?=a)*[A-z]", b"(?:\\R?)*", b"(?:(?>a{0})|b)*", b"(?>(?>(?>a)))*", b"(?:(?!a)\\R)*+",
]

# Rules whose parts blanks must not stand in: one is put at each of their places.
WHOLE = [b"(?=a)*+", b"(?!\\R)b", b"(?>a){2}+", b"(?<a>)\\k<a>*", b"(?<b>)\\g{b}", b"(?:a){1,2}?", b"()\\g{-1}*?", b"\\x{41}\\x4a+", b"\\o{7}\\cA\\012", b"[[:^digit:]a-z]??", b"()|\\1", b"^a*$"]

# Folding moves no verdict: the ends of a range are compared as they are written.
LETTERS = [b"[a-Z]", b"[Z-a]", b"[z-A]", b"[A-a]", b"[\\x41-\\x5a]", b"[a-\\w]", b"[[:UPPER:]]", b"[[:^upper:]]", b"\\Q", b"\\D", b"(A)\\1"]


def verdict(rule, flags):
    try:
        return "sound %d" % reference.read(rule, flags)[1]
    except reference.Refuse as refusal:
        return "%d at %d" % (refusal.n, refusal.p)


def listed():
    """The rules of crates/syntax/specs/Verdicts.antt, whose verdicts were written by hand."""
    text = (ROOT / "crates/syntax/specs/Verdicts.antt").read_text(encoding="utf-8")
    return [m.group(1).replace("\\\\", "\\").encode("latin1") for m in re.finditer(r'"((?:[^"\\]|\\.)*)" (?:gives|holds)', text)]


def rules():
    yield from listed()
    yield from (line.encode("latin1") for line in DOCUMENTS.split("\n"))
    yield from BOUNDARIES
    yield from PRECEDENCE
    yield from NO_BREAK_SPACES
    yield from NAMES
    yield from HELD
    # each byte behind `(?` and behind a possessive repeat
    for b in range(256):
        yield b"(?" + bytes([b]) + b"a)"
        yield b"a*" + bytes([b])
        yield b"a*+" + bytes([b])
    # each byte in a name and behind it, and those that could begin or end one
    for b in range(256):
        yield b"(?<" + bytes([b]) + b">)"
    for b in [*range(0x20, 0x7F), 0, 10, 0x80, 0xAA, 0xB5, 0xC0, 0xFF]:
        yield b"(?<a" + bytes([b]) + b")"
        yield b"\\k" + bytes([b]) + b"a>"
        yield b"\\g{" + bytes([b])
    for number, first in FAULTS.items():
        # too many groups take much room, and what is behind them hardly tells
        yield from (first + FAULTS[second] for second in FAULTS if number != 23 or second in (10, 14, 20, 23))
    for b in range(256):
        yield bytes([b])
        yield b"\\" + bytes([b])
        yield b"[\\" + bytes([b]) + b"]"


def rules_under_x():
    """Rules with blanks; each byte where it tells whether it is skipped; a blank at each place; faults behind blanks and comments."""
    yield from BLANKS
    for b in range(256):
        yield b"^" + bytes([b]) + b"*"
    for rule in WHOLE:
        for at in range(len(rule) + 1):
            for blank in (b" ", b"#\n"):
                yield rule[:at] + blank + rule[at:]
    # too many groups take much room, and stand once alone
    short = [fault for number, fault in FAULTS.items() if number != 23]
    for first in FAULTS.values():
        yield b" \t" + first
    for first in short:
        yield from (first + b"#)\n " + second for second in short)


def main():
    cases = [(rule, 0) for rule in dict.fromkeys(rules())]
    cases += [(rule, flags) for flags in (1, 2, 3) for rule in (b".", b"^", b"$", b"^a.b$", b"(?:^|$)*", b"^*", b".*")]
    cases += [(rule, X) for rule in dict.fromkeys(rules_under_x())]
    cases += [(rule, I) for rule in LETTERS]
    cases += [(rule, flags) for flags in (I, X, I | X) for rule in (b"(?<a>)(?<A>)\\k<A>", b"(?<a>)\\k<A>", b"(?<a>#)\n)\\k<a> *", b"(?<#>)\n)", b"(?<a>) \\g {a}", b"(?<a>)(?<a>)")]
    cases += [(rule, DEPOT) for rule in PROFILE + HELD_PROFILE]
    cases += [(rule, DEPOT | I) for rule in (b"[Z-a]", b"[a-Z]", b"[A-Z]", b"[z-z]", b"(A)\\1")]
    cases += [(rule, DEPOT | X) for rule in (b"( )  *", b"( a ) +", b"( #a\n ) #\n *", b"(a) \\1", b"[A-z] (", b"[ -a]", b"a#[A-z]", b"a *#*", b" \\ *")]
    cases += [(rule, flags) for flags in range(FLAGS) for rule in (b"^ *", b". *", b"[A-z]  {2 }", b"(a) \\1#\\2")]
    TARGET.mkdir(parents=True, exist_ok=True)
    # the flags, and the rule's bytes in hex
    (TARGET / "stdin").write_text("".join("%d %s\n" % (flags, rule.hex()) for rule, flags in cases))
    (TARGET / "stdout").write_text("".join(verdict(rule, flags) + "\n" for rule, flags in cases))
    size = (TARGET / "stdin").stat().st_size
    print("%d rules, %d bytes" % (len(cases), size), file=sys.stderr)
    if size > ROOM:
        sys.exit("more than the %d bytes that the program reads" % ROOM)


if __name__ == "__main__":
    main()
