r"""Terravisco: Perl regular expressions with proved answers, within a budget of steps.

    >>> import terravisco
    >>> rule = terravisco.compile(r"^tank (?<tank>\w+):(?: (?<litres>\d+) L)?$")
    >>> rule.search("tank A1: 820 L").groupdict()
    {'tank': 'A1', 'litres': '820'}
    >>> rule.fields("tank A2:", standing="600")
    {'tank': 'A2', 'litres': '600'}
    >>> print(rule.explain("tank A1 820 L"))
    the attempt from 0 fits up to 7:
      tank A1 820 L
      -------^
    what was wanted there:
      ^tank (?<tank>\w+):(?: (?<litres>\d+) L)?$
                    ^   ^
    >>> [reading.groups() for reading in terravisco.compile(r"^(?:(\d{1,3},\d{3})|(\d+,\d+)) L$").readings("1,500 L")]
    [('1,500', None), (None, '1,500')]

A search that needs more steps than its budget raises `Exhausted`. `None` always means that the line is not matched.
"""
from ._cards import card_read, card_write
from ._errors import CardError, Exhausted, Full, Incomplete, LineError, Refused, RuleError
from ._flags import Flag
from ._limits import GROUPS, LONGEST_LINE, LONGEST_RULE, MOST_BUDGET, MOST_CARD_BUDGET
from ._rule import BUDGET, Attempt, Explanation, Failure, LineAnswer, Match, Rule, compile

S = DOTALL = Flag.S
M = MULTILINE = Flag.M
I = IGNORECASE = Flag.I  # noqa: E741 (as in `re`)
X = VERBOSE = Flag.X
D = DEPOT = Flag.D

__all__ = [
    "Attempt", "BUDGET", "CardError", "D", "DEPOT", "DOTALL", "Exhausted", "Explanation", "Failure", "Flag", "Full", "GROUPS", "I", "IGNORECASE",
    "Incomplete", "LONGEST_LINE", "LONGEST_RULE", "LineAnswer", "LineError", "M", "MOST_BUDGET", "MOST_CARD_BUDGET", "MULTILINE", "Match", "Refused", "Rule",
    "RuleError", "S", "VERBOSE", "X", "card_read", "card_write", "compile",
]

# Messages and pickles name the classes by where they are public.
for _class in [value for name, value in globals().items() if name in __all__ and isinstance(value, type)]:
    _class.__module__ = __name__
