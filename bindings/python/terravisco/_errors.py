"""What is raised: refusals, with their number, place and sentence, and answers that are cut off, which are never told as `None`."""
from __future__ import annotations

from typing import TYPE_CHECKING, Any, Sequence

from . import _limits
from ._picture import marked

if TYPE_CHECKING:
    from ._rule import Match

# The sentences are those of the programs. Those of 30 to 34 are about a card.
SENTENCES = {
    1: f"the rule has more than {_limits.LONGEST_RULE} bytes",
    2: f"the line has more than {_limits.LONGEST_LINE} bytes",
    3: "a flag that there is not",
    4: f"the budget is over {_limits.MOST_BUDGET}, or over {_limits.MOST_CARD_BUDGET} for a card",
    5: "the rule area is too short",
    6: "the work area is too short",
    7: "the result area is too short",
    8: "the name index is too short",
    9: "the area for the card, or for its rule, is too short",
    10: "a backslash with nothing behind it",
    11: "this escape may not stand here",
    12: "the number or letter of this escape is missing, malformed, unclosed or too large",
    13: "a reference to a group that the rule has not",
    14: "this class is not closed by ]",
    15: "a range that runs backwards, or with a set of bytes at one of its ends",
    16: "no set has this name",
    17: "a repeat with nothing before it that it could repeat",
    18: "a { that begins no repeat, or a repeat over 255 or with its bounds the wrong way round",
    19: "a repeat of a repeat",
    20: "this bracket is not closed by )",
    21: "a ) that closes nothing",
    22: "this (? begins no group that a rule may hold",
    23: f"one group too many; a rule has at most {_limits.GROUPS}",
    24: "the 25th bracket inside another; they nest at most 24 deep",
    25: "a name is missing, malformed or not closed",
    26: "this name is used twice",
    27: "a reference, which the depot profile does not allow",
    28: "a repeat without upper bound of what may take no bytes, which the depot profile does not allow",
    29: "a range whose ends are not two digits, two upper or two lower letters, as the depot profile wants them",
    30: "a record begins with a byte that is none of the kinds 1, 2 and 3",
    31: "it ends before its last record does",
    32: "its records are in the wrong order, or not as many as the rule's length needs",
    33: "a byte that pads the rule is not 00, or bytes stand behind the last record",
    34: "the number of groups that it says is not the rule's",
    35: "this looks ahead or holds on, which a check does not follow",
    36: "the 257th branch begins behind this bar; a check follows at most 256",
}
FIRST_IN_RULE = 10


class Refused(ValueError):
    """A call that was refused: `number` and `place` are those of the guide's table, and `sentence` says what is wrong."""

    what = "the call"

    def __init__(self, number: int, place: int = 0) -> None:
        super().__init__(number, place)
        self.number = number
        self.place = place

    @property
    def sentence(self) -> str:
        """What the number means."""
        return SENTENCES.get(self.number, "a refusal that this module has no sentence for")

    def __str__(self) -> str:
        return f"{self.what} is refused, {self.number} at {self.place}: {self.sentence}"


class RuleError(Refused):
    """A rule, its flags or its budget are refused. `str` shows the rule with a mark under the place."""

    what = "the rule"

    def __init__(self, number: int, place: int, rule: bytes) -> None:
        super().__init__(number, place)
        self.args = (number, place, rule)
        self.rule = rule

    def __str__(self) -> str:
        if self.number < FIRST_IN_RULE:
            return super().__str__()
        return f"{super().__str__()}\n{marked(self.rule, {self.place: '^'})}"


class LineError(Refused):
    """A line is over 65,535 bytes."""

    what = "the line"


class CardError(Refused):
    """Bytes that are no rule card: 30 to 34, or what the rule on it is refused for, with its place in that rule."""

    what = "the card"


class Incomplete(Exception):
    """An answer that was cut off. `found` has the matches that were found before, and `steps` tells how many steps were made."""

    def __init__(self, steps: int, found: Sequence[Match[Any]] = ()) -> None:
        super().__init__(steps, found)
        self.steps = steps
        self.found = found


class Exhausted(Incomplete):
    """The walk from `start` needs more steps than the budget. The answer is not known: the line may match or not, and have more matches or readings
    than were found. Give the rule a larger budget, or write one that leaves less to try."""

    def __init__(self, start: int, steps: int, found: Sequence[Match[Any]] = ()) -> None:
        super().__init__(steps, found)
        self.args = (start, steps, found)
        self.start = start

    def __str__(self) -> str:
        return f"exhausted at {self.start}, after {self.steps} steps in all and {len(self.found)} found"


class Full(Incomplete):
    """There are more readings than were asked for."""

    def __str__(self) -> str:
        return f"there are more than the {len(self.found)} readings asked for"
