"""A rule, held with the areas that the library works in, and what it answers on lines."""
from __future__ import annotations

import operator
import struct
import threading
from ctypes import byref, c_uint64, string_at
from types import MappingProxyType
from typing import Any, AnyStr, Generic, Iterator, Mapping, NamedTuple, Optional, Sequence, Union

from . import _limits
from ._errors import Exhausted, Full, LineError, Refused, RuleError
from ._flags import Flag, Flags, flags_of
from ._library import COMPLETE, EXHAUSTED, FULL, MATCHED, NO_READING, NOT_MATCHED, REFUSED, Row, lent, library, numbers, octets, text
from ._picture import marked

# A call clears 64 bytes for each step of its budget: at the most that a budget can be, that takes longer than most matches. And what a budget does not
# suffice for is raised, never overlooked.
BUDGET = 10_000

# So many rows are asked for first, and four times as many whenever there are more.
FIRST_ROWS = 16

# A call for a day's lines takes 536 bytes for each of them, so a long day is handed over in pieces.
LINES_AT_ONCE = 1_000

NUMBERS_32 = 2**32 - 1

Group = Union[int, str]


class Failure(NamedTuple):
    """An item of the rule that failed: `at` is where it was tried in the line, and `item` where it begins in the rule."""

    at: int
    item: int


class Attempt(NamedTuple):
    """An attempt to fit the rule from `start`: it ended in the line at `at`, where the item failed that begins in the rule at `item`."""

    start: int
    at: int
    item: int


def number_of(value: int, what: str) -> int:
    """A number as the library can be handed it. One beyond 32 bits is handed in as the greatest, which is refused for the same reason."""
    number = operator.index(value)
    if number < 0:
        raise ValueError(f"{what} is not negative")
    return min(number, NUMBERS_32)


def bytes_of(given: Any, like: Union[str, bytes], what: str) -> bytes:
    """The bytes of a text of the rule's own kind. A sign of a `str` is one byte, so that places, lengths and `.` mean the same in both."""
    if isinstance(given, str) != isinstance(like, str):
        raise TypeError(f"the rule is of {type(like).__name__}, and {what} is of {type(given).__name__}")
    return given.encode("latin-1") if isinstance(given, str) else memoryview(given).tobytes()


def steps_of(low: int, high: int) -> int:
    return high << 32 | low


class Areas:
    """What the calls of one rule work in. They are made once, and lent to one call at a time."""

    def __init__(self, budget: int) -> None:
        self.rule = numbers(_limits.RULE_AREA)
        self.work = self.for_steps(budget)
        self.names = octets(_limits.NAME_INDEX)
        # The library runs without the interpreter's lock, and two calls in the same areas would write over each other's compiled rule.
        self.lock = threading.Lock()

    @staticmethod
    def for_steps(budget: int) -> Any:
        """A work area for so many steps."""
        return numbers(_limits.WORK_PER_STEP * min(budget, _limits.MOST_BUDGET))


class Match(Generic[AnyStr]):
    """One way in which a rule fits a line: where it begins and ends, and what each group took. `steps` are those of the call that found it."""

    __slots__ = ("rule", "line", "steps", "_row")

    def __init__(self, rule: Rule[AnyStr], line: AnyStr, row: bytes, steps: int) -> None:
        self.rule = rule
        self.line = line
        self.steps = steps
        self._row = row

    def span(self, group: Group = 0) -> tuple[int, int]:
        """From where to where in the line a group went; (-1, -1) if it is not set."""
        number = self.rule._number(group)
        start, end = struct.unpack_from("=II", self._row, 8 * number)
        return (-1, -1) if start == _limits.UNSET else (start, end)

    def start(self, group: Group = 0) -> int:
        """Where a group begins in the line; -1 if it is not set."""
        return self.span(group)[0]

    def end(self, group: Group = 0) -> int:
        """Where a group ends in the line; -1 if it is not set."""
        return self.span(group)[1]

    def __getitem__(self, group: Group) -> Optional[AnyStr]:
        """What one group took; `None` if it is not set."""
        return self._part(group, None)

    def group(self, *groups: Group) -> Any:
        """What a group took, by number or name; the whole match without one, and a tuple of several. `None` for a group that is not set."""
        if len(groups) > 1:
            return tuple(self[group] for group in groups)
        return self[groups[0] if groups else 0]

    def groups(self, default: Any = None) -> tuple[Any, ...]:
        """What each group took, from group 1 on."""
        return tuple(self._part(number, default) for number in range(1, self.rule.groups + 1))

    def groupdict(self, default: Any = None) -> dict[str, Any]:
        """What each group that has a name took."""
        return {name: self._part(name, default) for name in self.rule.groupindex}

    def field(self, name: str, standing: Optional[AnyStr] = None) -> AnyStr:
        """What the group of this name took, or the standing text if it is not set. An unknown name is an IndexError."""
        if name not in self.rule.groupindex:
            raise IndexError(f"no such group: {name!r}")
        standing = self.line[:0] if standing is None else standing
        texts = [text(bytes_of(given, self.line, what)) for given, what in ((self.line, "the line"), (standing, "the standing text"))]
        row, field = Row.from_buffer_copy(self._row), (c_uint64 * 3)()
        library.terravisco_field(*text(name.encode()), *text(self.rule._names), *texts[0], MATCHED, *lent(row), *texts[1], field)
        part, start, end = field
        return (self.line, standing)[part][start:end]

    def fields(self, standing: Optional[AnyStr] = None) -> dict[str, AnyStr]:
        """The field of each name that the rule has."""
        return {name: self.field(name, standing) for name in self.rule.groupindex}

    def _part(self, group: Group, default: Any) -> Any:
        start, end = self.span(group)
        return default if start < 0 else self.line[start:end]

    def __repr__(self) -> str:
        return f"<terravisco.Match span={self.span()!r} match={self[0]!r}>"


class Explanation(Generic[AnyStr]):
    """Why a line does not fit. `str` shows the line and the rule with their marks.

    closest   the attempt that got furthest from its start, which is mostly what a person wants to know
    wanted    where the items begin in the rule that failed at the end of that attempt
    furthest  the greatest place at which an item failed, from any start, which is always the line's end, and the first item that failed there
    """

    __slots__ = ("rule", "line", "steps", "closest", "wanted", "furthest")

    def __init__(self, rule: Rule[AnyStr], line: AnyStr, steps: int, closest: Attempt, wanted: tuple[int, ...], furthest: Failure) -> None:
        self.rule = rule
        self.line = line
        self.steps = steps
        self.closest = closest
        self.wanted = wanted
        self.furthest = furthest

    def __repr__(self) -> str:
        return f"<terravisco.Explanation closest={tuple(self.closest)} wanted={self.wanted}>"

    def __str__(self) -> str:
        start, at, _ = self.closest
        fits = {place: "-" for place in range(start, at)}
        line = bytes_of(self.line, self.line, "the line")
        return "\n".join([
            f"the attempt from {start} fits up to {at}:",
            marked(line, {**fits, at: "^"}),
            "what was wanted there:",
            marked(self.rule._bytes, {place: "^" for place in self.wanted}),
        ])


class LineAnswer(Generic[AnyStr]):
    """What a match answers on one of a day's lines. `word` is `matched`, `not matched`, `exhausted` or `too long`."""

    __slots__ = ("line", "word", "steps", "_answer")

    def __init__(self, line: AnyStr, word: str, steps: int, answer: Union[Match[AnyStr], Exception, None]) -> None:
        self.line = line
        self.word = word
        self.steps = steps
        self._answer = answer

    @property
    def match(self) -> Optional[Match[AnyStr]]:
        """The match, or `None` for a line that is not matched. For one that is exhausted or too long this raises what `search` would have raised."""
        if isinstance(self._answer, Exception):
            raise self._answer
        return self._answer

    def __repr__(self) -> str:
        return f"<terravisco.LineAnswer {self.word}: {self.line!r}>"


class Rule(Generic[AnyStr]):
    """A rule with its flags and its budget of steps for each start in a line. Made by `compile`.

    pattern, flags, budget  what it was made of
    groups                  how many groups it has
    groupindex              the number of each group that has a name

    It owns the areas that the library works in: 64 KiB, and 64 bytes for each step of the budget. Several threads may use one rule, and a lock lets
    one call in at a time; for calls side by side give each thread a rule of its own (`copy.copy` makes one).
    """

    def __init__(self, pattern: AnyStr, flags: Flags = 0, budget: int = BUDGET) -> None:
        if not isinstance(pattern, str):
            pattern = memoryview(pattern).tobytes()
        self.pattern: AnyStr = pattern
        self.flags = Flag(number_of(flags_of(flags), "a flag"))
        self.budget = number_of(budget, "a budget")
        self._bytes = bytes_of(pattern, pattern, "the rule")
        self._areas = Areas(self.budget)
        # A call on the empty line refuses what any call would refuse, and fills the index of names. How many groups there are, a card tells.
        self._ask(library.terravisco_match, b"", Row(), self._areas.names)
        self._names = bytes(self._areas.names)
        self.groups = self._count_groups()
        self.groupindex: Mapping[str, int] = MappingProxyType(dict(self._named()))

    # The calls ----------------------------------------------------------------

    def search(self, line: AnyStr) -> Optional[Match[AnyStr]]:
        """The match: the leftmost start's first reading. `None` if the line is not matched; `Exhausted` is raised if that is not known."""
        line, data = self._line(line)
        row = Row()
        answer = self._ask(library.terravisco_match, data, row, self._areas.names)
        if answer[0] == EXHAUSTED:
            raise Exhausted(answer[1], steps_of(answer[3], answer[4]))
        if answer[0] == NOT_MATCHED:
            return None
        return Match(self, line, bytes(row), steps_of(answer[3], answer[4]))

    def finditer(self, line: AnyStr) -> Iterator[Match[AnyStr]]:
        """Successive matches, as Perl's `/g` and `re.finditer` find them. Where the budget is used up, the matches found before come first and then
        `Exhausted` is raised."""
        found, ending = self._rows(library.terravisco_match_all, line, None)
        return _then(found, ending)

    def readings(self, line: AnyStr, most: int = 1_000) -> list[Match[AnyStr]]:
        """Every reading of the line, from every start: each different set of start, end and groups once. Where there are more than `most`, or the budget
        is used up first, `Full` or `Exhausted` is raised, which have those found before."""
        if most < 1:
            raise ValueError("at least one reading is asked for")
        found, ending = self._rows(library.terravisco_list, line, most)
        if ending is not None:
            raise ending
        return found

    def explain(self, line: AnyStr) -> Optional[Explanation[AnyStr]]:
        """Why the line does not fit; `None` if it does. `Exhausted` is raised if that is not known."""
        line, data = self._line(line)
        marks = octets(max(1, len(self._bytes)))
        answer = self._ask(library.terravisco_explain, data, self._areas.names, marks, _limits.EXPLAIN_ANSWER)
        steps = steps_of(answer[3], answer[4])
        if answer[0] == EXHAUSTED:
            raise Exhausted(answer[1], steps)
        if answer[0] == MATCHED:
            return None
        wanted = tuple(place for place, mark in enumerate(marks) if mark)
        return Explanation(self, line, steps, Attempt(*answer[8:11]), wanted, Failure(*answer[6:8]))

    def check(self, line: AnyStr, proposal: bytes, budget: Optional[int] = None) -> Optional[Match[AnyStr]]:
        """The reading that a proposal makes of the line, whoever sent it; `None` if it makes none, which says nothing of the line. `Exhausted` is raised if
        its path needs more steps than the budget: the rule's, unless one is given. It is a reading, and need not be the match.

        A proposal is the start as two bytes, the low one first, and a byte for each choice along the path: 0 for going on behind a repeat or 1 for another
        round, or the number of a branch from 0. A rule that looks ahead or holds on, or has over 256 branches side by side, is a `RuleError`."""
        line, data = self._line(line)
        row = Row()
        answer = self._ask(library.terravisco_check, data, row, self._areas.names, proposal=memoryview(proposal).tobytes(), budget=budget)
        if answer[0] == EXHAUSTED:
            raise Exhausted(answer[1], steps_of(answer[3], answer[4]))
        if answer[0] == NO_READING:
            return None
        return Match(self, line, bytes(row), steps_of(answer[3], answer[4]))

    def fields(self, line: AnyStr, standing: Optional[AnyStr] = None) -> Optional[dict[str, AnyStr]]:
        """The field of each name: what its group took of the line, or the standing text if it is not set. `None` if the line is not matched."""
        match = self.search(line)
        return None if match is None else match.fields(standing)

    def match_lines(self, buffer: AnyStr) -> Iterator[LineAnswer[AnyStr]]:
        """What a match answers on each line of a buffer. Lines end at an 0A, the last one also at the buffer's end. A line that is exhausted or too long
        has its own answer, and the others go on."""
        buffer, _ = self._line(buffer)
        return (answer for block in _blocks(buffer) for answer in self._match_block(block))

    # What they share ------------------------------------------------------------

    def _line(self, line: AnyStr) -> tuple[AnyStr, bytes]:
        """A line as it is kept in answers, and its bytes. One that could be changed is copied."""
        data = bytes_of(line, self.pattern, "the line")
        return (line if isinstance(line, str) else data), data

    def _ask(
        self, call: Any, subject: bytes, first: Any, second: Any, length: int = _limits.ANSWER, proposal: Optional[bytes] = None, budget: Optional[int] = None
    ) -> Any:
        """The answer of a call, of so many numbers. It is lent two more areas behind those that every call works in. A check is given a proposal, and may have
        a budget of its own."""
        areas, answer = self._areas, numbers(length)
        steps = self.budget if budget is None else number_of(budget, "a budget")
        work = areas.work if steps <= self.budget else Areas.for_steps(steps)
        question = [*text(self._bytes), self.flags, *text(subject), steps, *(text(proposal) if proposal is not None else ())]
        with areas.lock:
            call(*question, *lent(areas.rule), *lent(work), *lent(first), *lent(second), answer)
        if answer[0] == REFUSED:
            raise self._refusal(answer[1], answer[2])
        return answer

    def _refusal(self, number: int, place: int) -> Refused:
        return LineError(number) if number == 2 else RuleError(number, place, self._bytes)

    def _rows(self, call: Any, line: AnyStr, most: Optional[int]) -> tuple[list[Match[AnyStr]], Optional[Exception]]:
        """The matches that a call writes in rows, and what is to be raised behind them. Without a limit there is always room in the end."""
        line, data = self._line(line)
        room = FIRST_ROWS if most is None else min(FIRST_ROWS, most)
        while True:
            rows = numbers(_limits.ROW * room)
            answer = self._ask(call, data, rows, self._areas.names)
            if answer[0] != FULL or room == most:
                break
            room = 4 * room if most is None else min(4 * room, most)
        steps = steps_of(answer[3], answer[4])
        found = [Match(self, line, _row_at(rows, _limits.ROW * number), steps) for number in range(answer[5])]
        if answer[0] == EXHAUSTED:
            return found, Exhausted(answer[1], steps, found)
        return found, None if answer[0] == COMPLETE else Full(steps, found)

    def _match_block(self, block: AnyStr) -> Iterator[LineAnswer[AnyStr]]:
        lines = _lines(block)
        parts = numbers(_limits.PART * len(lines))
        self._ask(library.terravisco_match_lines, bytes_of(block, self.pattern, "the buffer"), parts, self._areas.names)
        for number, line in enumerate(lines):
            yield self._line_answer(line, parts, _limits.PART * number)

    def _line_answer(self, line: AnyStr, parts: Any, at: int) -> LineAnswer[AnyStr]:
        kind, detail, low, high = parts[at + _limits.ROW:at + _limits.PART]
        steps = steps_of(low, high)
        if kind == MATCHED:
            return LineAnswer(line, "matched", steps, Match(self, line, _row_at(parts, at), steps))
        if kind == NOT_MATCHED:
            return LineAnswer(line, "not matched", steps, None)
        if kind == EXHAUSTED:
            return LineAnswer(line, "exhausted", steps, Exhausted(detail, steps))
        return LineAnswer(line, "too long", steps, self._refusal(detail, 0))

    def _number(self, group: Group) -> int:
        """The number of a group that is asked for by number or name."""
        if isinstance(group, str):
            number = self.groupindex.get(group, -1)
        else:
            number = operator.index(group)
        if not 0 <= number <= self.groups:
            raise IndexError(f"no such group: {group!r}")
        return number

    def _named(self) -> Iterator[tuple[str, int]]:
        for number in range(_limits.GROUPS):
            entry = self._names[_limits.NAME_ENTRY * number:_limits.NAME_ENTRY * (number + 1)]
            if entry[0]:
                yield entry[1:1 + entry[0]].decode("ascii"), number + 1

    def _card(self, budget: int) -> bytes:
        card, answer = octets(_limits.CARD), numbers(_limits.ANSWER)
        with self._areas.lock:
            library.terravisco_card_write(*text(self._bytes), self.flags, budget, *lent(self._areas.rule), *lent(card), answer)
        if answer[0] == REFUSED:
            raise self._refusal(answer[1], answer[2])
        return bytes(card[:answer[5]])

    def _count_groups(self) -> int:
        answer, rule_bytes = numbers(_limits.CARD_ANSWER), octets(_limits.RULE_BYTES)
        card = self._card(0)
        with self._areas.lock:
            library.terravisco_card_read(*text(card), *lent(self._areas.rule), *lent(rule_bytes), answer)
        return answer[8]

    def __reduce__(self) -> Any:
        return Rule, (self.pattern, int(self.flags), self.budget)

    def __repr__(self) -> str:
        return f"terravisco.compile({self.pattern!r}, flags={int(self.flags)}, budget={self.budget})"


def compile(rule: AnyStr, flags: Flags = 0, budget: int = BUDGET) -> Rule[AnyStr]:
    """A rule that is held for many lines. `RuleError` says what is wrong with it, and where.

    rule    a Perl regular expression, of `bytes` or of `str`; its lines are of the same kind. Each sign of a `str` stands for one byte (Latin-1).
    flags   `S`, `M`, `I`, `X` and `D`, or letters: "ix"
    budget  the steps that each start in a line may take, at most 100,000
    """
    return Rule(rule, flags, budget)


def _row_at(area: Any, at: int) -> bytes:
    """A row out of an area, from a number on."""
    return string_at(byref(area, 4 * at), 4 * _limits.ROW)


def _then(found: Sequence[Match[AnyStr]], ending: Optional[Exception]) -> Iterator[Match[AnyStr]]:
    yield from found
    if ending is not None:
        raise ending


def _lines(block: Any) -> list[Any]:
    """The lines of a block: what stands behind its last 0A is one if it is not empty."""
    newline = "\n" if isinstance(block, str) else b"\n"
    lines = block.split(newline)
    if not lines[-1]:
        lines.pop()
    return lines


def _blocks(buffer: Any) -> Iterator[Any]:
    """A buffer in pieces of so many lines, cut behind an 0A."""
    newline = "\n" if isinstance(buffer, str) else b"\n"
    at = 0
    while at < len(buffer):
        end = at
        for _ in range(LINES_AT_ONCE):
            found = buffer.find(newline, end)
            end = len(buffer) if found < 0 else found + 1
            if end == len(buffer):
                break
        yield buffer[at:end]
        at = end
