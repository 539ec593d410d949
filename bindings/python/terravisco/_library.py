"""The shared library: where it is found, its calls as `ctypes` sees them, and whether its areas are as long as this module takes them to be."""
from __future__ import annotations

import ctypes
import os
from ctypes import POINTER, c_char_p, c_size_t, c_uint8, c_uint32, c_uint64
from pathlib import Path
from typing import Any, Callable

from . import _limits

VARIABLE = "TERRAVISCO_LIBRARY"
FILE = "libterravisco.so"
SONAME = "libterravisco.so.0"

MATCHED, NOT_MATCHED, EXHAUSTED, REFUSED = range(4)
COMPLETE, FULL = MATCHED, NOT_MATCHED
NO_READING = NOT_MATCHED

Row = c_uint32 * _limits.ROW


def numbers(length: int) -> Any:
    """An area of numbers. It has one at least, since a pointer to none might be null."""
    return (c_uint32 * max(1, length))()


def octets(length: int) -> Any:
    """An area of bytes."""
    return (c_uint8 * length)()


# Each area, and each text that is read, is a pointer and a length.
_TEXT = [c_char_p, c_size_t]
_NUMBERS = [POINTER(c_uint32), c_size_t]
_BYTES = [POINTER(c_uint8), c_size_t]
_ANSWER = [POINTER(c_uint32)]
_ASKED = [*_TEXT, c_uint32, *_TEXT, c_uint32]
_QUESTION = [*_ASKED, *_NUMBERS, *_NUMBERS]
_WITH_ROWS = [*_QUESTION, *_NUMBERS, *_BYTES, *_ANSWER]

_CALLS = {
    "terravisco_match": _WITH_ROWS,
    "terravisco_list": _WITH_ROWS,
    "terravisco_match_all": _WITH_ROWS,
    "terravisco_match_lines": _WITH_ROWS,
    "terravisco_check": [*_ASKED, *_TEXT, *_NUMBERS, *_NUMBERS, *_NUMBERS, *_BYTES, *_ANSWER],
    "terravisco_explain": [*_QUESTION, *_BYTES, *_BYTES, *_ANSWER],
    "terravisco_field": [*_TEXT, *_TEXT, *_TEXT, c_uint32, *_NUMBERS, *_TEXT, POINTER(c_uint64)],
    "terravisco_card_write": [*_TEXT, c_uint32, c_uint32, *_NUMBERS, *_BYTES, *_ANSWER],
    "terravisco_card_read": [*_TEXT, *_NUMBERS, *_BYTES, *_ANSWER],
}


def _candidates() -> list[str]:
    named = os.environ.get(VARIABLE)
    if named:
        return [named]
    beside = Path(__file__).resolve().parent / FILE
    # the loader's own path last, by the name that an installation has, and then by the plain one
    return [str(beside), SONAME, FILE]


def open_library() -> ctypes.CDLL:
    """The library from the first place that has one. Where the variable names a file, no other is taken."""
    tried = []
    for name in _candidates():
        try:
            return _declared(ctypes.CDLL(name))
        except (OSError, AttributeError, ValueError) as error:
            tried.append(f"  {name}: {error}")
    raise ImportError(
        "the Terravisco library cannot be loaded:\n" + "\n".join(tried) + f"\nName its file in the variable {VARIABLE}, put it beside the package, or "
        "install it where the loader looks (`./install PREFIX` in the project's root, and PREFIX/lib in LD_LIBRARY_PATH)"
    )


def _declared(library: ctypes.CDLL) -> ctypes.CDLL:
    for name, arguments in _CALLS.items():
        function = getattr(library, name)
        function.argtypes = arguments
        function.restype = None
    differing = disagreements(library)
    if differing:
        raise ValueError("a library of another version: it has other lengths of " + ", ".join(differing))
    return library


def text(data: bytes) -> tuple[bytes, int]:
    """Bytes that are read, as a call takes them."""
    return data, len(data)


def lent(area: Any) -> tuple[Any, int]:
    """An area, as a call takes it."""
    return area, len(area)


def refusal(answer: Any) -> int:
    return answer[1] if answer[0] == REFUSED else 0


def disagreements(library: ctypes.CDLL, limits: Any = _limits) -> list[str]:
    """Which lengths of areas are others in the library than here. An area that is just long enough is not refused, and one that is shorter by a number
    or a byte is: so a library whose rows are others is found out before one of them is misread."""

    def asked(function: Any, row: int, rule: int = limits.RULE_AREA, work: int = limits.WORK_PER_STEP, names: int = limits.NAME_INDEX) -> int:
        answer = numbers(limits.ANSWER)
        areas = [*lent(numbers(rule)), *lent(numbers(work)), *lent(numbers(row)), *lent(octets(names))]
        function(*text(b""), 0, *text(b"\n"), 1, *areas, answer)
        return refusal(answer)

    def written(card: int) -> int:
        answer = numbers(limits.ANSWER)
        library.terravisco_card_write(*text(b""), 0, 0, *lent(numbers(limits.RULE_AREA)), *lent(octets(card)), answer)
        return refusal(answer)

    probes: dict[str, tuple[int, int, Callable[[int], int]]] = {
        "the rule area": (5, limits.RULE_AREA, lambda length: asked(library.terravisco_match, limits.ROW, rule=length)),
        "the work area": (6, limits.WORK_PER_STEP, lambda length: asked(library.terravisco_match, limits.ROW, work=length)),
        "a row": (7, limits.ROW, lambda length: asked(library.terravisco_match, length)),
        "a line's part": (7, limits.PART, lambda length: asked(library.terravisco_match_lines, length)),
        "the name index": (8, limits.NAME_INDEX, lambda length: asked(library.terravisco_match, limits.ROW, names=length)),
        "a card": (9, limits.CARD, written),
    }
    return [name for name, (reason, length, probe) in probes.items() if probe(length) == reason or probe(length - 1) != reason]


library = open_library()
