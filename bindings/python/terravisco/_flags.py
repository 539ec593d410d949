"""The flags of a rule: numbers, names as those of `re`, and the letters that the programs take."""
from __future__ import annotations

import enum
import re
from typing import Union

from . import _limits


class Flag(enum.IntFlag):
    """The flags of a rule. Their numbers are not those of `re`."""

    S = 1
    DOTALL = S
    M = 2
    MULTILINE = M
    I = 4  # noqa: E741 (as in `re`)
    IGNORECASE = I
    X = 8
    VERBOSE = X
    D = _limits.DEPOT
    DEPOT = D


Flags = Union[int, str]

LETTERS = {"s": Flag.S, "m": Flag.M, "i": Flag.I, "x": Flag.X, "D": Flag.D}


def flags_of(flags: Flags) -> int:
    """The number for flags that are given as one, or as letters; `-` stands for none, as it does for the programs."""
    if isinstance(flags, re.RegexFlag):
        # `re.I` is 2, which here is `M`: the mistake would not be seen.
        raise TypeError("the flags of `re` have other numbers: take terravisco.S, M, I, X and D")
    if isinstance(flags, str):
        return _of_letters(flags)
    return flags


def _of_letters(letters: str) -> int:
    total = 0
    for letter in "" if letters == "-" else letters:
        if letter not in LETTERS:
            raise ValueError(f"flags are letters out of {', '.join(LETTERS)}, or - for none: {letters!r}")
        total |= LETTERS[letter]
    return total
