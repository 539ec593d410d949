"""A text with marks under some of its bytes, as the programs show it: each byte in one column, and a dot for one that cannot be shown."""
from __future__ import annotations

from typing import Iterator, Mapping

# A terminal breaks longer lines, and the marks would no longer stand under their bytes.
WIDTH = 64


def shown(text: bytes) -> str:
    return "".join(chr(byte) if 0x20 <= byte <= 0x7E else "." for byte in text)


def windows(text: bytes) -> Iterator[tuple[int, int]]:
    """From where to where each row goes: a row ends at a line end, which a rule under `x` has, or at its width."""
    at = 0
    for line in text.split(b"\n"):
        end = at + len(line)
        for start in range(at, max(end, at + 1), WIDTH):
            yield start, min(end, start + WIDTH)
        at = end + 1


def marked(text: bytes, marks: Mapping[int, str]) -> str:
    """The rows of a text, and below each that has one the marks, by their places. A mark may stand behind a line's last byte."""
    out = []
    for start, end in windows(text):
        out.append("  " + shown(text[start:end]))
        over = end + 1 if text[end:end + 1] in (b"", b"\n") else end
        under = "".join(marks.get(at, " ") for at in range(start, over)).rstrip()
        if under:
            out.append("  " + under)
    return "\n".join(out)
