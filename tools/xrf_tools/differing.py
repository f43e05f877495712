"""Where an output differs from what is stored, and the lines around it."""

from __future__ import annotations

import difflib
from collections.abc import Iterator

# As many lines of an output are compared from the first that differs on, and as many of what differs are shown.
WINDOW, SHOWN = 200, 40
AROUND = 2


def printed(line: bytes) -> str:
    return "".join(chr(byte) if 0x20 <= byte <= 0x7E else f"\\x{byte:02x}" for byte in line)


def first_other(got: list[bytes], wanted: list[bytes]) -> int:
    """The place of the first line that differs, or that one has and the other has not."""
    return next((place for place, (one, other) in enumerate(zip(got, wanted)) if one != other), min(len(got), len(wanted)))


def told(got: bytes, wanted: bytes) -> str:
    """What differs, in one line; '' where nothing does."""
    if got == wanted:
        return ""
    if wanted.replace(b"\r\n", b"\n") == got:
        return "the stored output ends its lines with carriage returns"
    ours, theirs = got.split(b"\n"), wanted.split(b"\n")
    place = first_other(ours, theirs)
    if place < min(len(ours), len(theirs)):
        return f"line {place + 1} is {shortened(ours[place])}, wanted {shortened(theirs[place])}"
    return f"{len(ours) - 1} lines, wanted {len(theirs) - 1}"


def shortened(line: bytes) -> str:
    return f"'{printed(line[:80])}'" + ("…" if len(line) > 80 else "")


def shown(got: bytes, wanted: bytes) -> Iterator[str]:
    """The lines that differ, as a diff from what is stored to what was written."""
    ours, theirs = got.split(b"\n"), wanted.split(b"\n")
    first = max(first_other(ours, theirs) - AROUND, 0)
    stored, written = ([printed(line) for line in lines[first : first + WINDOW]] for lines in (theirs, ours))
    lines = list(difflib.unified_diff(stored, written, "stored", "written", n=AROUND, lineterm=""))
    for line in lines[:SHOWN]:
        yield moved(line, first) if line.startswith("@@") else line
    if len(lines) > SHOWN or max(len(ours), len(theirs)) > first + WINDOW:
        yield ".. more may differ behind this"


def moved(header: str, by: int) -> str:
    """The header of a part of a diff, with the numbers that its lines have in the whole outputs."""
    words = []
    for word in header.split(" "):
        if word[:1] in ("-", "+"):
            start, comma, count = word[1:].partition(",")
            word = f"{word[0]}{int(start) + by}{comma}{count}"
        words.append(word)
    return " ".join(words)
