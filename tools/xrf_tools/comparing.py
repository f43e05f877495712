"""Two runs side by side: what their scenarios say otherwise, the first act at which they part, and how both end.

It is told as a diff: a line with '-' is of the first run alone, one with '+' of the second, and others are of both.
"""

from __future__ import annotations

from collections.abc import Iterable, Iterator

from xrf_tools import data_back
from xrf_tools.data import of_document
from xrf_tools.document import Document, Entry
from xrf_tools.follow import standing_before, stood
from xrf_tools.meaning import tell

# What stands at the end of every run, and is told also where both have it.
ALWAYS = ("TICK", "CONTROL", "JOB", "LOG")


def compared(one: Document, other: Document) -> list[str]:
    """What differs, told in lines; none where both are the same run."""
    told = [*settings_differ(one, other), *acts_differ(one, other), *ends_differ(one, other)]
    return [f"--- {one.name}", f"+++ {other.name}", *told] if told else []


def settings_differ(one: Document, other: Document) -> Iterator[str]:
    ours, theirs = settings(one), settings(other)
    lines = [*of_one("-", ours, theirs), *of_one("+", theirs, ours)]
    if lines:
        yield "@@ the scenarios"
        yield from lines


def settings(document: Document) -> list[str]:
    """The lines before CHOICES."""
    lines = list(data_back.scenario(of_document(document)))
    return lines[: lines.index("CHOICES")]


def of_one(sign: str, lines: list[str], others: list[str]) -> Iterator[str]:
    """The lines that the other has not, or has fewer times."""
    left = list(others)
    for line in lines:
        if line in left:
            left.remove(line)
        else:
            yield f"{sign} {line}"


def acts_differ(one: Document, other: Document) -> Iterator[str]:
    """The first act that one run has and the other has not, with what stood before it."""
    place = same(one, other)
    if place == len(one.entries) == len(other.entries):
        return
    yield f"@@ act {place + 1}, at {stood(standing_before(one, place + 1))}"
    for sign, document in (("-", one), ("+", other)):
        if place < len(document.entries):
            entry = document.entries[place]
            yield f"{sign} {entry.line}"
            yield f"{sign}     {tell(standing_before(document, place + 1), entry)}"
        else:
            yield f"{sign} ends behind act {place}"


def same(one: Document, other: Document) -> int:
    """How many acts both begin with."""
    pairs: Iterable[tuple[Entry, Entry]] = zip(one.entries, other.entries)
    return next((place for place, (ours, theirs) in enumerate(pairs) if ours.line != theirs.line),
                min(len(one.entries), len(other.entries)))


def ends_differ(one: Document, other: Document) -> Iterator[str]:
    """How both end; nothing where they end alike."""
    ours, theirs = ending(one), ending(other)
    if ours == theirs:
        return
    yield "@@ the ends"
    for key in dict.fromkeys([*ours, *theirs]):
        first, second = ours.get(key, "-"), theirs.get(key, "-")
        if first != second:
            yield f"- {key} {first}"
            yield f"+ {key} {second}"
        elif key.split(" ")[0] in ALWAYS:
            yield f"  {key} {first}"


def ending(document: Document) -> dict[str, str]:
    """What each item, region, terminal, record and data set came to, by its name."""
    ends = {f"ITEM {site} {place}": answer for (site, place), answer in document.report.answers.items()}
    for line in document.report.lines:
        words = line.split(" ")
        names = {"JOB": 2, "FILE": 2, "TERM": 3, "IMAGE": 3}.get(words[0], 1)
        ends[" ".join(words[:names])] = " ".join(words[names:])
    return ends
