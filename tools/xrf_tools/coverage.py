"""What the scenarios of folders have shown, point by point.

Of a scenario that has a stored output, NAME.out, this is taken; another is run by the program first.
"""

from __future__ import annotations

import gzip
from collections.abc import Iterator
from dataclasses import dataclass, field
from pathlib import Path

from xrf_tools import shown
from xrf_tools.checking import beside, words_of
from xrf_tools.document import has_report, read
from xrf_tools.errors import Fault
from xrf_tools.points import GROUPS, POINTS, Point
from xrf_tools.source import REFUSED, written

ENDINGS = (".out", ".in.gz", ".in")


@dataclass
class Seen:
    """How often a point was shown, and where first: the file and the line."""

    count: int = 0
    file: str = ""
    line: str = ""


@dataclass
class Coverage:
    """What was seen of each point. `files` counts the outputs that were read."""

    points: dict[Point, Seen] = field(default_factory=lambda: {point: Seen() for point in POINTS})
    files: int = 0

    def reachable(self, group: str = "") -> list[Point]:
        return [point for point in self.points if not point.why_not and group in ("", point.group)]

    def missing(self) -> list[Point]:
        return [point for point in self.reachable() if not self.points[point].count]

    def out_of_reach(self) -> list[Point]:
        return [point for point in self.points if point.why_not]

    def counted(self, group: str = "") -> tuple[int, int]:
        """How many points of a group, or of all, were shown, and how many can be."""
        points = self.reachable(group)
        return sum(self.points[point].count > 0 for point in points), len(points)

    @property
    def percent(self) -> float:
        seen, of = self.counted()
        return 100 * seen / of

    def add(self, file: str, output: str) -> None:
        """Takes what an output shows; one that is neither a document nor a refusal shows nothing."""
        self.files += 1
        by_name = {(point.group, point.name): point for point in self.points}
        for group, name, line in points_of(file, output):
            point = by_name.get((group, name))
            if point is None or point.why_not:
                raise Fault(f"{file}: '{line[:80]}' shows {group} {name}, which is thought to be out of reach")
            seen = self.points[point]
            if not seen.count:
                seen.file, seen.line = file, line
            seen.count += 1


def points_of(file: str, output: str) -> Iterator[shown.Shown]:
    if output.startswith(REFUSED):
        return shown.of_refusal(output)
    return shown.of_document(read(file, output)) if has_report(output) else iter(())


def outputs(places: list[str]) -> Iterator[tuple[str, str]]:
    """The file and the text of each output of the folders, by name; Fault where a folder has none."""
    for place in map(Path, places):
        if not place.exists():
            raise Fault(f"{place} is not there")
        if not place.is_dir():
            yield str(place), output_of(place)
            continue
        names = {file.name.removesuffix(end) for end in ENDINGS for file in place.glob(f"*{end}")}
        if not names:
            raise Fault(f"{place} has neither NAME.out nor NAME.in")
        for name in sorted(names):
            file = next(file for end in ENDINGS if (file := beside(place / name, end)).exists())
            yield str(file), output_of(file)


def output_of(file: Path) -> str:
    """The text of an output, or what the program writes of a scenario."""
    try:
        data = file.read_bytes()
    except OSError as error:
        raise Fault(f"{file}: {(error.strerror or str(error)).lower()}") from None
    text = (gzip.decompress(data) if file.suffix == ".gz" else data).decode("ascii", "replace")
    if file.suffix == ".out" or text.startswith(REFUSED) or has_report(text):
        return text
    words = words_of(file.with_name(file.name.removesuffix(".gz").removesuffix(".in")))
    if words != ["replay"]:
        raise Fault(f"{file} has no stored output, and only what xrf replay takes is run here")
    return written(text, str(file))


def gathered(places: list[str]) -> Coverage:
    coverage = Coverage()
    for file, output in outputs(places):
        coverage.add(file, output)
    return coverage


def table(coverage: Coverage, with_missing: bool) -> Iterator[str]:
    """A line for each group, and the sum; with what is missing, and what can't be reached and why."""
    yield f"{'Group':10} {'Shown':>5} {'Of':>4} {'Share':>6}  What it is"
    for group, title in GROUPS.items():
        yield f"{group:10} {counts(*coverage.counted(group))}  {title}"
    yield f"{'all':10} {counts(*coverage.counted())}  of {coverage.files} outputs; {len(coverage.out_of_reach())} more can't be reached"
    if with_missing and coverage.missing():
        yield from ("", "Missing:", *(f"  {point.group} {point.name}" for point in coverage.missing()))
    if with_missing:
        yield from ("", "Out of reach:", *(f"  {point.group} {point.name}: {point.why_not}" for point in coverage.out_of_reach()))


def counts(seen: int, of: int) -> str:
    return f"{seen:5} {of:4} {percent(seen, of):>6}"


def percent(seen: int, of: int) -> str:
    """The share in percent, which is 100 only where all is shown."""
    return f"{100 * seen // of}%"
