"""A refusal as it was written, and the text of which it was."""

from __future__ import annotations

import re
from dataclasses import dataclass

from xrf_tools.errors import Fault
from xrf_tools.language import LINE_MOST, REASONS

REFUSAL = re.compile(r"XRF REFUSED LINE (0|[1-9]\d*) ([A-Z-]+)\s*")


@dataclass(frozen=True)
class Refused:
    """A refusal of a text: the line's number, 0 for the text as a whole, and the reason."""

    number: int
    reason: str
    lines: list[str]

    @property
    def line(self) -> str:
        return self.lines[self.number - 1] if 0 < self.number <= len(self.lines) else ""

    @property
    def words(self) -> list[str]:
        return self.line.split()

    @property
    def above(self) -> list[str]:
        return self.lines[: max(self.number - 1, 0)]

    def place_of(self, mark: str) -> int:
        """The number of the line CHOICES or END above; 0 where it is not there."""
        return next((number for number, line in enumerate(self.above, 1) if line.split() == [mark]), 0)

    @property
    def is_choice(self) -> bool:
        """Whether the line stands behind CHOICES."""
        return self.place_of("CHOICES") > 0

    @property
    def header(self) -> tuple[int, int]:
        """The number of the header above, and its format; 0 and 1 where there is none."""
        for number, line in enumerate(self.above, 1):
            if line.split() in (["XRF", "1"], ["XRF", "2"]):
                return number, int(line.split()[1])
        return 0, 1


def read_refusal(answer: str, text: str) -> Refused:
    match = REFUSAL.fullmatch(answer)
    if match is None or match[2] not in REASONS:
        raise Fault(f"'{answer.strip()[:60]}' is no refusal")
    return Refused(int(match[1]), match[2], text.split("\n"))


def printed(line: str) -> str:
    """A line in letters that every terminal has."""
    return line.strip(" \r").encode("latin-1").decode("ascii", "backslashreplace")[:LINE_MOST]
