"""The smallest scenario of which something is still true: lines are left out, first many at once, then fewer, then each
alone, as long as it stays true (delta debugging). Where a choice can't be made any more without them, it goes too."""

from __future__ import annotations

from collections.abc import Callable
from dataclasses import dataclass, field
from itertools import groupby

from xrf_tools.document import CHOSEN, COUNTED, canonical, values_of
from xrf_tools.errors import Fault
from xrf_tools.refused import read_refusal
from xrf_tools.source import REFUSED, written

Holds = Callable[[str], bool]
# So many times choices that can't be made are left out of one text.
MENDED_MOST = 16


def wanted(answer: str, keep: str | None, name: str) -> Holds:
    """What stays true of what is written: that `keep` stands in it, or else that it is refused for the same reason."""
    if keep:
        text = keep
        if text not in answer:
            raise Fault(f"'{text}' does not stand in what is written of {name}")
        return lambda other: text in other
    if not answer.startswith(REFUSED):
        raise Fault(f"{name} is not refused, so --keep TEXT has to say what is to stay in what is written of it")
    reason = read_refusal(answer, "").reason
    return lambda other: other.startswith(REFUSED) and read_refusal(other, "").reason == reason


@dataclass
class Shrinking:
    """Lines of a text of which something holds."""

    name: str
    holds: Holds
    lines: list[str]
    failed: set[str] = field(default_factory=set)

    def keeps(self, lines: list[str]) -> bool:
        """Whether it holds of these lines too, or of those of them that can be run, which are then those that are left."""
        for _ in range(MENDED_MOST):
            text = joined(lines)
            if text in self.failed:
                return False
            answer = written(text, self.name)
            if self.holds(answer):
                self.lines = lines
                return True
            self.failed.add(text)
            lines = without_refused(lines, answer)
        return False

    def shrink(self) -> str:
        """The text of which no line can be left out."""
        self.keeps([one for line in self.lines for one in singly(line) if not is_skipped(one)])
        size = len(self.lines)
        while size:
            is_smaller = self.leave_out(size)
            size = size // 2 if size > 1 or not is_smaller else 1
        return joined(counted(self.lines))

    def leave_out(self, size: int) -> bool:
        """Leaves out each `size` lines, from the last on, where it then holds still; whether any was left out."""
        before = len(self.lines)
        for end in range(before, 0, -size):
            start = max(end - size, 0)
            self.keeps(self.lines[:start] + self.lines[end:])
        return len(self.lines) < before


def without_refused(lines: list[str], answer: str) -> list[str]:
    """The lines without the choice that is refused, and those behind it that are the same; all where none is refused."""
    if not answer.startswith(REFUSED) or ["CHOICES"] not in (line.split() for line in lines):
        return lines
    start = read_refusal(answer, "").number - 1
    if not 0 <= start < len(lines) or start <= [line.split() for line in lines].index(["CHOICES"]):
        return lines
    end = next((place for place in range(start, len(lines)) if lines[place] != lines[start]), len(lines))
    return lines[:start] + lines[end:]


def joined(lines: list[str]) -> str:
    return "".join(f"{line}\n" for line in lines)


def is_skipped(line: str) -> bool:
    return not line.strip() or line.startswith(("#", "* "))


def singly(line: str) -> list[str]:
    """A choice that is made several times as so many lines; any other line as it is."""
    words = line.split()
    if not words or words[0] not in COUNTED or values_of(words, CHOSEN) is None:
        return [line]
    choice, count = canonical(words)
    return [choice] * count


def counted(lines: list[str]) -> list[str]:
    """Choices that are alike and follow each other in one line with their count."""
    made = []
    for line, alike in groupby(lines):
        times = len(list(alike))
        words = line.split()
        may_count = times > 1 and words and words[0] in COUNTED and len(words) + 1 == len(COUNTED[words[0]].parts)
        made += [f"{line} {times}"] if may_count else [line] * times
    return made
