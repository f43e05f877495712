"""Lines that are tried with the program, in the place of one that it refuses."""

from __future__ import annotations

from collections.abc import Iterable
from functools import cached_property

from xrf_tools.document import Document, read
from xrf_tools.refused import Refused, read_refusal
from xrf_tools.source import REFUSED, Answer, replay
from xrf_tools.standing import Standing


class Trials:
    """Tries what may stand in the place of a refused line; without a program nothing is found to be right."""

    def __init__(self, refused: Refused, program: str) -> None:
        self.refused, self.program = refused, program

    def answer(self, lines: list[str]) -> Answer:
        """What the program writes of these lines, and of a CHOICES and an END where they have none."""
        said = [line.split() for line in lines]
        ending = [mark for mark in ("CHOICES", "END") if [mark] not in said]
        return replay("\n".join([*lines, *ending, ""]), self.program)

    def takes(self, lines: list[str]) -> bool:
        """Whether none of these lines, which are the text up to some place, is refused."""
        if not self.program:
            return False
        answer = self.answer(lines)
        if answer.status == 8 and answer.text.startswith(REFUSED):
            return read_refusal(answer.text, "").number > len(lines)
        return answer.status == 0

    def passes(self, *lines: str) -> bool:
        """Whether these lines may stand in the place of the refused one."""
        return self.takes([*self.refused.above, *lines])

    def those(self, options: Iterable[str]) -> list[str]:
        """Those of some lines that may stand in the place of the refused one."""
        return [option for option in options if self.passes(option)]

    def document(self, *lines: str) -> Document | None:
        """The document of the text above with these lines behind it; None where they are refused."""
        if not self.program:
            return None
        answer = self.answer([*self.refused.above, *lines])
        return read("the text above the line", answer.text) if answer.status == 0 else None

    @cached_property
    def standing(self) -> Standing | None:
        """What stands before the refused line."""
        document = self.document()
        if document is None:
            return None
        standing = Standing(document)
        for entry in document.entries:
            standing.take(entry)
        return standing

    def next_act(self, site: str) -> str:
        """The text of the next act of a site; '' where it has none."""
        document = self.document(f"STEP {site}")
        return document.entries[-1].text if document else ""

    def most(self, count: int, *front: str) -> int:
        """How many of `count` steps, the last word of the refused line, can be made behind the lines `front`."""
        line = " ".join(self.refused.words[:2])
        low, high = 0, count
        while low < high:
            middle = (low + high + 1) // 2
            if self.passes(*front, f"{line} {middle}"):
                low = middle
            else:
                high = middle - 1
        return low
