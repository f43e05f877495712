"""Why an input is refused: the line, the reason in words, and what would be right there, as the program takes it."""

from __future__ import annotations

from collections.abc import Callable, Iterator

from xrf_tools import mistakes
from xrf_tools.choosing import of_choice
from xrf_tools.language import LIMITS, OF_THE_RUN, OF_WORDS, REASONS
from xrf_tools.refused import Refused, printed
from xrf_tools.trials import Trials


def told(refused: Refused, program: str = "") -> Iterator[str]:
    """The refusal in words. What is said to be right was tried with the program, where one is named."""
    if refused.line:
        yield f"Line {refused.number} is refused: {printed(refused.line)}"
    else:
        yield f"Line {refused.number} is refused." if refused.number else "The input is refused as a whole."
    yield f"{refused.reason}: {REASONS[refused.reason]}."
    trials = Trials(refused, program)
    yield from CALLS[refused.reason](trials)


def of_format(trials: Trials) -> Iterator[str]:
    found = trials.those(("XRF 1", "XRF 2"))
    if found:
        yield mistakes.right(*found)


def of_limits(trials: Trials) -> Iterator[str]:
    yield from mistakes.of_many(trials)
    yield f"The limits are: {LIMITS}."


CALLS: dict[str, Callable[[Trials], Iterator[str]]] = {
    **dict.fromkeys(OF_WORDS, mistakes.of_words), **dict.fromkeys(OF_THE_RUN, of_choice), "TOO-LARGE": mistakes.of_size,
    "BAD-BYTE": mistakes.of_bytes, "LONG-LINE": mistakes.of_length, "NO-HEADER": mistakes.of_header, "BAD-FORMAT": of_format,
    "CHOICES-GIVEN": mistakes.of_given, "AFTER-END": mistakes.of_end, "PLAN-ORDER": mistakes.of_plan_order,
    "TWICE": mistakes.of_twice, "TOO-MANY": of_limits, "RRN-RANGE": mistakes.of_record, "NO-END": mistakes.of_no_end,
}
