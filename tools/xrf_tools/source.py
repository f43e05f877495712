"""Where a tool gets its document from: a file that has a report, or a scenario that is replayed first."""

from __future__ import annotations

import os
import re
import subprocess
from dataclasses import dataclass
from functools import lru_cache
from pathlib import Path

from xrf_tools.document import Document, has_report, read, read_text
from xrf_tools.errors import Fault
from xrf_tools.output import say
from xrf_tools.standing import Standing

REFUSED = "XRF REFUSED "
STATUSES = {
    8: "the input is refused", 12: "unknown words", 16: "the input failed", 20: "the output failed", 24: "out of memory",
    28: "the words could not be read",
}
HOME = Path(__file__).resolve().parents[2]


@dataclass(frozen=True)
class Answer:
    """What the program wrote, and its status."""

    text: str
    status: int


def launcher() -> str:
    """The launcher that called the tool, or that of this checkout."""
    return os.environ.get("XRF_LAUNCHER") or str(HOME / "xrf")


def built_program() -> str:
    """Where the program is, which the launcher builds first where it has to."""
    return built_by(launcher())


@lru_cache(maxsize=None)
def built_by(launcher: str) -> str:
    try:
        done = subprocess.run([launcher, "--program"], stdout=subprocess.PIPE, text=True, check=False)
    except OSError as error:
        raise Fault(f"the program could not be found: {error.strerror}") from None
    if done.returncode != 0:
        raise Fault("there is no program to run")
    return done.stdout.strip()


def program_there() -> str:
    """Where the program is as it was built, current or not; '' where it is not there. Nothing is built."""
    path = os.environ.get("XRF_AS_BUILT", str(HOME / "crates/xrf/out/xrf"))
    return path if path and os.access(path, os.X_OK) else ""


def replay(text: str, program: str = "") -> Answer:
    """What the program makes of a scenario."""
    command = [program or built_program(), "replay"]
    try:
        done = subprocess.run(command, input=text.encode("latin-1"), stdout=subprocess.PIPE, check=False)
    except OSError as error:
        raise Fault(f"the program could not be run: {error.strerror}") from None
    return Answer(done.stdout.decode("ascii", "replace"), done.returncode)


def written(text: str, name: str, program: str = "") -> str:
    """What the program writes of a scenario: a document or a refusal; Fault where it writes neither."""
    answer = replay(text, program)
    if answer.status not in (0, 8):
        raise Fault(f"{name} did not run: {STATUSES.get(answer.status, 'the program failed')}")
    return answer.text


def has_header(text: str) -> bool:
    """Whether the first line that is not skipped is a header."""
    lines = (line.split() for line in text.split("\n") if line.strip() and not line.startswith("#"))
    return next(lines, []) in (["XRF", "1"], ["XRF", "2"])


def name_of(path: str) -> str:
    return "standard input" if path == "-" else path


def read_written(path: str, answer: str) -> Document:
    """The document that was written of a file. Where the scenario is one for `xrf run`, that is said."""
    document = read(name_of(path), answer)
    if document.scenario.plan and not document.choices:
        say(f"{name_of(path)} has a plan and no choices, so nothing happens in it; xrf run makes the choices")
    return document


def load(path: str) -> Document:
    """The document in a file, or of the scenario in it."""
    text = read_text(path)
    if not (text.startswith(REFUSED) or has_header(text)):
        raise Fault(f"{name_of(path)} is no scenario and no document: it does not begin with XRF 1 or XRF 2")
    text, answer = text_and_written(text, path)
    if answer.startswith(REFUSED):
        raise Fault(f"{name_of(path)} is no run but refused: {answer.strip()}; xrf explain says more")
    return read_written(path, answer)


def given_and_written(path: str, answer: str | None) -> tuple[str, str]:
    """A text, and what the program wrote of it; a refusal alone comes without its text."""
    if answer is None:
        return text_and_written(read_text(path), path)
    text, given = read_text(path), read_text(answer)
    if given.startswith(REFUSED):
        confirm_refusal(text, given, name_of(path), name_of(answer))
        return text, given
    return text_and_written(given, answer)


def text_and_written(text: str, path: str) -> tuple[str, str]:
    if text.startswith(REFUSED):
        return "", text
    return text, of_document(text, name_of(path)) if has_report(text) else written(text, name_of(path))


# A report is skipped when a document is replayed, so it may be another's: what is told is what the choices come to.

def of_document(text: str, name: str) -> str:
    """What the program writes of a document. Where that is another report, or there is no program, it is said."""
    program = program_there()
    if not program:
        check_report(text, name)
        say(f"{name} was not replayed, since the program is not built: its acts are taken as they stand")
        return text
    answer = written(text, name, program)
    if not answer.startswith(REFUSED):
        place = first_other(report_of(text), report_of(answer))
        if place:
            say(f"{name}, line {place}: its report is not that of its choices, so what they come to is told in its place")
    return answer


def report_of(text: str) -> list[tuple[int, str]]:
    """The lines of a report, each with its number."""
    return [(number, line.rstrip("\r ")) for number, line in enumerate(text.split("\n"), 1) if re.match(r"\* [A-Z]", line)]


def first_other(stored: list[tuple[int, str]], told: list[tuple[int, str]]) -> int:
    """The number of the first line of a report that is another than that which is told; 0 where none is."""
    for place, (number, line) in enumerate(stored):
        if place >= len(told) or told[place][1] != line:
            return number
    return stored[-1][0] if len(stored) < len(told) else 0


def check_report(text: str, name: str) -> None:
    """Without the program a report is held against its own acts; Fault where it is not what they come to."""
    document = read(name, text)
    standing = Standing(document)
    for entry in document.entries:
        standing.take(entry)
    if standing.report() != [line for line in document.report.lines if not line.startswith("IMAGE ")]:
        raise Fault(f"{name}: its report is not what its acts come to; xrf replay writes one anew")


def confirm_refusal(text: str, refusal: str, name: str, answer: str) -> None:
    """Says where a refusal is not that of its text; one of `xrf run` alone is not looked at."""
    program = program_there()
    if program and "CHOICES-GIVEN" not in refusal and replay(text, program).text.split() != refusal.split():
        say(f"{answer} is not what xrf replay writes of {name}")
