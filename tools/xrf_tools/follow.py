"""Whether a trace is a run of the model: its acts become the choices that would make them, these are replayed, and the
first difference is told."""

from __future__ import annotations

import json
from collections.abc import Iterator
from dataclasses import dataclass

from xrf_tools.acts import read_act
from xrf_tools.document import ENTRY, Document, Entry, has_report, read
from xrf_tools.errors import Fault
from xrf_tools.language import CHOICES_MOST, REASONS
from xrf_tools.meaning import tell
from xrf_tools.refused import Refused, read_refusal
from xrf_tools.source import REFUSED, has_header, written
from xrf_tools.standing import Standing


@dataclass(frozen=True)
class Trace:
    """The acts of a trace, and what else its report says; nothing of it where it has none."""

    entries: list[Entry]
    report: list[str]


def read_trace(text: str, name: str) -> Trace:
    """The trace in a document, or in a log that has an act a line; Fault with the first line that is none."""
    is_document = has_header(text) and has_report(text)
    entries: list[Entry] = []
    report = []
    for number, line in enumerate(text.split("\n"), 1):
        words = line.strip().removeprefix("* ")
        if is_document and not line.startswith("* "):
            continue
        if not words or words.startswith("#"):
            continue
        if is_document and not words.startswith("ACT "):
            report.append(words)
            continue
        try:
            entries.append(entry_of(words, len(entries) + 1))
        except Fault as fault:
            raise Fault(f"{name}, line {number}: {fault}") from None
    if not entries and not is_document:
        raise Fault(f"{name} has no act")
    if len(entries) > CHOICES_MOST:
        raise Fault(f"{name} has {len(entries):,} acts, and a run has at most {CHOICES_MOST:,}")
    return Trace(entries, report)


def entry_of(line: str, place: int) -> Entry:
    """The act of a line `ACT k tick who inc text`, or of a line that `xrf json --lines` writes."""
    match = ENTRY.fullmatch(of_json(line) if line.startswith("{") else line)
    if match is None:
        raise Fault(f"'{line[:60]}' is no line ACT k tick who inc text")
    if int(match[1]) != place:
        raise Fault(f"act {match[1]} stands in the place of act {place}")
    act = read_act(match[5])
    if (match[3] == "-") != (act.verb in ("TICK", "CONFIRM")):
        raise Fault(f"'{line[:60]}' is made by the wrong site")
    return Entry(place, int(match[2]), match[3], int(match[4]), match[5], act)


def of_json(line: str) -> str:
    try:
        words = json.loads(line)
        return f"ACT {words['act']} {words['tick']} {words['site'] or '-'} {words['incarnation'] or 0} {words['text']}"
    except (ValueError, KeyError, TypeError):
        raise Fault(f"'{line[:60]}' is no act of xrf json --lines") from None


@dataclass(frozen=True)
class Model:
    """The model of a scenario: what it makes of choices."""

    head: list[str]
    name: str

    @staticmethod
    def of(text: str, name: str) -> "Model":
        """The model of the scenario before CHOICES, whatever choices stand behind it."""
        lines = text.split("\n")
        place = next((place for place, line in enumerate(lines) if line.split() == ["CHOICES"]), None)
        if not has_header(text) or place is None:
            raise Fault(f"{name} is no scenario: it wants the line XRF 1 or XRF 2, the settings, and the line CHOICES")
        return Model(lines[: place + 1], name)

    def text(self, choices: list[str]) -> str:
        return "\n".join([*self.head, *choices, "END", ""])

    def run(self, choices: list[str]) -> Document:
        return read(self.name, written(self.text(choices), self.name))

    def followed(self, choices: list[str]) -> tuple[Document, Refused | None]:
        """The run of the choices, or of those before the first that can't be made, and its refusal."""
        answer = written(self.text(choices), self.name)
        if not answer.startswith(REFUSED):
            return read(self.name, answer), None
        refused = read_refusal(answer, self.text(choices))
        made = refused.number - len(self.head) - 1
        if made < 0:
            raise Fault(f"{self.name} is refused: {answer.strip()}; xrf explain says more")
        return self.run(choices[:made]), refused


def difference(model: Model, trace: Trace) -> list[str]:
    """What the trace and the model first differ in, told in lines; none where the trace is a run."""
    choices = [entry.choice for entry in trace.entries]
    document, refused = model.followed(choices)
    for theirs, ours in zip(trace.entries, document.entries):
        if theirs.line != ours.line:
            return list(differs(document, theirs, ours))
    if refused:
        return list(cannot(model, document, trace.entries[len(document.entries)], choices, refused.reason))
    return list(report_differs(document, trace.report))


def differs(document: Document, theirs: Entry, ours: Entry) -> Iterator[str]:
    """The two acts, and what the model's act means."""
    pairs = (("tick {}", theirs.tick, ours.tick), ("incarnation {}", theirs.incarnation, ours.incarnation), ("{}", theirs.text, ours.text))
    for form, one, other in pairs:
        if one != other:
            yield f"act {theirs.number}: the trace has {form.format(one)}, the model has {form.format(other)}"
    standing = standing_before(document, ours.number)
    yield f"  before it: {stood(standing)}"
    yield f"  the model: {tell(standing, ours)}"


def cannot(model: Model, document: Document, theirs: Entry, choices: list[str], reason: str) -> Iterator[str]:
    """An act that the model can't make, and what it would make there."""
    choice = choices[theirs.number - 1]
    yield f"act {theirs.number}: the trace has {theirs.text}, which the model can't make here: {choice} is {reason}"
    standing = standing_before(document, theirs.number)
    yield f"  before it: {stood(standing)}"
    yield f"  {reason}: {REASONS[reason]}"
    if theirs.site != "-":
        yield f"  the model: {next_act(model, standing, theirs, choices)}"


def next_act(model: Model, standing: Standing, theirs: Entry, choices: list[str]) -> str:
    """What the region of an act would do next, in a sentence."""
    site, before = theirs.site, theirs.number - 1
    job = standing.jobs[site]
    if job is None:
        return f"no region is at {site}."
    if job.notice:
        return f"{site} waits for the answer of its status exit."
    document, refused = model.followed([*choices[:before], f"STEP {site}"])
    if refused:
        return f"{site} has nothing to do here."
    ours = document.entries[-1]
    return f"the next act of {site} is {ours.text}. {tell(standing, ours)}"


def report_differs(document: Document, theirs: list[str]) -> Iterator[str]:
    """The first line in which the reports differ, where the trace has one."""
    answers = [f"ITEM {site} {place} {answer}" for (site, place), answer in document.report.answers.items()]
    ours = [*answers, *document.report.lines]
    if not theirs or theirs == ours:
        return
    for one, other in zip(theirs, ours):
        if one != other:
            yield f"behind the acts: the trace has {one}, the model has {other}"
            return
    yield f"behind the acts: the trace has {len(theirs)} lines, the model has {len(ours)}"


def standing_before(document: Document, number: int) -> Standing:
    """What stands before an act of the model."""
    standing = Standing(document)
    for entry in document.entries[: number - 1]:
        standing.take(entry)
    return standing


def stood(standing: Standing) -> str:
    regions = [f"{site} is {job.state.lower()} (incarnation {job.incarnation})" if job else f"no region is at {site}"
               for site, job in standing.jobs.items()]
    return f"tick {standing.tick}; {' and '.join(regions)}; the control record is {standing.control.text()}"
