"""A run told in sentences: act by act, or summed up."""

from __future__ import annotations

import textwrap
from collections.abc import Iterator
from dataclasses import dataclass, field

from xrf_tools.document import Document, Entry
from xrf_tools.jobs import OTHER, Row
from xrf_tools.layouts import EMPTY
from xrf_tools.meaning import ANSWERS, tell
from xrf_tools.standing import Event, Put, Standing
from xrf_tools.times import Watch

WIDTH = 100
# Acts that are told of their own; of the others some are told where they come to something.
TOLD = ("START", "CTLWRITE", "CONFIRM", "REPLY", "CEBT", "EXIT", "ABEND", "CLT", "ENDED")
QUIET = ("NOTHING", "WAIT")
STATES = {
    "STARTING": "starting", "RESTARTING": "restarting", "ACTIVE": "active", "TRACKING": "tracking the active",
    "WAITING": "waiting to go through", "ENDING": "about to end",
}
OWNERS = {
    "RUNNING": "is the owner", "NORMAL": "was the last owner, and ended normally",
    "ABEND": "was the last owner, and ended abnormally", "TAKEOVER": "was the last owner, and was shut down for a takeover",
}


@dataclass
class Story:
    """What is told of a run."""

    happened: list[tuple[int, int, str]] = field(default_factory=list)
    takeovers: list[str] = field(default_factory=list)
    backed_out: list[str] = field(default_factory=list)
    seen: list[tuple[int, str]] = field(default_factory=list)


class Teller:
    """Goes over the acts of a document and keeps what is worth telling."""

    def __init__(self, document: Document) -> None:
        self.document = document
        self.standing = Standing(document)
        self.watches = [Watch(self.standing, site) for site in OTHER]
        self.story = Story()
        self.names: dict[str, str] = {}
        self.puts: dict[str, list[Put]] = {}
        self.lost: dict[tuple[str, str], int] = {}

    def tell(self) -> Story:
        for entry in self.document.entries:
            flight = {}
            if entry.act.verb == "LOGOPEN":
                flight = {unit: list(puts) for unit, puts in self.standing.log.flight.items()}
            sentence = tell(self.standing, entry)
            self.took(entry, sentence, flight)
            for watch in self.watches:
                watch.take(entry)
        return self.story

    def happen(self, entry: Entry, sentence: str) -> None:
        self.story.happened.append((entry.tick, entry.number, sentence))

    def took(self, entry: Entry, sentence: str, flight: dict[str, list[Put]]) -> None:
        act = entry.act
        if act.how in ("stopped", "failed") or act.verb in TOLD:
            self.happen(entry, sentence)
        elif act.how == "lost":
            self.lost_signal(entry)
        elif act.verb == "DECIDE" and (act.words["decision"] not in QUIET or self.is_late(entry)):
            self.happen(entry, sentence)
        elif act.verb == "ITEM":
            self.item(entry, sentence)
        self.saw(entry, sentence)
        for event in self.standing.events:
            self.event(entry, event, sentence, flight)

    def is_late(self, entry: Entry) -> bool:
        """Whether a tracking alternate decides NOTHING though the owner is gone, and has not signalled for its ADI."""
        job, other = self.standing.jobs[entry.site], OTHER[entry.site]
        is_gone = self.standing.jobs[other] is None and self.standing.control.owner_state == "RUNNING"
        if job is None or job.is_owner or job.is_waiting or not is_gone:
            return False
        return self.standing.tick - self.standing.signalled[other] >= self.standing.scenario.numbers["ADI"]

    def lost_signal(self, entry: Entry) -> None:
        """The first of several lost signals is told."""
        key = entry.site, entry.act.writes
        self.lost[key] = self.lost.get(key, 0) + 1
        if self.lost[key] == 1:
            path = "control" if entry.act.writes == "CTL" else "message"
            self.happen(entry, f"A signal of {entry.site} on the {path} data set is lost; {entry.site} does not know.")

    def item(self, entry: Entry, sentence: str) -> None:
        words = self.standing.scenario.item(entry.site, entry.act.number("item"))
        answer = self.document.report.answers.get((entry.site, entry.act.number("item")), "OPEN")
        is_told = words[0] in ("LOGON", "LOGOFF", "SIGNON", "SIGNOFF", "CEMT")
        if is_told or answer in ANSWERS and answer not in ("DONE", "OPEN"):
            self.happen(entry, sentence)

    def event(self, entry: Entry, event: Event, sentence: str, flight: dict[str, list[Put]]) -> None:
        if event.kind == "unit-begun":
            self.names[event.words[0]] = event.words[1]
        elif event.kind == "unit-ended" and event.words[1] in ("COMMIT", "BACKOUT"):
            self.unit_ended(entry, event.words[0], event.words[1], flight.get(event.words[0], []))
        elif event.kind == "taking":
            self.story.takeovers.append(self.why(event))
        elif event.kind == "restarted":
            self.happen(entry, sentence)
        elif event.kind == "message-taken" and event.words[1].startswith("END "):
            rows = len(self.standing.job(entry.site).table)
            stand = "1 terminal stands" if rows == 1 else f"{rows} terminals stand"
            self.happen(entry, f"{entry.site} has read the whole catch-up: {stand} in its table.")

    def why(self, event: Event) -> str:
        """Why a takeover started: the last START that was decided."""
        decided = [text for _, _, text in self.story.happened if f"{event.site} decides to take over" in text]
        return f"tick {self.standing.tick}: {decided[-1] if decided else event.words[1]}"

    def unit_ended(self, entry: Entry, unit: str, how: str, puts: list[Put]) -> None:
        records = sorted({put.record for put in puts})
        values = ", ".join(f"record {record} is {str(self.standing.cell(record)) or 'empty'}" for record in records)
        name = f"{self.names.get(unit, 'a unit')} ({unit})"
        done = "is committed" if how == "COMMIT" else "is backed out"
        text = f"Unit {name} {done}: {values or 'it has no records'}."
        self.happen(entry, text)
        if how == "BACKOUT":
            self.story.backed_out.append(f"tick {entry.tick}: {text}")

    def saw(self, entry: Entry, sentence: str) -> None:
        """What an operator would have seen."""
        act, applid = entry.act, self.standing.scenario.applid.get(entry.site, "")
        text = {
            "START": sentence, "ABEND": sentence, "REPLY": sentence, "CEBT": sentence, "CONFIRM": sentence,
            "ENDED": f"{applid} ends: {sentence.partition(': ')[2]}",
        }.get(act.verb, "")
        if act.how == "stopped":
            text = f"{applid} at {entry.site} is gone."
        elif act.verb == "CLT":
            text = self.command(applid, act.words["text"])
        elif act.verb == "DECIDE" and act.words["decision"] == "ASK":
            text = f"{applid} asks whether to take over."
        elif act.verb == "ITEM" and self.standing.scenario.item(entry.site, act.number("item"))[0] == "CEMT":
            text = f"{applid} is given {' '.join(self.standing.scenario.item(entry.site, act.number('item')))}."
        if text:
            self.story.seen.append((entry.tick, text))

    def command(self, applid: str, text: str) -> str:
        word, _, rest = text.partition(" ")
        said = {"WTO": f"the message {rest}", "CANCEL": f"the cancelling of {rest}"}.get(word, f"the command {rest}")
        return f"From the command list of {applid} comes {said}."


def wrapped(front: str, text: str) -> str:
    return textwrap.fill(text, WIDTH, initial_indent=front, subsequent_indent=" " * len(front), break_long_words=False)


def heading(document: Document) -> Iterator[str]:
    scenario = document.scenario
    numbers, applid = scenario.numbers, scenario.applid
    yield (f"{applid['A']} is at site A and {applid['B']} at site B; TAKEOVR {scenario.takeovr}, ADI {numbers['ADI']}, "
           f"PDI {numbers['PDI']}, a file of {counted(numbers['FILE'], 'record')}.")
    if scenario.format == 2:
        users = "signed off" if scenario.force else "kept"
        yield (f"It is under XRF 2: the region of A is of level {scenario.level['A']} and that of B of level "
               f"{scenario.level['B']}; at a takeover users are {users}, XRFSOFF {'FORCE' if scenario.force else 'NOFORCE'}.")
    work = [f"{counted(len(items), 'item')} of work at {site}" for site, items in scenario.work.items() if items]
    if work:
        is_one = sum(map(len, scenario.work.values())) == 1
        yield f"There {'is' if is_one else 'are'} {' and '.join(work)}."


def counted(number: int, word: str) -> str:
    return f"{number} {word}" + ("" if number == 1 else "s")


def by_acts(document: Document) -> Iterator[str]:
    """A sentence for each act, under its tick."""
    yield from (wrapped("", line) for line in heading(document))
    standing, tick = Standing(document), -1
    for entry in document.entries:
        sentence = tell(standing, entry)
        if entry.tick != tick:
            tick = entry.tick
            yield f"\ntick {tick}"
        yield wrapped(f"{entry.number:>6}  ", sentence)


def summed_up(document: Document) -> Iterator[str]:
    """What happened, why, and what stands at the end."""
    teller = Teller(document)
    story = teller.tell()
    yield from (wrapped("", line) for line in heading(document))
    tick = -1
    for at, number, sentence in story.happened:
        if at != tick:
            tick = at
            yield f"\ntick {tick}"
        yield wrapped(f"{number:>6}  ", sentence)
    if not story.happened:
        yield "\nNothing happens."
    yield from section("Why a takeover was started", story.takeovers)
    yield from section("The times of a takeover", [line for watch in teller.watches for line in watch.told()])
    yield from section("What was backed out", story.backed_out)
    yield from section("At the end", list(ending(teller.standing)))
    yield from section("What an operator would have seen", [f"tick {at}: {text}" for at, text in story.seen])


def section(title: str, lines: list[str]) -> Iterator[str]:
    if lines:
        yield f"\n{title}"
        yield from (wrapped("  - ", line) for line in lines)


def terminal(name: str, row: Row) -> str:
    return f"{name} {row.how.lower()}" + ("" if row.user == "-" else f" with its user {row.user}")


def ending(standing: Standing) -> Iterator[str]:
    """What stands at the end of the run."""
    record = standing.control
    if not record.owner:
        yield "There is no owner."
    else:
        yield f"Incarnation {record.owner} at {record.owner_site} {OWNERS[record.owner_state]}."
    if standing.scenario.format == 2:
        yield f"The control record is of format {record.format}."
    if record.taking:
        yield f"Incarnation {record.taking} at {record.alternate_site} is taking over: {record.cause}."
    for site, job in standing.jobs.items():
        yield f"{site}: incarnation {job.incarnation}, {STATES[job.state]}." if job else f"{site}: no region."
        if job and job.table:
            rows = ", ".join(terminal(name, row) for name, row in sorted(job.table.items()))
            yield f"Terminals of {site}: {rows}."
    log = standing.log
    yield f"Units of work: {log.committed} committed, {len(log.flight)} in flight."
    file = [f"{record} {cell}" for record, cell in sorted(standing.file.items()) if cell != EMPTY]
    yield "File: " + (", ".join(file) or "empty") + "."
