"""What one output of the program shows: the points of its acts, its report or its refusal, and where each stands."""

from __future__ import annotations

from collections.abc import Iterator

from xrf_tools.document import Document, Entry
from xrf_tools.points import BETWEEN
from xrf_tools.refused import REFUSAL

# A group, the name of a point in it, and the line that shows it.
Shown = tuple[str, str, str]


def of_refusal(text: str) -> Iterator[Shown]:
    match = REFUSAL.fullmatch(text)
    if match:
        yield "refusal", match[2], text.strip()


def of_document(document: Document) -> Iterator[Shown]:
    owner = 0
    for entry in document.entries:
        yield from of_entry(entry, owner)
        act = entry.act
        if act.verb == "CTLWRITE" and act.lands:
            owner = int(act.words["owner"].partition(".")[0].replace("NONE", "0"))
            yield from of_control(entry)
    yield from of_report(document)


def of_entry(entry: Entry, owner: int) -> Iterator[Shown]:
    """What an act shows beside a record of this owner."""
    act, line = entry.act, entry.line
    if act.how == "stopped":
        yield "stop", f"{act.verb} {act.landing}" if act.landing else BETWEEN, line
    elif act.how == "failed":
        yield "failure", f"{act.verb} {act.landing}", line
    elif act.how == "lost":
        yield "lost", act.verb, line
    else:
        yield "act", act.verb, line
        yield from ((group, name, line) for group, name in of_words(entry, owner))


def of_words(entry: Entry, owner: int) -> Iterator[tuple[str, str]]:
    """What the words of an act that is made show."""
    verb, words = entry.act.verb, entry.act.words
    if verb == "DECIDE":
        yield decision(words, entry.incarnation == owner)
    elif verb == "ENDED":
        yield "ended", words["why"]
    elif verb == "CEBT":
        yield "cebt", f"{words['command']} = {words['reply']}"
    elif verb in ("EXIT", "REPLY"):
        yield verb.lower(), words["answer"]


def decision(words: dict[str, str], is_owner: bool) -> tuple[str, str]:
    name = words["decision"]
    if is_owner:
        return "owner", name
    if name in ("START", "END"):
        return "tracking", f"{name} {words['what']}"
    return ("waiting" if name in ("WAIT", "THROUGH") else "tracking"), name


def of_control(entry: Entry) -> Iterator[Shown]:
    """What a control record that landed shows."""
    state, cause = (entry.act.words[name].rpartition(".")[2] for name in ("owner", "taking"))
    if state not in ("NONE", "RUNNING"):
        yield "sign-off", state, entry.line
    if cause != "NONE":
        yield "taking", cause, entry.line


def of_report(document: Document) -> Iterator[Shown]:
    for (site, place), answer in document.report.answers.items():
        word = answer.partition(" ")[0]
        verb = document.scenario.item(site, place)[0]
        yield "item", word if word in ("OPEN", "LOST") else f"{verb} {word}", f"ITEM {site} {place} {answer}"
    for line in document.report.lines:
        words = line.split(" ")
        if words[0] == "JOB":
            yield "job", words[-1], line
        elif words[0] == "TERM":
            yield "terminal", words[4], line
        elif words[0] == "FILE":
            yield "record", "DAMAGED" if words[2] == "DAMAGED" else "a value", line
