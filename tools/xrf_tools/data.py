"""A document as data: the object that `xrf json` writes. Its shape is schema/xrf-document-1.json."""

from __future__ import annotations

import re
from collections.abc import Iterator
from typing import Union

from xrf_tools.acts import CONTROL, Act
from xrf_tools.document import Document, Entry, Report, Scenario
from xrf_tools.errors import Fault
from xrf_tools.language import NAME, NUMBER, VALUE

# What a JSON document is made of.
Data = Union[dict[str, "Data"], list["Data"], str, int, bool, None]
Object = dict[str, Data]

SCHEMA = "xrf-document-1.json"
# The words of an act that are no numbers.
TEXTS = ("role", "answer", "command", "reply", "kind", "unit", "terminal", "state", "user", "value", "text", "decision", "why")
# What stands behind DECIDE START, END and CATCHUP.
BEHIND = {"START": "cause", "END": "why", "CATCHUP": "incarnation"}
# The lines of a report behind those of the acts and the items. Of a record whose bytes are none the value is left out.
LINES = {
    word: re.compile(form) for word, form in (
        ("TICK", rf"(?P<tick>{NUMBER})"), ("CONTROL", CONTROL),
        ("JOB", rf"(?P<site>[AB]) (?:NONE|(?P<incarnation>{NUMBER}) (?P<state>[A-Z]+))"),
        ("TERM", rf"(?P<site>[AB]) (?P<name>{NAME}) (?P<class>[123]) (?P<how>[A-Z]+)(?: (?:-|(?P<user>{NAME})))?"),
        ("LOG", rf"(?P<records>{NUMBER}) COMMITTED (?P<committed>{NUMBER}) FLIGHT (?P<flight>{NUMBER})"),
        ("FILE", rf"(?P<record>{NUMBER}) (?:DAMAGED|(?P<value>{VALUE}))"),
        ("IMAGE", rf"(?P<name>CTL|MSG|LOG|FILE|KEY) (?P<offset>{NUMBER}) (?P<bytes>[0-9a-f]{{64}})"),
    )
}


def refused(line: int, reason: str) -> Object:
    return {"refused": {"line": line, "reason": reason}}


def of_document(document: Document) -> Object:
    return {
        "xrf": document.scenario.format, "schema": SCHEMA, "scenario": of_scenario(document.scenario),
        "choices": list[Data](document.choices), "acts": list[Data](acts(document)),
        "report": of_report(document.report, document.scenario.format),
    }


def of_scenario(scenario: Scenario) -> Object:
    made: Object = {"applid": dict[str, Data](scenario.applid), "takeovr": scenario.takeovr}
    made |= {word.lower(): number for word, number in scenario.numbers.items()}
    made["images"] = scenario.images
    if scenario.format == 2:
        made |= {"level": dict[str, Data](scenario.level), "xrfsoff": "FORCE" if scenario.force else "NOFORCE"}
    commands = [line.split(" ", 2) for line in scenario.commands]
    plan = [line.split(" ", 1) for line in scenario.plan]
    made["records"] = [{"record": record, "value": value} for record, value in scenario.records.items()]
    made["clt"] = [{"applid": words[0], "kind": words[1], "text": words[2]} for words in commands]
    made["work"] = {site: [" ".join(words) for words in items] for site, items in scenario.work.items()}
    made["plan"] = [{"tick": int(words[0]), "choice": words[1]} for words in plan]
    return made


def acts(document: Document) -> Iterator[Object]:
    for entry, choice in zip(document.entries, document.choices):
        yield of_entry(entry, choice)


def of_entry(entry: Entry, choice: str) -> Object:
    act = entry.act
    return {
        "act": entry.number, "tick": entry.tick, "site": None if entry.site == "-" else entry.site,
        "incarnation": entry.incarnation or None, "verb": act.verb, "data_set": act.reads or act.writes or None,
        "access": "read" if act.reads else "write" if act.writes else None, "fields": fields(act), "how": act.how,
        "landing": act.landing or None, "torn": act.torn.hex() or None, "choice": choice, "text": entry.text,
    }


def fields(act: Act) -> Object:
    """The words behind the verb by their names: numbers as numbers, and the control record in its parts."""
    words = act.words
    if act.verb == "CTLWRITE":
        return control(words)
    made: Object = {name: word if name in TEXTS else int(word) for name, word in words.items() if name != "what"}
    if "what" in words:
        name = BEHIND[words["decision"]]
        made[name] = int(words["what"]) if name == "incarnation" else words["what"]
    return made


def control(words: dict[str, str]) -> Object:
    """The control record; an owner, an alternate or a taking that is not there is null."""
    owner, alternate, taking = (words[name].split(".") for name in ("owner", "alt", "taking"))
    made: Object = {
        "last": int(words["last"]),
        "owner": {"incarnation": int(owner[0]), "site": owner[1], "state": owner[2]} if owner != ["NONE"] else None,
        "alternate": {"incarnation": int(alternate[0]), "site": alternate[1]} if alternate != ["NONE"] else None,
        "taking": {"incarnation": int(taking[0]), "cause": taking[1]} if taking != ["NONE"] else None,
    }
    return made | ({"format": int(words["format"])} if "format" in words else {})


def of_report(report: Report, format: int) -> Object:
    log, tick = one(report, "LOG"), one(report, "TICK")
    return {
        "items": [item(site, place, answer) for (site, place), answer in report.answers.items()],
        "tick": int(tick["tick"]), "control": control(one(report, "CONTROL")),
        "jobs": {words["site"]: job(words) for words in lines(report, "JOB")},
        "terminals": [terminal(words, format) for words in lines(report, "TERM")],
        "log": {name: int(count) for name, count in log.items()},
        "file": [{"record": int(words["record"]), "value": words.get("value")} for words in lines(report, "FILE")],
        "images": [{"data_set": words["name"], "offset": int(words["offset"]), "bytes": words["bytes"]}
                   for words in lines(report, "IMAGE")],
    }


def lines(report: Report, word: str) -> list[dict[str, str]]:
    """The words of each line of the report that begins with `word`, by their names."""
    found = []
    for text in report.of(word):
        match = LINES[word].fullmatch(text)
        if match is None:
            raise Fault(f"'{word} {text[:60]}' is no line of a report")
        found.append({name: part for name, part in match.groupdict().items() if part is not None})
    return found


def one(report: Report, word: str) -> dict[str, str]:
    found = lines(report, word)
    if len(found) != 1:
        raise Fault(f"the report has {len(found)} lines {word}; xrf replay writes one")
    return found[0]


def item(site: str, place: int, answer: str) -> Object:
    word, _, value = answer.partition(" ")
    return {"site": site, "item": place, "answer": word, "value": value or None}


def job(words: dict[str, str]) -> Object | None:
    return {"incarnation": int(words["incarnation"]), "state": words["state"]} if "state" in words else None


def terminal(words: dict[str, str], format: int) -> Object:
    made: Object = {"site": words["site"], "name": words["name"], "class": int(words["class"]), "how": words["how"]}
    return made | ({"user": words.get("user")} if format == 2 else {})
