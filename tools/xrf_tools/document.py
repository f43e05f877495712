"""A scenario, and a document: the scenario, its choices, and the report, as `xrf replay` writes it."""

from __future__ import annotations

import re
import sys
from collections.abc import Callable
from dataclasses import dataclass, field
from pathlib import Path

from xrf_tools.acts import Act, read_act
from xrf_tools.errors import Fault
from xrf_tools.language import APPLIDS, CHOICES, DEFAULTS, INPUT_MOST, MARKS, NUMBER, QUANTITIES, SITES, VALUE, Form, forms
from xrf_tools.output import say


@dataclass
class Scenario:
    """What the lines before CHOICES say."""

    format: int = 1
    numbers: dict[str, int] = field(default_factory=lambda: {word: default for word, (_, default) in QUANTITIES.items()})
    takeovr: str = DEFAULTS["TAKEOVR"]
    images: bool = DEFAULTS["IMAGES"] == "ON"
    force: bool = DEFAULTS["XRFSOFF"] == "FORCE"
    applid: dict[str, str] = field(default_factory=lambda: dict(APPLIDS))
    level: dict[str, int] = field(default_factory=lambda: dict.fromkeys(SITES, 1))
    records: dict[int, str] = field(default_factory=dict)
    commands: list[str] = field(default_factory=list)
    work: dict[str, list[list[str]]] = field(default_factory=lambda: {site: [] for site in SITES})
    plan: list[str] = field(default_factory=list)

    def item(self, site: str, place: int) -> list[str]:
        """Item `place` of a site, from 1; Fault where there is none."""
        if not 1 <= place <= len(self.work[site]):
            raise Fault(f"the work of {site} has no item {place}")
        return self.work[site][place - 1]


@dataclass(frozen=True)
class Entry:
    """An ACT line: its number, tick, site ('-' for none), incarnation (0 for none), text and act."""

    number: int
    tick: int
    site: str
    incarnation: int
    text: str
    act: Act

    @property
    def line(self) -> str:
        return f"ACT {self.number} {self.tick} {self.site} {self.incarnation} {self.text}"

    @property
    def choice(self) -> str:
        """The choice by which the act is made."""
        act, site = self.act, self.site
        if act.how in ("stopped", "failed"):
            torn = f" {act.torn.hex()}" if act.torn else ""
            return f"{'STOP' if act.how == 'stopped' else 'FAIL'} {site} {act.landing or 'NONE'}{torn}"
        if act.how == "lost":
            return f"LOSE {site}"
        if site == "-":
            return self.text
        if act.verb in ("START", "ABEND", "REPLY", "CEBT", "EXIT"):
            verb, _, rest = self.text.partition(" = ")[0].partition(" ")
            return f"{verb} {site} {rest}".rstrip()
        return f"STEP {site}"


@dataclass
class Report:
    """The lines behind the ACT lines, and the answer of each item."""

    answers: dict[tuple[str, int], str] = field(default_factory=dict)
    lines: list[str] = field(default_factory=list)

    def of(self, word: str) -> list[str]:
        """What stands behind `word`, of each line that begins with it."""
        return [line.partition(" ")[2] for line in self.lines if line.split(" ", 1)[0] == word]


@dataclass
class Document:
    """What a text says; the choices stand without counts, and the title is what its comments say."""

    name: str
    title: str = ""
    scenario: Scenario = field(default_factory=Scenario)
    choices: list[str] = field(default_factory=list)
    entries: list[Entry] = field(default_factory=list)
    report: Report = field(default_factory=Report)


ENTRY = re.compile(rf"ACT ({NUMBER}) ({NUMBER}) ([AB-]) ({NUMBER}) (.+)")
ITEM = re.compile(rf"ITEM ([AB]) ({NUMBER}) ([A-Z]+(?: {VALUE})?)")
COUNTED = {form.word: form for form in CHOICES if form.parts[-1] == "1..9999"}


def by_word(found: list[Form]) -> dict[str, list[Form]]:
    words: dict[str, list[Form]] = {}
    for form in found:
        words.setdefault(form.word, []).append(form)
    return words


SETTINGS = {format: by_word(forms(False, format)) for format in (1, 2)}
CHOSEN = by_word(forms(True))


def values_of(words: list[str], table: dict[str, list[Form]]) -> list[str] | None:
    """What a line of one of these forms has in its places; None where it is of none."""
    found = (form.values(words) for form in table.get(words[0], []))
    return next((values for values in found if values is not None), None)


def canonical(words: list[str]) -> tuple[str, int]:
    """A choice as a document has it, and how often its count says it."""
    if words[0] in COUNTED and len(words) == len(COUNTED[words[0]].parts):
        return " ".join(words[:-1]), int(words[-1])
    front, torn, digits = " ".join(words).partition(" TORN ")
    return front + torn + digits.lower(), 1


class Reading:
    """Reads a text line by line; a line that it does not know is a Fault that names it."""

    def __init__(self, name: str) -> None:
        self.document = Document(name)
        self.part: Callable[[list[str]], None] = self.header

    def header(self, words: list[str]) -> None:
        if words[:1] != ["XRF"] or words[1:] not in (["1"], ["2"]):
            raise Fault("a document begins with XRF 1 or XRF 2")
        scenario = self.document.scenario
        scenario.format = int(words[1])
        scenario.level = dict.fromkeys(SITES, scenario.format)
        self.part = self.setting

    def setting(self, words: list[str]) -> None:
        values = values_of(words, SETTINGS[self.document.scenario.format])
        if values is None:
            raise Fault(f"'{' '.join(words)[:60]}' is no line of a scenario")
        if words == MARKS["CHOICES"].parts:
            self.part = self.choice
        else:
            self.keep(words, values)

    def keep(self, words: list[str], values: list[str]) -> None:
        scenario, word = self.document.scenario, words[0]
        if word in QUANTITIES:
            scenario.numbers[word] = int(values[0])
        elif word == "APPLID":
            scenario.applid[values[0]] = values[1]
        elif word == "LEVEL":
            scenario.level[values[0]] = int(values[1])
        elif word == "RECORD":
            scenario.records[int(values[0])] = values[1]
        elif word == "CLT":
            scenario.commands.append(" ".join(words[1:]))
        elif word == "PLAN":
            scenario.plan.append(" ".join(words[1:]))
        elif word == "WORK":
            scenario.work[values[0]].append(words[2:])
        else:
            self.keep_option(word, words[1])

    def keep_option(self, word: str, option: str) -> None:
        scenario = self.document.scenario
        if word == "TAKEOVR":
            scenario.takeovr = option
        elif word == "IMAGES":
            scenario.images = option == "ON"
        elif word == "XRFSOFF":
            scenario.force = option == "FORCE"

    def choice(self, words: list[str]) -> None:
        if words == MARKS["END"].parts:
            self.part = self.after_end
        elif values_of(words, CHOSEN) is None:
            raise Fault(f"'{' '.join(words)[:60]}' is no choice")
        else:
            one, count = canonical(words)
            self.document.choices += [one] * count

    def after_end(self, words: list[str]) -> None:
        raise Fault("only lines of the report may stand behind END")

    def report(self, text: str) -> None:
        if self.part != self.after_end:
            raise Fault("a line of the report stands before END")
        if text.startswith("ACT "):
            self.document.entries.append(self.entry(text))
        elif text.startswith("ITEM "):
            match = ITEM.fullmatch(text)
            if match is None:
                raise Fault(f"'{text[:60]}' tells no answer")
            self.document.report.answers[match[1], int(match[2])] = match[3]
        else:
            self.document.report.lines.append(text)

    def entry(self, text: str) -> Entry:
        match = ENTRY.fullmatch(text)
        if match is None:
            raise Fault(f"'{text[:60]}' is no ACT line")
        number, place = int(match[1]), len(self.document.entries) + 1
        if number != place:
            raise Fault(f"act {number} stands in the place of act {place}")
        act = read_act(match[5])
        if (match[3] == "-") != (act.verb in ("TICK", "CONFIRM")):
            raise Fault(f"'{text[:60]}' is made by the wrong site")
        return Entry(number, int(match[2]), match[3], int(match[4]), match[5], act)

    def line(self, text: str) -> None:
        if text.startswith("* "):
            self.report(text[2:].rstrip("\r"))
        elif text.startswith("#"):
            self.document.title = f"{self.document.title} {text[1:].strip()}".strip()
        elif text.strip():
            self.part(text.split())


def read_lines(name: str, text: str) -> Document:
    """What a text says up to its END; Fault with the first line that it can't have."""
    reading = Reading(name)
    for number, line in enumerate(text.split("\n"), 1):
        try:
            reading.line(line)
        except Fault as fault:
            raise Fault(f"{name}, line {number}: {fault}") from None
    if reading.part != reading.after_end:
        raise Fault(f"{name}: it ends without END")
    return reading.document


def read(name: str, text: str) -> Document:
    """The document that `text` spells; Fault with the first line that it can't have."""
    document = read_lines(name, text)
    if document.report.lines[-1:] != ["DONE"]:
        raise Fault(f"{name}: it has no whole report; xrf replay writes one")
    if document.choices != [entry.choice for entry in document.entries]:
        raise Fault(f"{name}: its report is not that of its choices; xrf replay writes one anew")
    return document


def read_scenario(name: str, text: str) -> Document:
    """The scenario and the choices that `text` spells; what stands behind END is left out."""
    lines = text.split("\n")
    end = next((place for place, line in enumerate(lines) if line.split() == MARKS["END"].parts), len(lines))
    return read_lines(name, "\n".join(lines[: end + 1]))


def has_report(text: str) -> bool:
    """Whether a text has lines of a report behind it, and not only notes that begin with '*'."""
    return re.search(r"^\* (?:ACT .*|DONE\s*)$", text, re.M) is not None


def read_text(path: str, most: int = INPUT_MOST) -> str:
    """The bytes of a file or, for '-', of standard input, a letter each; Fault where they can't be had, or are more than
    `most`."""
    if path == "-" and sys.stdin is not None and sys.stdin.isatty():
        say("the text is read from the terminal; end it with Ctrl-D")
    try:
        data = Path("/dev/stdin" if path == "-" else path).read_bytes()
    except OSError as error:
        raise Fault(f"{path}: {(error.strerror or str(error)).lower()}") from None
    if len(data) > most:
        raise Fault(f"{path}: it is larger than {most:,} bytes")
    return data.decode("latin-1")
