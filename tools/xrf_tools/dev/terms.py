"""Spells what a document says as terms of the definitions."""

from __future__ import annotations

import itertools
import re
from collections.abc import Callable, Iterable, Sequence

from xrf_tools.acts import Act
from xrf_tools.document import Document
from xrf_tools.language import SITES

WIDTH = 150


def text_of(value: str) -> str:
    quoted = value.replace("\\", "\\\\").replace('"', '\\"')
    return f'(codes "{quoted}")'


def optional(word: str) -> str:
    """A name, or `-` where there is none."""
    return "None" if word == "-" else f"(Some {text_of(word)})"


def atom(term: str) -> str:
    return term if re.fullmatch(r"[\w.]+|\(.*\)", term) else f"({term})"


def plain(term: str) -> str:
    """a term in parentheses without them"""
    return term[1:-1] if term.startswith("(") else term


def truth(flag: bool) -> str:
    return "true" if flag else "false"


def camel(words: str) -> str:
    return "".join(word.capitalize() for word in words.split("_"))


def snake(name: str) -> str:
    return re.sub(r"(?<!^)(?=[A-Z])", "_", name).lower()


def wrapped(pieces: Iterable[str], indent: str, width: int = WIDTH) -> str:
    """Pieces with blanks between them, in lines of at most a width where that can be."""
    lines: list[str] = []
    line = ""
    for piece in pieces:
        if line and len(indent) + len(line) + 1 + len(piece) > width:
            lines.append(indent + line)
            line = ""
        line += (" " if line else "") + piece
    return "\n".join(lines + [indent + line])


def pieces_of(terms: Iterable[str], front: Sequence[str] = ()) -> list[str]:
    """The pieces of a list: what stands in front of it, then its terms; a term that stands three times or more in a
    row is said once."""
    pieces = [f"{name} ++" for name in front]
    for term, run in itertools.groupby(terms):
        count = len(list(run))
        pieces += [f"replicate {count} {atom(term)} ++"] if count > 2 else [f"{term} ∷"] * count
    if pieces and pieces[-1].endswith("++"):
        return pieces[:-1] + [pieces[-1][: -len(" ++")]]
    return pieces + ["[]"]


def number_list(numbers: Iterable[int]) -> str:
    """A list of bytes; the zeros or blanks at its end are said as a count."""
    return " ".join(pieces_of([str(number) for number in numbers]))


def field(label: str, terms: Iterable[str]) -> str:
    """A field of a record that is a list, on its own lines where it is long."""
    pieces = pieces_of(terms)
    line = f"  {label} = {' '.join(pieces)};"
    return line if len(line) <= WIDTH else f"  {label} =\n{wrapped(pieces, ' ' * 6)};"


# -- items, choices, commands

ITEMS: dict[str, Callable[[list[str]], str]] = {
    "BEGIN": lambda w: f"items.Begin {text_of(w[1])}",
    "PUT": lambda w: f"items.Put {text_of(w[1])} {w[2]} {text_of(w[3])}",
    "GET": lambda w: f"items.Get {text_of(w[1])} {w[2]}",
    "COMMIT": lambda w: f"items.Commit {text_of(w[1])}",
    "ROLL": lambda w: f"items.Roll {text_of(w[1])}",
    "LOGON": lambda w: f"items.Logon {text_of(w[1])} {w[2]}",
    "LOGOFF": lambda w: f"items.Logoff {text_of(w[1])}",
    "SIGNON": lambda w: f"items.Signon {text_of(w[1])} {text_of(w[2])}",
    "SIGNOFF": lambda w: f"items.Signoff {text_of(w[1])}",
    "CEMT": lambda w: "items.ShutdownTakeover" if w[-1] == "TAKEOVER" else "items.Shutdown",
}


def item(words: list[str]) -> str:
    return ITEMS[words[0]](words)


COMMANDS = {
    "PERFORM TAKEOVER": "cebt.PerformTakeover",
    "PERFORM SHUTDOWN": "cebt.PerformShutdown",
    "INQUIRE TAKEOVER": "cebt.InquireTakeover",
    "INQUIRE SURVEILLANCE": "cebt.InquireSurveillance",
    "SET SURVEILLANCE ON": "(cebt.SetSurveillance true)",
    "SET SURVEILLANCE OFF": "(cebt.SetSurveillance false)",
    "SET TAKEOVER AUTO": "(cebt.SetTakeover takeovr.Auto)",
    "SET TAKEOVER MANUAL": "(cebt.SetTakeover takeovr.Manual)",
    "SET TAKEOVER COMMAND": "(cebt.SetTakeover takeovr.Command)",
}
REPLIES = {
    "TAKEOVER ACCEPTED": "reply.TakeoverAccepted",
    "SHUTDOWN ACCEPTED": "reply.ShutdownAccepted",
    "TAKEOVER IN PROGRESS": "reply.InProgress",
    "TAKEOVER AUTO": "(reply.TakeoverMode takeovr.Auto)",
    "TAKEOVER MANUAL": "(reply.TakeoverMode takeovr.Manual)",
    "TAKEOVER COMMAND": "(reply.TakeoverMode takeovr.Command)",
    "SURVEILLANCE ON": "(reply.Surveillance true)",
    "SURVEILLANCE OFF": "(reply.Surveillance false)",
}


def landing(words: list[str]) -> str:
    """What of a write lands: NONE, ALL, or TORN with its bytes."""
    if words[0] == "TORN":
        return f"(landing.Torn ({number_list(bytes.fromhex(words[1]))}))"
    return {"NONE": "landing.Nothing", "ALL": "landing.All"}[words[0]]


CHOICES: dict[str, Callable[[list[str]], str]] = {
    "TICK": lambda w: "choice.Tick",
    "CONFIRM": lambda w: f"choice.Confirm {w[1]}",
    "STEP": lambda w: f"choice.Step site.{w[1]}",
    "LOSE": lambda w: f"choice.Lose site.{w[1]}",
    "STOP": lambda w: f"choice.Stop site.{w[1]} {landing(w[2:])}",
    "FAIL": lambda w: f"choice.Fail site.{w[1]} {landing(w[2:])}",
    "START": lambda w: f"choice.Start{w[2].capitalize()} site.{w[1]}",
    "ABEND": lambda w: f"choice.Abend site.{w[1]}",
    "REPLY": lambda w: f"choice.Reply site.{w[1]} {truth(w[2] == 'GO')}",
    "CEBT": lambda w: f"choice.Cebt site.{w[1]} {COMMANDS[' '.join(w[2:])]}",
    "EXIT": lambda w: f"choice.Exit site.{w[1]} exit.{w[2].capitalize()}",
}


def choice(text: str) -> str:
    words = text.split(" ")
    return CHOICES[words[0]](words)


# -- the control record, decisions, messages, ends

STATES = {"RUNNING": "Running", "NORMAL": "OffNormal", "ABEND": "OffAbend", "TAKEOVER": "OffTakeover"}


def owner(word: str) -> str:
    inc, site, state = word.split(".")
    return f"(owner_of {inc} site.{site} state.{STATES[state]})"


def alternate(word: str) -> str:
    inc, site = word.split(".")
    return f"(alt_of {inc} site.{site})"


def taking(word: str) -> str:
    inc, cause = word.split(".")
    return f"(taking_of {inc} cause.{cause.capitalize()})"


def control(last: str, parts: dict[str, str]) -> str:
    """The record of `last`, with the words of its owner, alternate and taking, and its format where that is not 1."""
    named = (("owner", owner), ("alt", alternate), ("taking", taking))
    terms = " ".join("None" if parts[name] == "NONE" else term(parts[name]) for name, term in named)
    return f"(of_parts {parts.get('format', '1')} {last} {terms})"


def decision(words: dict[str, str], is_owner: bool) -> str:
    kind, what = words["decision"], words.get("what", "")
    if kind == "NOTHING":
        return "(decided.Owner acting.Nothing)" if is_owner else "(decided.Alternate decision.Nothing)"
    if kind == "CATCHUP":
        return f"(decided.Owner (acting.CatchUp {what}))"
    if kind in ("SEEN", "FORGET", "LOST"):
        return f"(decided.Owner acting.{kind.capitalize()})"
    if kind in ("WAIT", "THROUGH"):
        return f"(decided.Waiting waiting.{kind.capitalize()})"
    if kind == "START":
        return f"(decided.Alternate (decision.Start cause.{what.capitalize()}))"
    if kind == "END":
        return f"(decided.Alternate (decision.Leave why.{what.capitalize()}))"
    return f"(decided.Alternate decision.{kind.capitalize()})"


def unit(word: str) -> str:
    inc, serial = word.split(".")
    return f"(unit_of {inc} {serial})"


def message(words: dict[str, str]) -> str:
    kind, epoch = words["kind"], words["epoch"]
    if kind == "BEGIN":
        return f"(message.Begin {epoch})"
    if kind == "END":
        return f"(message.End {epoch} {words['number']})"
    user = f" {optional(words.get('user', '-'))}" if kind == "USER" else ""
    row = f"{text_of(words['terminal'])} {words['class']} {truth(words['state'] == 'ON')}"
    return f"(message.{kind.capitalize()} {epoch} {words['number']} {row}{user})"


ENDS = {
    "NOACTIVE": "NoActive",
    "SIGNEDOFF": "SignedOff",
    "DROPPED": "Dropped",
    "NORMAL": "Normal",
    "SHUTDOWN": "Shutdown",
    "ABANDONED": "Abandoned",
    "MSGERROR": "MsgError",
    "FORMAT": "Format",
}


def end(act: Act) -> str:
    why = act.words["why"]
    return f"(end.Refused {act.words['by']})" if why == "REFUSED" else f"end.{ENDS[why]}"


# -- what the report tells beside the acts

ANSWERS = {
    "DONE": "Done",
    "EMPTY": "Empty",
    "LOCKED": "Locked",
    "LOGFULL": "LogFull",
    "NOTOPEN": "NotOpen",
    "NAMEUSED": "NameUsed",
    "UNITSFULL": "UnitsFull",
    "BADRRN": "BadRrn",
    "TERMUSED": "TermUsed",
    "TERMSFULL": "TermsFull",
    "NOTON": "NotOn",
    "USERON": "UserOn",
    "NOUSER": "NoUser",
}


def answer(text: str) -> str:
    word, _, value = text.partition(" ")
    if word in ("OPEN", "LOST"):
        return "None"
    return f"Some (answer.Got {text_of(value)})" if word == "VALUE" else f"Some answer.{ANSWERS[word]}"


def row(words: list[str]) -> str:
    """A terminal: its name, class and state, and under XRF 2 its user."""
    user = plain(optional(words[3] if len(words) > 3 else "-"))
    return f"record {{ term = {plain(text_of(words[0]))}; class = {words[1]}; how = how.{words[2].capitalize()}; user = {user} }}"


def held(line: str) -> str:
    """The control record of the line CONTROL."""
    last, *words = line.split(" ")
    return control(last, {name.lower(): word for name, word in zip(words[::2], words[1::2])})


def told(document: Document) -> list[str]:
    """The record of what the report tells."""
    report, scenario = document.report, document.scenario
    records, _, done, _, undone = report.of("LOG")[0].split(" ")
    file = ["Some None"] * scenario.numbers["FILE"]
    for line in report.of("FILE"):
        number, value = line.split(" ")
        file[int(number) - 1] = "None" if value == "DAMAGED" else f"Some (Some {text_of(value)})"
    answers = {site: [answer(text) for (at, _), text in report.answers.items() if at == site] for site in SITES}
    tables = {site: [row(line.split(" ")[1:]) for line in report.of("TERM") if line[0] == site] for site in SITES}
    return [
        "abbrev pub told : Told",
        "told = record {",
        field("answers_a", answers["A"]),
        field("answers_b", answers["B"]),
        f"  tick = {report.of('TICK')[0]};",
        f"  held = {plain(held(report.of('CONTROL')[0]))};",
        f"  records = {records};",
        f"  done = {done};",
        f"  undone = {undone};",
        field("file", file),
        field("table_a", tables["A"]),
        field("table_b", tables["B"]),
        "}",
    ]


def settings(document: Document) -> dict[str, str]:
    """The fields of the settings."""
    of, spelled = document.scenario, {1: "One", 2: "Two"}
    return {
        "format": f"format.{spelled[of.format]}",
        "applid_a": plain(text_of(of.applid["A"])),
        "applid_b": plain(text_of(of.applid["B"])),
        "takeovr": f"takeovr.{of.takeovr.capitalize()}",
        **{word.lower(): str(number) for word, number in of.numbers.items()},
        "images": truth(of.images),
        "level_a": f"level.{spelled[of.level['A']]}",
        "level_b": f"level.{spelled[of.level['B']]}",
        "force": truth(of.force),
    }


def command(text: str) -> str:
    applid, _, words = text.partition(" ")
    return f"record {{ applid = {plain(text_of(applid))}; text = {plain(text_of(words))} }}"


def planned(text: str) -> str:
    tick, _, words = text.partition(" ")
    return f"({tick}, {choice(words)})"


def scenario(document: Document) -> list[str]:
    """The record of the scenario."""
    of = document.scenario
    return [
        "abbrev pub scenario : Scen",
        "scenario = record {",
        "  settings = record {",
        *(f"    {label} = {value};" for label, value in settings(document).items()),
        "  };",
        field("records", [f"({number}, {plain(text_of(value))})" for number, value in of.records.items()]),
        field("clt", map(command, of.commands)),
        field("work_a", map(item, of.work["A"])),
        field("work_b", map(item, of.work["B"])),
        field("plan", map(planned, of.plan)),
        "}",
    ]
