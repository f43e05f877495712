"""Spells the acts of a report as entries of a trace.

The before-image of each put, which no ACT line shows, is found by keeping the file as the acts change it.
"""

from __future__ import annotations

from collections.abc import Callable
from dataclasses import dataclass

from xrf_tools.acts import Act
from xrf_tools.dev.terms import COMMANDS, REPLIES, control, decision, end, landing, message, number_list, text_of, truth, unit
from xrf_tools.document import Document, Entry
from xrf_tools.layouts import OPEN

SIZE = 32
PLAIN = {
    "TICK": "Tick",
    "RESERVE": "Reserve",
    "CTLREAD": "CtlRead",
    "RELEASE": "Release",
    "LOOK1": "Look1",
    "LOOK2": "Look2",
    "RESTARTED": "Restarted",
    "ABEND": "Abend",
}
# acts on a slot, and their names
SLOTS = {f"{of}{act}": f"{of.capitalize()}{act.capitalize()}" for of in ("MSG", "LOG", "KP") for act in ("READ", "LOOK", "CLOSE", "BODY", "OPEN")}


@dataclass(frozen=True)
class Bytes:
    """The bytes of a file slot, and how they are spelled."""

    numbers: bytes
    term: str


EMPTY = Bytes(bytes(SIZE), "(slot_of None)")


def slot(value: str) -> Bytes:
    return Bytes(b"\1" + bytes(7) + value.encode().ljust(SIZE - 8), f"(slot_of (Some {text_of(value)}))")


class Entries:
    """The entries of a document's acts, the oldest first."""

    def __init__(self, document: Document) -> None:
        self.file = {number: slot(value) for number, value in document.scenario.records.items()}
        self.owners: set[str] = set()  # the incarnations that became owner
        self.puts: list[tuple[str, int, Bytes]] = []  # the opened puts, oldest first: the unit, the record number, the before-image
        self.ended: set[str] = set()  # the units whose Commit or Backout is opened
        self.undone: set[tuple[int, int]] = set()  # the puts that a job undid: its incarnation and the place in `puts`
        self.read: dict[tuple[str, int, int], Bytes] = {}  # what each site's incarnation read last, by the record number
        self.list = [self.entry(entry) for entry in document.entries]

    def entry(self, entry: Entry) -> str:
        act = entry.act
        front = f"entry_of {entry.tick} {'who.Env' if entry.site == '-' else f'who.{entry.site}'} {entry.incarnation}"
        if act.verb == "STOP":
            return f"{front} act.NoAct (land.Stop landing.Nothing)"
        term = self.act(entry)
        return f"{front} {f'({term})' if ' ' in term else term} {landed(act)}"

    def act(self, entry: Entry) -> str:
        verb = entry.act.verb
        if verb in PLAIN:
            return f"act.{PLAIN[verb]}"
        if verb in SLOTS:
            return self.on_slot(entry)
        call: Callable[[Entry], str] = getattr(self, f"on_{verb.lower()}")
        return call(entry)

    def on_start(self, entry: Entry) -> str:
        return f"act.Start{entry.act.words['role'].capitalize()}"

    def on_confirm(self, entry: Entry) -> str:
        return f"act.Confirm {entry.act.words['number']}"

    def on_reply(self, entry: Entry) -> str:
        return f"act.Reply {truth(entry.act.words['answer'] == 'GO')}"

    def on_cebt(self, entry: Entry) -> str:
        return f"act.Cebt {COMMANDS[entry.act.words['command']]} {REPLIES[entry.act.words['reply']]}"

    def on_exit(self, entry: Entry) -> str:
        return f"act.Exit exit.{entry.act.words['answer'].capitalize()}"

    def on_ctlwrite(self, entry: Entry) -> str:
        words = entry.act.words
        self.owners.add(words["owner"].split(".")[0])
        return f"act.CtlWrite {control(words['last'], words)}"

    def on_signal1(self, entry: Entry) -> str:
        words = entry.act.words
        return f"act.Signal{entry.act.verb[-1]} (of_numbers {entry.incarnation} {words['counter']} {words['cursor']})"

    on_signal2 = on_signal1

    def on_decide(self, entry: Entry) -> str:
        return f"act.Decide {decision(entry.act.words, str(entry.incarnation) in self.owners)}"

    def on_item(self, entry: Entry) -> str:
        return f"act.Item {entry.act.words['item']}"

    def on_clt(self, entry: Entry) -> str:
        return f"act.Clt {entry.act.words['line']}"

    def on_ended(self, entry: Entry) -> str:
        return f"act.Ended {end(entry.act)}"

    def on_slot(self, entry: Entry) -> str:
        """a read, a look, a close, a body or an opening of a slot of messages, log or keypoints"""
        act, words = entry.act, entry.act.words
        place = next(words[name] for name in ("slot", "place", "block") if name in words)
        front = f"act.{SLOTS[act.verb]} {place}"
        if not act.verb.endswith(("BODY", "OPEN")):
            return front
        if act.verb.startswith("MSG"):
            return f"{front} {message(words)}"
        if act.verb.startswith("KP"):
            return f"{front} (record {{ number = {words['number']}; start = {words['start']} }})"
        return f"{front} {self.on_log(entry)}"

    def on_log(self, entry: Entry) -> str:
        """the record of a body or an opening of the log; one that is opened counts from then on"""
        act, words = entry.act, entry.act.words
        put = ""
        is_opened = act.verb == "LOGOPEN" and (act.lands or act.torn == bytes([OPEN]))
        if words["kind"] == "PUT":
            number = act.number("record")
            before = self.read[entry.site, entry.incarnation, number]
            put = f" {number} {before.term}"
            if is_opened:
                self.puts.append((words["unit"], number, before))
        elif is_opened:
            self.ended.add(words["unit"])
        return f"(rec.{words['kind'].capitalize()} {unit(words['unit'])}{put})"

    def on_fileread(self, entry: Entry) -> str:
        number = entry.act.number("record")
        self.read[entry.site, entry.incarnation, number] = self.file.get(number, EMPTY)
        return f"act.FileRead {number}"

    def on_filewrite(self, entry: Entry) -> str:
        words = entry.act.words
        self.write(entry.act, slot(words["value"]))
        return f"act.FileWrite {unit(words['unit'])} {words['record']} {text_of(words['value'])}"

    def on_undo(self, entry: Entry) -> str:
        number = entry.act.number("record")
        before = self.undo(entry.incarnation, number)
        self.write(entry.act, before)
        return f"act.Undo {number} {before.term}"

    def write(self, act: Act, written: Bytes) -> None:
        if act.torn:
            self.file[act.number("record")] = Bytes(act.torn, f"({number_list(act.torn)})")
        elif act.lands:
            self.file[act.number("record")] = written

    def undo(self, incarnation: int, number: int) -> Bytes:
        """The before-image of the newest put of a record, of a unit in flight, that this job has not undone."""
        for place, (unit_of_put, of_record, before) in reversed(list(enumerate(self.puts))):
            if of_record == number and unit_of_put not in self.ended and (incarnation, place) not in self.undone:
                self.undone.add((incarnation, place))
                return before
        raise ValueError(f"there is no put of record {number} to undo")


def landed(act: Act) -> str:
    """What became of an act, as the trace has it."""
    if act.how in ("stopped", "failed"):
        words = [act.landing, *([act.torn.hex()] if act.torn else [])]
        return f"(land.{'Stop' if act.how == 'stopped' else 'Fail'} {landing(words)})"
    return "land.Lost" if act.how == "lost" else "land.Full"
