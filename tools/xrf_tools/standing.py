"""What stands after each act: the data sets, the jobs, the units and the terminals.

`Standing.take` makes one entry more. Each thing that a reader of the run would see is kept in `shown` under a key, such
as 'file 3' or 'control'; what an entry changed of it is in `changes`, and what it came to in `events`.
"""

from __future__ import annotations

from dataclasses import dataclass, field

from xrf_tools import devices, jobs
from xrf_tools.acts import Act
from xrf_tools.document import Document, Entry
from xrf_tools.errors import Fault
from xrf_tools.jobs import Job
from xrf_tools.layouts import EMPTY, OPEN, Cell


@dataclass(frozen=True)
class Event:
    """What an entry came to, by its kind: see the calls of `Standing.tell`."""

    kind: str
    site: str = ""
    words: tuple[str, ...] = ()


@dataclass(frozen=True)
class Control:
    """The control record; an incarnation of 0 is none."""

    last: int = 0
    owner: int = 0
    owner_site: str = ""
    owner_state: str = ""
    alternate: int = 0
    alternate_site: str = ""
    taking: int = 0
    cause: str = ""
    format: int = 1

    @staticmethod
    def of(words: dict[str, str]) -> "Control":
        owner, site, state = (words["owner"].split(".") + ["", "", ""])[:3]
        alternate, other = (words["alt"].split(".") + [""])[:2]
        taking, cause = (words["taking"].split(".") + [""])[:2]
        number = {name: 0 if word == "NONE" else int(word) for name, word in
                  (("owner", owner), ("alternate", alternate), ("taking", taking))}
        return Control(int(words["last"]), number["owner"], site, state, number["alternate"], other,
                       number["taking"], cause, int(words.get("format", "1")))

    def text(self) -> str:
        owner = f"{self.owner}.{self.owner_site}.{self.owner_state}" if self.owner else "NONE"
        alternate = f"{self.alternate}.{self.alternate_site}" if self.alternate else "NONE"
        taking = f"{self.taking}.{self.cause}" if self.taking else "NONE"
        return f"{self.last} OWNER {owner} ALT {alternate} TAKING {taking}"


@dataclass
class Slot:
    """A gated slot: its gate byte and what its body spells, '' for nothing."""

    gate: int = 0
    body: str = ""


@dataclass(frozen=True)
class Put:
    """An opened Put, with what stood in its file slot before."""

    unit: str
    record: int
    place: int
    before: Cell


@dataclass
class Log:
    """The opened records: how many, each unit's Puts while it is in flight, and how units ended."""

    count: int = 0
    flight: dict[str, list[Put]] = field(default_factory=dict)
    ended: dict[str, str] = field(default_factory=dict)

    @property
    def committed(self) -> int:
        return sum(how == "COMMIT" for how in self.ended.values())


class Standing:
    """All that stands after the entries taken so far."""

    def __init__(self, document: Document) -> None:
        self.document = document
        self.scenario = document.scenario
        self.entry: Entry | None = None
        self.tick = 0
        self.control = Control()
        self.reserve = ""
        self.confirmed: set[int] = set()
        self.jobs: dict[str, Job | None] = {"A": None, "B": None}
        self.slots: dict[str, dict[int, Slot]] = {"MSG": {}, "LOG": {}, "KEY": {}}
        self.before: dict[int, Cell] = {}
        self.log = Log()
        self.file = {record: Cell(value) for record, value in self.scenario.records.items()}
        self.signalled = {"A": -1, "B": -1}
        self.shown: dict[str, str] = {}
        self.changes: dict[str, str] = {}
        self.events: list[Event] = []
        self.show_first()

    def show_first(self) -> None:
        self.show("tick", "0")
        self.show("control", self.control.text())
        for site in ("A", "B"):
            self.show(f"job {site}", "NONE")
        for record, cell in sorted(self.file.items()):
            self.show(f"file {record}", str(cell))

    # What a reader sees, and what an entry came to.

    def show(self, key: str, value: str) -> None:
        if self.shown.get(key, "") != value:
            self.shown[key] = self.changes[key] = value

    def tell(self, kind: str, site: str = "", *words: object) -> None:
        self.events.append(Event(kind, site, tuple(map(str, words))))

    def take(self, entry: Entry) -> None:
        """Makes one entry more; Fault where it can't follow what stands."""
        self.entry, self.changes, self.events = entry, {}, []
        try:
            self.made(entry)
        except Fault as fault:
            raise Fault(f"{self.document.name}, act {entry.number}: {fault}") from None

    def made(self, entry: Entry) -> None:
        act = entry.act
        if act.verb == "TICK":
            self.tick += 1
            self.show("tick", str(self.tick))
        elif act.verb == "CONFIRM":
            self.confirmed.add(act.number("number"))
            self.show("confirmed", " ".join(map(str, sorted(self.confirmed))))
        elif act.verb == "START":
            self.start(entry.site, act.words["role"])
        else:
            job = self.job(entry.site)
            devices.land(self, job, act)
            jobs.made(self, job, entry)
            if act.how == "stopped":
                self.gone(entry.site, "STOPPED")
            self.show_job(entry.site)

    def start(self, site: str, role: str) -> None:
        if self.jobs[site]:
            raise Fault(f"a region is at {site} already")
        self.jobs[site] = Job(site, role, mode=self.scenario.takeovr)
        self.tell("started", site, role)
        self.show_job(site)

    def job(self, site: str) -> Job:
        job = self.jobs[site]
        if job is None:
            raise Fault(f"no region is at {site}")
        return job

    def gone(self, site: str, why: str) -> None:
        """The job at a site is no more: it ended, or it was stopped."""
        job = self.job(site)
        for unit in job.units.values():
            self.show(f"unit {unit.key}", "in flight" if unit.key in self.log.flight else "")
            if unit.key not in self.log.flight:
                self.tell("unit-forgotten", site, unit.key)
        for terminal in job.table:
            self.show(f"term {site} {terminal}", "")
        self.show(f"item {site}", "")
        self.show(f"notice {site}", "")
        if self.reserve == site:
            self.free()
        self.jobs[site] = None
        self.tell("gone", site, why, job.incarnation)
        self.show_job(site)

    def free(self) -> None:
        self.reserve = ""
        self.show("reserve", "")

    def show_job(self, site: str) -> None:
        job = self.jobs[site]
        self.show(f"job {site}", f"{job.incarnation} {job.state}" if job else "NONE")

    # The units.

    def flight_rows(self) -> list[Put]:
        """The Puts of the units in flight, the newest first."""
        puts = [put for unit in self.log.flight.values() for put in unit]
        return sorted(puts, key=lambda put: put.place, reverse=True)

    def log_record(self, act: Act) -> None:
        """The record of a LOGOPEN that landed as open is in the log."""
        unit, kind, log = act.words["unit"], act.words["kind"], self.log
        log.count += 1
        if kind == "PUT":
            record, place = act.number("record"), act.number("place")
            if unit not in log.ended:
                log.flight.setdefault(unit, []).append(Put(unit, record, place, self.before.get(place, EMPTY)))
            self.tell("unit-put", "", unit, record, place)
        else:
            log.flight.pop(unit, None)
            log.ended.setdefault(unit, kind)
            self.show(f"unit {unit}", "")
            self.tell("unit-ended", "", unit, kind)

    def slot(self, name: str, place: int) -> Slot:
        """The slot of a data set; a log record's number may be above its slots."""
        if name == "LOG":
            place %= self.scenario.numbers["LOG"]
        return self.slots[name].setdefault(place, Slot())

    def show_slot(self, name: str, place: int) -> None:
        slot = self.slot(name, place)
        if name == "LOG":
            place %= self.scenario.numbers["LOG"]
        gate = "open" if slot.gate == OPEN else "closed"
        self.show(f"{name.lower()} {place}", f"{gate} {slot.body}".strip())

    def set_file(self, record: int, cell: Cell) -> None:
        self.file[record] = cell
        self.show(f"file {record}", str(cell))

    def cell(self, record: int) -> Cell:
        return self.file.get(record, EMPTY)

    def report(self) -> list[str]:
        """The report as it would be written here, without items and images."""
        control = self.control.text()
        if self.scenario.format == 2:
            control += f" FORMAT {self.control.format}"
        lines = [f"TICK {self.tick}", f"CONTROL {control}"]
        lines += [f"JOB {site} {self.shown[f'job {site}']}" for site in self.jobs]
        for site, job in self.jobs.items():
            lines += [f"TERM {site} {row}" for row in job.rows(self.scenario.format)] if job else []
        lines.append(f"LOG {self.log.count} COMMITTED {self.log.committed} FLIGHT {len(self.log.flight)}")
        lines += [f"FILE {record} {cell}" for record, cell in sorted(self.file.items()) if cell != EMPTY]
        return [*lines, "DONE"]
