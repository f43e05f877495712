"""What a job is: its state, its units, its terminals, and what each of its acts makes of them."""

from __future__ import annotations

from dataclasses import dataclass, field
from typing import TYPE_CHECKING

from xrf_tools.acts import Act
from xrf_tools.layouts import OPEN

if TYPE_CHECKING:
    from xrf_tools.document import Entry
    from xrf_tools.standing import Control, Put, Standing

MOST_ROWS = 64
OTHER = {"A": "B", "B": "A"}


@dataclass
class Row:
    """A terminal: its class, how it came here, and its user."""

    kind: int
    how: str
    user: str = "-"


@dataclass
class Unit:
    key: str
    name: str


@dataclass
class Job:
    """A region's job, from its START on."""

    site: str
    role: str
    incarnation: int = 0
    is_owner: bool = False
    is_waiting: bool = False
    is_restarted: bool = False
    is_ending: bool = False
    is_dropping: bool = False
    has_go: bool = False
    decision: str = ""
    notice: str = ""
    epoch: int = 0
    expected: int = 0
    item: int = 0
    begun: int = 0
    mode: str = ""
    is_watching: bool = True
    has_asked: bool = False
    change: int = 0
    news: str = ""
    seen: Control | None = None
    look: tuple[str, str] | None = None
    first_look: str = ""
    units: dict[str, Unit] = field(default_factory=dict)
    table: dict[str, Row] = field(default_factory=dict)
    undo_rows: list[Put] | None = None

    @property
    def state(self) -> str:
        if self.is_ending:
            return "ENDING"
        if not self.incarnation:
            return "STARTING"
        if self.is_owner:
            return "ACTIVE" if self.is_restarted else "RESTARTING"
        return "WAITING" if self.is_waiting else "TRACKING"

    def rows(self, format: int) -> list[str]:
        """The terminals by name, as the report has them."""
        return [f"{name} {row.kind} {row.how}" + (f" {row.user}" if format == 2 else "")
                for name, row in sorted(self.table.items())]


def made(standing: Standing, job: Job, entry: Entry) -> None:
    """What an act of the job makes of it, where the job lives to know."""
    act = entry.act
    if act.how == "stopped":
        return
    if act.how == "failed":
        failed(job, act)
        return
    call = CALLS.get(act.verb)
    if call:
        call(standing, job, act)


def failed(job: Job, act: Act) -> None:
    if job.is_owner and job.is_restarted and act.verb.startswith("MSG"):
        job.is_dropping = True
    else:
        job.is_ending = True


def reserve(standing: Standing, job: Job, act: Act) -> None:
    standing.reserve = job.site
    standing.show("reserve", job.site)


def release(standing: Standing, job: Job, act: Act) -> None:
    standing.free()
    if job.is_dropping:
        job.is_dropping = False
        if standing.control.taking:
            set_notice(standing, job, "TAKEOVER SEEN")
        else:
            job.epoch = 0


def control_read(standing: Standing, job: Job, act: Act) -> None:
    record = standing.control
    is_starting = job.decision == "START" and not job.is_waiting and not job.is_ending
    if is_starting and (record.alternate != job.incarnation or record.owner_state == "NORMAL"):
        job.is_ending = True


def control_write(standing: Standing, job: Job, act: Act) -> None:
    record = standing.control
    if not job.incarnation:
        job.incarnation = record.last
        begin_anew(standing, job, "it signed on")
        standing.tell("granted", job.site, job.role, job.incarnation)
    job.is_owner = job.is_owner or record.owner == job.incarnation
    if record.taking == job.incarnation and not job.is_owner:
        job.is_waiting = True


def begin_anew(standing: Standing, job: Job, news: str) -> None:
    """From this tick on the job counts the silence of the other site: it has seen news, or was told to."""
    job.change, job.news = standing.tick, news


def is_missed(standing: Standing, job: Job) -> bool:
    """Whether no news of the other site has come for the interval of the job."""
    return standing.tick - job.change >= standing.scenario.numbers["PDI" if job.is_owner else "ADI"]


def look_first(standing: Standing, job: Job, act: Act) -> None:
    job.seen = standing.control
    job.first_look = standing.shown.get(f"signal CTL {OTHER[job.site]}", "")


def look_second(standing: Standing, job: Job, act: Act) -> None:
    look = job.first_look, standing.shown.get(f"signal MSG {OTHER[job.site]}", "")
    if look != job.look:
        begin_anew(standing, job, "it saw a new signal" if job.look else "it looked for the first time")
        job.look = look


def decide(standing: Standing, job: Job, act: Act) -> None:
    job.decision = act.words["decision"]
    job.has_asked = job.decision == "ASK" or job.has_asked and is_missed(standing, job)
    if job.decision == "END":
        job.is_ending = True
    elif job.decision == "SEEN":
        set_notice(standing, job, "TAKEOVER SEEN")
    elif job.decision == "LOST":
        set_notice(standing, job, "ALTERNATE LOST")
    elif job.decision == "NOTHING":
        job.has_go = False
    elif job.decision == "CATCHUP":
        job.epoch = int(act.words.get("what", "0"))
        begin_anew(standing, job, "it found it")
    elif job.decision == "FORGET":
        job.epoch = 0


def set_notice(standing: Standing, job: Job, notice: str) -> None:
    job.notice = notice
    standing.show(f"notice {job.site}", notice)


def leave_exit(standing: Standing, job: Job, act: Act) -> None:
    set_notice(standing, job, "")
    answer = act.words["answer"]
    if answer == "ABEND":
        job.is_ending = True
    elif answer == "DROP":
        job.is_dropping = True
    else:
        begin_anew(standing, job, "the exit answered KEEP")


def abend(standing: Standing, job: Job, act: Act) -> None:
    job.is_ending = True


def reply(standing: Standing, job: Job, act: Act) -> None:
    job.has_go = act.words["answer"] == "GO"
    if not job.has_go:
        job.has_asked = False
        begin_anew(standing, job, "the operator replied IGNORE")


def command(standing: Standing, job: Job, act: Act) -> None:
    verb, what, *mode = act.words["command"].split(" ")
    if verb != "SET":
        return
    if what == "TAKEOVER":
        job.mode = mode[0]
    else:
        job.is_watching = mode == ["ON"]
        if job.is_watching:
            begin_anew(standing, job, "surveillance was set ON")


def read_message(standing: Standing, job: Job, act: Act) -> None:
    """Before its restart a job takes the message that it expects, where it stands in the slot."""
    slot = standing.slot("MSG", act.number("slot"))
    words = slot.body.split(" ")
    if job.is_restarted or slot.gate != OPEN or words[0] not in ("BEGIN", "TERM", "USER", "END"):
        return
    number = 0 if words[0] == "BEGIN" else int(words[2])
    if int(words[1]) != job.incarnation or number != job.expected:
        return
    job.expected += 1
    standing.tell("message-taken", job.site, act.words["slot"], slot.body)
    apply_message(standing, job, words)


def apply_message(standing: Standing, job: Job, words: list[str]) -> None:
    if words[0] == "BEGIN":
        for name in list(job.table):
            set_row(standing, job, name, None)
    elif words[0] in ("TERM", "USER"):
        name = words[3]
        if words[5] == "OFF":
            set_row(standing, job, name, None)
        elif name in job.table or len(job.table) < MOST_ROWS:
            set_row(standing, job, name, Row(int(words[4]), "TRACKED", words[6] if len(words) > 6 else "-"))


def set_row(standing: Standing, job: Job, name: str, row: Row | None) -> None:
    if row is None:
        job.table.pop(name, None)
        standing.show(f"term {job.site} {name}", "")
        return
    job.table[name] = row
    user = f" {row.user}" if standing.scenario.format == 2 else ""
    standing.show(f"term {job.site} {name}", f"{row.kind} {row.how}{user}")


def restarted(standing: Standing, job: Job, act: Act) -> None:
    job.is_restarted = True
    settled = []
    for name, row in sorted(job.table.items()):
        if row.how == "TRACKED":
            how = "SWITCHED" if row.kind == 1 else "ACQUIRED"
            set_row(standing, job, name, Row(row.kind, how, "-" if standing.scenario.force else row.user))
            settled.append(f"{name} {how}")
    standing.tell("restarted", job.site, *settled)


def item(standing: Standing, job: Job, act: Act) -> None:
    job.item = act.number("item")
    words = standing.scenario.item(job.site, job.item)
    standing.show(f"item {job.site}", f"{job.item} {' '.join(words)}")
    answer = standing.document.report.answers.get((job.site, job.item), "OPEN")
    if words[0] == "ROLL" and (unit := job.units.get(words[1])):
        job.undo_rows = standing.log.flight.get(unit.key, [])[::-1]
    if words[0] == "CEMT":
        job.is_ending = True
    elif words[0] not in ("PUT", "GET") and answer == "DONE":
        do_item(standing, job, words)


def do_item(standing: Standing, job: Job, words: list[str]) -> None:
    """An item that is done at once: all but PUT, GET, and what ends a unit with records."""
    verb, name = words[0], words[1]
    if verb == "BEGIN":
        job.begun += 1
        begun = job.units[name] = Unit(f"{job.incarnation}.{job.begun}", name)
        standing.show(f"unit {begun.key}", f"{name} open")
        standing.tell("unit-begun", job.site, begun.key, name)
    elif verb in ("COMMIT", "ROLL"):
        unit = job.units.get(name)
        if unit and unit.key not in standing.log.flight:
            del job.units[name]
            standing.show(f"unit {unit.key}", "")
            standing.tell("unit-ended", job.site, unit.key, "EMPTY")
    elif verb == "LOGON":
        set_row(standing, job, name, Row(int(words[2]), "ON"))
    elif verb == "LOGOFF":
        set_row(standing, job, name, None)
    elif name in job.table:
        row = job.table[name]
        set_row(standing, job, name, Row(row.kind, row.how, words[2] if verb == "SIGNON" else "-"))


def open_log(standing: Standing, job: Job, act: Act) -> None:
    """A Commit or Backout that is open ends its unit."""
    if act.words["kind"] != "PUT":
        job.units = {name: unit for name, unit in job.units.items() if unit.key != act.words["unit"]}


def end(standing: Standing, job: Job, act: Act) -> None:
    standing.gone(job.site, act.words["why"])


CALLS = {
    "RESERVE": reserve, "RELEASE": release, "CTLREAD": control_read, "CTLWRITE": control_write, "LOOK1": look_first,
    "LOOK2": look_second, "DECIDE": decide, "EXIT": leave_exit, "ABEND": abend, "REPLY": reply, "CEBT": command,
    "MSGREAD": read_message, "RESTARTED": restarted, "ITEM": item, "LOGOPEN": open_log, "ENDED": end,
}
