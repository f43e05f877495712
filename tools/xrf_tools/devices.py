"""What lands of an act on the data sets."""

from __future__ import annotations

from typing import TYPE_CHECKING

from xrf_tools import layouts
from xrf_tools.acts import Act
from xrf_tools.errors import Fault
from xrf_tools.layouts import OPEN, Cell

if TYPE_CHECKING:
    from xrf_tools.jobs import Job
    from xrf_tools.standing import Standing

SETS = {"MSG": "MSG", "LOG": "LOG", "KP": "KEY"}
BODIES = {"MSG": layouts.message_body, "LOG": layouts.log_body, "KEY": layouts.keypoint_body}
GATES = {"CLOSE": 0, "OPEN": OPEN}


def land(standing: Standing, job: Job, act: Act) -> None:
    """Changes the data sets by what landed of the act."""
    verb = act.verb
    if verb == "CTLWRITE":
        land_control(standing, act)
    elif verb in ("SIGNAL1", "SIGNAL2"):
        if act.lands:
            counters = f"{job.incarnation} {act.words['counter']} {act.words['cursor']}"
            standing.show(f"signal {act.writes} {job.site}", counters)
            standing.signalled[job.site] = standing.tick
    elif verb in ("FILEWRITE", "UNDO"):
        land_file(standing, job, act)
    elif act.writes:
        land_slot(standing, act)


def land_control(standing: Standing, act: Act) -> None:
    record = type(standing.control).of(act.words)
    if not act.lands:
        return
    before, standing.control = standing.control, record
    standing.show("control", record.text())
    if record.owner != before.owner:
        standing.tell("through", record.owner_site, record.owner, before.owner)
    if record.taking and not before.taking:
        standing.tell("taking", record.alternate_site, record.taking, record.cause)
    if before.taking and not record.taking:
        standing.tell("taken", before.alternate_site, before.taking)


def land_file(standing: Standing, job: Job, act: Act) -> None:
    record = act.number("record")
    value = Cell(act.words["value"]) if act.verb == "FILEWRITE" else undone(standing, job, record)
    if act.landing == "TORN":
        standing.set_file(record, layouts.file_slot(act.torn))
    elif act.lands:
        standing.set_file(record, value)


def undone(standing: Standing, job: Job, record: int) -> Cell:
    """What the next undo row of the job puts back."""
    if job.undo_rows is None:
        job.undo_rows = standing.flight_rows()
    if not job.undo_rows or job.undo_rows[0].record != record:
        raise Fault(f"no Put of record {record} is to be undone next")
    return job.undo_rows.pop(0).before


def land_slot(standing: Standing, act: Act) -> None:
    """A CLOSE, BODY or OPEN of a gated slot."""
    name = next(name for prefix, name in SETS.items() if act.verb.startswith(prefix))
    place = act.number("place" if name == "LOG" else "slot")
    slot = standing.slot(name, place)
    part = act.verb.removeprefix("KP" if name == "KEY" else name)
    if part == "BODY":
        body = slot_text(act)
        if name == "LOG" and act.words["kind"] == "PUT":
            standing.before[place] = standing.cell(act.number("record"))
        if act.landing == "TORN":
            slot.body = BODIES[name](act.torn) or "no record"
        elif act.lands:
            slot.body = body
    elif act.landing == "TORN" or act.lands:
        slot.gate = act.torn[0] if act.landing == "TORN" else GATES[part]
        if part == "OPEN" and slot.gate == OPEN:
            opened(standing, name, act)
    standing.show_slot(name, place)


def slot_text(act: Act) -> str:
    """What the body of the act spells, in its own words."""
    words = act.words
    if act.verb.startswith("LOG"):
        end = f" {words['record']}" if words["kind"] == "PUT" else ""
        return f"{words['place']} {words['kind']} {words['unit']}{end}"
    if act.verb.startswith("KP"):
        return f"KEYPOINT {words['number']} START {words['start']}"
    return message_text(words)


def message_text(words: dict[str, str]) -> str:
    text = f"{words['kind']} {words['epoch']}"
    if words["kind"] != "BEGIN":
        text += f" {words['number']}"
    if "terminal" in words:
        text += f" {words['terminal']} {words['class']} {words['state']}"
    return f"{text} {words['user']}" if "user" in words else text


def opened(standing: Standing, name: str, act: Act) -> None:
    """A slot was opened: its record is in the log, or its message or keypoint is there."""
    if name == "LOG":
        standing.log_record(act)
    elif name == "MSG":
        standing.tell("message-opened", "", act.words["slot"], message_text(act.words))
