"""What an act means, in a sentence.

`tell` makes one entry more and tells it. The sentences of a job's acts are in `CALLS`, by the verb; each is told from
what stood before the act and what stands behind it.
"""

from __future__ import annotations

from collections.abc import Callable
from dataclasses import dataclass, replace

from xrf_tools.acts import Act
from xrf_tools.devices import message_text
from xrf_tools.document import Entry
from xrf_tools.jobs import OTHER, Job, is_missed
from xrf_tools.layouts import OPEN
from xrf_tools.standing import Control, Event, Standing

STATES = {"NORMAL": "as ended normally", "ABEND": "as ended abnormally", "TAKEOVER": "so that the alternate takes over"}
CAUSES = {
    "LOST": "since the signals of the owner are missed", "ABEND": "since the owner ended abnormally",
    "SHUTDOWN": "since the owner was shut down for it", "COMMAND": "since it was commanded",
}
ANSWERS = {
    "DONE": "it is done", "EMPTY": "the record is empty", "LOCKED": "another unit holds that record",
    "LOGFULL": "the log is full", "NOTOPEN": "no unit of this name is open", "NAMEUSED": "a unit of this name is open",
    "UNITSFULL": "eight units are open", "BADRRN": "the file has no such record", "TERMUSED": "the terminal is on",
    "TERMSFULL": "the table of terminals is full", "NOTON": "the terminal is not on", "USERON": "a user is signed on",
    "NOUSER": "no user is signed on", "OPEN": "it is not answered yet", "LOST": "its region is gone before it is answered",
}
ENDINGS = {
    "NOACTIVE": "there is no active that runs", "SIGNEDOFF": "it has signed off", "DROPPED": "the active has dropped it",
    "NORMAL": "the active ended normally, so there is nothing to take over", "SHUTDOWN": "it was told to shut down",
    "ABANDONED": "its takeover came too late", "MSGERROR": "it could not read a message",
}
PATHS = {"CTL": "control", "MSG": "message"}


@dataclass(frozen=True)
class Moment:
    """What an act is told from: what stood before it and what stands behind it."""

    standing: Standing
    entry: Entry
    control: Control
    job: Job
    value: str

    @property
    def site(self) -> str:
        return self.entry.site

    @property
    def words(self) -> dict[str, str]:
        return self.entry.act.words

    def event(self, kind: str) -> Event | None:
        return next((event for event in self.standing.events if event.kind == kind), None)


def tell(standing: Standing, entry: Entry) -> str:
    """Makes the entry and tells it."""
    job = standing.jobs.get(entry.site)
    before = replace(job, table=dict(job.table)) if job else Job(entry.site, "")
    record = entry.act.words.get("record", "0")
    value = str(standing.cell(int(record)))
    control = standing.control
    standing.take(entry)
    moment = Moment(standing, entry, control, before, value)
    if entry.act.how in ("stopped", "failed"):
        return cut_short(moment)
    return CALLS[entry.act.verb](moment)


def cut_short(moment: Moment) -> str:
    """A stop or a failure."""
    act, site = moment.entry.act, moment.site
    if act.verb == "STOP":
        return f"{site} stops here, and is gone; no write was cut short."
    landed = what_landed(act)
    what = WRITTEN.get(act.verb, "this act")
    if act.how == "stopped":
        return f"{site} stops inside {what}, and is gone: {landed}."
    if act.reads:
        return f"The device fails {what} of {site}, which is told so."
    return f"The device fails {what} of {site}, which is told so: {landed}."


def what_landed(act: Act) -> str:
    if act.landing == "NONE":
        return "nothing of it landed"
    if act.landing == "ALL":
        return "all of it landed"
    if len(act.torn) > 1:
        if len(set(act.torn)) == 1:
            return f"{len(act.torn)} bytes landed, each of them {act.torn[:1].hex()}"
        return f"{len(act.torn)} other bytes landed, which begin with {act.torn[:16].hex()}"
    return f"the byte {act.torn.hex()} landed, so the slot is {'open' if act.torn[0] == OPEN else 'closed'}"


WRITTEN = {
    "CTLWRITE": "the write of the control record", "SIGNAL1": "the write of its signal", "SIGNAL2": "the write of its signal",
    "MSGREAD": "the read of a message slot", "MSGCLOSE": "the closing of a message slot", "MSGBODY": "the write of a message",
    "MSGOPEN": "the opening of a message slot", "LOGREAD": "the read of the log", "LOGLOOK": "the look at a log slot",
    "LOGCLOSE": "the closing of a log slot", "LOGBODY": "the write of a log record", "LOGOPEN": "the opening of a log record",
    "KPREAD": "the look at a keypoint slot", "KPCLOSE": "the closing of a keypoint slot", "KPBODY": "the write of a keypoint",
    "KPOPEN": "the opening of a keypoint", "FILEREAD": "the read of a record", "FILEWRITE": "the write of a record",
    "UNDO": "the putting back of a record",
}


def tick(m: Moment) -> str:
    return f"A second passes: it is tick {m.standing.tick} now."


def confirm(m: Moment) -> str:
    return f"It is confirmed that incarnation {m.words['number']} has ended."


def start(m: Moment) -> str:
    role = "active" if m.words["role"] == "ACTIVE" else "alternate"
    return f"The region {m.standing.scenario.applid[m.site]} is started at site {m.site} as the {role}."


def control_write(m: Moment) -> str:
    changed = m.standing.control.format != m.control.format
    return written(m) + (f" The record is of format {m.standing.control.format} from here on." if changed else "")


def written(m: Moment) -> str:
    """What a write of the control record is for."""
    record, was, site = m.standing.control, m.control, m.site
    if not m.job.incarnation:
        if record.owner == record.last:
            return f"{site} signs on as the active: its incarnation {record.owner} is the owner from here on."
        return f"{site} signs on as the alternate, with incarnation {record.alternate}."
    if record.owner != was.owner:
        return (f"{site} goes through: its incarnation {record.owner} is the owner from here on, and incarnation "
                f"{was.owner} may update nothing any more.")
    if record.taking and not was.taking:
        return (f"{site} writes that it takes over, {CAUSES[record.cause]}; from here on it waits until the owner is "
                "known to have ended.")
    if record.owner_state != was.owner_state:
        return f"{site} signs off {STATES.get(record.owner_state, 'anew')}."
    if was.alternate and not record.alternate:
        leaves = was.alternate_site == site
        return f"{site} {'leaves: it takes its name out of' if leaves else 'drops its alternate from'} the record."
    return f"{site} writes the control record."


def signal(m: Moment) -> str:
    act = m.entry.act
    path = f"the {PATHS[act.writes]} data set"
    if act.how == "lost":
        return f"{m.site} writes its signal number {m.words['counter']} to {path}, but it is lost; {m.site} does not know."
    heard = f", and that it has read {m.words['cursor']} messages" if m.words["cursor"] != "0" else ""
    return f"{m.site} tells by its signal number {m.words['counter']} on {path} that it is there{heard}."


def look_second(m: Moment) -> str:
    other, job = OTHER[m.site], m.standing.jobs[m.site]
    since = job.change if job else 0
    changed = "something has changed" if since == m.standing.tick else f"nothing has changed since tick {since}"
    return f"{m.site} looks at the signal of {other} on the message data set: {changed}."


def decide(m: Moment) -> str:
    decision, what, site, other = m.words["decision"], m.words.get("what", ""), m.site, OTHER[m.site]
    if decision == "START":
        return f"{site} decides to take over{started(m, what)}."
    if decision == "END":
        return f"{site} decides to leave: {ENDINGS.get(what, 'it is done')}."
    if decision == "NOTHING":
        return f"{site} decides that nothing is to be done: {why_nothing(m)}."
    return {
        "ASK": f"{missed(m, other, 'ADI')}: it asks the operator whether to take over.",
        "WAIT": f"{site} waits: it is not known that the owner has ended.",
        "THROUGH": f"{site} decides to go through: {why_through(m)}.",
        "SEEN": f"{site} sees in the control record that it is taken over; its status exit is asked.",
        "CATCHUP": f"{site} finds a new alternate, incarnation {what}: it will send it the state of its terminals.",
        "FORGET": f"{site} finds its alternate gone from the record, and forgets it.",
        "LOST": f"{missed(m, 'its alternate', 'PDI')}; its status exit is asked.",
    }[decision]


def why_nothing(m: Moment) -> str:
    """Why a round came to nothing, by what the job has seen."""
    job, record = m.job, m.job.seen or m.control
    if job.is_owner:
        return heard(m, "its alternate", "PDI") if record.alternate else "there is no alternate"
    if record.owner_state != "RUNNING":
        return f"the owner has signed off, but under TAKEOVR {job.mode} a takeover wants a command"
    if not is_missed(m.standing, job):
        return heard(m, OTHER[m.site], "ADI")
    so_far = missed(m, OTHER[m.site], "ADI").replace(m.site, "it", 1)
    if not job.is_watching:
        return f"{so_far}, but surveillance is OFF"
    if job.mode == "COMMAND":
        return f"{so_far}, but under TAKEOVR COMMAND a takeover wants a command"
    return f"{so_far}, but the operator, who was asked, has not replied GO"


def heard(m: Moment, whom: str, interval: str) -> str:
    """What the job has heard of the other site for less than its interval."""
    now, job, seconds = m.standing.tick, m.job, m.standing.scenario.numbers[interval]
    if job.change < now:
        passed = now - job.change
        return (f"it has seen no new signal of {whom} since tick {job.change}, and {passed} of the {seconds} seconds of its "
                f"{interval} {'has' if passed == 1 else 'have'} passed")
    signalled = m.standing.signalled[OTHER[m.site]]
    if job.news == "it saw a new signal" and 0 <= signalled < now:
        return (f"it sees a signal that {whom} wrote in tick {signalled} and that it had not seen yet, so that its {interval} of "
                f"{seconds} seconds begins anew")
    return f"in this second {job.news}{f' of {whom}' if job.news.endswith('signal') else ''}"


def missed(m: Moment, whom: str, interval: str) -> str:
    seconds = m.standing.scenario.numbers[interval]
    return (f"{m.site} has seen no change of the signals of {whom} since tick {m.job.change}, and the {interval} of "
            f"{seconds} seconds has passed")


def started(m: Moment, cause: str) -> str:
    if cause != "LOST":
        return ", " + CAUSES.get(cause, "for a reason of its own")
    allowed = "the operator lets it" if m.job.has_go else "TAKEOVR lets it"
    return f": {missed(m, OTHER[m.site], 'ADI').replace(m.site, 'it', 1).replace(', and', ',')}, and {allowed}"


def why_through(m: Moment) -> str:
    record = m.job.seen or m.control
    if record.owner_state != "RUNNING":
        return "the owner has signed off"
    return f"it is confirmed that incarnation {record.owner} has ended"


def message_read(m: Moment) -> str:
    slot, taken = m.words["slot"], m.event("message-taken")
    if taken:
        return f"{m.site} takes the message of slot {slot}: {message(taken.words[1])}."
    if m.job.is_restarted:
        return f"{m.site} reads message slot {slot} before it writes there."
    return f"{m.site} finds no new message in slot {slot}."


def message(text: str) -> str:
    words = text.split(" ")
    if words[0] == "BEGIN":
        return f"the catch-up of incarnation {words[1]} begins"
    if words[0] == "END":
        return "the catch-up is whole"
    user = f", with user {words[6]}" if len(words) > 6 and words[6] != "-" else ""
    return f"terminal {words[3]} of class {words[4]} is {words[5].lower()}{user}"


def message_body(m: Moment) -> str:
    return f"{m.site} writes into message slot {m.words['slot']}, which is closed still: {message(message_text(m.words))}."


def message_open(m: Moment) -> str:
    return f"{m.site} opens message slot {m.words['slot']}, so that the alternate can read: {message(message_text(m.words))}."


def log_body(m: Moment) -> str:
    place, unit = m.words["place"], m.words["unit"]
    if m.words["kind"] != "PUT":
        return f"{m.site} writes log record {place}, which is to end unit {unit}, into a slot that is closed still."
    return (f"{m.site} writes log record {place} into a slot that is closed still: unit {unit} changes record "
            f"{m.words['record']}, where {stood(m.value)} before.")


def stood(value: str) -> str:
    return f"{value} stood" if value else "nothing stood"


def log_open(m: Moment) -> str:
    place, unit, kind = m.words["place"], m.words["unit"], m.words["kind"]
    what = {"PUT": f"the change of record {m.words.get('record')} by unit {unit} can be backed out from here on",
            "COMMIT": f"unit {unit} is committed from here on", "BACKOUT": f"unit {unit} is backed out"}[kind]
    return f"{m.site} opens log record {place}: {what}."


def undo(m: Moment) -> str:
    record = int(m.words["record"])
    value = str(m.standing.cell(record))
    return f"{m.site} puts back what stood in record {record} before: {value or 'nothing'}."


def item(m: Moment) -> str:
    place = int(m.words["item"])
    words = m.standing.scenario.item(m.site, place)
    answer = m.standing.document.report.answers.get((m.site, place), "OPEN")
    told = ANSWERS.get(answer) or answer.lower().replace("value", "the value is")
    later = "" if answer == "DONE" else f"; {told}"
    return f"{m.site} takes item {place} of its work, {' '.join(words)}{later}."


def restarted(m: Moment) -> str:
    event = m.event("restarted")
    text = f"{m.site} has restarted: the file holds what was committed, and nothing else"
    if event and event.words:
        text += "; of its terminals, " + ", ".join(settled(m, word) for word in event.words)
    return text + "."


def settled(m: Moment, text: str) -> str:
    """What becomes of a terminal, and of the user who is signed on there."""
    terminal, how = text.split(" ")
    user = m.job.table[terminal].user
    told = "" if user == "-" else f", and its user {user} is signed off" if m.standing.scenario.force else f" with its user {user}"
    return f"{terminal} is {'switched' if how == 'SWITCHED' else 'acquired again'}{told}"


def ended(m: Moment) -> str:
    why, scenario = m.words["why"], m.standing.scenario
    told = ENDINGS.get(why, "")
    if why == "REFUSED":
        told = refused_by(m, int(m.words["by"]))
    elif why == "FORMAT":
        told = f"the control record is of format {m.control.format}, which its level {scenario.level[m.site]} does not read"
    return f"{m.site} ends: {told}."


def refused_by(m: Moment, incarnation: int) -> str:
    """Why a start found its place taken."""
    if any(job and job.incarnation == incarnation for job in m.standing.jobs.values()):
        return f"incarnation {incarnation} is there still"
    role = "owner" if m.control.owner == incarnation else "alternate"
    return (f"the control record names incarnation {incarnation} as the {role}, and though it is gone, nobody has confirmed "
            f"that it ended (CONFIRM {incarnation})")


def exit_said(m: Moment) -> str:
    what = {"ABEND": "is to sign off as ended abnormally", "KEEP": "keeps its alternate, and its PDI begins anew",
            "DROP": "is to drop its alternate"}[m.words["answer"]]
    return f"The status exit answers {m.words['answer']}: {m.site} {what}."


def reply(m: Moment) -> str:
    if m.words["answer"] == "GO":
        return f"The operator replies GO: {m.site} may take over at its next decision."
    return f"The operator replies IGNORE: {m.site} watches on, and its ADI begins anew."


def says(text: str) -> Callable[[Moment], str]:
    """A sentence with the site as {s}, the other as {o}, and the words of the act."""
    return lambda m: text.format(s=m.site, o=OTHER.get(m.site, ""), **m.words)


CALLS: dict[str, Callable[[Moment], str]] = {
    "TICK": tick, "CONFIRM": confirm, "START": start, "CTLWRITE": control_write, "SIGNAL1": signal, "SIGNAL2": signal,
    "LOOK2": look_second, "DECIDE": decide, "MSGREAD": message_read, "MSGBODY": message_body, "MSGOPEN": message_open,
    "LOGBODY": log_body, "LOGOPEN": log_open, "UNDO": undo, "ITEM": item, "RESTARTED": restarted, "ENDED": ended,
    "EXIT": exit_said, "REPLY": reply,
    "ABEND": says("{s} is to end abnormally: it will sign off."),
    "CEBT": says("The operator gives {s} the command {command}, and is answered {reply}."),
    "RESERVE": says("{s} reserves the control data set: until it is released nobody else changes the control record."),
    "CTLREAD": says("{s} reads the control record under its reserve."),
    "RELEASE": says("{s} releases the control data set."),
    "LOOK1": says("{s} looks at the control record, and at the signal of {o} on the control data set."),
    "MSGCLOSE": says("{s} closes message slot {slot} before it is written, so that no half message is read."),
    "LOGREAD": says("{s} reads block {block} of the log, to find the units that were in flight."),
    "LOGLOOK": says("{s} looks whether the slot of log record {place} is open from an earlier record."),
    "LOGCLOSE": says("{s} closes the slot of log record {place}, so that no half record is read."),
    "KPREAD": says("{s} looks whether keypoint slot {slot} is open from an earlier keypoint."),
    "KPCLOSE": says("{s} closes keypoint slot {slot}, so that no half keypoint is read."),
    "KPBODY": says("{s} writes keypoint {number} into slot {slot}, which is closed still."),
    "KPOPEN": says("{s} opens keypoint {number}: a restart begins to read the log at record {start} from here on."),
    "FILEREAD": says("{s} reads record {record} of the file."),
    "FILEWRITE": says("{s} writes {value} into record {record} for unit {unit}."),
    "CLT": says("{s} carries out line {line} of its command list: {text}."),
}
