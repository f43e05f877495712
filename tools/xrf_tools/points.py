"""What scenarios can show of a pair: the points that `xrf coverage` counts.

A point is what an act, a line of the report or a refusal can say. The points of a group go by the tables of
docs/REPORT.md and docs/SCENARIOS.md, which the tests hold them against.
"""

from __future__ import annotations

from dataclasses import dataclass

from xrf_tools.acts import FORMS, READS, WRITES, width_of
from xrf_tools.language import REASONS

# The control data set and the signals: their writes are never torn, and their device does not fail.
WHOLE = ("CTLWRITE", "SIGNAL1", "SIGNAL2")
NEVER_READ_AMISS = ("CTLREAD", "LOOK1", "LOOK2")
TORN_WRITES = tuple(verb for verb in WRITES if width_of(verb))
FAILING_READS = tuple(verb for verb in READS if verb not in NEVER_READ_AMISS)
BETWEEN = "between two writes"

NO_TEAR = "a control record and a signal are written whole or not at all"
NO_FAILURE = "a device fails on messages, log, keypoints and file alone; a signal is lost instead (LOSE)"
NOTHING_LANDS = "of a read nothing lands"

ANSWERS_OF = {
    "DONE": "BEGIN PUT COMMIT ROLL LOGON LOGOFF SIGNON SIGNOFF CEMT", "VALUE": "GET", "EMPTY": "GET",
    "NAMEUSED": "BEGIN", "UNITSFULL": "BEGIN", "NOTOPEN": "PUT GET COMMIT ROLL", "BADRRN": "PUT GET",
    "LOCKED": "PUT GET", "LOGFULL": "PUT", "TERMUSED": "LOGON", "TERMSFULL": "LOGON",
    "NOTON": "LOGOFF SIGNON SIGNOFF", "USERON": "SIGNON", "NOUSER": "SIGNOFF",
}
MODES = ("AUTO", "MANUAL", "COMMAND")
COMMANDS = (
    "PERFORM TAKEOVER = TAKEOVER ACCEPTED", "PERFORM TAKEOVER = TAKEOVER IN PROGRESS",
    "PERFORM SHUTDOWN = SHUTDOWN ACCEPTED", "PERFORM SHUTDOWN = TAKEOVER IN PROGRESS",
    *(f"INQUIRE TAKEOVER = TAKEOVER {mode}" for mode in MODES),
    *(f"SET TAKEOVER {mode} = TAKEOVER {mode}" for mode in MODES),
    *(f"INQUIRE SURVEILLANCE = SURVEILLANCE {state}" for state in ("ON", "OFF")),
    *(f"SET SURVEILLANCE {state} = SURVEILLANCE {state}" for state in ("ON", "OFF")),
)


@dataclass(frozen=True)
class Point:
    """A point of a group; `why_not` says why it can't be reached, '' where it can."""

    group: str
    name: str
    why_not: str = ""


# The groups, with what they are of.
GROUPS = {
    "act": "acts that are made", "tracking": "decisions of an alternate that tracks",
    "waiting": "decisions of an alternate that waits", "owner": "decisions of an owner",
    "ended": "how a region ends", "sign-off": "how an owner signs off", "taking": "why a takeover is started",
    "exit": "answers of the status exit", "reply": "replies of the operator", "cebt": "CEBT commands with their replies",
    "item": "items of work with their answers", "job": "states of a job in a report",
    "terminal": "how a terminal came to its region", "record": "what a record holds in a report",
    "lost": "signals that are lost", "stop": "where a region stops, and what lands",
    "failure": "what a device fails, and what lands", "refusal": "reasons of a refusal",
}


def named(group: str, *names: str) -> list[Point]:
    return [Point(group, name) for name in names]


def items() -> list[Point]:
    pairs = [f"{item} {answer}" for answer, of in ANSWERS_OF.items() for item in of.split()]
    return named("item", *pairs, "OPEN", "LOST")


def landings(group: str, verbs: tuple[str, ...], *kinds: str) -> list[Point]:
    return named(group, *(f"{verb} {kind}" for verb in verbs for kind in kinds))


def out_of_reach(group: str, verbs: tuple[str, ...], kinds: tuple[str, ...], why: str) -> list[Point]:
    return [Point(group, f"{verb} {kind}", why) for verb in verbs for kind in kinds]


def stops() -> list[Point]:
    return [
        *named("stop", BETWEEN), *landings("stop", WHOLE, "NONE", "ALL"),
        *landings("stop", TORN_WRITES, "NONE", "ALL", "TORN"), *out_of_reach("stop", WHOLE, ("TORN",), NO_TEAR),
    ]


def failures() -> list[Point]:
    return [
        *landings("failure", FAILING_READS, "NONE"), *landings("failure", TORN_WRITES, "NONE", "ALL", "TORN"),
        *out_of_reach("failure", WHOLE, ("NONE", "ALL", "TORN"), NO_FAILURE),
        *out_of_reach("failure", NEVER_READ_AMISS, ("NONE",), NO_FAILURE),
        *out_of_reach("failure", FAILING_READS, ("ALL", "TORN"), NOTHING_LANDS),
    ]


POINTS = (
    *named("act", *FORMS),
    *named("tracking", "NOTHING", "ASK", "START LOST", "START ABEND", "START SHUTDOWN", "START COMMAND", "END NORMAL",
           "END DROPPED", "END SHUTDOWN"),
    *named("waiting", "WAIT", "THROUGH"),
    *named("owner", "NOTHING", "CATCHUP", "FORGET", "LOST", "SEEN"),
    *named("ended", "SIGNEDOFF", "REFUSED", "NOACTIVE", "FORMAT", "NORMAL", "SHUTDOWN", "DROPPED", "ABANDONED", "MSGERROR"),
    *named("sign-off", "NORMAL", "ABEND", "TAKEOVER"),
    *named("taking", "LOST", "ABEND", "SHUTDOWN", "COMMAND"),
    *named("exit", "ABEND", "KEEP", "DROP"),
    *named("reply", "GO", "IGNORE"),
    *named("cebt", *COMMANDS),
    *items(),
    *named("job", "NONE", "STARTING", "RESTARTING", "ACTIVE", "TRACKING", "WAITING", "ENDING"),
    *named("terminal", "ON", "TRACKED", "SWITCHED", "ACQUIRED"),
    *named("record", "a value", "DAMAGED"),
    *named("lost", "SIGNAL1", "SIGNAL2"),
    *stops(), *failures(),
    *named("refusal", *REASONS),
)
