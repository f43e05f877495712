"""Runs that are cut off: what stands before an act of a run is made again, the act is stopped or fails, and a region
restarts from what is left. And a run of the most choices."""

import subprocess

import runs
from xrf_tools.acts import width_of
from xrf_tools.document import Document, Entry, read
from xrf_tools.standing import Standing

PROGRAM = runs.ROOT / "crates" / "xrf" / "out" / "xrf"
OPEN = "c1"
# The runs that are cut: one region's unit of work, its restart, a log that goes round, messages, a takeover, format 2.
BASES = (
    "ordinary_unit_of_work", "stop_in_the_opening_write_of_a_commit_that_leaves_it_closed",
    "a_torn_keypoint_body_that_spells_a_newer_keypoint", "keypoints_and_a_ring_log_that_goes_round",
    "a_full_ring_and_an_unsent_message", "takeover_with_the_default_intervals", "migration_of_a_pair_to_format_2",
)
# Of a longer run the last act of each kind at each site is cut.
FEW = 60
# More steps than a restart has.
STEPS = 120
# The reads that may fail; so may each write that may be torn.
FAILING_READS = {"MSGREAD", "LOGREAD", "LOGLOOK", "KPREAD", "FILEREAD"}


def is_current() -> bool:
    return subprocess.run([str(runs.ROOT / "tools" / "build"), "--is-current"], check=False).returncode == 0


def replay(text: str) -> str:
    """What the program writes: a document, or a refusal."""
    return subprocess.run([str(PROGRAM), "replay"], input=text, capture_output=True, text=True, timeout=120, check=False).stdout


class Base:
    """A stored run, whose acts are cut."""

    def __init__(self, name: str) -> None:
        self.name = name
        self.document = runs.document(name)
        self.head = runs.path(name).read_text().split("\nCHOICES\n")[0].split("\n")

    def text(self, choices: list[str]) -> str:
        return "\n".join([*self.head, "CHOICES", *choices, "END", ""])

    def run(self, choices: list[str]) -> Document:
        return read(self.name, replay(self.text(choices)))

    def places(self) -> list[Entry]:
        """The steps: all of a short run, and the last of each kind at each site of a long one."""
        steps = [entry for entry in self.document.entries if self.document.choices[entry.number - 1].startswith("STEP ")]
        if len(steps) > FEW:
            steps = list({(entry.site, entry.act.verb): entry for entry in steps}.values())
        return steps

    def before(self, entry: Entry) -> list[str]:
        return self.document.choices[: entry.number - 1]

    def refused(self, choices: list[str]) -> bool:
        return replay(self.text(choices)) == f"XRF REFUSED LINE {len(self.head) + 1 + len(choices)} NOT-ENABLED\n"

    def stepped(self, choices: list[str], site: str, most: int) -> list[str]:
        """The choices, and as many steps of a site as it can make, at most so many."""
        out = replay(self.text(choices + [f"STEP {site}"] * most))
        if out.startswith("XRF REFUSED LINE "):
            most = int(out.split(" ")[3]) - len(self.head) - 2 - len(choices)
        return choices + [f"STEP {site}"] * most

    def restarted(self, choices: list[str]) -> Document | None:
        """Both sites are stopped, all whom the control record names are confirmed to have ended, and the owner's site,
        or A, starts as active: the document as it has restarted; none where it does not come to that."""
        standing = stand(self.run(choices))
        control = standing.control
        choices = choices + [f"STOP {site} NONE" for site in ("A", "B") if standing.jobs[site]]
        choices += [f"CONFIRM {number}" for number in (control.owner, control.alternate) if number]
        site = control.owner_site or "A"
        begun = self.stepped([*choices, f"START {site} ACTIVE"], site, STEPS)
        for entry in self.run(begun).entries[len(choices):]:
            if entry.act.verb == "RESTARTED":
                return self.run(begun[: entry.number])
        return None


def landings(entry: Entry) -> list[str]:
    """What of a write may land: nothing, all, and where it may be torn also its bytes all 00 and all ff."""
    width = width_of(entry.act.verb)
    torn = [f"TORN {byte * width}" for byte in ("00", "ff")] if width else []
    return ["NONE", "ALL", *torn] if entry.act.writes else []


def failures(entry: Entry) -> list[str]:
    """With which landings an act may fail."""
    if entry.act.verb in FAILING_READS:
        return ["NONE"]
    return landings(entry) if width_of(entry.act.verb) else []


def stand(document: Document) -> Standing:
    standing = Standing(document)
    for entry in document.entries:
        standing.take(entry)
    return standing


def told(document: Document) -> list[str]:
    """The report without its items and images."""
    return [line for line in document.report.lines if not line.startswith("IMAGE ")]


def book(document: Document) -> dict[int, str]:
    """The records as the committed units leave them: each unit's puts when the gate of its Commit is opened."""
    records, puts = dict(document.scenario.records), {}
    for entry in document.entries:
        act = entry.act
        if act.verb == "FILEWRITE":
            puts.setdefault(act.words["unit"], {})[act.number("record")] = act.words["value"]
        elif act.verb == "LOGOPEN" and act.words["kind"] == "COMMIT" and (act.lands or act.torn.hex() == OPEN):
            records |= puts.pop(act.words["unit"], {})
    return records


def file_of(document: Document) -> dict[int, str]:
    found = (line.split(" ") for line in document.report.of("FILE"))
    return {int(record): value for record, value in found}


def longest() -> str:
    """A scenario of the most choices: an active that works and an alternate that reads its messages, with a ring of 4
    messages and a log of 64 records, which both go round many times."""
    work: list[str] = []
    for turn in range(182):
        terminal = f"T{turn // 2 % 3}"
        work.append(f"LOGOFF {terminal}" if turn % 2 else f"LOGON {terminal} 1")
        for unit in range(3):
            work += [f"BEGIN U{unit}", f"PUT U{unit} {(turn + unit) % 16 + 1} V{turn}", f"COMMIT U{unit}"]
    choices = ["START A ACTIVE"] + ["STEP A"] * 11 + ["START B STANDBY"] + ["STEP B"] * 10
    while len(choices) < 8192:
        choices += ["TICK"] + ["STEP A"] * 33 + ["STEP B"] * 6
    head = ["XRF 1", "LOG 64", "RING 4", *(f"WORK A {item}" for item in work)]
    return "\n".join([*head, "CHOICES", *choices[:8192], "END", ""])
