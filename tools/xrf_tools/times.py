"""When a takeover came, beside the ticks by which it had to come.

The bounds are those that are proved of every run (the specs `Takeovers` and `Operator` of `xrf_progress`). Each is of a
part of a run that serves the site of the alternate, and asks for something at the moment at which the part begins. So a
`Watch` goes over the acts, and keeps for each bound the first moment of the present part at which what it asks for holds.
"""

from __future__ import annotations

from collections.abc import Iterator
from dataclasses import dataclass, field
from typing import TYPE_CHECKING

from xrf_tools.jobs import OTHER, Job, is_missed

if TYPE_CHECKING:
    from xrf_tools.document import Entry
    from xrf_tools.standing import Standing

# What comes to the job without being an act of it.
TO_THE_JOB = ("START", "ABEND", "REPLY", "CEBT", "EXIT")


# The bounds by name: what holds from their moment on, and how many ticks are enough; each also asks that it is served.
GROUNDS = {
    "start": "{site} stands by and may start it by itself",
    "told": "{site} stands by and was told to, by a command or GO",
    "takeover": "{site} stands by, may start it by itself, and the owner is over",
    "told over": "{site} stands by, was told to, and the owner is over",
    "go": "{site} waits beside an owner that is over",
}
OF_TAKING, OF_RESTART = {"start": "ADI + 2", "told": "2"}, {"go": "2", "told over": "3", "takeover": "ADI + 3"}


@dataclass(frozen=True)
class Moment:
    """The moment behind an act, and why what holds there did not hold before it, in this way."""

    act: int
    tick: int
    late: str


@dataclass(frozen=True)
class Bound:
    """What a bound rests on, from its moment on, and the tick before which its step has come."""

    ground: str
    moment: Moment
    ticks: str
    before: int


@dataclass
class Takeover:
    """What is known of one: its ticks, -1 for what never came, and its bounds."""

    site: str
    incarnation: int
    news: int
    taking: int
    through: int = -1
    restart: int = -1
    bounds: dict[str, Bound | None] = field(default_factory=dict)


class Watch:
    """Watches a site: whether what is done serves it, and what holds there."""

    def __init__(self, standing: Standing, site: str) -> None:
        self.standing, self.site, self.other = standing, site, OTHER[site]
        applid = standing.scenario.applid[site]
        self.lines = sum(line.split(" ")[0] == applid for line in standing.scenario.commands)
        self.takeovers: list[Takeover] = []
        self.news = -1
        self.first: dict[str, Moment] = {}
        self.late: dict[str, str] = {}
        self.begin()

    def begin(self) -> None:
        """A job of the site begins."""
        self.is_at_rest = self.has_signalled = self.is_shutdown = self.is_told = False
        self.issued = 0

    # The rest of a job: an alternate that is granted has no next act once its round of this tick is made.

    def rests(self) -> bool:
        job = self.standing.jobs[self.site]
        return job is None or self.is_at_rest and self.has_signalled and not (job.is_owner or job.is_ending)

    def moved(self, entry: Entry) -> None:
        """An act of the site was made, in full."""
        verb = entry.act.verb
        self.has_signalled = self.has_signalled or verb == "SIGNAL1"
        self.issued += verb == "CLT"
        if verb == "MSGREAD":
            self.is_at_rest = not any(event.kind == "message-taken" for event in self.standing.events)
        else:
            self.is_at_rest = verb in ("RELEASE", "CLT") and self.issued >= self.lines

    def commanded(self, command: str) -> None:
        job = self.standing.jobs[self.site]
        if job and not job.is_waiting:
            self.is_told = self.is_told or command == "PERFORM TAKEOVER"
            self.is_shutdown = self.is_shutdown or command == "PERFORM SHUTDOWN"

    # What serves the site.

    def harm(self, entry: Entry) -> str:
        """Why an entry does not serve the site; '' where it does."""
        act = entry.act
        if entry.site == self.site:
            is_served = act.how == "made" and act.verb not in TO_THE_JOB
            return "" if is_served else f"act {entry.number} of {self.site} is no act of its job, made in full"
        if act.verb == "TICK":
            return "" if self.rests() else f"the tick of act {entry.number} comes before {self.site} has made the acts that it can"
        speaks = act.lands and act.verb in ("CTLWRITE", "SIGNAL1", "SIGNAL2")
        return f"in act {entry.number} {self.other} gives news of itself" if speaks else ""

    # What a bound asks for at its moment: why it is not there, '' where it is.

    def cannot_decide(self) -> str:
        job, record = self.standing.jobs[self.site], self.standing.control
        if job is None or job.state != "TRACKING":
            return f"{self.site} does not stand by"
        if record.alternate != job.incarnation:
            return f"the record does not name {self.site} as the alternate"
        if record.owner_state == "NORMAL":
            return "the owner has signed off normally"
        return f"the shutdown of {self.site} was commanded" if self.is_shutdown else ""

    def cannot_start(self) -> str:
        lack, job = self.cannot_decide(), self.standing.jobs[self.site]
        if lack or self.is_told or job is None:
            return lack
        if job.mode != "AUTO":
            return f"under TAKEOVR {job.mode} no takeover was commanded"
        return "" if job.is_watching else "surveillance is OFF"

    def cannot_ask(self) -> str:
        lack, job = self.cannot_decide(), self.standing.jobs[self.site]
        if lack or job is None:
            return lack
        if job.mode != "MANUAL":
            return f"TAKEOVR is {job.mode}"
        return "" if job.is_watching else "surveillance is OFF"

    def is_not_told(self) -> str:
        lack, job = self.cannot_decide(), self.standing.jobs[self.site]
        if lack or self.is_told or job is None:
            return lack
        has_go = not self.cannot_ask() and job.has_go and is_missed(self.standing, job) and self.has_looked(job)
        return "" if has_go else "no takeover was commanded, and GO is not given"

    def has_looked(self, job: Job) -> bool:
        """Whether its last look is of the signals that stand."""
        stands = [self.standing.shown.get(f"signal {name} {self.other}", "") for name in ("CTL", "MSG")]
        return job.look == (stands[0], stands[1]) and job.first_look == stands[0]

    def owner_may_run(self) -> str:
        record = self.standing.control
        if record.owner_state == "RUNNING" and record.owner not in self.standing.confirmed:
            return f"the end of incarnation {record.owner} is not confirmed"
        return ""

    def cannot_go(self) -> str:
        job = self.standing.jobs[self.site]
        return self.owner_may_run() if job and job.state == "WAITING" else f"{self.site} does not wait to go through"

    # An entry, and what it comes to.

    def take(self, entry: Entry) -> None:
        """Takes an entry that stands already."""
        harm, act = self.harm(entry), entry.act
        for event in self.standing.events:
            if event.site == self.site:
                self.stepped(event.kind, entry)
        if entry.site == self.site:
            self.of_its_own(entry)
        elif act.verb == "TICK":
            self.has_signalled = False
        elif act.lands and act.verb in ("CTLWRITE", "SIGNAL1", "SIGNAL2"):
            self.news = entry.tick
        if harm:
            self.first, self.late = {}, dict.fromkeys(GROUNDS, harm)
        self.keep(entry)

    def of_its_own(self, entry: Entry) -> None:
        act = entry.act
        if act.verb == "START":
            self.begin()
        elif act.verb == "CEBT":
            self.commanded(act.words["command"])
        elif act.verb not in TO_THE_JOB:
            self.moved(entry)

    def keep(self, entry: Entry) -> None:
        """Keeps the present moment where it is the first at which something holds."""
        start, told, over = self.cannot_start(), self.is_not_told(), self.owner_may_run()
        lacks = {"start": start, "told": told, "takeover": start or over, "told over": told or over, "go": self.cannot_go()}
        for name, lack in lacks.items():
            if lack:
                self.late[name] = lack
            elif name not in self.first:
                self.first[name] = Moment(entry.number, self.standing.tick, self.late.get(name, ""))

    def bound(self, added: dict[str, str]) -> Bound | None:
        """The least of the bounds by name that hold, each with the ticks that are enough from its moment on."""
        adi, held = self.standing.scenario.numbers["ADI"], []
        for name in added.keys() & self.first.keys():
            more = int(added[name].removeprefix("ADI + ")) + (adi if "ADI" in added[name] else 0)
            held.append(Bound(name, self.first[name], added[name], self.first[name].tick + more))
        return min(held, key=lambda one: (one.before, one.ground)) if held else None

    def stepped(self, kind: str, entry: Entry) -> None:
        if kind == "taking":
            self.takeovers.append(Takeover(self.site, entry.incarnation, self.news, entry.tick))
            self.takeovers[-1].bounds["taking"] = self.bound(OF_TAKING)
        elif not self.takeovers or self.takeovers[-1].incarnation != entry.incarnation:
            return
        elif kind == "through":
            self.takeovers[-1].through = entry.tick
        elif kind == "restarted":
            self.takeovers[-1].restart = entry.tick
            self.takeovers[-1].bounds["restart"] = self.bound(OF_RESTART)

    # What is told.

    def told(self) -> Iterator[str]:
        """The times of each takeover of the site, and its bounds."""
        for takeover in self.takeovers:
            yield times(takeover, self.other)
            yield self.of_step("taking", takeover, takeover.taking)
            if takeover.restart >= 0:
                yield self.of_step("restart", takeover, takeover.restart)
            elif takeover is self.takeovers[-1]:
                yield self.of_what_is_left(takeover)

    def of_step(self, step: str, takeover: Takeover, tick: int) -> str:
        bound = takeover.bounds[step]
        if bound is None:
            lack = self.late.get("start" if step == "taking" else "go", "")
            return f"No bound is proved for its {step} in tick {tick}: {lack}."
        return f"Its {step} came in tick {tick}, and had to come before tick {bound.before}: {self.grounds(bound, takeover)}."

    def grounds(self, bound: Bound, takeover: Takeover) -> str:
        moment = bound.moment
        text = (f"from act {moment.act} in tick {moment.tick} on {GROUNDS[bound.ground].format(site=self.site)}, each tick comes "
                f"once {self.site} has made the acts that it can, and {self.other} gives no news; {bound.ticks} ticks are enough")
        is_late = bound.ground == "start" and moment.tick > max(takeover.news, 0)
        return f"{text}. It does not count from the last news on: {moment.late}" if is_late and moment.late else text

    def of_what_is_left(self, takeover: Takeover) -> str:
        """Whether a restart that has not come at the end of the run has to come."""
        lack, bound = self.cannot_go(), self.bound(OF_RESTART)
        if bound and not lack:
            return f"Its restart has to come before tick {bound.before}: {self.grounds(bound, takeover)}."
        return f"No bound holds for its restart at the end of the run: {lack or self.late.get('go', '')}."


def times(takeover: Takeover, other: str) -> str:
    """The ticks of a takeover, in one line."""
    steps = (("the taking", takeover.taking), ("the through", takeover.through), ("RESTARTED", takeover.restart))
    news = f"the last news of {other} before it in tick {takeover.news}" if takeover.news >= 0 else f"no news of {other} before it"
    came = [f"{step} in tick {tick}" for step, tick in steps if tick >= 0]
    return f"Incarnation {takeover.incarnation} at {takeover.site}: {', '.join([news, *came])}."
