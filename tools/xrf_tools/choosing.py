"""Why a choice can't be made where it stands, and what could be: tried with the program."""

from __future__ import annotations

from collections.abc import Callable, Iterator

from xrf_tools.acts import WIDTHS
from xrf_tools.jobs import OTHER, Job
from xrf_tools.language import SITES
from xrf_tools.mistakes import right, right_before
from xrf_tools.standing import Standing
from xrf_tools.trials import Trials

# How many bytes a write may have that can be torn.
TORN = sorted({32, *WIDTHS.values()})
STEPS = 12


class Choosing:
    """A choice that is refused, and what stands before it."""

    def __init__(self, trials: Trials, standing: Standing) -> None:
        self.trials, self.standing = trials, standing
        self.words = trials.refused.words
        self.line = " ".join(self.words)
        self.site = self.words[1] if len(self.words) > 1 and self.words[1] in SITES else ""

    @property
    def job(self) -> Job | None:
        return self.standing.jobs[self.site] if self.site else None

    def before(self, *fronts: tuple[str, ...]) -> Iterator[str]:
        """The first of some runs of choices behind which the choice may be made."""
        for front in fronts:
            if self.trials.passes(*front, self.line):
                yield right_before(", ".join(front))
                return

    def instead(self, *options: str) -> Iterator[str]:
        found = self.trials.those(options)
        if found:
            yield right(*found)

    def steps(self) -> list[tuple[str, ...]]:
        """One step of the site, two, and so on."""
        return [(f"STEP {self.site}" + (f" {count}" if count > 1 else ""),) for count in range(1, STEPS + 1)]

    def rounds(self) -> list[tuple[str, ...]]:
        """Seconds, and then as many steps of the site as there may be in a round."""
        seconds = max(1, self.standing.scenario.numbers["ADI"] - self.standing.tick + (self.job.change if self.job else 0))
        ticks = dict.fromkeys(("TICK", f"TICK {seconds}" if seconds > 1 else "TICK"))
        return [*self.steps(), *((tick, *step) for tick in ticks for step in self.steps())]

    @property
    def other(self) -> str:
        """The choice at the other site."""
        return " ".join([self.words[0], OTHER[self.site], *self.words[2:]])

    def next(self) -> str:
        """What the site does next."""
        act = self.trials.next_act(self.site)
        return f"The next act of {self.site} is {act}" if act else f"{self.site} has nothing to do here"


def of_choice(trials: Trials) -> Iterator[str]:
    standing = trials.standing if trials.refused.words and trials.refused.is_choice else None
    if standing is None:
        return
    yield stood(standing)
    choosing = Choosing(trials, standing)
    call = CALLS.get(choosing.words[0])
    if call:
        yield from call(choosing)


def stood(standing: Standing) -> str:
    regions = []
    for site, job in standing.jobs.items():
        regions.append(f"{site} is {job.state.lower()}" if job else f"no region is at {site}")
    acts = len(standing.document.entries)
    made = "1 act was made" if acts == 1 else f"{acts} acts were made"
    return f"Before this line it is tick {standing.tick}; {' and '.join(regions)}; {made}."


def step(it: Choosing) -> Iterator[str]:
    site = it.site
    count = int(it.words[2]) if len(it.words) > 2 else 1
    if it.job is None:
        yield from start_first(it, count)
        return
    if it.job.notice:
        yield f"{site} waits for its status exit."
        yield from it.before(*((f"EXIT {site} {answer}",) for answer in ("ABEND", "KEEP", "DROP")))
        return
    most = it.trials.most(count - 1) if count > 1 else 0
    if most:
        yield right(f"STEP {site} {most}" if most > 1 else f"STEP {site}")
    yield from why_no_more(it, most)


def start_first(it: Choosing, count: int) -> Iterator[str]:
    """Where no region is there: the starts behind which the steps can be made, or as many of them as can."""
    roles = [f"START {it.site} {role}" for role in ("ACTIVE", "STANDBY")]
    found = [start for start in roles if it.trials.passes(start, it.line)]
    if found:
        yield right_before(*found)
        return
    for start in roles:
        most = it.trials.most(count, start)
        if most:
            yield right(f"{start}, STEP {it.site} {most}")
            return


def why_no_more(it: Choosing, made: int) -> Iterator[str]:
    """What the site waits for behind the steps that can be made."""
    site, other = it.site, OTHER[it.site]
    front = (f"STEP {site} {made}",) if made else ()
    if it.trials.passes(*front, "TICK", f"STEP {site}"):
        yield f"Then {site} has nothing to do in this second; a TICK lets it make its next round."
        return
    for count in range(1, STEPS + 1):
        if it.trials.passes(*front, f"STEP {other} {count}", f"STEP {site}"):
            yield f"Then {site} waits for {other}, which has the control data set; STEP {other} {count} lets it go on."
            return
    if not made:
        yield f"{site} has nothing to do here."


def lose(it: Choosing) -> Iterator[str]:
    if it.job is None:
        yield f"No region is at {it.site} to write a signal."
        return
    yield f"{it.next()}, which is no signal." if it.trials.next_act(it.site) else f"{it.next()}."
    yield from it.before(*it.rounds())


def cut(it: Choosing) -> Iterator[str]:
    """STOP and FAIL."""
    verb, site = it.words[0], it.site
    if it.job is None:
        yield f"No region is at {site}."
        return
    act = it.trials.next_act(site)
    yield f"{it.next()}."
    options = it.trials.those((f"{verb} {site} NONE", f"{verb} {site} ALL"))
    for size in TORN:
        if it.trials.passes(f"{verb} {site} TORN {'00' * size}"):
            bytes_ = "1 byte, which is 2 hex digits" if size == 1 else f"{size} bytes, which are {2 * size} hex digits"
            options.append(f"{verb} {site} TORN and {bytes_}")
    if options:
        yield right(*options)
    if not options or act and len(it.words) > 2 and not any(option.split()[2] == it.words[2] for option in options):
        yield from it.before(*it.steps())


def start(it: Choosing) -> Iterator[str]:
    if it.job:
        yield f"A region can be started only where none is, and {incarnation(it.job)} is at {it.site}."
        yield from it.before((f"STOP {it.site} NONE",))


def incarnation(job: Job) -> str:
    return f"incarnation {job.incarnation}" if job.incarnation else "a region that is starting"


def abend(it: Choosing) -> Iterator[str]:
    if it.job is None:
        yield f"No region is at {it.site}."
    elif it.job.notice:
        yield f"{it.site} waits for its status exit."
        yield from it.instead(f"EXIT {it.site} ABEND")
        return
    elif it.job.is_ending:
        yield f"{it.site} is about to end already."
        return
    elif not it.job.is_owner:
        yield f"Only an owner signs off so, and {it.site} is none."
        yield from it.before(*it.steps())
    yield from it.instead(it.other)


def confirm(it: Choosing) -> Iterator[str]:
    last = it.standing.control.last
    gone = it.trials.those(f"CONFIRM {number}" for number in range(max(1, last - 20), last + 1))
    if gone:
        yield right(*gone)
        return
    if not last:
        yield "No number was given yet."
        return
    there = [f"{job.incarnation} at {site}" for site, job in it.standing.jobs.items() if job and job.incarnation]
    yield f"Each number that was given has its region still: {' and '.join(there)}."
    yield from it.before(*((f"STOP {site} NONE",) for site in SITES))


def reply(it: Choosing) -> Iterator[str]:
    job = it.job
    if job is None:
        yield f"No region is at {it.site}."
    elif job.is_owner or not job.incarnation:
        yield f"An alternate asks the operator, and {it.site} is none."
    elif job.has_go:
        yield f"{it.site} was answered GO."
    elif job.is_ending or job.is_waiting or job.decision == "START":
        yield f"{it.site} is past asking."
    else:
        asks = "it asks where it misses the owner" if job.mode == "MANUAL" else "it asks under MANUAL alone"
        yield f"{it.site} has not asked; its TAKEOVR is {job.mode}, and {asks}."
        yield from it.before(*it.rounds())
    yield from it.instead(it.other)


def command(it: Choosing) -> Iterator[str]:
    job = it.job
    if job is None:
        yield f"No region is at {it.site}."
    elif job.is_owner:
        yield f"CEBT is for an alternate, and {it.site} is the owner."
    elif not job.incarnation:
        yield f"{it.site} has no place yet."
        yield from it.before(*it.steps())
    else:
        yield f"{it.site} is about to leave."
    yield from it.instead(it.other)


def status_exit(it: Choosing) -> Iterator[str]:
    options = it.trials.those(f"EXIT {it.site} {answer}" for answer in ("ABEND", "KEEP", "DROP"))
    if options:
        yield right(*options)
        return
    yield f"No notice is open at {it.site}: an owner has one that finds a taking, or misses its alternate."
    yield from it.instead(it.other)


CALLS: dict[str, Callable[[Choosing], Iterator[str]]] = {
    "STEP": step, "LOSE": lose, "STOP": cut, "FAIL": cut, "START": start, "ABEND": abend, "CONFIRM": confirm, "REPLY": reply,
    "CEBT": command, "EXIT": status_exit,
}
