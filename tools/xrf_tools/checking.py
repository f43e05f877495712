"""Runs the scenarios of folders against the program, in parallel, and compares with what is stored.

A scenario is NAME.in, its standard input (or NAME.in.gz, packed); NAME.args, a word a line (replay where there is
none); NAME.out, the whole output; and NAME.status (0 where there is none). A document that comes out of `replay` or
`run` has to replay to itself. Of a threaded run the order of the choices is open, so what is compared of its document
is the rest: the scenario, and the report without its ACT lines.
"""

from __future__ import annotations

import gzip
import subprocess
import time
from collections.abc import Iterator
from concurrent.futures import ThreadPoolExecutor
from dataclasses import dataclass, field
from pathlib import Path
from xml.etree import ElementTree

from xrf_tools import differing
from xrf_tools.errors import Fault
from xrf_tools.running import Running


@dataclass(frozen=True)
class Ran:
    """What the program wrote, its status, and the seconds that it took."""

    output: bytes
    status: int
    seconds: float


@dataclass(frozen=True)
class Result:
    """How a scenario came out: passed, failed, new (nothing is stored to compare with) or accepted."""

    folder: str
    name: str
    kind: str
    seconds: float
    why: str = ""
    lines: tuple[str, ...] = ()


@dataclass(frozen=True)
class Outcome:
    """How a scenario came out, why, and the lines that differ."""

    kind: str
    why: str = ""
    lines: tuple[str, ...] = ()


@dataclass(frozen=True)
class Checking:
    """How scenarios are run: the program, the most seconds of a run, and whether new outputs are stored."""

    program: str
    seconds: float
    accepts: bool
    running: Running = field(default_factory=Running)

    def run(self, words: list[str], data: bytes) -> Ran:
        began = time.monotonic()
        output, status = self.running.run([self.program, *words], data, self.seconds)
        return Ran(output, status, time.monotonic() - began)

    def check(self, place: Path) -> Result:
        """Runs the scenario whose files begin with `place`."""
        began = time.monotonic()
        try:
            outcome = self.outcome(place)
        except subprocess.TimeoutExpired:
            outcome = Outcome("failed", f"it took more than {self.seconds:g} seconds")
        except (OSError, EOFError, ValueError) as error:
            outcome = Outcome("failed", f"it could not be run: {error}")
        seconds = time.monotonic() - began
        return Result(str(place.parent), place.name, outcome.kind, seconds, outcome.why, outcome.lines)

    def outcome(self, place: Path) -> Outcome:
        words, data = words_of(place), input_of(place)
        ran = self.run(words, data)
        stored = beside(place, ".out")
        if stored.exists():
            return self.compared(words, ran, stored.read_bytes(), status_of(place))
        if self.accepts and ran.status >= 0:
            stored.write_bytes(ran.output)
            if ran.status != 0:
                beside(place, ".status").write_text(f"{ran.status}\n")
            return Outcome("accepted", f"stored as {stored.name}, status {ran.status}")
        return Outcome("new", f"nothing is stored; its status is {ran.status}")

    def compared(self, words: list[str], ran: Ran, stored: bytes, status: int) -> Outcome:
        got, wanted = settled(words, ran.output), settled(words, stored)
        lines = tuple(differing.shown(got, wanted)) if got != wanted else ()
        if ran.status != status:
            return Outcome("failed", f"status {ran.status}, wanted {status}", lines)
        why = differing.told(got, wanted)
        if why:
            return Outcome("failed", why, lines)
        again = self.again(words, ran)
        return Outcome("failed", again) if again else Outcome("passed")

    def again(self, words: list[str], ran: Ran) -> str:
        """Why the document does not replay to itself, or nothing."""
        if ran.status != 0 or words not in (["replay"], ["run"]):
            return ""
        second = self.run(["replay"], ran.output)
        return "" if second.output == ran.output else "its output does not replay to itself"


def beside(place: Path, ending: str) -> Path:
    return place.with_name(place.name + ending)


def words_of(place: Path) -> list[str]:
    file = beside(place, ".args")
    return [word for word in file.read_text().split("\n") if word] if file.exists() else ["replay"]


def status_of(place: Path) -> int:
    file = beside(place, ".status")
    return int(file.read_text()) if file.exists() else 0


def input_of(place: Path) -> bytes:
    packed = beside(place, ".in.gz")
    return gzip.decompress(packed.read_bytes()) if packed.exists() else beside(place, ".in").read_bytes()


def settled(words: list[str], output: bytes) -> bytes:
    """What of an output is the same each time: of the document of a threaded run all but the choices and their acts."""
    lines = output.split(b"\n")
    if words != ["run"] or b"CHOICES" not in lines or b"END" not in lines:
        return output
    behind = [line for line in lines[lines.index(b"END"):] if not line.startswith(b"* ACT ")]
    return b"\n".join(lines[:lines.index(b"CHOICES")] + behind)


def scenarios(places: list[str]) -> list[Path]:
    """The scenarios of folders, by name, and those that are named by one of their files; Fault where there is none."""
    found = []
    for place in places:
        path = Path(place)
        if not path.is_dir():
            found.append(named(path))
            continue
        names = {name_of(file) for end in (".in", ".in.gz") for file in path.glob(f"*{end}")}
        if not names:
            raise Fault(f"{place} has no scenario NAME.in")
        found += [path / name for name in sorted(names)]
    return list(dict.fromkeys(found))


def name_of(file: Path) -> str:
    """The name of the scenario of one of its files."""
    name = file.name[: -len(".gz")] if file.name.endswith(".in.gz") else file.name
    return next((name[: -len(end)] for end in (".in", ".out", ".args", ".status") if name.endswith(end)), name)


def named(file: Path) -> Path:
    place = file.with_name(name_of(file))
    if not any(beside(place, end).is_file() for end in (".in", ".in.gz")):
        raise Fault(f"{file} is no folder and no scenario: there is no {place}.in")
    return place


def check_all(checking: Checking, places: list[Path], jobs: int) -> list[Result]:
    """Checks the scenarios, so many at a time; where it is interrupted, all that runs is ended at once."""
    with ThreadPoolExecutor(jobs) as pool:
        waiting = [pool.submit(checking.check, place) for place in places]
        try:
            return [one.result() for one in waiting]
        except BaseException:
            pool.shutdown(wait=False, cancel_futures=True)
            checking.running.end_all()
            raise


def table(results: list[Result], is_quiet: bool) -> Iterator[str]:
    """A line for each scenario, or for those that did not pass, and the counts."""
    told = [result for result in results if not is_quiet or result.kind != "passed"]
    width = max((len(f"{result.folder}/{result.name}") for result in told), default=0)
    for result in told:
        why = f": {result.why}" if result.why else ""
        yield f"{result.folder + '/' + result.name:{width}}  {result.seconds:6.2f} s  {result.kind}{why}"
        yield from (f"    {line}" for line in result.lines)
    counts = {kind: sum(result.kind == kind for result in results) for kind in ("passed", "failed", "new", "accepted")}
    more = [f"{counts[kind]} {kind}" for kind in ("new", "accepted") if counts[kind]]
    yield ", ".join([f"{counts['passed']} passed", f"{counts['failed']} failed", *more])
    if counts["new"]:
        yield "what is new has no stored output; --accept stores it"
    if counts["failed"]:
        yield "to store an output anew, take its NAME.out and NAME.status away; --accept stores what is written then"


def junit(results: list[Result]) -> str:
    """The results as JUnit XML, a suite for each folder."""
    suites = ElementTree.Element("testsuites")
    for folder in dict.fromkeys(result.folder for result in results):
        of_folder = [result for result in results if result.folder == folder]
        suite = ElementTree.SubElement(suites, "testsuite", {"name": folder, **counted(of_folder)})
        for result in of_folder:
            case = ElementTree.SubElement(suite, "testcase", classname=folder, name=result.name, time=f"{result.seconds:.3f}")
            if result.kind == "failed":
                ElementTree.SubElement(case, "failure", message=result.why).text = "\n".join(result.lines or [result.why])
            elif result.kind != "passed":
                ElementTree.SubElement(case, "skipped", message=result.why)
    ElementTree.indent(suites)
    return ElementTree.tostring(suites, encoding="unicode", xml_declaration=True) + "\n"


def counted(results: list[Result]) -> dict[str, str]:
    kinds = [result.kind for result in results]
    return {
        "tests": str(len(kinds)), "failures": str(kinds.count("failed")), "errors": "0",
        "skipped": str(kinds.count("new") + kinds.count("accepted")),
        "time": f"{sum(result.seconds for result in results):.3f}",
    }
