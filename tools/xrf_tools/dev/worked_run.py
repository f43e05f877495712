"""Turns the documents of tests/runs/ into the worked runs of xrf_examples, and the long ones into those of xrf_long_runs.

usage: worked_run NAME        the spec file of the run of tests/runs/NAME
       worked_run --write     writes the spec files of all runs, those of their beginnings, src/runs.rt and proof files
       worked_run --check     compares them with what stands; a line for each difference

NAME.in is the input, and its lines that begin with `#` say what the run shows. NAME.out is the document that comes of
it: the scenario, the choices, and the report with its ACT lines. The spec file has `scenario`, `choices`, `trace`
(newest first), and `told`: what else the report tells, which are the answers of the items, the tick, the control
record, the counts of the log, the file and the terminals. The file `beginnings` there names what runs share.
"""

from __future__ import annotations

import argparse
import sys
from collections.abc import Sequence
from pathlib import Path

from xrf_tools.dev import terms
from xrf_tools.dev.entries import Entries
from xrf_tools.dev.imports import used
from xrf_tools.dev.terms import camel, choice, pieces_of, snake, wrapped
from xrf_tools.document import Document, read, read_scenario
from xrf_tools.errors import Fault

TOP = Path(__file__).resolve().parents[3]
RUNS = TOP / "tests/runs"
CRATES = TOP / "crates"
# from so many acts on, what is promised is proved part by part; and a run is long, and stands in a crate of its own
IN_PARTS, LONG = 80, 300


class Acts:
    """The choices and the entries of a run or a beginning, and the crate in which it stands."""

    def __init__(self, name: str, title: str, file: str, document: Document, choices: list[str], entries: list[str]) -> None:
        self.name, self.title, self.file, self.document = name, title, file, document
        self.choices, self.entries = choices, entries

    @property
    def is_long(self) -> bool:
        return len(self.entries) >= LONG

    @property
    def crate(self) -> str:
        return "xrf_long_runs" if self.is_long else "xrf_examples"

    def spec_file(self) -> Path:
        return CRATES / self.crate / f"specs/{self.file}.antt"


class Run(Acts):
    """A run as its documents tell it; Fault where these are not of one run."""

    def __init__(self, name: str) -> None:
        given, written = read_scenario(f"{name}.in", text_of(name, ".in")), read(f"{name}.out", text_of(name, ".out"))
        if given.scenario != written.scenario:
            raise Fault(f"{name}: the scenarios differ")
        if given.choices and given.choices != written.choices:
            raise Fault(f"{name}: the choices differ")
        super().__init__(name, given.title, camel(name), written, list(map(choice, written.choices)), Entries(written).list)


def text_of(name: str, ending: str) -> str:
    return (RUNS / f"{name}{ending}").read_text()


class Beginning(Acts):
    """The first acts of a run, which other runs share."""

    def __init__(self, line: str, runs: dict[str, Run]) -> None:
        place, title = line.split(": ", 1)
        file, name, of, acts = place.split()
        run = runs[of]
        super().__init__(name, title, file, run.document, run.choices[: int(acts)], run.entries[: int(acts)])
        self.has_scenario = file == camel(name)

    def is_of(self, run: Acts) -> bool:
        size = len(self.entries)
        return run.entries[:size] == self.entries and run.choices[:size] == self.choices


def read_all() -> tuple[dict[str, Run], list[Beginning]]:
    """The runs by name, the shorter first, and the beginnings, the longer first."""
    found = [Run(path.stem) for path in RUNS.glob("*.out")]
    runs = {run.name: run for run in sorted(found, key=lambda run: (len(run.entries), run.name))}
    lines = [line for line in (RUNS / "beginnings").read_text().split("\n") if line and not line.startswith("#")]
    beginnings = [Beginning(line, runs) for line in lines]
    return runs, sorted(beginnings, key=lambda beginning: -len(beginning.entries))


def choices_and_trace(run: Acts, beginnings: Sequence[Beginning], names: tuple[str, str]) -> list[str]:
    """The two lists of a run or a beginning, said from the longest beginning that it has, itself left out."""
    front = next((b for b in beginnings if b is not run and b.is_of(run)), None)
    size = len(front.entries) if front else 0
    pieces = pieces_of(run.choices[size:], [f"to_{front.name}"] if front else [])
    entries = "".join(f"    {entry} ∷\n" for entry in reversed(run.entries[size:]))
    return [
        f"abbrev pub {names[0]} : List Choice",
        f"{names[0]} =",
        wrapped(pieces, " " * 4),
        "",
        f"abbrev pub {names[1]} : List Entry",
        f"{names[1]} =",
        f"{entries}    {front.name if front else '[]'}",
    ]


def module_of_run(run: Run, beginnings: Sequence[Beginning]) -> str:
    shared = next((b for b in beginnings if b.has_scenario and b.document.scenario == run.document.scenario), None)
    scenario = [] if shared else [*terms.scenario(run.document), ""]
    body = [*scenario, *choices_and_trace(run, beginnings, ("choices", "trace")), "", *terms.told(run.document)]
    return with_imports(run.title, body, beginnings, f"pub use Rattle.{shared.crate}.specs.{shared.file}.{{scenario}}\n" if shared else "")


def module_of_beginnings(file: str, beginnings: Sequence[Beginning]) -> str:
    here = [b for b in reversed(beginnings) if b.file == file]
    body = [*terms.scenario(here[0].document), ""] if here[0].has_scenario else []
    for beginning in here:
        head = [] if beginning.has_scenario else [f"-- {beginning.title}"]
        body += [*head, *choices_and_trace(beginning, beginnings, (f"to_{beginning.name}", beginning.name)), ""]
    title = here[0].title if here[0].has_scenario else "What the worked runs begin with."
    return with_imports(title, body[:-1], [b for b in beginnings if b not in here])


def with_imports(title: str, body: list[str], beginnings: Sequence[Beginning], handed_on: str = "") -> str:
    text = "\n".join(body) + "\n"
    return f"-- {title}\n{used(text, beginnings)}\n{handed_on}\n{text}"


FUNCTION = """
/// {title}
pub fn {name}()
    ensures runs {{ run {module}.scenario {module}.choices ≡ Ok {module}.trace }}
    ensures told {{ told_of {module}.scenario {module}.trace ≡ {module}.told }}
    ensures safe {{ Safe {module}.scenario {module}.trace }}
    ensures keeps {{ Promises {module}.scenario {module}.trace }}
{{}}
"""
HEAD = """//! {title}. Each function says what the run of its choices comes to.

ghost use Rattle.std.specs.Prelude.{{◌≡◌, Ok}};
ghost use Rattle.xrf_trace.specs.Runs.{{run}};
ghost use Rattle.xrf_trace.specs.Safe.{{Safe}};
ghost use Rattle.xrf_trace.specs.Promises.{{Promises}};
ghost use Rattle.xrf_examples.specs.Making.{{told_of}};
"""


def functions(runs: Sequence[Run], are_long: bool) -> str:
    """The source of the functions of the runs, or of the long ones."""
    runs = [run for run in runs if run.is_long == are_long]
    text = HEAD.format(title="Worked runs of several hundred acts" if are_long else "Worked runs")
    text += "".join(f"ghost use Rattle.{run.crate}.specs.{run.file};\n" for run in runs)
    for run in runs:
        text += FUNCTION.format(title=run.title, name=run.name, module=run.file)
    return text


PARTS = (
    "OneOwner", "UnitsAreItems", "ItemsSeeBook", "TerminalsAreTold", "JobsAct", "ReserveIsHeld", "ByPurpose", "LinesAsListed",
    "RoundsAreWhole", "OwnersDecide", "StopsWhenDue", "ItemsInOrder", "BookAtRest", "CutsAsMay",
)
# What is said of the trace alone.
OF_TRACE = ("CutsAsMay",)


def answers(run: Run) -> str:
    """The proof file of a run: `assumption` computes a part, and proves it where nothing is left but equal sides."""
    head = ["-- Each part computes to nothing, or to equations whose sides are the same."]
    tail = ["pub returns-clause-safe : goal.returns-clause-safe", "returns-clause-safe c = assumption", ""]
    tail += ["pub returns-clause-keeps : goal.returns-clause-keeps"]
    uses = [f"use Rattle.xrf_examples.proofs.runs.{run.name}.Goals as goal", ""]
    lemmas: list[str] = []
    if len(run.entries) < IN_PARTS:
        return "\n".join([*head, *uses, *tail, "returns-clause-keeps c = assumption", ""])
    fields = {snake(part): part for part in PARTS}
    own = f"use Rattle.xrf_examples.specs.{camel(run.name)}.{{scenario, trace}}"
    uses = [*(f"use Rattle.xrf_trace.specs.{part}.{{{part}}}" for part in PARTS), own, *uses]
    for field, part in fields.items():
        of = "trace" if part in OF_TRACE else "scenario trace"
        lemmas += [f"{field} : {part} {of}", f"{field} = assumption", ""]
    record = ["returns-clause-keeps c = record {", *(f"  {field} = {field};" for field in fields), "}", ""]
    return "\n".join([*head, *uses, *lemmas, *tail, *record])


def all_files() -> dict[Path, str]:
    """What each generated file has to be."""
    runs, beginnings = read_all()
    files = {run.spec_file(): module_of_run(run, beginnings) for run in runs.values()}
    files |= {beginning.spec_file(): module_of_beginnings(beginning.file, beginnings) for beginning in beginnings}
    files |= {CRATES / crate / "src/runs.rt": functions(list(runs.values()), crate == "xrf_long_runs") for crate in ("xrf_examples", "xrf_long_runs")}
    files |= {CRATES / f"xrf_examples/proofs/runs/{run.name}/Answers.antt": answers(run) for run in runs.values() if not run.is_long}
    return files


def check(files: dict[Path, str]) -> int:
    differing = [path for path, text in files.items() if not path.exists() or path.read_text() != text]
    for path in differing:
        print(f"{path.relative_to(TOP)}: is not what tools/worked_run makes of its documents")
    return 1 if differing else 0


def main() -> int:
    parser = argparse.ArgumentParser(description=__doc__, formatter_class=argparse.RawDescriptionHelpFormatter)
    what = parser.add_mutually_exclusive_group(required=True)
    what.add_argument("name", metavar="NAME", nargs="?", help="a run of tests/runs/")
    what.add_argument("--write", action="store_true", help="write the files")
    what.add_argument("--check", action="store_true", help="compare the files")
    args = parser.parse_args()
    if args.name and not (RUNS / f"{args.name}.out").exists():
        sys.exit(f"{args.name}: there is no such run in tests/runs/")
    try:
        files = all_files()
    except (Fault, ValueError) as error:
        sys.exit(str(error))
    if args.check:
        return check(files)
    if args.name:
        print(next(text for path, text in files.items() if path.stem == camel(args.name)), end="")
    for path, text in files.items() if args.write else ():
        path.parent.mkdir(parents=True, exist_ok=True)
        path.write_text(text)
    return 0


if __name__ == "__main__":
    sys.exit(main())
