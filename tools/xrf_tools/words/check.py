"""xrf check: runs each scenario of a folder and compares with its stored output."""

from __future__ import annotations

import argparse
import os
from typing import TYPE_CHECKING

from xrf_tools.checking import Checking, check_all, junit, scenarios, table
from xrf_tools.errors import Fault
from xrf_tools.output import write
from xrf_tools.source import built_program

if TYPE_CHECKING:
    from xrf_tools.command_line import Words

MOST_SECONDS = 1_000_000

STORED = """
NAME.in or NAME.in.gz   the input
NAME.args               the words of the program, one a line; replay where there is none
NAME.out                the whole output
NAME.status             the status; 0 where there is none

--accept stores NAME.out, and NAME.status where it is not 0, of a scenario that has no NAME.out, and changes none. To
store one anew, take its NAME.out and NAME.status away first. A document that comes of replay or run has to replay to
itself too. Of run the order of the choices is open, so they and their ACT lines are not compared.
"""


def add_to(words: Words) -> None:
    check = words.add_parser("check", help="runs each scenario of a folder and compares with its stored output",
                             epilog=STORED, formatter_class=argparse.RawDescriptionHelpFormatter)
    check.add_argument("places", metavar="DIR|FILE", nargs="+", help="a folder of scenarios, or a file of one")
    check.add_argument("--accept", action="store_true", help="store the output of a scenario that has none")
    check.add_argument("--strict", action="store_true", help="what is new has failed")
    check.add_argument("--junit", metavar="OUT", help="write the results as JUnit XML too")
    check.add_argument("--program", metavar="PROGRAM", help="the program to run; else the one that is built here")
    check.add_argument("--jobs", type=int, metavar="N", help="runs at one time; else one for each processor")
    check.add_argument("--timeout", type=float, default=120, metavar="S", help="the most seconds of a run")
    check.add_argument("--quiet", action="store_true", help="tell only what did not pass")
    check.set_defaults(call=run)


def run(given: argparse.Namespace) -> int:
    jobs = (os.cpu_count() or 1) if given.jobs is None else given.jobs
    if jobs < 1 or not 0 < given.timeout < MOST_SECONDS:
        raise Fault(f"--jobs and --timeout are above 0, and --timeout is below {MOST_SECONDS}")
    places = scenarios(given.places)
    checking = Checking(given.program or built_program(), given.timeout, given.accept)
    if not os.access(checking.program, os.X_OK):
        raise Fault(f"{checking.program} is no program")
    results = check_all(checking, places, jobs)
    write("\n".join(table(results, given.quiet)) + "\n")
    if given.junit:
        write(junit(results), given.junit)
    bad = ("failed", "new") if given.strict else ("failed",)
    return 1 if any(result.kind in bad for result in results) else 0
