"""xrf coverage: what scenarios have shown, and what they have not."""

from __future__ import annotations

import argparse
from typing import TYPE_CHECKING

from xrf_tools.coverage import gathered, table
from xrf_tools.coverage_pages import as_cobertura, as_html, as_json
from xrf_tools.errors import Fault
from xrf_tools.output import write

if TYPE_CHECKING:
    from xrf_tools.command_line import Words


def add_to(words: Words) -> None:
    coverage = words.add_parser("coverage", help="what the scenarios of a folder have shown, and what they have not")
    coverage.add_argument("places", metavar="DIR", nargs="+", help="a folder with NAME.out, or NAME.in that is replayed; or a file")
    coverage.add_argument("--missing", action="store_true", help="tell each point that was not shown, and what can't be")
    coverage.add_argument("--json", metavar="OUT", help="write it as JSON; '-' for standard output, in place of the table")
    coverage.add_argument("--xml", metavar="OUT", help="write it as Cobertura XML for a CI")
    coverage.add_argument("--html", metavar="OUT", help="write it as a page")
    coverage.add_argument("--fail-under", type=float, default=0, metavar="N", help="end with status 1 below N percent")
    coverage.set_defaults(call=run)


def run(given: argparse.Namespace) -> int:
    if not 0 <= given.fail_under <= 100:
        raise Fault("--fail-under wants a number from 0 to 100")
    files = [(given.json, as_json), (given.xml, as_cobertura), (given.html, as_html)]
    if [path for path, _ in files].count("-") > 1:
        raise Fault("standard output takes one of them")
    coverage = gathered(given.places)
    if all(path != "-" for path, _ in files):
        write("\n".join(table(coverage, given.missing)) + "\n")
    for path, form in files:
        if path:
            write(form(coverage), "" if path == "-" else path)
    return 1 if coverage.percent < given.fail_under else 0
