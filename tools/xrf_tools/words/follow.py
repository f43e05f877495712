"""xrf follow: whether a trace is a run of the model."""

from __future__ import annotations

import argparse
from typing import TYPE_CHECKING

from xrf_tools.document import read_text
from xrf_tools.errors import Fault
from xrf_tools.follow import Model, difference, read_trace
from xrf_tools.output import write
from xrf_tools.source import name_of

if TYPE_CHECKING:
    from xrf_tools.command_line import Words


def add_to(words: Words) -> None:
    follow = words.add_parser("follow", help="whether a trace is a run of the model")
    follow.add_argument("scenario", metavar="SCENARIO", help="what the run is given: the lines up to CHOICES are taken")
    follow.add_argument("trace", metavar="LOG", help="a document, or a log with a line ACT k tick who inc text for each act")
    follow.set_defaults(call=run)


def run(given: argparse.Namespace) -> int:
    if given.scenario == given.trace == "-":
        raise Fault("standard input is the scenario or the trace, not both")
    model = Model.of(read_text(given.scenario), name_of(given.scenario))
    trace = read_trace(read_text(given.trace), name_of(given.trace))
    lines = difference(model, trace)
    write("\n".join(lines or [f"a run of the model, of {len(trace.entries)} acts; docs/REFERENCE.md says what holds of it"]) + "\n")
    return 1 if lines else 0
