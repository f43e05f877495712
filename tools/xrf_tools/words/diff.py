"""xrf diff: the first act at which two runs part, and how both end."""

from __future__ import annotations

import argparse
from typing import TYPE_CHECKING

from xrf_tools.comparing import compared
from xrf_tools.errors import Fault
from xrf_tools.output import write
from xrf_tools.source import load

if TYPE_CHECKING:
    from xrf_tools.command_line import Words


def add_to(words: Words) -> None:
    diff = words.add_parser("diff", help="the first act at which two runs part, and how both end")
    diff.add_argument("one", metavar="A", help="what xrf replay wrote, or a scenario, or '-'")
    diff.add_argument("other", metavar="B", help="the same of another run")
    diff.set_defaults(call=run)


def run(given: argparse.Namespace) -> int:
    if given.one == given.other == "-":
        raise Fault("standard input is one of the two, not both")
    lines = compared(load(given.one), load(given.other))
    write("".join(f"{line}\n" for line in lines))
    return 1 if lines else 0
