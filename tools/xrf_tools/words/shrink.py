"""xrf shrink: the smallest scenario that still shows something."""

from __future__ import annotations

import argparse
from typing import TYPE_CHECKING

from xrf_tools.document import read_text
from xrf_tools.output import write
from xrf_tools.shrinking import Shrinking, wanted
from xrf_tools.source import name_of, written

if TYPE_CHECKING:
    from xrf_tools.command_line import Words


def add_to(words: Words) -> None:
    shrink = words.add_parser("shrink", help="the smallest scenario of which a text still stands in the output")
    shrink.add_argument("file", metavar="FILE", help="a scenario or a document, or '-'")
    shrink.add_argument("--keep", metavar="TEXT", help="what is to stay in the output, as 'DECIDE START LOST'; without it a refused "
                        "FILE stays refused for its reason")
    shrink.set_defaults(call=run)


def run(given: argparse.Namespace) -> int:
    text, name = read_text(given.file), name_of(given.file)
    lines = text.split("\n")
    shrinking = Shrinking(name, wanted(written(text, name), given.keep, name), lines[:-1] if lines[-1] == "" else lines)
    write(shrinking.shrink())
    return 0
