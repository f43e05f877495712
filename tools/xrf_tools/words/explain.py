"""xrf explain: a run told in sentences, or why an input is refused."""

from __future__ import annotations

import argparse
from typing import TYPE_CHECKING

from xrf_tools.output import write
from xrf_tools.refusals import told
from xrf_tools.refused import read_refusal
from xrf_tools.source import REFUSED, given_and_written, program_there, read_written
from xrf_tools.story import by_acts, summed_up

if TYPE_CHECKING:
    from xrf_tools.command_line import Words


def add_to(words: Words) -> None:
    explain = words.add_parser("explain", help="a run told in sentences, or why an input is refused")
    explain.add_argument("file", metavar="FILE", help="what xrf replay wrote, or a scenario, or '-'")
    explain.add_argument("answer", metavar="ANSWER", nargs="?", help="what was written of FILE; else it is replayed")
    explain.add_argument("--acts", action="store_true", help="act by act")
    explain.set_defaults(call=run)


def run(given: argparse.Namespace) -> int:
    text, answer = given_and_written(given.file, given.answer)
    if answer.startswith(REFUSED):
        lines = told(read_refusal(answer, text), program_there() if text else "")
    else:
        document = read_written(given.file, answer)
        lines = by_acts(document) if given.acts else summed_up(document)
    write("\n".join(lines) + "\n")
    return 0
