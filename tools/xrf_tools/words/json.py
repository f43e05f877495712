"""xrf json: a run as data, and data as a run again."""

from __future__ import annotations

import argparse
import json
from typing import TYPE_CHECKING

from xrf_tools import data
from xrf_tools.data_back import document_of
from xrf_tools.document import read_text
from xrf_tools.errors import Fault
from xrf_tools.output import write
from xrf_tools.refused import read_refusal
from xrf_tools.source import REFUSED, given_and_written, name_of, read_written

if TYPE_CHECKING:
    from xrf_tools.command_line import Words

REFUSED_STATUS = 8
# A document has at most 4 MiB, and its JSON some eight times as much.
MOST_BYTES = 64 * 1024 * 1024


def add_to(words: Words) -> None:
    word = words.add_parser("json", help="a run as data")
    word.add_argument("file", metavar="FILE", help="what xrf replay wrote, or a scenario, or '-'")
    word.add_argument("--lines", action="store_true", help="an act a line, and nothing else")
    word.add_argument("--back", action="store_true", help="FILE is what this word wrote: write the document that it came from")
    word.set_defaults(call=run)


def run(given: argparse.Namespace) -> int:
    if given.back:
        if given.lines:
            raise Fault("--lines leaves the scenario out, so --back can't take it")
        write(document_of(read_text(given.file, MOST_BYTES), name_of(given.file)))
        return 0
    text, answer = given_and_written(given.file, None)
    if answer.startswith(REFUSED):
        refusal = read_refusal(answer, text)
        write(compact(data.refused(refusal.number, refusal.reason)))
        return REFUSED_STATUS
    document = read_written(given.file, answer)
    write("".join(map(compact, data.acts(document) if given.lines else [data.of_document(document)])))
    return 0


def compact(value: data.Object) -> str:
    return json.dumps(value, separators=(",", ":")) + "\n"

