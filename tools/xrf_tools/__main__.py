"""The tools: the words of the launcher that are not the program's, each of a module of its own in `words`."""

from __future__ import annotations

import sys

from xrf_tools.command_line import Parser
from xrf_tools.errors import Fault, OutputFault
from xrf_tools.output import say
from xrf_tools.words import check, coverage, diff, draw, explain, follow, json, shrink

WORDS = (
    check,
    coverage,
    diff,
    draw,
    explain,
    follow,
    json,
    shrink,
)


def parser() -> Parser:
    made = Parser(prog="xrf")
    words = made.add_subparsers(dest="word", required=True, parser_class=Parser)
    for word in WORDS:
        word.add_to(words)
    return made


def main(words: list[str]) -> int:
    try:
        given = parser().parse_args(words)
        return int(given.call(given))
    except Fault as fault:
        say(str(fault))
        return fault.status
    except BrokenPipeError:
        return OutputFault.status
    except KeyboardInterrupt:
        return 130


if __name__ == "__main__":
    sys.exit(main(sys.argv[1:]))
