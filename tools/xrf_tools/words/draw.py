"""xrf draw: a picture of a run."""

from __future__ import annotations

import argparse
import os
import re
import shutil
import sys
from pathlib import Path
from typing import TYPE_CHECKING

from xrf_tools.errors import Fault
from xrf_tools.output import can_write, write
from xrf_tools.picture.columns import PLAIN, columns
from xrf_tools.picture.page import page, svg
from xrf_tools.scene import Scene, build, part_of
from xrf_tools.source import load

if TYPE_CHECKING:
    from xrf_tools.command_line import Words

GENERATOR = 'content="xrf draw"'


def add_to(words: Words) -> None:
    draw = words.add_parser("draw", help="a picture of a run")
    draw.add_argument("file", metavar="FILE", help="what xrf replay wrote, or a scenario, or '-'")
    draw.add_argument("--text", action="store_true", help="columns for a terminal in place of a page")
    draw.add_argument("--svg", action="store_true", help="the picture alone, as SVG, in place of a page")
    draw.add_argument("--acts", metavar="K-L", help="of the columns or the SVG only the rows of acts K to L")
    draw.add_argument("--width", type=int, default=0, metavar="N", help="letters of a line of the columns")
    draw.add_argument("--output", metavar="OUT", help="the file to write; else standard output, and NAME.html where "
                      "that is a terminal")
    draw.set_defaults(call=run)


def run(given: argparse.Namespace) -> int:
    if given.text and given.svg:
        raise Fault("--text and --svg are two pictures; ask for one")
    if given.acts and not (given.text or given.svg):
        raise Fault("--acts goes with --text or --svg")
    scene = build(load(given.file))
    if given.acts:
        scene = part_of(scene, *acts_of(given.acts))
    if given.text:
        text = text_of(scene, given)
    else:
        text = (svg if given.svg else page)(scene, title_of(given.file))
    write(text, given.output or own_name(given))
    return 0


def title_of(path: str) -> str:
    return "a run" if path == "-" else Path(path).stem.replace("_", " ")


def acts_of(text: str) -> tuple[int, int]:
    match = re.fullmatch(r"(\d{1,5})-(\d{1,5})", text)
    if match is None or int(match[1]) > int(match[2]):
        raise Fault(f"--acts wants two numbers, as 13-40, and not '{text}'")
    return int(match[1]), int(match[2])


def text_of(scene: Scene, given: argparse.Namespace) -> str:
    """The columns, in letters that standard output can take."""
    is_terminal = is_on_terminal() and not given.output
    width = given.width or (shutil.get_terminal_size((120, 0)).columns if is_terminal else 120)
    text = "\n".join(columns(scene, width, is_terminal and "NO_COLOR" not in os.environ)) + "\n"
    return text if given.output or can_write(text) else text.translate(PLAIN)


def is_on_terminal() -> bool:
    return sys.stdout is not None and sys.stdout.isatty()


def own_name(given: argparse.Namespace) -> str:
    """Where a page goes that is not to fill a terminal; '' for standard output."""
    if given.text or given.svg or not is_on_terminal():
        return ""
    path = Path("run.html" if given.file == "-" else Path(given.file).stem + ".html")
    if path.exists() and GENERATOR not in path.read_text(errors="replace")[:1000]:
        raise Fault(f"{path} is there and was not drawn here; --output names another file")
    return str(path)
