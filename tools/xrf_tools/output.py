"""Where a tool writes: standard output, a file that is named, and standard error."""

from __future__ import annotations

import os
import sys
from pathlib import Path

from xrf_tools.errors import OutputFault


def say(text: str) -> None:
    """A line for the user, on standard error."""
    if sys.stderr is not None:
        print(f"xrf: {text}", file=sys.stderr)


def can_write(text: str) -> bool:
    """Whether standard output has all letters of `text`."""
    try:
        text.encode(getattr(sys.stdout, "encoding", None) or "ascii")
    except UnicodeEncodeError:
        return False
    return True


def write(text: str, path: str = "") -> None:
    """Writes `text` to the file `path` and says so; to standard output where it is ''."""
    if not path:
        write_out(text)
        return
    was_there = Path(path).exists()
    try:
        Path(path).write_text(text, encoding="utf-8")
    except OSError as error:
        raise OutputFault(f"{path}: {(error.strerror or str(error)).lower()}") from None
    say(f"{path}, which was there, was written anew" if was_there else f"{path} was written")


def write_out(text: str) -> None:
    if sys.stdout is None:
        raise OutputFault("standard output is closed")
    try:
        sys.stdout.write(text)
        sys.stdout.flush()
    except OSError as error:
        leave_output()
        if isinstance(error, BrokenPipeError):
            raise
        raise OutputFault(f"standard output: {(error.strerror or str(error)).lower()}") from None


def leave_output() -> None:
    """What is left of an output that failed goes nowhere, so that nothing more is said of it."""
    os.dup2(os.open(os.devnull, os.O_WRONLY), sys.stdout.fileno())
