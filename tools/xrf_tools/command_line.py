"""The words of a command line: their parser, and what each word gives to it.

A word of the launcher is a module of `xrf_tools.words` with `add_to(words)`: it adds its parser, whose `call` is the
function that runs it and gives its status.
"""

from __future__ import annotations

import argparse
from typing import TYPE_CHECKING, NoReturn

from xrf_tools.errors import Fault

if TYPE_CHECKING:
    Words = argparse._SubParsersAction["Parser"]


class Parser(argparse.ArgumentParser):
    """Wrong words are told in one line."""

    def error(self, message: str) -> NoReturn:
        raise Fault(f"{message} ({self.prog} --help says more)")
