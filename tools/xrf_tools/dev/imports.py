"""The imports of a worked run's spec file."""

from __future__ import annotations

import re
from collections.abc import Sequence
from typing import Protocol


class Shared(Protocol):
    """A beginning that runs share: its name, and the file and the crate in which it stands."""

    @property
    def name(self) -> str: ...

    @property
    def file(self) -> str: ...

    @property
    def crate(self) -> str: ...


IMPORTS = """std.specs.Prelude.{true, false, List, [], ◌∷◌, ◌++◌, replicate, codes, Some, None}
xrf_base.specs.declared.site.Site.TheVariants as site
xrf_base.specs.declared.site.Takeovr.TheVariants as takeovr
xrf_base.specs.declared.items.Item.TheVariants as items
xrf_base.specs.declared.items.ItemAnswer.TheVariants as answer
xrf_base.specs.Values.{slot_of}
xrf_terms.specs.declared.rows.How.TheVariants as how
xrf_ctl.specs.declared.parts.Level.TheVariants as level
xrf_ctl.specs.declared.parts.OwnerState.TheVariants as state
xrf_ctl.specs.declared.parts.Cause.TheVariants as cause
xrf_ctl.specs.Control.{of_parts}
xrf_ctl.specs.Signal.{of_numbers}
xrf_cavm.specs.declared.decisions.Why.TheVariants as why
xrf_cavm.specs.declared.decisions.Decision.TheVariants as decision
xrf_cavm.specs.declared.decisions.Waiting.TheVariants as waiting
xrf_cavm.specs.declared.decisions.Acting.TheVariants as acting
xrf_cavm.specs.declared.decisions.Decided.TheVariants as decided
xrf_cebt.specs.declared.commands.Cebt.TheVariants as cebt
xrf_cebt.specs.declared.replies.CebtReply.TheVariants as reply
xrf_exit.specs.declared.ExitAnswer.TheVariants as exit
xrf_msg.specs.declared.messages.Message.TheVariants as message
xrf_logrec.specs.declared.records.LogRec.TheVariants as rec
xrf_history.specs.declared.want.EndWhy.TheVariants as end
xrf_setup.specs.declared.choice.Choice.{Choice}
xrf_setup.specs.declared.choice.Choice.TheVariants as choice
xrf_setup.specs.declared.choice.Landing.TheVariants as landing
xrf_setup.specs.declared.format.Format.TheVariants as format
xrf_setup.specs.Scenario.{Scen}
xrf_trace.specs.declared.entry.Act.TheVariants as act
xrf_trace.specs.declared.entry.Entry.{Entry}
xrf_trace.specs.declared.entry.Land.TheVariants as land
xrf_trace.specs.declared.entry.Who.TheVariants as who
xrf_examples.specs.Making.{Told, entry_of, owner_of, alt_of, taking_of, unit_of}"""


def used(text: str, beginnings: Sequence[Shared]) -> str:
    """The lines of the imports that a text needs, of the definitions and of the beginnings."""
    text = re.sub(r'"(\\.|[^"\\])*"', "", text)
    signs = {f"◌{sign}◌" for sign in ("∷", "++") if f" {sign}" in text}
    words = set(re.findall(r"[\w.]+", text)) | signs | {"[]"} & set(re.findall(r"\[\]", text))
    paths = {word.split(".")[0] for word in words if "." in word}
    lines = [line for imported in IMPORTS.split("\n") if (line := kept_of(imported, words, paths))]
    for crate, file in sorted({(beginning.crate, beginning.file) for beginning in beginnings}):
        names = [name for b in reversed(beginnings) if b.file == file for name in (b.name, f"to_{b.name}")]
        kept = [name for name in names if name in words]
        if kept:
            lines.append(f"{crate}.specs.{file}.{{{', '.join(kept)}}}")
    return "\n".join(f"use Rattle.{line}" for line in lines)


def kept_of(line: str, words: set[str], paths: set[str]) -> str:
    """What of an import is needed for these words and paths; '' for nothing."""
    alias, names = re.search(r" as (\w+)$", line), re.search(r"\{(.*)\}$", line)
    if alias:
        return line if alias[1] in paths else ""
    kept = [name for name in names[1].split(", ") if name in words] if names else []
    return line[: names.start()] + "{" + ", ".join(kept) + "}" if names and kept else ""
