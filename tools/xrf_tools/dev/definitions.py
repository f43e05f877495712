"""Makes docs/DEFINITIONS.md: each definition of specs/ beside the sentence that its comment states.

The frame of the page, definitions.md beside this file, has the headings and what is said of a whole crate. Its lines
that begin with % are filled in:

    %crate CRATE              the types of the crate's code, and the definitions of each of its spec files
    %specs CRATE FILE..       the definitions of these spec files
    %rest                     the same of each crate that no other line names
    %broken CRATE             what its functions say is broken of each trace, and of which parts it is none
    %counts NAME..            how many definitions must be believed for each of these
    %fields NAME..            the same of each of these records, and of what its fields state
    %leave CRATE              nothing: what it has is told elsewhere
    %row CRATE/FILE.NAME ..   a sentence in place of the one that the comment there states; for a comment that lacks it

usage: definitions [--check]      writes the page, or tells where it differs from what would be written
"""

import argparse
import re
import sys
from pathlib import Path

from xrf_tools.dev.comments import Row, functions, head_of, rows, sentence, types
from xrf_tools.dev.reading_list import find, ordered
from xrf_tools.dev.specs import NAME, Crates

TOP = Path(__file__).resolve().parents[3]
FRAME = Path(__file__).with_suffix(".md")
PAGE = TOP / "docs" / "DEFINITIONS.md"
HEAD = ["| Name | States | With it |", "|---|---|---|"]


class Fault(Exception):
    """A line of the frame that can't be filled in."""


class Page:
    """The page that is made of a frame."""

    def __init__(self, frame: str, crates: Crates, folder: Path) -> None:
        self.frame, self.crates = frame.rstrip("\n").split("\n"), crates
        self.to_crates = f"{'../' * len(folder.relative_to(crates.folder.parent).parts)}{crates.folder.name}"
        rows_ = (line.split(" ", 2) for line in self.frame if line.startswith("%row "))
        self.stood_in = {place: sentence_ for _, place, sentence_ in rows_}
        self.used: set[str] = set()

    def text(self) -> str:
        made: list[str] = []
        for line in self.frame:
            word, *names = line.split(" ")
            if word == "%crate":
                made += [*self.types(names[0]), *self.specs(names[0], self.files(names[0]))]
            elif word == "%rest":
                for crate in self.rest():
                    made += ["", f"### `{crate}`", *self.types(crate), *self.specs(crate, self.files(crate))]
            elif word == "%specs":
                made += self.specs(names[0], names[1:])
            elif word == "%broken":
                made += self.broken(names[0])
            elif word == "%counts":
                made += self.counts(names)
            elif word == "%fields":
                made += self.counts([part for name in names for part in (*self.fields(name), name)])
            elif word not in ("%row", "%leave"):
                made.append(line)
        if idle := set(self.stood_in) - self.used:
            raise Fault(f"{FRAME.name}: %row: no definition of that name: {', '.join(sorted(idle))}")
        return re.sub(r"\n{3,}", "\n\n", "\n".join(made) + "\n")

    def files(self, crate: str) -> list[str]:
        """The spec files of a crate in the order in which its Lib.antt names them."""
        lines = (self.crates.folder / crate / "specs" / "Lib.antt").read_text().split("\n")
        return [line.removeprefix("pub mod ") for line in lines if line.startswith("pub mod ")]

    def rest(self) -> list[str]:
        """The crates that the frame does not name, in the order of their names."""
        named = {words[1] for line in self.frame if (words := line.split(" "))[0] in ("%crate", "%specs", "%broken", "%leave")}
        return sorted({path.relative_to(self.crates.folder).parts[0] for path in self.crates.files()} - named)

    def types(self, crate: str) -> list[str]:
        found = types(self.crates.folder / crate)
        told = [f"| `{row.names[0]}` | {cell(row.sentence)} |" for row in found]
        return ["", "| Type | What it is |", "|---|---|", *told] if found else []

    def specs(self, crate: str, files: list[str]) -> list[str]:
        made: list[str] = []
        for file in files:
            path = self.crates.folder / crate / "specs" / f"{file}.antt"
            if not path.exists():
                raise Fault(f"{FRAME.name}: {crate} has no {file}.antt")
            head, found = sentence(head_of(path.read_text())), rows(self.crates, path)
            made += ["", f"### [{file}.antt]({self.to_crates}/{crate}/specs/{file}.antt) of `{crate}`", ""]
            made += [head, ""] if not any(row.sentence.startswith(head) for row in found) else []
            made += [*HEAD, *(self.row(f"{crate}/{file}", row) for row in found)]
        return made

    def row(self, place: str, row: Row) -> str:
        stated = row.sentence
        for name in row.names:
            if f"{place}.{name}" in self.stood_in:
                stated = self.stood_in[f"{place}.{name}"]
                self.used.add(f"{place}.{name}")
        return f"| {quoted(row.names)} | {cell(stated)} | {quoted(row.steps)} |".replace("|  |", "| |")

    def broken(self, crate: str) -> list[str]:
        found = functions(self.crates.folder / crate)
        made = ["| Trace | What is broken | None of |", "|---|---|---|"]
        for name, told, text in found:
            parts = dict.fromkeys(re.findall(r"(\w+) [\w.]+ [\w.]+ → ⊥", text))
            made.append(f"| `{name}` | {cell(told)} | {quoted(list(parts))} |")
        return made

    def fields(self, record: str) -> list[str]:
        """What the fields of a record state, each by the first word of its type."""
        path, name = find(self.crates, record)
        lines = self.crates.read(path).definitions[name].lines[1:]
        return [stated[1] for line in lines if (stated := re.match(rf"\s+(?:pub )?{NAME}\s*:\s*({NAME})", line))]

    def counts(self, names: list[str]) -> list[str]:
        found = ((name, len(ordered(self.crates, find(self.crates, name)))) for name in names)
        made = [f"| `{name}` | {count:,} |" for name, count in found]
        return ["| Definition | Definitions to believe |", "|---|---|", *made]


def quoted(names: list[str]) -> str:
    return ", ".join(f"`{name}`" for name in names)


def cell(text: str) -> str:
    return text.replace("|", "\\|")


def difference(stands: str, made: str) -> str:
    """The first line of the page that is not as it would be made."""
    lines, wanted = stands.split("\n"), made.split("\n")
    at = next((at for at, (line, other) in enumerate(zip(lines, wanted)) if line != other), min(len(lines), len(wanted)))
    return "\n".join([
        f"docs/DEFINITIONS.md is not what the comments of specs/ state, from line {at + 1} on:",
        f"  it has    {lines[at] if at < len(lines) else 'no more lines'}",
        f"  they have {wanted[at] if at < len(wanted) else 'no more lines'}",
        "  tools/definitions writes it anew",
    ])


def main() -> int:
    parser = argparse.ArgumentParser(description=__doc__, formatter_class=argparse.RawDescriptionHelpFormatter)
    parser.add_argument("--check", action="store_true", help="tell where the page differs, and change nothing")
    args = parser.parse_args()
    try:
        made = Page(FRAME.read_text(), Crates(TOP / "crates"), PAGE.parent).text()
    except Fault as fault:
        sys.exit(str(fault))
    if not args.check:
        PAGE.write_text(made)
        return 0
    stands = PAGE.read_text()
    if stands != made:
        print(difference(stands, made))
    return int(stands != made)


if __name__ == "__main__":
    sys.exit(main())
