"""Reads what the comments of the spec files and of the code state of each name. Nothing is proved or run."""

import re
from dataclasses import dataclass, field
from itertools import takewhile
from pathlib import Path

from xrf_tools.dev.specs import DEFINED, Crates, File

COMMENT = re.compile(r"(\s*)-- ?(.*)$")
DECLARED = re.compile(r"pub (?:struct|enum|trait|union|type) (\w+)")


@dataclass
class Stated:
    """A definition, the comment that stands right before it, and those inside it."""

    name: str
    comment: str
    inner: list[str] = field(default_factory=list)

    def take(self, line: str, goes_on: bool) -> None:
        """A line of a comment inside it, which begins one or goes on with the last."""
        if goes_on and self.inner:
            self.inner[-1] += f" {line}"
        else:
            self.inner.append(line)


@dataclass
class Row:
    """What a comment states: of which names, and with which steps of theirs."""

    sentence: str
    names: list[str] = field(default_factory=list)
    steps: list[str] = field(default_factory=list)


def sentence(text: str) -> str:
    """A comment as a sentence, or as some."""
    text = text.strip()
    if not text:
        return ""
    first = re.match(r"[a-z]+(?=[\s,:;.'-])", text)
    if first and not re.match(r"\w+_", text):
        text = text[0].upper() + text[1:]
    return text if text[-1] in ".!?" else text.rstrip(":;,") + "."


def head_lines(text: str) -> list[str]:
    return list(takewhile(lambda line: line.startswith("--"), text.split("\n")))


def head_of(text: str) -> str:
    """The comment with which a file begins."""
    return " ".join(line[2:].strip() for line in head_lines(text))


def stated(path: Path) -> list[Stated]:
    """The definitions of a spec file, in their order."""
    found: list[Stated] = []
    held: list[str] = []
    text = path.read_text()
    goes_on = False
    for line in text.split("\n")[len(head_lines(text)):]:
        comment = COMMENT.match(line)
        if comment and not comment[1]:
            held.append(comment[2].strip())
        elif comment and found:
            found[-1].take(comment[2].strip(), goes_on)
        elif line and not line.startswith(" "):
            begun = None if re.match(r"(?:pub )?(?:use|mod) ", line) else DEFINED.match(line)
            if begun and not (found and is_equation(line, found[-1].name)):
                found.append(Stated(begun[2], " ".join(held)))
            held = []
        goes_on = comment is not None
    return found


def is_equation(line: str, name: str) -> bool:
    """one more line of the definition that was begun"""
    return re.match(rf"{re.escape(name)}(\s|$)(?!\s*:)", line) is not None


def references(file: File) -> dict[str, set[str]]:
    """The definitions of the same file to which each refers."""
    found = {}
    for name, definition in file.definitions.items():
        words = {word.split(".")[0] for word, is_bound in definition.words() if not is_bound}
        words = {file.by_constructor.get(word, word) for word in words}
        found[name] = words & set(file.definitions) - {name}
    return found


class Table:
    """What the comments of a spec file state, in their order.

    A comment is of all definitions from it to the next comment; the head of the file, of those before the first one and
    of the definition that has the name of the file. In a row, what another one of it refers to is a step.
    """

    def __init__(self, crates: Crates, path: Path) -> None:
        self.file, self.stem, self.head = crates.read(path), path.stem, sentence(head_of(path.read_text()))
        self.refers = references(self.file)
        self.rows: list[Row] = []
        self.named = Row(self.head, [self.stem] if self.stem in self.refers else [])
        self.first: list[str] = []
        for item in stated(path):
            self.take(item)
        for name in reversed(self.first):
            self.place_first(name)
        for row, following in zip(self.rows, [*self.rows[1:], Row("")]):
            self.move(row, following)
        for row in self.rows:
            self.part(row)

    def take(self, item: Stated) -> None:
        own = " ".join(filter(None, (sentence(item.comment), sentence("; ".join(item.inner)))))
        if item.name == self.stem:
            self.named.sentence = own if item.comment else f"{self.head} {own}".strip()
            self.rows += [self.named] if self.named not in self.rows else []
        elif own:
            self.rows.append(Row(own, [item.name]))
        elif self.rows:
            self.rows[-1].names.append(item.name)
        elif self.stem in self.refers:
            self.named.names.append(item.name)
            self.rows.append(self.named)
        else:
            self.first.append(item.name)

    def place_first(self, name: str) -> None:
        """One before the first comment, where no definition has the name of the file, is of the first row that wants it."""
        home = next((row for row in self.rows if self.is_wanted(name, row)), None)
        if home is None:
            self.rows.insert(0, Row(self.head, [name]))
        else:
            home.names.append(name)

    def move(self, row: Row, following: Row) -> None:
        """Moves each name that its row has nothing to do with, and that the next row, or that of the file's name, wants.

        What has the type or the name of the first of its row is another of its kind; a comment with `, and` is of several.
        """
        for name in row.names[1:]:
            is_of_row = self.is_wanted(name, row) or any(other in self.refers[name] for other in row.names)
            is_alike = self.type_of(name) == self.type_of(row.names[0]) or name in row.names[0]
            home = next((other for other in (following, self.named) if self.is_wanted(name, other)), row)
            if name != self.stem and not (home is row or is_of_row or is_alike or ", and" in row.sentence):
                row.names.remove(name)
                home.names.append(name)

    def part(self, row: Row) -> None:
        """Parts the names of a row from the steps."""
        within = [name for name in row.names if self.stem in row.names or self.is_wanted(name, row)]
        names = [name for name in row.names if name not in within or name == self.stem] or row.names[:1]
        row.names, row.steps = names, [name for name in row.names if name not in names]

    def is_wanted(self, name: str, row: Row) -> bool:
        """Another one of the row refers to it."""
        return any(name in self.refers[other] for other in row.names if other != name)

    def type_of(self, name: str) -> str:
        return self.file.definitions[name].lines[0].partition(":")[2]


def rows(crates: Crates, path: Path) -> list[Row]:
    return Table(crates, path).rows


def types(crate: Path) -> list[Row]:
    """What the code of a crate says of the types that it declares for others."""
    found = []
    for path in sorted((crate / "src").glob("**/*.rt")):
        told: list[str] = []
        for line in path.read_text().split("\n"):
            if line.startswith("/// ") or line == "///":
                told.append(line[4:].strip())
            elif (declared := DECLARED.match(line)) is not None:
                paragraph = " ".join(told).split("  ")[0]
                found.append(Row(sentence(paragraph), [declared[1]]))
                told = []
            elif not line.startswith("#["):
                told = []
    return found


FUNCTION = re.compile(r"((?:^/// .*\n)+)(?:#\[.*\n)*pub fn (\w+)((?:.*\n)*?)\{\}", re.M)


def functions(crate: Path) -> list[tuple[str, str, str]]:
    """The public functions without code of a crate: the name of each, what is said of it, and its text up to its body."""
    found = []
    for path in sorted((crate / "src").glob("**/*.rt")):
        for told, name, text in FUNCTION.findall(path.read_text()):
            found.append((name, sentence(re.sub(r"^/// ?", "", told, flags=re.M).replace("\n", " ")), text))
    return found
