"""Reads the definitions of the crates' spec files as text. Nothing is proved or run."""
import re
from functools import lru_cache
from pathlib import Path
from typing import Optional, Union

# A definition: the file that has it, and its name.
Place = tuple[Path, str]

NAME = r"[A-Za-z_][\w']*"
DEFINED = re.compile(rf"(?:abbrev |unfoldable )?(?:pub )?(?:abbrev |def )?(record |data )?({NAME}) *(?::|\(|where|$)")
IMPORTED = re.compile(r"(?:pub )?use (Rattle\.[\w.]+?)(?:\.\{(.*)\})?(?: as (\w+))?\s*$")
# a word that is no field of what stands before it, with the names that it is a path of
WORD = re.compile(rf"(?<![\w'.]){NAME}(?:\.{NAME})*")
# a label of a record, as in `record {{ name = value; name = value }}`
LABEL = re.compile(rf"([{{;]\s*){NAME}(?=\s*=\s)")


class Definition:
    """A definition of a file: its lines, and the names that it refers to."""

    def __init__(self, name: str, kind: str) -> None:
        self.name, self.kind = name, kind
        self.lines: list[str] = []

    def constructors(self) -> list[str]:
        return [found[1] for line in self.lines[1:] if (found := re.match(rf"\s+({NAME})\s*:", line))] if self.kind == "data" else []

    def fields(self) -> list[str]:
        return [found[1] for line in self.lines[1:] if (found := re.match(rf"\s+(?:pub )?({NAME})\s*:", line))] if self.kind == "record" else []

    def words(self) -> set[tuple[str, bool]]:
        """The names of its text, but for the variables of each equation, the fields and the labels of records."""
        found: set[tuple[str, bool]] = set()
        bound: set[str] = set()
        for line in self.lines:
            if not line.startswith(" "):
                bound = set()
                equation = re.match(rf"{re.escape(self.name)}\b([^=:]*?)=(?:\s|$)", line)
                if equation:
                    bound = set(re.findall(NAME, equation[1]))
            if self.kind:
                line = re.sub(rf"^(\s+(?:pub )?){NAME}(?=\s*:)", r"\1", line)
            found |= {(word, word in bound) for word in WORD.findall(LABEL.sub(r"\1", line))}
        return found


class File:
    """A spec file: what it imports, by the name that it has there, and its definitions."""

    def __init__(self, path: Path) -> None:
        self.path = path
        self.imports: dict[str, tuple[str, str]] = {}
        self.modules: dict[str, str] = {}
        self.handed: set[str] = set()
        self.definitions: dict[str, Definition] = {}
        current: Optional[Definition] = None
        for line in path.read_text().split("\n"):
            line = re.sub(r'"[^"]*"', '""', re.sub(r"(^|\s)--.*", "", line)).rstrip()
            if not line:
                continue
            if (use := IMPORTED.match(line)):
                self.take_import(line.startswith("pub"), *use.groups())
                continue
            if not line.startswith(" "):
                begun = DEFINED.match(line)
                if begun and not line.startswith(("mod ", "pub mod ", "use ")) and not self.continues(line, current):
                    current = self.definitions.setdefault(begun[2], Definition(begun[2], (begun[1] or "").strip()))
            if current:
                current.lines.append(line)
        self.by_constructor = {name: d.name for d in self.definitions.values() for name in d.constructors()}

    @staticmethod
    def continues(line: str, current: Optional[Definition]) -> bool:
        """an equation of the definition that was begun"""
        return current is not None and re.match(rf"{re.escape(current.name)}(\s|$)(?!\s*:)", line) is not None

    def take_import(self, public: bool, module: str, names: Optional[str], alias: Optional[str]) -> None:
        if alias and not names:
            self.modules[alias] = module
        for item in (names or "").split(","):
            words = item.strip().split(" as ")
            if words[0]:
                self.imports[words[-1].strip()] = (module, words[0].strip())
                if public:
                    self.handed.add(words[-1].strip())


class Crates:
    """The spec files of a folder of crates."""

    def __init__(self, folder: Union[str, Path]) -> None:
        self.folder = Path(folder)

    @lru_cache(None)
    def read(self, path: Path) -> File:
        return File(path)

    def files(self, crate: str = "*") -> list[Path]:
        return [path for path in sorted(self.folder.glob(f"{crate}/specs/**/*.antt")) if path.name != "Lib.antt"]

    def path_of(self, module: str) -> tuple[Optional[Path], list[str]]:
        """The spec file of a module path `Rattle.CRATE.specs.A.B`, where it is one, and what of the path is left."""
        parts = module.split(".")
        for end in range(len(parts), 3, -1):
            path = self.folder / "/".join(parts[1:end])
            if path.with_suffix(".antt").exists():
                return path.with_suffix(".antt"), parts[end:]
        return None, []

    def defined(self, module: str, name: str) -> Optional[Place]:
        """The file and the name of a definition that a module path gives under a name; a constructor gives its type."""
        path, left = self.path_of(module)
        if path is None:
            return None
        if left:
            name = left[0]
        file = self.read(path)
        if name in file.definitions:
            return path, name
        if name in file.by_constructor:
            return path, file.by_constructor[name]
        return self.defined(*file.imports[name]) if name in file.handed else None

    def declared(self, module: str, name: str) -> Optional[str]:
        """The type or the constant of the code, as CRATE/MODULE.NAME, that a path into `specs.declared` gives; a variant gives its type."""
        crate, _, place = module.removeprefix("Rattle.").partition(".specs.declared.")
        if not place or not (self.folder / crate).is_dir():
            return None
        return f"{crate}/{place}.{name}" if place.endswith("TheConstants") else f"{crate}/{place.removesuffix('.TheVariants')}"

    def declared_of(self, path: Path, name: str) -> set[str]:
        """The types and constants of the code to which a definition refers."""
        file = self.read(path)
        found: set[Optional[str]] = set()
        for word, is_bound in file.definitions[name].words():
            first, *rest = word.split(".")
            if first in file.modules and rest:
                found.add(self.declared(file.modules[first], rest[0]))
            elif first in file.imports and not is_bound:
                found.add(self.declared(*file.imports[first]))
        return {one for one in found if one is not None}

    @lru_cache(None)
    def rests_on(self, path: Path, name: str) -> list[Place]:
        """The definitions to which a definition refers."""
        file = self.read(path)
        found: set[Optional[Place]] = set()
        for word, is_bound in file.definitions[name].words():
            first, *rest = word.split(".")
            if first in file.by_constructor:
                found.add((path, file.by_constructor[first]))
            elif first in file.modules and rest:
                found.add(self.defined(file.modules[first], rest[0]))
            elif first in file.imports and not (is_bound and self.is_plain(*file.imports[first])):
                found.add(self.defined(*file.imports[first]))
            elif first in file.definitions and not is_bound:
                found.add((path, first))
        return sorted(place for place in found if place is not None and place != (path, name))

    def is_plain(self, module: str, name: str) -> bool:
        """no constructor, so that a variable of its name hides it"""
        path, _ = self.path_of(module)
        return path is not None and name not in self.read(path).by_constructor
