"""Lists the files that name a choice, an act or a setting, which are those where one more of its kind has a place.

usage: named KIND WORD      KIND is choice, act or setting; WORD as the code has it: Abend, LogLook, Adi

Listed are specs, code, proofs and tools, but for tests, must-fail edits, worked runs, broken traces, and what is made.
"""

import argparse
import re
import sys
from functools import lru_cache
from pathlib import Path

TOP = Path(__file__).resolve().parents[3]
FOLDERS = ("crates/*/specs", "crates/*/src", "crates/*/proofs", "tools", "bench")
LEFT_OUT = re.compile(
    r"^crates/xrf_(examples|long_runs|broken)/|/(tests|\w+_tests|harness|line_rows)\.rt$|/src/tests/|"
    r"/__pycache__/|/\.|^tools/xrf_tools/dev/(definitions\.md|named\.py)$"
)
# Where the history of a job has the event of an act, or of a choice that reaches it.
EVENTS = "crates/xrf_trace/specs/Jobs.antt"
# Where the word of a choice in a text means the choice, and where one of its name is declared.
SPELLED = re.compile(r"^crates/xrf_grammar/|^tools/")
DECLARED = re.compile(r"^crates/xrf_(setup|grammar|history|trace)/src/")


def snake(word: str) -> str:
    return re.sub(r"(?<=[a-z0-9])(?=[A-Z])", "_", word).lower()


@lru_cache(None)
def event_of(word: str, top: Path) -> list[str]:
    return re.findall(rf"^handed s t x at h \(?act\.{word}\b.*? = ([A-Z]\w+)", (top / EVENTS).read_text(), re.M)


def parts(kind: str, word: str, name: str, top: Path) -> list[str]:
    """What a file of this name has that names it: it is declared or used there, or its event is, its word, or its name."""
    if kind == "setting":
        return [word, snake(word), rf"{word.upper()}(?:_LEAST|_MOST|_MULTIPLE)?"]
    if kind == "act":
        return [word, word.upper(), snake(word), *event_of(word, top)]
    owners = r"(?:Choice|ChoiceForm|Keyword|Act|Answer)::", r"(?:choice|form|by|key|act|answer)\."
    spelled = [word.upper()] if SPELLED.match(name) else []
    declared = [f"(?<=\n    ){word}"] if DECLARED.match(name) else []
    used = [f"{owner}{word}" for owner in owners]
    return [*used, *declared, f"(?:may_)?{snake(word)}", *spelled, *event_of(word, top)]


def files(top: Path = TOP) -> list[str]:
    """All files that may be listed."""
    paths = (path for folder in FOLDERS for start in top.glob(folder) for path in start.rglob("*") if path.is_file())
    names = sorted(str(path.relative_to(top)) for path in paths)
    return [name for name in names if not LEFT_OUT.search(name)]


def named(kind: str, word: str, top: Path = TOP) -> list[str]:
    return [name for name in files(top) if names_it(kind, word, name, top)]


def names_it(kind: str, word: str, name: str, top: Path) -> bool:
    found = "|".join(parts(kind, word, name, top))
    return re.search(rf"(?<!\w)(?:{found})(?!\w)", (top / name).read_text(errors="replace")) is not None


def main() -> int:
    parser = argparse.ArgumentParser(description=__doc__, formatter_class=argparse.RawDescriptionHelpFormatter)
    parser.add_argument("kind", choices=("choice", "act", "setting"))
    parser.add_argument("word", metavar="WORD")
    args = parser.parse_args()
    found = named(args.kind, args.word)
    print("\n".join(found) or f"no file names the {args.kind} {args.word}")
    return int(not found)


if __name__ == "__main__":
    sys.exit(main())
