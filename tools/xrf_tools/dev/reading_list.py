"""Prints the definitions of specs/ on which a definition rests, lowest first, each with its file and its number of lines.

usage: reading_list NAME [--crates DIR] [--count]

NAME is a definition of a spec file, or CRATE/FILE.NAME where it is not the only one of its name, as in
xrf_trace/Safe.Safe. The list ends with that definition itself. In front of it stand the types and constants that the code
declares and that it names; the library's words are not listed. The last line is `N names, L lines`, where the names are
those of the definitions and of these types and constants; with --count it stands alone.
"""

import argparse
import sys
from pathlib import Path

from xrf_tools.dev.specs import Crates, Place


def find(crates: Crates, wanted: str) -> Place:
    """The file and the name of the definition that is asked for."""
    place, _, name = wanted.rpartition(".")
    found = [
        path
        for path in crates.files()
        if name in crates.read(path).definitions and (not place or str(path.with_suffix("")).endswith("/" + place.replace("/", "/specs/", 1)))
    ]
    if not found:
        sys.exit(f"{wanted}: no spec file defines it")
    if len(found) > 1:
        places = (f"{path.relative_to(crates.folder).parts[0]}/{path.stem}.{name}" for path in found)
        sys.exit(f"{wanted}: is defined more than once: {', '.join(places)}")
    return found[0], name


def ordered(crates: Crates, last: Place) -> list[Place]:
    """A definition and all on which it rests, each behind those on which it rests itself."""
    order: list[Place] = []
    seen, open_ = {last}, [(last, iter(crates.rests_on(*last)))]
    while open_:
        item, below = open_[-1]
        following = next((other for other in below if other not in seen), None)
        if following is None:
            order.append(item)
            open_.pop()
        else:
            seen.add(following)
            open_.append((following, iter(crates.rests_on(*following))))
    return order


def declared_by(crates: Crates, order: list[Place]) -> list[str]:
    """The types and constants of the code that these definitions name."""
    found: set[str] = set()
    for place in order:
        found |= crates.declared_of(*place)
    return sorted(found)


def main() -> None:
    parser = argparse.ArgumentParser(description=__doc__, formatter_class=argparse.RawDescriptionHelpFormatter)
    parser.add_argument("name", metavar="NAME")
    parser.add_argument("--crates", type=Path, default=Path(__file__).resolve().parents[3] / "crates", help="the folder of the crates")
    parser.add_argument("--count", action="store_true", help="the last line alone")
    args = parser.parse_args()
    if not args.crates.is_dir():
        sys.exit(f"{args.crates}: no such folder")
    crates, total = Crates(args.crates), 0
    order = ordered(crates, find(crates, args.name))
    declared = declared_by(crates, order)
    if not args.count:
        for name in declared:
            print(f"     {name.partition('/')[0]}/src  {name.replace('/', '.').rpartition('.')[2]}")
    for path, name in order:
        lines = len(crates.read(path).definitions[name].lines)
        total += lines
        if not args.count:
            print(f"{lines:4} {path.relative_to(crates.folder)}  {name}")
    print(f"{len(order) + len(declared)} names, {total} lines")


if __name__ == "__main__":
    main()
