"""The recipes of docs/CONTRIBUTING.md name each file that has a place for a change of their kind, and no other."""

import re
import unittest

import runs
from xrf_tools.dev.named import named

PAGE = (runs.ROOT / "docs/CONTRIBUTING.md").read_text()
# The recipes, each with what is there already of its kind.
RECIPES = {
    "A setting that is one number": [("setting", "Adi")],
    "A choice": [("choice", "Abend")],
    "An act": [("act", "LogLook"), ("act", "KpClose")],
}
# A file that has the word for something else.
OTHERS = {"tools/xrf_tools/layouts.py"}


def section(title: str) -> str:
    return re.split(r"^## ", PAGE.split(f"\n## {title}\n")[1], flags=re.M)[0]


def recipe(title: str) -> tuple[set[str], set[str]]:
    """The files of a recipe, and the crates whose proofs follow."""
    text, files = section(title), set()
    for crate, specs, code in re.findall(r"^\| `(\w+)` \| ([^|]*) ?\| ([^|]*) ?\| [^|]* \|$", text, re.M):
        files |= {f"crates/{crate}/specs/{name}.antt" for name in re.findall(r"`(\w+)`", specs)}
        files |= {f"crates/{crate}/src/{name}.rt" for name in re.findall(r"`(\w+)`", code)}
    lines = dict(re.findall(r"^- (Tools|Proofs): (.*)$", text, re.M))
    tools = set(re.findall(r"`((?:tools|bench)/[^` ]+)`", lines["Tools"]))
    return files | tools, set(re.findall(r"`(xrf_\w+)`", lines["Proofs"]))


class Recipes(unittest.TestCase):
    def test_each_file_that_names_one_is_in_the_recipe_of_its_kind(self) -> None:
        for title, known in RECIPES.items():
            files, crates = recipe(title)
            for kind, word in known:
                for name in named(kind, word):
                    proof = re.match(r"crates/(\w+)/proofs/", name)
                    is_told = proof[1] in crates if proof else name in files | OTHERS
                    self.assertTrue(is_told, f"{title}: {name} names {word} and is left out")

    def test_no_recipe_names_a_file_that_needs_nothing(self) -> None:
        for title, known in RECIPES.items():
            files, crates = recipe(title)
            found = {name for kind, word in known for name in named(kind, word)}
            self.assertEqual(files - found, set(), title)
            for crate in crates:
                self.assertTrue(any(name.startswith(f"crates/{crate}/proofs/") for name in found), f"{title}: {crate}")

    def test_the_files_of_the_other_sections_are_there(self) -> None:
        for title in ("A default", "A setting of another shape"):
            names = re.findall(r"`((?:[\w/]+/)?\w+\.(?:rt|antt))`", section(title))
            for name in names:
                self.assertTrue(any(list(runs.ROOT.glob(start + name)) for start in ("crates/", "crates/*/")), name)

    def test_the_proofs_of_the_laws_that_are_pointed_to_are_there(self) -> None:
        rows = re.findall(r"^\| ([^|]+) \| ([^|]+) \| [^|]+ \|$", section("A law that broke"), re.M)[1:]
        self.assertGreater(len(rows), 9)
        for what, files in rows:
            for name in re.findall(r"`([A-Z]\w+)`", files):
                found = list(runs.ROOT.glob(f"crates/xrf_*/proofs/{name}.antt"))
                self.assertTrue(found, f"{what}: {name}")


if __name__ == "__main__":
    unittest.main()
