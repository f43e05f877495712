"""Each link of each page leads to a file and to a heading that are there, and README leads to each page."""

import re
import unittest
from pathlib import Path

import runs

PAGES = ("*.md", "docs/*.md", "examples/*.md", "tools/editors/*.md", ".github/**/*.md")


def pages() -> list[Path]:
    return sorted(path for pattern in PAGES for path in runs.ROOT.glob(pattern))


def text_of(page: Path) -> str:
    """A page without what it shows of a terminal."""
    return "\n".join(line for line in page.read_text().split("\n") if not line.startswith("    "))


def links(page: Path) -> list[str]:
    return [link for link in re.findall(r"\]\(([^)\s]+)\)", text_of(page)) if not re.match(r"https?://", link)]


def anchors(page: Path) -> set[str]:
    """The headings of a page, as a link names them: small letters, blanks as `-`, and no other signs."""
    found: set[str] = set()
    for heading in re.findall(r"^#+ (.*)$", text_of(page), re.M):
        plain = re.sub(r"\[([^]]*)\]\([^)]*\)", r"\1", heading)
        anchor = re.sub(r"[^\w -]", "", plain.lower()).strip().replace(" ", "-")
        found.add(anchor if anchor not in found else f"{anchor}-1")
    return found


class Links(unittest.TestCase):
    def test_each_link_leads_to_a_file_and_a_heading(self) -> None:
        self.assertGreater(sum(len(links(page)) for page in pages()), 150)
        for page in pages():
            for link in links(page):
                name, _, anchor = link.partition("#")
                target = (page.parent / name).resolve() if name else page
                where = f"{page.relative_to(runs.ROOT)}: {link}"
                self.assertTrue(target.exists(), where)
                if anchor:
                    self.assertIn(anchor, anchors(target), where)

    def test_readme_leads_to_each_page(self) -> None:
        found, left = set(), [runs.ROOT / "README.md"]
        while left:
            page = left.pop()
            if page not in found and page.suffix == ".md":
                found.add(page)
                left += [(page.parent / link.partition("#")[0]).resolve() for link in links(page) if not link.startswith("#")]
        wanted = {page.resolve() for page in pages() if ".github" not in page.parts}
        self.assertEqual(wanted - found, set())
        direct = {Path(link.partition("#")[0]).name for link in links(runs.ROOT / "README.md")}
        of_docs = {page.name for page in (runs.ROOT / "docs").glob("*.md")}
        self.assertEqual(of_docs - direct, set(), "README links to each page of docs")

    def test_a_page_that_is_named_is_linked_to(self) -> None:
        for page in pages():
            if page.name != "DEFINITIONS.md":
                named = re.findall(r"(?<!\[)`((?:docs/)?[A-Z]+\.md)`", text_of(page))
                self.assertEqual([name for name in named if not page.match(name)], [], page.name)

    def test_readme_is_short(self) -> None:
        self.assertLessEqual((runs.ROOT / "README.md").read_text().count("\n"), 100)


class Claims(unittest.TestCase):
    """What PROVED and GLOSSARY list of the crates is what the crates have."""

    def test_the_blocks_that_fix_what_contracts_speak_of_are_named(self) -> None:
        text = (runs.ROOT / "docs/PROVED.md").read_text()
        sentence = re.search(r"There are (\d+) of these blocks: (.*?)\. \[DEFINITIONS", text)
        assert sentence is not None
        named = re.findall(r"`([A-Z]\w+)`", sentence[2])
        sources = [path.read_text() for path in runs.ROOT.glob("crates/*/src/**/*.rt")]
        blocks = [name for source in sources for name in re.findall(r"^impl.*? Model for (\w+)", source, re.M)]
        self.assertEqual((sorted(named), int(sentence[1])), (sorted(blocks), len(blocks)))

    def test_the_version_is_one_everywhere(self) -> None:
        version = re.search(r"^version=(\S+)$", (runs.ROOT / "xrf").read_text(), re.M)
        assert version is not None
        places = {
            "CITATION.cff": r"^version: (\S+)$", "CHANGELOG.md": r"^## (\d\S*)", "tools/man/xrf.1": r'^\.TH XRF 1 "" "xrf (\S+)"',
            "tools/editors/vscode/package.json": r'"version": "(\S+)"',
        }
        for name, pattern in places.items():
            found = re.search(pattern, (runs.ROOT / name).read_text(), re.M)
            self.assertEqual(found and found[1], version[1], name)

    def test_each_change_has_its_day(self) -> None:
        days = re.findall(r"^### (\d{4}-\d\d-\d\d)$", (runs.ROOT / "CHANGELOG.md").read_text(), re.M)
        self.assertTrue(days)
        self.assertEqual(days, sorted(days, reverse=True))

    def test_the_glossary_says_of_each_word_of_the_field_whose_it_is(self) -> None:
        part = (runs.ROOT / "docs/GLOSSARY.md").read_text().split("## Of the field")[1].split("\n## ")[0]
        rows = re.findall(r"^\| ([^|]+) \| (\w+) \|", part, re.M)[1:]
        self.assertGreater(len(rows), 30)
        for word, whose in rows:
            self.assertIn(whose, ("IBM", "own"), word)


if __name__ == "__main__":
    unittest.main()
