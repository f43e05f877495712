"""The examples: the page that lists them, and what the comments of each say is in its output."""

import re
import unittest

import runs

FOLDER = runs.ROOT / "examples"
PAGE = (FOLDER / "README.md").read_text()


def quoted(text: str) -> list[str]:
    """What the comment lines of a scenario say is in its report: a quote behind three blanks."""
    return re.findall(r"^#   `([^`]+)`", text, re.M)


class Examples(unittest.TestCase):
    def test_each_stands_once_on_the_page_and_has_its_output(self) -> None:
        names = {path.stem for path in FOLDER.glob("*.in")}
        replayed = {name for name in names if not (FOLDER / f"{name}.args").exists()}
        listed = re.findall(r"^\| `(\w+)` \|", PAGE, re.M)
        self.assertEqual(len(listed), len(set(listed)))
        self.assertLessEqual(replayed, set(listed))
        self.assertLessEqual(set(listed), names)
        self.assertEqual({path.stem for path in FOLDER.glob("*.out")}, names)

    def test_what_comments_quote_stands_in_the_report(self) -> None:
        found = 0
        for path in sorted(FOLDER.glob("*.in")):
            report = path.with_suffix(".out").read_text().split("\nEND\n")[-1]
            for quote in quoted(path.read_text()):
                found += 1
                self.assertIn(quote, report, path.name)
        self.assertGreater(found, 80)

    def test_those_of_the_pair_tell_a_story_first(self) -> None:
        told = [path.stem for path in sorted(FOLDER.glob("*.in")) if re.search(r"^# Look for:", path.read_text(), re.M)]
        self.assertGreaterEqual(len(told), 14)
        for name in told:
            text = (FOLDER / f"{name}.in").read_text()
            self.assertRegex(text, r"\A# [A-Z].*\n(# .*\n)*# Look for")


if __name__ == "__main__":
    unittest.main()
