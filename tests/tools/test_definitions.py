"""docs/DEFINITIONS.md is what the comments of the spec files state, by rules that a small crate shows."""

import re
import tempfile
import unittest
from pathlib import Path

import runs
from xrf_tools.dev.comments import Row, rows, sentence, types
from xrf_tools.dev.definitions import FRAME, PAGE, Fault, Page, difference
from xrf_tools.dev.specs import Crates

KEEPS = """-- Keeps: what is told twice
-- is true.
use Rattle.std.specs.Prelude.{List}

-- a number is small
abbrev pub is_small : ℕ → Bool
is_small 0 = true
is_small n = is_tiny n

abbrev pub is_tiny : ℕ → Bool
is_tiny n = false

-- what is told
pub data Told : Type 0 where
  -- of a look, which is one
  -- of two
  OfLook : Told
  -- else
  OfElse : Told

pub record Keeps (t : List Told) : Type 0 where
  pub small : is_small t
"""


class Rows(unittest.TestCase):
    def setUp(self) -> None:
        room = tempfile.TemporaryDirectory()
        self.addCleanup(room.cleanup)
        self.crates = Crates(Path(room.name) / "crates")
        specs = self.crates.folder / "small" / "specs"
        specs.mkdir(parents=True)
        (specs / "Keeps.antt").write_text(KEEPS)
        (specs / "Lib.antt").write_text("pub mod Keeps\n")
        (self.crates.folder / "small" / "src").mkdir()
        source = "/// A thing.\n///\n/// More of it.\n#[derive(Clone)]\npub struct Thing;\n"
        (self.crates.folder / "small" / "src" / "lib.rt").write_text(source)

    def page(self, frame: str) -> str:
        return Page(frame, self.crates, self.crates.folder.parent / "docs").text()

    def test_a_comment_is_of_what_follows_and_the_head_of_the_name_of_the_file(self) -> None:
        self.assertEqual(rows(self.crates, self.crates.folder / "small/specs/Keeps.antt"), [
            Row("A number is small.", ["is_small"], ["is_tiny"]),
            Row("What is told. Of a look, which is one of two; else.", ["Told"], []),
            Row("Keeps: what is told twice is true.", ["Keeps"], []),
        ])

    def test_a_type_is_told_by_the_first_paragraph_that_stands_before_it(self) -> None:
        self.assertEqual(types(self.crates.folder / "small"), [Row("A thing.", ["Thing"])])

    def test_a_comment_is_made_a_sentence(self) -> None:
        self.assertEqual(sentence("an act, made"), "An act, made.")
        self.assertEqual(sentence("is_small n: what follows:"), "is_small n: what follows.")

    def test_a_row_of_the_frame_stands_in_and_one_of_no_definition_is_refused(self) -> None:
        self.assertIn("| `is_small` | Few. | `is_tiny` |", self.page("%crate small\n%row small/Keeps.is_small Few."))
        with self.assertRaisesRegex(Fault, "small/Keeps.gone"):
            self.page("%crate small\n%row small/Keeps.gone Few.")

    def test_a_crate_that_no_line_names_is_among_the_rest(self) -> None:
        self.assertIn("### `small`\n\n| Type |", self.page("%rest"))
        self.assertNotIn("small", self.page("%leave small\n%rest"))

    def test_the_fields_of_a_record_are_counted_with_what_they_rest_on(self) -> None:
        self.assertIn("| `is_small` | 2 |\n| `Keeps` | 4 |", self.page("%fields Keeps"))


class Current(unittest.TestCase):
    def test_the_page_is_what_the_comments_state(self) -> None:
        made = Page(FRAME.read_text(), Crates(runs.ROOT / "crates"), PAGE.parent).text()
        self.assertEqual(PAGE.read_text(), made, "tools/definitions writes it anew")

    def test_a_difference_is_shown_at_its_line(self) -> None:
        self.assertIn("from line 2 on", difference("a\nb\n", "a\nc\n"))

    def test_every_definition_is_on_the_page_but_those_of_runs_and_broken_traces(self) -> None:
        crates, listed = Crates(runs.ROOT / "crates"), set(re.findall(r"`([^`]*)`", PAGE.read_text()))
        for path in crates.files():
            if path.relative_to(crates.folder).parts[0] not in ("xrf_examples", "xrf_long_runs", "xrf_broken"):
                self.assertEqual(set(crates.read(path).definitions) - listed, set(), path)


if __name__ == "__main__":
    unittest.main()
