"""The smallest scenario that still shows something: it does, no line of it can be left out, and what may not be asked is said."""

import tempfile
import unittest
from pathlib import Path

import cuts
import runs
from test_draw import call
from xrf_tools.errors import Fault
from xrf_tools.refused import read_refusal
from xrf_tools.shrinking import counted, singly, wanted, without_refused
from xrf_tools.source import replay

SHOWN = (
    ("takeover_after_an_abend", "DECIDE START ABEND"),
    ("committed_unit", "LOGOPEN 1 COMMIT 1.1"),
    ("committed_unit", "RESTARTED"),
    ("the_paused_active", "DECIDE THROUGH"),
)


class Lines(unittest.TestCase):
    def test_choices_are_counted_as_they_were(self) -> None:
        lines = ["XRF 1", "STEP A", "STEP A", "STEP B", "TICK", "TICK", "TICK", "ABEND A", "ABEND A"]
        made = counted(lines)
        self.assertEqual(made, ["XRF 1", "STEP A 2", "STEP B", "TICK 3", "ABEND A", "ABEND A"])
        self.assertEqual([one for line in made for one in singly(line)], lines)
        self.assertEqual(singly("WORK A PUT U 1 2"), ["WORK A PUT U 1 2"])

    def test_the_choice_that_is_refused_goes_with_those_like_it(self) -> None:
        lines = ["XRF 1", "CHOICES", "STEP A", "STEP A", "TICK", "STEP A", "END"]
        self.assertEqual(without_refused(lines, "XRF REFUSED LINE 3 NOT-ENABLED\n"), ["XRF 1", "CHOICES", "TICK", "STEP A", "END"])
        for answer in ("XRF REFUSED LINE 1 BAD-FORMAT\n", "XRF REFUSED LINE 2 TWICE\n", "XRF 1\n"):
            self.assertEqual(without_refused(lines, answer), lines)

    def test_what_does_not_stand_there_can_not_stay(self) -> None:
        for keep in (None, "", "HELLO"):
            with self.assertRaises(Fault):
                wanted("XRF 1\n", keep, "x")


@unittest.skipUnless(cuts.is_current(), "the program is not built, so no scenario was shrunk")
class Shrunk(unittest.TestCase):
    def shrunk(self, path: Path, *words: str) -> str:
        status, text, said = call("shrink", str(path), *words)
        self.assertEqual((status, said), (0, ""))
        return text

    def test_what_is_kept_stands_there_and_each_line_is_wanted(self) -> None:
        for name, keep in SHOWN:
            with self.subTest(name, keep=keep):
                text = self.shrunk(runs.path(name), "--keep", keep)
                self.assertIn(keep, replay(text).text)
                lines = [one for line in text.splitlines() for one in singly(line)]
                self.assertLess(len(lines), len(runs.path(name).read_text().splitlines()))
                for place in range(len(lines)):
                    without = "\n".join([*lines[:place], *lines[place + 1 :], ""])
                    self.assertNotIn(keep, replay(without).text)

    def test_a_refused_text_stays_refused_for_its_reason(self) -> None:
        for path in sorted((runs.ROOT / "tests/rows").glob("*.status")):
            stored = path.with_suffix(".in")
            if path.read_text().strip() != "8" or not stored.exists() or path.with_suffix(".args").exists() or stored.stat().st_size > 1_000:
                continue
            text = stored.read_text("latin-1")
            with self.subTest(path.stem):
                smaller = self.shrunk(stored)
                reasons = {read_refusal(replay(given).text, "").reason for given in (text, smaller)}
                self.assertEqual(len(reasons), 1)
                self.assertLessEqual(len(smaller), len(text) + 1)

    def test_a_run_without_a_text_to_keep_is_told(self) -> None:
        status, text, said = call("shrink", str(runs.path("committed_unit")))
        self.assertEqual((status, text), (1, ""))
        self.assertIn("--keep", said)

    def test_a_document_is_shrunk_as_its_scenario(self) -> None:
        with tempfile.TemporaryDirectory() as room:
            path = Path(room) / "one"
            path.write_text(runs.path("committed_unit").read_text())
            self.assertNotIn("*", self.shrunk(path, "--keep", "RESTARTED"))


if __name__ == "__main__":
    unittest.main()
