"""Where two runs part: the first act, the scenarios, and the ends; a run and itself differ in nothing."""

import unittest

import cuts
import runs
from test_draw import call
from xrf_tools.comparing import compared
from xrf_tools.document import read

NAME = "takeover_after_an_abend"
TEXT = runs.path(NAME).read_text()


def parts(lines: list[str]) -> dict[str, list[str]]:
    """The lines under each heading, by its first words."""
    found: dict[str, list[str]] = {}
    for line in lines[2:]:
        if line.startswith("@@ "):
            key = line[3:].partition(",")[0]
            found[key] = []
        else:
            found[key].append(line)
    return found


class Compared(unittest.TestCase):
    def test_a_run_and_itself_differ_in_nothing(self) -> None:
        for name in runs.names():
            self.assertEqual(compared(runs.document(name), runs.document(name)), [], name)

    def test_any_two_runs_part_at_the_first_line_that_differs(self) -> None:
        one = runs.document(NAME)
        for name in runs.names():
            other = runs.document(name)
            lines = compared(one, other)
            ours, theirs = ([entry.line for entry in document.entries] for document in (one, other))
            first = next((line for line in lines if line.startswith("@@ act ")), None)
            if ours == theirs:
                self.assertIsNone(first, name)
                continue
            assert first is not None
            place = int(first.split(" ")[2].rstrip(","))
            self.assertEqual(ours[: place - 1], theirs[: place - 1], name)
            self.assertNotEqual(ours[place - 1 : place], theirs[place - 1 : place], name)

    def test_the_act_at_which_they_part_is_told_with_what_stood_before_it(self) -> None:
        other = TEXT.replace("2 B 2 DECIDE START ABEND", "2 B 2 DECIDE NOTHING")
        lines = compared(read("one", TEXT), read("other", other))
        self.assertEqual(lines[:2], ["--- one", "+++ other"])
        self.assertEqual(len([line for line in lines if line.startswith("@@")]), 1)
        self.assertRegex(lines[2], r"^@@ act 81, at tick 2; no region is at A and B is tracking \(incarnation 2\); the control record is ")
        self.assertEqual(lines[3], "- ACT 81 2 B 2 DECIDE START ABEND")
        self.assertEqual(lines[5], "+ ACT 81 2 B 2 DECIDE NOTHING")

    def test_how_both_end_is_told_by_its_name(self) -> None:
        other = TEXT.replace("* FILE 1 150", "* FILE 1 900").replace("* JOB A NONE", "* JOB A 1 ACTIVE").replace("* ITEM A 1 DONE", "* ITEM A 1 BADTERM")
        ends = parts(compared(read("one", TEXT), read("other", other)))["the ends"]
        for line in ("- FILE 1 150", "+ FILE 1 900", "- JOB A NONE", "+ JOB A 1 ACTIVE", "- ITEM A 1 DONE", "+ ITEM A 1 BADTERM"):
            self.assertIn(line, ends)
        self.assertTrue(any(line.startswith("  CONTROL ") for line in ends))
        self.assertFalse(any(line[2:].startswith("TERM") for line in ends))

    def test_what_the_scenarios_say_otherwise_is_told_line_by_line(self) -> None:
        line = next(line for line in TEXT.split("\n") if line.startswith("ADI "))
        found = parts(compared(read("one", TEXT), read("other", TEXT.replace(f"\n{line}\n", "\nADI 99\n", 1))))
        self.assertEqual(found, {"the scenarios": [f"- {line}", "+ ADI 99"]})

    @unittest.skipUnless(cuts.is_current(), "the program is not built, so no scenario was replayed")
    def test_the_status_says_whether_they_differ(self) -> None:
        path, other = str(runs.path(NAME)), str(runs.path("committed_unit"))
        self.assertEqual(call("diff", path, path), (0, "", ""))
        self.assertEqual(call("diff", path, path.replace(".out", ".in")), (0, "", ""))
        self.assertEqual(call("diff", path, other)[0], 1)
        self.assertEqual(call("diff", "-", "-")[0], 1)


if __name__ == "__main__":
    unittest.main()
