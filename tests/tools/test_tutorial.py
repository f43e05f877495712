"""docs/TUTORIAL.md: each of its scenarios is stored with its output, and what it shows of a session is what comes out."""

import os
import re
import subprocess
import tempfile
import unittest
from pathlib import Path

import runs
from test_docs import is_current
from test_draw import call

PAGE = (runs.ROOT / "docs" / "TUTORIAL.md").read_text()
FOLDER = runs.ROOT / "examples" / "tutorial"
# What an empty file comes to.
NO_BYTE = runs.ROOT / "tests" / "rows" / "no_byte.out"


def blocks(text: str) -> list[str]:
    """The indented blocks of a part of the page, without their indent."""
    return ["".join(line[4:] for line in found.splitlines(True)) for found in re.findall(r"(?:^    .*\n)+", text, re.M)]


def steps() -> list[tuple[int, str]]:
    """The number and the text of each step."""
    return [(int(number), text) for number, text in re.findall(r"^## (\d+)\. (.*?)(?=^## )", PAGE, re.M | re.S)]


def session(block: str) -> list[tuple[str, str]]:
    """The commands of a block, each with what is shown of its output."""
    return [tuple(part.split("\n", 1)) for part in re.split(r"^\$ ", block, flags=re.M)[1:]]


def pattern(shown: str) -> str:
    """A pattern of an output of which only the shown lines are given: a line of two dots stands for any lines."""
    text = re.escape(shown).replace(re.escape("..\n"), r"(?:.*\n)*?")
    return rf"\A{text}\Z"


class Tutorial(unittest.TestCase):
    def each_shown(self):
        """Each command with the scenario that is in the file then, its step (0 for the empty file), and what is shown."""
        given, number = "", 0
        for step, text in steps():
            for block in blocks(text):
                if not block.startswith("$ "):
                    given, number = block, step
                for command, shown in session(block):
                    yield command, given, number, shown

    def test_there_are_ten_steps_each_with_its_scenario_and_its_picture(self) -> None:
        self.assertEqual([number for number, _ in steps()], list(range(1, 11)))
        for number, text in steps():
            self.assertIn(f"](pictures/tutorial_{number:02}.svg)", text)
            scenarios = [block for block in blocks(text) if not block.startswith("$ ")]
            self.assertEqual(scenarios, [(FOLDER / f"step_{number:02}.in").read_text()])

    def test_what_is_shown_of_each_output_is_there(self) -> None:
        seen = 0
        for command, _, number, shown in self.each_shown():
            stored = FOLDER / f"step_{number:02}.out" if number else NO_BYTE
            if command == "./xrf replay pair.in":
                out = stored.read_text()
            elif command == "./xrf explain pair.in":
                out = call("explain", str(stored))[1]
            else:
                self.assertEqual((command, shown), ("touch pair.in", ""))
                continue
            seen += 1
            self.assertRegex(out, pattern(shown), f"step {number}: {command}")
        self.assertGreaterEqual(seen, 12)

    @unittest.skipUnless(is_current(), "the program is not built, so the tutorial was not run from top to bottom")
    def test_it_runs_from_top_to_bottom(self) -> None:
        with tempfile.TemporaryDirectory() as room:
            os.symlink(runs.ROOT / "xrf", Path(room) / "xrf")
            for command, given, _, shown in self.each_shown():
                (Path(room) / "pair.in").write_text(given)
                done = subprocess.run(["bash", "-c", command], cwd=room, capture_output=True, text=True, timeout=120, check=False)
                self.assertRegex(done.stdout, pattern(shown), command)

    @unittest.skipUnless(is_current(), "the program is not built, so the tutorial was not run from top to bottom")
    def test_where_to_go_from_there(self) -> None:
        text = (FOLDER / "step_10.in").read_text()
        back = "START A STANDBY\nSTEP A 10\nTICK\nSTEP B 17\nSTEP A 9\nEND\n"
        out = self.replay(text.replace("END\n", back))
        for line in ("CONTROL 3 OWNER 2.B.RUNNING ALT 3.A TAKING NONE", "TERM A T1 1 TRACKED", "TERM A T2 2 TRACKED"):
            self.assertIn(f"\n* {line}\n", out)
        self.assertIn(" DISHONEST\n", self.replay(text.replace("STOP A NONE\n", "")))

    def replay(self, text: str) -> str:
        words = [str(runs.ROOT / "xrf"), "replay"]
        return subprocess.run(words, input=text, capture_output=True, text=True, timeout=120, check=False).stdout


if __name__ == "__main__":
    unittest.main()
