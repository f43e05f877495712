"""The checker of folders, over a stand-in of the program."""

import gzip
import os
import re
import signal
import subprocess
import sys
import tempfile
import time
import unittest
from pathlib import Path
from xml.etree import ElementTree

from test_draw import call

# Writes its input back; 'refuse' is refused, 'turn' is a document that replays to another one, 'sleep' takes too long, and
# 'leave' begins another process too.
# `run` writes a document with the acts of both sites.
PROGRAM = """#!/usr/bin/env bash
if [ "$*" = run ]; then
  printf '%s\\n' 'XRF 1' CHOICES 'STEP A' 'STEP B' 'EXIT A ABEND' END '* ACT 1 0 A 1 LOOK1' '* ACT 2 0 B 2 LOOK1' '* DONE'
  exit
fi
[ "$*" = replay ] || { echo "words $*"; exit 12; }
text=$(cat; echo x)
case $text in
  refuse*) echo "XRF REFUSED LINE 1 NO-HEADER"; exit 8 ;;
  turned*) echo other ;;
  turn*) echo turned ;;
  sleep*) sleep 5 ;;
  leave*) sleep 4.25 & sleep 4.25 ;;
  *) printf '%s' "${text%x}" ;;
esac
"""


def counts(out: str) -> str:
    """The line that counts."""
    return next(line for line in out.splitlines() if re.match(r"\d+ passed", line))


class Check(unittest.TestCase):
    def setUp(self) -> None:
        room = tempfile.TemporaryDirectory()
        self.addCleanup(room.cleanup)
        self.room = Path(room.name)
        self.program = self.room / "program"
        self.program.write_text(PROGRAM)
        self.program.chmod(0o755)
        self.folder = self.room / "rows"
        self.folder.mkdir()

    def lay(self, name: str, given: str, out: str | None = None, **more: str) -> None:
        (self.folder / f"{name}.in").write_text(given)
        if out is not None:
            (self.folder / f"{name}.out").write_text(out)
        for ending, text in more.items():
            (self.folder / f"{name}.{ending}").write_text(text)

    def check(self, *words: str) -> tuple[int, str, str]:
        return call("check", "--program", str(self.program), *words, str(self.folder))

    def line(self, out: str, name: str) -> str:
        return next(line for line in out.splitlines() if f"/{name} " in line)

    def test_outputs_and_statuses_are_compared(self) -> None:
        self.lay("same", "a\nb\n", "a\nb\n")
        self.lay("refused", "refuse", "XRF REFUSED LINE 1 NO-HEADER\n", status="8\n")
        self.lay("words", "", "words drive 1\n", status="12\n", args="drive\n1\n")
        status, out, err = self.check()
        self.assertEqual((status, err), (0, ""))
        self.assertEqual(out.splitlines()[-1], "3 passed, 0 failed")
        self.lay("differs", "a\nb\n", "a\nc\n")
        self.lay("status", "refuse", "XRF REFUSED LINE 1 NO-HEADER\n")
        self.lay("turns", "turn", "turned\n")
        self.lay("longer", "a\n", "a\nb\n")
        status, out, err = self.check("--quiet")
        self.assertEqual(status, 1)
        self.assertEqual(counts(out), "3 passed, 4 failed")
        self.assertEqual(len([line for line in out.splitlines() if line.startswith(str(self.folder))]), 4)
        self.assertIn("line 2 is 'b', wanted 'c'", self.line(out, "differs"))
        self.assertIn("\n    @@ -1,3 +1,3 @@\n     a\n    -c\n    +b\n", out)
        self.assertIn("to store an output anew", out)
        self.assertIn("status 8, wanted 0", self.line(out, "status"))
        self.assertIn("does not replay to itself", self.line(out, "turns"))

    def test_of_a_threaded_run_the_order_of_the_choices_is_open(self) -> None:
        acts = "* ACT 1 0 B 2 LOOK1\n* ACT 2 0 A 1 LOOK1\n"
        self.lay("order", "", f"XRF 1\nCHOICES\nEXIT A ABEND\nSTEP B\nSTEP A\nEND\n{acts}* DONE\n", args="run\n")
        self.assertEqual(self.check()[0], 0)
        self.lay("report", "", f"XRF 1\nCHOICES\nSTEP A\nEND\n{acts}* TICK 1\n* DONE\n", args="run\n")
        self.lay("scenario", "", f"XRF 2\nCHOICES\nSTEP A\nEND\n{acts}* DONE\n", args="run\n")
        status, out, _ = self.check()
        self.assertEqual((status, counts(out)), (1, "1 passed, 2 failed"))
        self.assertIn("is '* DONE', wanted '* TICK 1'", self.line(out, "report"))

    def test_a_packed_input_is_unpacked(self) -> None:
        (self.folder / "packed.in.gz").write_bytes(gzip.compress(b"long\n"))
        (self.folder / "packed.out").write_text("long\n")
        self.assertEqual(self.check()[0], 0)

    def test_new_outputs_are_told_and_stored_by_accept_alone(self) -> None:
        self.lay("fresh", "a\n")
        self.lay("refused", "refuse")
        self.lay("stored", "a\n", "b\n")
        status, out, _ = self.check()
        self.assertIn("2 new", out)
        (self.folder / "stored.out").write_text("a\n")
        self.assertEqual((self.check()[0], self.check("--strict")[0]), (0, 1))
        (self.folder / "stored.out").write_text("b\n")
        self.assertFalse((self.folder / "fresh.out").exists())
        status, out, _ = self.check("--accept")
        self.assertEqual(status, 1)
        self.assertEqual((self.folder / "fresh.out").read_text(), "a\n")
        self.assertEqual((self.folder / "refused.status").read_text(), "8\n")
        self.assertEqual((self.folder / "stored.out").read_text(), "b\n")
        (self.folder / "stored.out").write_text("a\n")
        self.assertEqual(self.check()[1].splitlines()[-1], "3 passed, 0 failed")

    def test_a_run_that_takes_too_long_has_failed(self) -> None:
        self.lay("slow", "sleep", "")
        status, out, _ = self.check("--timeout", "0.2")
        self.assertEqual(status, 1)
        self.assertIn("more than 0.2 seconds", out)

    def test_a_run_that_takes_too_long_is_ended_with_what_it_began(self) -> None:
        self.lay("slow", "leave", "")
        began = time.monotonic()
        status, out, _ = self.check("--timeout", "0.3")
        self.assertEqual((status, counts(out)), (1, "0 passed, 1 failed"))
        self.assertLess(time.monotonic() - began, 4)
        self.assertEqual(self.sleeping(), [])

    def sleeping(self) -> list[str]:
        """The processes that a run of 'leave' has begun and that are there still."""
        time.sleep(0.1)
        found = []
        for place in Path("/proc").glob("[0-9]*/cmdline"):
            try:
                words = place.read_bytes().split(b"\0")
            except OSError:
                continue
            if words[:2] == [b"sleep", b"4.25"]:
                found.append(place.parent.name)
        return found

    def test_an_interrupt_ends_all_at_once(self) -> None:
        for number in range(4):
            self.lay(f"slow{number}", "leave", "")
        command = [sys.executable, "-B", "-m", "xrf_tools", "check", "--program", str(self.program), "--jobs", "2", str(self.folder)]
        with subprocess.Popen(command, cwd=Path(__file__).resolve().parents[2] / "tools", stdout=subprocess.PIPE,
                              stderr=subprocess.PIPE, text=True) as child:
            end = time.monotonic() + 30
            while not self.sleeping() and time.monotonic() < end:
                pass
            began = time.monotonic()
            child.send_signal(signal.SIGINT)
            out, err = child.communicate(timeout=30)
        self.assertEqual((child.returncode, out, err), (130, "", ""))
        self.assertLess(time.monotonic() - began, 3)
        self.assertEqual(self.sleeping(), [])

    def test_one_scenario_is_checked_by_any_of_its_files(self) -> None:
        self.lay("one", "a\n", "a\n")
        self.lay("two", "a\n", "b\n")
        for name in ("one", "one.in", "one.out"):
            status, out, _ = call("check", "--program", str(self.program), str(self.folder / name))
            self.assertEqual((status, counts(out)), (0, "1 passed, 0 failed"))
        status, out, err = call("check", "--program", str(self.program), str(self.folder / "three.in"))
        self.assertEqual((status, out, err.count("\n")), (1, "", 1))

    def test_a_stored_output_with_carriage_returns_is_told_by_name(self) -> None:
        self.lay("lines", "a\nb\n")
        (self.folder / "lines.out").write_bytes(b"a\r\nb\r\n")
        self.assertIn("carriage returns", self.line(self.check()[1], "lines"))

    def test_a_long_difference_is_cut(self) -> None:
        self.lay("long", "".join(f"{number}\n" for number in range(5000)), "".join(f"{number}\n" for number in range(7, 9000)))
        out = self.check()[1]
        self.assertLess(len(out.splitlines()), 60)
        self.assertIn("more may differ", out)

    def test_the_help_names_the_files_of_a_scenario(self) -> None:
        done = subprocess.run([sys.executable, "-B", "-m", "xrf_tools", "check", "--help"], capture_output=True, text=True,
                              cwd=Path(__file__).resolve().parents[2] / "tools", check=True)
        for name in ("NAME.in", "NAME.in.gz", "NAME.args", "NAME.out", "NAME.status", "anew"):
            self.assertIn(name, done.stdout)

    def test_results_are_written_as_junit_xml(self) -> None:
        self.lay("same", "a\n", "a\n")
        self.lay("differs", "<a> & \x07\n", "b\n")
        self.lay("fresh", "a\n")
        file = self.room / "junit.xml"
        self.check("--junit", str(file))
        (suite,) = ElementTree.parse(file).getroot()
        self.assertEqual([suite.get(name) for name in ("name", "tests", "failures", "skipped")],
                         [str(self.folder), "3", "1", "1"])
        cases = {case.get("name"): [child.tag for child in case] for case in suite}
        self.assertEqual(cases, {"same": [], "differs": ["failure"], "fresh": ["skipped"]})
        self.assertIn("+<a> & \\x07", next(child.text or "" for case in suite for child in case if child.tag == "failure"))

    def test_runs_go_on_beside_each_other(self) -> None:
        for number in range(6):
            self.lay(f"slow{number}", "sleep", "")
        began = os.times().elapsed
        self.check("--timeout", "0.5", "--jobs", "6")
        self.assertLess(os.times().elapsed - began, 2.5)

    def test_bad_words_are_one_line(self) -> None:
        for words in (["--jobs", "-1"], ["--jobs", "0"], ["--timeout", "0"], ["--timeout", "1e9"], ["--program", "/nowhere"]):
            self.lay("same", "a\n", "a\n")
            status, out, err = call("check", "--program", str(self.program), *words, str(self.folder))
            self.assertEqual((status, out, err.count("\n")), (1, "", 1), words)
        for folder in ("nowhere", str(self.room)):
            status, out, err = call("check", folder)
            self.assertEqual((status, out, err.count("\n")), (1, "", 1))


if __name__ == "__main__":
    unittest.main()
