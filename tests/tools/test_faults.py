"""Bad input of the tools is one clear line, and never a traceback."""

import os
import random
import shlex
import subprocess
import sys
import tempfile
import unittest
from pathlib import Path

import runs
from test_draw import call
from xrf_tools.document import read
from xrf_tools.errors import Fault
from xrf_tools.language import REASONS
from xrf_tools.picture.columns import columns
from xrf_tools.picture.page import page
from xrf_tools.refusals import told
from xrf_tools.refused import Refused
from xrf_tools.scene import build
from xrf_tools.story import summed_up


class Faults(unittest.TestCase):
    def fault(self, *words: str, status: int = 1) -> str:
        got, out, err = call(*words)
        self.assertEqual((got, out, err.count("\n")), (status, "", 1), err)
        self.assertTrue(err.startswith("xrf: "))
        return err

    def given(self, text: str) -> str:
        handle, path = tempfile.mkstemp(suffix=".out")
        os.close(handle)
        self.addCleanup(os.unlink, path)
        Path(path).write_text(text)
        return path

    def test_wrong_words(self) -> None:
        self.fault()
        self.fault("draw")
        self.fault("draw", "--colour", "x")
        self.fault("draw", "--width", "wide", "x")

    def test_files_that_cannot_be_had(self) -> None:
        self.assertIn("no such file", self.fault("draw", "nowhere.out"))
        self.assertIn("directory", self.fault("draw", str(runs.ROOT)))

    def test_what_is_no_document(self) -> None:
        self.assertIn("refused", self.fault("draw", self.given("XRF REFUSED LINE 7 NOT-ENABLED\n")))
        for text in ("", "hello\n* DONE\n", "XRF 3\nCHOICES\nEND\n"):
            self.assertIn("no scenario and no document", self.fault("draw", self.given(text)))
        self.assertIn("line 2", self.fault("draw", self.given("XRF 1\nhello\n* DONE\n")))
        self.assertIn("is no choice", self.fault("draw", self.given("XRF 1\nCHOICES\ncaf\u00e9\nEND\n* DONE\n")))
        whole = runs.path(runs.TAKEOVER).read_text()
        self.assertIn("no whole report", self.fault("draw", self.given(whole.replace("* DONE\n", ""))))
        self.assertIn("not that of its choices", self.fault("draw", self.given(whole.replace("STEP A\n", "", 1))))
        self.assertIn("act 299", self.fault("draw", self.given(whole.replace("B 2 UNDO 1", "B 2 UNDO 2"))))
        self.assertIn("is no act", self.fault("draw", self.given(whole.replace("B 2 UNDO 1", "B 2 DO 1"))))

    def test_a_page_that_cannot_be_written(self) -> None:
        self.fault("draw", str(runs.path(runs.TAKEOVER)), "--output", "/nowhere/x.html", status=20)

    def test_an_output_that_fails_ends_with_its_status_and_one_line(self) -> None:
        for word in (["draw"], ["draw", "--text"], ["explain"]):
            for output, said in ((">/dev/full", "no space left on device"), (">&-", "closed")):
                words = " ".join([sys.executable, "-B", "-m", "xrf_tools", *word, str(runs.path("the_full_log")), output])
                done = subprocess.run(words, shell=True, capture_output=True, text=True, cwd=runs.ROOT / "tools")
                self.assertEqual((done.returncode, done.stderr.count("\n")), (20, 1), done.stderr)
                self.assertIn(said, done.stderr)

    def test_nothing_is_written_over_silently(self) -> None:
        with tempfile.TemporaryDirectory() as room:
            path = f"{room}/a.html"
            run = str(runs.path("the_full_log"))
            self.assertIn("was written\n", call("draw", run, "--output", path)[2])
            self.assertIn("was there", call("draw", run, "--output", path)[2])

    def test_a_reader_that_ends_early_is_no_traceback(self) -> None:
        path = shlex.quote(str(runs.path("the_full_log")))
        command = f"{shlex.quote(sys.executable)} -B -m xrf_tools draw --text {path} | head -n 1"
        done = subprocess.run(command, shell=True, capture_output=True, text=True, cwd=runs.ROOT / "tools")
        self.assertEqual((done.stdout.count("\n"), done.stderr), (1, ""))

    def test_documents_with_changed_words_are_drawn_or_told(self) -> None:
        """Words, lines and letters are changed at random; what comes of it is a picture or a Fault."""
        chance = random.Random(7)
        names = [name for name in runs.names() if runs.path(name).stat().st_size < 9000]
        drawn = 0
        for _ in range(200):
            text = self.changed(chance, runs.path(chance.choice(names)).read_text())
            try:
                scene = build(read("changed", text))
                page(scene, "changed")
                list(columns(scene, 100, False))
                list(summed_up(scene.document))
                drawn += 1
            except Fault:
                pass
        self.assertGreater(drawn, 10)

    def test_every_reason_is_told_of_every_line(self) -> None:
        lines = [*runs.path("the_paused_active").read_text().split("\n")[:40], "", "WORK", "WORK A", "PLAN", "PLAN 1", "X"]
        for number in range(len(lines) + 2):
            for reason in REASONS:
                self.assertIn(reason, "\n".join(told(Refused(number, reason, lines))))

    def changed(self, chance: random.Random, text: str) -> str:
        lines = text.split("\n")
        at, other = chance.randrange(len(lines)), chance.randrange(len(lines))
        kind = chance.randrange(4)
        if kind == 0:
            del lines[at]
        elif kind == 1:
            lines[at] = lines[other]
        elif kind == 2:
            words = lines[at].split(" ")
            words[chance.randrange(len(words))] = chance.choice(lines[other].split(" ") + ["0", "9999999999", "NONE", ""])
            lines[at] = " ".join(words)
        else:
            place = chance.randrange(len(lines[at]) + 1)
            lines[at] = lines[at][:place] + chance.choice("AB09. *<&") + lines[at][place + 1 :]
        return "\n".join(lines)


if __name__ == "__main__":
    unittest.main()
