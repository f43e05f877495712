"""Runs told in sentences, and refusals told with what would be right."""

import os
import re
import tempfile
import unittest
from pathlib import Path
from unittest import mock

import runs
from test_draw import call
from xrf_tools.acts import FORMS
from xrf_tools.language import REASONS
from xrf_tools.meaning import CALLS, tell
from xrf_tools.refusals import told
from xrf_tools.refused import Refused
from xrf_tools.standing import Standing
from xrf_tools.story import by_acts, summed_up


class Sentences(unittest.TestCase):
    def test_every_act_of_every_document_has_a_sentence(self) -> None:
        self.assertEqual(set(CALLS), set(FORMS))
        for name in runs.names():
            document = runs.document(name)
            standing = Standing(document)
            for entry in document.entries:
                sentence = tell(standing, entry)
                self.assertRegex(sentence, r"^[A-Z].*\.$", entry.line)
                self.assertNotRegex(sentence, r"[{}]|None", entry.line)

    def sentence(self, name: str, number: int) -> str:
        document = runs.document(name)
        standing = Standing(document)
        told = [tell(standing, entry) for entry in document.entries]
        return told[number - 1]

    def test_control_writes_say_what_they_are_for(self) -> None:
        self.assertIn("signs on as the alternate", self.sentence(runs.TAKEOVER, 16))
        self.assertIn("writes that it takes over", self.sentence(runs.TAKEOVER, 282))
        self.assertIn("incarnation 1 may update nothing any more", self.sentence(runs.TAKEOVER, 295))
        self.assertIn("drops its alternate", self.sentence("the_alternate_is_dropped", 69))
        self.assertIn("signs off as ended abnormally", self.sentence("command_waits_for_cebt", 27))
        self.assertIn("takes its name out", self.sentence("a_start_that_is_overtaken_by_a_normal_sign_off", 77))

    def test_decisions_say_why(self) -> None:
        self.assertIn("since tick 1, the ADI of 30 seconds has passed, and TAKEOVR lets it", self.sentence(runs.TAKEOVER, 279))
        self.assertIn("asks the operator", self.sentence("the_operator_is_asked", 57))
        self.assertIn("since tick 5, the ADI of 5 seconds has passed, and the operator lets it",
                      self.sentence("the_operator_is_asked", 101))
        self.assertIn("it is confirmed that incarnation 1 has ended", self.sentence(runs.TAKEOVER, 292))
        self.assertIn("the owner has signed off", self.sentence("the_paused_active", 84))

    def test_what_is_cut_short_says_what_landed(self) -> None:
        self.assertIn("32 bytes landed, each of them ff", self.sentence("torn_file_write", 18))
        self.assertIn("the byte 00 landed, so the slot is closed",
                      self.sentence("stop_in_the_opening_write_of_a_commit_that_leaves_it_closed", 26))
        self.assertIn("is told so: the byte c1 landed, so the slot is open",
                      self.sentence("a_failing_device_in_the_opening_write_of_a_commit", 26))


class Stories(unittest.TestCase):
    def story(self, name: str) -> str:
        return re.sub(r"\s+", " ", "\n".join(summed_up(runs.document(name))))

    def test_a_takeover_is_told_with_its_cause_and_its_end(self) -> None:
        told = self.story(runs.TAKEOVER)
        for text in ("Why a takeover was started - tick 31: B decides to take over", "Incarnation 2 at B is the owner",
                     "What was backed out - tick 32: Unit U2 (1.2) is backed out: record 1 is BALANCE-150.",
                     "Terminals of B: T1 switched, T2 acquired.", "the message CICSA IS BEING TAKEN OVER",
                     "the cancelling of CICSA", "CICSA at A is gone"):
            self.assertIn(text, told)

    def test_what_an_operator_saw(self) -> None:
        told = self.story("the_operator_is_asked").split("What an operator would have seen")[1]
        self.assertEqual(told.count("CICSB asks whether to take over."), 2)
        self.assertIn("The operator replies GO", told)

    def test_items_that_are_not_done_are_told_with_their_answers(self) -> None:
        told = self.story("item_answers")
        for text in ("another unit holds that record", "the file has no such record", "the terminal is not on"):
            self.assertIn(text, told)

    def test_every_document_is_told_both_ways(self) -> None:
        for name in runs.names():
            document = runs.document(name)
            self.assertIn("At the end", "\n".join(summed_up(document)), name)
            acts = [line for line in by_acts(document) if re.match(r" +\d+  ", line)]
            self.assertEqual(len(acts), len(document.entries), name)

    def test_the_tool_tells(self) -> None:
        path = str(runs.path(runs.TAKEOVER))
        self.assertIn("B goes through", call("explain", path)[1])
        self.assertIn("A reads block 0 of the log", re.sub(r"\s+", " ", call("explain", "--acts", path)[1]))


class Refusals(unittest.TestCase):
    """The stored refusals of the program, told without it."""

    def setUp(self) -> None:
        program = mock.patch.dict(os.environ, {"XRF_AS_BUILT": ""})
        program.start()
        self.addCleanup(program.stop)

    def told(self, name: str) -> str:
        row = runs.ROOT / "tests" / "rows" / name
        status, out, err = call("explain", f"{row}.in", f"{row}.out")
        self.assertEqual((status, err), (0, ""))
        return out

    def test_every_stored_refusal_is_told(self) -> None:
        for folder in ("tests/rows", "examples"):
            for path in sorted((runs.ROOT / folder).glob("*.in")):
                answer = path.with_suffix(".out")
                if answer.exists() and answer.read_text().startswith("XRF REFUSED"):
                    self.assertIn("refused", call("explain", str(path), str(answer))[1], path.name)

    def test_the_line_the_reason_and_what_would_be_right(self) -> None:
        told = self.told("a_setting_out_of_its_range")
        self.assertEqual(told.splitlines(), [
            "Line 2 is refused: ADI 4", "OUT-OF-RANGE: a number is outside its range.",
            "Its form is: ADI n, n from 5 to 3600."])
        self.assertIn("It was given in line 2: ADI 9.", self.told("a_setting_given_twice"))
        self.assertIn("Right would be: FILE 17.", self.told("a_record_outside_the_file"))

    def test_every_reason_of_the_language_has_words(self) -> None:
        page = (runs.ROOT / "docs" / "SCENARIOS.md").read_text()
        reasons = set(re.findall(r"^\| `([A-Z-]+)` \|", page, re.M))
        self.assertGreater(len(reasons), 20)
        self.assertEqual(reasons - set(REASONS), set())

    def test_forms_go_by_the_words_of_the_line(self) -> None:
        def right(line: str, reason: str, part: str = "XRF 1") -> str:
            lines = [*part.split("/"), line]
            return "\n".join(told(Refused(len(lines), reason, lines)))

        self.assertIn("WORK A|B PUT name n value", right("WORK A PUT U1 1", "WORD-COUNT"))
        self.assertIn("one of BEGIN, PUT, GET", right("WORK A ADD U1", "BAD-ITEM"))
        self.assertIn("PLAN n START A|B ACTIVE|STANDBY", right("PLAN 3 START A", "WORD-COUNT"))
        self.assertIn("one of START, STOP", right("PLAN 3 STEP A", "BAD-PLAN"))
        self.assertIn("STOP A|B TORN hex", right("STOP A TORN 0", "BAD-HEX", "XRF 1/CHOICES"))
        self.assertIn("begins here with one of TICK, STEP", right("WALK A", "UNKNOWN-WORD", "XRF 1/CHOICES"))

    def test_what_is_no_refusal_is_a_fault(self) -> None:
        for text in ("XRF REFUSED LINE x BAD", "XRF REFUSED LINE 3 NO-SUCH-REASON", "XRF REFUSED "):
            with tempfile.NamedTemporaryFile("w", suffix=".out") as file:
                file.write(text)
                file.flush()
                status, out, err = call("explain", file.name)
                self.assertEqual((status, out, err.count("\n")), (1, "", 1))


# A stand-in of the launcher, and of the program: it refuses a text with the line STEP A 99, and writes a stored
# document of any other.
LAUNCHER = """#!/usr/bin/env bash
[ "$1" != --program ] || { echo "$0"; exit 0; }
text=$(cat)
case $text in *"STEP A 99"*) echo "XRF REFUSED LINE 4 NOT-ENABLED"; exit 8 ;; *DOWN*) exit 24 ;; esac
cat "$STORED"
"""


class Replayed(unittest.TestCase):
    def setUp(self) -> None:
        room = tempfile.TemporaryDirectory()
        self.addCleanup(room.cleanup)
        self.room = Path(room.name)
        launcher = self.room / "xrf"
        launcher.write_text(LAUNCHER)
        launcher.chmod(0o755)
        was = dict(os.environ)
        self.addCleanup(lambda: (os.environ.clear(), os.environ.update(was)))
        os.environ.update({"XRF_LAUNCHER": str(launcher), "XRF_AS_BUILT": str(launcher), "STORED": str(runs.path(runs.TAKEOVER))})

    def scenario(self, *lines: str) -> str:
        path = self.room / "a.in"
        path.write_text("\n".join(["XRF 1", "CHOICES", *lines, "END", ""]))
        return str(path)

    def test_a_scenario_is_replayed_and_told_or_drawn(self) -> None:
        path = self.scenario("START A ACTIVE")
        self.assertIn("B goes through", call("explain", path)[1])
        self.assertIn("STANDBY", call("draw", "--text", path)[1])

    def test_a_refused_choice_is_told_with_what_stood_before_it(self) -> None:
        status, out, err = call("explain", self.scenario("START A ACTIVE", "STEP A 99"))
        self.assertEqual((status, err), (0, ""))
        self.assertIn("Line 4 is refused: STEP A 99", out)
        self.assertIn("Before this line it is tick 32; no region is at A and B is active; 302 acts were made.", out)
        self.assertIn("Right would be: START A ACTIVE, STEP A 98.", out)

    def test_a_refused_scenario_is_not_drawn(self) -> None:
        status, out, err = call("draw", self.scenario("STEP A 99"))
        self.assertEqual((status, out, err.count("\n")), (1, "", 1))
        self.assertIn("LINE 4 NOT-ENABLED", err)

    def test_a_plan_without_choices_is_for_the_word_run(self) -> None:
        os.environ["XRF_AS_BUILT"] = str(runs.HERE / "writes_back")
        path = self.room / "planned.out"
        path.write_text("\n".join(["XRF 1", "PLAN 0 START A ACTIVE", "CHOICES", "END", "* TICK 0", "* CONTROL 0 OWNER NONE ALT NONE TAKING NONE",
                                   "* JOB A NONE", "* JOB B NONE", "* LOG 0 COMMITTED 0 FLIGHT 0", "* DONE", ""]))
        for words in (["explain"], ["draw", "--text"]):
            status, _, err = call(*words, str(path))
            self.assertEqual(status, 0)
            self.assertIn("xrf run makes the choices", err)

    def test_a_program_that_fails_is_a_fault(self) -> None:
        status, out, err = call("explain", self.scenario("# DOWN"))
        self.assertEqual((status, out), (1, ""))
        self.assertIn("out of memory", err)


if __name__ == "__main__":
    unittest.main()
