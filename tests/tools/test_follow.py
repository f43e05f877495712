"""Whether a trace is a run: each stored document is, and what was changed of one is told at its act."""

import json
import re
import tempfile
import unittest
from pathlib import Path

import cuts
import runs
from test_draw import call
from xrf_tools.errors import Fault
from xrf_tools.follow import Model, difference, read_trace

NAME = "takeover_after_an_abend"
TEXT = runs.path(NAME).read_text()


def told(text: str, scenario: str = TEXT) -> list[str]:
    return difference(Model.of(scenario, "scenario"), read_trace(text, "trace"))


def acts(text: str) -> list[str]:
    return re.findall(r"^\* (ACT .*)$", text, re.M)


class Traces(unittest.TestCase):
    def test_each_act_becomes_the_choice_that_made_it(self) -> None:
        for name in runs.names():
            document = runs.document(name)
            self.assertEqual([entry.choice for entry in document.entries], document.choices, name)

    def test_a_document_a_log_and_json_lines_are_read_alike(self) -> None:
        of_document = read_trace(TEXT, "trace")
        of_log = read_trace("# a log\n\n" + "\n".join(acts(TEXT)) + "\n", "trace")
        of_json = read_trace(call("json", "--lines", str(runs.path(NAME)))[1], "trace")
        self.assertEqual(of_document.entries, of_log.entries)
        self.assertEqual(of_document.entries, of_json.entries)
        self.assertEqual((of_document.report[-1], of_log.report), ("DONE", []))

    def test_what_is_no_trace_is_said_with_its_line(self) -> None:
        for text, line in (("ACT 1 0 A 0 START ACTIVE\nhello\n", 2), ("ACT 2 0 A 0 START ACTIVE\n", 1), ("{}\n", 1),
                           ("ACT 1 0 A 0 TICK\n", 1), ("\nACT 1 0 A 0 STOP LOGBODY 0 COMMIT 1.1 TORN 00\n", 2), ('{"act": 1\n', 1)):
            with self.assertRaisesRegex(Fault, f"^trace, line {line}: "):
                read_trace(text, "trace")
        with self.assertRaisesRegex(Fault, "no act"):
            read_trace("# nothing\n", "trace")

    def test_a_scenario_ends_at_its_choices(self) -> None:
        self.assertEqual(Model.of("XRF 1\nCHOICES\nSTEP A\nEND\n", "x").text(["TICK"]), "XRF 1\nCHOICES\nTICK\nEND\n")
        for text in ("XRF 1\nEND\n", "CHOICES\n", ""):
            with self.assertRaises(Fault):
                Model.of(text, "x")


@unittest.skipUnless(cuts.is_current(), "the program is not built, so no trace was followed")
class Followed(unittest.TestCase):
    def test_each_stored_document_is_a_run(self) -> None:
        for name in runs.names():
            with self.subTest(name):
                text = runs.path(name).read_text()
                self.assertEqual(told(text, text), [])

    def test_a_change_of_an_act_is_told_with_what_the_model_has(self) -> None:
        for old, new, wanted in (
                ("2 B 2 DECIDE START ABEND", "2 B 2 DECIDE NOTHING", "act 81: the trace has DECIDE NOTHING, the model has DECIDE START ABEND"),
                ("1 B 2 MSGREAD 4", "1 B 2 MSGREAD 1", "act 69: the trace has MSGREAD 1, the model has MSGREAD 4"),
                ("ACT 73 1 A 1", "ACT 73 2 A 1", "act 73: the trace has tick 2, the model has tick 1"),
                ("ACT 73 1 A 1", "ACT 73 1 A 3", "act 73: the trace has incarnation 3, the model has incarnation 1")):
            lines = told(TEXT.replace(old, new, 1))
            self.assertEqual(lines[0], wanted)
            self.assertTrue(any(line.startswith("  the model: ") for line in lines))

    def test_an_update_behind_the_through_is_none_of_the_model(self) -> None:
        lines = acts(TEXT)
        place = next(place for place, line in enumerate(lines) if "FILEWRITE 1.2" in line)
        through = next(place for place, line in enumerate(lines) if "OWNER 2.B.RUNNING" in line)
        moved = [*lines[:place], *lines[place + 1: through + 1], lines[place], *lines[through + 1:]]
        numbered = [re.sub(r"^ACT \d+", f"ACT {number}", line) for number, line in enumerate(moved, 1)]
        self.assertEqual(told("\n".join(numbered))[0], "act 70: the trace has RESERVE, the model has FILEWRITE 1.2 1 900")

    def test_an_act_that_the_model_can_not_make_is_told_with_what_it_would_do(self) -> None:
        for more, wanted in (("A 1 ABEND", "no region is at A"), ("B 2 STOP LOGBODY 0 COMMIT 2.1 ALL", "B has nothing to do here"),
                             ("B 2 ITEM 1", "B has nothing to do here"), ("- 0 CONFIRM 9", "DISHONEST")):
            log = [*acts(TEXT), f"ACT {len(acts(TEXT)) + 1} 3 {more}"]
            lines = told("\n".join(log))
            self.assertIn("which the model can't make here", lines[0])
            self.assertIn(wanted, "\n".join(lines))

    def test_a_report_that_is_not_that_of_the_acts_is_told(self) -> None:
        self.assertEqual(told(TEXT.replace("* FILE 1 150", "* FILE 1 900")), ["behind the acts: the trace has FILE 1 900, the model has FILE 1 150"])
        self.assertEqual(len(told(TEXT.replace("* FILE 1 150\n", ""))), 1)

    def test_the_status_says_whether_it_is_a_run(self) -> None:
        with tempfile.TemporaryDirectory() as room:
            log = Path(room) / "log"
            for lines, wanted in ((acts(TEXT), 0), ([*acts(TEXT)[:-1], acts(TEXT)[-1].replace("RESTARTED", "TICK")], 1)):
                log.write_text("\n".join(lines))
                self.assertEqual(call("follow", str(runs.path(NAME)), str(log))[0], wanted)
            log.write_text(json.dumps({"act": 1, "tick": 0, "site": "A", "incarnation": None, "text": "START ACTIVE"}))
            told_of_one = "a run of the model, of 1 acts; docs/REFERENCE.md says what holds of it\n"
            self.assertEqual(call("follow", str(runs.path(NAME)), str(log)), (0, told_of_one, ""))


if __name__ == "__main__":
    unittest.main()
