"""What scenarios have shown: the points against the pages that list them, what one output shows, and what is written."""

import json
import re
import subprocess
import tempfile
import unittest
from pathlib import Path
from xml.etree import ElementTree

import cuts
import runs
from test_draw import call
from xrf_tools import shown
from xrf_tools.coverage import Coverage, gathered
from xrf_tools.points import GROUPS, POINTS

REPORT = (runs.ROOT / "docs" / "REPORT.md").read_text()
SCENARIOS = (runs.ROOT / "docs" / "SCENARIOS.md").read_text()


def names(group: str) -> list[str]:
    return [point.name for point in POINTS if point.group == group and not point.why_not]


def part(page: str, title: str) -> str:
    return re.split(r"^## ", page.split(f"## {title}\n")[1], flags=re.M)[0]


def rows(text: str) -> list[list[str]]:
    """The cells of the rows of a table that begin with a word in backticks."""
    table = [[cell.strip() for cell in line.split("|")[1:-1]] for line in text.splitlines() if line.startswith("| `")]
    return [row for row in table if any(row[1:])]


def words(cell: str) -> list[str]:
    """What stands in backticks in a cell."""
    return re.findall(r"`([^`]+)`", cell)


def firsts(text: str) -> list[str]:
    return [name.split(" ")[0] for row in rows(text) for name in words(row[0])]


class Points(unittest.TestCase):
    """The points are those of the tables of docs/REPORT.md and docs/SCENARIOS.md."""

    def test_each_group_has_points_and_each_point_a_group(self) -> None:
        self.assertEqual({point.group for point in POINTS}, set(GROUPS))
        self.assertEqual(len({(point.group, point.name) for point in POINTS}), len(POINTS))

    def test_acts_and_ends(self) -> None:
        self.assertEqual(set(names("act")), set(firsts(part(REPORT, "The acts"))))
        self.assertEqual(set(names("ended")), set(firsts(part(REPORT, "How a region ends"))))

    def test_decisions(self) -> None:
        tables = re.split(r"^\| (?:A|An) (tracking|waiting|owner).*$", part(REPORT, "Decisions"), flags=re.M)
        for group, text in zip(tables[1::2], tables[2::2]):
            told = [name.removesuffix(" n") for row in rows(text) for name in words(row[0])]
            self.assertEqual(names(group), told)

    def test_items_and_their_answers(self) -> None:
        pairs = {tuple(name.split(" ")) for name in names("item") if " " in name}
        self.assertEqual({answer for _, answer in pairs}, set(firsts(part(REPORT, "Answers of items"))))
        for row in rows(part(REPORT, "Answers of items")):
            answers = {word.split(" ")[0] for word in words(row[0])}
            of = {item for item, answer in pairs if answer in answers}
            self.assertIn(row[1], ("all", ", ".join(sorted(of, key=row[1].find))), row[0])

    def test_what_the_language_has(self) -> None:
        self.assertEqual(names("refusal")[0], "TOO-LARGE")
        self.assertEqual(set(names("refusal")), set(firsts(part(SCENARIOS, "Refusals"))) | {"CHOICES-GIVEN"})
        listed = " ".join(row[1] for row in rows(part(SCENARIOS, "The choices")) if "CEBT" in row[0])
        for name in names("cebt"):
            words_of = name.split(" = ")[0].split(" ")
            self.assertIn(" ".join(words_of[:2]), listed)
            self.assertIn(words_of[-1], listed)

    @unittest.skipUnless(cuts.is_current(), "the program is not built, so what is out of reach was not tried")
    def test_what_is_out_of_reach_is_refused(self) -> None:
        bases = [cuts.Base(name) for name in ("keypoints_and_a_ring_log_that_goes_round", "the_alternate_is_dropped")]
        for point in (point for point in POINTS if point.why_not):
            verb, kind = point.name.split(" ")
            base, entry = next((base, entry) for base in bases for entry in base.document.entries
                               if entry.act.verb == verb and base.document.choices[entry.number - 1].startswith("STEP "))
            word = "STOP" if point.group == "stop" else "FAIL"
            landing = "TORN 00" if kind == "TORN" else kind
            told = cuts.replay(base.text([*base.before(entry), f"{word} {entry.site} {landing}"]))
            self.assertRegex(told, "NOT-ENABLED|TORN-LENGTH", point)


class OneOutput(unittest.TestCase):
    def test_a_refusal_shows_its_reason(self) -> None:
        self.assertEqual([it[:2] for it in shown.of_refusal("XRF REFUSED LINE 7 NOT-ENABLED\n")], [("refusal", "NOT-ENABLED")])
        self.assertEqual(list(shown.of_refusal("usage\n")), [])

    def test_a_takeover_shows_both_sides_decisions_and_what_the_report_says(self) -> None:
        found = {it[:2]: it[2] for it in reversed(list(shown.of_document(runs.document("takeover_after_an_abend"))))}
        self.assertEqual(found["owner", "CATCHUP"], "ACT 29 1 A 1 DECIDE CATCHUP 2")
        self.assertEqual(found["tracking", "START ABEND"], "ACT 81 2 B 2 DECIDE START ABEND")
        self.assertEqual(found["taking", "ABEND"].split(" ")[1], "84")
        self.assertEqual(found["item", "LOGON DONE"], "ITEM A 1 DONE")
        self.assertEqual(found["terminal", "SWITCHED"], "TERM B T1 1 SWITCHED")
        self.assertIn(("waiting", "THROUGH"), found)
        self.assertNotIn(("stop", "CTLWRITE NONE"), found)

    def test_a_stop_shows_its_landing_and_no_act_that_is_made(self) -> None:
        found = {it[:2] for it in shown.of_document(runs.document("torn_file_write"))}
        self.assertIn(("stop", "FILEWRITE TORN"), found)
        self.assertLessEqual({group for group, _ in found}, set(GROUPS))

    def test_each_stored_output_shows_points_alone(self) -> None:
        coverage = Coverage()
        for name in runs.names():
            coverage.add(name, runs.path(name).read_text())
        self.assertEqual(coverage.files, len(runs.names()))
        self.assertGreater(coverage.percent, 40)


class Written(unittest.TestCase):
    FOLDER = str(runs.ROOT / "examples" / "tutorial")

    def test_the_table_has_each_group_and_the_sum(self) -> None:
        status, out, err = call("coverage", self.FOLDER)
        lines = out.splitlines()
        self.assertEqual((status, err, len(lines)), (0, "", len(GROUPS) + 2))
        seen, of = gathered([self.FOLDER]).counted()
        self.assertRegex(lines[-1], rf"^all +{seen} +{of} +\d+%  of \d+ outputs; \d+ more can't be reached$")

    def test_missing_tells_what_was_not_shown_and_why_some_can_not_be(self) -> None:
        out = call("coverage", "--missing", self.FOLDER)[1]
        self.assertIn("\n  taking SHUTDOWN\n", out)
        self.assertIn("\n  stop CTLWRITE TORN: a control record and a signal are written whole or not at all\n", out)

    def test_fail_under_is_a_status(self) -> None:
        self.assertEqual([call("coverage", "--fail-under", under, self.FOLDER)[0] for under in ("1", "99")], [0, 1])
        self.assertEqual(call("coverage", "--fail-under", "101", self.FOLDER)[0], 1)

    def test_json_xml_and_a_page(self) -> None:
        with tempfile.TemporaryDirectory() as room:
            files = {kind: str(Path(room) / f"out.{kind}") for kind in ("json", "xml", "html")}
            status = call("coverage", *(word for kind, file in files.items() for word in (f"--{kind}", file)), self.FOLDER)[0]
            text = {kind: Path(file).read_text() for kind, file in files.items()}
        seen, of = gathered([self.FOLDER]).counted()
        told = json.loads(text["json"])
        self.assertEqual((status, told["shown"], told["of"], len(told["points"])), (0, seen, of, len(POINTS)))
        root = ElementTree.fromstring(text["xml"])
        self.assertEqual((root.get("lines-covered"), root.get("lines-valid")), (str(seen), str(of)))
        self.assertEqual([it.get("name") for it in root.iter("class")], list(GROUPS))
        hits = [int(line.get("hits") or 0) for line in root.findall(".//class/lines/line")]
        self.assertEqual((sum(hit > 0 for hit in hits), len(hits)), (seen, of))
        self.assertEqual(text["html"].count('<tr class="yes">'), seen)
        self.assertNotRegex(text["html"], r"https?:|<script")

    def test_standard_output_takes_one_of_them_in_place_of_the_table(self) -> None:
        self.assertEqual(json.loads(call("coverage", "--json", "-", self.FOLDER)[1])["outputs"], gathered([self.FOLDER]).files)
        self.assertEqual(call("coverage", "--json", "-", "--xml", "-", self.FOLDER)[0], 1)

    def test_folders_that_have_nothing_and_files_that_are_not_there_are_said(self) -> None:
        with tempfile.TemporaryDirectory() as room:
            for place in (room, f"{room}/nowhere"):
                status, out, err = call("coverage", place)
                self.assertEqual((status, out, err.count("\n")), (1, "", 1))
                self.assertIn(place, err)

    @unittest.skipUnless(cuts.is_current(), "the program is not built, so no scenario without an output was run")
    def test_a_scenario_without_an_output_is_run(self) -> None:
        with tempfile.TemporaryDirectory() as room:
            for name in ("first_start.in", "step_past_the_end.in"):
                (Path(room) / name).write_text((runs.ROOT / "examples" / name).read_text())
            done = subprocess.run([str(runs.ROOT / "xrf"), "coverage", "--json", "-", room], capture_output=True, text=True, check=False)
        told = json.loads(done.stdout)
        found = {(point["group"], point["point"]) for point in told["points"] if point["count"]}
        self.assertEqual((done.returncode, told["outputs"]), (0, 2))
        self.assertLessEqual({("act", "RESTARTED"), ("job", "ACTIVE"), ("refusal", "NOT-ENABLED")}, found)


if __name__ == "__main__":
    unittest.main()
