"""What a picture shows: its spans, its page, and its columns."""

import contextlib
import io
import os
import pty
import re
import subprocess
import sys
import tempfile
import unittest
import xml.etree.ElementTree as ElementTree
from html.parser import HTMLParser
from pathlib import Path

import runs
from xrf_tools.__main__ import main
from xrf_tools.document import read
from xrf_tools.picture import drawing
from xrf_tools.picture.columns import columns
from xrf_tools.picture.page import page, svg
from xrf_tools.picture.plan import plan
from xrf_tools.scene import Scene, Span, build, part_of


def call(*words: str) -> tuple[int, str, str]:
    """The status, the output and the messages of a tool."""
    out, err = (io.TextIOWrapper(io.BytesIO(), encoding="utf-8", write_through=True) for _ in range(2))
    with contextlib.redirect_stdout(out), contextlib.redirect_stderr(err):
        status = main(list(words))
    return status, out.buffer.getvalue().decode(), err.buffer.getvalue().decode()


class Spans(unittest.TestCase):
    def scene(self, name: str) -> Scene:
        return build(runs.document(name))

    def spans(self, scene: Scene, kind: str) -> list[Span]:
        return [span for span in scene.spans if span.kind == kind]

    def act(self, scene: Scene, row: int) -> str:
        return scene.rows[row].steps[-1].entry.line

    def test_ownership_changes_hands_at_the_through(self) -> None:
        scene = self.scene(runs.TAKEOVER)
        first, second = self.spans(scene, "owner")
        self.assertEqual([(first.lane, first.label), (second.lane, second.label)], [("A", "1"), ("B", "2")])
        self.assertEqual(first.last, second.first)
        self.assertIn("ACT 295 32 B 2 CTLWRITE", self.act(scene, second.first))

    def test_a_taking_lasts_from_start_to_through(self) -> None:
        scene = self.scene(runs.TAKEOVER)
        (taking,) = self.spans(scene, "taking")
        self.assertEqual((taking.lane, taking.label), ("B", "LOST"))
        self.assertIn("ACT 282 ", self.act(scene, taking.first))
        self.assertIn("ACT 295 ", self.act(scene, taking.last))

    def test_the_reserve_lasts_from_reserve_to_release_or_stop(self) -> None:
        for name in (runs.TAKEOVER, "granting_writes_that_are_stopped"):
            scene = self.scene(name)
            for span in self.spans(scene, "reserve"):
                self.assertIn("RESERVE", self.act(scene, span.first))
                self.assertRegex(self.act(scene, span.last), "RELEASE|STOP")

    def test_units_last_from_begin_to_commit_or_backout_with_their_records(self) -> None:
        scene = self.scene(runs.TAKEOVER)
        one, other = self.spans(scene, "unit")
        self.assertEqual([(one.label, one.how), (other.label, other.how)], [("U1", "COMMIT"), ("U2", "BACKOUT")])
        self.assertEqual([self.act(scene, row).split(" ", 5)[5] for row in other.marks], ["LOGOPEN 2 PUT 1.2 1"])
        self.assertIn("LOGOPEN 3 BACKOUT 1.2", self.act(scene, other.last))

    def test_messages_go_from_writer_to_reader(self) -> None:
        scene = self.scene(runs.TAKEOVER)
        messages = self.spans(scene, "message")
        self.assertEqual([span.label for span in messages], ["BEGIN 2", "END 2 1", "TERM 2 2 T1 1 ON", "TERM 2 3 T2 2 ON"])
        for span in messages:
            self.assertEqual(span.how, "B")
            self.assertIn("A 1 MSGOPEN", self.act(scene, span.first))
            self.assertIn("B 2 MSGREAD", self.act(scene, span.last))

    def test_a_message_that_is_not_read_is_a_mark(self) -> None:
        scene = self.scene("a_garbage_body_that_is_not_opened")
        (message,) = self.spans(scene, "message")
        self.assertEqual((message.how, message.first), ("unread", message.last))

    def test_jobs_are_cut_by_their_states(self) -> None:
        lives = [(span.lane, span.how) for span in self.spans(self.scene(runs.TAKEOVER), "life")]
        self.assertEqual(lives, [
            ("A", "STARTING"), ("A", "RESTARTING"), ("A", "ACTIVE"), ("B", "STARTING"), ("B", "TRACKING"),
            ("B", "WAITING"), ("B", "RESTARTING"), ("B", "ACTIVE")])

    def test_every_act_stands_in_one_row(self) -> None:
        for name in runs.names():
            scene = self.scene(name)
            numbers = [step.entry.number for step in scene.steps]
            self.assertEqual(numbers, list(range(1, len(numbers) + 1)), name)


class Page(unittest.TestCase):
    def test_the_svg_is_well_formed_and_has_every_act(self) -> None:
        for name in runs.names():
            with self.subTest(name):
                scene = build(runs.document(name))
                marked = set()
                for part, _ in drawing.parts(scene, plan(scene)):
                    for element in ElementTree.fromstring(part).iter():
                        marked |= {int(element.get("data-k", "0"))}
                self.assertEqual(marked - {0}, {entry.number for entry in scene.document.entries})

    def test_it_loads_nothing_and_closes_what_it_opens(self) -> None:
        text = page(build(runs.document(runs.TAKEOVER)), "a <title> & more")
        self.assertNotRegex(text.replace("http://www.w3.org/2000/svg", ""), r"https?:|src=|@import|url\(")
        self.assertIn("<title>a &lt;title&gt; &amp; more</title>", text)
        checker = Closing()
        checker.feed(text)
        self.assertEqual(checker.open, [])

    def test_values_that_look_like_markup_stay_text(self) -> None:
        text = runs.path("bytes_of_an_ordinary_unit_of_work").read_text().replace("SECOND", "</script><b>&amp;")
        drawn = page(build(read("a run", text)), "markup")
        self.assertNotIn("</script><b>", drawn)
        self.assertIn("&lt;/script&gt;", drawn)

    def test_what_did_not_land_and_what_was_torn_is_drawn(self) -> None:
        lost = "".join(self.parts("the_second_path_carries_the_signal"))
        self.assertEqual(lost.count('class="lost"'), 6)
        torn = "".join(self.parts("torn_file_write"))
        self.assertIn("ffffff… 32 bytes", torn)
        self.assertIn(">c1</text>", "".join(self.parts("a_failing_device_in_the_opening_write_of_a_commit")))

    def parts(self, name: str) -> list[str]:
        scene = build(runs.document(name))
        return [part for part, _ in drawing.parts(scene, plan(scene))]


class Svg(unittest.TestCase):
    """The picture alone, and the part of it that some acts make; those of docs/ are as they would be drawn."""

    def test_the_pictures_of_the_docs_are_those_that_are_drawn(self) -> None:
        folder = runs.ROOT / "docs" / "pictures"
        script = (runs.ROOT / "tools" / "pictures").read_text()
        pictures = re.findall(r"^picture (\w+) (\S+) (\S+)$", script, re.M)
        self.assertEqual({path.stem for path in folder.iterdir()}, {name for name, _, _ in pictures})
        for name, acts, run in pictures:
            part = () if acts == "all" else ("--acts", acts)
            status, out, err = call("draw", "--svg", *part, str(runs.ROOT / f"{run}.out"))
            self.assertEqual((status, err), (0, ""))
            self.assertEqual(out, (folder / f"{name}.svg").read_text(), f"tools/pictures draws {name}.svg again")
            self.assertLess(len(out), 40_000)

    def test_a_part_has_its_acts_and_the_spans_that_reach_it(self) -> None:
        scene = part_of(build(runs.document(runs.TAKEOVER)), 54, 70)
        self.assertEqual([row.steps[0].entry.number for row in scene.rows], [54, 55, 56, 57, 58, 59, 60, 65, 66, 67, 68, 69, 70])
        (unit,) = [span for span in scene.spans if span.kind == "unit"]
        self.assertEqual((unit.label, unit.first, unit.how, unit.marks), ("U2", 0, "open", [4]))
        (owner,) = [span for span in scene.spans if span.kind == "owner"]
        self.assertEqual((owner.first, owner.last, owner.how), (0, 12, "open"))

    def test_it_is_well_formed_for_every_document(self) -> None:
        for name in runs.names():
            ElementTree.fromstring(svg(build(runs.document(name)), name))

    def test_bad_words_are_one_line(self) -> None:
        path = str(runs.path(runs.TAKEOVER))
        for words in (["--acts", "1-5"], ["--svg", "--acts", "5"], ["--svg", "--acts", "7-3"], ["--svg", "--text"]):
            status, out, err = call("draw", *words, path)
            self.assertEqual((status, out, err.count("\n")), (1, "", 1), words)


class OnATerminal(unittest.TestCase):
    """Where standard output is a terminal a page goes into a file, and columns have colours."""

    def run_on_terminal(self, folder: str, *words: str) -> tuple[int, str]:
        leader, follower = pty.openpty()
        env = {**os.environ, "PYTHONPATH": str(runs.ROOT / "tools"), "PYTHONIOENCODING": "utf-8", "TERM": "dumb"}
        env.pop("NO_COLOR", None)
        out = b""
        with subprocess.Popen([sys.executable, "-B", "-m", "xrf_tools", "draw", *words], cwd=folder, env=env,
                              stdin=subprocess.DEVNULL, stdout=follower, stderr=follower) as child:
            os.close(follower)
            with contextlib.suppress(OSError):
                while piece := os.read(leader, 65536):
                    out += piece
        os.close(leader)
        return child.returncode, out.decode()

    def test_a_page_goes_into_a_file_and_not_over_one_of_the_user(self) -> None:
        with tempfile.TemporaryDirectory() as room:
            path = str(runs.path("the_paused_active"))
            for done in ("was written", "which was there, was written anew"):
                status, out = self.run_on_terminal(room, path)
                self.assertEqual((status, out.replace("html,", "html")), (0, f"xrf: the_paused_active.html {done}\r\n"))
            page_file = Path(room) / "the_paused_active.html"
            page_file.write_text("<p>my own</p>")
            status, out = self.run_on_terminal(room, path)
            self.assertEqual((status, out.count("\n")), (1, 1))
            self.assertEqual(page_file.read_text(), "<p>my own</p>")

    def test_columns_have_colours(self) -> None:
        status, out = self.run_on_terminal("/", "--text", str(runs.path("torn_file_write")))
        self.assertEqual(status, 0)
        self.assertIn("\x1b[31m", out)


class Closing(HTMLParser):
    """The elements that are open."""

    VOID = ("meta", "link", "input")

    def __init__(self) -> None:
        super().__init__()
        self.open: list[str] = []

    def handle_starttag(self, tag: str, attrs: list[tuple[str, str | None]]) -> None:
        if tag not in self.VOID:
            self.open.append(tag)

    def handle_startendtag(self, tag: str, attrs: list[tuple[str, str | None]]) -> None:
        pass

    def handle_endtag(self, tag: str) -> None:
        if self.open[-1:] != [tag]:
            raise AssertionError(f"</{tag}> closes {self.open[-1:]}")
        self.open.pop()


class Columns(unittest.TestCase):
    def lines(self, name: str, width: int = 120) -> list[str]:
        return list(columns(build(runs.document(name)), width, False))

    def line(self, name: str, act: int) -> str:
        return next(line for line in self.lines(name) if re.match(rf" +{act} ", line))

    def test_writes_reads_and_what_did_not_land_are_arrows(self) -> None:
        self.assertIn("●──▶", self.line(runs.TAKEOVER, 4))
        self.assertRegex(self.line(runs.TAKEOVER, 295), "B◀─+● CTLWRITE through 2.B → restarting")
        self.assertRegex(self.line(runs.TAKEOVER, 56), "○◀┄+")
        self.assertIn("✕─", self.line("torn_file_write", 18))
        self.assertIn("╳▶", self.line("torn_file_write", 18))
        self.assertIn("╳", self.line("the_second_path_carries_the_signal", 25))

    def test_no_line_is_wider_than_asked_or_than_what_is_needed(self) -> None:
        for width in (20, 84, 120, 200):
            for name in runs.names():
                lines = self.lines(name, width)[:-3]
                self.assertLessEqual(max(map(len, lines)), max(width, 84) + 1, name)

    def test_a_part_and_a_width_may_be_asked_for(self) -> None:
        status, out, err = call("draw", "--text", "--acts", "279-295", "--width", "90", str(runs.path(runs.TAKEOVER)))
        self.assertEqual((status, err), (0, ""))
        acts = [int(found) for found in re.findall(r"^ +(\d+) ", out, re.M)]
        self.assertEqual((min(acts), max(acts)), (275, 295))
        self.assertLessEqual(max(map(len, out.split("\n")[:-4])), 91)

    def test_the_tool_writes_them_and_a_page(self) -> None:
        path = str(runs.path(runs.TAKEOVER))
        status, out, err = call("draw", "--text", path)
        self.assertEqual((status, err), (0, ""))
        self.assertRegex(out, "RESTARTED T1 switched T2 .*→ active")
        status, out, err = call("draw", path)
        self.assertEqual((status, err), (0, ""))
        self.assertTrue(out.startswith("<!doctype html>"))
        with tempfile.TemporaryDirectory() as room:
            file = Path(room) / "out.html"
            self.assertEqual(call("draw", path, "--output", str(file))[:2], (0, ""))
            self.assertEqual(file.read_text(), out)


if __name__ == "__main__":
    unittest.main()
