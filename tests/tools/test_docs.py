"""What README, the man page, docs/CONCEPTS.md and docs/SCENARIOS.md tell a user to type is run, and what they point to is
there."""

import os
import re
import shutil
import subprocess
import tempfile
import unittest
from pathlib import Path

import runs

PROGRAM = runs.ROOT / "crates" / "xrf" / "out" / "xrf"
README = (runs.ROOT / "README.md").read_text()
MAN = (runs.ROOT / "tools" / "man" / "xrf.1").read_text()
SCENARIOS = (runs.ROOT / "docs" / "SCENARIOS.md").read_text()


def commands() -> list[str]:
    """The commands of the launcher in README and in the examples of the man page."""
    of_readme = re.findall(r"^    (\./xrf [^#\n]*?) *(?:#.*)?$", README, re.M)
    of_man = re.findall(r"^xrf .*$", MAN.split(".SH EXAMPLES")[1], re.M)
    return of_readme + [line.replace("xrf ", "./xrf ").replace("&& ./", "&& ") for line in of_man]


def scenarios() -> list[str]:
    """The scenarios of docs/SCENARIOS.md from the header to END, without what stands behind three blanks."""
    found = re.findall(r"^    XRF [12](?: {3}.*)?\n(?:    .*\n)*?    END(?: {3}.*)?$", SCENARIOS, re.M)
    return ["".join(re.sub(r" {3}.*", "", line[4:]) + "\n" for line in text.splitlines()) for text in found]


def wants_program(command: str) -> bool:
    return re.search(r"replay| drive | check |\.in", command) is not None


def is_current() -> bool:
    return subprocess.run([str(runs.ROOT / "tools" / "build"), "--is-current"], check=False).returncode == 0


class Commands(unittest.TestCase):
    def run_in_room(self, command: str) -> subprocess.CompletedProcess:
        """Runs a command over a copy of the scenarios, so that nothing is left in the checkout."""
        with tempfile.TemporaryDirectory() as room:
            for name in ("examples", "tests/rows"):
                shutil.copytree(runs.ROOT / name, Path(room) / name)
            os.symlink(runs.ROOT / "xrf", Path(room) / "xrf")
            command = command.replace("DIR", "examples")
            return subprocess.run(["bash", "-c", f"PATH=.:$PATH; {command}"], cwd=room, capture_output=True, text=True,
                                  timeout=120, check=False)

    def check(self, command: str) -> None:
        done = self.run_in_room(command)
        said = re.sub(r"xrf: .* was not replayed, since the program is not built.*\n", "", done.stderr)
        self.assertEqual((done.returncode, said), (0, said if "--junit" in command else ""), command)

    def test_what_needs_no_program_runs(self) -> None:
        found = [command for command in commands() if not wants_program(command)]
        self.assertGreaterEqual(len(found), 3)
        for command in found:
            self.check(command)

    @unittest.skipUnless(is_current(), "the program is not built, so what README types with it was not run")
    def test_what_needs_the_program_runs(self) -> None:
        for command in filter(wants_program, commands()):
            self.check(command)

    @unittest.skipUnless(is_current(), "the program is not built, so no refusal of it was told")
    def test_how_many_steps_can_be_made_is_told(self) -> None:
        done = self.run_in_room("printf 'XRF 1\\nCHOICES\\nSTART A ACTIVE\\nSTEP A 30\\nEND\\n' | ./xrf explain -")
        self.assertIn("1 act was made", done.stdout)
        self.assertIn("Right would be: STEP A 11.", done.stdout)
        self.assertEqual(done.stderr, "")

    @unittest.skipUnless(is_current(), "the program is not built, so no scenario of docs/SCENARIOS.md was run")
    def test_each_scenario_of_the_page_of_the_language_runs(self) -> None:
        found = scenarios()
        self.assertEqual(len(found), SCENARIOS.count("\n    XRF "))
        self.assertGreaterEqual(len(found), 2)
        for text in found:
            done = subprocess.run([str(PROGRAM), "replay"], input=text, capture_output=True, text=True, timeout=120, check=False)
            self.assertEqual((done.returncode, done.stderr), (0, ""), text + done.stdout)

    @unittest.skipUnless(is_current(), "the program is not built, so the short session of README was not run")
    def test_the_short_session_is_what_is_written(self) -> None:
        text = "\n".join(re.findall(r"^    (.*)$", README.split("## A short session")[1].split("\n## ")[0], re.M))
        for block in text.split("$ ")[1:]:
            command, _, wanted = block.partition("\n")
            done = self.run_in_room(command.split("; echo")[0])
            got = done.stdout + (f"{done.returncode}\n" if "; echo $?" in command else "")
            pattern = re.escape(wanted.rstrip("\n")).replace(r"\.\.", r"(?s:.*)")
            self.assertRegex(got.rstrip("\n"), f"^{pattern}$", command)


class Report(unittest.TestCase):
    """docs/REPORT.md has a row for each word that documents have, and reads a stored document line by line."""

    PAGE = (runs.ROOT / "docs" / "REPORT.md").read_text()

    def part(self, title: str) -> str:
        return re.split(r"^## ", self.PAGE.split(f"## {title}\n")[1], flags=re.M)[0]

    def test_each_act_decision_end_and_answer_of_the_documents_has_its_row(self) -> None:
        acts, decisions, ends, answers = map(self.part, ("The acts", "Decisions", "How a region ends", "Answers of items"))
        for name in runs.names():
            document = runs.document(name)
            for entry in document.entries:
                words = re.sub(r"^ACT \d+ \d+ \S+ \d+ (?:STOP (?=.)|FAIL )?", "", entry.line).split(" ")
                self.assertRegex(acts, rf"`{words[0]}\b", entry.line)
                if words[0] == "DECIDE":
                    self.assertRegex(decisions, rf"`{' '.join(words[1:3]) if words[1] in ('START', 'END') else words[1]}\b", entry.line)
                if words[0] == "ENDED":
                    self.assertRegex(ends, rf"`{words[1]}\b", entry.line)
            for line in document.report.of("ITEM"):
                if (answer := line.split(" ")[2]) not in ("OPEN", "LOST"):
                    self.assertRegex(answers, rf"`{answer}\b", line)

    def test_the_takeover_is_read_as_it_is_stored(self) -> None:
        stored = (runs.ROOT / "examples" / "takeover_after_an_abend.out").read_text().splitlines()
        shown = re.findall(r"^    (\* .*)$", self.part("A takeover, line by line"), re.M)
        self.assertGreater(len(shown), 25)
        self.assertEqual([line for line in stored if line in shown], shown)


class Links(unittest.TestCase):
    def test_the_home_of_each_word_of_the_glossary_has_its_name(self) -> None:
        rows = re.findall(r"^\|.*\| `(\w+)`(?:, `(\w+)`)? \|$", (runs.ROOT / "docs/GLOSSARY.md").read_text(), re.M)
        self.assertGreater(len(rows), 40)
        for crate, name in rows:
            sources = [path for part in ("src", "specs") for path in (runs.ROOT / "crates" / crate / part).glob("**/*")]
            self.assertTrue(sources, crate)
            found = any(re.search(rf"\b{name}\b", path.read_text()) for path in sources if path.is_file())
            self.assertTrue(found, f"{crate}, {name}")

    def test_files_that_pages_name_are_there(self) -> None:
        pages = ["CONCEPTS", "TUTORIAL", "SCENARIOS", "REPORT", "FORMATS", "PROVED", "CONTRIBUTING"]
        for page in ("README.md", *(f"docs/{name}.md" for name in pages), "examples/README.md", "CHANGELOG.md", "tools/editors/README.md"):
            text = (runs.ROOT / page).read_text()
            for name in re.findall(r"`((?:docs|tests|tools|examples|bench)/[\w./]*)`", text):
                found = list(runs.ROOT.glob(name.rstrip("/") + "*"))
                self.assertTrue(found, f"{page}: {name}")


if __name__ == "__main__":
    unittest.main()
