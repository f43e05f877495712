"""Threaded runs of the built program: each document replays to itself, and its choices are those of a threaded run."""

import subprocess
import unittest
from concurrent.futures import ThreadPoolExecutor
from pathlib import Path

import runs
from test_docs import PROGRAM, is_current

EXAMPLES = runs.ROOT / "examples"
MOST = 8192
# as many steps in a second, and as many seconds, as there may be
LONG = """XRF 1
TAKEOVR AUTO
PACE 200
TICKS 200
WORK A LOGON T1 1
PLAN 0 START A ACTIVE
PLAN 1 START B STANDBY
PLAN 150 ABEND A
CHOICES
END
"""


def call(word: str, text: bytes) -> subprocess.CompletedProcess:
    return subprocess.run([str(PROGRAM), word], input=text, capture_output=True, timeout=120, check=False)


class Judge:
    """What the rules of a threaded run ask of choices, as far as a text tells it: the plan, PACE and TICKS."""

    def __init__(self, document: str) -> None:
        lines = document.split("\n")
        first, last = lines.index("CHOICES"), lines.index("END")
        settings = dict(line.split(" ", 1) for line in lines[:first] if line)
        self.pace, self.ticks = int(settings["PACE"]), int(settings["TICKS"])
        self.plan = [line.split(" ", 2)[1:] for line in lines[:first] if line.startswith("PLAN ")]
        self.choices = lines[first + 1:last]
        self.tick, self.line = 0, 0
        self.steps = {"A": 0, "B": 0}

    def fault(self) -> str:
        """What breaks a rule, or nothing."""
        for number, choice in enumerate(self.choices, 1):
            why = self.follow(choice)
            if why:
                return f"choice {number}, {choice}: {why}"
        is_over = self.tick == self.ticks or len(self.choices) == MOST
        return "" if is_over else f"it ends at tick {self.tick}"

    def follow(self, choice: str) -> str:
        word, *others = choice.split(" ")
        if word == "TICK":
            self.tick += 1
            self.steps = {"A": 0, "B": 0}
            return "" if self.tick <= self.ticks else "a tick behind the last"
        if word == "STEP":
            self.steps[others[0]] += 1
            is_in_pace = self.steps[others[0]] <= self.pace or self.tick == self.ticks
            return "" if is_in_pace else "more steps than PACE"
        return "" if word == "EXIT" else self.offer(choice)

    def offer(self, choice: str) -> str:
        """The next line of the plan that is this choice; those before it were refused when they were offered."""
        for line in range(self.line, len(self.plan)):
            tick, planned = self.plan[line]
            if int(tick) > self.tick:
                break
            if planned == choice:
                self.line = line + 1
                return ""
        return "it is not planned for now"


@unittest.skipUnless(is_current(), "the program is not built, so no threaded run was made")
class Threads(unittest.TestCase):
    def check(self, text: bytes) -> str:
        """Runs a scenario by threads, and gives its document."""
        done = call("run", text)
        self.assertEqual((done.returncode, done.stderr), (0, b""), done.stdout[-200:])
        self.assertEqual(call("replay", done.stdout).stdout, done.stdout)
        document = done.stdout.decode("ascii")
        self.assertEqual(Judge(document).fault(), "")
        return document

    def test_a_hundred_runs_of_a_plan_come_to_the_takeover(self) -> None:
        text = (EXAMPLES / "planned_takeover.in").read_bytes()
        with ThreadPoolExecutor(4) as pool:
            for document in pool.map(self.check, [text] * 100):
                self.assertIn("\n* JOB A NONE\n* JOB B 2 ACTIVE\n", document)
                self.assertIn("\n* FILE 1 BALANCE-150\n", document)

    def test_thirty_two_runs_at_once(self) -> None:
        text = (EXAMPLES / "confirmed_takeover.in").read_bytes()
        with ThreadPoolExecutor(32) as pool:
            for document in pool.map(self.check, [text] * 32):
                self.assertIn("\n* FILE 2 PAID\n", document)

    def test_the_longest_seconds_and_the_most_of_them(self) -> None:
        self.assertIn("\n* TICK 200\n", self.check(LONG.encode()))

    def test_the_exit_of_the_program_drops_a_lost_alternate(self) -> None:
        document = self.check((EXAMPLES / "dropped_alternate.in").read_bytes())
        self.assertIn("\nEXIT A DROP\n", document)

    def test_a_choice_is_refused_at_its_line(self) -> None:
        done = call("run", LONG.encode().replace(b"CHOICES\n", b"CHOICES\nTICK\n"))
        self.assertEqual((done.returncode, done.stdout), (8, b"XRF REFUSED LINE 10 CHOICES-GIVEN\n"))


class Judging(unittest.TestCase):
    def fault(self, name: str, *changes: tuple[str, str]) -> str:
        document = Path(EXAMPLES / f"{name}.out").read_text()
        for old, new in changes:
            self.assertIn(old, document)
            document = document.replace(old, new, 1)
        return Judge(document).fault()

    def test_what_breaks_a_rule_is_found(self) -> None:
        self.assertEqual(self.fault("planned_takeover"), "")
        self.assertIn("not planned", self.fault("planned_takeover", ("PLAN 6 ABEND A", "PLAN 7 ABEND A")))
        self.assertIn("not planned", self.fault("planned_takeover", ("\nABEND A", "\nABEND B")))
        self.assertIn("more steps", self.fault("planned_takeover", ("\nPACE 20\n", "\nPACE 10\n")))
        self.assertIn("behind the last", self.fault("planned_takeover", ("\nTICKS 12\n", "\nTICKS 11\n")))
        self.assertIn("it ends", self.fault("planned_takeover", ("\nTICKS 12\n", "\nTICKS 13\n")))


if __name__ == "__main__":
    unittest.main()
