"""The built program, over runs that are made here: a stop in each write with each landing, a failure of each act that may
fail, and the most choices. What is left is compared with the book of the committed units, and each report with what
stands after its ACT lines."""

import unittest

import cuts
from cuts import Base
from xrf_tools.document import Document, read


@unittest.skipUnless(cuts.is_current(), "the program is not built, so no run of it was cut off")
class Cuts(unittest.TestCase):
    def check(self, document: Document) -> None:
        self.assertEqual(cuts.stand(document).report(), cuts.told(document))

    def check_restart(self, base: Base, choices: list[str]) -> None:
        with self.subTest(base.name, cut=len(choices), by=choices[-1]):
            document = base.restarted(choices)
            self.assertIsNotNone(document, "it does not restart")
            self.assertEqual(cuts.file_of(document), cuts.book(document))
            self.check(document)

    def test_after_a_stop_in_any_write_a_restart_finds_the_book(self) -> None:
        for base in map(Base, cuts.BASES):
            for entry in base.places():
                for landing in cuts.landings(entry):
                    self.check_restart(base, [*base.before(entry), f"STOP {entry.site} {landing}"])

    def test_after_a_failure_of_any_act_a_restart_finds_the_book(self) -> None:
        for base in map(Base, cuts.BASES):
            for entry in base.places():
                for landing in cuts.failures(entry):
                    failed = [*base.before(entry), f"FAIL {entry.site} {landing}"]
                    self.check_restart(base, base.stepped(failed, entry.site, 8))

    def test_no_other_act_may_fail(self) -> None:
        for base in map(Base, cuts.BASES):
            for entry in base.places():
                for landing in {"NONE", "ALL"} - set(cuts.failures(entry)):
                    with self.subTest(base.name, act=entry.text):
                        self.assertTrue(base.refused([*base.before(entry), f"FAIL {entry.site} {landing}"]))

    def test_in_a_run_of_the_most_choices_the_log_and_the_messages_go_round(self) -> None:
        out = cuts.replay(cuts.longest())
        document = read("longest", out)
        self.assertEqual(len(document.entries), 8192)
        opened = [entry.act for entry in document.entries if entry.act.verb in ("LOGOPEN", "MSGOPEN")]
        self.assertGreater(sum(act.verb == "LOGOPEN" for act in opened), 10 * 64)
        self.assertGreater(sum(act.verb == "MSGOPEN" for act in opened), 10 * 4)
        self.check(document)
        self.assertEqual(cuts.replay(out), out)


if __name__ == "__main__":
    unittest.main()
