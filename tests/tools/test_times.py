"""The times of a takeover, beside the bounds that are proved of every run."""

import re
import unittest

import cuts
import runs
from xrf_tools.document import Document
from xrf_tools.source import replay
from xrf_tools.standing import Standing
from xrf_tools.story import summed_up
from xrf_tools.times import Takeover, Watch


def watched(document: Document) -> list[Watch]:
    standing = Standing(document)
    watches = [Watch(standing, site) for site in "AB"]
    for entry in document.entries:
        standing.take(entry)
        for watch in watches:
            watch.take(entry)
    return watches


def takeovers() -> list[Takeover]:
    return [takeover for name in runs.names() for watch in watched(runs.document(name)) for takeover in watch.takeovers]


class Times(unittest.TestCase):
    def told(self, name: str) -> str:
        text = "\n".join(summed_up(runs.document(name)))
        return re.sub(r"\s+", " ", text.partition("The times of a takeover")[2].partition("\n\n")[0])

    def test_no_takeover_comes_later_than_its_bound(self) -> None:
        found = takeovers()
        self.assertGreater(len(found), 20)
        for takeover in found:
            for step, tick in (("taking", takeover.taking), ("restart", takeover.restart)):
                bound = takeover.bounds.get(step)
                if bound:
                    self.assertLess(tick, bound.before, takeover)
        self.assertEqual({bound.ground for takeover in found for bound in takeover.bounds.values() if bound} & {"start", "told", "go"},
                         {"start", "told", "go"})

    def test_the_four_times_stand_beside_the_bounds(self) -> None:
        told = self.told(runs.TAKEOVER)
        for text in ("the last news of A before it in tick 1, the taking in tick 31, the through in tick 32, RESTARTED in tick 32.",
                     "Its taking came in tick 31, and had to come before tick 33: from act 26 in tick 1 on B stands by and may start it by "
                     "itself", "ADI + 2 ticks are enough", "Its restart came in tick 32, and had to come before tick 33", "2 ticks are enough"):
            self.assertIn(text, told)

    def test_a_bound_counts_from_where_its_premises_hold(self) -> None:
        told = self.told("step_10")
        self.assertIn("had to come before tick 13: from act 74 in tick 6 on", told)
        self.assertIn("It does not count from the last news on: the tick of act 74 comes before B has made the acts that it can.", told)

    def test_the_premise_that_does_not_hold_is_named(self) -> None:
        self.assertIn("No bound holds for its restart at the end of the run: the end of incarnation 1 is not confirmed.",
                      self.told("adi_at_its_boundary"))
        self.assertIn("B stands by and was told to, by a command or GO", self.told("the_operator_is_asked"))

    def test_a_run_without_a_takeover_has_no_times(self) -> None:
        self.assertEqual(self.told("torn_file_write"), "")

    @unittest.skipUnless(cuts.is_current(), "the program is not built, so when a region rests was not tried")
    def test_an_alternate_rests_exactly_where_the_program_has_no_act_of_it(self) -> None:
        tried = 0
        for name in runs.names():
            tried += self.rests_as_the_program(name)
        self.assertGreater(tried, 100)

    def rests_as_the_program(self, name: str) -> int:
        """At each tick of a takeover's run, with an alternate that does not wait for the other's reserve."""
        document, tried = runs.document(name), 0
        if not any(entry.act.verb == "DECIDE" and entry.act.words["decision"] == "START" for entry in document.entries):
            return 0
        head = runs.path(name).read_text().partition("\nCHOICES\n")[0]
        standing = Standing(document)
        watches = [Watch(standing, site) for site in "AB"]
        for entry in document.entries:
            for watch in watches:
                job = standing.jobs[watch.site]
                if entry.act.verb == "TICK" and job and job.incarnation and not job.is_owner and standing.reserve in ("", watch.site):
                    step = [*document.choices[: entry.number - 1], f"STEP {watch.site}"]
                    answer = replay("\n".join([head, "CHOICES", *step, "END", ""]), str(cuts.PROGRAM))
                    self.assertEqual(watch.rests(), answer.status == 8, f"{name}, before act {entry.number}")
                    tried += 1
            standing.take(entry)
            for watch in watches:
                watch.take(entry)
        return tried


if __name__ == "__main__":
    unittest.main()
