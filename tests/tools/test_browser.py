"""The page of a run in a real browser: hovering, stepping, and a run of the most acts."""

import unittest

import browser
import runs
from xrf_tools.document import read
from xrf_tools.picture.page import page
from xrf_tools.scene import build


@unittest.skipUnless(browser.BROWSER, "chromium is missing, so no page was seen in a browser")
class Browser(unittest.TestCase):
    def test_hovering_shows_the_line_and_what_it_means(self) -> None:
        seen = browser.run(page(build(runs.document(runs.TAKEOVER)), "a takeover"), """
            const hover = document.getElementById("hover");
            gathered.before = hover.hidden;
            over(document.querySelector('[data-k="295"] .hit'));
            gathered.line = hover.firstChild.textContent;
            gathered.sentence = hover.lastChild.textContent;
            gathered.shown = !hover.hidden && hover.getBoundingClientRect().width > 50;
            over(document.querySelector('.row [data-k="276"]'));
            gathered.within = hover.firstChild.textContent;
            document.getElementById("picture").dispatchEvent(new MouseEvent("mouseleave"));
            gathered.after = hover.hidden;
        """)
        self.assertEqual(seen["wrong"], [])
        self.assertEqual(seen["line"], "ACT 295 32 B 2 CTLWRITE 2 OWNER 2.B.RUNNING ALT NONE TAKING NONE")
        self.assertIn("B goes through", seen["sentence"])
        self.assertEqual(seen["within"], "ACT 276 31 B 2 SIGNAL2 32 4")
        self.assertTrue(seen["before"] and seen["shown"] and seen["after"])

    def test_keys_slider_and_clicks_step_through_the_run(self) -> None:
        seen = browser.run(page(build(runs.document(runs.TAKEOVER)), "a takeover"), """
            const row = (name) => [...document.querySelectorAll("#standing tr")]
              .filter((it) => it.firstChild.textContent.trim() === name).map((it) => it.lastChild.textContent);
            gathered.begin = text("line");
            press("End");
            gathered.end = text("line");
            gathered.fileAtTheEnd = row("1");
            press("Home");
            gathered.home = text("line");
            press("ArrowRight"); press("ArrowRight"); press("j");
            gathered.third = text("line");
            press("PageDown");
            gathered.tick = text("line");
            press("PageUp"); press("k");
            gathered.back = text("line");
            const slider = document.getElementById("slider");
            slider.value = 59; slider.dispatchEvent(new Event("input"));
            gathered.slid = [text("line"), row("1")[0], row("owner")[0], row("1.2")[0]];
            document.querySelector('.row[data-k="50"] .hit').dispatchEvent(new MouseEvent("click", { bubbles: true }));
            gathered.clicked = [text("line"), row("1")[0], document.querySelectorAll(".row.on").length];
            document.getElementById("on").click();
            gathered.button = text("line");
            gathered.hash = location.hash;
            press("End");
            gathered.scrolled = document.getElementById("picture").scrollTop > 500;
            const paper = () => getComputedStyle(document.body).backgroundColor;
            const first = paper();
            document.getElementById("theme").click();
            gathered.themes = [first, paper()];
        """)
        self.assertEqual(seen["wrong"], [])
        self.assertEqual(seen["begin"], "before the first of 302 acts")
        self.assertEqual(seen["end"], "ACT 302 32 B 2 RESTARTED")
        self.assertIn("BALANCE-150", seen["fileAtTheEnd"])
        self.assertEqual(seen["home"], "before the first of 302 acts")
        self.assertEqual(seen["third"], "ACT 3 0 A 0 CTLREAD")
        self.assertEqual(seen["tick"], "ACT 24 1 - 0 TICK")
        self.assertEqual(seen["back"], "ACT 22 0 B 2 DECIDE NOTHING")
        self.assertEqual(seen["slid"], ["ACT 59 1 A 1 FILEWRITE 1.2 1 BALANCE-900", "BALANCE-900", "1.A.RUNNING", "U2 open"])
        self.assertEqual(seen["clicked"], ["ACT 50 1 A 1 FILEWRITE 1.1 1 BALANCE-150", "BALANCE-150", 1])
        self.assertEqual(seen["button"], "ACT 51 1 A 1 ITEM 6")
        self.assertEqual(seen["hash"], "#act=51")
        self.assertTrue(seen["scrolled"])
        self.assertNotEqual(*seen["themes"])

    def test_a_run_of_the_most_acts_stays_usable(self) -> None:
        seen = browser.run(page(build(read("long", runs.Long().text())), "the most acts"), """
            const took = (call) => Math.min(...[1, 2, 3, 4, 5].map(() => {
              const began = performance.now();
              call();
              document.body.getBoundingClientRect();
              return performance.now() - began;
            }));
            gathered.acts = document.getElementById("slider").max;
            gathered.home = took(() => press("Home"));
            gathered.end = took(() => press("End"));
            gathered.step = took(() => press("ArrowLeft"));
            gathered.line = text("line");
            const slider = document.getElementById("slider");
            gathered.seen = [4000, 12, 8000].map((act) => {
              slider.value = act; slider.dispatchEvent(new Event("input"));
              const box = document.querySelector(".row.on").getBoundingClientRect();
              return 30 < box.top && box.bottom < innerHeight;
            });
        """)
        self.assertEqual(seen["wrong"], [])
        self.assertEqual(seen["acts"], "8192")
        self.assertEqual(seen["seen"], [True, True, True])
        self.assertTrue(seen["line"].startswith("ACT 8187 "))
        for name in ("home", "end", "step"):
            self.assertLess(seen[name], 1000, name)

    def test_keypoints_and_an_empty_trace_are_drawn_with_nothing_wrong(self) -> None:
        for name in ("a_torn_keypoint_close_that_closes_the_slot", "the_empty_trace"):
            with self.subTest(name):
                seen = browser.run(page(build(runs.document(name)), name), """
                    press("Home"); press("ArrowRight"); press("End");
                    gathered.rows = document.querySelectorAll(".row").length;
                """)
                self.assertEqual(seen["wrong"], [])


if __name__ == "__main__":
    unittest.main()
