"""The page of a run with the keyboard alone: each control can be reached, has a name, and shows that it has the focus."""

import unittest

import browser
import runs
from xrf_tools.picture.page import page
from xrf_tools.scene import build


@unittest.skipUnless(browser.BROWSER, "chromium is missing, so no page was seen in a browser")
class Keys(unittest.TestCase):
    def test_each_control_is_reached_by_keys_has_a_name_and_shows_the_focus(self) -> None:
        seen = browser.run(page(build(runs.document(runs.TAKEOVER)), "a takeover"), """
            gathered.controls = [...document.querySelectorAll("button, input, summary, [tabindex]")].map((it) => {
              it.focus();
              return [document.activeElement === it, it.tabIndex, (it.getAttribute("aria-label") || it.title || it.textContent).trim(),
                getComputedStyle(it).outlineStyle];
            });
        """)
        self.assertEqual(seen["wrong"], [])
        self.assertGreater(len(seen["controls"]), 9)
        for has_focus, order, name, outline in seen["controls"]:
            self.assertTrue(has_focus and order == 0 and name and outline != "none", name)


if __name__ == "__main__":
    unittest.main()
