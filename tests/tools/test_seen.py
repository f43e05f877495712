"""A picture as it is seen: its colours outside a browser, at each width of a window, and by contrast."""

import re
import shutil
import subprocess
import unittest
import zlib
from collections import Counter

import browser
import runs
from xrf_tools.picture.page import page, plain, style, svg
from xrf_tools.scene import build

RENDER = shutil.which("rsvg-convert")
# The least contrast of letters that all can read.
LEAST = 4.5


def luminance(colour: str) -> float:
    parts = [int(colour[place : place + 2], 16) / 255 for place in (1, 3, 5)]
    red, green, blue = (part / 12.92 if part <= 0.03928 else ((part + 0.055) / 1.055) ** 2.4 for part in parts)
    return 0.2126 * red + 0.7152 * green + 0.0722 * blue


def contrast(one: str, other: str) -> float:
    dark, light = sorted((luminance(one), luminance(other)))
    return (light + 0.05) / (dark + 0.05)


def pixels(png: bytes) -> Counter[bytes]:
    """How often each colour stands in a PNG of three or four bytes a pixel."""
    width, height = (int.from_bytes(png[place : place + 4], "big") for place in (16, 20))
    assert png[24] == 8 and png[25] in (2, 6), "not eight bits of red, green and blue"
    step = 3 if png[25] == 2 else 4
    data, place = b"", 8
    while place < len(png):
        length = int.from_bytes(png[place : place + 4], "big")
        if png[place + 4 : place + 8] == b"IDAT":
            data += png[place + 8 : place + 8 + length]
        place += length + 12
    raw, size, before = zlib.decompress(data), width * step, bytes(width * step)
    found: Counter[bytes] = Counter()
    for row in range(height):
        kind, line = raw[row * (size + 1)], bytearray(raw[row * (size + 1) + 1 : (row + 1) * (size + 1)])
        for at in range(size):
            left, up, corner = (line[at - step], before[at], before[at - step]) if at >= step else (0, before[at], 0)
            line[at] = line[at] + guess(kind, left, up, corner) & 255
        before = bytes(line)
        found.update(before[at : at + 3] for at in range(0, size, step))
    return found


def guess(kind: int, left: int, up: int, corner: int) -> int:
    if kind < 3:
        return (0, left, up)[kind]
    if kind == 3:
        return (left + up) // 2
    near = left + up - corner
    return min((left, up, corner), key=lambda value: abs(near - value))


class Colours(unittest.TestCase):
    def test_a_picture_that_stands_alone_has_its_colours_as_they_are(self) -> None:
        for name in runs.names():
            text = svg(build(runs.document(name)), name)
            self.assertNotIn("var(", text, name)
            self.assertNotIn("--", text.partition("</style>")[0], name)
        self.assertIn(".owner.A { fill: #cfe0f8; }", plain(style()))

    @unittest.skipUnless(RENDER, "rsvg-convert is missing, so no picture was rendered outside a browser")
    def test_a_picture_is_rendered_in_its_colours_outside_a_browser(self) -> None:
        for stored in ("takeover", "tutorial_07"):
            path = runs.ROOT / "docs/pictures" / f"{stored}.svg"
            done = subprocess.run([str(RENDER), "--zoom", "0.5", str(path)], capture_output=True, check=True)
            colours = pixels(done.stdout)
            whole = sum(colours.values())
            self.assertEqual(colours.most_common(1)[0][0], b"\xfd\xfd\xfb", stored)
            self.assertLess(sum(count for colour, count in colours.items() if max(colour) < 64) / whole, 0.1, stored)
            self.assertGreater(colours[b"\xcf\xe0\xf8"] + colours[b"\xf9\xdc\xc0"], 100, stored)

    def test_letters_stand_out_from_what_they_stand_on(self) -> None:
        for theme in re.findall(r":root[^{]*\{([^}]*)\}", style()):
            colours = dict(re.findall(r"--([a-z-]+): (#[0-9a-f]{6})", theme))
            for letters in ("ink", "dim", "a", "b", "stop", "operator"):
                for ground in ("paper", "panel", "touch"):
                    self.assertGreaterEqual(contrast(colours[letters], colours[ground]), LEAST, f"{letters} on {ground}")
            for site in ("a", "b"):
                self.assertGreaterEqual(contrast(colours[site], colours[f"{site}-band"]), LEAST, site)

    def test_a_picture_says_what_it_is(self) -> None:
        document = runs.document(runs.TAKEOVER)
        drawn = svg(build(document), "a takeover")
        self.assertIn("<title>a takeover</title><desc>A run of 302 acts from top to bottom, with a lane for CICSA at site A", drawn)
        self.assertIn("<noscript>", page(build(document), "a takeover"))
        for button in re.findall(r"<button[^>]*>", page(build(document), "a takeover")):
            self.assertRegex(button, r'aria-label="[a-z ]+"')


class Shown(unittest.TestCase):
    def test_the_bar_of_a_region_ends_at_the_act_that_ends_it(self) -> None:
        for name in runs.names():
            scene = build(runs.document(name))
            there = {line.split(" ")[1] for line in runs.document(name).report.lines if line.startswith("JOB ") and not line.endswith("NONE")}
            last = {span.lane: span for span in scene.spans if span.kind == "life"}
            for site, span in last.items():
                self.assertEqual(span.goes_on, site in there, f"{name}: {site}")

    def test_an_undo_shows_the_value_that_is_put_back(self) -> None:
        document = runs.document("takeover_after_an_abend")
        entry = next(entry for entry in document.entries if entry.act.verb == "UNDO")
        value = next(line.split(" ")[2] for line in document.report.lines if line.startswith(f"FILE {entry.act.words['record']} "))
        self.assertIn(f">{entry.act.words['record']} {value}</text>", svg(build(document), "x"))

    def test_format_and_levels_are_shown(self) -> None:
        name = next(name for name in runs.names() if runs.document(name).scenario.level == {"A": 1, "B": 2})
        self.assertIn("at site B, level 2</text>", svg(build(runs.document(name)), name))
        self.assertNotIn("level", svg(build(runs.document(runs.TAKEOVER)), "x").partition("</svg>")[0].partition("</style>")[2])


@unittest.skipUnless(browser.BROWSER, "chromium is missing, so no page was seen in a browser")
class Widths(unittest.TestCase):
    def test_the_act_that_is_stepped_to_is_in_view_at_each_width(self) -> None:
        made = page(build(runs.document(runs.TAKEOVER)), "a takeover")
        for width in (1024, 1280, 1920):
            with self.subTest(width):
                seen = browser.run(made, """
                    const picture = document.getElementById("picture");
                    const panel = document.querySelector("aside").getBoundingClientRect();
                    gathered.beside = panel.left > 0 && panel.width > 300 && panel.right <= innerWidth;
                    gathered.width = innerWidth;
                    gathered.hidden = [];
                    press("Home");
                    for (let act = 1; act <= 302; act += 1) {
                      press("ArrowRight");
                      const mark = document.querySelector(`g[data-k="${act}"] .mark`);
                      if (!mark) continue;
                      const box = mark.getBoundingClientRect(), view = picture.getBoundingClientRect();
                      const there = view.left <= box.left && box.right <= view.right && view.top <= box.top && box.bottom <= view.bottom;
                      if (!there) gathered.hidden.push(act);
                    }
                """, f"--window-size={width},768")
                self.assertEqual(seen["wrong"], [])
                self.assertEqual(seen["width"], width)
                self.assertTrue(seen["beside"])
                self.assertEqual(seen["hidden"], [])

    def test_below_that_the_panel_folds_under_the_picture(self) -> None:
        seen = browser.run(page(build(runs.document(runs.TAKEOVER)), "a takeover"), """
            const panel = document.querySelector("aside").getBoundingClientRect();
            gathered.under = panel.left === 0 && panel.top > 100;
        """, "--window-size=800,900")
        self.assertTrue(seen["under"])


if __name__ == "__main__":
    unittest.main()
