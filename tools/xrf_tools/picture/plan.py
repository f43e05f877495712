"""Where everything stands in a picture, in pixels."""

from dataclasses import dataclass

from xrf_tools.picture.words import letters_of
from xrf_tools.scene import Scene, Span

GUTTER = 72
# What a letter takes, and a lane beside its letters; the least is for the name above it.
LETTER = 7
LANE = 23
LEAST_LANE = 160
GAP = 26
ROW = 20
TICK = 18
FOOT = 14
SETS = {"CTL": 104, "MSG": 92, "LOG": 110, "KEY": 56, "FILE": 140}
NAMES = {"CTL": "control", "MSG": "messages", "LOG": "unit log", "KEY": "keypoints", "FILE": "file"}
# Beside each other at most this many units and messages; more of them lie over each other.
MOST_BESIDE = 8


@dataclass(frozen=True)
class Plan:
    """The x of each lane's line, and the top of each row."""

    lines: dict[str, int]
    tops: list[int]
    heights: list[int]
    width: int
    height: int

    def middle(self, row: int) -> int:
        return self.tops[row] + self.heights[row] // 2

    def reach(self, span: Span) -> tuple[int, int]:
        """The first and last y of a span; one that is open reaches the end of the picture."""
        is_to_the_end = span.how == "open" or span.kind == "life" and span.goes_on
        last = self.height if is_to_the_end else self.middle(span.last)
        return self.middle(span.first), max(last, self.middle(span.first) + 4)


def lane(scene: Scene, site: str) -> int:
    """How wide the words of a site stand beside its line."""
    letters = max((letters_of(row) for row in scene.rows if row.site == site), default=0)
    return max(LEAST_LANE, LANE + LETTER * letters)


def plan(scene: Scene) -> Plan:
    x = GUTTER + lane(scene, "A")
    lines = {"A": x}
    x += GAP
    for name, width in SETS.items():
        if name != "KEY" or scene.has_keypoints:
            lines[name] = x + width // 2 - (20 if name == "FILE" else 0)
            x += width
    lines["B"] = x + GAP
    tops, heights, y = [], [], 8
    for row in scene.rows:
        tops.append(y)
        heights.append(TICK if row.is_tick else ROW)
        y += heights[-1]
    return Plan(lines, tops, heights, lines["B"] + lane(scene, "B"), y + FOOT)
