"""A run as columns for a terminal: a line for each act or round, with arrows to and from the data sets."""

from collections.abc import Iterator

from xrf_tools.acts import Act
from xrf_tools.picture.words import OPERATOR, cut, state_of, words_of
from xrf_tools.scene import Row, Scene, Span

FRONT = 12
STEP = 6
LEAST, MOST = 84, 240
COLOURS = {"A": "34", "B": "33", "-": "35"}
PLAIN = str.maketrans("●○◆■▼✕│┃┆▶◀─┄╳→…▐", "*o#=v%|H:><-.x>~[")


class Columns:
    """Where each column stands, for a width."""

    def __init__(self, scene: Scene, width: int) -> None:
        names = [name for name in ("CTL", "MSG", "LOG", "KEY", "FILE") if name != "KEY" or scene.has_keypoints]
        width = max(LEAST, min(width, MOST))
        middle = STEP * len(names) + 4
        self.lane = (width - FRONT - middle) // 2
        self.left = FRONT + self.lane
        self.sets = {name: self.left + 4 + STEP * place for place, name in enumerate(names)}
        self.right = self.left + middle + 1
        self.sites = {"A": self.left, "B": self.right}
        self.total = self.right + self.lane



class Lines:
    """The spans that reach each row, found by going down once."""

    def __init__(self, scene: Scene) -> None:
        self.coming = sorted(scene.spans, key=lambda span: span.first, reverse=True)
        self.there: list[Span] = []

    def at(self, row: int) -> list[Span]:
        while self.coming and self.coming[-1].first <= row:
            self.there.append(self.coming.pop())
        self.there = [span for span in self.there if span.last >= row]
        return self.there


def base(columns: Columns, there: list[Span]) -> list[str]:
    """The line of a row before its acts are drawn: the jobs, the owner, the reserve, a taking and the units."""
    line = [" "] * columns.total
    for at in columns.sets.values():
        line[at] = "│"
    for span in there:
        if span.kind == "life":
            line[columns.sites[span.lane]] = {"ACTIVE": "┃", "TRACKING": "│", "WAITING": "│"}.get(span.how, "┆")
        elif span.kind == "owner":
            line[columns.sets["CTL"]] = span.lane
        elif span.kind == "reserve":
            line[columns.sets["CTL"] - 1] = "▐"
        elif span.kind == "taking":
            line[columns.sets["CTL"] + 1] = "!"
    units = sum(span.kind == "unit" for span in there)
    if units:
        line[columns.sets["LOG"]] = str(min(units, 9))
    return line


def mark(act: Act) -> str:
    if act.how in ("stopped", "failed"):
        return "✕"
    if act.verb in OPERATOR:
        return "▼"
    marks = {"DECIDE": "◆", "ITEM": "■", "CLT": "■", "RESTARTED": "■", "ENDED": "✕"}
    return marks.get(act.verb, "○" if act.reads else "●")


def arrow(line: list[str], columns: Columns, act: Act, site: str) -> None:
    """Draws from the region to its data set, or from the data set to the region."""
    name = act.writes or act.reads
    if name not in columns.sets:
        return
    side = 1 if site == "A" else -1
    near, far = columns.sites[site] + side, columns.sets[name] - side
    lands = act.how == "made" or act.landing in ("ALL", "TORN")
    for at in range(near, far + side, side):
        line[at] = "┄" if act.reads else "─"
    if act.reads:
        line[near] = "◀" if site == "A" else "▶"
    else:
        line[far] = ("▶" if site == "A" else "◀") if lands else "╳"
    if act.landing == "TORN":
        line[far - side] = "╳"


def round_arrows(line: list[str], columns: Columns, row: Row) -> None:
    """The looks, with the heads of the signals at their other ends."""
    for step in row.steps:
        if step.entry.act.reads:
            arrow(line, columns, step.entry.act, row.site)
    side = 1 if row.site == "A" else -1
    for step in row.steps:
        if step.entry.act.writes:
            head = "╳" if step.entry.act.how == "lost" else "▶" if side > 0 else "◀"
            line[columns.sets[step.entry.act.writes] - side] = head


def put(line: list[str], at: int, text: str) -> None:
    line[at : at + len(text)] = list(text)


def line_of(row: Row, columns: Columns, there: list[Span]) -> str:
    line = base(columns, there)
    step = row.steps[-1]
    entry = step.entry
    put(line, 0, f"{row.steps[0].entry.number:>5} {entry.tick:>4}")
    if row.site == "-":
        put(line, columns.sets["MSG"] - 2, f" {entry.text}{f' {entry.tick}' if row.is_tick else ''} ")
        return "".join(line).rstrip()
    if row.is_round:
        round_arrows(line, columns, row)
    else:
        arrow(line, columns, entry.act, row.site)
    line[columns.sites[row.site]] = mark(entry.act)
    state = f" → {state_of(step)}" if state_of(step) else ""
    text = cut(words_of(row), columns.lane - 2 - len(state)) + state
    put(line, columns.left - 1 - len(text) if row.site == "A" else columns.right + 2, text)
    return "".join(line).rstrip()


def head(scene: Scene, columns: Columns) -> str:
    line = [" "] * columns.total
    put(line, 2, "act tick")
    applid = scene.document.scenario.applid
    left = cut(f"{applid['A']} at A", columns.lane)
    put(line, columns.left + 1 - len(left), left)
    put(line, columns.right, f"{applid['B']} at B")
    for name, at in columns.sets.items():
        put(line, at - 1, name)
    return "".join(line).rstrip()


LEGEND = (
    "● write or other act, ○ read, ◆ decision, ■ item, command list or restart, ▼ operator or exit, ✕ stop, failure or end;",
    "─▶ a write, ─╳ one that did not land, ╳▶ a torn one, ┄ a read; under CTL the owner's site, ▐ the reserve, ! a taking;",
    "under LOG the number of units of work that are open or in flight.",
)


def columns(scene: Scene, width: int, colour: bool) -> Iterator[str]:
    """The lines, the legend behind them."""
    where, lines = Columns(scene, width), Lines(scene)
    yield head(scene, where)
    for place, row in enumerate(scene.rows):
        text = line_of(row, where, lines.at(place))
        stopped = row.steps[-1].entry.act.how in ("stopped", "failed")
        yield f"\x1b[{'31' if stopped else COLOURS[row.site]}m{text}\x1b[0m" if colour else text
    yield ""
    yield from LEGEND
