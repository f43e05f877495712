"""The SVG of a scene, in parts of some rows each, so that a browser lays out only those that are seen."""

from collections.abc import Iterator
from html import escape

from xrf_tools.acts import Act
from xrf_tools.picture.plan import GUTTER, MOST_BESIDE, NAMES, Plan
from xrf_tools.picture.words import MOST_LETTERS, OPERATOR, cut, letters_beside, state_of, words_of
from xrf_tools.scene import Row, Scene, Span, Step

PART = 64
HEAD = 36
# How far apart the marks of a round stand.
BESIDE = 13


def parts(scene: Scene, plan: Plan, size: int = PART) -> Iterator[tuple[str, int]]:
    """The parts from top to bottom, of `size` rows each, each an SVG of its own, with its height."""
    count = len(scene.rows)
    for first in range(0, count, size):
        last = min(first + size, count)
        top = 0 if first == 0 else plan.tops[first]
        bottom = plan.height if last == count else plan.tops[last]
        drawn = [lines(plan, top, bottom)]
        drawn += [span_of(span, plan) for span in scene.spans if crosses(span, plan, top, bottom)]
        drawn += [row_of(scene.rows[row], plan, row) for row in range(first, last)]
        height = bottom - top
        box = f'viewBox="0 {top} {plan.width} {height}" width="{plan.width}" height="{height}"'
        yield f'<svg class="part" xmlns="http://www.w3.org/2000/svg" {box}>{"".join(drawn)}</svg>', height


def crosses(span: Span, plan: Plan, top: int, bottom: int) -> bool:
    first, last = plan.reach(span)
    return first <= bottom and last >= top


def lines(plan: Plan, top: int, bottom: int) -> str:
    """The line of each data set."""
    return "".join(f'<path class="line" d="M{x} {top}V{bottom}"/>' for name, x in plan.lines.items() if name not in "AB")


# Spans.

def span_of(span: Span, plan: Plan) -> str:
    first, last = plan.reach(span)
    return SPANS[span.kind](span, plan, first, last)


def bar(css: str, x: float, width: int, first: int, last: int, title: str) -> str:
    return (f'<rect class="{css}" x="{x}" y="{first}" width="{width}" height="{last - first}">'
            f"<title>{escape(title)}</title></rect>")


def life(span: Span, plan: Plan, first: int, last: int) -> str:
    number = f" incarnation {span.label}" if span.label else ""
    return bar(f"life {span.lane} {span.how}", plan.lines[span.lane] - 5, 10, first, last, f"{span.lane}{number}: {span.how}")


def owner(span: Span, plan: Plan, first: int, last: int) -> str:
    x = plan.lines["CTL"]
    text = f'<text class="small {span.lane}" x="{x + 3}" y="{first + 12}">{span.label}.{span.lane}</text>'
    return bar(f"owner {span.lane}", x - 30, 60, first, last, f"the owner is incarnation {span.label} of {span.lane}") + text


def taking(span: Span, plan: Plan, first: int, last: int) -> str:
    x = plan.lines["CTL"]
    text = f'<text class="small {span.lane}" x="{x + 42}" y="{first + 12}">{span.label}</text>'
    return bar(f"taking {span.lane}", x + 30, 9, first, last, f"{span.lane} takes over: {span.label}") + text


def reserve(span: Span, plan: Plan, first: int, last: int) -> str:
    return bar(f"reserve {span.lane}", plan.lines["CTL"] - 40, 8, first, last, f"the reserve is held by {span.lane}")


def unit(span: Span, plan: Plan, first: int, last: int) -> str:
    x = plan.lines["LOG"] + 8 + 9 * (span.place % MOST_BESIDE)
    how = {"COMMIT": "committed", "BACKOUT": "backed out", "EMPTY": "ended with no record", "open": "open at the end"}
    title = f"unit {span.label}: {how.get(span.how, span.how)}"
    dots = "".join(f'<circle class="put" cx="{x + 3}" cy="{plan.middle(row)}" r="3"/>' for row in span.marks)
    end = {"COMMIT": f'<path class="done" d="M{x - 2} {last}h10"/>',
           "BACKOUT": f'<path class="undone" d="M{x - 1} {last - 4}l8 8m0 -8l-8 8"/>'}.get(span.how, "")
    name = f'<text class="small" x="{x - 1}" y="{first - 2}">{escape(span.label)}</text>'
    return bar(f"unit {span.how}", x, 6, first, last, title) + dots + end + name


def message(span: Span, plan: Plan, first: int, last: int) -> str:
    x = plan.lines["MSG"] + 7 + 5 * (span.place % MOST_BESIDE)
    title = f"<title>{escape(span.label)}{', not read' if span.how == 'unread' else ''}</title>"
    if span.how == "unread":
        return f'<circle class="message" cx="{x}" cy="{first}" r="2.5">{title}</circle>'
    return f'<path class="message {span.how}" d="M{x} {first}V{last}m-3 -5l3 5l3 -5">{title}</path>'


SPANS = {"life": life, "owner": owner, "taking": taking, "reserve": reserve, "unit": unit, "message": message}


# Rows.

def row_of(row: Row, plan: Plan, place: int) -> str:
    top, height = plan.tops[place], plan.heights[place]
    last = row.steps[-1].entry
    hit = f'<rect class="hit" y="{top}" width="{plan.width}" height="{height}"/>'
    if row.is_tick:
        inner = tick_of(plan, top, last.tick)
    elif row.site == "-":
        inner = middle_of(row.steps[0], plan, place)
    else:
        inner = "".join(acts_of(row, plan, place))
    return f'<g class="row" data-k="{last.number}">{hit}{number_of(row, plan, place)}{inner}</g>'


def number_of(row: Row, plan: Plan, place: int) -> str:
    if row.is_tick:
        return ""
    first, last = row.steps[0].entry.number, row.steps[-1].entry.number
    text = str(first) if first == last else f"{first}–{last}"
    return f'<text class="number" x="{GUTTER - 8}" y="{plan.middle(place) + 4}">{text}</text>'


def tick_of(plan: Plan, top: int, tick: int) -> str:
    return (f'<path class="tick" d="M{GUTTER} {top + 9}H{plan.width}"/>'
            f'<text class="tick" x="{GUTTER - 8}" y="{top + 13}">tick {tick}</text>')


def middle_of(step: Step, plan: Plan, place: int) -> str:
    x, y = plan.lines["MSG"], plan.middle(place)
    return f'<text class="operator" x="{x}" y="{y + 4}" text-anchor="middle">{escape(step.entry.text)}</text>'


def acts_of(row: Row, plan: Plan, place: int) -> Iterator[str]:
    """The arrows and marks of a row's acts, and its text."""
    site, y = row.site, plan.middle(place)
    side = -1 if site == "A" else 1
    x = plan.lines[site]
    for step in row.steps:
        yield arrow(step, site, plan, y)
    left = x - BESIDE * (len(row.steps) - 1) if site == "A" else x
    for count, step in enumerate(row.steps):
        yield f'<g data-k="{step.entry.number}">{mark(step.entry.act, site, left + BESIDE * count, y)}</g>'
    yield text_of(row, x + side * BESIDE * len(row.steps), y)


def text_of(row: Row, x: int, y: int) -> str:
    step = row.steps[-1]
    act = step.entry.act
    state = state_of(step)
    text = cut(words_of(row), MOST_LETTERS - letters_beside(row))
    css = "act stop" if act.how in ("stopped", "failed") else "act operator" if act.verb in OPERATOR else "act"
    anchor = ' text-anchor="end"' if row.site == "A" else ""
    tag = f'<tspan class="state"> → {state}</tspan>' if state else ""
    return f'<text class="{css}" x="{x}" y="{y + 4}"{anchor}>{escape(text)}{tag}</text>'


def mark(act: Act, site: str, x: int, y: int) -> str:
    if act.how in ("stopped", "failed"):
        return f'<path class="mark stop" d="M{x - 5} {y - 5}l10 10m0 -10l-10 10"/>'
    if act.verb == "ENDED":
        return f'<path class="mark {site} end" d="M{x - 6} {y}h12"/>'
    if act.verb == "DECIDE":
        return f'<path class="mark {site}" d="M{x} {y - 5}l5 5l-5 5l-5 -5z"/>'
    if act.verb == "START":
        return f'<path class="mark {site}" d="M{x - 5} {y - 4}h10l-5 8z"/>'
    if act.verb in OPERATOR:
        return f'<rect class="mark operator" x="{x - 4}" y="{y - 4}" width="8" height="8"/>'
    if act.verb in ("ITEM", "CLT", "RESTARTED"):
        return f'<rect class="mark {site}" x="{x - 4}" y="{y - 4}" width="8" height="8"/>'
    css = "hollow" if act.reads else "filled"
    return f'<circle class="mark {site} {css}" cx="{x}" cy="{y}" r="4"/>'


def arrow(step: Step, site: str, plan: Plan, y: int) -> str:
    """A write goes to its data set, a read comes from it."""
    act = step.entry.act
    name = act.writes or act.reads
    if name not in plan.lines:
        return ""
    side = 1 if site == "A" else -1
    near, far = plan.lines[site] + side * 6, plan.lines[name]
    if act.reads:
        return f'<path class="read {site}" d="M{far} {y}H{near}m{side * 4} -3l{-side * 4} 3l{side * 4} 3"/>'
    css = f"write {site}" if act.how == "made" else "write cut"
    if act.how == "made" or act.landing == "ALL":
        return f'<path class="{css}" d="M{near} {y}H{far}m{-side * 5} -3l{side * 5} 3l{-side * 5} 3"/>' + value_of(step, plan, y)
    if act.landing == "TORN":
        return torn(act, side, near, far, y)
    short = far - side * 16
    return f'<path class="{css}" d="M{near} {y}H{short}"/><path class="lost" d="M{short} {y - 4}l8 8m0 -8l-8 8"/>'


def torn(act: Act, side: int, near: int, far: int, y: int) -> str:
    """A write that was cut short: a broken arrow, with the bytes that landed."""
    first = far - side * 20
    zigzag = "".join(f"l{side * 3} {dy}" for dy in (-4, 8, -8, 4))
    text = act.torn.hex() if len(act.torn) <= 4 else f"{act.torn[:3].hex()}… {len(act.torn)} bytes"
    anchor = "start" if side > 0 else "end"
    return (f'<path class="write cut" d="M{near} {y}H{first}{zigzag}H{far}"/>'
            f'<text class="small landed" x="{far + side * 4}" y="{y - 3}" text-anchor="{anchor}">{text}</text>')


def value_of(step: Step, plan: Plan, y: int) -> str:
    """What a write of the file leaves there."""
    act = step.entry.act
    if act.verb not in ("FILEWRITE", "UNDO"):
        return ""
    record = act.words["record"]
    value = act.words.get("value", step.changes.get(f"file {record}", ""))
    text = cut(f"{record} {value or 'empty'}", 14)
    return f'<text class="small" x="{plan.lines["FILE"] + 5}" y="{y + 4}">{escape(text)}</text>'


def heads(scene: Scene, plan: Plan) -> str:
    """The names above the lanes, as an SVG of its own."""
    scenario = scene.document.scenario
    drawn = [f'<text class="head" x="{GUTTER - 8}" y="26" text-anchor="end">act</text>']
    for name, x in plan.lines.items():
        if name in "AB":
            level = f", level {scenario.level[name]}" if scenario.format == 2 else ""
            anchor, at = ("end", x + 5) if name == "A" else ("start", x - 5)
            drawn.append(f'<text class="head {name}" x="{at}" y="26" text-anchor="{anchor}">{scenario.applid[name]} at site {name}{level}</text>')
        else:
            drawn.append(f'<text class="head" x="{x}" y="26" text-anchor="middle">{NAMES[name]}</text>')
    box = f'width="{plan.width}" height="{HEAD}" viewBox="0 0 {plan.width} {HEAD}"'
    return f'<svg class="heads" {box}>{"".join(drawn)}</svg>'
