"""What a picture of a run shows, apart from how it is drawn.

A scene has rows from top to bottom, an act each, or the acts of a round together; and spans, which are what lasts over
rows: a job in its states, the owner, the reserve, a taking, a unit of work, and a message from writer to reader.
"""

from dataclasses import dataclass, field, replace

from xrf_tools.document import Document, Entry
from xrf_tools.meaning import tell
from xrf_tools.standing import Event, Standing

ROUND = ("SIGNAL1", "SIGNAL2", "LOOK1", "LOOK2", "DECIDE")


@dataclass(frozen=True)
class Step:
    """An act, what it means, and what it changed."""

    entry: Entry
    sentence: str
    changes: dict[str, str]
    events: tuple[Event, ...]
    item: str = ""


@dataclass
class Row:
    """The steps that are drawn beside each other: one, or a round."""

    steps: list[Step]

    @property
    def site(self) -> str:
        return self.steps[0].entry.site

    @property
    def is_round(self) -> bool:
        return len(self.steps) > 1

    @property
    def is_tick(self) -> bool:
        return self.steps[0].entry.act.verb == "TICK"


@dataclass
class Span:
    """What lasts from a row to a row: `kind` says what, `lane` whose, `place` which of several beside each other, and
    `goes_on` that it does not end there."""

    kind: str
    lane: str
    label: str
    first: int
    last: int = -1
    how: str = ""
    place: int = 0
    marks: list[int] = field(default_factory=list)
    goes_on: bool = False


@dataclass
class Scene:
    document: Document
    first: dict[str, str]
    rows: list[Row] = field(default_factory=list)
    spans: list[Span] = field(default_factory=list)

    @property
    def steps(self) -> list[Step]:
        return [step for row in self.rows for step in row.steps]

    @property
    def has_keypoints(self) -> bool:
        return any("KEY" in (step.entry.act.writes, step.entry.act.reads) for step in self.steps)


class Building:
    """Takes the entries of a document one after the other, and gathers rows and spans."""

    def __init__(self, document: Document) -> None:
        self.standing = Standing(document)
        self.scene = Scene(document, dict(self.standing.shown))
        self.open: dict[tuple[str, str], Span] = {}
        self.round: list[Step] = []

    def build(self) -> Scene:
        for entry in self.standing.document.entries:
            sentence = tell(self.standing, entry)
            step = Step(entry, sentence, dict(self.standing.changes), tuple(self.standing.events), self.item(entry))
            self.add(step)
            self.spans(step)
        self.flush()
        for span in self.open.values():
            span.last, span.how, span.goes_on = len(self.scene.rows) - 1, span.how or "open", True
        self.scene.spans.sort(key=lambda span: (span.first, span.kind, span.lane))
        return self.scene

    def item(self, entry: Entry) -> str:
        """The words of the item that is taken."""
        if entry.act.verb != "ITEM":
            return ""
        return " ".join(self.standing.scenario.item(entry.site, entry.act.number("item")))

    # Rows: the acts of a round stay together where none comes between them.

    def add(self, step: Step) -> None:
        place = len(self.round)
        verb, how = step.entry.act.verb, step.entry.act.how
        belongs = place < len(ROUND) and verb == ROUND[place] and how in ("made", "lost")
        if place and not (belongs and step.entry.site == self.round[0].entry.site):
            self.flush()
            belongs = verb == ROUND[0] and how in ("made", "lost")
        if belongs:
            self.round.append(step)
            if len(self.round) == len(ROUND):
                self.scene.rows.append(Row(self.round))
                self.round = []
        else:
            self.scene.rows.append(Row([step]))

    def flush(self) -> None:
        """A round that was not ended is drawn act by act."""
        self.scene.rows += [Row([step]) for step in self.round]
        self.round = []

    @property
    def row(self) -> int:
        """The row of the step that was added last."""
        return len(self.scene.rows) - 1 + len(self.round)

    # Spans.

    def begin(self, kind: str, lane: str, label: str, key: str = "", how: str = "") -> None:
        taken = {span.place for (other, _), span in self.open.items() if other == kind and span.lane == lane}
        place = next(place for place in range(len(taken) + 1) if place not in taken)
        span = Span(kind, lane, label, self.row, how=how, place=place)
        self.open[kind, key or lane] = span
        self.scene.spans.append(span)

    def end(self, kind: str, key: str, how: str = "") -> None:
        span = self.open.pop((kind, key), None)
        if span:
            span.last, span.how = self.row, how or span.how

    def spans(self, step: Step) -> None:
        for event in step.events:
            call = getattr(self, "on_" + event.kind.replace("-", "_"), None)
            if call:
                call(event)
        for site in ("A", "B"):
            self.life(site, step)
        if "reserve" in step.changes:
            self.reserve(step)

    def life(self, site: str, step: Step) -> None:
        """A job's bar is cut where its state changes."""
        text = step.changes.get(f"job {site}")
        if text is None:
            return
        self.end("life", site)
        if text != "NONE":
            number, state = text.split(" ")
            self.begin("life", site, "" if number == "0" else number, how=state)

    def reserve(self, step: Step) -> None:
        holder = step.changes["reserve"]
        if holder:
            self.begin("reserve", holder, "", "reserve")
        else:
            self.end("reserve", "reserve")

    def on_through(self, event: Event) -> None:
        self.end("owner", "owner")
        self.begin("owner", event.site, event.words[0], "owner")

    def on_taking(self, event: Event) -> None:
        self.begin("taking", event.site, self.standing.control.cause, "taking")

    def on_taken(self, event: Event) -> None:
        self.end("taking", "taking")

    def on_unit_begun(self, event: Event) -> None:
        self.begin("unit", "LOG", event.words[1], event.words[0])

    def on_unit_put(self, event: Event) -> None:
        span = self.open.get(("unit", event.words[0]))
        if span:
            span.marks.append(self.row)

    def on_unit_ended(self, event: Event) -> None:
        self.end("unit", event.words[0], event.words[1])

    def on_unit_forgotten(self, event: Event) -> None:
        self.end("unit", event.words[0], "EMPTY")

    def on_message_opened(self, event: Event) -> None:
        slot, text = event.words
        self.drop_message(slot)
        self.begin("message", "MSG", text, slot)

    def drop_message(self, slot: str) -> None:
        """A message that nobody took before its slot was written again is a mark at its writing."""
        span = self.open.pop(("message", slot), None)
        if span:
            span.last, span.how = span.first, "unread"

    def on_message_taken(self, event: Event) -> None:
        self.end("message", event.words[0], event.site)


def build(document: Document) -> Scene:
    scene = Building(document).build()
    for span in scene.spans:
        if span.kind == "message" and span.how == "open":
            span.last, span.how = span.first, "unread"
    return scene


def part_of(scene: Scene, first: int, last: int) -> Scene:
    """The rows that have an act from `first` to `last`, with the spans that reach them."""
    there = [place for place, row in enumerate(scene.rows)
             if row.steps[-1].entry.number >= first and row.steps[0].entry.number <= last]
    part = Scene(scene.document, scene.first, [scene.rows[place] for place in there])
    if there:
        part.spans = [cut_span(span, there[0], there[-1]) for span in scene.spans
                      if span.first <= there[-1] and span.last >= there[0]]
    return part


def cut_span(span: Span, first: int, last: int) -> Span:
    """The span within these rows, counted from the first of them; one that goes on is open."""
    goes_on = span.last > last
    kept = max(span.first, first), min(span.last, last)
    marks = [row - first for row in span.marks if first <= row <= last]
    how = "open" if goes_on and span.kind != "life" else span.how
    return replace(span, first=kept[0] - first, last=kept[1] - first, marks=marks, how=how, goes_on=goes_on or span.goes_on)
