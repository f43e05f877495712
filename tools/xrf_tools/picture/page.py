"""The page: one HTML text with the SVG, its style and its script inside, and nothing to load."""

import json
import re
from html import escape
from pathlib import Path
from typing import Any

from xrf_tools.picture import drawing
from xrf_tools.picture.plan import Plan, plan
from xrf_tools.scene import Scene

HERE = Path(__file__).resolve().parent


def told(scene: Scene, where: Plan) -> dict[str, Any]:
    """What the script steps through: the acts, and what each changed; texts and keys that come again stand once."""
    sentences: dict[str, int] = {}
    keys: dict[str, int] = {}
    acts = []
    for place, row in enumerate(scene.rows):
        for step in row.steps:
            sentence = sentences.setdefault(step.sentence, len(sentences))
            changes = [[keys.setdefault(key, len(keys)), value] for key, value in step.changes.items()]
            x = where.lines["MSG" if step.entry.site == "-" else step.entry.site]
            acts.append([step.entry.line, sentence, where.tops[place], step.entry.tick, changes, x])
    scenario = scene.document.scenario
    return {
        "first": scene.first, "acts": acts, "sentences": list(sentences), "keys": list(keys),
        "applid": scenario.applid, "file": scenario.numbers["FILE"],
    }


def script_text(value: Any) -> str:
    """JSON that may stand inside a script element."""
    return json.dumps(value, separators=(",", ":")).replace("<", "\\u003c")


def style() -> str:
    """The colours and the shapes of a picture."""
    return (HERE / "picture.css").read_text()


def plain(style: str) -> str:
    """The style with its light colours as they are, for what knows no names of colours."""
    colours: dict[str, str] = dict(re.findall(r"(--[a-z-]+): (#[0-9a-f]{6});", style.partition("}")[0]))
    rules = re.sub(r"^(?::root|@media)[^{]*\{(?:[^{}]|\{[^}]*\})*\}\n", "", style, flags=re.M)
    return re.sub(r"var\((--[a-z-]+)\)", lambda name: str(colours[name[1]]), rules)


def about(scene: Scene) -> str:
    """What the picture shows, for those who can't see it."""
    applid, count = scene.document.scenario.applid, len(scene.document.entries)
    return (f"A run of {count} acts from top to bottom, with a lane for {applid['A']} at site A at the left, one for "
            f"{applid['B']} at site B at the right, and the data sets that they share between them.")


def svg(scene: Scene, title: str) -> str:
    """The picture by itself, as one SVG with its style inside."""
    where = plan(scene)
    height = drawing.HEAD + where.height
    body = "".join(part for part, _ in drawing.parts(scene, where, len(scene.rows) or 1))
    picture = (f'<svg xmlns="http://www.w3.org/2000/svg" width="{where.width}" height="{height}" '
               f'viewBox="0 0 {where.width} {height}" role="img"><title>{escape(title)}</title><desc>{escape(about(scene))}</desc>'
               f'<style>{plain(style())}</style><rect class="paper" width="100%" height="100%"/>{drawing.heads(scene, where)}'
               f'<svg y="{drawing.HEAD}" height="{where.height}">{body}</svg></svg>\n')
    return picture


def page(scene: Scene, title: str) -> str:
    where = plan(scene)
    picture = "\n".join(
        f'<div class="hold" style="height:{height}px">{part}</div>' for part, height in drawing.parts(scene, where))
    pieces = {
        "TITLE": escape(title), "STYLE": style() + (HERE / "page.css").read_text(), "SCRIPT": (HERE / "page.js").read_text(),
        "HEADS": drawing.heads(scene, where), "PICTURE": picture, "ABOUT": escape(about(scene)), "WIDTH": str(where.width),
        "DATA": script_text(told(scene, where)), "COUNT": str(len(scene.document.entries)),
    }
    text = (HERE / "page.html").read_text()
    before, *rest = text.split("{{")
    return before + "".join(pieces[name] + after for name, after in (piece.split("}}", 1) for piece in rest))
