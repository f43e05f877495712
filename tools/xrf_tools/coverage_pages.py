"""Coverage as data and as pages: JSON, Cobertura XML for a CI, and an HTML page that loads nothing."""

from __future__ import annotations

import json
from html import escape
from xml.etree import ElementTree

from xrf_tools.coverage import Coverage, percent
from xrf_tools.points import GROUPS, Point

STYLE = """body{font:16px/1.5 system-ui,sans-serif;max-width:72rem;margin:2rem auto;padding:0 1rem;color:#1a1a1a;background:#fff}
table{border-collapse:collapse;width:100%;margin:.5rem 0 2rem}th,td{text-align:left;padding:.2rem .6rem;border-bottom:1px solid #ddd;
vertical-align:top}td:nth-child(2){text-align:right}code{font-family:ui-monospace,monospace}.no td:first-child{border-left:.4rem solid #b00020}
.yes td:first-child{border-left:.4rem solid #1b6e3a}.out td:first-child{border-left:.4rem solid #8a8a8a}"""


def as_json(coverage: Coverage) -> str:
    seen, of = coverage.counted()
    points = [{
        "group": point.group, "point": point.name, "count": there.count,
        **({"file": there.file, "line": there.line} if there.count else {}),
        **({"out_of_reach": point.why_not} if point.why_not else {}),
    } for point, there in coverage.points.items()]
    whole = {"shown": seen, "of": of, "percent": round(coverage.percent, 2), "outputs": coverage.files, "points": points}
    return json.dumps(whole, indent=1) + "\n"


def as_cobertura(coverage: Coverage) -> str:
    """A class for each group, a method with one line for each point that can be reached."""
    root = ElementTree.Element("coverage", {**rates(*coverage.counted()), "version": "xrf", "timestamp": "0"})
    ElementTree.SubElement(root, "sources")
    packages = ElementTree.SubElement(root, "packages")
    package = ElementTree.SubElement(packages, "package", {"name": "xrf", **rate(*coverage.counted())})
    classes = ElementTree.SubElement(package, "classes")
    for group in GROUPS:
        of_group = ElementTree.SubElement(classes, "class", {"name": group, "filename": group, **rate(*coverage.counted(group))})
        methods, lines = ElementTree.SubElement(of_group, "methods"), ElementTree.SubElement(of_group, "lines")
        for number, point in enumerate(coverage.reachable(group), 1):
            hits = coverage.points[point].count
            method = ElementTree.SubElement(methods, "method", {"name": point.name, "signature": "()", **rate(int(hits > 0), 1)})
            for parent in (ElementTree.SubElement(method, "lines"), lines):
                ElementTree.SubElement(parent, "line", number=str(number), hits=str(hits), branch="false")
    ElementTree.indent(root)
    return ElementTree.tostring(root, encoding="unicode", xml_declaration=True) + "\n"


def rate(seen: int, of: int) -> dict[str, str]:
    return {"line-rate": f"{seen / of:.4f}", "branch-rate": "0", "complexity": "0"}


def rates(seen: int, of: int) -> dict[str, str]:
    return {**rate(seen, of), "lines-covered": str(seen), "lines-valid": str(of), "branches-covered": "0", "branches-valid": "0"}


def as_html(coverage: Coverage) -> str:
    seen, of = coverage.counted()
    parts = [
        "<!DOCTYPE html>", '<html lang="en"><head><meta charset="utf-8"><meta name="viewport" content="width=device-width">',
        f"<title>What the scenarios have shown</title><style>{STYLE}</style></head><body>", "<h1>What the scenarios have shown</h1>",
        f"<p>{seen} of {of} points ({percent(seen, of)}) in {coverage.files} outputs. A red edge is a point that was not shown, "
        "a green one that it was, a grey one that it can't be reached.</p>",
    ]
    for group, title in GROUPS.items():
        shown, all_of = coverage.counted(group)
        parts += [f"<h2>{escape(group)}: {escape(title)}, {shown} of {all_of}</h2>",
                  '<table><tr><th scope="col">Point</th><th scope="col">Times</th><th scope="col">First shown</th></tr>']
        parts += [row(coverage, point) for point in coverage.points if point.group == group]
        parts.append("</table>")
    return "\n".join([*parts, "</body></html>", ""])


def row(coverage: Coverage, point: Point) -> str:
    there = coverage.points[point]
    kind = "out" if point.why_not else "yes" if there.count else "no"
    where = f"{escape(there.file)}<br><code>{escape(there.line)}</code>" if there.count else escape(point.why_not or "not shown")
    return f'<tr class="{kind}"><td><code>{escape(point.name)}</code></td><td>{there.count}</td><td>{where}</td></tr>'
