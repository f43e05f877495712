"""Data as a document again: what `xrf json` wrote becomes the bytes that it was written of.

The acts are taken by their texts, and their choices from the list of choices.
"""

from __future__ import annotations

import json
from collections.abc import Callable, Iterator
from typing import Any

from xrf_tools.document import read
from xrf_tools.errors import Fault
from xrf_tools.language import QUANTITIES
from xrf_tools.source import REFUSED


def document_of(text: str, name: str) -> str:
    """The document, or the refusal, that this JSON was written of; Fault where it is none."""
    try:
        data = json.loads(text)
    except ValueError as error:
        raise Fault(f"{name} is no JSON of one run: {error}") from None
    try:
        if "refused" in data:
            return f"{REFUSED}LINE {data['refused']['line']} {data['refused']['reason']}\n"
        made = "\n".join([*scenario(data), *report(data), ""])
    except (KeyError, TypeError, AttributeError, IndexError) as error:
        raise Fault(f"{name} is not what xrf json wrote: {type(error).__name__} {error}") from None
    read(name, made)
    return made


def scenario(data: Any) -> Iterator[str]:
    given = data["scenario"]
    yield f"XRF {data['xrf']}"
    yield from (f"APPLID {site} {applid}" for site, applid in given["applid"].items())
    yield f"TAKEOVR {given['takeovr']}"
    yield from (f"{word} {given[word.lower()]}" for word in QUANTITIES)
    yield f"IMAGES {'ON' if given['images'] else 'OFF'}"
    if data["xrf"] == 2:
        yield from (f"LEVEL {site} {level}" for site, level in given["level"].items())
        yield f"XRFSOFF {given['xrfsoff']}"
    yield from (f"RECORD {it['record']} {it['value']}" for it in given["records"])
    yield from (f"CLT {it['applid']} {it['kind']} {it['text']}" for it in given["clt"])
    yield from (f"WORK {site} {item}" for site, items in given["work"].items() for item in items)
    yield from (f"PLAN {it['tick']} {it['choice']}" for it in given["plan"])
    yield from ("CHOICES", *data["choices"], "END")


def report(data: Any) -> Iterator[str]:
    told = data["report"]
    yield from (f"* ACT {it['act']} {it['tick']} {it['site'] or '-'} {it['incarnation'] or 0} {it['text']}" for it in data["acts"])
    yield from (f"* ITEM {it['site']} {it['item']} {worded(it['answer'], it['value'])}" for it in told["items"])
    yield f"* TICK {told['tick']}"
    yield f"* CONTROL {control(told['control'])}"
    yield from (f"* JOB {site} {part(job, job_text)}" for site, job in told["jobs"].items())
    yield from (f"* TERM {terminal(it)}" for it in told["terminals"])
    log = told["log"]
    yield f"* LOG {log['records']} COMMITTED {log['committed']} FLIGHT {log['flight']}"
    yield from (f"* FILE {it['record']} {it['value'] or 'DAMAGED'}" for it in told["file"])
    yield from (f"* IMAGE {it['data_set']} {it['offset']} {it['bytes']}" for it in told["images"])
    yield "* DONE"


def worded(*words: Any) -> str:
    return " ".join(str(word) for word in words if word is not None)


def part(of: Any, text: Callable[[Any], str]) -> str:
    """What is there as a text, and NONE where it is not."""
    return "NONE" if of is None else text(of)


def job_text(job: Any) -> str:
    return f"{job['incarnation']} {job['state']}"


def control(record: Any) -> str:
    owner = part(record["owner"], lambda it: f"{it['incarnation']}.{it['site']}.{it['state']}")
    alternate = part(record["alternate"], lambda it: f"{it['incarnation']}.{it['site']}")
    taking = part(record["taking"], lambda it: f"{it['incarnation']}.{it['cause']}")
    format = f" FORMAT {record['format']}" if "format" in record else ""
    return f"{record['last']} OWNER {owner} ALT {alternate} TAKING {taking}{format}"


def terminal(row: Any) -> str:
    user = (row["user"] or "-",) if "user" in row else ()
    return worded(row["site"], row["name"], row["class"], row["how"], *user)
