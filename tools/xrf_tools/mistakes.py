"""What is wrong in the words of a refused line, by its name, and what would be right there."""

from __future__ import annotations

import difflib
import unicodedata
from collections.abc import Iterable, Iterator

from xrf_tools.language import CHOICES, INPUT_MOST, LINE_MOST, MARKS, QUANTITIES, Form, Range, forms, shown
from xrf_tools.refused import printed
from xrf_tools.trials import Trials

LIKE = 0.6
MARK = "\xef\xbb\xbf"
BLANKS = {"\t": "a tab", "\xa0": "a blank that does not break", "\r": "a carriage return"}


def right(*lines: str) -> str:
    return f"Right would be: {'; or '.join(printed(line) for line in lines)}."


def right_before(*lines: str) -> str:
    return f"Right would be, before it: {'; or '.join(printed(line) for line in lines)}."


def of_words(trials: Trials) -> Iterator[str]:
    """Of a line whose words are wrong: the mistake by its name and what is tried; else the form of such a line."""
    refused = trials.refused
    found = list(other_part(trials)) or list(of_two(trials)) or list(near(trials))
    if found:
        yield from found
        return
    table = forms(refused.is_choice, refused.header[1])
    agreeing = best(table, refused.words)
    if not agreeing:
        yield f"A line begins here with one of {', '.join(dict.fromkeys(form.word for form in table))}."
        return
    yield f"Its form is: {'; or '.join(said(agreeing))}."


def best(table: list[Form], words: list[str]) -> list[Form]:
    """The forms that agree with a line in the most words, one at least."""
    most = max((form.agrees(words) for form in table), default=0)
    return [form for form in table if most > 0 and form.agrees(words) == most]


def said(agreeing: list[Form]) -> list[str]:
    """Forms as a reader is shown them; those of an item or a planned choice of which no word is known by their words."""
    word = agreeing[0].word
    behind = {"WORK": 2, "PLAN": 2}.get(word, 0)
    inner = list(dict.fromkeys(form.parts[behind] for form in agreeing))
    if behind and len(inner) > 1:
        return [f"{'WORK A|B' if word == 'WORK' else 'PLAN n'} and one of {', '.join(inner)}"]
    return shown(agreeing)


def other_part(trials: Trials) -> Iterator[str]:
    """A choice before CHOICES, or a setting behind it."""
    refused = trials.refused
    words, above = refused.words, refused.above
    if not words:
        return
    is_other = words[0] in words_of_part(not refused.is_choice)
    if not is_other:
        return
    if not refused.is_choice:
        if trials.passes("CHOICES", refused.line):
            yield f"{words[0]} stands behind the line CHOICES, which is missing."
            yield right_before("CHOICES")
        return
    place = refused.place_of("CHOICES")
    yield f"{words[0]} stands before the line CHOICES, which is line {place}."
    if trials.takes([*above[: place - 1], refused.line, *above[place - 1:]]):
        yield f"Right would be: this line before line {place}."


def words_of_part(behind_choices: bool) -> list[str]:
    return [form.word for form in forms(behind_choices)]


def of_two(trials: Trials) -> Iterator[str]:
    """What stands under XRF 2 alone, in a text under XRF 1."""
    refused = trials.refused
    number, format = refused.header
    if refused.is_choice or format == 2 or not number:
        return
    found = best(forms(False), refused.words)
    if found and all(form.is_of_two for form in found):
        yield f"This stands under XRF 2 alone, and line {number} says XRF 1."
        if trials.takes([*refused.above[: number - 1], "XRF 2", *refused.above[number:], refused.line]):
            yield f"Right would be: XRF 2 in line {number}."


def near(trials: Trials) -> Iterator[str]:
    """The nearest lines of the table, of which the first that the program takes is right."""
    refused = trials.refused
    table = forms(refused.is_choice, refused.header[1])
    for line in nearest(refused.words, table)[:4]:
        if trials.passes(line):
            yield from differences(refused.words, line.split())
            yield right(line)
            return
    other = nearest(refused.words, forms(not refused.is_choice))[:1]
    for line in other:
        word = line.split()[0]
        place = refused.place_of("CHOICES")
        above = refused.above
        if refused.is_choice and trials.takes([*above[: place - 1], line, *above[place - 1:]]):
            yield f"The nearest line begins with {word}, which stands before the line CHOICES, line {place}."
            yield f"Right would be: {printed(line)}, before line {place}."
        elif not refused.is_choice and trials.passes("CHOICES", line):
            yield f"The nearest line is {printed(line)}, which stands behind the line CHOICES."
            yield f"Right would be: CHOICES, and behind it {printed(line)}."


def differences(words: list[str], taken: list[str]) -> Iterator[str]:
    """What was changed in a line, word by word."""
    if [word.upper() for word in words] == taken:
        yield "Keywords, names and sites are in capitals."
        return
    for word, other in zip(words, taken):
        if word != other:
            yield f"'{printed(word)}' is near {other}."


def nearest(words: list[str], table: Iterable[Form]) -> list[str]:
    """Lines of the table that are like a line, the most alike first."""
    found = [(likeness, line) for form in table if (likeness := liken(words, form)) for line in [" ".join(corrected(words, form))]]
    found.sort(key=lambda it: -it[0])
    return list(dict.fromkeys(line for _, line in found))


def alike(word: str, part: str) -> float:
    return difflib.SequenceMatcher(None, word.upper(), part).ratio()


def liken(words: list[str], form: Form) -> float:
    """How alike a line is to a form of as many words; 0 where a word is not alike."""
    parts = form.parts
    if len(words) != len(parts) and not (parts[-1] == "words" and len(words) > len(parts)):
        return 0
    ratios = [alike(word, part) for word, part in zip(words, parts) if part.isupper()]
    if min(ratios, default=0) < LIKE or form.values(corrected(words, form)) is None:
        return 0
    return sum(ratios) / len(ratios) + len(ratios) / 100


def corrected(words: list[str], form: Form) -> list[str]:
    """The words of a line in the way of a form: its keywords, capitals in names and sites, numbers without zeros ahead."""
    line = []
    for part, word in zip(form.parts, words):
        if part.isupper():
            line.append(part)
        elif part in ("s", "name"):
            line.append(word.upper())
        else:
            line.append(word.lstrip("0") or "0" if Range.of(part) and word.isdigit() else word)
    return line + words[len(form.parts):]


def of_bytes(trials: Trials) -> Iterator[str]:
    """Of a line with a byte that no line has: which it is, and where."""
    line = trials.refused.line
    text = line[:-1] if line.endswith("\r") else line
    place = next((place for place, letter in enumerate(text) if not " " <= letter <= "~"), 0)
    if text.startswith(MARK) and trials.refused.number == 1:
        yield "It begins with a byte order mark, which an editor has put there."
        mended = text[len(MARK):]
    elif "\0" in text or text[:2] in ("\xff\xfe", "\xfe\xff"):
        yield "This is text in 16 bits a letter; a scenario has a byte for each."
        return
    elif text.count("\r") > 1 and trials.refused.number == 1:
        yield "Its lines end with carriage returns alone, and not with line feeds."
        return
    else:
        yield f"In column {place + 1} stands {name_of(text[place:])}."
        mended = "".join(" " if letter in BLANKS else letter for letter in text.replace("\xc2\xa0", " "))
    if trials.passes(mended):
        yield right(mended)


def name_of(text: str) -> str:
    """What the first letter of a text is; its bytes may be those of a letter in UTF-8."""
    if not text or text[0] in BLANKS:
        return BLANKS[text[0]] if text else "no letter"
    for size in (2, 3, 4):
        try:
            letter = text[:size].encode("latin-1").decode()
        except UnicodeDecodeError:
            continue
        if len(letter) == 1:
            return f"the letter U+{ord(letter):04X}, {unicodedata.name(letter, 'which has no name').lower()}"
    return f"the byte {ord(text[0]):02x}"


def of_header(trials: Trials) -> Iterator[str]:
    """Of a text that does not begin with a header."""
    refused = trials.refused
    if not any(line.strip() for line in refused.lines):
        yield "The text has no line."
        return
    later = next((number for number, line in enumerate(refused.lines, 1) if line.split() in (["XRF", "1"], ["XRF", "2"])), 0)
    if later > refused.number:
        yield f"The header, {refused.lines[later - 1].strip()}, stands in line {later}."
        moved = [*refused.above, *refused.lines[refused.number: later]]
        if trials.takes(moved):
            yield "Right would be: the header before this line, or the text without this line."
        return
    for header in ("XRF 1", "XRF 2"):
        if trials.passes(header, refused.line):
            yield right_before(header)
            return
    found = trials.those(("XRF 1", "XRF 2"))
    if found:
        yield right(*found)


def of_end(trials: Trials) -> Iterator[str]:
    """Of a line behind END."""
    refused = trials.refused
    words, above, place = refused.words, refused.above, refused.place_of("END")
    if place and words and words[0] in words_of_part(True) and trials.takes([*above[: place - 1], refused.line]):
        yield f"END is line {place}. Right would be: this line before it."
    elif trials.passes(f"* {refused.line}"):
        yield right(f"* {refused.line.strip()}")


def of_no_end(trials: Trials) -> Iterator[str]:
    lines = [line for line in refused_lines(trials)]
    has_choices = any(line.split() == MARKS["CHOICES"].parts for line in lines)
    ending = ["END"] if has_choices else ["CHOICES", "END"]
    if not lines or trials.takes([*lines, *ending]):
        yield f"Right would be, behind this line: {', the choices, and '.join(ending)}."


def refused_lines(trials: Trials) -> list[str]:
    """The lines of a text without what stands behind its last line feed, where that is nothing."""
    lines = trials.refused.lines
    return lines[:-1] if lines and not lines[-1].strip() else lines


def of_twice(trials: Trials) -> Iterator[str]:
    refused = trials.refused
    words = refused.words
    key = words[:2] if words[:1] in (["RECORD"], ["APPLID"], ["LEVEL"]) else words[:1]
    for number, line in enumerate(refused.above, 1):
        if line.split()[: len(key)] == key:
            yield f"It was given in line {number}: {printed(line)}. Right would be: one of the two alone."
            return


def of_record(trials: Trials) -> Iterator[str]:
    """Of the line CHOICES where a record number is above FILE."""
    lines = [line.split() for line in trials.refused.above]
    file = next((int(words[1]) for words in lines if words[:1] == ["FILE"] and words[1].isdigit()), QUANTITIES["FILE"][1])
    high = [words[1] for words in lines if words[:1] == ["RECORD"] and words[1].isdigit() and int(words[1]) > file]
    if high:
        yield f"FILE is {file}, and there is RECORD {', RECORD '.join(high)}. Right would be: FILE {max(map(int, high))}."


def of_plan_order(trials: Trials) -> Iterator[str]:
    above = enumerate(trials.refused.above, 1)
    plans = [(number, line) for number, line in above if line.split()[:1] == ["PLAN"]]
    if plans:
        yield f"The PLAN line before is line {plans[-1][0]}: {printed(plans[-1][1])}. Right would be: this line above it."


def of_many(trials: Trials) -> Iterator[str]:
    """Of a choice whose count passes what is left of the choices."""
    document = trials.document() if trials.refused.is_choice else None
    words = trials.refused.words
    if document and words and words[0] in [form.word for form in CHOICES if form.parts[-1] == "1..9999"]:
        yield f"{len(document.choices):,} choices stand above it."


def of_length(trials: Trials) -> Iterator[str]:
    yield f"It has {len(trials.refused.line):,} bytes, and {LINE_MOST} may be."


def of_size(trials: Trials) -> Iterator[str]:
    yield f"A text of at most {INPUT_MOST:,} bytes is read."


def of_given(trials: Trials) -> Iterator[str]:
    yield "Right would be, for xrf run: no line between CHOICES and END. xrf replay runs the choices that stand there."
