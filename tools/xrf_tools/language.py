"""The language of scenarios and reports in one table: its lines, their words and ranges, and the reasons of refusals.

A form is a line in words: a word in capitals stands for itself, `s` for a site, `name`, `value`, `hex` and `words` for
what these are, and `5..3600` for a number of that range; `64..1024/64` is one that is a multiple of 64. A test holds
the table against the crates.
"""

from __future__ import annotations

import re
from collections.abc import Iterable
from dataclasses import dataclass
from functools import cached_property

INPUT_MOST, LINE_MOST, TORN_MOST, NUMBER_MOST = 4_194_304, 300, 63, 65535
CLT_MOST, ITEMS_MOST, PLAN_MOST, CHOICES_MOST = 100, 2000, 500, 8192
SITES = ("A", "B")

NUMBER = r"(?:0|[1-9]\d{0,9})"
NAME = r"[A-Z0-9@#$]{1,8}"
VALUE = r"[!-~]{1,24}"
PATTERNS = {"s": "[AB]", "name": NAME, "value": VALUE, "hex": rf"(?:[0-9A-Fa-f]{{2}}){{1,{TORN_MOST}}}", "words": "[!-~]+(?: [!-~]+)*"}
SPELLED = {"s": "A|B"}
NOTES = {"RECORD": " and at most FILE", "PLAN": " and not falling"}


@dataclass(frozen=True)
class Range:
    """The numbers from `least` to `most` that are multiples of `unit`."""

    least: int
    most: int
    unit: int = 1

    @staticmethod
    def of(part: str) -> Range | None:
        match = re.fullmatch(r"(\d+)\.\.(\d+)(?:/(\d+))?", part)
        return Range(int(match[1]), int(match[2]), int(match[3] or 1)) if match else None

    def has(self, number: int) -> bool:
        return self.least <= number <= self.most and number % self.unit == 0

    def text(self) -> str:
        return f"from {self.least} to {self.most}" + (f" and a multiple of {self.unit}" if self.unit > 1 else "")


@dataclass(frozen=True)
class Form:
    """The form of a line, and whether it stands under XRF 2 alone."""

    text: str
    is_of_two: bool = False

    @cached_property
    def parts(self) -> list[str]:
        return self.text.split(" ")

    @property
    def word(self) -> str:
        return self.parts[0]

    @cached_property
    def pattern(self) -> re.Pattern[str]:
        return re.compile(" ".join(re.escape(part) if part.isupper() else f"({PATTERNS.get(part, NUMBER)})" for part in self.parts))

    @cached_property
    def ranges(self) -> list[Range | None]:
        """The range of each part that is no word in capitals; None for those that are no number."""
        return [Range.of(part) for part in self.parts if not part.isupper()]

    def values(self, words: list[str]) -> list[str] | None:
        """What stands in a line for the parts that are no words in capitals; None where it is not of this form."""
        match = self.pattern.fullmatch(" ".join(words))
        if match is None:
            return None
        values = list(match.groups())
        fit = all(in_range is None or in_range.has(int(value)) for in_range, value in zip(self.ranges, values))
        return values if fit else None

    def agrees(self, words: list[str]) -> int:
        """With how many words of a line its words in capitals agree, up to the first that does not."""
        agreeing = [part == word for part, word in zip(self.parts, words) if part.isupper()]
        return next((count for count, agrees in enumerate(agreeing) if not agrees), len(agreeing))

    def bounds(self) -> str:
        """What is said of its numbers, behind it."""
        numbers = [in_range for in_range in self.ranges if in_range]
        name = "n" if len(numbers) < 2 else "the first n"
        said = [f"{name} {in_range.text()}{NOTES.get(self.word, '')}" for in_range in numbers[:1] if in_range.most < NUMBER_MOST]
        return "".join(f", {it}" for it in said) + (", under XRF 2 alone" if self.is_of_two else "")


def spelled(part: str) -> str:
    """A part of a form as a reader is shown it."""
    return "n" if Range.of(part) else SPELLED.get(part, part)


def shown(forms: Iterable[Form]) -> list[str]:
    """Forms as a reader is shown them; those that differ in their last word alone are one."""
    groups: dict[tuple[str, ...], list[Form]] = {}
    for form in forms:
        parts = form.parts
        front = (*parts[:-1], "..") if parts[-1].isupper() and len(parts) > 1 else tuple(parts)
        groups.setdefault(front, []).append(form)
    lines = []
    for front, group in groups.items():
        last = "|".join(form.parts[-1] for form in group) if front[-1] == ".." else spelled(front[-1])
        lines.append(" ".join([*map(spelled, front[:-1]), last]) + group[0].bounds())
    return lines


# The numbers of a scenario: the range and the default of each.
QUANTITIES = {
    "ADI": ("5..3600", 30), "PDI": ("5..3600", 30), "LOG": ("64..1024/64", 64), "RING": ("2..64", 16), "FILE": ("1..256", 16),
    "PACE": ("10..200", 40), "TICKS": ("0..200", 60),
}
DEFAULTS = {"TAKEOVR": "MANUAL", "IMAGES": "OFF", "XRFSOFF": "NOFORCE"}
APPLIDS = {"A": "CICSA", "B": "CICSB"}
TAKEOVR = ("AUTO", "MANUAL", "COMMAND")
OF_TWO = ("LEVEL", "XRFSOFF", "SIGNON", "SIGNOFF")

ITEMS = [
    Form(text, text.split(" ")[0] in OF_TWO) for text in (
        "BEGIN name", "PUT name 0..65535 value", "GET name 0..65535", "COMMIT name", "ROLL name", "LOGON name 1..3",
        "LOGOFF name", "SIGNON name name", "SIGNOFF name", "CEMT SHUTDOWN", "CEMT SHUTDOWN TAKEOVER")
]
COMMANDS = ("PERFORM TAKEOVER", "PERFORM SHUTDOWN", "INQUIRE TAKEOVER", "INQUIRE SURVEILLANCE",
            *(f"SET TAKEOVER {mode}" for mode in TAKEOVR), "SET SURVEILLANCE ON", "SET SURVEILLANCE OFF")
CHOICES = [
    Form(text) for text in (
        "TICK", "TICK 1..9999", "STEP s", "STEP s 1..9999", "LOSE s", "STOP s NONE", "STOP s ALL", "STOP s TORN hex",
        "FAIL s NONE", "FAIL s ALL", "FAIL s TORN hex", "START s ACTIVE", "START s STANDBY", "ABEND s", "CONFIRM 0..65535",
        "REPLY s GO", "REPLY s IGNORE", *(f"CEBT s {command}" for command in COMMANDS), "EXIT s ABEND", "EXIT s KEEP",
        "EXIT s DROP")
]
PLANNED = ("START", "STOP", "ABEND", "CONFIRM", "REPLY", "CEBT")
PLANS = [Form(f"PLAN {QUANTITIES['TICKS'][0]} {form.text}") for word in PLANNED for form in CHOICES if form.word == word]
WORK = [Form(f"WORK s {form.text}", form.is_of_two) for form in ITEMS]
SETTINGS = [
    Form(text, text.split(" ")[0] in OF_TWO) for text in (
        "APPLID s name", *(f"TAKEOVR {mode}" for mode in TAKEOVR),
        *(f"{word} {numbers}" for word, (numbers, _) in QUANTITIES.items()), "IMAGES ON", "IMAGES OFF", "LEVEL s 1..2",
        "XRFSOFF FORCE", "XRFSOFF NOFORCE", "RECORD 1..256 value", "CLT name CANCEL name", "CLT name COMMAND words",
        "CLT name WTO words")
]
MARKS = {"CHOICES": Form("CHOICES"), "END": Form("END")}


def forms(behind_choices: bool, format: int = 2) -> list[Form]:
    """The forms of the lines before CHOICES, itself with them, or of those behind it, with END."""
    if behind_choices:
        return [*CHOICES, MARKS["END"]]
    return [form for form in (*SETTINGS, *WORK, *PLANS, MARKS["CHOICES"]) if format == 2 or not form.is_of_two]


# Why an input is refused.
REASONS = {
    "TOO-LARGE": f"the input has more than {INPUT_MOST:,} bytes",
    "BAD-BYTE": "it has a byte outside blank to '~'",
    "LONG-LINE": f"it has more than {LINE_MOST} bytes",
    "NO-HEADER": "a text begins with the line XRF 1 or XRF 2, and this line comes first",
    "BAD-FORMAT": "the header is neither XRF 1 nor XRF 2",
    "CHOICES-GIVEN": "a threaded run makes its own choices, and this is one",
    "AFTER-END": "behind END only blank lines, comments and lines that begin with '*' may come",
    "UNKNOWN-WORD": "its first word begins no line of this part of the text",
    "WORD-COUNT": "words are missing, or there are too many",
    "BAD-SITE": "a site is A or B",
    "BAD-NUMBER": "a number is decimal digits without a leading zero, and at most 65535",
    "OUT-OF-RANGE": "a number is outside its range",
    "BAD-NAME": "a name is 1 to 8 of A-Z, 0-9, @, # and $",
    "BAD-VALUE": "a value is 1 to 24 characters from '!' to '~'",
    "BAD-HEX": f"torn bytes are 1 to {TORN_MOST} bytes, two hex digits each",
    "BAD-OPTION": "a word is none of those that may stand in its place",
    "BAD-ITEM": "the word behind the site begins no item of work",
    "BAD-CEBT": "it is none of the CEBT commands",
    "BAD-PLAN": "a plan does not take this choice",
    "PLAN-ORDER": "its tick is below that of the PLAN line before",
    "TWICE": "this was given before",
    "TOO-MANY": "there may be no more of these lines",
    "RRN-RANGE": "a RECORD line names a number above FILE",
    "NO-END": "the text ends, and END has not come",
    "NOT-ENABLED": "this choice can't be made at this point of the run",
    "DISHONEST": "this incarnation is not known to have ended: no such number was given, or its region is there",
    "TORN-LENGTH": "as many bytes can't land of the write that comes next",
    "NOT-ALLOWED": "the status exit may not give this answer to its notice",
}
LIMITS = (f"CLT {CLT_MOST} lines, WORK {ITEMS_MOST:,} items of each site, PLAN {PLAN_MOST} lines, {CHOICES_MOST:,} choices with "
          "their counts")
# Reasons that are about the run, and not about the words of the line.
OF_THE_RUN = ("NOT-ENABLED", "DISHONEST", "TORN-LENGTH", "NOT-ALLOWED")
OF_WORDS = ("UNKNOWN-WORD", "WORD-COUNT", "BAD-SITE", "BAD-NUMBER", "OUT-OF-RANGE", "BAD-NAME", "BAD-VALUE", "BAD-HEX",
            "BAD-OPTION", "BAD-ITEM", "BAD-CEBT", "BAD-PLAN")
