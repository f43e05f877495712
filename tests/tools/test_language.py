"""The table of the language that the tools have is that of the crates: forms, ranges, defaults, reasons, and the words of acts."""

from __future__ import annotations

import re
import subprocess
import unittest

import runs
from xrf_tools import language, meaning
from xrf_tools.acts import FORMS

CRATES = runs.ROOT / "crates"


def spec(name: str) -> str:
    crate, file = name.split("/")
    return (CRATES / crate / "specs" / f"{file}.antt").read_text()


def codes(text: str, function: str) -> list[str]:
    """The first words that a definition spells, in their order."""
    return re.findall(rf'^{function} .*?= codes "([A-Z0-9-]+)', text, re.M)


def constants() -> dict[str, int]:
    found = re.findall(r"^pub const (\w+): \w+ = ([\d_]+);", (CRATES / "xrf_setup/src/ranges.rt").read_text(), re.M)
    return {name: int(value.replace("_", "")) for name, value in found}


class Table:
    """The forms of `xrf_grammar`, in the words of the tools."""

    def __init__(self) -> None:
        self.constants = constants()
        self.keywords = dict(re.findall(r'(\w+) b"([A-Z]+)"', (CRATES / "xrf_grammar/src/keyword.rt").read_text()))
        self.quantities = dict(re.findall(r'^quantity_text (\w+) = codes "([A-Z]+)"', spec("xrf_grammar/Quantities"), re.M))
        self.ranges = dict(re.findall(r"^range_of (\w+) = (.*)$", spec("xrf_grammar/Quantities"), re.M))

    def forms(self, function: str) -> list[str]:
        """The forms of the lines of a definition that are spelled out, each quantity among them."""
        found = []
        for form, parts in re.findall(rf"^{function} (.*?) = (Key .*)$", spec("xrf_grammar/Table"), re.M):
            texts = parts.removesuffix(" ∷ []").split(" ∷ ")
            if form == "(form.Quantity quantity)":
                found += [f"{word} {self.part(self.ranges[name])}" for name, word in self.quantities.items()]
            else:
                found.append(" ".join(map(self.part, texts)))
        return found

    def part(self, text: str) -> str:
        kind, *words = text.replace("(", "").replace(")", "").split(" ")
        if kind == "Key":
            return self.keywords[words[0].removeprefix("key.")]
        if kind in ("Number", "Multiple"):
            least, most, *unit = [self.constants[word] if word in self.constants else int(word) for word in words]
            return f"{least}..{most}" + "".join(f"/{it}" for it in unit)
        return {"Site": "s", "Name": "name", "Value": "value", "Hex": "hex", "Words": "words"}[kind]


class Language(unittest.TestCase):
    def test_the_forms_of_settings_items_and_choices_are_those_of_the_grammar(self) -> None:
        table = Table()
        marks = [form.text for form in language.MARKS.values()]
        settings = [text for text in table.forms("parts_of") if text not in marks]
        self.assertEqual(sorted(settings), sorted(form.text for form in language.SETTINGS))
        self.assertEqual(sorted(table.forms("work_parts")), sorted(form.text for form in language.WORK))
        self.assertEqual(sorted(table.forms("choice_parts")), sorted(form.text for form in language.CHOICES))

    def test_what_stands_under_xrf_2_alone_and_what_may_be_planned(self) -> None:
        table, page = Table(), spec("xrf_grammar/Table")
        of_two = re.findall(r"^is_of_two \(?form\.(?:Work item\.)?(\w+).*= true$", page, re.M)
        self.assertEqual({table.keywords[name] for name in of_two}, set(language.OF_TWO))
        planned = re.findall(r"^is_planned key\.(\w+) = true$", page, re.M)
        self.assertEqual([table.keywords[name] for name in planned], list(language.PLANNED))

    def test_the_defaults_are_those_of_the_settings(self) -> None:
        table = Table()
        defaults = re.findall(r"^default_of (\w+) = (\d+)$", spec("xrf_grammar/Quantities"), re.M)
        self.assertEqual({table.quantities[name]: int(number) for name, number in defaults},
                         {word: default for word, (_, default) in language.QUANTITIES.items()})
        page = (runs.ROOT / "docs/SCENARIOS.md").read_text()
        for word, default in language.DEFAULTS.items():
            self.assertRegex(page, rf"(?m)^\| `{word} .*\| {default} \|$")

    def test_the_limits_are_those_of_the_setup(self) -> None:
        for name, value in constants().items():
            if hasattr(language, name):
                self.assertEqual(getattr(language, name), value, name)
        for name in ("INPUT_MOST", "LINE_MOST", "TORN_MOST", "CLT_MOST", "ITEMS_MOST", "PLAN_MOST", "CHOICES_MOST"):
            self.assertIn(name, constants())
        self.assertIn(f"\nmost_choices={language.CHOICES_MOST}\n", (runs.ROOT / "xrf").read_text())

    def test_the_reasons_are_those_that_the_program_writes(self) -> None:
        page = spec("xrf/Refusals")
        self.assertEqual(codes(page, "grammar_text") + codes(page, "choosing_text"), list(language.REASONS))
        self.assertEqual(codes(page, "choosing_text"), list(language.OF_THE_RUN))

    def test_the_acts_and_their_words_are_those_that_the_report_writes(self) -> None:
        acts = {words.split(" ")[0] for words in re.findall(r'^act_text .*?= codes "([A-Z0-9 ]+)"', spec("xrf_report/Acts"), re.M)}
        self.assertEqual(acts, set(FORMS))
        ends = codes(spec("xrf_report/Decisions"), r"ending_text")
        self.assertEqual(set(ends) - {"REFUSED", "FORMAT"}, set(meaning.ENDINGS))
        for end in ends:
            self.assertIsNotNone(FORMS["ENDED"].fullmatch(f"{end} 1" if end == "REFUSED" else end))
        answers = codes(spec("xrf_report/Answers"), "answer_text")
        self.assertEqual(set(answers) - {"VALUE"}, set(meaning.ANSWERS) - {"OPEN", "LOST"})
        decisions = [word for name in ("decision_text", "waiting_word", "acting_text") for word in codes(spec("xrf_report/Decisions"), name)]
        for decision in decisions:
            self.assertIsNotNone(FORMS["DECIDE"].fullmatch(decision), decision)

    def test_an_older_python_is_told_so(self) -> None:
        code = "import sys; sys.version_info = (3, 8, 1); import xrf_tools"
        done = subprocess.run(["python3", "-B", "-c", code], cwd=runs.ROOT / "tools", capture_output=True, text=True)
        self.assertEqual((done.returncode, done.stderr.count("\n")), (1, 1))
        self.assertIn("Python 3.9 or newer", done.stderr)
        self.assertIn('requires-python = ">=3.9"', (runs.ROOT / "pyproject.toml").read_text())

    def test_the_version_of_the_tools_is_that_of_the_launcher(self) -> None:
        version = re.search(r"^version=(.*)$", (runs.ROOT / "xrf").read_text(), re.M)
        self.assertIn(f'\nversion = "{version[1] if version else ""}"\n', (runs.ROOT / "pyproject.toml").read_text())


if __name__ == "__main__":
    unittest.main()
