"""The colours of scenarios and documents, over every stored one: in vim, and by the TextMate grammar."""

import json
import re
import shutil
import subprocess
import tempfile
import unittest
from pathlib import Path

import runs
from textmate import Grammar, scope_at
from xrf_tools.language import OF_THE_RUN

EDITORS = runs.ROOT / "tools" / "editors"
GRAMMAR = json.loads((EDITORS / "vscode/syntaxes/xrf.tmLanguage.json").read_text())
# Words that are numbers, and words that are options, wherever they stand.
LINES = {
    "RECORD 2 5X": {"RECORD": "keyword", "2": "numeric", "5X": "string"},
    "CLT CICSB WTO CICSA IS 1 DOWN": {"WTO": "function", "IS": "string"},
    "WORK A PUT U1 7 NEW": {"A": "site", "PUT": "function", "7": "numeric", "NEW": "string"},
    "  WORK   B  CEMT SHUTDOWN  TAKEOVER": {"CEMT": "function", "TAKEOVER": "option"},
    "PLAN 5 STOP A TORN c1": {"5": "numeric", "STOP": "choice", "TORN": "option", "c1": "hex"},
    "STEP B 40": {"STEP": "choice", "B": "site", "40": "numeric"},
    "EXIT A ABEND": {"EXIT": "choice", "ABEND": "option"},
    "FAIL A TORN 00ff": {"TORN": "option", "00ff": "hex"},
    "TAKEOVR AUTO": {"TAKEOVR": "keyword", "AUTO": "option"},
    "* ACT 26 0 A 1 STOP LOGOPEN 2 COMMIT 1.1 TORN c1": {"ACT": "report", "26": "numeric", "STOP": "stop", "LOGOPEN": "act"},
    "* JOB A 1 ACTIVE": {"JOB": "report"},
}


def stored() -> list[Path]:
    """Every scenario and document that may be read to its end."""
    files = [path for folder in ("examples", "examples/tutorial", "tests/rows", "tests/runs", "tests/shown") for path in (runs.ROOT / folder).glob("*.*")]
    return sorted(path for path in files if path.suffix in (".in", ".out") and is_whole(path.read_text()) and can_be_read(path))


def can_be_read(path: Path) -> bool:
    """It is not refused, or not for what its text is."""
    answer = path.with_suffix(".out")
    first = answer.read_text().split("\n")[0] if answer.exists() else ""
    return not first.startswith("XRF REFUSED") or first.split(" ")[-1] in (*OF_THE_RUN, "CHOICES-GIVEN")


def is_whole(text: str) -> bool:
    lines = [line for line in text.split("\n") if line.strip() and not line.startswith("#")]
    return bool(lines) and re.match(r"\s*XRF\s+[12]\s*$", lines[0]) is not None and any(line.strip() == "END" for line in lines)


class TextMate(unittest.TestCase):
    def setUp(self) -> None:
        self.grammar = Grammar(GRAMMAR)

    def test_every_line_of_every_example_begins_with_a_word_that_is_known(self) -> None:
        files = stored()
        self.assertGreater(len(files), 30)
        for line in {line for path in files for line in path.read_text().split("\n") if line.strip()}:
            scope = scope_at(self.grammar.tokens(line), len(line) - len(line.lstrip()))
            is_end = scope.startswith("invalid") and line not in ("TICK", "CHOICES")
            self.assertTrue(scope and not is_end, line)

    def test_words_have_their_scopes(self) -> None:
        for line, words in LINES.items():
            tokens = self.grammar.tokens(line)
            for word, scope in words.items():
                at = re.search(rf"(?<!\S){re.escape(word)}(?!\S)", line).start()
                self.assertIn(scope, scope_at(tokens, at), f"{word} in {line}")

    def test_a_line_of_no_form_is_wrong(self) -> None:
        for line in ("HELLO", "step A", "WORK C BEGIN U1", "XRF 3"):
            self.assertEqual(scope_at(self.grammar.tokens(line), 0), "invalid.illegal.line.xrf", line)

    def test_the_extension_colours_every_stored_scenario_and_document(self) -> None:
        (language,) = json.loads((EDITORS / "vscode/package.json").read_text())["contributes"]["languages"]
        for path in stored():
            is_named = any(path.match(pattern.removeprefix("**/")) for pattern in language["filenamePatterns"])
            is_known = path.suffix in language["extensions"] or re.match(language["firstLine"], path.read_text().split("\n")[0])
            self.assertTrue(is_named or is_known, path)

    def test_the_extension_names_files_that_are_there(self) -> None:
        package = json.loads((EDITORS / "vscode/package.json").read_text())
        (language,), (grammar,) = package["contributes"]["languages"], package["contributes"]["grammars"]
        for name in (language["configuration"], grammar["path"]):
            json.loads((EDITORS / "vscode" / name).read_text())
        self.assertEqual(grammar["scopeName"], GRAMMAR["scopeName"])


# For each file: its filetype, and of each line that is not blank the group of its first and of its last word.
VIM = """
set nocompatible
let &runtimepath = $XRF_VIM . ',' . $VIMRUNTIME
filetype plugin on
syntax on
let gathered = []
for name in readfile($XRF_FILES)
  execute 'edit' fnameescape(name)
  let rows = []
  for number in range(1, line('$'))
    let text = getline(number)
    if text =~ '\\S'
      let first = match(text, '\\S') + 1
      let last = match(text, '\\S\\+\\s*$') + 1
      call add(rows, [number, synIDattr(synID(number, first, 1), 'name'), synIDattr(synID(number, last, 1), 'name')])
    endif
  endfor
  call add(gathered, [name, &filetype, &commentstring, rows])
endfor
call writefile([json_encode(gathered)], $XRF_OUT)
quitall!
"""


@unittest.skipUnless(shutil.which("vim"), "vim is missing, so its colours were not tried")
class Vim(unittest.TestCase):
    def gather(self, files: list[Path]) -> list[tuple[str, str, str, list[tuple[int, str, str]]]]:
        with tempfile.TemporaryDirectory() as room:
            script, names, out = (Path(room) / name for name in ("script.vim", "names", "out"))
            script.write_text(VIM)
            names.write_text("\n".join(map(str, files)) + "\n")
            env = {"XRF_VIM": str(EDITORS / "vim"), "XRF_FILES": str(names), "XRF_OUT": str(out), "HOME": room,
                   "PATH": "/usr/bin:/bin", "TERM": "dumb"}
            done = subprocess.run(["vim", "-e", "-s", "-N", "-i", "NONE", "-u", str(script)], env=env, timeout=120,
                                  stdin=subprocess.DEVNULL, capture_output=True, text=True)
            self.assertTrue(out.exists(), done.stdout + done.stderr)
            return json.loads(out.read_text())

    def test_every_example_is_recognised_and_has_no_error(self) -> None:
        files = stored()
        gathered = self.gather(files)
        self.assertEqual(len(gathered), len(files))
        for name, filetype, comment, rows in gathered:
            self.assertEqual((filetype, comment), ("xrf", "# %s"), name)
            for number, first, _ in rows:
                self.assertTrue(first and first != "xrfError" and not first.endswith("Line"), f"{name} {number} {first}")

    def test_last_words_have_their_groups_and_wrong_lines_are_errors(self) -> None:
        lines = {"XRF 1": "xrfHeader", "RECORD 2 5X": "xrfRecordValue", "TAKEOVR AUTO": "xrfOption", "ADI 5": "xrfNumber",
                 "WORK A PUT U1 7 9": "xrfPutValue", "WORK B CEMT SHUTDOWN TAKEOVER": "xrfWork", "CLT CICSB WTO X IS 1": "xrfText",
                 "PLAN 5 STOP A TORN c1": "xrfHex", "HELLO": "xrfError", "CHOICES": "xrfPart", "STEP B": "xrfSite",
                 "STEP B 40": "xrfNumber", "EXIT A ABEND": "xrfOption", "step A": "xrfError", "END": "xrfPart",
                 "* ACT 1 0 A 1 SIGNAL1 2 0 LOST": "xrfStop", "# a comment": "xrfComment"}
        with tempfile.NamedTemporaryFile("w", suffix=".xrf") as file:
            file.write("\n".join(lines) + "\n")
            file.flush()
            ((_, _, _, rows),) = self.gather([Path(file.name)])
        self.assertEqual({line: row[2] for line, row in zip(lines, rows)}, lines)


if __name__ == "__main__":
    unittest.main()
