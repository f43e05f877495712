"""A run as data: each stored document by the schema and back again, and the recipes of docs/DATA.md."""

import functools
import json
import os
import re
import shutil
import subprocess
import sys
import tempfile
import unittest
from pathlib import Path

import cuts
import runs
from test_draw import call
from xrf_tools import data
from xrf_tools.data_back import document_of

SCHEMA = runs.ROOT / "schema" / "xrf-document-1.json"
PAGE = (runs.ROOT / "docs" / "DATA.md").read_text()
# Reads JSON values, one a line, and says of each that the schema does not let pass why. Acts that are alike but for
# their place are looked at once.
VALIDATE = """
import json, sys, jsonschema
schema = json.load(open(sys.argv[1]))
jsonschema.Draft202012Validator.check_schema(schema)
whole = jsonschema.Draft202012Validator(schema)
act = jsonschema.Draft202012Validator({**schema, "oneOf": [{"$ref": "#/$defs/act"}]})
seen = set()
def told(by, value):
    for error in by.iter_errors(value):
        print(json.dumps(value)[:100], error.message[:300])
for line in sys.stdin:
    value = json.loads(line)
    acts = value.pop("acts", []) if "scenario" in value else [value] if "verb" in value else []
    if "verb" not in value:
        told(whole, {**value, "acts": acts[:1]} if "scenario" in value else value)
    for one in acts:
        alike = json.dumps({**one, "act": 0, "tick": 0, "text": ""})
        if alike not in seen:
            seen.add(alike)
            told(act, one)
"""


@functools.cache
def python_with(module: str) -> str:
    """A Python that has a module of Debian; '' where none has."""
    for python in (sys.executable, "/usr/bin/python3"):
        if os.access(python, os.X_OK) and not subprocess.run([python, "-c", f"import {module}"], capture_output=True, check=False).returncode:
            return python
    return ""


def faults(values: list[str]) -> str:
    """What the schema says of these values."""
    python = python_with("jsonschema")
    done = subprocess.run([python, "-c", VALIDATE, str(SCHEMA)], input="\n".join(values), capture_output=True, text=True, check=False)
    return done.stdout + done.stderr


class Documents(unittest.TestCase):
    def test_each_stored_document_comes_back_byte_for_byte(self) -> None:
        for name in runs.names():
            with self.subTest(name):
                text = json.dumps(data.of_document(runs.document(name)))
                self.assertEqual(document_of(text, name), runs.path(name).read_text())

    @unittest.skipUnless(python_with("jsonschema"), "python3-jsonschema is missing, so no JSON was held against its schema")
    def test_each_stored_document_is_as_the_schema_says(self) -> None:
        values = [json.dumps(data.of_document(runs.document(name))) for name in runs.names()]
        self.assertEqual(faults([*values, json.dumps(data.refused(7, "NOT-ENABLED"))]), "")

    @unittest.skipUnless(python_with("jsonschema"), "python3-jsonschema is missing, so no JSON was held against its schema")
    def test_the_schema_lets_nothing_else_pass(self) -> None:
        whole = data.of_document(runs.document("first_start"))
        act = json.dumps(next(iter(data.acts(runs.document("first_start")))))
        spoiled = [
            json.dumps(whole).replace('"ACTIVE"', '"ACTING"', 1), json.dumps({**whole, "more": 1}),
            json.dumps({**whole, "xrf": 3}), act.replace('"role"', '"part"'), act.replace('"verb": "START"', '"verb": "BEGIN"'),
            '{"refused": {"line": -1, "reason": "NOT-ENABLED"}}', "{}",
        ]
        for value in spoiled:
            self.assertNotEqual(faults([value]), "", value[:200])

    def test_words_stand_by_their_names(self) -> None:
        acts = {act["verb"]: act for act in data.acts(runs.document("takeover_after_an_abend"))}
        self.assertEqual(acts["CTLWRITE"]["fields"]["owner"], {"incarnation": 2, "site": "B", "state": "RUNNING"})
        self.assertEqual(acts["LOGOPEN"]["fields"], {"place": 3, "kind": "BACKOUT", "unit": "1.2"})
        self.assertEqual(acts["TICK"] | {"act": 0}, {
            "act": 0, "tick": 3, "site": None, "incarnation": None, "verb": "TICK", "data_set": None, "access": None, "fields": {},
            "how": "made", "landing": None, "torn": None, "choice": "TICK", "text": "TICK"})
        stopped = next(act for act in data.acts(runs.document("torn_file_write")) if act["how"] == "stopped")
        self.assertEqual((stopped["verb"], stopped["landing"], stopped["choice"]), ("FILEWRITE", "TORN", f"STOP A TORN {stopped['torn']}"))


class Words(unittest.TestCase):
    RUN = str(runs.path("first_start"))

    def test_one_object_or_an_act_a_line(self) -> None:
        whole = json.loads(call("json", self.RUN)[1])
        self.assertEqual((whole["xrf"], len(whole["acts"]), len(whole["choices"])), (1, 12, 12))
        lines = call("json", "--lines", self.RUN)[1].splitlines()
        self.assertEqual([json.loads(line) for line in lines], whole["acts"])

    def test_a_refusal_is_data_too(self) -> None:
        status, out, err = call("json", str(runs.ROOT / "examples" / "step_past_the_end.out"))
        self.assertEqual((status, json.loads(out), err), (8, {"refused": {"line": 7, "reason": "NOT-ENABLED"}}, ""))

    def test_back_gives_the_document_or_the_refusal(self) -> None:
        with tempfile.TemporaryDirectory() as room:
            for name in ("first_start.out", "step_past_the_end.out"):
                path = Path(room) / "run.json"
                path.write_text(call("json", str(runs.ROOT / "examples" / name))[1])
                self.assertEqual(call("json", "--back", str(path)), (0, (runs.ROOT / "examples" / name).read_text(), ""))

    def test_what_is_no_run_is_said_in_one_line(self) -> None:
        whole = json.loads(call("json", self.RUN)[1])
        spoiled = ("", "[]", "3", "{}", '{"xrf": 1}', json.dumps(whole | {"choices": ["TICK"]}), json.dumps(whole | {"acts": 3}),
                   json.dumps(whole | {"xrf": 7}), '{"refused": 1}')
        with tempfile.TemporaryDirectory() as room:
            path = Path(room) / "run.json"
            for text in spoiled:
                path.write_text(text)
                status, out, err = call("json", "--back", str(path))
                self.assertEqual((status, out, err.count("\n")), (1, "", 1), text[:80])
            self.assertEqual(call("json", "--back", "--lines", str(path))[0], 1)

    def test_a_report_with_a_line_that_is_none_is_said(self) -> None:
        with tempfile.TemporaryDirectory() as room:
            path = Path(room) / "run.out"
            for line, spoiled in (("* JOB B NONE", "* JOB B"), ("* LOG 0 COMMITTED 0 FLIGHT 0\n", ""), ("* TICK 0", "* TICK")):
                path.write_text(runs.path("first_start").read_text().replace(line, spoiled))
                status, out, err = call("json", str(path))
                self.assertEqual((status, out, err.count("\n")), (1, "", 1), spoiled)


class Recipes(unittest.TestCase):
    """The commands of docs/DATA.md with what the page says they print."""

    def in_room(self, command: str, room: str, path: str = "") -> str:
        env = {**os.environ, "PATH": f"{path}:{os.environ['PATH']}"}
        return subprocess.run(["bash", "-c", command], cwd=room, env=env, capture_output=True, text=True, check=False).stdout

    def room(self) -> str:
        made = tempfile.TemporaryDirectory()
        self.addCleanup(made.cleanup)
        for name in ("xrf", "examples"):
            os.symlink(runs.ROOT / name, Path(made.name) / name)
        return made.name

    @unittest.skipUnless(shutil.which("jq"), "jq is missing, so its recipes were not run")
    def test_those_of_jq(self) -> None:
        blocks = re.findall(r"^    \$ (.*jq .*)\n((?:    [^$\n].*\n)+)", PAGE, re.M)
        self.assertEqual(len(blocks), 3)
        for command, wanted in blocks:
            self.assertEqual(self.in_room(command, self.room()), re.sub("^    ", "", wanted, flags=re.M), command)

    @unittest.skipUnless(python_with("pandas"), "python3-pandas is missing, so its recipe was not run")
    def test_that_of_pandas(self) -> None:
        room, part = self.room(), PAGE.split("## With pandas\n")[1]
        code, wanted = (re.sub("^    ", "", text, flags=re.M).strip("\n") + "\n" for text in
                        re.findall(r"(?:acts\.py` is|It prints)\n\n((?:    .*\n|\n)+)", part))
        (Path(room) / "acts.py").write_text(code)
        (Path(room) / "python3").symlink_to(python_with("pandas"))
        for command in re.findall(r"^    \$ (.*)", part, re.M)[:1]:
            self.in_room(command, room)
        self.assertEqual(self.in_room("./python3 acts.py", room), wanted)


@unittest.skipUnless(cuts.is_current(), "the program is not built, so no scenario was made data")
class Scenarios(unittest.TestCase):
    def test_a_scenario_is_replayed_first(self) -> None:
        words = [str(runs.ROOT / "xrf"), "json", str(runs.ROOT / "examples" / "first_start.in")]
        done = subprocess.run(words, capture_output=True, text=True, check=False)
        self.assertEqual((done.returncode, done.stdout), (0, call("json", str(runs.path("first_start")))[1]))


if __name__ == "__main__":
    unittest.main()
