"""The launcher xrf, tools/build and the Makefile, over a checkout whose rt and program are stand-ins."""

import os
import pty
import re
import select
import shutil
import subprocess
import sys
import tempfile
import time
import unittest
from pathlib import Path

from xrf_tools.__main__ import WORDS

ROOT = Path(__file__).resolve().parents[2]

# A stand-in of rt: it notes its words, and builds the stand-in of the program for `rt run`.
RT = """#!/usr/bin/env bash
[ "$1" != version ] || { echo 'a kit logic 1234'; exit; }
echo "$(basename "$PWD") $*" >>"$RT_CALLS"
[ ! -e refuses ] || { echo "open goal of this crate"; exit 1; }
if [ -e meets ]; then
  touch begun
  for _ in $(seq 100); do if [ -e "../$(cat meets)/begun" ]; then break; fi; sleep 0.1; done
  [ -e "../$(cat meets)/begun" ] || exit 1
fi
mkdir -p out
if [ "$1" = run ]; then cp ../../program.sh out/xrf; exec out/xrf replay; fi
"""

# A stand-in of the program: it writes its words and its input, and ends with the status that the input asks for; a
# document it writes back.
PROGRAM = """#!/usr/bin/env bash
input=$(cat)
case $input in
  "XRF "*) echo "$input"; exit ;;
  long) printf '%9999d\n' 1 || exit 20; exit ;;
esac
echo "words: $*"
[ "$*" != 'drive 7 9000' ] || exit 12
echo "$input"
case $input in status\\ *) exit "${input#status }" ;; esac
"""

CRATES = "# NAME: what it stands on\nlow:\nbeside: low\nmiddle may_wait=5: low byteorder\nxrf may_wait=8 tests_may=Threads+Wait: middle low\n"


class Checkout(unittest.TestCase):
    def setUp(self) -> None:
        self.room = Path(tempfile.mkdtemp(prefix="xrf-launcher-"))
        self.addCleanup(shutil.rmtree, self.room)
        self.home = self.room / "a checkout"
        self.calls = self.room / "calls"
        self.calls.write_text("")
        self.lay_out()
        self.env = {**os.environ, "PATH": f"{self.room}/bin:/usr/bin:/bin", "RT_CALLS": str(self.calls)}

    def lay_out(self) -> None:
        for name in ("low", "beside", "middle", "xrf"):
            folder = self.home / "crates" / name
            (folder / "src").mkdir(parents=True)
            (folder / "src" / "lib.rt").write_text("//! A crate.\n")
        (self.home / "crates/xrf/stdin").write_text("XRF 1\n")
        (self.home / "crates.txt").write_text(CRATES)
        (self.home / "program.sh").write_text(PROGRAM)
        (self.home / "program.sh").chmod(0o755)
        for name in ("xrf", "Makefile", "README.md", "CHANGELOG.md"):
            shutil.copy(ROOT / name, self.home / name)
        for name in ("tools", "docs", "examples", "schema"):
            shutil.copytree(ROOT / name, self.home / name, ignore=shutil.ignore_patterns("__pycache__"))
        (self.room / "bin").mkdir()
        (self.room / "bin" / "python3").symlink_to(sys.executable)
        rt = self.room / "bin" / "rt"
        rt.write_text(RT)
        rt.chmod(0o755)

    def run_xrf(self, *words: str, given: str = "", xrf: Path | str | None = None, **more) -> subprocess.CompletedProcess:
        command = [str(xrf or self.home / "xrf"), *words]
        more = {"env": self.env, "cwd": self.room, **more}
        return subprocess.run(command, input=given, capture_output=True, text=True, timeout=60, **more)

    def rt_calls(self) -> list[str]:
        return self.calls.read_text().splitlines()


class Words(Checkout):
    def test_help_and_version_answer_and_build_nothing(self) -> None:
        for word in ("--help", "-h", "--version"):
            done = self.run_xrf(word)
            self.assertEqual((done.returncode, done.stderr), (0, ""))
            self.assertIn("xrf", done.stdout)
        self.assertEqual(self.rt_calls(), [])

    def test_each_word_has_its_help_which_builds_nothing(self) -> None:
        for word in ("replay", "run", "drive", "build", "draw", "explain", "check"):
            for words in ((word, "--help"), (word, "-h"), ("help", word)):
                done = self.run_xrf(*words)
                self.assertEqual((done.returncode, done.stderr), (0, ""), words)
                self.assertTrue(done.stdout.startswith(f"usage: xrf {word}"), done.stdout)
        self.assertEqual(self.run_xrf("help").stdout, self.run_xrf("--help").stdout)
        self.assertEqual(self.run_xrf("version").stdout, self.run_xrf("--version").stdout)
        self.assertEqual(self.rt_calls(), [])

    def test_the_version_comes_with_the_commit_and_the_logic(self) -> None:
        self.assertEqual(self.run_xrf("--version").stdout, "xrf 0.1.0 (commit unknown, a kit logic 1234)\n")
        (self.room / "bin/git").write_text("#!/usr/bin/env bash\necho abc1234\n")
        (self.room / "bin/git").chmod(0o755)
        self.run_xrf("build")
        (self.room / "bin/rt").unlink()
        self.assertEqual(self.run_xrf("version").stdout, "xrf 0.1.0 (commit abc1234, a kit logic 1234)\n")

    def test_too_many_turns_are_told_with_their_limit(self) -> None:
        done = self.run_xrf("drive", "7", "9000")
        self.assertEqual((done.returncode, done.stdout), (12, "words: drive 7 9000\n"))
        self.assertIn("at most 8192 choices", done.stderr)

    def test_a_refusal_names_the_word_that_explains_it(self) -> None:
        scenario = self.room / "a scenario"
        scenario.write_text("status 8")
        self.assertIn(f"xrf explain {scenario} says more", self.run_xrf("replay", str(scenario)).stderr)
        self.assertIn("xrf explain FILE says more", self.run_xrf("replay", given="status 8").stderr)

    def test_a_write_beyond_the_limit_of_file_sizes_is_a_status_and_no_signal(self) -> None:
        self.run_xrf("build")
        done = self.run_xrf("-c", f"ulimit -f 1; '{self.home}/xrf' replay >out", given="long", xrf="bash")
        self.assertEqual(done.returncode, 20, done.stderr)
        self.assertIn("could not be written to its end (status 20)", done.stderr)

    def test_no_words_build_nothing(self) -> None:
        done = self.run_xrf()
        self.assertEqual((done.returncode, done.stdout, self.rt_calls()), (12, "", []))
        self.assertIn("--help", done.stderr)

    def test_the_version_is_that_of_the_man_page_and_of_the_newest_change(self) -> None:
        version = self.run_xrf("--version").stdout.split()[1]
        self.assertIn(f"xrf {version}", (ROOT / "tools/man/xrf.1").read_text().splitlines()[0])
        self.assertEqual(re.findall(r"^## (.*)$", (ROOT / "CHANGELOG.md").read_text(), re.M)[0], version)

    def test_replay_takes_a_file_a_dash_or_standard_input(self) -> None:
        scenario = self.room / "a scenario"
        scenario.write_text("some lines\n")
        for words, given in ((("replay", str(scenario)), ""), (("replay", "-"), "some lines\n"), (("replay",), "some lines\n")):
            done = self.run_xrf(*words, given=given)
            self.assertEqual((done.stdout, done.returncode), ("words: replay\nsome lines\n", 0))

    def test_run_takes_a_file_too(self) -> None:
        scenario = self.room / "a scenario"
        scenario.write_text("some lines\n")
        for words, given in ((("run", str(scenario)), ""), (("run",), "some lines\n")):
            done = self.run_xrf(*words, given=given)
            self.assertEqual((done.stdout, done.returncode), ("words: run\nsome lines\n", 0))

    def test_a_file_that_cannot_be_read_is_said_and_nothing_is_built(self) -> None:
        for name, said in (("nowhere", "is not there"), (str(self.room), "is a folder")):
            done = self.run_xrf("replay", name)
            self.assertEqual((done.returncode, done.stdout, done.stderr), (16, "", f"xrf: {name} {said} (status 16)\n"))
        self.assertEqual(self.rt_calls(), [])

    def test_other_words_go_to_the_program(self) -> None:
        self.assertEqual(self.run_xrf("drive", "7", "0").stdout, "words: drive 7 0\n\n")
        self.assertEqual(self.run_xrf("replay", "x", "y").stdout, "words: replay x y\n\n")

    def test_each_status_has_its_message_on_standard_error_alone(self) -> None:
        self.run_xrf("build")
        seen = set()
        for status in (8, 12, 16, 20, 24, 28, 3):
            done = self.run_xrf("replay", given=f"status {status}")
            self.assertEqual(done.returncode, status)
            self.assertEqual(done.stdout, f"words: replay\nstatus {status}\n")
            self.assertTrue(done.stderr.startswith("xrf: ") and done.stderr.endswith(f"(status {status})\n"))
            seen.add(done.stderr.split("(")[0])
        self.assertEqual(len(seen), 7)

    def test_status_0_says_nothing(self) -> None:
        self.run_xrf("build")
        self.assertEqual(self.run_xrf("replay", given="x").stderr, "")

    def test_a_terminal_as_standard_input_is_told(self) -> None:
        self.run_xrf("build")
        leader, follower = pty.openpty()
        with subprocess.Popen([str(self.home / "xrf"), "replay"], stdin=follower, stdout=subprocess.PIPE,
                              stderr=subprocess.PIPE, text=True, env=self.env) as child:
            os.write(leader, b"lines\n\x04")
            out, err = child.communicate(timeout=60)
        os.close(leader)
        os.close(follower)
        self.assertIn("from the terminal", err)
        self.assertEqual(out, "words: replay\nlines\n")


class Places(Checkout):
    def test_it_works_through_links_from_any_folder_with_cdpath_set(self) -> None:
        links = self.room / "links"
        links.mkdir()
        (links / "one").symlink_to(self.home / "xrf")
        (links / "two").symlink_to("one")
        for xrf, folder in ((links / "two", links), ("./xrf", self.home), ("links/one", self.room)):
            done = self.run_xrf("replay", given="x", xrf=xrf, cwd=folder, env={**self.env, "CDPATH": f"{self.home}:/"})
            self.assertEqual((done.returncode, done.stdout), (0, "words: replay\nx\n"), done.stderr)


class Building(Checkout):
    def test_the_program_is_built_crate_by_crate_and_progress_is_said(self) -> None:
        done = self.run_xrf("replay", given="x")
        self.assertEqual(self.rt_calls(), ["low lib", "middle lib", "xrf run -- replay"])
        self.assertEqual(done.stdout, "words: replay\nx\n")
        for text in ("3 crates", "1 of 3: low", "2 of 3: middle", "3 of 3: xrf", "proved and built in"):
            self.assertIn(text, done.stderr)

    def test_it_is_built_again_exactly_where_a_source_of_it_is_newer(self) -> None:
        self.run_xrf("build")
        calls = len(self.rt_calls())
        later = time.time() + 60
        os.utime(self.home / "crates/beside/src/lib.rt", (later, later))
        (self.home / "crates/low/src/notes.txt").write_text("no source\n")
        os.utime(self.home / "crates/low/src/notes.txt", (later, later))
        self.run_xrf("replay")
        self.assertEqual(len(self.rt_calls()), calls)
        os.utime(self.home / "crates/low/src/lib.rt", (later, later))
        self.run_xrf("replay")
        self.assertEqual(len(self.rt_calls()), 2 * calls)

    def test_each_crate_of_this_repository_is_built_after_those_it_stands_on(self) -> None:
        done = subprocess.run([ROOT / "tools/build", "--crates"], capture_output=True, text=True, timeout=60)
        crates = done.stdout.split()
        self.assertEqual(crates[-1], "xrf")
        lines = (line.split(":") for line in (ROOT / "crates.txt").read_text().splitlines() if line and line[0] != "#")
        uses = {head.split()[0]: used.split() for head, used in lines}
        for place, crate in enumerate(crates):
            own = [name for name in uses[crate] if name in uses]
            self.assertLessEqual(set(own), set(crates[:place]), crate)

    def test_build_builds_and_takes_no_words(self) -> None:
        self.assertEqual(self.run_xrf("build").returncode, 0)
        self.assertEqual(len(self.rt_calls()), 3)
        self.assertEqual(self.run_xrf("build", "all").returncode, 1)

    def test_the_program_is_built_and_its_place_is_printed(self) -> None:
        done = self.run_xrf("--program")
        self.assertEqual(done.stdout, f"{self.home}/crates/xrf/out/xrf\n")
        self.assertEqual(len(self.rt_calls()), 3)

    def test_another_program_can_be_named_and_then_nothing_is_built(self) -> None:
        other = self.room / "another program"
        other.write_text("#!/usr/bin/env bash\necho another: $*\n")
        other.chmod(0o755)
        env = {**self.env, "XRF_PROGRAM": str(other)}
        self.assertEqual(self.run_xrf("replay", env=env).stdout, "another: replay\n")
        self.assertEqual(self.run_xrf("--program", env=env).stdout, f"{other}\n")
        done = self.run_xrf("replay", env={**self.env, "XRF_PROGRAM": f"{other}s"})
        self.assertEqual((done.returncode, done.stdout, done.stderr), (1, "", f"xrf: XRF_PROGRAM names no program: {other}s\n"))
        self.assertEqual(self.rt_calls(), [])

    def test_check_runs_the_program_that_is_built(self) -> None:
        folder = self.room / "rows"
        folder.mkdir()
        (folder / "one.in").write_text("x\n")
        (folder / "one.args").write_text("other\n")
        (folder / "one.out").write_text("words: other\nx\n")
        done = self.run_xrf("check", "rows")
        self.assertEqual((done.returncode, done.stdout.splitlines()[-1]), (0, "1 passed, 0 failed"), done.stderr)

    def test_a_crate_that_is_refused_ends_the_build(self) -> None:
        (self.home / "crates/middle/refuses").touch()
        done = self.run_xrf("replay", given="x")
        self.assertEqual((done.returncode, done.stdout), (1, ""))
        self.assertIn("middle could not be proved", done.stderr)
        self.assertIn("open goal of this crate", done.stderr)
        self.assertIn("build.log", done.stderr)

    def test_crates_that_do_not_wait_for_each_other_are_built_at_the_same_time(self) -> None:
        (self.home / "crates.txt").write_text(CRATES.replace("middle low", "middle beside low"))
        for name, other in (("beside", "middle"), ("middle", "beside")):
            (self.home / "crates" / name / "meets").write_text(other)
        done = self.run_xrf("build", env={**self.env, "XRF_JOBS": "2"})
        self.assertEqual(done.returncode, 0, done.stderr)
        calls = [line.split()[0] for line in self.rt_calls()]
        self.assertEqual((calls[0], sorted(calls[1:3]), calls[3]), ("low", ["beside", "middle"], "xrf"))

    def test_a_checkout_that_cannot_be_written_is_told(self) -> None:
        (self.home / "crates/xrf/out").write_text("a file in the place of the folder")
        done = self.run_xrf("replay", given="x")
        self.assertEqual((done.returncode, done.stdout, done.stderr.count("\n")), (1, "", 1))
        self.assertIn("can't be written, so nothing can be built", done.stderr)

    def test_without_rt_the_program_is_run_as_built_or_missed(self) -> None:
        without = {**self.env, "PATH": "/usr/bin:/bin"}
        done = self.run_xrf("replay", given="x", env=without)
        self.assertEqual((done.returncode, done.stderr), (1, "xrf: the program is not built, and rt is missing\n"))
        self.run_xrf("build")
        later = time.time() + 60
        os.utime(self.home / "crates/low/src/lib.rt", (later, later))
        done = self.run_xrf("replay", given="x", env=without)
        self.assertEqual(done.stdout, "words: replay\nx\n")
        self.assertIn("rt is missing", done.stderr)


class Missing(Checkout):
    """What is wanted and is not there."""

    def few(self, *names: str) -> dict[str, str]:
        """An environment in which these commands alone are found."""
        folder = self.room / "few"
        folder.mkdir()
        for name in names:
            (folder / name).symlink_to(shutil.which(name))
        return {**self.env, "PATH": str(folder)}

    def test_tools_say_that_python3_is_missing_and_the_launcher_does_without(self) -> None:
        env = self.few("bash", "cat", "readlink")
        run = str(ROOT / "tests/rows/ordinary_unit_of_work.out")
        for word in ("draw", "explain", "check"):
            done = self.run_xrf(word, run, env=env)
            self.assertEqual((done.returncode, done.stdout, done.stderr), (1, "", f"xrf: {word} needs python3, which is missing\n"))
        self.assertEqual(self.run_xrf("--help", env=env).returncode, 0)

    def test_tools_do_without_rt_and_without_the_program(self) -> None:
        run = str(ROOT / "tests/rows/ordinary_unit_of_work.out")
        env = self.few("bash", "cat", "readlink", "python3")
        for word in ("draw", "explain"):
            done = self.run_xrf(word, run, env=env)
            self.assertEqual(done.returncode, 0)
            self.assertRegex(done.stderr, "^xrf: .* was not replayed, since the program is not built.*\n$")


def in_zsh(line: str, wanted: str) -> bool:
    """Whether zsh makes `wanted` of a line and a tabulator, within some seconds."""
    leader, follower = pty.openpty()
    env = {**os.environ, "TERM": "dumb"}
    with subprocess.Popen(["zsh", "-f", "-i"], stdin=follower, stdout=follower, stderr=follower, cwd=ROOT, env=env,
                          start_new_session=True) as child:
        os.close(follower)
        os.write(leader, b"fpath=($PWD/tools/completions $fpath); autoload -U compinit; compinit -u -D; echo read''y\n")
        found = read_until(leader, "ready")
        os.write(leader, f"{line}\t".encode())
        found = found and read_until(leader, wanted)
        child.kill()
    os.close(leader)
    return found


def read_until(leader: int, wanted: str) -> bool:
    text, end = "", time.monotonic() + 30
    while wanted not in text and time.monotonic() < end:
        if select.select([leader], [], [], 0.5)[0]:
            text += os.read(leader, 65536).decode("utf-8", "replace")
    return wanted in text


@unittest.skipUnless(shutil.which("make"), "make is missing")
class Installing(Checkout):
    def make(self, *words: str) -> None:
        done = subprocess.run(["make", "-s", *words], cwd=self.home, env=self.env, capture_output=True, text=True)
        self.assertEqual(done.returncode, 0, done.stderr)

    def test_what_is_installed_runs_without_the_checkout_and_is_taken_away_again(self) -> None:
        prefix = self.room / "a prefix"
        self.make("install", f"PREFIX={prefix}")
        shutil.move(self.home, self.room / "elsewhere")
        done = self.run_xrf("replay", given="x", xrf=prefix / "bin/xrf")
        self.assertEqual((done.returncode, done.stdout, done.stderr), (0, "words: replay\nx\n", ""))
        self.assertEqual(self.run_xrf("build", xrf=prefix / "bin/xrf").returncode, 1)
        self.assertEqual(self.run_xrf("--version", xrf=prefix / "bin/xrf").stdout, "xrf 0.1.0 (commit unknown, a kit logic 1234)\n")
        run = str(ROOT / "tests/rows/ordinary_unit_of_work.out")
        self.assertIn("<svg", self.run_xrf("draw", run, xrf=prefix / "bin/xrf").stdout)
        self.assertIn("committed", self.run_xrf("explain", run, xrf=prefix / "bin/xrf").stdout)
        for name in ("man/man1/xrf.1", "bash-completion/completions/xrf", "zsh/site-functions/_xrf",
                     "fish/vendor_completions.d/xrf.fish", "doc/xrf/README.md", "doc/xrf/docs/TUTORIAL.md",
                     "doc/xrf/examples/tutorial/step_01.in", "doc/xrf/schema/xrf-document-1.json", "doc/xrf/tools/editors/vim/syntax/xrf.vim"):
            self.assertTrue((prefix / "share" / name).is_file(), name)
        shutil.move(self.room / "elsewhere", self.home)
        self.make("uninstall", f"PREFIX={prefix}")
        self.assertEqual([it for it in prefix.rglob("*") if it.is_symlink() or not it.is_dir()], [])

    def test_destdir_stands_before_the_prefix(self) -> None:
        self.make("install", "PREFIX=/usr", f"DESTDIR={self.room}/stage")
        done = self.run_xrf("--version", xrf=self.room / "stage/usr/bin/xrf")
        self.assertEqual(done.returncode, 0)


class Texts(unittest.TestCase):
    @unittest.skipUnless(shutil.which("shellcheck"), "shellcheck is missing")
    def test_shellcheck_has_nothing_to_say(self) -> None:
        scripts = ["xrf", "tools/build", "tools/dist", "tools/pictures", "tools/completions/xrf.bash", "tests/run"]
        done = subprocess.run(["shellcheck", "-s", "bash", *scripts], cwd=ROOT, capture_output=True, text=True)
        self.assertEqual(done.stdout, "")

    @unittest.skipUnless(shutil.which("groff"), "groff is missing")
    def test_the_man_page_is_set_without_a_warning(self) -> None:
        page = ROOT / "tools/man/xrf.1"
        done = subprocess.run(["groff", "-man", "-Tutf8", "-ww", str(page)], capture_output=True, text=True)
        self.assertEqual((done.returncode, done.stderr), (0, ""))
        for status in ("0", "8", "12", "16", "20", "24", "28", "1"):
            self.assertIn(f"\n.B {status}\n", page.read_text())

    def test_every_option_of_the_tools_stands_in_the_man_page_and_the_completions(self) -> None:
        page = (ROOT / "tools/man/xrf.1").read_text().replace("\\-", "-")
        of_bash, of_zsh, of_fish = ((ROOT / "tools/completions" / name).read_text() for name in ("xrf.bash", "_xrf", "xrf.fish"))
        for word in (module.__name__.rpartition(".")[2] for module in WORDS):
            done = subprocess.run([str(ROOT / "xrf"), word, "--help"], capture_output=True, text=True)
            self.assertEqual(done.returncode, 0)
            for option in set(re.findall(r"--[a-z][a-z-]*", done.stdout)) - {"--help"}:
                self.assertIn(option, page)
                self.assertRegex(of_bash, rf"(?m)^ +{word}:-\*.*[\" ]{option}[\" ]")
                self.assertRegex(of_zsh, rf"(?m)^ +{word}\)\s.*[ ']{option}[ =']")
                self.assertRegex(of_fish, rf"(?m)^__xrf_options {word}\b.* {option[2:]}\b")

    def test_each_shell_completes_the_same_words(self) -> None:
        of_zsh, of_fish = ((ROOT / "tools/completions" / name).read_text() for name in ("_xrf", "xrf.fish"))
        words = [word for word in self.complete("xrf", "") if word[0] != "-"]
        self.assertEqual(re.findall(r"^    '([a-z]+):", of_zsh, re.M), words)
        self.assertEqual(re.findall(r"^set -l words (.*)$", of_fish, re.M), [" ".join(words)])
        self.assertEqual(re.findall(r"^__xrf_word ([a-z]+) ", of_fish, re.M), words)

    def test_the_help_has_each_word_each_status_and_what_is_left_on_the_disk(self) -> None:
        told = subprocess.run([str(ROOT / "xrf"), "--help"], capture_output=True, text=True).stdout
        page = (ROOT / "tools/man/xrf.1").read_text().replace("\\-", "-")
        for word in self.complete("xrf", ""):
            self.assertIn(f" {word}", told)
            self.assertIn(word, page)
        for status in (0, 8, 12, 16, 20, 24, 28, 1):
            self.assertRegex(told, rf"\b{status} ")
            self.assertIn(f".B {status}\n", page)
        for left in ("out/", "crates/xrf/out/xrf", "crates/xrf/out/build.log"):
            self.assertIn(left, told)
            self.assertIn(left, page)

    def complete(self, *words: str) -> list[str]:
        script = ('source "$1"; shift; COMP_WORDS=("$@"); COMP_CWORD=$(($# - 1)); _xrf; '
                  'printf "%s\\n" "${COMPREPLY[@]}"')
        done = subprocess.run(["bash", "-c", script, "bash", str(ROOT / "tools/completions/xrf.bash"), *words],
                              cwd=ROOT, capture_output=True, text=True)
        return done.stdout.split()

    @unittest.skipUnless(shutil.which("fish"), "fish is missing, so its completions were not tried")
    def test_fish_completes(self) -> None:
        for line, wanted in (("xrf expl", "explain"), ("xrf draw --t", "--text"), ("xrf replay READ", "README.md")):
            done = subprocess.run(["fish", "-c", f"source tools/completions/xrf.fish; complete -C '{line}'"], cwd=ROOT,
                                  capture_output=True, text=True)
            self.assertEqual([it.split("\t")[0] for it in done.stdout.splitlines()], [wanted], done.stderr)

    @unittest.skipUnless(shutil.which("zsh"), "zsh is missing, so its completions were not tried")
    def test_zsh_completes(self) -> None:
        for line, wanted in (("xrf expl", "xrf explain "), ("xrf draw --te", "xrf draw --text "), ("xrf replay READ", "xrf replay README.md ")):
            self.assertTrue(in_zsh(line, wanted), line)

    def test_words_options_files_and_folders_are_completed(self) -> None:
        self.assertEqual(self.complete("xrf", "re"), ["replay"])
        self.assertEqual(self.complete("xrf", "draw", "--t"), ["--text"])
        self.assertEqual(self.complete("xrf", "check", "--ac"), ["--accept"])
        self.assertEqual(self.complete("xrf", "replay", "READ"), ["README.md"])
        self.assertEqual(self.complete("xrf", "check", "tes"), ["tests"])
        self.assertEqual(self.complete("xrf", "help", "exp"), ["explain"])


if __name__ == "__main__":
    unittest.main()
