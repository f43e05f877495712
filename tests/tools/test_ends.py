"""The built program where its input ends too early, where its input or output fails, and where memory runs out: each is
answered by its status, and a part of the output stands only where the output failed."""

import os
import shutil
import subprocess
import tempfile
import unittest
from pathlib import Path

import cuts
import runs

HERE = Path(__file__).parent
SHORT = "a_full_ring_and_an_unsent_message"
IN_A_ROW = 12
DONE, REFUSED, SOURCE_FAULT, WRITE_FAULT, NO_MEMORY = 0, 8, 16, 20, 24


def scenario(name: str) -> bytes:
    return runs.path(name).with_suffix(".in").read_bytes()


@unittest.skipUnless(cuts.is_current(), "the program is not built, so no end of it was tried")
class Prefixes(unittest.TestCase):
    def refusal(self, given: bytes) -> tuple[int, bytes]:
        done = subprocess.run([str(cuts.PROGRAM), "replay"], input=given, capture_output=True, timeout=60, check=False)
        return done.returncode, done.stdout

    def check(self, front: bytes) -> None:
        status, out = self.refusal(front)
        with self.subTest(front=front[-20:]):
            self.assertEqual(status, REFUSED)
            self.assertRegex(out.decode(), r"\AXRF REFUSED LINE \d+ [A-Z-]+\n\Z")

    def test_every_front_of_a_scenario_that_ends_before_its_end_is_refused(self) -> None:
        whole = scenario(SHORT)
        for length in range(whole.index(b"\nEND") + 3):
            self.check(whole[:length])

    def test_so_is_each_front_of_whole_lines_of_every_stored_scenario(self) -> None:
        for name in runs.names():
            if not runs.path(name).with_suffix(".in").exists():
                continue
            lines = scenario(name).split(b"\n")
            end = lines.index(b"END") if b"END" in lines else 0
            for count in range(0, end + 1, max(1, end // 20)):
                self.check(b"\n".join(lines[:count]))


@unittest.skipUnless(cuts.is_current(), "the program is not built, so no end of it was tried")
@unittest.skipUnless(shutil.which("cc"), "cc is missing, so no call of the program was made to fail")
class Calls(unittest.TestCase):
    """Each call of the source and of the sink, and each taking of memory, fails in turn."""

    library: Path

    @classmethod
    def setUpClass(cls) -> None:
        room = tempfile.mkdtemp(prefix="xrf-ends-")
        cls.addClassCleanup(shutil.rmtree, room)
        cls.library = Path(room) / "failing.so"
        subprocess.run(["cc", "-shared", "-fPIC", "-O2", "-o", str(cls.library), str(HERE / "failing.c")], check=True)

    def call(self, *words: str, given: bytes = b"", **failing: str) -> tuple[int, bytes]:
        env = {**os.environ, "LD_PRELOAD": str(self.library), **failing}
        done = subprocess.run([str(cuts.PROGRAM), *words], input=given, capture_output=True, timeout=60, env=env, check=False)
        return done.returncode, done.stdout

    def in_turn(self, kind: str, *words: str, given: bytes = b"") -> list[tuple[int, bytes]]:
        """What comes where the first call of a kind fails, where the second does, and so on, as far as it makes a difference: a
        taking of memory that could be done without makes none, so the end is where several in a row do not."""
        whole = self.call(*words, given=given)
        self.assertEqual(whole[0], DONE)
        come: list[tuple[int, bytes]] = []
        while come[-IN_A_ROW:] != [whole] * IN_A_ROW:
            come.append(self.call(*words, given=given, **{kind: str(len(come) + 1)}))
            self.assertLess(len(come), 5000)
        return [one for one in come if one != whole]

    def words(self) -> list[tuple[tuple[str, ...], bytes]]:
        return [(("replay",), scenario(SHORT)), (("drive", "7", "300"), b"")]

    def test_a_source_that_fails_is_said_and_nothing_is_written(self) -> None:
        given = scenario(SHORT)
        come = self.in_turn("FAIL_READ", "replay", given=given)
        self.assertGreater(len(come), 0)
        self.assertEqual(set(come), {(SOURCE_FAULT, b"")})

    def test_a_sink_that_fails_leaves_a_front_of_the_output(self) -> None:
        for words, given in self.words():
            whole = self.call(*words, given=given)[1]
            come = self.in_turn("FAIL_WRITE", *words, given=given)
            self.assertGreater(len(come), 0)
            for status, out in come:
                self.assertEqual(status, WRITE_FAULT)
                self.assertTrue(whole.startswith(out))

    def test_want_of_memory_is_said_wherever_it_comes_and_nothing_is_written(self) -> None:
        for words, given in self.words():
            come = self.in_turn("FAIL_MEMORY", *words, given=given)
            self.assertGreater(len(come), 10)
            self.assertEqual({out for _, out in come}, {b""})
            self.assertLessEqual({status for status, _ in come}, {NO_MEMORY, 28})

    def test_one_byte_at_a_time_comes_to_the_same(self) -> None:
        for words, given in self.words():
            self.assertEqual(self.call(*words, given=given, SHORT="1"), self.call(*words, given=given))


if __name__ == "__main__":
    unittest.main()
