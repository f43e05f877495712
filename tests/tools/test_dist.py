"""make dist: the archives over stand-ins of rt and of the program; and the package of this checkout, installed into an empty
root and run there with no kit on the PATH."""

import hashlib
import os
import re
import shutil
import subprocess
import sys
import tarfile
import tempfile
import unittest
from pathlib import Path

import cuts
import runs
from test_launcher import Checkout


def made(home: Path, env: dict[str, str], *words: str) -> subprocess.CompletedProcess:
    return subprocess.run(["make", "-s", "dist", *words], cwd=home, env=env, capture_output=True, text=True, check=False)


def installed(package: Path, root: Path) -> str:
    """Installs a package into an empty root, where nothing that it depends on is; what dpkg says."""
    for name in ("info", "updates"):
        (root / "var/lib/dpkg" / name).mkdir(parents=True)
    for name in ("status", "available"):
        (root / "var/lib/dpkg" / name).write_text("")
    done = subprocess.run(["dpkg", f"--root={root}", "--force-depends", "--force-not-root", "-i", str(package)],
                          capture_output=True, text=True, check=False)
    return done.stdout + done.stderr if done.returncode else ""


@unittest.skipUnless(shutil.which("make"), "make is missing")
class Archives(Checkout):
    ENV = {"SOURCE_DATE_EPOCH": "1700000000"}

    def setUp(self) -> None:
        super().setUp()
        self.env |= self.ENV
        (self.room / "gate.log").write_text("some crate\n12 passed, 0 failed\n")

    def made(self, *words: str) -> dict[str, str]:
        """The files of dist/, by their digests."""
        done = made(self.home, self.env, *words)
        self.assertEqual(done.returncode, 0, done.stderr)
        return {path.name: hashlib.sha256(path.read_bytes()).hexdigest() for path in (self.home / "dist").iterdir()}

    def archive(self) -> tarfile.TarFile:
        (path,) = (self.home / "dist").glob("*.tar.gz")
        archive = tarfile.open(path)
        self.addCleanup(archive.close)
        return archive

    def test_the_same_bytes_come_twice_and_their_sums_are_kept(self) -> None:
        first = self.made(f"GATE={self.room}/gate.log")
        os.utime(self.home / "README.md")
        self.assertEqual(self.made(f"GATE={self.room}/gate.log"), first)
        sums = dict(line.split("  ")[::-1] for line in (self.home / "dist/SHA256SUMS").read_text().splitlines())
        self.assertEqual(sums, {name: digest for name, digest in first.items() if name != "SHA256SUMS"})
        self.assertEqual(len(sums), 2 if shutil.which("dpkg-deb") else 1)

    def test_release_says_what_it_is_made_of(self) -> None:
        self.made(f"GATE={self.room}/gate.log")
        archive = self.archive()
        (name,) = (it for it in archive.getnames() if it.endswith("lib/xrf/RELEASE"))
        lines = dict(line.split(" ", 1) for line in archive.extractfile(name).read().decode().splitlines())
        self.assertEqual(list(lines), ["version", "commit", "logic", "date", "gate"])
        self.assertEqual((lines["date"], lines["gate"]), ("2023-11-14T22:13:20Z", "12 passed, 0 failed"))
        self.assertEqual(made(self.home, self.env, "GATE=nowhere").returncode, 2)

    def test_what_is_unpacked_runs_anywhere(self) -> None:
        self.made()
        archive = self.archive()
        self.assertEqual({(it.uid, it.gid, it.mtime) for it in archive.getmembers()}, {(0, 0, 1_700_000_000)})
        archive.extractall(self.room / "unpacked")
        (home,) = (self.room / "unpacked").iterdir()
        shutil.rmtree(self.home)
        self.assertEqual(self.run_xrf("replay", given="x", xrf=home / "bin/xrf").stdout, "words: replay\nx\n")
        self.assertIn("committed", self.run_xrf("explain", str(home / "share/xrf/examples/committed_unit.out"), xrf=home / "bin/xrf").stdout)
        self.assertTrue((home / "README.md").is_file())


@unittest.skipUnless(shutil.which("make") and shutil.which("dpkg-deb"), "make or dpkg-deb is missing, so no package was made")
@unittest.skipUnless(cuts.is_current(), "the program is not built, so no package of it was made")
class Package(unittest.TestCase):
    """The package in an empty root. What it depends on, bash, python3 and two commands, are those of this machine, in a folder
    that has nothing else."""

    @classmethod
    def setUpClass(cls) -> None:
        cls.room = Path(tempfile.mkdtemp(prefix="xrf-dist-"))
        cls.addClassCleanup(shutil.rmtree, cls.room)
        done = subprocess.run([str(runs.ROOT / "tools" / "dist"), str(cls.room / "out")], capture_output=True, text=True, check=False)
        if done.returncode:
            raise AssertionError(done.stderr)
        (package,) = (cls.room / "out").glob("*.deb")
        said = installed(package, cls.room / "root")
        if said:
            raise AssertionError(said)
        (cls.room / "few").mkdir()
        for name in ("bash", "cat", "readlink", "env"):
            (cls.room / "few" / name).symlink_to(os.path.realpath(shutil.which(name) or name))
        (cls.room / "few" / "python3").symlink_to(sys.executable)

    def xrf(self, *words: str) -> str:
        done = subprocess.run([str(self.room / "root/usr/bin/xrf"), *words], cwd=self.room / "root/usr/share/xrf",
                              env={"PATH": str(self.room / "few"), "LC_ALL": "C.UTF-8"}, capture_output=True, text=True, check=False)
        self.assertEqual((done.returncode, done.stderr), (0, ""), words)
        return done.stdout

    def test_there_is_no_kit(self) -> None:
        self.assertIsNone(shutil.which("rt", path=str(self.room / "few")))
        self.assertEqual(self.xrf("--program"), f"{self.room}/root/usr/lib/xrf/program\n")

    def test_it_replays_draws_explains_and_checks(self) -> None:
        run = "examples/committed_unit.in"
        self.assertEqual(self.xrf("replay", run), (runs.ROOT / "examples/committed_unit.out").read_text())
        self.assertIn("<svg", self.xrf("draw", run))
        self.assertIn("is committed", self.xrf("explain", run))
        self.assertRegex(self.xrf("check", "examples", "examples/tutorial"), r"(?m)^\d+ passed, 0 failed$")

    def test_it_wants_no_newer_c_library_than_it_says(self) -> None:
        program = (self.room / "root/usr/lib/xrf/program").read_bytes()
        self.assertLessEqual(max(int(minor) for minor in re.findall(rb"GLIBC_2\.(\d+)", program)), 34)

    def test_its_files_are_known_to_dpkg(self) -> None:
        files = subprocess.run(["dpkg", f"--root={self.room / 'root'}", "-L", "xrf"], capture_output=True, text=True, check=False).stdout
        self.assertIn("/usr/share/man/man1/xrf.1\n", files)
        self.assertIn("/usr/lib/xrf/RELEASE\n", files)


if __name__ == "__main__":
    unittest.main()
