"""The documents that the tests of the tools go over, and runs that are made for them."""

import os
from pathlib import Path

from xrf_tools.document import Document, read

HERE = Path(__file__).resolve().parent
ROOT = HERE.parents[1]
# A stored document is told as it stands here; a test that is of replaying names its program.
os.environ["XRF_AS_BUILT"] = str(HERE / "writes_back")
# Whole runs of a pair, a run that shows the bytes of the data sets, the rows of the program's own tests, runs that show what
# the others do not, and the examples.
FOLDERS = [ROOT / name for name in ("tests/runs", "tests/documents", "tests/rows", "tests/shown", "examples", "examples/tutorial")]
TAKEOVER = "takeover_with_the_default_intervals"


def found() -> dict[str, Path]:
    paths = [path for folder in FOLDERS for path in sorted(folder.glob("*.out"))]
    return {path.stem: path for path in paths if "\n* DONE\n" in path.read_text()}


PATHS = found()


def names() -> list[str]:
    return sorted(PATHS)


def path(name: str) -> Path:
    return PATHS[name]


def document(name: str) -> Document:
    return read(name, path(name).read_text())


class Long:
    """A run of the most acts that a run may have: a region that works, with a round of both sites in each second."""

    def __init__(self, most: int = 8192) -> None:
        self.most = most
        self.acts: list[str] = []
        self.answers: list[str] = []
        self.work: list[str] = []
        self.tick = self.records = self.serial = 0

    def act(self, site: str, incarnation: int, text: str) -> None:
        if len(self.acts) < self.most:
            self.acts.append(f"* ACT {len(self.acts) + 1} {self.tick} {site} {incarnation} {text}")

    def acts_of(self, site: str, incarnation: int, *texts: str) -> None:
        for text in texts:
            self.act(site, incarnation, text)

    def round(self, site: str, incarnation: int) -> None:
        counter = self.tick + 1
        self.acts_of(site, incarnation, f"SIGNAL1 {counter} 0", f"SIGNAL2 {counter} 0", "LOOK1", "LOOK2", "DECIDE NOTHING")

    def start(self) -> None:
        alone, both = "1 OWNER 1.A.RUNNING ALT NONE TAKING NONE", "2 OWNER 1.A.RUNNING ALT 2.B TAKING NONE"
        self.acts_of("A", 0, "START ACTIVE", "RESERVE", "CTLREAD")
        self.acts_of("A", 1, f"CTLWRITE {alone}", "RELEASE")
        self.round("A", 1)
        self.acts_of("A", 1, "LOGREAD 0", "RESTARTED")
        self.acts_of("B", 0, "START STANDBY", "RESERVE", "CTLREAD")
        self.acts_of("B", 2, f"CTLWRITE {both}", "RELEASE")
        self.round("B", 2)

    def unit(self) -> None:
        self.serial += 1
        unit, first = f"1.{self.serial}", self.records
        for text in ("BEGIN U1", f"PUT U1 {self.serial % 16 + 1} V{self.serial}", "COMMIT U1"):
            self.work.append(f"WORK A {text}")
            self.act("A", 1, f"ITEM {len(self.work)}")
            self.answers.append(f"* ITEM A {len(self.work)} DONE")
            if text.startswith("PUT"):
                record = text.split(" ")[2]
                self.acts_of("A", 1, f"FILEREAD {record}", f"LOGBODY {first} PUT {unit} {record}",
                             f"LOGOPEN {first} PUT {unit} {record}", f"FILEWRITE {unit} {record} V{self.serial}")
            elif text.startswith("COMMIT"):
                self.acts_of("A", 1, f"LOGBODY {first + 1} COMMIT {unit}", f"LOGOPEN {first + 1} COMMIT {unit}")
        self.records += 2

    def choice(self, site: str, incarnation: str, text: str) -> str:
        verb, _, rest = text.partition(" ")
        return "TICK" if site == "-" else f"START {site} {rest}" if verb == "START" else f"STEP {site}"

    def text(self) -> str:
        self.start()
        while len(self.acts) < self.most:
            self.tick += 1
            self.act("-", 0, "TICK")
            self.round("A", 1)
            self.round("B", 2)
            for _ in range(3):
                self.unit()
        choices = [self.choice(*line.split(" ", 6)[4:]) for line in self.acts]
        head = ["XRF 1", "LOG 1024", *self.work, "CHOICES", *choices, "END"]
        return "\n".join([*head, *self.acts, *self.answers, f"* TICK {self.tick}", "* DONE", ""])
