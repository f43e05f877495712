"""docs/FORMATS.md: its tables have every byte once, and the images of a stored document are as they say."""

import re
import unittest
from dataclasses import dataclass

import runs

PAGE = (runs.ROOT / "docs" / "FORMATS.md").read_text()
SIZES = {"Control record": 256, "Signal": 64, "Gated slot": 64, "Body of a log record": 63, "Body of a message": 63,
         "Body of a keypoint": 63, "File slot": 32}


@dataclass(frozen=True)
class Field:
    first: int
    last: int
    name: str


def fields(title: str) -> list[Field]:
    part = re.split(r"^#+ ", PAGE, flags=re.M)
    text = next(it for it in part if it.startswith(title + "\n"))
    rows = re.findall(r"^\| (\d+)(?:-(\d+))? \| ([^|]+?) \|", text, re.M)
    return [Field(int(first), int(last or first), name) for first, last, name in rows]


def value(data: bytes, title: str, name: str) -> bytes:
    field = next(it for it in fields(title) if it.name == name)
    return data[field.first : field.last + 1]


def number(data: bytes, title: str, name: str) -> int:
    return int.from_bytes(value(data, title, name), "big")


class Tables(unittest.TestCase):
    def test_every_byte_stands_in_one_row(self) -> None:
        for title, size in SIZES.items():
            with self.subTest(title):
                rows = fields(title)
                self.assertEqual([row.first for row in rows], [0, *(row.last + 1 for row in rows[:-1])])
                self.assertEqual(rows[-1].last, size - 1)
                self.assertIn(f"\n{size} bytes.", PAGE.split(f"# {title}\n")[1])


class Images(unittest.TestCase):
    """The data sets after one unit of work, by the tables."""

    def setUp(self) -> None:
        document = runs.document("bytes_of_an_ordinary_unit_of_work")
        self.images = {name: bytearray(4096) for name in ("CTL", "MSG", "LOG", "FILE", "KEY")}
        for line in document.report.of("IMAGE"):
            name, offset, data = line.split(" ")
            self.images[name][int(offset) : int(offset) + 32] = bytes.fromhex(data)

    def zeros(self, data: bytes, title: str) -> None:
        for field in fields(title):
            if field.name == "zero":
                self.assertFalse(any(data[field.first : field.last + 1]), f"{title} {field.first}")

    def test_the_control_record_and_the_signal(self) -> None:
        record, signal = bytes(self.images["CTL"][:256]), bytes(self.images["CTL"][256:320])
        self.zeros(record, "Control record")
        self.assertEqual(value(record, "Control record", "eye"), b"XCTL")
        for name, wanted in (("format", 1), ("last", 1), ("owner's flag", 1), ("owner's site", 0), ("owner's state", 0),
                             ("owner's incarnation", 1), ("alternate's flag", 0), ("taking's flag", 0)):
            self.assertEqual(number(record, "Control record", name), wanted, name)
        self.zeros(signal, "Signal")
        self.assertEqual(signal, bytes(self.images["MSG"][:64]))
        self.assertEqual(value(signal, "Signal", "eye"), b"XSIG")
        for name, wanted in (("incarnation", 1), ("counter", 1), ("cursor", 0)):
            self.assertEqual(number(signal, "Signal", name), wanted, name)

    def test_the_log_and_the_file(self) -> None:
        title = "Body of a log record"
        for slot, (kind, record) in enumerate(((1, 1), (1, 3), (2, 0))):
            data = bytes(self.images["LOG"][64 * slot : 64 * slot + 64])
            self.assertEqual(number(data, "Gated slot", "gate"), 0xC1)
            body = value(data, "Gated slot", "body")
            self.zeros(body, title)
            for name, wanted in (("kind", kind), ("place", slot), ("unit's incarnation", 1), ("unit's serial", 1),
                                 ("record number", record)):
                self.assertEqual(number(body, title, name), wanted, f"{slot} {name}")
            if slot == 0:
                before = value(body, title, "before-image")
                self.assertEqual(value(before, "File slot", "value"), b"OLD".ljust(24))
        for record, text in ((1, b"NEW"), (3, b"SECOND")):
            data = bytes(self.images["FILE"][32 * (record - 1) : 32 * record])
            self.zeros(data, "File slot")
            self.assertEqual((number(data, "File slot", "kind"), value(data, "File slot", "value")), (1, text.ljust(24)))


if __name__ == "__main__":
    unittest.main()
