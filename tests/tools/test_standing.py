"""What stands after a run, told from its ACT lines alone, is what the report says."""

import time
import unittest

import runs
from xrf_tools import layouts
from xrf_tools.document import read
from xrf_tools.layouts import DAMAGED, EMPTY, Cell
from xrf_tools.scene import build
from xrf_tools.standing import Standing


class Reports(unittest.TestCase):
    def test_each_document_comes_to_its_own_report(self) -> None:
        for name in runs.names():
            with self.subTest(name):
                document = runs.document(name)
                standing = Standing(document)
                for entry in document.entries:
                    standing.take(entry)
                told = [line for line in document.report.lines if not line.startswith("IMAGE ")]
                self.assertEqual(standing.report(), told)

    def test_a_run_of_the_most_acts_is_built_in_seconds(self) -> None:
        document = read("long", runs.Long().text())
        self.assertEqual(len(document.entries), 8192)
        began = time.process_time()
        scene = build(document)
        self.assertLess(time.process_time() - began, 10)
        self.assertEqual(sum(span.kind == "unit" for span in scene.spans), document.entries[-1].tick * 3)


class Bytes(unittest.TestCase):
    def test_file_slots(self) -> None:
        self.assertEqual(layouts.file_slot(bytes(32)), EMPTY)
        self.assertEqual(layouts.file_slot(b"\x01" + bytes(7) + b"AMBER".ljust(24)), Cell("AMBER"))
        for wrong in (b"\xff" * 32, b"\x02" + bytes(31), b"\x01" + bytes(7) + b" " * 24, b"\x01" + bytes(31)):
            self.assertEqual(layouts.file_slot(wrong), DAMAGED)

    def test_log_bodies(self) -> None:
        put = bytes.fromhex("01" "00000002" "00000001" "00000003" "0004").ljust(63, b"\0")
        self.assertEqual(layouts.log_body(put), "2 PUT 1.3 4")
        self.assertEqual(layouts.log_body(b"\x02" + put[1:13] + bytes(50)), "2 COMMIT 1.3")
        for wrong in (b"\x02" + put[1:], bytes(63), b"\xff" * 63, put[:62] + b"\x01"):
            self.assertEqual(layouts.log_body(wrong), "")

    def test_messages(self) -> None:
        term = bytes.fromhex("02" "00000002" "00000003") + b"T1      " + b"\x01\x01"
        self.assertEqual(layouts.message_body(term.ljust(63, b"\0")), "TERM 2 3 T1 1 ON")
        user = b"\x04" + term[1:] + b"ANNA    "
        self.assertEqual(layouts.message_body(user.ljust(63, b"\0")), "USER 2 3 T1 1 ON ANNA")
        begin = bytes.fromhex("01" "00000002" "00000000")
        self.assertEqual(layouts.message_body(begin.ljust(63, b"\0")), "BEGIN 2")
        for wrong in (bytes(63), user.ljust(63, b"\xff"), b"\x01" + term[1:].ljust(62, b"\0")):
            self.assertEqual(layouts.message_body(wrong), "")

    def test_keypoints(self) -> None:
        self.assertEqual(layouts.keypoint_body(bytes.fromhex("04" "00000009" "0000000a").ljust(63, b"\0")), "KEYPOINT 9 START 10")
        self.assertEqual(layouts.keypoint_body(bytes.fromhex("04" "00000009" "00010000").ljust(63, b"\0")), "")

    def test_the_images_of_a_report_are_what_stands(self) -> None:
        document = runs.document("bytes_of_an_ordinary_unit_of_work")
        standing = Standing(document)
        for entry in document.entries:
            standing.take(entry)
        images: dict[str, bytearray] = {name: bytearray(2048) for name in ("CTL", "MSG", "LOG", "FILE", "KEY")}
        for line in document.report.of("IMAGE"):
            name, offset, data = line.split(" ")
            images[name][int(offset) : int(offset) + 32] = bytes.fromhex(data)
        control = layouts.control_record(bytes(images["CTL"][:256]))
        self.assertEqual(control, standing.control.text() + " FORMAT 1")
        for name, place in (("CTL", 256), ("MSG", 0)):
            sector = layouts.signal_sector(bytes(images[name][place : place + 64]))
            self.assertEqual(sector, standing.shown[f"signal {name} A"])
        for slot in range(3):
            body = layouts.log_body(bytes(images["LOG"][64 * slot + 1 : 64 * slot + 64]))
            self.assertEqual(f"open {body}", standing.shown[f"log {slot}"])
        for record in range(1, 5):
            cell = layouts.file_slot(bytes(images["FILE"][32 * (record - 1) : 32 * record]))
            self.assertEqual(cell, standing.cell(record))


if __name__ == "__main__":
    unittest.main()
