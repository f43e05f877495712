"""The bytes of the data sets, read where torn bytes or images have to be told in words.

The tables are those of docs/FORMATS.md. Numbers are big-endian; a byte that no field has is zero, and each value has
one spelling, so a body is read by its fields and then compared with what these spell.
"""

from __future__ import annotations

import re
from dataclasses import dataclass

from xrf_tools.language import NAME, VALUE

OPEN = 0xC1
STATES = ("RUNNING", "NORMAL", "ABEND", "TAKEOVER")
CAUSES = ("LOST", "ABEND", "SHUTDOWN", "COMMAND")
SITES = "AB"


@dataclass(frozen=True)
class Cell:
    """What stands in a file slot: a value, or none, or bytes that are no slot."""

    value: str = ""
    damaged: bool = False

    def __str__(self) -> str:
        return "DAMAGED" if self.damaged else self.value


EMPTY = Cell()
DAMAGED = Cell(damaged=True)


def number(data: bytes, first: int, last: int) -> int:
    return int.from_bytes(data[first : last + 1], "big")


def padded(data: bytes, pattern: str) -> str | None:
    """The text before the blanks that pad it, where it fits the pattern."""
    try:
        text = data.decode("ascii").rstrip(" ")
    except UnicodeDecodeError:
        return None
    return text if re.fullmatch(pattern, text) else None


def file_slot(data: bytes) -> Cell:
    """32 bytes: byte 0 is 1 for a record and 0 for none; bytes 8 to 31 are the value."""
    if data == bytes(32):
        return EMPTY
    value = padded(data[8:], VALUE)
    return Cell(value) if data[:8] == b"\x01" + bytes(7) and value else DAMAGED


def log_body(data: bytes) -> str:
    """63 bytes, as 'place PUT unit record', 'place COMMIT unit' or 'place BACKOUT unit'; '' where they spell none."""
    kind, place, incarnation, serial = data[0], number(data, 1, 4), number(data, 5, 8), number(data, 9, 12)
    if kind not in (1, 2, 3) or not incarnation or not serial:
        return ""
    unit = f"{incarnation}.{serial}"
    if kind == 1:
        record = number(data, 13, 14)
        return f"{place} PUT {unit} {record}" if record and not any(data[47:]) else ""
    return f"{place} {'COMMIT' if kind == 2 else 'BACKOUT'} {unit}" if not any(data[13:]) else ""


def message_body(data: bytes) -> str:
    """63 bytes, as the text of a message; '' where they spell none."""
    kind, epoch, count = data[0], number(data, 1, 4), number(data, 5, 8)
    if kind not in (1, 2, 3, 4) or not epoch or (kind == 1) != (count == 0):
        return ""
    if kind in (1, 3):
        text = f"BEGIN {epoch}" if kind == 1 else f"END {epoch} {count}"
        return text if not any(data[9:]) else ""
    terminal = padded(data[9:17], NAME)
    if terminal is None or data[17] not in (1, 2) or data[18] not in (0, 1):
        return ""
    text = f"{epoch} {count} {terminal} {data[17]} {'ON' if data[18] else 'OFF'}"
    if kind == 2:
        return f"TERM {text}" if not any(data[19:]) else ""
    user = "-" if not any(data[19:27]) else padded(data[19:27], NAME)
    return f"USER {text} {user}" if user and not any(data[27:]) and (data[18] or user == "-") else ""


def keypoint_body(data: bytes) -> str:
    """63 bytes, as 'KEYPOINT number START start'; '' where they spell none."""
    count, start = number(data, 1, 4), number(data, 5, 8)
    whole = data[0] == 4 and count and start <= 65535 and not any(data[9:])
    return f"KEYPOINT {count} START {start}" if whole else ""


def control_record(data: bytes) -> str:
    """256 bytes, as the control text and the format; '' where they spell none."""
    kinds = number(data, 4, 5), data[14], data[29]
    if data[:4] != b"XCTL" or kinds[0] not in (1, 2) or kinds[1] > 3 or kinds[2] > 4 or any(data[36:]):
        return ""
    owner = f"{number(data, 16, 19)}.{SITES[data[13] & 1]}.{STATES[data[14]]}" if data[12] else "NONE"
    alternate = f"{number(data, 24, 27)}.{SITES[data[21] & 1]}" if data[20] else "NONE"
    taking = f"{number(data, 32, 35)}.{CAUSES[data[29] - 1]}" if data[28] else "NONE"
    return f"{number(data, 8, 11)} OWNER {owner} ALT {alternate} TAKING {taking} FORMAT {kinds[0]}"


def signal_sector(data: bytes) -> str:
    """64 bytes, as 'incarnation counter cursor'; '' for a fresh sector or none."""
    if data[:4] != b"XSIG" or not number(data, 4, 7) or any(data[20:]):
        return ""
    return f"{number(data, 4, 7)} {number(data, 8, 15)} {number(data, 16, 19)}"
