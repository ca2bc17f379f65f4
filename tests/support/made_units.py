"""DWARF 4 that is made by hand, of units in the 32-bit and the 64-bit format and of functions in each other."""
import struct
from typing import NamedTuple, Sequence

from .made_dsyms import companion

# 1, a unit; 2, a subprogram; 3, an inlined call of one, with its name: each with low_pc, high_pc and children.
DECLARED = bytes.fromhex(
    "01 1101 1101 1206 1017 0000  02 2e01 1101 1206 0308 0000  03 1d01 1101 1206 0308 580b 590b 0000  00"
)
FIELDS = bytes.fromhex("01 01 01 fb 0e 0d 000101010100000001000001 00 6100 000000 00")
WIDE = struct.pack("<I", 0xFFFFFFFF)
END = b"\0"


def with_length(body: bytes, is_wide: bool) -> bytes:
    return WIDE + struct.pack("<Q", len(body)) + body if is_wide else struct.pack("<I", len(body)) + body


def offset(number: int, is_wide: bool) -> bytes:
    return struct.pack("<Q" if is_wide else "<I", number)


class Function(NamedTuple):
    """A subprogram, or an inlined call at a line of the first file: its name, where it begins and its size, and the
    entries in it."""

    name: bytes
    low: int
    size: int
    within: bytes = b""
    line: int = 0

    def entry(self) -> bytes:
        front = struct.pack("<BQI", 3 if self.line else 2, self.low, self.size) + self.name + b"\0"
        return front + (bytes((1, self.line)) if self.line else b"") + self.within + END


class Unit(NamedTuple):
    """A unit of some entries: its format, and where its code begins and its size."""

    low: int
    size: int
    entries: bytes
    is_wide: bool = False

    def info(self, line: int) -> bytes:
        body = struct.pack("<H", 4) + offset(0, self.is_wide) + b"\x08"
        body += struct.pack("<BQI", 1, self.low, self.size) + offset(line, self.is_wide) + self.entries + END
        return with_length(body, self.is_wide)

    def lines(self) -> bytes:
        """A program whose rows count the addresses from line 1 on."""
        rows = b"\0\x09\x02" + struct.pack("<Q", self.low) + b"\x01\x03\x01\x02\x01" * self.size + b"\0\x01\x01"
        body = struct.pack("<H", 4) + offset(len(FIELDS), self.is_wide) + FIELDS + rows
        return with_length(body, self.is_wide)

    def arange(self, place: int) -> bytes:
        body = struct.pack("<H", 2) + offset(place, self.is_wide) + b"\x08\0"
        # The tuples begin where a multiple of their size does.
        body += bytes(-(len(body) + (12 if self.is_wide else 4)) % 16)
        return with_length(body + struct.pack("<QQ16x", self.low, self.size), self.is_wide)


def of_units(units: Sequence[Unit], has_aranges: bool, before: bytes = b"") -> bytes:
    """A companion of units one after another, with bytes before them in each section of units."""
    info = lines = aranges = before
    for unit in units:
        aranges += unit.arange(len(info)) if has_aranges else b""
        info += unit.info(len(lines))
        lines += unit.lines()
    debug = {"info": info, "abbrev": DECLARED, "line": lines, **({"aranges": aranges} if has_aranges else {})}
    return companion(debug, [(unit.low, unit.size) for unit in units])
