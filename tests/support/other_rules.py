"""DWARF 4 made by hand, of which llvm-symbolizer prints other frames: a companion for each rule of bench/same-lines
that compilers do not write, an address, and the lines here and by llvm-symbolizer."""
import struct
from typing import List, NamedTuple, Sequence

from .made_dsyms import LOWEST, Code, companion, with_length

# 1, a unit; 2, a subprogram with its name; 3, a call of one, with its name; 4, a name; 5, a subprogram with both links;
# 6, one with a list of ranges.
DECLARED = bytes.fromhex(
    "01 1101 1101 1017 0000  02 2e01 1101 1206 0308 0000  03 1d00 1101 1206 0308 580b 590f 0000"
    "04 2e00 0308 0000  05 2e00 1101 1206 3113 4713 0000  06 2e00 5517 0308 0000  00"
)
# A unit with DW_AT_entry_pc in place of DW_AT_low_pc, and with a list of ranges.
ENTERED = DECLARED.replace(bytes.fromhex("01 1101 1101 1017"), bytes.fromhex("01 1101 5201 5517 1017"), 1)
FIELDS = bytes.fromhex("01 01 01 fb 0e 0d 000101010100000001000001 00 6100 000000 00")
SIZE = 16
FIRST = 24  # where the entry after the first one of a unit begins
END = b"\0\x01\x01"


class Other(NamedTuple):
    """A companion, the address from the lowest on that is asked for, and the lines of its frames."""

    rule: str
    content: bytes
    address: int
    here: List[str]
    by_llvm: List[str]


def front(code: int, low: int, size: int) -> bytes:
    return struct.pack("<BQI", code, LOWEST + low, size)


def set_address(address: int) -> bytes:
    return b"\0\x09\x02" + struct.pack("<Q", LOWEST + address)


def sequence(first: int, line: int, size: int) -> bytes:
    """One row at an address, with a line below 65, over some bytes."""
    return set_address(first) + bytes((3, line - 1)) + b"\x01\x02" + bytes((size,)) + END


def made(entries: bytes, rows: bytes, tuples: Sequence[Code] = ((LOWEST, SIZE),), ranges: bytes = b"",
         declared: bytes = DECLARED) -> bytes:
    """A companion of one unit."""
    body = struct.pack("<HIBBQI", 4, 0, 8, 1, LOWEST, 0) + entries + b"\0"
    sets = b"".join(struct.pack("<QQ", *it) for it in tuples) + bytes(16)
    debug = {
        "info": with_length(body),
        "abbrev": declared,
        "line": with_length(struct.pack("<HI", 4, len(FIELDS)) + FIELDS + rows),
        **({"aranges": with_length(struct.pack("<HIBB4x", 2, 0, 8, 0) + sets)} if tuples else {}),
        **({"ranges": ranges} if ranges else {}),
    }
    return companion(debug, [(LOWEST, SIZE)])


FUNCTION = front(2, 0, SIZE) + b"f\0\0"
ONE_ROW = sequence(0, 1, SIZE)


def others() -> List[Other]:
    beside = front(2, 0, 8) + b"f\0" + front(3, 8, 4) + b"call\0\x01\x07" + b"\0"
    far_call = front(2, 0, SIZE) + b"f\0" + front(3, 0, 4) + b"call\0\x01\x85\x80\x80\x80\x10" + b"\0"
    apart = sequence(4, 9, 8) + sequence(0, 1, 8)
    both = b"\x04origin\0" + b"\x04link\0" + front(5, 0, SIZE) + struct.pack("<II", FIRST, FIRST + 8)
    defined = b"\0\x06\x03b\0\0\0\0" + b"\x04\x02" + ONE_ROW
    relative = struct.pack("<QQQQ", 0, SIZE, 0, 0)
    far_line = b"\x03\x84\x80\x80\x80\x10" + ONE_ROW
    wide_column = b"\x05\x80\x80\x04" + ONE_ROW
    aliases = front(2, 0, SIZE) + b"f\0\0" + front(2, 0, SIZE) + b"g\0\0"
    return [
        Other("functions that overlap", made(aliases, ONE_ROW), 0, ["    f at a:1:0"], ["    g at a:1:0"]),
        Other("a function out of the one around it", made(beside, ONE_ROW), 8, ["    call at a:1:0"],
              ["    call at a:1:0", "    f at a:7:0"]),
        Other("sequences that overlap", made(FUNCTION, apart), 6, ["    f at a:9:0"], ["    f at a:1:0"]),
        Other("(0, 0) among the tuples of a set",
              made(FUNCTION, ONE_ROW, [(LOWEST, 4), (0, 0), (LOWEST + 8, 4)]), 8, [], ["    f at a:1:0"]),
        Other("both links", made(both, ONE_ROW), 0, ["    origin at a:1:0"], ["    link at a:1:0"]),
        Other("DW_LNE_define_file", made(FUNCTION, defined), 0, ["    f at ?:1:0"], ["    f at b:1:0"]),
        Other("DW_AT_entry_pc", made(bytes(4) + b"\x06" + bytes(4) + b"f\0", ONE_ROW, [], relative, ENTERED), 0, [],
              ["    f at a:1:0"]),
        Other("a line of 2^32 or more", made(FUNCTION, far_line), 0, ["    f at a:0:0"], ["    f at a:5:0"]),
        Other("a line of 2^32 or more of a call", made(far_call, ONE_ROW), 0, ["    call at a:1:0", "    f at a:0:0"],
              ["    call at a:1:0", "    f at a:5:0"]),
        Other("a column above 65,535", made(FUNCTION, wide_column), 0, ["    f at a:1:65536"], ["    f at a:1:0"]),
    ]
