"""Companions whose DWARF is made to take long, each of a size that grows with a number, and of one megabyte of code."""
import struct

from tests.support.made_dsyms import companion

TEXT, CODE = 0x1000, 1 << 20
LOW, HIGH = struct.pack("<Q", TEXT), struct.pack("<I", CODE)
# 1, a unit with low_pc and stmt_list; 2, an inlined call with low_pc and high_pc; 3, a function with ranges; 4, an
# inlined call with low_pc, high_pc and abstract_origin; 5, a function with abstract_origin and a text that nothing asks
# for; 7, a unit with ranges; 6, an entry of one byte, whose attributes are left open.
DECLARATIONS = bytes.fromhex(
    "01 1101 1101 1017 0000  02 1d01 1101 1206 0000  03 2e00 5517 0000  04 1d01 1101 1206 3110 0000"
    "05 2e00 3110 1c08 0000  07 1101 1101 1017 5517 0000  06 3400"
)
END = bytes(16)


def unit(entries):
    body = struct.pack("<HIB", 4, 0, 8) + b"\x01" + LOW + bytes(4) + entries
    return struct.pack("<I", len(body)) + body


def unit_of_ranges(offset):
    """A unit whose own ranges are a list, and a function."""
    body = struct.pack("<HIB", 4, 0, 8) + b"\x07" + bytes(12) + struct.pack("<I", offset) + function(TEXT, CODE)
    return struct.pack("<I", len(body)) + body


def program(operations):
    fields = bytes.fromhex("01 01 01 fb0e0d 000101010100000001000001 00 6100 000000 00")
    body = struct.pack("<HI", 4, len(fields)) + fields + operations
    return struct.pack("<I", len(body)) + body


def aranges(tuples):
    body = struct.pack("<HIBB4x", 2, 0, 8, 0) + tuples + END
    return struct.pack("<I", len(body)) + body


def made(info, declarations=b"\0\0\0", **sections):
    debug = {"info": info, "abbrev": DECLARATIONS + declarations, "aranges": aranges(LOW + struct.pack("<Q", CODE))}
    debug.update({"line": program(b"\0\x09\x02" + LOW + b"\x01\x02" + b"\x80\x80\x40" + b"\0\x01\x01"), **sections})
    return companion(debug, [(TEXT, CODE)])


def function(low, size):
    return b"\x02" + struct.pack("<QI", low, size)


def one_list(count):
    """Functions that all name one long list."""
    ranges = struct.pack("<QQ", 8, 9) * (count // 4) + struct.pack("<QQ", 0, CODE) + END
    return made(unit(b"\x03\0\0\0\0" * count), ranges=ranges)


def nested(count):
    """Functions in each other, which all have each address."""
    return made(unit(function(TEXT, CODE) * count))


def siblings(count):
    """Functions beside each other, which all have each address."""
    return made(unit((function(TEXT, CODE) + b"\0") * count))


def tuples(count):
    """Tuples of one address each, and one of all."""
    each = b"".join(struct.pack("<QQ", TEXT + at % CODE, 1) for at in range(count))
    return made(unit(function(TEXT, CODE)), aranges=aranges(each + LOW + struct.pack("<Q", CODE)))


def rows(count):
    """Rows whose addresses rise and fall, each over all addresses."""
    pair = b"\0\x09\x02" + struct.pack("<Q", TEXT + CODE) + b"\x01" + b"\0\x09\x02" + struct.pack("<Q", TEXT + CODE + 1)
    last = b"\0\x09\x02" + LOW + b"\x01" + b"\0\x09\x02" + struct.pack("<Q", TEXT + CODE) + b"\x01"
    return made(unit(function(TEXT, CODE)), line=program((pair + b"\x01") * count + last))


def own_ranges(count):
    """Units without aranges, which all name one list."""
    ranges = struct.pack("<QQ", 8, 9) * count + struct.pack("<QQ", TEXT, TEXT + CODE) + END
    return made(unit_of_ranges(0) * count + unit_of_ranges(16 * count), aranges=b"", ranges=ranges)


def pairs(count):
    """Entries of one byte, whose declaration has as many attributes that take none."""
    declared = b"\x3e\x19" * count + b"\x57\x21\x05" * count + b"\0\0\0"
    return made(unit(function(TEXT, CODE) + b"\x06" * count), declared)


def long_ways(count):
    """Frames in each other, whose names are at the end of 15 entries, which have nearly 16,384 bytes together with the
    first entry of the unit, read for each."""
    way = b"".join(b"\x05" + struct.pack("<I", 24 + 1076 * at) + b"n" * 1070 + b"\0" for at in range(1, 16))
    frame = b"\x04" + struct.pack("<QII", TEXT, CODE, 24)
    return made(unit(way + b"\x05" + struct.pack("<I", 24) + b"n\0" + frame * count))


def tables(count):
    """Units that all read a table of many declarations."""
    codes = ((0x80 | at % 128, 0x80 | at // 128 % 128, 1) for at in range(count))
    declared = b"\0\0" + b"".join(bytes((*code, 0x2E, 0, 0, 0)) for code in codes)
    return made(unit(function(TEXT, CODE)) * count, declared + b"\0")


def overlapping(count):
    """A function of many ranges, each in the one before it, in a unit of many entries of one byte."""
    ranges = b"".join(struct.pack("<QQ", at, CODE - at) for at in range(1, count + 1)) + END
    return made(unit(b"\x03\0\0\0\0" + b"\x06" * (count // 4 + 8)), b"\0\0\0", ranges=ranges)


KINDS = (one_list, nested, siblings, tuples, rows, own_ranges, pairs, long_ways, tables, overlapping)
