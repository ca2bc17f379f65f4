"""Numbers, texts, units and the values of attributes, told a second time by DWARF 5, sections 7.2 to 7.6: with
addresses of eight bytes. Units in the 64-bit format are only passed over."""
from __future__ import annotations

from functools import lru_cache
from typing import Callable, Dict, List, NamedTuple, Optional, Tuple, TypeVar, Union

MASK = (1 << 64) - 1
# The first number of a unit in the 64-bit format.
WIDE = 0xFFFFFFFF
Item = TypeVar("Item")


class Unread(Exception):
    """What begins here cannot be read."""


class Reader:
    """Bytes of a section, of which those from a place up to an end are read in order."""

    def __init__(self, section: bytes, at: int = 0, end: Optional[int] = None) -> None:
        self.section, self.at = section, at
        self.end = len(section) if end is None else min(end, len(section))

    def left(self) -> int:
        return max(self.end - self.at, 0)

    def take(self, size: int) -> bytes:
        if size > self.left():
            raise Unread
        self.at += size
        return self.section[self.at - size : self.at]

    def number(self, size: int) -> int:
        return int.from_bytes(self.take(size), "little")

    def leb128(self, is_signed: bool) -> int:
        """A number of seven bits a byte, of which the low 64 count; a negative one is its two's complement."""
        value = shift = 0
        while True:
            byte = self.take(1)[0]
            if shift < 64:
                value |= (byte & 0x7F) << shift
            shift += 7
            if byte < 0x80:
                if is_signed and byte & 0x40 and shift < 64:
                    value -= 1 << shift
                return value & MASK

    def unsigned(self) -> int:
        return self.leb128(False)

    def signed(self) -> int:
        return self.leb128(True)

    def text(self) -> bytes:
        """A text, which ends with a NUL."""
        end = self.section.find(b"\0", self.at, self.end)
        if end < 0 or self.at > self.end:
            raise Unread
        return self.take(end + 1 - self.at)[:-1]

    def each(self, item: Callable[[Reader], Item]) -> List[Item]:
        """The items that stand one after another, up to the first that cannot be read."""
        found: List[Item] = []
        while True:
            try:
                found.append(item(self))
            except Unread:
                return found

    def until(self, item: Callable[[Reader], Optional[Item]]) -> List[Item]:
        """The items up to one that only ends them."""
        found: List[Item] = []
        while True:
            one = item(self)
            if one is None:
                return found
            found.append(one)


def pass_unit(r: Reader) -> Tuple[int, int]:
    """Where the unit begins that is next, and where it ends. The numbers from 0xfffffff0 on are no lengths: after the
    greatest eight bytes of length follow, the others are reserved."""
    begin = r.at
    length = r.number(4)
    if length == WIDE:
        length = r.number(8)
    elif length >= 0xFFFFFFF0:
        raise Unread
    r.take(length)
    return begin, r.at


@lru_cache(maxsize=200)
def units_of(section: bytes) -> Dict[int, int]:
    """Where each unit of a section begins, and where it ends: they stand one after another by their initial lengths."""
    return dict(Reader(section).each(pass_unit))


# ---- values


class Value(NamedTuple):
    """A value of an attribute: its class, and a number or the bytes of a text."""

    kind: str
    content: Union[int, bytes] = 0


OTHER = Value("other")
IMPLICIT_CONST, FLAG_PRESENT = 0x21, 0x19
# The class of each form whose values all have one size, and that size; DW_FORM_ref_addr apart.
FIXED: Dict[int, Tuple[str, int]] = {
    **{0x01: ("address", 8)},
    **{0x29: ("addrx", 1), 0x2A: ("addrx", 2), 0x2B: ("addrx", 3), 0x2C: ("addrx", 4)},
    **{0x0B: ("constant", 1), 0x05: ("constant", 2), 0x06: ("constant", 4), 0x07: ("constant", 8)},
    **{0x0E: ("strp", 4), 0x1F: ("line_strp", 4)},
    **{0x25: ("strx", 1), 0x26: ("strx", 2), 0x27: ("strx", 3), 0x28: ("strx", 4)},
    **{0x11: ("ref", 1), 0x12: ("ref", 2), 0x13: ("ref", 4), 0x14: ("ref", 8)},
    **{0x17: ("sec_offset", 4)},
    # flag, flag_present, data16, ref_sig8, ref_sup4, ref_sup8, strp_sup
    **{0x0C: ("other", 1), FLAG_PRESENT: ("other", 0), 0x1E: ("other", 16)},
    **{0x20: ("other", 8), 0x1C: ("other", 4), 0x24: ("other", 8), 0x1D: ("other", 4)},
}
# The class of each form that is an unsigned LEB128 number: udata, ref_udata, strx, addrx, rnglistx, loclistx.
UNSIGNED = {0x0F: "constant", 0x15: "ref", 0x1A: "strx", 0x1B: "addrx", 0x23: "rnglistx", 0x22: "other"}
# How many bytes the length of each block has.
BLOCKS = {0x0A: 1, 0x03: 2, 0x04: 4}
REF_ADDR, SDATA, STRING, BLOCK, EXPRLOC = 0x10, 0x0D, 0x08, 0x09, 0x18


def value_at(version: int, form: int, r: Reader) -> Value:
    """The value of a form. DW_FORM_indirect cannot be read; DW_FORM_implicit_const has no value here."""
    if form in FIXED:
        kind, size = FIXED[form]
        number = r.number(size)
        return Value(kind, number) if kind != "other" else OTHER
    if form == REF_ADDR:
        return Value("ref_addr", r.number(8 if version == 2 else 4))
    if form in UNSIGNED:
        number = r.unsigned()
        return Value(UNSIGNED[form], number) if UNSIGNED[form] != "other" else OTHER
    if form == SDATA:
        return Value("constant", r.signed())
    if form == STRING:
        return Value("string", r.text())
    if form in BLOCKS:
        r.take(r.number(BLOCKS[form]))
        return OTHER
    if form in (BLOCK, EXPRLOC):
        r.take(r.unsigned())
        return OTHER
    raise Unread


def number_of(value: Optional[Value], *kinds: str) -> Optional[int]:
    """The number of a value of one of these classes."""
    if value is None or value.kind not in kinds:
        return None
    assert isinstance(value.content, int)
    return value.content


def indexed(section: bytes, base: int, index: int, size: int) -> Optional[int]:
    """The number with an index in a table of numbers of so many bytes; None past the end of the section."""
    at = base + size * index
    return int.from_bytes(section[at : at + size], "little") if at + size <= len(section) else None


def text_in(section: bytes, offset: int) -> Optional[bytes]:
    """The text at an offset of a section of texts, which ends before its NUL or with the section."""
    if offset >= len(section):
        return None
    end = section.find(b"\0", offset)
    return section[offset:] if end < 0 else section[offset:end]


class Texts(NamedTuple):
    """The sections in which texts stand, and the place of a unit's part of __debug_str_offs."""

    debug_str: bytes
    debug_line_str: bytes
    debug_str_offs: bytes
    base: int

    def of(self, value: Optional[Value]) -> Optional[bytes]:
        """The text that a value is."""
        if value is None:
            return None
        if isinstance(value.content, bytes):
            return value.content
        if value.kind == "strx":
            offset = indexed(self.debug_str_offs, self.base, value.content, 4)
            return None if offset is None else text_in(self.debug_str, offset)
        sections = {"strp": self.debug_str, "line_strp": self.debug_line_str}
        return text_in(sections[value.kind], value.content) if value.kind in sections else None
