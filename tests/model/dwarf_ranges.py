"""The ranges of entries and of units, told a second time by DWARF 5, sections 2.17, 6.1.2 and 7.25."""
from functools import lru_cache
from itertools import islice
from typing import Iterator, List, NamedTuple, Optional, Tuple

from .dwarf_entries import Attributes
from .dwarf_numbers import MASK, WIDE, Reader, Unread, Value, indexed, number_of, units_of

Range = Tuple[int, int]


class Aranges(NamedTuple):
    """A set of __debug_aranges: the offset of its unit, and its tuples of an address and a length."""

    unit: int
    tuples: List[Tuple[int, int]]


def tuple_at(r: Reader) -> Optional[Tuple[int, int]]:
    address, length = r.number(8), r.number(8)
    return None if address == length == 0 else (address, length)


def set_at(r: Reader) -> Optional[Aranges]:
    try:
        first, version, unit = r.number(4), r.number(2), r.number(4)
        size, segment, _ = r.number(1), r.number(1), r.number(4)
    except Unread:
        return None
    if first == WIDE or (version, size, segment) != (2, 8, 0):
        return None
    tuples: List[Tuple[int, int]] = []
    while True:
        try:
            one = tuple_at(r)
        except Unread:
            one = None
        if one is None:
            return Aranges(unit, tuples)
        tuples.append(one)


@lru_cache(maxsize=200)
def aranges_of(section: bytes) -> List[Aranges]:
    """The sets of __debug_aranges that are read: in the 32-bit format, of version 2, with addresses of eight bytes and
    without segments."""
    found: List[Aranges] = []
    for begin, end in units_of(section).items():
        one = set_at(Reader(section, begin, end))
        if one is not None:
            found.append(one)
    return found


class RangeSections(NamedTuple):
    """Where the ranges of the entries of a unit stand: its version, the sections, the bases of the unit, and the base
    address, which is the low_pc of its first entry."""

    version: int
    debug_ranges: bytes
    debug_rnglists: bytes
    debug_addr: bytes
    rnglists_base: int
    addr_base: int
    base: int

    def indexed_address(self, index: int) -> Optional[int]:
        return indexed(self.debug_addr, self.addr_base, index, 8)

    def address_of(self, value: Optional[Value]) -> Optional[int]:
        """The address that a value is."""
        index = number_of(value, "addrx")
        return number_of(value, "address") if index is None else self.indexed_address(index)

    def ranges_of(self, attributes: Attributes, left: int) -> Tuple[List[Range], int]:
        """The ranges of an entry: from low_pc to high_pc if it has both, and else those that DW_AT_ranges names, of
        whose list so many entries count at most; and how many are left of these."""
        low, high = self.address_of(attributes.get("low_pc")), attributes.get("high_pc")
        if low is not None:
            count = number_of(high, "constant")
            end = self.address_of(high) if count is None else (low + count) & MASK
            if end is not None:
                return [(low, end)], left
        offset = self.list_offset(attributes.get("ranges"))
        if offset is None:
            return [], left
        entries = list(islice(self.list_at(offset), left))
        return [it for it in entries if it is not None], left - len(entries)

    def list_offset(self, value: Optional[Value]) -> Optional[int]:
        """The offset of a list; before version 4 a constant is one."""
        index = number_of(value, "rnglistx")
        if index is not None:
            relative = indexed(self.debug_rnglists, self.rnglists_base, index, 4)
            return None if relative is None else self.rnglists_base + relative
        return number_of(value, "sec_offset", *(["constant"] if self.version < 4 else []))

    def list_at(self, offset: int) -> Iterator[Optional[Range]]:
        """The range of each entry of a list, or None of one that says none, up to the end of the list or the first
        entry that cannot be read."""
        try:
            if self.version < 5:
                yield from self.pairs(Reader(self.debug_ranges, offset))
            else:
                yield from self.entries(Reader(self.debug_rnglists, offset))
        except Unread:
            return

    def pairs(self, r: Reader) -> Iterator[Optional[Range]]:
        """DWARF 4, section 2.17.3: the greatest number selects a base address."""
        base = self.base
        while True:
            begin, end = r.number(8), r.number(8)
            if begin == end == 0:
                return
            if begin == MASK:
                base = end
                yield None
            else:
                yield (base + begin) & MASK, (base + end) & MASK

    def entries(self, r: Reader) -> Iterator[Optional[Range]]:
        """Section 7.25: DW_RLE_end_of_list, base_addressx, startx_endx, startx_length, offset_pair, base_address,
        start_end, start_length."""
        base = self.base
        while True:
            kind = r.number(1)
            if kind == 0:
                return
            if kind in (1, 5):
                base = r.number(8) if kind == 5 else self.indexed_address(r.unsigned()) or 0
                yield None
            elif kind == 4:
                yield (base + r.unsigned()) & MASK, (base + r.unsigned()) & MASK
            else:
                yield self.of_addresses(kind, r)

    def of_addresses(self, kind: int, r: Reader) -> Optional[Range]:
        """The range of an entry that has addresses; None if one that is indexed is not there."""
        if kind in (2, 3):
            start, number = self.indexed_address(r.unsigned()), r.unsigned()
            end = self.indexed_address(number) if kind == 2 else (start or 0) + number & MASK
            return None if start is None or end is None else (start, end)
        if kind not in (6, 7):
            raise Unread
        low = r.number(8)
        return low, r.number(8) if kind == 6 else (low + r.unsigned()) & MASK
