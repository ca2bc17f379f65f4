"""Source lines and inlined frames of the addresses of an image, told a second time by DWARF 5 and docs/FILES.md."""
from __future__ import annotations

from bisect import bisect_right
from functools import lru_cache
from typing import Dict, List, NamedTuple, Optional, Tuple

from .dwarf_entries import MOST_BYTES, Attributes, Entry, Unit, unit_at
from .dwarf_lines import PathParts, names_of, parts_of, row_of
from .dwarf_numbers import MASK, Texts, number_of, units_of
from .dwarf_ranges import Range, RangeSections, aranges_of
from .images import image_of

SUBPROGRAM, INLINED_SUBROUTINE = 0x2E, 0x1D
MOST_FRAMES, MOST_STEPS = 256, 16
ENTRIES_A_BYTE = 4
MOST_NUMBER = 2**32 - 1


class SourceFrame(NamedTuple):
    """A frame: the name of its function, the parts of its path, line and column."""

    name: Optional[bytes]
    parts: Optional[PathParts]
    line: int
    column: int

    @property
    def path(self) -> Optional[bytes]:
        return None if self.parts is None else self.parts.path()


def known(number: int) -> int:
    """A line or a column; a greater one is not known."""
    return number if number <= MOST_NUMBER else 0


class Scope(NamedTuple):
    """A function entry: its depth, the number after the last entry that stands in it, its ranges, and itself."""

    depth: int
    number: int
    end: int
    ranges: List[Range]
    entry: Entry

    def contains(self, address: int) -> bool:
        return any(low <= address < high for low, high in self.ranges)


class DebugUnit:
    """A unit whose header and first entry can be read, and what its first entry says of the whole."""

    def __init__(self, debug: Debug, unit: Unit, first: Entry) -> None:
        self.debug, self.unit = debug, unit
        self.attributes = first.attributes
        strings, line_strings, offsets = map(debug.section, ("str", "line_str", "str_offs"))
        self.texts = Texts(strings, line_strings, offsets, self.base("str_offsets_base", 8))
        pairs, lists, table = map(debug.section, ("ranges", "rnglists", "addr"))
        bases = self.base("rnglists_base", 12), self.base("addr_base", 8)
        places = RangeSections(unit.version, pairs, lists, table, *bases, 0)
        self.ranges = places._replace(base=places.address_of(self.attributes.get("low_pc")) or 0)
        # How many entries of lists of ranges count.
        self.most_entries = ENTRIES_A_BYTE * (unit.end - unit.offset)
        self.found_scopes: Optional[List[Scope]] = None
        self.lines = self.line_unit()

    def base(self, name: str, default: int) -> int:
        offset = number_of(self.attributes.get(name), "sec_offset")
        return default if offset is None else offset

    def own_ranges(self) -> List[Range]:
        """The ranges of the first entry."""
        return self.ranges.ranges_of(self.attributes, self.most_entries)[0]

    def scopes(self) -> List[Scope]:
        """The function entries, in their order; of their lists of ranges so many entries count as the unit allows."""
        if self.found_scopes is None:
            self.found_scopes = self.made_scopes()
        return self.found_scopes

    def made_scopes(self) -> List[Scope]:
        entries = list(self.unit.entries())
        ends: List[int] = [0] * len(entries)
        opened: List[int] = []
        for number, (depth, _) in enumerate(entries):
            while opened and entries[opened[-1]][0] >= depth:
                ends[opened.pop()] = number
            opened.append(number)
        for number in opened:
            ends[number] = len(entries)
        left, found = self.most_entries, []
        for number, (depth, entry) in enumerate(entries):
            if entry.tag in (SUBPROGRAM, INLINED_SUBROUTINE):
                ranges, left = self.ranges.ranges_of(entry.attributes, left)
                found.append(Scope(depth, number, ends[number], ranges, entry))
        return found

    def chain(self, address: int) -> List[Entry]:
        """The first function entry that contains an address, the first that stands in it and does, and so on; of these
        the ones from the last subprogram on, which is no call in a function that it stands in."""
        found: List[Entry] = []
        end: Optional[int] = None
        for scope in self.scopes():
            if end is not None and scope.number >= end or len(found) == MOST_FRAMES:
                break
            if scope.contains(address):
                found.append(scope.entry)
                end = scope.end
        subprograms = [place for place, entry in enumerate(found) if entry.tag == SUBPROGRAM]
        return found[subprograms[-1] :] if subprograms else found

    def line_unit(self) -> Optional[bytes]:
        """The unit of __debug_line that DW_AT_stmt_list names; before version 4 a constant is an offset."""
        kinds = ["sec_offset", *(["constant"] if self.unit.version < 4 else [])]
        offset = number_of(self.attributes.get("stmt_list"), *kinds)
        section = self.debug.section("line")
        end = None if offset is None else units_of(section).get(offset)
        return None if offset is None or end is None else section[offset:end]

    def parts(self, file: Optional[int]) -> Optional[PathParts]:
        names = None if self.lines is None else names_of(self.lines)
        if names is None or file is None:
            return None
        return parts_of(names, self.texts, self.texts.of(self.attributes.get("comp_dir")) or b"", file)

    def frames(self, address: int) -> List[SourceFrame]:
        """The frames of an address, the innermost first."""
        row = None if self.lines is None else row_of(self.lines, address)
        file, line, column = (None, 0, 0) if row is None else (row.file, known(row.line), known(row.column))
        chain = self.chain(address)
        if not chain and row is not None:
            return [SourceFrame(None, self.parts(file), line, column)]
        found = []
        for entry in reversed(chain):
            found.append(SourceFrame(self.debug.name_of(self, entry.attributes), self.parts(file), line, column))
            call = entry.attributes
            file = number_of(call.get("call_file"), "constant")
            line, column = (known(number_of(call.get(it), "constant") or 0) for it in ("call_line", "call_column"))
        return found


class Debug:
    """The DWARF of an image: its sections by their names after `__debug_`."""

    def __init__(self, sections: Dict[str, bytes]) -> None:
        self.sections = sections
        self.units = units_of(self.section("info"))
        self.offsets = list(self.units)
        self.read_units: Dict[int, Optional[DebugUnit]] = {}

    def section(self, name: str) -> bytes:
        """The bytes of a section, which are none if it is not there."""
        return self.sections.get(name, b"")

    def unit(self, offset: int) -> Optional[DebugUnit]:
        """The unit at an offset, if one begins there and is read."""
        if offset not in self.units:
            return None
        if offset not in self.read_units:
            unit = unit_at(self.section("info"), self.section("abbrev"), offset, self.units[offset])
            first = None if unit is None else unit.entry_of(unit.first, MOST_BYTES)
            self.read_units[offset] = None if unit is None or first is None else DebugUnit(self, unit, first[0])
        return self.read_units[offset]

    def unit_of(self, address: int) -> Optional[DebugUnit]:
        """The unit of the first tuple of __debug_aranges that has an address; and else the first unit that no set names
        and whose own ranges have it."""
        sets = aranges_of(self.section("aranges"))
        for one in sets:
            if any(first <= address < first + length for first, length in one.tuples):
                unit = self.unit(one.unit)
                if unit is not None:
                    return unit
                break
        named = {one.unit for one in sets}
        for offset in self.units:
            unit = None if offset in named else self.unit(offset)
            if unit is not None and any(low <= address < high for low, high in unit.own_ranges()):
                return unit
        return None

    def entry_at(self, place: int, most: int) -> Optional[Tuple[DebugUnit, Entry, int]]:
        """The entry at a place of __debug_info, of the unit that has the place, if it and the first entry of the unit
        have at most so many bytes, and how many these are fewer."""
        number = bisect_right(self.offsets, place)
        if number == 0 or place >= self.units[self.offsets[number - 1]]:
            return None
        unit = self.unit(self.offsets[number - 1])
        first = None if unit is None else unit.unit.entry_of(unit.unit.first, most)
        found = None if unit is None or first is None else unit.unit.entry_of(place, first[1])
        return None if unit is None or found is None else (unit, *found)

    def name_of(self, unit: DebugUnit, attributes: Attributes) -> Optional[bytes]:
        """The first linkage name on the way from an entry by DW_AT_abstract_origin, else DW_AT_specification, and else
        the first name."""
        name: Optional[bytes] = None
        most = MOST_BYTES
        for _ in range(MOST_STEPS):
            for attribute in ("linkage_name", "MIPS_linkage_name"):
                linkage = unit.texts.of(attributes.get(attribute))
                if linkage:
                    return linkage
            name = name or unit.texts.of(attributes.get("name"))
            origin = attributes.get("abstract_origin", attributes.get("specification"))
            place = number_of(origin, "ref_addr")
            if place is None:
                inner = number_of(origin, "ref")
                place = None if inner is None else (unit.unit.offset + inner) & MASK
            found = None if place is None else self.entry_at(place, most)
            if found is None:
                break
            unit, attributes, most = found[0], found[1].attributes, found[2]
        return name or None


@lru_cache(maxsize=20000)
def debug_of(slice_bytes: bytes) -> Debug:
    """The DWARF of a slice: of each name the first section in the segment __DWARF, cut where the slice ends."""
    sections: Dict[str, bytes] = {}
    for section in image_of(slice_bytes).sections:
        prefix, name = section.name[:8], section.name[8:].decode("latin-1")
        if section.segment == b"__DWARF" and prefix == b"__debug_":
            sections.setdefault(name, slice_bytes[section.offset : section.offset + section.size])
    return Debug(sections)


def frames_of(slice_bytes: bytes, address: int) -> List[SourceFrame]:
    """The frames of an address of a slice, the innermost first."""
    unit = debug_of(slice_bytes).unit_of(address)
    return [] if unit is None else unit.frames(address)
