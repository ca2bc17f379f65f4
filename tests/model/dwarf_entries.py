"""Debugging information entries, told a second time by DWARF 5, sections 2.1 to 2.3, 7.5.1 to 7.5.3."""
from functools import lru_cache
from typing import Dict, Iterator, List, NamedTuple, Optional, Tuple

from .dwarf_numbers import FLAG_PRESENT, IMPLICIT_CONST, WIDE, Reader, Unread, Value, value_at

# The attributes that are asked for, by their numbers.
ASKED: Dict[int, str] = {
    **{0x03: "name", 0x10: "stmt_list", 0x11: "low_pc", 0x12: "high_pc", 0x1B: "comp_dir"},
    **{0x31: "abstract_origin", 0x47: "specification", 0x55: "ranges", 0x57: "call_column", 0x58: "call_file"},
    **{0x59: "call_line", 0x6E: "linkage_name", 0x72: "str_offsets_base", 0x73: "addr_base"},
    **{0x74: "rnglists_base", 0x2007: "MIPS_linkage_name"},
}
# How many bytes the first entry of a unit has at most, and those that are read on the way to a name together.
MOST_BYTES = 16384
Attributes = Dict[str, Value]


class Declaration(NamedTuple):
    """A declaration: its tag, whether it has children, the values of DW_FORM_implicit_const, which stand in it, and
    the attribute and the form of each value that an entry has."""

    tag: int
    has_children: bool
    constants: Attributes
    pairs: List[Tuple[int, int]]


def specification_at(r: Reader) -> Optional[Tuple[int, int, int]]:
    attribute, form = r.unsigned(), r.unsigned()
    if attribute == form == 0:
        return None
    return attribute, form, r.signed() if form == IMPLICIT_CONST else 0


def declaration_at(r: Reader) -> Optional[Tuple[int, Declaration]]:
    """A code and its declaration; the code 0 ends a table."""
    code = r.unsigned()
    if code == 0:
        return None
    tag, has_children = r.unsigned(), r.number(1) == 1
    constants: Attributes = {}
    pairs: List[Tuple[int, int]] = []
    for attribute, form, number in r.until(specification_at):
        if form == IMPLICIT_CONST:
            if attribute in ASKED:
                constants.setdefault(ASKED[attribute], Value("constant", number))
        elif form != FLAG_PRESENT:
            pairs.append((attribute, form))
    return code, Declaration(tag, has_children, constants, pairs)


@lru_cache(maxsize=200)
def declarations_of(section: bytes) -> Dict[Tuple[int, int], Declaration]:
    """The declarations of __debug_abbrev by the offset of their table and their code, of two the first; up to the first
    that cannot be read. The tables stand one after another."""
    found: Dict[Tuple[int, int], Declaration] = {}
    r = Reader(section)
    table = 0
    while True:
        try:
            one = declaration_at(r)
        except Unread:
            return found
        if one is None:
            table = r.at
        else:
            found.setdefault((table, one[0]), one[1])


class Entry(NamedTuple):
    """An entry: its tag, whether it has children, and the attributes that are asked for, of two the first."""

    tag: int
    has_children: bool
    attributes: Attributes


class Unit(NamedTuple):
    """A unit whose header can be read: its place in __debug_info, its end, its version, the offset of its table of
    declarations, and where its first entry begins."""

    info: bytes
    abbreviations: bytes
    offset: int
    end: int
    version: int
    table: int
    first: int

    def entry_at(self, r: Reader) -> Optional[Entry]:
        """The entry that begins there; None for a null entry."""
        code = r.unsigned()
        if code == 0:
            return None
        declaration = declarations_of(self.abbreviations).get((self.table, code))
        if declaration is None:
            raise Unread
        found = dict(declaration.constants)
        for attribute, form in declaration.pairs:
            value = value_at(self.version, form, r)
            if attribute in ASKED:
                found.setdefault(ASKED[attribute], value)
        return Entry(declaration.tag, declaration.has_children, found)

    def entry_of(self, place: int, most: int) -> Optional[Tuple[Entry, int]]:
        """The one entry at a place of __debug_info, if it has at most so many bytes, and how many these are fewer."""
        if place < self.first:
            return None
        r = Reader(self.info, place, min(place + most, self.end))
        try:
            entry = self.entry_at(r)
        except Unread:
            return None
        return None if entry is None else (entry, most - (r.at - place))

    def entries(self) -> Iterator[Tuple[int, Entry]]:
        """The entries, each with its depth: until the first is closed, or one cannot be read."""
        r, depth = Reader(self.info, self.first, self.end), 0
        while True:
            try:
                entry = self.entry_at(r)
            except Unread:
                return
            if entry is None:
                depth -= 1
            else:
                yield depth, entry
                depth += entry.has_children
            if depth <= 0:
                return


def unit_at(info: bytes, abbreviations: bytes, offset: int, end: int) -> Optional[Unit]:
    """The unit between two places, if its header can be read: the 32-bit format, version 2 to 5, addresses of eight
    bytes, and in version 5 DW_UT_compile or DW_UT_partial."""
    r = Reader(info, offset, end)
    try:
        if r.number(4) == WIDE:
            return None
        version = r.number(2)
        if version == 5:
            unit_type, size, table = r.number(1), r.number(1), r.number(4)
        else:
            unit_type, table, size = 1, r.number(4), r.number(1)
    except Unread:
        return None
    if not 2 <= version <= 5 or size != 8 or unit_type not in (1, 3):
        return None
    return Unit(info, abbreviations, offset, end, version, table, r.at)
