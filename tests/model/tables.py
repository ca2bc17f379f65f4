"""The tables of slices, told a second time by docs/FILES.md: made of an image, and asked page by page."""
import struct
from functools import lru_cache
from typing import Dict, List, NamedTuple, Optional, Tuple

from .images import Candidate, Image, image_of
from .line_tables import LineTable, line_table_of
from .pages import MOST_ADDRESSES, Changed, Claim, Pages, Take, text_from

HEAD, SECTION, ROW = 48, 32, 21
MOST_SECTIONS = 255

# ---- made


def turns(image: Image) -> List[int]:
    """The addresses at which the nearest symbol may change."""
    found = {it.value for it in image.candidates()}
    for section in image.sections[:MOST_SECTIONS]:
        found |= {section.addr, section.addr + section.size}
    return sorted(it for it in found if it < MOST_ADDRESSES)


def row_bytes(start: int, nearest: Optional[Candidate], places: Dict[Candidate, int]) -> bytes:
    """A row that says what is nearest from an address on."""
    if nearest is None:
        return struct.pack(">QQIB", start, 0, 0, 0)
    return struct.pack(">QQIB", start, nearest.value, places[nearest], nearest.sect)


@lru_cache(maxsize=20000)
def table_of(b: bytes) -> bytes:
    """The table of a slice: its head, the names of its sections, its rows, its string table and its line table."""
    image = image_of(b)
    places: Dict[Candidate, int] = {}
    for candidate, place in image.placed_candidates():
        places[candidate] = min(place, places.get(candidate, place))
    rows = [row_bytes(it, image.nearest(it), places) for it in turns(image)]
    sections = [it.segment.ljust(16, b"\0") + it.name.ljust(16, b"\0") for it in image.sections[:MOST_SECTIONS]]
    strings, lines = image.strings(), line_table_of(b)
    numbers = (image.base is not None, image.base or 0, len(sections), len(rows), len(strings), len(lines))
    return struct.pack(">6Q", *numbers) + b"".join([*sections, *rows, strings, lines])


# ---- asked


class Found(NamedTuple):
    """The nearest symbol of an address: its value, its name, and the names of its section."""

    value: int
    name: bytes
    segment: bytes
    section: bytes


class Table:
    """A stored table, with its head."""

    def __init__(self, take: Take, claim: Claim) -> None:
        self.pages = Pages(take, claim)
        flag, base, self.sections, self.rows, self.strings, lines = struct.unpack(">6Q", self.pages.read(0, HEAD))
        self.base: Optional[int] = base if flag else None
        self.first_row = HEAD + SECTION * self.sections
        self.first_string = self.first_row + ROW * self.rows
        self.first_line = self.first_string + self.strings
        if claim.size != self.first_line + lines:
            raise Changed

    def lines(self) -> Optional[LineTable]:
        """The line table, with its head; None where it has no lines."""
        return LineTable.opened(self.pages, (self.first_string, self.strings), self.first_line)

    def row_for(self, address: int) -> Optional[Tuple[int, int, int]]:
        """What the last row says that begins at an address or below it, found by halving."""
        low, high, found = 0, self.rows, None
        while low < high:
            middle = (low + high) // 2
            start, *said = struct.unpack(">QQIB", self.pages.read(self.first_row + ROW * middle, ROW))
            if start <= address:
                found, low = (said[0], said[1], said[2]), middle + 1
            else:
                high = middle
        return found

    def name_at(self, place: int) -> bytes:
        """The name from a place of the strings on."""
        return text_from(self.pages, self.first_string + place, self.first_line)

    def section_names(self, sect: int) -> Tuple[bytes, bytes]:
        if not 1 <= sect <= self.sections:
            return b"", b""
        names = self.pages.read(HEAD + SECTION * (sect - 1), SECTION)
        return names[:16].split(b"\0")[0], names[16:].split(b"\0")[0]

    def nearest(self, address: int) -> Optional[Found]:
        row = self.row_for(address)
        if row is None or row[2] == 0:
            return None
        name = self.name_at(row[1])
        return Found(row[0], name, *self.section_names(row[2]))
