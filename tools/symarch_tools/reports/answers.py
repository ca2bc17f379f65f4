"""What the program answers of the images of reports."""
from __future__ import annotations

import bisect
import enum
import uuid
from array import array
from dataclasses import dataclass, field
from typing import Dict, Iterator, List, Optional, Set, Tuple

from ..console.answer_lines import OF_FRAME, count_in, slice_in, symbol_in, two_words
from ..console.program_faults import InputFault, input_fault
from .names import Names
from .source_lines import NOTHING, Chains, Lines

# A UUID and an architecture.
Key = Tuple[uuid.UUID, str]
# The name of a function, and the offset in it.
Symbol = Tuple[str, int]
# What a slice answers, by the places of its name and of its frames, and the offset.
Places = Tuple[int, int, int]

# What is printed of an offset where no slice answers, and where the key is refused.
NOT_THERE, REFUSED = b"0x%016x ?\n", b"0x%016x !\n"
# The places of names for an offset without a symbol, and for one with the answers of several slices.
NONE, MANY = -1, -2


class Origin(enum.Enum):
    """What answered for an image, as the counts of a report say it. JSON and the program have the names."""

    DSYM = "by dSYM"
    IMAGE = "without dSYM"
    CHANGED = "changed since it was added"
    OTHER_ARCHITECTURE = "under another architecture"
    ABSENT = "not in the archive"

    def word(self) -> str:
        return self.name.lower()


@dataclass
class Said:
    """The lines of the program, of which the next one is read ahead."""

    lines: Iterator[bytes]

    def __post_init__(self) -> None:
        self.ahead = next(self.lines, b"")

    def line(self) -> bytes:
        line, self.ahead = self.ahead, next(self.lines, b"")
        return line

    def frames(self) -> bytes:
        """The lines of frames that stand here."""
        found = []
        while self.ahead.startswith(OF_FRAME):
            found.append(self.line())
        return b"".join(found)


@dataclass
class KeyLines:
    """What the program prints after the answers: what answers under each key, also under the other architectures of a
    UUID, and why keys are refused."""

    origins: Dict[Key, Origin] = field(default_factory=dict)
    refused: Dict[Key, InputFault] = field(default_factory=dict)

    def take(self, line: bytes) -> None:
        """ValueError if a line is none of these."""
        found = slice_in(line)
        key = uuid.UUID(found.uuid), found.arch
        if found.kind is not None:
            self.origins[key] = Origin[found.kind.upper()]
            return
        fault = input_fault(found.reason or "")
        if fault is None or fault.kind != "index":
            raise ValueError
        self.refused[key] = fault

    def add(self, other: KeyLines) -> None:
        self.origins.update(other.origins)
        self.refused.update(other.refused)

    def architectures(self) -> Dict[uuid.UUID, List[str]]:
        """Those under which slices answer, by their UUIDs."""
        found: Dict[uuid.UUID, List[str]] = {}
        for (number, arch), origin in self.origins.items():
            if origin is not Origin.ABSENT:
                found.setdefault(number, []).append(arch)
        return found


@dataclass(eq=False)
class Answers:
    """What the slices of a key answer for offsets in ascending order."""

    key: Key
    offsets: array[int]
    names: Names
    chains: Chains
    # Whether a slice that answers has more lines of the source than its index has room for.
    has_too_many_lines: bool = False

    def __post_init__(self) -> None:
        self.begin()

    def begin(self) -> None:
        """Drops what was taken."""
        self.places, self.symbol_offsets, self.chain_places = array("i"), array("Q"), array("I")
        self.several: Dict[int, Dict[str, Places]] = {}
        self.origin = Origin.ABSENT

    def questions(self) -> Iterator[str]:
        """The lines for the program. Offsets are addresses of an image that was loaded at 0. One at least is asked for,
        by which the archive says whether it has the image."""
        number, arch = self.key
        begin = f"{number.hex} {arch} 0x0 "
        return (f"{begin}{offset:#x}\n" for offset in self.offsets)

    def at(self, offset: int) -> Dict[str, Optional[Symbol]]:
        """By the digest of each slice, which is empty if one answers, its name and offset, or None."""
        return {digest: self.shown(*said[:2]) for digest, said in self.said(offset).items()}

    def lines_at(self, offset: int) -> Lines:
        """Where an offset is in the source, if all slices that answer say the same of it."""
        one = self.one_at(offset)
        if one:
            return self.chains.lines(one[2])
        found: Set[Lines] = {self.chains.lines(said[2]) for said in self.said(offset).values()}
        return found.pop() if len(found) == 1 else NOTHING

    def said(self, offset: int) -> Dict[str, Places]:
        one = self.one_at(offset)
        return {"": one} if one else self.several.get(offset, {})

    def one_at(self, offset: int) -> Optional[Places]:
        """What is said of an offset, if one slice answers."""
        place = bisect.bisect_left(self.offsets, offset)
        if place >= len(self.places) or self.offsets[place] != offset or self.places[place] == MANY:
            return None
        return self.places[place], self.symbol_offsets[place], self.chain_places[place]

    def shown(self, place: int, symbol_offset: int) -> Optional[Symbol]:
        return (self.names.shown[place], symbol_offset) if place >= 0 else None

    def take(self, lines: Said) -> None:
        """Takes the answer to each question. Those of a key that no slice has, or that is refused, are not kept.
        ValueError if a line is no answer."""
        self.begin()
        for offset in self.offsets:
            line = lines.line()
            if not self.places and line in (NOT_THERE % offset, REFUSED % offset):
                continue
            address, said = two_words(line)
            if address != b"0x%016x" % offset or not self.places and offset != self.offsets[0]:
                raise ValueError
            several = count_in(said)
            if several is not None:
                self.several[offset] = dict(self.of_slice(lines) for _ in range(several))
                self.add(MANY, 0, 0)
            else:
                self.add(*self.answer(said, lines))

    def take_origin(self, lines: KeyLines) -> None:
        """Takes what answers under the key. ValueError if there were other answers."""
        self.origin = lines.origins.get(self.key, Origin.ABSENT)
        if bool(self.places) != (self.origin is not Origin.ABSENT and self.key not in lines.refused):
            raise ValueError

    def add(self, place: int, symbol_offset: int, chain_place: int) -> None:
        self.places.append(place)
        self.symbol_offsets.append(symbol_offset)
        self.chain_places.append(chain_place)

    def of_slice(self, lines: Said) -> Tuple[str, Places]:
        digest, said = two_words(lines.line().lstrip(b" "))
        return digest.decode(), self.answer(said, lines)

    def answer(self, said: bytes, lines: Said) -> Places:
        """What a slice answers: its name and offset, and below that its frames."""
        found = symbol_in(said)
        symbol = (self.names.place(found.name), found.offset) if found else (NONE, 0)
        return (*symbol, self.chains.place(lines.frames()))
