"""The line tables of slices, told a second time by docs/FILES.md: made of an image, the frames of each address, step by
step; and asked page by page."""
from __future__ import annotations

import struct
from functools import lru_cache
from itertools import accumulate
from typing import Dict, Hashable, Iterable, List, NamedTuple, Optional, Set, Tuple, TypeVar

from .dwarf_frames import MOST_FRAMES, Debug, DebugUnit, SourceFrame, debug_of
from .dwarf_lines import PathParts, rows_of
from .dwarf_ranges import aranges_of
from .groups import Groups, differences, grouped
from .images import image_of
from .pages import MOST_ADDRESSES, Changed, Pages, text_from

HEAD, SCOPE, FILE, TEXT = 56, 20, 12, 8
NO_LINES = bytes(HEAD)
T = TypeVar("T", bound=Hashable)

# The frames of an address, the innermost first.
Chain = Tuple[SourceFrame, ...]


# ---- made


class Step(NamedTuple):
    """From an address on, up to the next step, these are the frames."""

    start: int
    frames: Chain


def boundaries(debug: Debug) -> Set[int]:
    """The addresses at which the unit may change."""
    sets = aranges_of(debug.section("aranges"))
    ends = {end for one in sets for first, length in one.tuples for end in (first, first + length)}
    named = {one.unit for one in sets}
    for offset in debug.units:
        unit = None if offset in named else debug.unit(offset)
        ends |= {end for one in (unit.own_ranges() if unit else []) for end in one}
    return ends


def unit_turns(unit: DebugUnit) -> Set[int]:
    """The addresses at which the frames in a unit may change."""
    ends = {end for scope in unit.scopes() for one in scope.ranges for end in one}
    return ends | ({row.address for row in rows_of(unit.lines)} if unit.lines else set())


def frame_steps(debug: Debug) -> List[Step]:
    """The steps of an image: at each address at which the frames are others than those of the address before."""
    turns = boundaries(debug)
    for offset in debug.units:
        own = debug.unit(offset)
        turns |= unit_turns(own) if own else set()
    steps: List[Step] = []
    last: Chain = ()
    for address in sorted(it for it in turns if it < MOST_ADDRESSES):
        unit = debug.unit_of(address)
        frames = tuple(unit.frames(address)) if unit else ()
        if frames != last:
            steps.append(Step(address, frames))
            last = frames
    return steps


def numbers_of(them: Iterable[T]) -> Dict[T, int]:
    """The numbers of things, from 1 on, in the order in which they first come."""
    found: Dict[T, int] = {}
    for it in them:
        found.setdefault(it, len(found) + 1)
    return found


def places_of(strings: bytes) -> Dict[bytes, int]:
    """The numbers of the texts that are strings of the slice, or are after a `_` in one."""
    found: Dict[bytes, int] = {}
    before = 0
    for it in strings.split(b"\0"):
        if before < len(strings):
            found.setdefault(it, before + 1)
        if it[:1] == b"_" and before + 1 < len(strings):
            found.setdefault(it[1:], before + 2)
        before += len(it) + 1
    return found


class Scope(NamedTuple):
    """A frame without its line and column, and the frames that it is inlined into."""

    name: Optional[bytes]
    parts: Optional[PathParts]
    callers: Chain


def scope_of(chain: Chain) -> Scope:
    return Scope(chain[0].name, chain[0].parts, chain[1:])


class Parts:
    """What a line table has, with the numbers of its scopes, paths and texts."""

    def __init__(self, strings: bytes, steps: List[Step]) -> None:
        self.steps, self.before, self.placed = steps, len(strings), places_of(strings)
        chains = (step.frames[at:] for step in steps for at in reversed(range(len(step.frames))))
        self.scopes = numbers_of(map(scope_of, chains))
        self.files = numbers_of(it.parts for it in self.scopes if it.parts is not None)
        names = [it.name for it in self.scopes if it.name is not None]
        texts = [*names, *(text for parts in self.files for text in parts)]
        self.texts = numbers_of(it for it in texts if it not in self.placed)

    def text(self, it: bytes) -> int:
        return self.placed[it] if it in self.placed else self.before + self.texts[it]

    def step(self, it: Step) -> Tuple[int, int, int, int]:
        """What a step says: its start, and its scope, line and column, or zeros if it has no frames."""
        if not it.frames:
            return it.start, 0, 0, 0
        return it.start, self.scopes[scope_of(it.frames)], it.frames[0].line, it.frames[0].column

    def scope(self, it: Scope) -> bytes:
        name = 0 if it.name is None else self.text(it.name)
        file = 0 if it.parts is None else self.files[it.parts]
        if not it.callers:
            return struct.pack(">5I", name, file, 0, 0, 0)
        call = it.callers[0]
        return struct.pack(">5I", name, file, call.line, call.column, self.scopes[scope_of(it.callers)])

    def file(self, parts: PathParts) -> bytes:
        return struct.pack(">3I", *map(self.text, parts))

    def text_rows(self) -> List[bytes]:
        places = [0, *accumulate(map(len, self.texts))]
        return [struct.pack(">2I", place, len(text)) for place, text in zip(places, self.texts)]

    def bytes(self) -> Optional[bytes]:
        """The table; None if a number is too large."""
        groups, steps = grouped(list(map(self.step, self.steps)), lambda row: row[0], differences)
        texts = b"".join(self.texts)
        counts = len(self.steps), len(steps), len(self.scopes), len(self.files), len(self.texts), len(texts)
        if max(*counts, self.before + len(self.texts)) >= 1 << 32:
            return None
        rows = [groups, steps, *map(self.scope, self.scopes), *map(self.file, self.files), *self.text_rows()]
        return struct.pack(">7Q", 1, *counts) + b"".join([*rows, texts])


def fitting(room: int, strings: bytes, steps: List[Step]) -> Optional[bytes]:
    """The table of some steps, if it has at most so many bytes, and each of its numbers fits its own."""
    table = Parts(strings, steps).bytes()
    return table if table is not None and len(table) <= room else None


@lru_cache(maxsize=20000)
def line_table_of(slice_bytes: bytes) -> bytes:
    """The line table of a slice."""
    strings = image_of(slice_bytes).strings()
    return fitting(max(HEAD, 4 * len(slice_bytes)), strings, frame_steps(debug_of(slice_bytes))) or NO_LINES


# ---- asked


class LineTable:
    """A line table that has lines: where it stands among stored bytes, which it ends, where the strings of the slice
    stand, and how many it has of each part."""

    def __init__(self, pages: Pages, strings: Tuple[int, int], offset: int, counts: Tuple[int, ...]) -> None:
        self.pages, self.strings = pages, strings
        steps, step_bytes, self.scopes, self.files, self.texts, self.bytes = counts
        self.steps = Groups(pages, offset + HEAD, steps, step_bytes)
        self.first_scope = self.steps.end
        self.first_file = self.first_scope + SCOPE * self.scopes
        self.first_text = self.first_file + FILE * self.files
        self.first_byte = self.first_text + TEXT * self.texts
        if pages.claim.size != self.first_byte + self.bytes:
            raise Changed

    @staticmethod
    def opened(pages: Pages, strings: Tuple[int, int], offset: int) -> Optional["LineTable"]:
        """The line table that stands there, with the strings from a place on; None where it has no lines."""
        has_lines, *counts = struct.unpack(">7Q", pages.read(offset, HEAD))
        return LineTable(pages, strings, offset, tuple(counts)) if has_lines else None

    def row(self, form: str, first: int, number: int, count: int) -> Tuple[int, ...]:
        """The row of a number among so many that stand from an offset on, which are numbered from 1 on."""
        if not 1 <= number <= count:
            raise Changed
        size = struct.calcsize(form)
        return struct.unpack(form, self.pages.read(first + size * (number - 1), size))

    def text(self, number: int) -> bytes:
        first, length = self.strings
        if 1 <= number <= length:
            return text_from(self.pages, first + number - 1, first + length)
        place, size = self.row(">2I", self.first_text, number - length, self.texts)
        if place + size > self.bytes:
            raise Changed
        return self.pages.read(self.first_byte + place, size)

    def path(self, number: int) -> PathParts:
        return PathParts(*map(self.text, self.row(">3I", self.first_file, number, self.files)))

    def step_for(self, address: int) -> Tuple[int, int, int]:
        """The scope, line and column of the last step that starts at an address or below it; zeros without any."""
        numbers = self.steps.found(address)
        step, answer = (0, 0, 0, 0), (0, 0, 0)
        while numbers and not numbers.are_read:
            start, scope, line, column = (old + numbers.signed() for old in step)
            step = start % MOST_ADDRESSES, scope % MOST_ADDRESSES, line % MOST_ADDRESSES, column % MOST_ADDRESSES
            if step[0] > address:
                break
            answer = step[1:]
        if max(answer) >= 1 << 32:
            raise Changed
        return answer

    def frames(self, address: int) -> List[SourceFrame]:
        """The frames of an address, the innermost first: of each scope and of its callers, whose numbers fall."""
        frames: List[SourceFrame] = []
        number, line, column = self.step_for(address)
        while number:
            if len(frames) == MOST_FRAMES:
                raise Changed
            name, file, *call, caller = self.row(">5I", self.first_scope, number, self.scopes)
            if caller >= number:
                raise Changed
            parts = self.path(file) if file else None
            frames.append(SourceFrame(self.text(name) if name else None, parts, line, column))
            number, (line, column) = caller, call
        return frames
