"""Indexes, told a second time by docs/FILES.md: made of an archive as it comes, read from their end, and asked
together."""
import itertools
import struct
from typing import Callable, Dict, Iterable, List, NamedTuple, Optional, Sequence, Tuple

from .contents import ADMISSION, END, RETIREMENT, Content, Fault, Reader, Source, Write, entry_of
from .images import U32_MAX, Image, image_of, sha, slice_of
from .pages import NO_CLAIM, Changed, Claim, Pages, claim_at, root_of, stored
from .tables import table_of

IDX, EARLIER_IDX = b"MSYMIDX2", b"MSYMIDX1"
PLACED_LEN, ENTRY_LEN, END_LEN = 74, 122, 57


# ---- made


def placed_entry(record: bytes, at: int) -> bytes:
    """The entry of a record that stands at this place, without a claim."""
    is_companion = record[0] == ADMISSION and image_of(record[33:]).is_dsym
    return entry_of(record) + bytes([is_companion]) + struct.pack(">QQ", at, len(record))


def numbers_of(entries: Sequence[bytes]) -> Tuple[int, int]:
    """How many of the entries are retirements, and how long their archive is."""
    return sum(it[0] == RETIREMENT for it in entries), 17 + sum(map(length_in, entries))


def end_of(entries: Sequence[bytes]) -> bytes:
    return bytes([END]) + struct.pack(">3Q", len(entries), *numbers_of(entries)) + root_of(b"".join(entries))


def index_stream(source: Source, write: Write) -> int:
    """Writes the index of an archive of version 2 as it comes, and says how many entries it has."""
    reader = Reader(source, "archive")
    reader.magic()
    write(IDX)
    entries: List[bytes] = []
    done = len(IDX)
    while True:
        at = reader.at
        record = reader.next()
        if record is None:
            break
        claim = NO_CLAIM
        if record[0] == ADMISSION:
            table = table_of(record[33:])
            claim = claim_at(done, table)
            write(stored(table))
            done = claim.end
        entries.append(placed_entry(record, at) + claim.bytes())
    entries.sort()
    write(stored(b"".join(entries)) + end_of(entries))
    return len(entries)


def index_of(text: bytes) -> bytes:
    """The index of an archive."""
    made = bytearray()
    index_stream(Source(text), made.extend)
    return bytes(made)


# ---- devices


class Failed(Exception):
    """A device failed."""


class Placed:
    """The bytes of a file, from any place. It fails at each call once it gave as many bytes as its limit."""

    def __init__(self, source: Source) -> None:
        self.data, self.left = source.data, source.limit

    def size(self) -> int:
        if self.left == 0:
            raise Failed
        return len(self.data)

    def take(self, at: int, count: int) -> bytes:
        """So many bytes from a place on, or as many as there are."""
        found = self.data[at : at + count]
        if self.left is not None:
            self.left, is_short = max(0, self.left - len(found)), len(found) > self.left
            # It is asked again where bytes are missing.
            if is_short or (self.left == 0 and len(found) < count):
                raise Failed
        return found


# ---- read


def entries_in(index: bytes) -> List[bytes]:
    """The entries of an index."""
    return read_index(Placed(Source(index)))


def table_place(entry: bytes) -> int:
    """Where an entry says that its table is stored."""
    return claim_in(entry).offset


def claim_in(entry: bytes) -> Claim:
    offset, size = struct.unpack(">QQ", entry[74:90])
    return Claim(offset, size, entry[90:])


def offset_in(entry: bytes) -> int:
    return int.from_bytes(entry[58:66], "big")


def length_in(entry: bytes) -> int:
    return int.from_bytes(entry[66:74], "big")


def part(placed: Placed, at: int, count: int) -> bytes:
    """A part of an index or of its archive, which begins at this offset."""
    try:
        return placed.take(at, count)
    except Failed:
        raise Fault("Device", at) from None


def size_of(placed: Placed) -> int:
    """How many bytes there are."""
    try:
        return placed.size()
    except Failed:
        raise Fault("Device", 0) from None


class Ends(NamedTuple):
    """The numbers in the end record of an index, and where its entries are stored."""

    entries: int
    retired: int
    # How long the archive is.
    size: int
    claim: Claim

    @property
    def first(self) -> int:
        """Where the first entry begins."""
        return self.claim.end - self.claim.size

    def number_at(self, number: int) -> int:
        return self.first + ENTRY_LEN * number


def read_ends(placed: Placed) -> Ends:
    """The magic and the end record of an index."""
    size = size_of(placed)
    beginning = part(placed, 0, min(8, size))
    if beginning == EARLIER_IDX:
        raise Fault("OldIndex", 0)
    if not IDX.startswith(beginning):
        raise Fault("BadMagic", 0)
    at = max(0, size - END_LEN)
    if size < len(IDX) + END_LEN:
        raise Fault("Truncated", at)
    end = part(placed, at, END_LEN)
    if end[0] != END:
        raise Fault("Truncated", at)
    count, retired, length = struct.unpack(">3Q", end[1:25])
    needed = Claim(0, ENTRY_LEN * count, end[25:]).stored
    if len(IDX) + needed + END_LEN > size or retired > count:
        raise Fault("BadCount", at)
    return Ends(count, retired, length, Claim(at - needed, ENTRY_LEN * count, end[25:]))


def read_index(placed: Placed) -> List[bytes]:
    """The entries of an index, which is read from its end: its magic, the end record and the stored entries."""
    ends = read_ends(placed)
    start = ends.claim.offset
    found = part(placed, start, ends.claim.stored)
    text = found[ends.first - start :]
    if stored(text) != found or root_of(text) != ends.claim.root:
        raise Fault("BadDigest", start)
    entries = [text[it : it + ENTRY_LEN] for it in range(0, len(text), ENTRY_LEN)]
    for number, entry in enumerate(entries):
        fault = entry_fault(entry, entries[number - 1] if number else b"", start)
        if fault:
            raise Fault(fault, ends.number_at(number))
    if not are_laid(entries, start) or numbers_of(entries) != (ends.retired, ends.size):
        raise Fault("BadPlace", start)
    return entries


def read_all(placed: Placed) -> Tuple[List[bytes], int]:
    """All entries of an index, and how long the archive is."""
    entries = read_index(placed)
    return entries, numbers_of(entries)[1]


def read_index_under(placed: Placed, uuids: Iterable[bytes]) -> Tuple[List[bytes], int]:
    """The entries of an index under these UUIDs, with no bytes in the place of each other entry, and how long the
    archive is. Only the pages on the way are read."""
    ends = read_ends(placed)
    try:
        read = entries_under(Pages(placed.take, ends.claim), ends, sorted(set(uuids)))
    except Changed:
        raise Fault("BadDigest", ends.claim.offset) from None
    except Failed:
        raise Fault("Device", ends.claim.offset) from None
    last = b""
    for number, entry in read.items():
        fault = entry_fault(entry, last, ends.claim.offset)
        if fault or entry[:PLACED_LEN] <= last[:PLACED_LEN]:
            raise Fault(fault or "NotAscending", ends.number_at(number))
        last = entry
    return [read.get(number, b"") for number in range(ends.entries)], ends.size


def entries_under(pages: Pages, ends: Ends, uuids: Sequence[bytes]) -> Dict[int, bytes]:
    """The entries under these UUIDs by their numbers: those of retirements, and then those of admissions."""
    edge = [number for number in (ends.retired - 1, ends.retired) if 0 <= number < ends.entries]
    tags = [(number, entry_in(pages, number)[0]) for number in edge]
    if any(tag != (RETIREMENT if number < ends.retired else ADMISSION) for number, tag in tags):
        raise Fault("BadPlace", ends.number_at(ends.retired))
    read: Dict[int, bytes] = {}
    for tag, at, stop in ((RETIREMENT, 0, ends.retired), (ADMISSION, ends.retired, ends.entries)):
        for uuid in uuids:
            run = run_in(pages, bytes([tag]) + uuid, at, stop)
            read.update((number, entry_in(pages, number)) for number in run)
            at = run.stop
    return read


def entry_in(pages: Pages, number: int) -> bytes:
    return pages.read(ENTRY_LEN * number, ENTRY_LEN)


def run_in(pages: Pages, begin: bytes, at: int, stop: int) -> range:
    """The numbers of the entries that begin so, of those up to a number. Their end is sought in 33 entries first."""

    def edge(low: int, high: int, is_below: Callable[[bytes], bool]) -> int:
        while low < high:
            middle = (low + high) // 2
            if is_below(pages.read(ENTRY_LEN * middle, len(begin))):
                low = middle + 1
            else:
                high = middle
        return low

    start = edge(at, stop, lambda its: its < begin)
    near = min(start + 33, stop)
    end = edge(start, near, lambda its: its <= begin)
    return range(start, end if end < near else edge(near, stop, lambda its: its <= begin))


def entry_fault(entry: bytes, last: bytes, end: int) -> Optional[str]:
    """What is wrong with an entry after another one, if something is; the tables end at this offset."""
    is_retirement = entry[0] == RETIREMENT
    if entry[0] not in (RETIREMENT, ADMISSION):
        return "BadTag"
    if entry[57] not in ((0,) if is_retirement else (0, 1)):
        return "BadKind"
    length = length_in(entry)
    if not (length == 57 if is_retirement else 33 <= length <= 33 + U32_MAX):
        return "BadLength"
    if entry <= last:
        return "NotAscending"
    claim = claim_in(entry)
    return None if (claim == NO_CLAIM if is_retirement else claim.end <= end) else "BadTable"


def are_laid(entries: Sequence[bytes], end: int) -> bool:
    """Whether the records follow one another in the archive, and their tables in the index, up to this offset."""
    offset = at = len(IDX)
    for entry in sorted(entries, key=offset_in):
        claim = claim_in(entry)
        if offset_in(entry) != offset or (entry[0] == ADMISSION and claim.offset != at):
            return False
        offset += length_in(entry)
        at += claim.stored
    return at == end


# ---- the archive beside it


class Stale(Exception):
    """The index is of another archive: of another length, or for what stands at the place of this entry."""

    def __init__(self, number: Optional[int] = None) -> None:
        super().__init__(number)
        self.number = number
        self.text = "Stale" if number is None else f"Stale at entry {number}"


def test_length(size: int, placed: Placed) -> None:
    if size_of(placed) != size:
        raise Stale


def record_at(entry: bytes, placed: Placed) -> Optional[bytes]:
    """The record that an entry names, or None where no such stands at its place."""
    if entry[0] == RETIREMENT:
        return entry[:57]
    at, length = offset_in(entry), length_in(entry)
    if at + length > len(placed.data):
        return None
    record = part(placed, at, length)
    if record[0] != ADMISSION or int.from_bytes(record[25:33], "big") != length - 33:
        return None
    found = slice_of(record[33:])
    is_its = isinstance(found, Image) and found.key == record[1:25] and placed_entry(record, at) == entry[:PLACED_LEN]
    return record if is_its else None


def part_at(entries: Iterable[bytes], placed: Placed, front: bytes) -> Content:
    """The content of the records under a front, at the places that the entries name."""
    made = Content()
    for number, entry in enumerate(entries):
        if entry[1 : 1 + len(front)] == front:
            record = record_at(entry, placed)
            if record is None:
                raise Stale(number)
            made.take(record)
    return made


def parts_at(entries: Sequence[bytes], size: int, placed: Placed, fronts: Iterable[bytes]) -> Content:
    """The join of those of several fronts, if the archive has the length that the index tells."""
    test_length(size, placed)
    made = Content()
    for front in fronts:
        made.join(part_at(entries, placed, front))
    return made


# ---- asked together


class EntryAt(NamedTuple):
    """An entry of one of several indexes: the number of its index, its own number there, and its bytes."""

    input: int
    number: int
    entry: bytes


def living(key: bytes, indexes: Sequence[Sequence[bytes]]) -> List[EntryAt]:
    """The entries of the admissions for a key that no index retires."""
    every = [EntryAt(place, number, it) for place, those in enumerate(indexes) for number, it in enumerate(those)]
    under = [it for it in every if it.entry[1:25] == key]
    retired = {it.entry[1:57] for it in under if it.entry[0] == RETIREMENT}
    return [it for it in under if it.entry[0] == ADMISSION and it.entry[1:57] not in retired]


def slice_at(it: EntryAt, placed: Placed) -> bytes:
    """The slice of an entry, if it has the SHA-256 that the entry says. A fault of the device is told at the record."""
    at, size = offset_in(it.entry), length_in(it.entry) - 33
    try:
        is_within = at + 33 + size <= placed.size()
        found = placed.take(at + 33, size) if is_within else b""
    except Failed:
        raise Fault("Device", at) from None
    if not found or len(found) != size or sha(found) != it.entry[25:57]:
        raise Stale(it.number)
    return found


def answering(key: bytes, indexes: Sequence[Sequence[bytes]]) -> Optional[List[EntryAt]]:
    """The entries that answer for a key, each slice once, in the order of their records: the companions, if there are
    any, of the admissions that no index retires. None where no entry says which of two records comes first."""
    live = living(key, indexes)
    those = [it for it in live if it.entry[57] == 1] or live
    those.sort(key=lambda it: (length_in(it.entry), it.input, offset_in(it.entry)))
    by_length = [list(same) for _, same in itertools.groupby(those, key=lambda it: length_in(it.entry))]
    if any(len({it.input for it in same}) > 1 and len({it.entry[:57] for it in same}) > 1 for same in by_length):
        return None
    found: Dict[bytes, EntryAt] = {}
    for it in those:
        found.setdefault(it.entry[:57], it)
    return list(found.values())
