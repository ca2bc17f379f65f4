"""Indexes of archives: of each record its entry in the summary, whether it is a companion's, where it stands, and
where the table of its slice is stored in the index. An index is read from its end: its tables are not read for that,
and are copied from one index into another. docs/FILES.md has the bytes. One of another kind does not count: of a
release before 2.4, without tables, or with entries that are not stored in pages."""
import hashlib
import io
import os
import struct
from dataclasses import dataclass
from typing import BinaryIO, Dict, Iterable, Iterator, List, NamedTuple, Optional, Tuple

from .contents import ADMISSION, DIGEST, END, ENTRY, KEY, LENGTH, MAGIC, RETIREMENT, Content, Malformed, digest_in
from .contents import head_of, record_size, words_of

INDEX, EARLIER_INDEX = b"MSYMIDX2", b"MSYMIDX1"
ROW = struct.Struct(f">{len(ADMISSION) + ENTRY}sBQQQQ{DIGEST}s")
# How long the end record of an archive is, and that of an index, which also has the number of retirements, the length
# of the archive and the root of the entries; and how long it was when it had the SHA-256 of these instead.
TAIL = len(END) + LENGTH
INDEX_TAIL = TAIL + 2 * LENGTH + DIGEST
EARLIER_TAIL = TAIL + DIGEST
INDEX_TAILS = INDEX_TAIL, EARLIER_TAIL
# How many bytes an entry has in an index without tables.
PLACED = len(ADMISSION) + ENTRY + 1 + 2 * LENGTH
# How many bytes of an admission stand before its slice.
HEAD = len(ADMISSION) + KEY + LENGTH
# mach-o/loader.h: the file type of a companion, and where it stands.
MH_DSYM, FILETYPE = b"\x0a\0\0\0", 12
# How many bytes a page of a table has.
PAGE = 1 << 12
# The root of no bytes, which a slice without a table has; and what a retirement has in its place.
NO_TABLE, NO_ROOT = hashlib.sha256().digest(), bytes(DIGEST)
OTHER_KIND = "is an index of another kind"


class OtherKind(Malformed):
    """An index of a release before 2.4; or without tables or pages of entries: no release wrote one."""


class IndexRow(NamedTuple):
    """What an index has of a record: its entry in the summary, whether it is a companion's, its place and length; and
    of a slice where its table is stored in the index, how many bytes that has, and its root."""

    entry: bytes
    is_companion: int
    at: int
    length: int
    table: int = 0
    size: int = 0
    root: bytes = NO_ROOT

    def is_slice(self) -> bool:
        return self.entry[:1] == ADMISSION

    def key(self) -> bytes:
        return self.entry[1 : 1 + KEY]

    def head(self) -> bytes:
        return head_of(self.entry[1 : 1 + KEY], self.length - HEAD) if self.is_slice() else self.entry

    def words(self) -> str:
        return f"{'' if self.is_slice() else 'retired '}{words_of(self.entry[1:])}"

    def stored(self) -> int:
        """How many bytes its table takes in an index."""
        return stored_size(self.size)


def pages_in(size: int) -> int:
    return -(-size // PAGE)


def level_sizes(size: int) -> List[int]:
    """How many bytes a table of so many has, and each level of page digests above it."""
    sizes = [size]
    while sizes[-1] > PAGE:
        sizes.append(pages_in(sizes[-1]) * DIGEST)
    return sizes


def stored_size(size: int) -> int:
    """How many bytes a table of so many takes in an index."""
    return sum(level_sizes(size))


def vouching(data: bytes) -> Tuple[bytes, bytes]:
    """The digests that are stored before bytes, and their root."""
    digests = b""
    while len(data) > PAGE:
        data = b"".join(hashlib.sha256(data[at : at + PAGE]).digest() for at in range(0, len(data), PAGE))
        digests = data + digests
    return digests, hashlib.sha256(data).digest()


@dataclass(eq=False)
class Index:
    """The index of an archive, by its entries. Its tables are in the file of a path, if there are any."""

    entries: bytes
    path: bytes = b""
    # The digests that are stored before the entries, and their root, once they are known.
    known: Optional[Tuple[bytes, bytes]] = None

    def count(self) -> int:
        return len(self.entries) // ROW.size

    def row(self, number: int) -> IndexRow:
        return IndexRow._make(ROW.unpack_from(self.entries, number * ROW.size))

    def rows(self) -> Iterator[IndexRow]:
        return map(IndexRow._make, ROW.iter_unpack(self.entries))

    def in_places(self) -> List[IndexRow]:
        """The rows, as their records stand in the archive."""
        return sorted(self.rows(), key=lambda row: row.at)

    def content(self) -> Content:
        content = Content()
        for entry, _, _, length, *_ in ROW.iter_unpack(self.entries):
            if entry[:1] == ADMISSION:
                content.held[entry[1:]] = length - HEAD
            else:
                content.retired.add(entry[1:])
        return content

    def heads(self) -> List[bytes]:
        return [row.head() for row in self.in_places()]

    def size(self) -> int:
        """How long its archive is."""
        lengths: Iterable[int] = (length for _, _, _, length, *_ in ROW.iter_unpack(self.entries))
        return MAGIC + sum(lengths) + TAIL

    def without_table(self) -> List[IndexRow]:
        """The rows of slices that have no table."""
        return [row for row in self.rows() if row.is_slice() and not row.size]

    def vouching(self) -> Tuple[bytes, bytes]:
        """The digests that are stored before its entries, and their root."""
        self.known = self.known or vouching(self.entries)
        return self.known

    def stored(self) -> bytes:
        """Its entries as they are stored."""
        return self.vouching()[0] + self.entries

    def root(self) -> bytes:
        return self.vouching()[1]

    def end(self) -> bytes:
        """Its end record."""
        retired = sum(entry[:1] == RETIREMENT for entry, *_ in ROW.iter_unpack(self.entries))
        numbers = self.count(), retired, self.size()
        return END + b"".join(number.to_bytes(LENGTH, "big") for number in numbers) + self.root()

    def is_in(self, file: BinaryIO) -> bool:
        """Whether a file that is no index, or another one, still has its end record, or its entries except for their
        tables."""
        size, end = file.seek(0, os.SEEK_END), self.end()
        if last_of(file, size, len(end)) == end:
            return True
        return any(self.has_records(last_of(file, max(size - it, 0), len(self.entries))) for it in INDEX_TAILS)

    def has_records(self, entries: bytes) -> bool:
        """Whether these are its entries except for their tables."""
        return len(entries) == len(self.entries) and all(
            one[:4] == other[:4] for one, other in zip(ROW.iter_unpack(entries), ROW.iter_unpack(self.entries))
        )


def last_of(file: BinaryIO, end: int, size: int) -> bytes:
    """So many bytes of a file that stand before a place, or what there is of them."""
    file.seek(max(end - size, 0))
    return file.read(min(size, end))


def index_of(rows: Iterable[IndexRow]) -> Index:
    """The index of rows, in no file."""
    return Index(b"".join(ROW.pack(*row) for row in sorted(rows)))


def index_in(file: BinaryIO, path: bytes = b"") -> Index:
    """The index that a file is, by its first bytes and from its end: its entries are those of which the end record has
    the root, and its tables fill what stands before them."""
    file.seek(0)
    begins, size = file.read(MAGIC), file.seek(0, os.SEEK_END)
    end = last_of(file, size, INDEX_TAIL)
    count = int.from_bytes(end[len(END) : TAIL], "big")
    at = size - INDEX_TAIL - stored_size(count * ROW.size)
    if begins == INDEX and end[: len(END)] == END and at >= MAGIC:
        stored = last_of(file, size - INDEX_TAIL, size - INDEX_TAIL - at)
        index = Index(stored[len(stored) - count * ROW.size :], path)
        tables = sum(stored_size(row.size) for row in index.rows())
        if index.stored() == stored and index.end() == end and MAGIC + tables == at:
            return index
    if begins == EARLIER_INDEX or begins == INDEX and (is_without_tables(file, size) or is_without_pages(file, size)):
        raise OtherKind(OTHER_KIND)
    raise Malformed("is no index")


def is_of_earlier_release(path: bytes) -> bool:
    """Whether a file begins as an index of a release before 2.4, by whose tables nothing is answered any more."""
    with open(path, "rb") as file:
        return file.read(MAGIC) == EARLIER_INDEX


def is_without_tables(file: BinaryIO, size: int) -> bool:
    """Whether an index ends as one without tables, which has no SHA-256 of its entries."""
    count = max(size - MAGIC - TAIL, 0) // PLACED
    return last_of(file, size, TAIL) == END + count.to_bytes(LENGTH, "big")


def is_without_pages(file: BinaryIO, size: int) -> bool:
    """Whether an index ends as one whose entries are not stored in pages: its end record has their SHA-256."""
    end = last_of(file, size, EARLIER_TAIL)
    count = int.from_bytes(end[len(END) : TAIL], "big")
    if end[: len(END)] != END or MAGIC + count * ROW.size + EARLIER_TAIL > size:
        return False
    return hashlib.sha256(last_of(file, size - EARLIER_TAIL, count * ROW.size)).digest() == end[TAIL:]


def index_at(path: bytes) -> Index:
    """The index that the file of a path is."""
    with open(path, "rb") as file:
        return index_in(file, path)


def is_companion(file: BinaryIO, at: int) -> int:
    """Whether a record that stands there is a companion's."""
    file.seek(at + HEAD + FILETYPE)
    return int(file.read(len(MH_DSYM)) == MH_DSYM)


def placed(file: BinaryIO, head: bytes, entries: List[bytes], places: List[int]) -> List[IndexRow]:
    """The rows of the slices of one head. Each stands where its bytes are, and one that changed at a place that is
    left."""
    size, left = record_size(head), {entry[-DIGEST:]: entry for entry in entries}
    found: Dict[int, Optional[bytes]] = dict.fromkeys(places)
    if len(places) > 1:
        found = {at: left.pop(digest_in(file, at + HEAD, size - HEAD), None) for at in places}
    others = iter(left.values())
    return [
        IndexRow(ADMISSION + (entry or next(others)), is_companion(file, at), at, size) for at, entry in found.items()
    ]


def index_by(content: Content, path: bytes) -> Index:
    """The index of the archive of a content, which a file has except for bytes that changed. It has no tables."""
    rows: List[IndexRow] = []
    entries: Dict[bytes, List[bytes]] = {}
    places: Dict[bytes, List[int]] = {}
    at = MAGIC
    for entry, length in sorted(content.held.items()):
        entries.setdefault(head_of(entry[:KEY], length), []).append(entry)
    for head in content.heads():
        if head[:1] == RETIREMENT:
            rows.append(IndexRow(head, 0, at, len(head)))
        else:
            places.setdefault(head, []).append(at)
        at += record_size(head)
    opened: BinaryIO = open(path, "rb") if os.path.exists(path) else io.BytesIO()
    with opened as file:
        for head, its_places in places.items():
            rows += placed(file, head, entries[head], its_places)
    return index_of(rows)


def changes(known: Content, came: Content) -> Tuple[Dict[bytes, bytes], Content]:
    """What changed in an archive of which something is known: the entries that came in place of known ones, with
    these; and what is lost."""
    lost, new = known.beyond(came), came.beyond(known)
    changed: Dict[bytes, bytes] = {}
    others: Dict[Tuple[bytes, int], List[bytes]] = {}
    for entry, length in new.held.items():
        others.setdefault((entry[:KEY], length), []).append(entry)
    for entry, length in sorted(lost.held.items()):
        if others.get((entry[:KEY], length)):
            changed[others[entry[:KEY], length].pop()] = entry
            del lost.held[entry]
    return changed, lost


def held_against(known: Content, index: Index) -> Tuple[Index, List[IndexRow], Content]:
    """The index of what an archive is taken to have of which something is known: slices that changed in their places
    keep their entries, and such an index is in no file. Also the rows of these, and what is lost."""
    changed, lost = changes(known, index.content())
    if not changed:
        return index, [], lost
    others = {ADMISSION + entry: ADMISSION + before for entry, before in changed.items()}
    rows = [row._replace(entry=others.get(row.entry, row.entry)) for row in index.rows()]
    return index_of(rows), sorted(row for row in rows if row.entry in others.values()), lost
