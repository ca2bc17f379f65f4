"""The tables of slices, as indexes store them: each is the SHA-256 of its pages, and then its bytes. A new index
gets those that other indexes have, which are copied piece by piece; of no slice is a table made here. A slice that
changed before its table was made has none: its index keeps the digest that reveals the change, and a new table would
have names that nobody shipped."""
import contextlib
import hashlib
import os
from dataclasses import dataclass, field
from typing import BinaryIO, Dict, Iterable, Iterator, List, Optional, Tuple

from ..console.escapes import shown
from ..console.faults import Failed, about
from ..console.streams import write
from .contents import CHUNK, DIGEST, MAGIC, Moved, unmoved
from .files import copied
from .indexes import INDEX, NO_ROOT, NO_TABLE, PAGE, Index, IndexRow, index_of, level_sizes, pages_in


class Tables:
    """The tables that some indexes have, by the entries of their slices. Of several of one slice the first counts."""

    def __init__(self, indexes: Iterable[Optional[Index]]) -> None:
        self.indexes = [index for index in indexes if index and index.path]
        self.found: Dict[bytes, Tuple[Index, int]] = {}
        for index in self.indexes:
            for number, row in enumerate(index.rows()):
                if row.size:
                    self.found.setdefault(row.entry, (index, number))

    def of(self, entry: bytes) -> Optional[Tuple[Index, IndexRow]]:
        """Which index has the table of a slice, and its row there."""
        if entry not in self.found:
            return None
        index, number = self.found[entry]
        return index, index.row(number)


@dataclass(eq=False)
class Copying:
    """Copies pieces of files to the end of a new one. Pieces that follow one another are copied as one."""

    written: int
    ends: contextlib.ExitStack
    moved: Moved
    opened: Dict[bytes, int] = field(default_factory=dict)
    # What is still to be copied: of which file, from where, to where.
    path: bytes = b""
    begin: int = 0
    end: int = 0

    def take(self, path: bytes, at: int, size: int) -> None:
        if (path, at) != (self.path, self.end):
            self.copy()
            self.path, self.begin = path, at
        self.end = at + size

    def copy(self) -> None:
        """Copies what was taken."""
        while self.begin < self.end:
            descriptor = self.descriptor()
            with about(self.path):
                count = copied(self.written, descriptor, self.begin, min(CHUNK, self.end - self.begin))
            if not count:
                raise Failed(f"{shown(self.path)} ends early: its tables cannot be copied")
            self.begin += count
            self.moved(count)

    def descriptor(self) -> int:
        if self.path not in self.opened:
            self.opened[self.path] = opened = os.open(self.path, os.O_RDONLY)
            self.ends.callback(os.close, opened)
        return self.opened[self.path]


def write_index(path: bytes, index: Index, tables: Tables, moved: Moved = unmoved) -> Index:
    """Writes the index that has these records as a new file, which is synced, with the tables of their slices. A slice
    of which there is none gets none: it has a table of no bytes."""
    rows: List[IndexRow] = []
    with about(path), open(path, "wb", buffering=0) as file, contextlib.ExitStack() as ends:
        copying, at = Copying(file.fileno(), ends, moved), MAGIC
        write(file.fileno(), INDEX)
        for row in index.in_places():
            found = tables.of(row.entry) if row.is_slice() else None
            row = row._replace(table=0, size=0, root=NO_ROOT)
            if row.is_slice():
                row = row._replace(table=at, root=NO_TABLE)
            if found:
                source, its = found
                row = row._replace(size=its.size, root=its.root)
                copying.take(source.path, its.table, its.stored())
            at += row.stored()
            rows.append(row)
        copying.copy()
        made = index_of(rows)
        write(file.fileno(), made.stored())
        write(file.fileno(), made.end())
        os.fsync(file.fileno())
    made.path = path
    return made


def is_good(file: BinaryIO, row: IndexRow, moved: Moved = unmoved) -> bool:
    """Whether the table of a slice that an index has is what its entry says: the first page of what is stored by the
    root, and each other by the page above it."""
    file.seek(row.table)
    digests = row.root
    for level, size in reversed(list(enumerate(level_sizes(row.size)))):
        pages = bytearray()
        for number in range(pages_in(size)):
            page = file.read(min(PAGE, size - number * PAGE))
            moved(len(page))
            if hashlib.sha256(page).digest() != digests[number * DIGEST : (number + 1) * DIGEST]:
                return False
            if level:
                pages += page
        digests = bytes(pages)
    return True


def changed_in(file: BinaryIO, rows: Iterable[IndexRow], moved: Moved = unmoved) -> Iterator[IndexRow]:
    """The rows of slices of which the tables changed, or are lacking."""
    return (row for row in rows if row.is_slice() and not (row.size and is_good(file, row, moved)))
