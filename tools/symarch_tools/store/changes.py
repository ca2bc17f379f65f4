"""What changed in the files of an archive, found by reading them; and ARCHIVE.changed, which keeps what `check` found,
so that `repair` need not read and hash all again. It has a line for each file that was held against its index, and one
for each record and each table there that changed:

  file NAME INODE BYTES TIME INDEX     the file as it was when it was read, and the SHA-256 of the index's entries
  changed NAME AT                      where the record stands
  table NAME AT                        where the record stands whose table changed

It counts for a file that is still that one."""
import contextlib
import os
from dataclasses import dataclass, field
from typing import BinaryIO, Dict, Iterable, List, NamedTuple, Optional, Sequence, Set, Tuple

from ..console.faults import CutShort, Failed
from ..console.screen import Screen
from ..formats.contents import ADMISSION, DIGEST, END, KEY, LENGTH, MAGIC, MAGICS, Content, KeptFile, Malformed, Moved
from ..formats.contents import digest_in, kept_text, record_size, records_in
from ..formats.files import remove
from ..formats.indexes import HEAD, TAIL, Index, IndexRow, index_by, index_of, is_companion
from ..formats.tables import changed_in
from .archive_file import ArchiveFile, is_same_but_for_retirements
from .file_names import INDEX
from .levels import ArchiveFiles
from .losses import changed_line, file_line, table_line
from .program import Program

CHANGED = b".changed"


@dataclass(eq=False)
class Findings:
    """What a file has of an index, record by record, and what the index has of tables."""

    path: bytes
    index: Index
    # The rows of records that changed; the entries of slices whose bytes are good; the first and last bytes.
    changed: List[IndexRow] = field(default_factory=list)
    good: Set[bytes] = field(default_factory=set)
    has_ends: bool = False
    # The rows of slices whose tables changed, or are lacking.
    tables: List[IndexRow] = field(default_factory=list)

    def __post_init__(self) -> None:
        self.rows, self.size = self.index.in_places(), self.index.size()

    def look_through(self, opened: BinaryIO, moved: Moved, rows: Optional[List[IndexRow]] = None) -> None:
        """Reads these rows, or all, and the ends."""
        for row in self.rows if rows is None else rows:
            opened.seek(row.at)
            is_good = opened.read(len(row.head())) == row.head()
            if row.is_slice() and not self.has_good_slice(opened, row, moved) or not is_good:
                self.changed.append(row)
        opened.seek(0)
        begins = opened.read(MAGIC) == MAGICS[0]
        opened.seek(self.size - TAIL)
        self.has_ends = begins and opened.read(TAIL + 1) == END + len(self.rows).to_bytes(LENGTH, "big")

    def look_at_tables(self, opened: BinaryIO, moved: Moved, rows: Optional[List[IndexRow]] = None) -> None:
        """Reads the tables of these rows, or all, in the index. A slice that changed need not have one."""
        bad = {row for row in self.changed if row.entry not in self.good}
        changed = changed_in(opened, self.rows if rows is None else rows, moved)
        self.tables = [row for row in changed if row.size or row not in bad]

    def has_good_slice(self, opened: BinaryIO, row: IndexRow, moved: Moved) -> bool:
        is_good = digest_in(opened, row.at + HEAD, row.length - HEAD, moved) == row.entry[-DIGEST:]
        if is_good:
            self.good.add(row.entry)
        return is_good

    def lines(self) -> List[str]:
        return self.lines_of("changed", self.changed, self.has_ends) + self.lines_of_tables("changed", self.tables)

    def lines_of(self, word: str, rows: Iterable[IndexRow], has_ends: bool = True) -> List[str]:
        """The lines of rows: slices first, then retirements, then the ends."""
        rows = sorted(rows, key=lambda row: (not row.is_slice(), row))
        lines = [changed_line(row, self.path, word) for row in rows]
        return lines + ([] if has_ends else [file_line(word, self.path, is_of_ends=True)])

    def lines_of_tables(self, word: str, rows: Iterable[IndexRow]) -> List[str]:
        return [table_line(row, self.path + INDEX, word) for row in sorted(rows)]


def is_damaged(file: ArchiveFile, index: Index, program: Program) -> bool:
    """Whether an archive with other heads than its index has is damaged. Else somebody put it there."""
    try:
        file.look_through(program)
    except CutShort:
        return True
    except Failed as failed:
        if not failed.text.startswith("symarch: archive 0: ") or "cannot open" in failed.text:
            raise
        return True
    return is_same_but_for_retirements(index.heads(), file.heads() or [])


def told_apart(
    files: ArchiveFiles, program: Program, screen: Screen
) -> Tuple[List[ArchiveFile], List[ArchiveFile]]:
    """The files in which each byte can be held against what is known, and others."""
    same, others = [], []
    for file in files:
        file.recall(screen)
        file.say_other_index(screen)
        if not file.index and file.is_known and file.exists() and not file.is_of_version_1():
            # By the sums that an earlier symarch-keep kept.
            file.index = index_by(file.content, file.path)
        index = file.index
        if index and file.exists() and (file.heads() == index.heads() or is_damaged(file, index, program)):
            same.append(file)
        elif file.exists() or len(file.content) or file.doubt:
            others.append(file)
    return same, others


def index_read(file: ArchiveFile, program: Program, screen: Screen) -> Index:
    """The index of a file by its bytes, which are read. Nothing is written for it."""
    rows: List[IndexRow] = []
    with contextlib.suppress(FileNotFoundError), file.opened(program) as opened:
        screen.begin("reading", os.fstat(opened.fileno()).st_size)
        for head, after in records_in(opened):
            at, size = after - len(head), record_size(head)
            if head[:1] == ADMISSION:
                entry = head[: 1 + KEY] + digest_in(opened, after, size - len(head), screen.moved)
                rows.append(IndexRow(entry, is_companion(opened, at), at, size))
            else:
                rows.append(IndexRow(head, 0, at, size))
    # Version 1 has slices next to their retirements.
    retired = {row.entry[1:] for row in rows if not row.is_slice()}
    return index_of(row for row in rows if not row.is_slice() or row.entry[1:] not in retired)


# ---- what `check` keeps for `repair`


def line_of_file(file: ArchiveFile, index: Index, opened: BinaryIO) -> str:
    it = os.fstat(opened.fileno())
    root = index.root().hex()
    return f"file {os.fsdecode(file.name)} {it.st_ino} {it.st_size} {it.st_mtime_ns} {root}"


def line_of_row(word: str, file: ArchiveFile, row: IndexRow) -> str:
    return f"{word} {os.fsdecode(file.name)} {row.at}"


def keep_changed(path: bytes, lines: Sequence[str]) -> None:
    """Keeps what was found, if something changed, where this may be kept."""
    with contextlib.suppress(OSError):
        if any(line.startswith(("changed ", "table ")) for line in lines):
            with open(path + CHANGED, "wb") as file:
                file.write(kept_text(Content(), lines))
        else:
            forget_changed(path)


def forget_changed(path: bytes) -> None:
    remove(path + CHANGED)


@dataclass(eq=False)
class Found:
    """What was found in the files of an archive: the lines of these, and the places by their kind and file."""

    files: Set[str] = field(default_factory=set)
    places: Dict[Tuple[str, str], Set[int]] = field(default_factory=dict)

    @classmethod
    def at(cls, path: bytes) -> "Found":
        """What was found in the archive of a path."""
        found = cls()
        with contextlib.suppress(OSError, Malformed), open(path + CHANGED, "rb") as file:
            for line in KeptFile(file.read()).notes:
                kind, name, *more = line.split(" ")
                if kind == "file":
                    found.files.add(line)
                else:
                    found.places.setdefault((kind, name), set()).add(int(more[0]))
        return found

    def rows(
        self, file: ArchiveFile, index: Index, opened: BinaryIO, word: str = "changed"
    ) -> Optional[List[IndexRow]]:
        """The rows of the records of a file that changed, or whose tables did, if it is one that was read."""
        if line_of_file(file, index, opened) not in self.files:
            return None
        places = self.places.get((word, os.fsdecode(file.name)), set())
        return [row for row in index.in_places() if row.at in places]


class Examined(NamedTuple):
    """A file that is looked through, its index, and both as they were when they were opened."""

    file: ArchiveFile
    made: Index
    opened: BinaryIO
    tables: Optional[BinaryIO]

    @classmethod
    def of(cls, file: ArchiveFile, index: Index, ends: contextlib.ExitStack) -> "Examined":
        opened = ends.enter_context(open(file.path, "rb"))
        return cls(file, index, opened, ends.enter_context(open(index.path, "rb")) if index.path else None)

    def size(self) -> int:
        return sum(os.fstat(it.fileno()).st_size for it in (self.opened, self.tables) if it)

    def findings(self, moved: Moved, known: Found = Found()) -> Findings:
        """What changed in the file and its index, by what was found before, or by all of both."""
        found, its = Findings(self.file.path, self.made), (self.file, self.made, self.opened)
        found.look_through(self.opened, moved, known.rows(*its))
        if self.tables:
            found.look_at_tables(self.tables, moved, known.rows(*its, "table"))
        return found
