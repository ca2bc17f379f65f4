"""`repair`: mends what changed, out of another archive. It writes the archive itself, since commands remove a slice
only by a retirement, and hashes only the slices that it puts in."""
import argparse
import contextlib
import functools
import os
from dataclasses import dataclass
from typing import Dict, Iterable, List, NamedTuple, Optional, Sequence

from ..console.escapes import shown
from ..console.faults import Failed, SliceRefused, about, system_text
from ..console.screen import Screen, screen_of
from ..console.streams import write
from ..formats.contents import CHUNK, END, KEY, LENGTH, MAGICS, Malformed, Moved, digest_in, head_of, heads_in
from ..formats.contents import record_size, records_in
from ..formats.files import size_of
from ..formats.indexes import HEAD, TAIL, Index, IndexRow, index_at, index_by
from ..formats.tables import Tables, write_index
from ..store.archive import Archive, index_made, is_to_be_indexed
from ..store.archive_file import ArchiveFile
from ..store.changes import Examined, Findings, Found, forget_changed, told_apart
from ..store.file_names import INDEX, TODAY, level_ending, numbers_beside, refuse_other
from ..store.program import Program, Run
from ..store.slices import Slice, compared

DESCRIPTION = """\
Restores the changed bytes of ARCHIVE, as `check` finds them: copies the good bytes of each changed slice from FROM, an
archive of another site, with its levels and FROM.today, or one to which you added the dSYM. A changed table is made
anew from its slice, so for tables alone FROM may be ARCHIVE itself.

  symarch-keep repair builds.sym west.sym
  symarch-keep repair builds.sym builds.sym

Each file is then as it was, byte for byte. The lines are those of `check` with `repaired` in place of `changed`; a
record that could not be repaired is printed with `changed`, and the status is 2."""
USAGE = "symarch-keep repair [--quiet] [--wait SECONDS] ARCHIVE FROM"
ABOUT = "restore changed bytes from another archive"
# So many bytes the system copies at once.
MOST_COPIED = 1 << 24


def define(parser: argparse.ArgumentParser) -> None:
    parser.add_argument("archive", metavar="ARCHIVE")
    parser.add_argument("other", metavar="FROM")


class SliceSource(NamedTuple):
    """Where a slice stands in which archive, and its digest, if that is known."""

    path: bytes
    at: int
    digest: bytes = b""


def files_of(other: bytes) -> List[bytes]:
    """An archive, and what symarch-keep has next to it."""
    beside = [other + level_ending(number) for number in numbers_beside(other)]
    return [other, *filter(os.path.exists, [*beside, other + TODAY])]


def found_in(paths: Iterable[bytes], wanted: Dict[bytes, int], screen: Screen) -> Dict[bytes, SliceSource]:
    """Where archives have slices that are wanted, by their key, digest and length."""
    found: Dict[bytes, SliceSource] = {}
    for path in paths:
        left = {entry: length for entry, length in wanted.items() if entry not in found}
        if left:
            found.update(found_in_one(path, left, screen))
    return found


def found_in_one(path: bytes, wanted: Dict[bytes, int], screen: Screen) -> Dict[bytes, SliceSource]:
    heads = {head_of(entry[:KEY], length) for entry, length in wanted.items()}
    found: Dict[bytes, SliceSource] = {}
    with open(path, "rb") as file:
        screen.begin("looking for good slices", os.fstat(file.fileno()).st_size)
        try:
            for head, at in records_in(file):
                if head in heads:
                    length = record_size(head) - len(head)
                    entry = head[1 : 1 + KEY] + digest_in(file, at, length, screen.moved)
                    found.update({entry: SliceSource(path, at, entry[KEY:])} if wanted.get(entry) == length else {})
        except Malformed as fault:
            screen.line(f"{shown(path)}: {fault}; the bytes before that are checked")
    return found


def copy_all(read: int, written: int, moved: Moved) -> None:
    """Copies an open file to another one: within the system, if it can."""
    with contextlib.suppress(OSError, AttributeError):
        while count := os.copy_file_range(read, written, MOST_COPIED):
            moved(count)
    # What is left, which is all on some file systems.
    while chunk := os.read(read, CHUNK):
        write(written, chunk)
        moved(len(chunk))


def mend(written: int, findings: Findings, places: Dict[IndexRow, SliceSource]) -> None:
    """Writes over what changed: heads, ends, and the slices that have places."""
    put(written, 0, MAGICS[0])
    for row in findings.changed:
        put(written, row.at, row.head())
    for row, place in places.items():
        put_slice(written, row, place)
    put(written, findings.size - TAIL, END + len(findings.rows).to_bytes(LENGTH, "big"))
    os.ftruncate(written, findings.size)


def put_slice(written: int, row: IndexRow, place: SliceSource) -> None:
    one = slice_at(place, row)
    one.digest = place.digest or None
    os.lseek(written, row.at + HEAD, os.SEEK_SET)
    try:
        for chunk in one.chunks():
            write(written, chunk)
    except SliceRefused as refused:
        raise Failed(f"{shown(place.path)}: {refused}") from None


def in_order(
    findings: Findings, path: bytes, found: Dict[bytes, SliceSource], lacking: Sequence[IndexRow]
) -> Dict[IndexRow, SliceSource]:
    """Where to take slices of which another one with the same head stays changed: these ascend by their bytes."""
    of_heads: Dict[bytes, List[IndexRow]] = {row.head(): [] for row in lacking}
    for row in filter(IndexRow.is_slice, findings.rows):
        of_heads.get(row.head(), []).append(row)
    taken: Dict[IndexRow, SliceSource] = {}
    for rows in (rows for rows in of_heads.values() if len(rows) > 1):
        own = {row: SliceSource(path, row.at + HEAD) for row in rows}
        bad = set(findings.changed) - {row for row in rows if row.entry in findings.good}
        places = [found.get(row.entry[1:], own[row]) if row in bad else own[row] for row in rows]
        slices = {slice_at(place, rows[0]): place for place in places}
        taken.update(zip(rows, (slices[one] for one in sorted(slices, key=functools.cmp_to_key(compared)))))
    return taken


def slice_at(place: SliceSource, row: IndexRow) -> Slice:
    return Slice(place.path, None, place.at, row.length - HEAD, size_of(place.path), row.head(), place.path)


def put(written: int, at: int, data: bytes) -> None:
    os.lseek(written, at, os.SEEK_SET)
    write(written, data)


@dataclass(eq=False)
class Mending:
    """How a file of an archive is mended, and the tables of its index, in a room."""

    archive: Archive
    file: ArchiveFile
    findings: Findings
    room: bytes
    program: Program

    def mend(
        self, places: Dict[IndexRow, SliceSource], lacking: Sequence[IndexRow], lines: Sequence[str], screen: Screen
    ) -> None:
        """Puts a copy of the file in its place, in which slices are those of some places, and all else is as its index
        has it. Nothing else is read for that but what lacks a table."""
        screen.begin("writing", self.file.size())
        new = os.path.join(self.room, b"new")
        with about(new), open(self.file.path, "rb") as old, open(new, "wb", buffering=0) as written:
            copy_all(old.fileno(), written.fileno(), screen.moved)
            mend(written.fileno(), self.findings, places)
            os.fsync(written.fileno())
        with open(new, "rb") as made:
            if heads_in(made) != self.file.content.heads():
                raise Failed(f"the bytes to write are not those of {shown(self.file.path)} as it was")
        self.archive.folder.replace(self.room, self.file, self.new_index(new, lacking, screen), lines, screen)

    def mend_tables(self, lacking: Sequence[IndexRow], lines: Sequence[str], screen: Screen) -> None:
        """Puts an index in its place whose tables are good, except for those of slices that changed."""
        index = self.new_index(self.file.path, lacking, screen)
        self.archive.folder.replace_index(self.room, self.file, index, lines, screen)

    def new_index(self, path: bytes, lacking: Sequence[IndexRow], screen: Screen) -> Index:
        """The index of a file that was mended, except for slices that are lacking."""
        index = index_by(self.file.content, path)
        if not self.findings.index.path:
            # An earlier symarch-keep made no tables.
            made = index_made(path, self.room, b"made.idx", self.program, screen)
            return write_index(os.path.join(self.room, b"new.idx"), index, Tables([made]), screen.moved)
        bad, entries = set(lacking), {row.entry for row in self.findings.tables}
        entries |= {row.entry for row in self.findings.index.without_table()} - {row.entry for row in bad}
        rows = [row for row in index.in_places() if row.entry in entries]
        tables = Tables([self.made(path, rows, screen), self.findings.index])
        return write_index(os.path.join(self.room, b"new.idx"), index, tables, screen.moved)

    def made(self, path: bytes, rows: Sequence[IndexRow], screen: Screen) -> Optional[Index]:
        """The index of an archive of some slices, by the program. Their tables are those of before."""
        if not rows:
            return None
        slices = [slice_at(SliceSource(path, row.at + HEAD), row) for row in rows]
        screen.begin("making {} tables", sum(one.length for one in slices))
        try:
            self.program.run(Run(["index", "/dev/stdin", "tables.idx"], slices, self.room, moved=screen.progress))
        except SliceRefused as refused:
            raise Failed(f"{shown(self.file.path)}: {refused}") from None
        index = index_at(os.path.join(self.room, b"tables.idx"))
        had = {row.entry: row.root for row in self.findings.rows if row.size}
        for row in index.rows():
            if had.get(row.entry, row.root) != row.root:
                raise Failed(f"{row.words()}: the table that {self.program.path} makes is another one")
        return index


@dataclass(eq=False)
class Repair:
    """How the files of an archive are mended, out of the archive of another path."""

    archive: Archive
    other: bytes
    program: Program
    screen: Screen

    def tried(self, file: ArchiveFile, is_first: bool) -> List[str]:
        """The lines of a file that is mended. What keeps it from being mended ends the command only if none was
        before."""
        failed: Optional[Failed] = None
        try:
            return self.repaired(file, file.index) if file.index else []
        except OSError as error:
            failed = Failed(system_text(error, file.path))
        except Failed as fault:
            failed = fault
        if is_first:
            raise failed
        self.screen.fail(failed.text, failed.more)
        return []

    def repaired(self, file: ArchiveFile, index: Index) -> List[str]:
        """Mends what can be of a file and of its tables, and returns the lines. What `check` found need not be looked
        for."""
        findings = self.looked_through(file, index)
        if not findings.lines():
            return []
        bad = [row for row in findings.changed if row.is_slice() and row.entry not in findings.good]
        others = files_of(self.other)
        found = found_in(others, {row.entry[1:]: row.length - HEAD for row in bad}, self.screen)
        lacking = [row for row in bad if row.entry[1:] not in found]
        if lacking and file.size() < findings.size:
            raise Failed(f"{shown(file.path)} ends early, and {shown(others[0])} does not have all that it lacks")
        lines = findings.lines_of("repaired", set(findings.changed).difference(lacking), findings.has_ends)
        is_of_file = bool(lines)
        left = [row for row in findings.tables if row in lacking]
        findings.tables = [row for row in findings.tables if row not in left]
        lines += findings.lines_of_tables("repaired", findings.tables)
        with self.archive.folder.room() as room:
            mending = Mending(self.archive, file, findings, room, self.program)
            if is_of_file:
                places = {row: found[row.entry[1:]] for row in bad if row not in lacking}
                places.update(in_order(findings, file.path, found, lacking))
                mending.mend(places, lacking, lines, self.screen)
            elif lines:
                mending.mend_tables(lacking, lines, self.screen)
        return lines + findings.lines_of("changed", lacking) + findings.lines_of_tables("changed", left)

    def looked_through(self, file: ArchiveFile, index: Index) -> Findings:
        """What changed in a file and in its index, by what `check` found, or by all of both."""
        with contextlib.ExitStack() as ends:
            examined = Examined.of(file, index, ends)
            self.screen.begin("reading", examined.size())
            findings = examined.findings(self.screen.moved, Found.at(self.archive.path))
        return findings


def carry_out(arguments: argparse.Namespace) -> int:
    screen = screen_of(arguments)
    program = Program()
    archive, other = Archive(os.fsencode(arguments.archive), may_be_damaged=True), os.fsencode(arguments.other)
    refuse_other(other, os.path.realpath(other), is_made=False)
    archive.take_lock(screen, arguments.wait)
    same, others = told_apart(archive.files, program, screen)
    if archive.files.main in others and not archive.files.main.is_known:
        index = archive.files.main.beside(INDEX)
        fault = archive.files.main.fault_of_index() or f"there is no {shown(index)}"
        raise Failed(f"{fault}, so the changed bytes are not known")
    archive.see_anew(others, program, screen)
    repair = Repair(archive, other, program, screen)
    lines: List[str] = []
    for file in filter(ArchiveFile.exists, [*same, *others]):
        lines += repair.tried(file, is_first=not lines)
    archive.see_anew([file for file in archive.files if is_to_be_indexed(file)], program, screen)
    forget_changed(archive.path)
    screen.show(lines)
    still = sum(line.startswith("changed ") for line in lines)
    told = f"{len(lines) - still} repaired, {still} still changed" if lines else "nothing changed"
    screen.line(f"{shown(archive.path)}: {told}")
    return screen.status(2 if still else 0)
