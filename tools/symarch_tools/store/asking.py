"""How an archive is asked: ARCHIVE, its levels and ARCHIVE.today are opened, and are asked as their join, by their
indexes if each has one. Who asks takes no lock, so it never waits for a command that writes."""
import contextlib
import os
import uuid
from typing import BinaryIO, Dict, Iterator, List, NamedTuple, Optional, Sequence, Set, Tuple

from ..console.escapes import shown
from ..console.faults import CutShort, Failed, system_text
from ..console.program_faults import fault_on_standard_error
from ..console.screen import Screen
from ..formats.contents import DIGEST, EMPTY, Moved, digest_in, entry_in, join_of, unmoved
from ..formats.files import DESCRIPTORS
from ..formats.indexes import HEAD, Index, IndexRow
from .archive import Archive
from .archive_file import ArchiveFile
from .changes import index_read
from .file_names import INDEX, NEXT_INDEX
from .lock import looks
from .program import Program, Run


class NoLines(Exception):
    """The table of a slice, whose words are its text, has no lines."""


class AskedCommand(NamedTuple):
    """What the program is asked: a command, its arguments and options, whether it may be asked by the indexes, the
    folder in which it runs, if it has one, and what is called as it moves on."""

    name: str
    arguments: Sequence[str]
    options: Sequence[str] = ()
    is_by_index: bool = True
    folder: Optional[bytes] = None
    moved: Moved = unmoved


class AskedFile(NamedTuple):
    """An archive file that is open, the index that it is of, if it has one, and the file of that, if it has tables."""

    file: ArchiveFile
    opened: BinaryIO
    its_index: Optional[Index]
    index_file: Optional[BinaryIO]


class Asked:
    """The files of an archive that are asked. All stay as they were when they were opened."""

    def __init__(self, path: bytes, ends: contextlib.ExitStack) -> None:
        self.archive, self.ends, self.program = Archive(path, writes=False), ends, Program()
        # What the program noted of its last answer.
        self.notes: List[str] = []
        # A fold removes a file once one that stands before it has all of it, so who opens the last one first misses
        # nothing.
        files = [self.opened(self.archive.files.today)] if self.archive.files.today.size() > len(EMPTY) else []
        self.archive.files.find_levels()
        for level in reversed(self.archive.files.levels):
            with contextlib.suppress(FileNotFoundError):
                files.append(self.opened(level))
        self.files = [*files, self.opened(self.archive.files.main)]
        if any(one.its_index and one.its_index.path.endswith(NEXT_INDEX) for one in self.files):
            # The names of what came in take their place after the file that has it, and before its index.
            self.archive.folder.builds.take_next()

    def opened(self, file: ArchiveFile) -> AskedFile:
        """A file with its index, which a command may be replacing. FileNotFoundError if the file is gone."""
        for _ in looks(file.state):
            try:
                found = self.as_it_stands(file)
            except FileNotFoundError:
                if not file.exists():
                    raise
                # Something next to it took another name.
                continue
            if found:
                return found
        raise self.unvouched(file)

    def as_it_stands(self, file: ArchiveFile) -> Optional[AskedFile]:
        """A file with its index, if that is of it, or it has none that this release reads."""
        with contextlib.ExitStack() as closing:
            opened = closing.enter_context(open(file.path, "rb"))
            index, is_same = file.known()
            index_file = self.index_file(index, closing)
            is_whole = not index or not index.path or index_file is not None
            has_none = not index and (file.has_earlier_index() or not file.fault_of_index())
            if is_whole and self.is_still(file, opened) and (is_same or has_none):
                self.ends.push(closing.pop_all())
                return AskedFile(file, opened, index, index_file)
        return None

    @staticmethod
    def index_file(index: Optional[Index], closing: contextlib.ExitStack) -> Optional[BinaryIO]:
        """The file of an index, if it has tables and stands there still."""
        with contextlib.suppress(FileNotFoundError):
            if index and index.path:
                file = closing.enter_context(open(index.path, "rb"))
                return file if index.is_in(file) else None
        return None

    @staticmethod
    def is_still(file: ArchiveFile, opened: BinaryIO) -> bool:
        return os.path.samestat(os.stat(file.path), os.fstat(opened.fileno()))

    def unvouched(self, file: ArchiveFile) -> Failed:
        """Why nothing is said by a file."""
        if file.is_cut():
            return CutShort.at(shown(file.path))
        index = file.known()[0]
        fault = file.fault_of_index() if index is None else None
        if index is not None and index.size() != file.size():
            fault = f"{shown(file.path)} has {file.size()} bytes, and had {index.size()} when its index was written"
        fault = fault or f"{shown(file.path)} was written since its index was"
        return Failed(f"{fault}: run symarch-keep check {shown(self.archive.path)}", 2)

    # ---- what the program is asked

    def answer(self, command: AskedCommand) -> Tuple[List[str], int]:
        """The lines that the program prints, and its status."""
        archives: List[str] = []
        indexes: List[str] = []
        names: Dict[str, str] = {}
        is_by_tables = command.is_by_index and all(one.index_file for one in self.files)
        if command.is_by_index and not is_by_tables:
            self.test_slices(uuid.UUID(command.arguments[0]).bytes)
        for one in self.files:
            archives.append(f"{DESCRIPTORS}/{one.opened.fileno()}")
            names[archives[-1]] = shown(one.file.path)
            if one.index_file and is_by_tables:
                indexes.append(f"{DESCRIPTORS}/{one.index_file.fileno()}")
                names[indexes[-1]] = shown(one.file.beside(INDEX))
        more = [it for path in archives[1:] for it in ("--with", path)]
        more += [it for path in indexes for it in ("--index", path)]
        arguments = [command.name, *more, *command.options, "--", archives[0], *command.arguments]
        descriptors = [int(path.rpartition("/")[2]) for path in names]
        return self.run(Run(arguments, (), command.folder, descriptors, command.moved, names))

    def test_slices(self, number: bytes) -> None:
        """Fails if a slice under a UUID changed since it came in, by the indexes that there are: the archives are read
        without them."""
        for one in self.files:
            for row in one.its_index.rows() if one.its_index else ():
                if row.is_slice() and row.entry[1:].startswith(number):
                    if digest_in(one.opened, row.at + HEAD, row.length - HEAD) != row.entry[-DIGEST:]:
                        raise self.changed(row.words())

    def run(self, run: Run) -> Tuple[List[str], int]:
        try:
            printed, status, noted = self.program.answer(run)
        except Failed as failed:
            found = fault_on_standard_error(failed.text)
            index = self.files[found.number].its_index if found and found.entry is not None else None
            if found and found.entry is not None and index:
                slice_words = index.row(found.entry).words()
                raise (NoLines(slice_words) if found.reason == "NoLines" else self.changed(slice_words)) from None
            raise
        self.notes = noted.decode(errors="replace").splitlines()
        return printed.decode().splitlines(), status

    def changed(self, words: str) -> Failed:
        return Failed(f"{words} changed since it was added: run symarch-keep check {shown(self.archive.path)}", 2)

    # ---- what the indexes say of an answer

    def vouched(self, lines: Sequence[str], screen: Screen) -> List[str]:
        """Of lines that begin with UUID, ARCH and DIGEST those of slices that are as they came in. The others are
        said."""
        if not all(one.its_index for one in self.files):
            return list(lines)
        content = join_of([one.its_index.content() for one in self.files if one.its_index])
        is_held = {line: entry_in(*line.split(" ")[:3]) in content.held for line in lines}
        for key in dict.fromkeys(" ".join(line.split(" ")[:2]) for line in lines if not is_held[line]):
            screen.fail(self.changed(key).text)
        return [line for line in lines if is_held[line]]


@contextlib.contextmanager
def opened_archive(path: bytes) -> Iterator[Asked]:
    """An archive that is asked. What fails meanwhile ends the command with 2, since none writes."""
    with contextlib.ExitStack() as ends:
        try:
            yield Asked(path, ends)
        except OSError as error:
            raise Failed(system_text(error), 2) from None
        except Failed as failed:
            failed.status = 2 if failed.status == 4 else failed.status
            raise


class HeldSlice(NamedTuple):
    """A slice that is not retired, by its row, and the open file in which it stands."""

    row: IndexRow
    opened: BinaryIO


def slices_held(asked: Asked, screen: Screen) -> List[HeldSlice]:
    """The slices that the archives have together, each once."""
    found: Dict[bytes, HeldSlice] = {}
    retired: Set[bytes] = set()
    for one in asked.files:
        index = one.its_index or index_read(one.file, asked.program, screen)
        for row in index.rows():
            if row.is_slice():
                found[row.entry[1:]] = HeldSlice(row, one.opened)
            else:
                retired.add(row.entry[1:])
    return [one for entry, one in found.items() if entry not in retired]


def held_by(asked: Asked, screen: Screen) -> Dict[bytes, IndexRow]:
    """The rows of the slices that the archives have together."""
    return {one.row.entry[1:]: one.row for one in slices_held(asked, screen)}
