"""An archive file, and what is known of it: FILE.idx next to it is the index that the last command left, and
FILE.idx.next that of a new file which takes its place, by the steps of `Archive.replace`. Each has the time of the
file of which it was made, so that another file differs from that one. An archive belongs to an index that has its
length, and its time or else the heads of all its records; an index that a kill left needs all three."""
from __future__ import annotations

import contextlib
import operator
import os
from dataclasses import dataclass, field
from typing import TYPE_CHECKING, BinaryIO, Iterator, List, Optional, Tuple

from ..console.escapes import shown
from ..console.faults import Failed
from ..console.screen import Screen
from ..formats.contents import EMPTY, MAGIC, MAGICS, RETIREMENT, Content, EndsEarly, KeptFile, Malformed, content_in
from ..formats.contents import heads_in, records_in
from ..formats.files import remove, size_of, time_of
from ..formats.indexes import Index, OtherKind, changes, index_at, is_of_earlier_release
from .file_names import INDEX, NEXT_INDEX, NEXT_SUM, SUM
from .lock import State, state_of

if TYPE_CHECKING:
    from .program import Program

NO_UUID = "00000000-0000-0000-0000-000000000000"
# So many bytes of a retirement may differ where it changed: half of its digest.
MOST_CHANGED = 16


@dataclass(eq=False)
class ArchiveFile:
    """The file of a path, which need not be there: it has nothing then. It has a name of its own in a room."""

    path: bytes
    name: bytes
    # As the last command left it, and whether anything says that.
    index: Optional[Index] = None
    content: Content = field(default_factory=Content)
    is_known: bool = False
    # What is wrong with FILE.idx, if something is; and whether that is an index of another kind, which says nothing.
    doubt: Optional[str] = None
    has_other_index: bool = False

    def beside(self, ending: bytes) -> bytes:
        return self.path + ending

    def exists(self) -> bool:
        return os.path.exists(self.path)

    def size(self) -> int:
        return size_of(self.path)

    def state(self) -> Tuple[State, ...]:
        """Which file it is, and which indexes stand next to it."""
        return tuple(map(state_of, (self.path, self.beside(INDEX), self.beside(NEXT_INDEX))))

    def magic(self) -> Optional[bytes]:
        """Its first bytes; None where it is not there."""
        try:
            with open(self.path, "rb") as file:
                return file.read(MAGIC)
        except FileNotFoundError:
            return None

    def begins_as_archive(self) -> bool:
        return self.magic() in (None, *MAGICS)

    def is_of_version_1(self) -> bool:
        return self.magic() == MAGICS[1]

    def is_empty(self) -> bool:
        """Whether it is an archive without a record."""
        with contextlib.suppress(OSError):
            if self.size() == len(EMPTY):
                with open(self.path, "rb") as file:
                    return file.read() in [magic + EMPTY[len(magic) :] for magic in MAGICS]
        return False

    def heads(self) -> Optional[List[bytes]]:
        try:
            with open(self.path, "rb") as file:
                return heads_in(file)
        except FileNotFoundError:
            return []

    def is_cut(self) -> bool:
        """Whether it ends before its records do."""
        try:
            with open(self.path, "rb") as file:
                for _ in records_in(file):
                    pass
        except EndsEarly:
            return True
        except (FileNotFoundError, Malformed):
            return False
        return False

    # ---- what is known of it

    def kept_index(self, ending: bytes = INDEX) -> Optional[Index]:
        """The index that a file next to it is; None where it is not there, or is none."""
        with contextlib.suppress(FileNotFoundError, Malformed):
            return index_at(self.beside(ending))
        return None

    def has_length_of(self, ending: bytes) -> bool:
        """Whether an index next to it is of an archive as long."""
        index = self.kept_index(ending)
        return index is not None and index.size() == self.size()

    def following(self) -> Optional[Index]:
        """The index that FILE.idx.next is, where the file is the one of which that was made; else None."""
        index = self.kept_index(NEXT_INDEX)
        return index if index and self.is_stamped(index) and index.size() == self.size() else None

    def known(self) -> Tuple[Optional[Index], bool]:
        """The index that the last command left, or None; and whether the file is the one that it is of."""
        following = self.following()
        if following is not None:
            return following, True
        index = self.kept_index()
        return index, index is not None and self.is_of(index)

    def is_of(self, index: Index) -> bool:
        """Whether it is the archive of its index: by its length if it is the file of which that was made, and nobody
        wrote to it since; else by its heads too."""
        if not self.exists() or self.size() != index.size():
            return False
        return self.is_stamped(index) or self.heads() == index.heads()

    def is_stamped(self, index: Index) -> bool:
        """Whether an index has the time of the file. One that was renamed or removed since it was read has none."""
        with contextlib.suppress(FileNotFoundError):
            return bool(index.path) and time_of(index.path) == time_of(self.path)
        return False

    def recall(self, screen: Optional[Screen] = None) -> bool:
        """Takes what the last command left, and returns whether the file has that still."""
        self.index, is_same = self.known()
        self.has_other_index = self.index is None and self.has_index_of_another_kind()
        if self.index:
            self.content, self.is_known, self.doubt = self.index.content(), True, None
            return is_same
        content = self.content_of_sums(screen)
        self.doubt = self.fault_of_index() if content is None and not self.has_other_index else None
        self.is_known = content is not None or self.doubt is None and not self.exists()
        self.content = content or Content()
        return self.is_known and self.content.heads() == self.heads()

    def is_in_place_of_sums(self) -> bool:
        """Whether it took the place of the one that FILE.sum is of, and a kill left FILE.sum.next."""
        return os.path.exists(self.beside(NEXT_SUM)) and is_in_place(self.path, self.heads())

    def content_of_sums(self, screen: Optional[Screen]) -> Optional[Content]:
        """What the last command left by FILE.sum, or None."""
        is_next = self.is_in_place_of_sums()
        kept = kept_at(self.beside(NEXT_SUM if is_next else SUM), screen)
        return kept.content() if kept else None

    def drop_sums(self) -> None:
        """Removes the sums next to an index that needs none."""
        if os.path.exists(self.beside(SUM)) and self.kept_index() is not None:
            self.drop(SUM)

    def has_index(self) -> bool:
        """Whether its index is kept, with tables."""
        return self.index is not None and bool(self.index.path)

    def has_index_of_another_kind(self) -> bool:
        try:
            index_at(self.beside(INDEX))
        except OtherKind:
            return True
        except (FileNotFoundError, Malformed):
            pass
        return False

    def has_earlier_index(self) -> bool:
        """Whether its index is of an earlier release, so that it is asked as if it had none. One that cannot be read is
        not, and the program says why it refuses that."""
        with contextlib.suppress(OSError):
            return is_of_earlier_release(self.beside(INDEX))
        return False

    def say_other_index(self, screen: Screen) -> None:
        """Says that its index is of another kind, if it is."""
        if self.has_other_index:
            path = shown(self.beside(INDEX))
            screen.line(f"{path} is of another kind: the next command that writes makes it anew")

    def fault_of_index(self) -> Optional[str]:
        """What is wrong with FILE.idx, which says nothing; None if it is not there."""
        path = self.beside(INDEX)
        if not os.path.exists(path):
            return None
        is_other = self.has_index_of_another_kind()
        return f"{shown(path)} is {'of another kind' if is_other else 'not as symarch-keep wrote it'}"

    def says(self, made: Index) -> bool:
        """Whether FILE.idx, which is damaged, says all the same that the file is as it was: that this is its index."""
        with contextlib.suppress(FileNotFoundError), open(self.beside(INDEX), "rb") as file:
            return made.is_in(file)
        return False

    def vouch(self, made: Index, screen: Screen) -> None:
        """Fails if the index by the bytes of the file, which were read, has other digests than the last command left,
        and nothing says which bytes changed: so no index takes the place of one that has others."""
        if self.doubt and not self.says(made):
            told = f"it is not known whether {shown(self.path)} is as it was; call `symarch-keep check`"
            raise Failed(f"{self.doubt}, and {told}")
        heads = self.index.heads() if self.index else self.content.heads()
        if self.doubt:
            screen.line(f"{self.doubt}, and is made anew: {shown(self.path)} is as it was")
        elif self.is_known and self.exists() and is_same_but_for_retirements(heads, made.heads()):
            raise Failed(f"something in {shown(self.path)} changed; `symarch-keep check` names it")

    def drop(self, *endings: bytes) -> None:
        for ending in endings:
            remove(self.beside(ending))

    # ---- what it has by its bytes

    @contextlib.contextmanager
    def opened(self, program: Optional[Program] = None) -> Iterator[BinaryIO]:
        """The file, of which the program says why it is no archive, where that is found out."""
        try:
            with open(self.path, "rb") as file:
                yield file
        except Malformed as fault:
            from .program import Program

            self.look_through(program or Program())
            raise Failed(f"{shown(self.path)}: {fault}") from None

    def read(self, program: Program, screen: Screen) -> None:
        """Takes what it has by its bytes; a slice that changed is what it was."""
        came = Content()
        with contextlib.suppress(FileNotFoundError), self.opened(program) as file:
            screen.begin("reading the archive", os.fstat(file.fileno()).st_size)
            came = content_in(file, screen.moved)
        for entry, before in changes(self.content, came)[0].items():
            came.held[before] = came.held.pop(entry)
        self.content = came

    def look_through(self, program: Program) -> None:
        """Has the program read it, which says whether it is an archive."""
        program.run_over(self.path, "find", NO_UUID)


def is_same_but_for_retirements(heads: List[bytes], others: List[bytes]) -> bool:
    """Whether two archives have the same heads of records at the same offsets, except for a few bytes of retirements,
    which changed then. In a retirement of another slice nearly all bytes of the digest differ."""
    if heads == others or len(heads) != len(others):
        return False
    pairs = [(one, other) for one, other in zip(heads, others) if one != other]
    return all(
        one[:1] == other[:1] == RETIREMENT and sum(map(operator.ne, one, other)) <= MOST_CHANGED for one, other in pairs
    )


# ---- the sums of 2.2, by which the next command that writes makes the index, until the next major release


def kept_at(path: bytes, screen: Optional[Screen] = None) -> Optional[KeptFile]:
    """What a file that is kept next to an archive has; None if it is not there, or is damaged."""
    try:
        with open(path, "rb") as opened:
            return KeptFile(opened.read())
    except FileNotFoundError:
        return None
    except Malformed as fault:
        if screen:
            screen.line(f"{shown(path)}: {fault}, and is passed over")
        return None


def is_in_place(path: bytes, heads: Optional[List[bytes]]) -> bool:
    """Whether a kill left FILE.sum.next of an archive file with these heads, and it is the one of which that was
    written."""
    found = kept_at(path + NEXT_SUM)
    with contextlib.suppress(FileNotFoundError):
        is_of_this = found and found.notes == [f"file {os.stat(path).st_ino}"]
        return bool(found and is_of_this and found.content().heads() == heads)
    return False
