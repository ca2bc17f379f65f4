"""The folder of an archive: the rooms in which a command works there, the files that are kept next to the archive, and
how a new file takes the place of one.

That goes by five steps: ARCHIVE.log.next, FILE.idx.next and, if names came in, ARCHIVE.builds.next are written, the
archive is renamed, ARCHIVE.builds.next becomes ARCHIVE.builds, the lines are added to ARCHIVE.log, and FILE.idx.next
becomes FILE.idx. FILE.idx.next has the time of the new archive. So whoever comes after a kill sees by the file which of
these were done, and does the others."""
import contextlib
import os
import stat
from dataclasses import dataclass
from typing import Callable, Iterator, List, Sequence

from ..console.escapes import shown
from ..console.faults import system_text
from ..console.screen import Screen
from ..console.signals import signals
from ..formats.builds import Builds
from ..formats.files import size_of, stamp, sync_folder, tell_apart, write_synced
from ..formats.indexes import Index
from .archive_file import ArchiveFile
from .file_names import INDEX, NEXT_INDEX
from .log import LOG, NEXT_LOG, Log, dated

# What a kill may leave; rooms are folders in which a command works.
ROOM = b".making-"


@dataclass(eq=False)
class ArchiveFolder:
    """The folder of the archive of a path."""

    path: bytes
    rooms_made: int = 0

    def __post_init__(self) -> None:
        self.parent, self.name = os.path.split(self.path)
        self.log, self.builds = Log(self.path + LOG, self.path + NEXT_LOG, self.room), Builds(self.path)

    def beside(self, ending: bytes) -> bytes:
        return self.path + ending

    def rooms(self) -> List[bytes]:
        return sorted(name for name in os.listdir(self.parent) if name.startswith(self.name + ROOM))

    def remove_rooms(self) -> None:
        import shutil

        for name in self.rooms():
            shutil.rmtree(os.path.join(self.parent, name), ignore_errors=True)

    @contextlib.contextmanager
    def room(self) -> Iterator[bytes]:
        """A folder next to the archive. Only who has the lock makes one. The outermost one removes all of them."""
        import tempfile

        self.rooms_made += 1
        try:
            yield tempfile.mkdtemp(prefix=self.name + ROOM, dir=self.parent)
        finally:
            with signals.later():
                self.rooms_made -= 1
                if self.rooms_made == 0:
                    self.remove_rooms()

    # ---- what takes the place of a file

    def replace(self, room: bytes, file: ArchiveFile, index: Index, lines: Sequence[str], screen: Screen) -> None:
        """Gives the new file of a room, which is synced, the name of a file, and what it may have of the archive's
        owner and rights; its index is in the room too. Syncs the name. A signal waits until that is done."""
        with signals.later():
            self.put_in_place(os.path.join(room, b"new"), room, file, index, lines)
            file.index, file.content = index, index.content()
            self.finish(file, screen)

    def replace_index(self, room: bytes, file: ArchiveFile, index: Index, lines: Sequence[str], screen: Screen) -> None:
        """Gives a new index of a room the name of that of a file, which stays."""
        with signals.later():
            self.put_in_place(file.path, room, file, index, lines)
            file.index = index
            self.finish(file, screen)

    def put_in_place(self, new: bytes, room: bytes, file: ArchiveFile, index: Index, lines: Sequence[str]) -> None:
        before, is_new = self.log.pending(), new != file.path
        try:
            self.lay(room, self.log.next, before + dated(lines))
            if self.builds.is_changed():
                self.lay(room, self.builds.next, self.builds.new_text())
            if is_new:
                tell_apart(new, file.path)
            self.lay_index(file, NEXT_INDEX, index, new)
            if is_new:
                self.give_rights(new)
            # What is known of the new archive is there before it.
            sync_folder(self.parent)
            if is_new:
                os.replace(new, file.path)
        except OSError:
            file.drop(NEXT_INDEX)
            self.builds.drop_next()
            self.log.leave_pending(len(before))
            raise
        sync_folder(self.parent)

    def give_rights(self, path: bytes) -> None:
        with contextlib.suppress(OSError):
            status = os.stat(self.path)
            for owner, group in ((-1, status.st_gid), (status.st_uid, -1)):
                with contextlib.suppress(PermissionError):
                    os.chown(path, owner, group)
            os.chmod(path, stat.S_IMODE(status.st_mode))

    def finish(
        self, file: ArchiveFile, screen: Screen, following: bytes = NEXT_INDEX, last: bytes = INDEX
    ) -> None:
        """The steps after the rename. The archive has all, also where one of them fails."""
        try:
            if self.builds.put_next():
                # It is there before the index goes that says so.
                sync_folder(self.parent)
                self.builds = Builds(self.path)
            self.log.add_pending()
            os.replace(file.beside(following), file.beside(last))
            if file.index and file.index.path == file.beside(following):
                file.index.path = file.beside(last)
            file.drop_sums()
        except OSError as error:
            screen.fail(f"{shown(self.log.path)}: {error.strerror}; the archive has all, the next call does the rest")

    def keep_builds(self, screen: Screen) -> None:
        """Keeps names of builds that came in where no archive is written. What is damaged of them is gone then."""
        if not self.builds.is_changed():
            return
        try:
            with self.room() as room:
                self.lay(room, self.builds.path, self.builds.new_text())
            self.builds = Builds(self.path)
        except OSError as error:
            screen.fail(system_text(error, self.builds.path))

    def lay(self, room: bytes, path: bytes, data: bytes) -> None:
        """Makes a file next to the archive, whole and synced."""
        kept = os.path.join(room, b"kept")
        write_synced(kept, [data])
        self.give_rights(kept)
        os.replace(kept, path)

    def lay_index(self, file: ArchiveFile, ending: bytes, index: Index, path: bytes) -> None:
        """Puts an index of a room next to a file, with the time of the file of which it was made."""
        stamp(index.path, path)
        self.give_rights(index.path)
        os.replace(index.path, file.beside(ending))
        index.path = file.beside(ending)


def watched(screen: Screen, room: bytes) -> Callable[[int], None]:
    """What shows how many slices the program was given, and how much it has written in a room."""
    return lambda done: screen.progress(done, lambda: written_in(room))


def written_in(room: bytes) -> int:
    """How many bytes the program has written of a new file. Until that is whole they are in a draft next to it."""
    names = (name for name in os.listdir(room) if name in (b"new", b"grown") or name.startswith(b".symarch-"))
    return sum(size_of(os.path.join(room, name)) for name in names)
