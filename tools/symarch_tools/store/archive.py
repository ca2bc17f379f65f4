"""An archive: ARCHIVE, its levels and ARCHIVE.today, which are asked as their join; what they have, and what is
lost; and what a kill left of it. How more comes in is in `draft`. Each index is made from the old ones and that of
the new records, and the heads of all records are compared with it, so a changed byte never becomes a known one."""
from __future__ import annotations

import os
from typing import TYPE_CHECKING, List, Optional, Sequence, Tuple

from ..console.escapes import shown
from ..console.faults import CutShort, Failed
from ..console.screen import Screen
from ..console.signals import signals
from ..formats.builds import Builds
from ..formats.contents import EMPTY, MAGICS, Content
from ..formats.files import remove, size_of, write_synced
from ..formats.indexes import Index, held_against, index_at, index_by, index_of
from .archive_file import ArchiveFile
from .file_names import INDEX, LOCK, NEXT_INDEX, NEXT_SUM, NO_FILE, SUM, no_files_beside, refuse_other, refuse_part
from .folder import ArchiveFolder, watched
from .levels import ArchiveFiles
from .lock import Lock
from .losses import LOST, Lost, changed_line, counted, lost_lines

if TYPE_CHECKING:
    from .program import Program

ASKED = b".asked"


class Archive:
    """The archive that a path names, also through links, with its levels and what came in since its last fold. Who does
    not write changes nothing."""

    def __init__(
        self, path: bytes, is_made: bool = False, writes: bool = True, may_be_damaged: bool = False
    ) -> None:
        self.path, self.writes = os.path.realpath(path), writes
        refuse_other(path, self.path, is_made)
        if writes or is_made:
            refuse_part(path, self.path)
        self.folder, self.files = ArchiveFolder(self.path), ArchiveFiles(self.path)
        for file in self.files:
            named = path + file.path[len(self.path) :]
            refuse_other(named, file.path, is_made=True)
            if not may_be_damaged and not file.begins_as_archive():
                from ..formats.file_kinds import MOST_LOOKED_AT, look_of

                with open(file.path, "rb") as opened:
                    front = opened.read(MOST_LOOKED_AT)
                if front and any(magic.startswith(front) for magic in MAGICS):
                    raise CutShort.at(shown(named))
                look = look_of(front)
                raise Failed(f"{shown(named)} is no archive{f', but {look}' if look else ''}")
        other = next(no_files_beside(self.path, [level.path for level in self.files.levels]), None)
        if other:
            raise Failed(f"{shown(path + other[len(self.path) :])} is {NO_FILE}: remove it")
        self.lock = Lock(self.path + LOCK, writes)
        self.lost = Lost(self.folder.beside(LOST))
        # Whether names of builds were damaged as the command began.
        self.had_damaged_builds = False

    def take_lock(self, screen: Screen, wait: Optional[float] = None) -> None:
        """Waits until no other call has the lock, at most so many seconds, and goes on where one was killed."""
        self.lock.take(screen, wait)
        # Another call may have folded meanwhile.
        self.files.find_levels()
        if self.writes:
            # A signal may come as a folder is made, or as it is removed.
            signals.at_end.append(self.folder.remove_rooms)
            self.folder.remove_rooms()
            self.go_on(screen)
        self.folder.builds = Builds(self.path)
        self.had_damaged_builds = self.say_damaged_builds(screen)
        if self.had_damaged_builds and self.writes:
            self.folder.keep_builds(screen)
        self.lost = Lost(self.folder.beside(LOST))
        if self.lost.fault:
            screen.fail(f"{shown(self.lost.path)}: {self.lost.fault}, so lost records are not known")

    def say_damaged_builds(self, screen: Screen) -> bool:
        """Says what is damaged of the names of builds, if something is. The rest counts."""
        fault = self.folder.builds.fault()
        if fault:
            screen.fail(f"{shown(self.folder.builds.path)}: {fault}")
        return bool(fault)

    def release_lock(self) -> None:
        if self.folder.remove_rooms in signals.at_end:
            signals.at_end.remove(self.folder.remove_rooms)
        self.lock.release()

    # ---- what it has

    def content(self, program: Program, screen: Screen) -> Content:
        """What the files have together, as the last command left them. What is another file since is seen anew."""
        others = [file for file in self.files if not file.recall(screen)]
        if not self.writes:
            for file in others:
                file.read(program, screen)
                if file.index:
                    file.vouch(index_by(file.content, file.path), screen)
                elif file.doubt:
                    file.vouch(self.made_elsewhere(file, program, screen), screen)
            return self.files.joined()
        self.see_anew([file for file in self.files if file in others or is_to_be_indexed(file)], program, screen)
        self.files.levels = [level for level in self.files.levels if level.exists()]
        superfluous = self.files.superfluous()
        if superfluous:
            with self.folder.room() as room:
                self.remove(superfluous, room, screen)
        self.settle()
        return self.files.joined()

    def see_anew(self, others: Sequence[ArchiveFile], program: Program, screen: Screen) -> None:
        """Indexes files that are others since the last command, and says what changed or is lost."""
        if not others:
            return
        with self.folder.room() as room:
            changed, lost = self.compare(others, room, program, screen)
            # What is lost is noted before the index goes that has it.
            self.lose(lost, screen, changed)
            self.keep(others, room, screen)

    def compare(
        self, others: Sequence[ArchiveFile], room: bytes, program: Program, screen: Screen
    ) -> Tuple[List[str], Content]:
        """Holds files against what is known of them, and takes what they have. A slice that changed keeps its entry.
        Returns the lines of what changed, and what is lost."""
        lines: List[str] = []
        lost = Content()
        for file in others:
            made, before = self.indexed(file, room, program, screen), file.index
            file.vouch(made, screen)
            if file.has_other_index:
                screen.line(f"{shown(file.beside(INDEX))} was of another kind, and is made anew")
            file.index, changed, more = held_against(file.content, made)
            if changed:
                from ..formats.tables import Tables, write_index

                path = os.path.join(room, file.name + b".held")
                file.index = write_index(path, file.index, Tables([before, made]))
            file.content, lost = file.index.content(), lost.joined(more)
            lines += [changed_line(row, file.path) for row in changed]
        return lines, lost.beyond(self.files.joined())

    def made_elsewhere(self, file: ArchiveFile, program: Program, screen: Screen) -> Index:
        """The index of a file next to which nothing may be written."""
        import tempfile

        with tempfile.TemporaryDirectory(prefix="symarch-keep.") as room:
            return self.indexed(file, os.fsencode(room), program, screen)

    @staticmethod
    def indexed(file: ArchiveFile, room: bytes, program: Program, screen: Screen) -> Index:
        """The index of a file; of one of version 1 that of version 2 of it, which is made in the room."""
        if not file.exists():
            return empty_index(room, file.name + b".idx")
        path = file.path
        if file.is_of_version_1():
            screen.begin("migrating", file.size())
            moved = watched(screen, room)
            program.run_over(path, "migrate", os.fsdecode(file.name), folder=room, moved=moved)
            path = os.path.join(room, file.name)
        return index_made(path, room, file.name + b".idx", program, screen)

    def keep(self, others: Sequence[ArchiveFile], room: bytes, screen: Screen) -> None:
        """Keeps the indexes of files, and puts version 2 of those of version 1 in their place."""
        for file in others:
            new, index = os.path.join(room, file.name), file.index
            if index and os.path.exists(new):
                os.replace(new, os.path.join(room, b"new"))
                self.folder.replace(room, file, index, [], screen)
                screen.line(f"{shown(file.path)}: was of version 1, and is of version 2 now")
            elif index and file.exists():
                self.folder.lay_index(file, INDEX, index, file.path)
            else:
                file.drop(INDEX)
            file.drop(SUM)

    # ---- what is lost

    def lose(self, lacking: Content, screen: Screen, changed: Sequence[str] = ()) -> None:
        """Says and notes what changed, and what the archive had and lacks."""
        lines = [*changed, *lost_lines(self.lost.add(lacking.beyond(self.files.joined())))]
        if lines:
            screen.fail(f"{shown(self.path)}: changed or lost: {counted(lines)}; its log names them")
            self.folder.log.note(lines, screen)
        self.keep_lost()

    def settle(self) -> None:
        """Drops of what was lost what is back."""
        self.lost.settle(self.files.joined())
        self.keep_lost()

    def keep_lost(self) -> None:
        text = self.lost.text()
        if not self.lost.is_changed():
            return
        if text:
            with self.folder.room() as room:
                self.folder.lay(room, self.lost.path, text)
        else:
            remove(self.lost.path)
        self.lost.written = text

    def remove(self, files: Sequence[ArchiveFile], room: bytes, screen: Screen) -> None:
        """Empties ARCHIVE.today and removes levels, of which other files have all."""
        for file in files:
            if file is self.files.today:
                self.empty_today(room, screen)
                continue
            try:
                self.files.forget(file)
            except OSError as error:
                self.say_what_is_left(file, error, screen)

    def empty_today(self, room: bytes, screen: Screen) -> None:
        if self.files.today.exists() and not len(self.files.today.content):
            return
        try:
            write_synced(os.path.join(room, b"new"), [EMPTY])
            index = empty_index(room, b"new.idx")
            self.folder.replace(room, self.files.today, index, [], screen)
        except OSError as error:
            self.say_what_is_left(self.files.today, error, screen)

    @staticmethod
    def say_what_is_left(file: ArchiveFile, error: OSError, screen: Screen) -> None:
        screen.fail(f"{shown(file.path)}: {error.strerror}; the archive has all, the next call does the rest")

    # ---- what a kill left, and what an earlier symarch-keep kept

    def go_on(self, screen: Screen) -> None:
        """Does the steps that a kill left to do, and drops what is of a file that was not put in place."""
        following = [file for file in self.files if file.following() is not None]
        before = [file for file in self.files if file.is_in_place_of_sums()]
        for file in self.files:
            if file in following:
                self.folder.finish(file, screen)
            elif file in before:
                self.folder.finish(file, screen, NEXT_SUM, SUM)
            else:
                file.drop(NEXT_INDEX, NEXT_SUM)
        if not following and not before:
            self.folder.log.drop_pending()
            self.folder.builds.drop_next()
        for level in [one for one in self.files.levels if not one.exists() and not os.path.exists(one.beside(INDEX))]:
            # It was not put in place, or is being removed.
            self.files.forget(level)
        for file in self.files:
            file.drop_sums()


def is_to_be_indexed(file: ArchiveFile) -> bool:
    """Whether a file has no index with tables, as symarch-keep 2.2 left it."""
    return file.exists() and not file.has_index()


def empty_index(room: bytes, name: bytes) -> Index:
    """The index of an archive without a record, under a name in a room."""
    from ..formats.tables import Tables, write_index

    return write_index(os.path.join(room, name), index_of([]), Tables([]))


def index_made(path: bytes, room: bytes, name: bytes, program: Program, screen: Screen) -> Index:
    """The index of an archive, by the program, under a name in a room."""
    screen.begin("indexing", size_of(path))
    program.run_over(path, "index", os.fsdecode(name), folder=room, moved=screen.progress)
    return index_at(os.path.join(room, name))
