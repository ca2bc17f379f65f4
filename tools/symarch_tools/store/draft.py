"""The draft of a new archive file, which the program writes into a room, and which takes the place of files of the
archive: a join of some of them and of what comes in. A command folds by itself only if ARCHIVE.today had grown
before it, so its own records do not make it slower. The programs of a fold read one another through pipes, since
`merge` of several FILEs has them in memory."""
import os
from dataclasses import dataclass, field
from typing import List, Optional, Sequence, Tuple

from ..console.escapes import shown
from ..console.faults import Failed, SliceRefused
from ..console.screen import Screen
from ..formats.contents import ADMISSION, Content, archive_of_retirements, heads_in, join_of, record_size
from ..formats.contents import records_in
from ..formats.files import linked, size_of, write_synced
from ..formats.indexes import Index, index_at, index_by
from ..formats.tables import Tables, write_index
from .archive import Archive, index_made
from .archive_file import ArchiveFile
from .folder import watched
from .levels import joined_by_fold
from .program import Merge, Program, Run
from .slices import CHANGED, Slice


# ARCHIVE.today has grown if it has more than one of so many parts of ARCHIVE.
PARTS = 10


@dataclass
class News:
    """What comes in: a content, the slices that have it or an archive of a room, and indexes that have the tables of
    its slices."""

    content: Content
    slices: Sequence[Slice] = ()
    path: Optional[bytes] = None
    indexes: List[Optional[Index]] = field(default_factory=list)

    def paths(self) -> List[bytes]:
        return [self.path] if self.path else []

    def index(self, written: bytes, program: Program, screen: Screen) -> None:
        """Has the program make the tables of its slices, unless an index has them: of its archive, or of the slices as
        a file of a room has them, where they were written."""
        if self.indexes or not self.content.held:
            return
        room = os.path.dirname(written)
        slices, has_others = ([], False) if self.path else self.written_in(written)
        if has_others:
            index = index_of_some(slices, room, program, screen)
        else:
            index = index_made(self.path or written, room, b"came.idx", program, screen)
        self.test(index)
        self.indexes.append(index)

    def written_in(self, path: bytes) -> Tuple[List[Slice], bool]:
        """The slices in a file, with others that have their heads; and whether it has other records."""
        heads = {one.head for one in self.slices}
        with open(path, "rb") as file:
            size, every = os.fstat(file.fileno()).st_size, list(records_in(file))
        its = [it for it in every if it[0] in heads]
        found = [Slice(path, None, at, record_size(head) - len(head), size, head, path) for head, at in its]
        return found, len(found) < len(every)

    def test(self, index: Index) -> None:
        """Fails if a slice has other bytes in the file that was indexed than those that were read first."""
        entries = {row.entry for row in index.rows()}
        for one in self.slices:
            if one.head[:1] == ADMISSION and ADMISSION + one.entry() not in entries:
                raise SliceRefused(CHANGED, one)


def index_of_some(slices: Sequence[Slice], room: bytes, program: Program, screen: Screen) -> Index:
    """The index of some slices of a file of a room, by the program."""
    screen.begin("indexing: {} slices", sum(one.length for one in slices))
    try:
        program.run(Run(["index", "/dev/stdin", "came.idx"], slices, room, moved=screen.progress, is_read_back=True))
    except SliceRefused as refused:
        raise Failed(f"{shown(refused.one.path)}: {refused}") from None
    return index_at(os.path.join(room, b"came.idx"))


@dataclass
class Draft:
    """What is written in a room of an archive, whose lock is held; and the lines that its log gets for it."""

    archive: Archive
    room: bytes
    program: Program
    screen: Screen
    lines: Sequence[str] = ()

    def put(self, news: News) -> None:
        """Joins news to ARCHIVE.today; or to a level or ARCHIVE, with all of ARCHIVE.today."""
        today = self.archive.files.today
        if not self.is_to_be_folded():
            self.merge([today], b"new", news.slices, news.paths())
            news.index(os.path.join(self.room, b"new"), self.program, self.screen)
            index = self.new_index(today, today.content.joined(news.content), [today.index, *news.indexes])
            self.archive.folder.replace(self.room, today, index, self.lines, self.screen)
            return
        if news.path is None or len(today.content):
            self.merge([today], b"grown", news.slices, news.paths())
            grown = os.path.join(self.room, b"grown")
            news.index(grown, self.program, self.screen)
            news = News(today.content.joined(news.content), (), grown, [today.index, *news.indexes])
        self.join_by_fold(news)

    def is_to_be_folded(self) -> bool:
        """Whether ARCHIVE.today has grown, or there is no ARCHIVE."""
        today = self.archive.files.today
        return PARTS * today.size() >= sum(file.size() for file in self.archive.files if file is not today)

    def fold(self, is_whole: bool = False, is_purge: bool = False) -> None:
        """Joins ARCHIVE.today and the files before it that are alike in size, or all; and takes out of the others what
        is retired, if that has waited long or has to go."""
        files = self.archive.files
        self.join_by_fold(News(files.today.content, (), files.today.path, [files.today.index]), is_whole)
        for file in list(files):
            retired = files.waiting().get(file.path, [])
            if retired and (is_purge or self.archive.folder.log.is_old(retired, file.path)):
                self.join([file], News(Content()))

    def join_by_fold(self, news: News, is_whole: bool = False) -> None:
        """Joins news, which an archive has, with the files before ARCHIVE.today that are alike in size, or with all;
        and ARCHIVE.today has nothing then."""
        main = self.archive.files.main
        files, is_new = [*reversed(self.archive.files.levels), main], bool(len(news.content))
        sizes = [*[news.content.size()] * is_new, *(file.size() for file in files)]
        count = len(files) if is_whole else joined_by_fold(sizes) - is_new
        if is_new or count > 1 or not main.exists():
            self.join(files[:count], news)
        self.archive.empty_today(self.room, self.screen)

    def join(self, files: Sequence[ArchiveFile], news: News) -> None:
        """Puts the join of files, the largest one last, and of news, which an archive has, in place of the largest
        file, or makes a level of it if there is none; and removes the others. What a further file retires goes."""
        content = join_of([news.content, *(file.content for file in files)])
        retired = self.archive.files.retired().intersection(content.held)
        paths = news.paths() if len(news.content) else []
        if retired:
            paths.append(os.path.join(self.room, b"withdrawn"))
            write_synced(paths[-1], archive_of_retirements(retired))
        file, others = (files[-1], files[:-1]) if files else (self.archive.files.new_level(), [])
        is_alone = len(paths) == 1 and not any(it.exists() for it in files)
        if not is_alone or not linked(paths[0], os.path.join(self.room, b"new")):
            self.merge([file, *reversed(others)], b"new", more=paths)
        news.index(os.path.join(self.room, b"new"), self.program, self.screen)
        indexes = [*(it.index for it in files), *news.indexes]
        index = self.new_index(file, content.joined(Content(retired)), indexes)
        self.archive.folder.replace(self.room, file, index, self.lines, self.screen)
        self.archive.files.levels += [] if files else [file]
        self.archive.remove(others, self.room, self.screen)

    def new_index(self, file: ArchiveFile, content: Content, indexes: Sequence[Optional[Index]]) -> Index:
        """The index of the new file of the room, which has a content except for slices that changed in the files from
        which it was made: these keep their entries, so that `check` finds them. It is the one that the program made in
        the room, if that has just this content. Otherwise no other slice is read for it, and tables are copied from the
        indexes of these files."""
        new = os.path.join(self.room, b"new")
        with open(new, "rb") as written:
            if heads_in(written) != content.heads():
                raise Failed(f"something in {shown(file.path)} changed; `symarch-keep check` names it")
        for made in filter(None, indexes):
            if os.path.dirname(made.path) == self.room and made.content() == content:
                return made
        index = index_by(content, new)
        self.screen.begin("copying tables")
        return write_index(os.path.join(self.room, b"new.idx"), index, Tables(indexes), self.screen.moved)

    def merge(
        self, files: Sequence[ArchiveFile], name: bytes, slices: Sequence[Slice] = (), more: Sequence[bytes] = ()
    ) -> None:
        """Has the program write the join of files, the largest one first, with slices, or with other archives, into the
        room. No command writes a file that it reads."""
        paths, new = [*(file.path for file in files if file.exists()), *more], os.path.join(self.room, name)
        if len(paths) + bool(slices) < 2:
            paths.insert(0, os.path.join(self.room, b"old"))
            self.program.run(Run(["new", "old"], folder=self.room, names={"old": shown(paths[0])}))
        size = sum(map(size_of, paths)) + sum(one.length for one in slices)
        self.screen.begin(f"writing: {{}} of {len(slices)} slices" if slices else "writing", size)
        # The program holds the lock too, since it may outlive this one for a moment.
        lock = self.archive.lock.descriptor
        held = [lock] if lock is not None else []
        self.program.merge(Merge(paths, new, watched(self.screen, self.room), slices, held))
        if not os.path.exists(new):
            raise Failed(f"{self.program.path} wrote no archive")
