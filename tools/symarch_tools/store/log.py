"""ARCHIVE.log, the lines of the commands with their dates; and ARCHIVE.log.next, the lines of a new archive that is
being put in place, which are added to it once that is there. The log has the day of a retirement; without its line,
the date of the file that still has the slice counts."""
import contextlib
import functools
import os
import time
from dataclasses import dataclass
from typing import Callable, Collection, ContextManager, Dict, Iterable, List, Sequence

from ..console.faults import system_text
from ..console.screen import Screen
from ..formats.contents import words_of
from ..formats.files import append_synced, remove, size_of

LOG, NEXT_LOG = b".log", b".log.next"
DATE = "%Y-%m-%dT%H:%M:%SZ"
# For so many seconds the bytes of a retired slice wait at most for a fold: 30 days.
MOST_WAITING = 30 * 24 * 60 * 60


@dataclass(eq=False)
class Log:
    """The log of a path, the lines that are still to be added to it, and what makes a folder next to it."""

    path: bytes
    next: bytes
    room: Callable[[], ContextManager[bytes]]

    def pending(self) -> bytes:
        """The lines that are still to be added."""
        try:
            with open(self.next, "rb") as file:
                return file.read()
        except FileNotFoundError:
            return b""

    def leave_pending(self, size: int) -> None:
        """Drops the lines after so many bytes. It needs no room on the disk."""
        if size:
            os.truncate(self.next, size)
        else:
            self.drop_pending()

    def drop_pending(self) -> None:
        remove(self.next)

    def add_pending(self) -> None:
        self.append(self.lacking_of(self.pending()))
        self.drop_pending()

    def lacking_of(self, text: bytes) -> bytes:
        """What the log lacks of lines. Who wrote them to it may have been killed meanwhile."""
        try:
            with open(self.path, "rb") as file:
                file.seek(max(size_of(self.path) - len(text), 0))
                end = file.read()
        except FileNotFoundError:
            return text
        return text[begun_at_end(end, text) :]

    def append(self, text: bytes) -> None:
        if not text:
            return
        try:
            append_synced(self.path, text)
        except PermissionError:
            # Another user made it: it is replaced, as the archive is.
            import shutil

            with self.room() as room:
                copy = os.path.join(room, b"log")
                shutil.copyfile(self.path, copy)
                append_synced(copy, text)
                os.replace(copy, self.path)

    def is_old(self, retired: Collection[bytes], path: bytes) -> bool:
        """Whether one of some slices is retired for so long that its bytes have to go: since the first line of it; or,
        if none is there, since the file was written that has it, which had gone then by a retirement of before."""
        began = dict.fromkeys((words_of(entry) for entry in retired), dated_at(os.stat(path).st_mtime))
        began.update(self.first_retired(began))
        return min(began.values()) <= dated_at(time.time() - MOST_WAITING)

    def first_retired(self, wanted: Collection[str]) -> Dict[str, str]:
        """The date of the first line by which each of some slices is retired, if there is one."""
        found: Dict[str, str] = {}
        with contextlib.suppress(FileNotFoundError), open(self.path, encoding="utf-8", errors="replace") as file:
            for line in file:
                date, kind, *more = line.rstrip("\n").split(" ", 5)
                if kind == "retired" and " ".join(more[:3]) in wanted:
                    found.setdefault(" ".join(more[:3]), date)
        return found

    def note(self, lines: Iterable[str], screen: Screen) -> None:
        """Adds lines where no archive is written."""
        try:
            self.append(dated(lines))
        except OSError as error:
            screen.fail(system_text(error, self.path))


def begun_at_end(end: bytes, text: bytes) -> int:
    """How many bytes of a text stand at the end of another one, from the beginning of a line there. The last line may
    be cut. By the rule of Knuth, Morris and Pratt, over lines."""
    *whole, cut = end.split(b"\n")
    lines = text.split(b"\n")[:-1]
    shorter = borders(lines)
    count = functools.reduce(functools.partial(extended, lines, shorter), whole, 0)
    while count and not is_begun(lines, count, cut):
        count = shorter[count]
    begun = len(cut) if is_begun(lines, count, cut) else 0
    return sum(len(line) + 1 for line in lines[:count]) + begun


def is_begun(lines: Sequence[bytes], count: int, cut: bytes) -> bool:
    """Whether the line after so many begins so."""
    return not cut or count < len(lines) and lines[count].startswith(cut)


def borders(lines: Sequence[bytes]) -> List[int]:
    """For each number of lines how many of them, but not all, stand both first and last among so many."""
    found = [0, 0]
    for line in lines[1:]:
        found.append(extended(lines, found, found[-1], line))
    return found


def extended(lines: Sequence[bytes], shorter: Sequence[int], count: int, line: bytes) -> int:
    """How many of the first lines end with one more line, where so many did before it."""
    while count and (count == len(lines) or lines[count] != line):
        count = shorter[count]
    return count + 1 if count < len(lines) and lines[count] == line else 0


def dated_at(seconds: float) -> str:
    return time.strftime(DATE, time.gmtime(seconds))


def dated(lines: Iterable[str]) -> bytes:
    now = dated_at(time.time())
    return "".join(f"{now} {line}\n" for line in lines).encode()
