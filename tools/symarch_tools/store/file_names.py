"""The names of the files of an archive. A level is a file ARCHIVE.N next to which an index is stored. Another file of
such a name, as a copy that somebody made, is left alone, and so is one with a lock: an archive of its own."""
import os
import stat
from typing import Iterator, List, Optional, Set

from ..console.escapes import shown
from ..console.faults import Failed
from ..formats.contents import MAGIC, MAGICS
from ..formats.files import beginning as beginning  # Also for reports, which import no format.

TODAY, LOCK = b".today", b".lock"
INDEX, NEXT_INDEX = b".idx", b".idx.next"
# The sums of 2.2, and those of a new file which takes the place of one.
SUM, NEXT_SUM = b".sum", b".sum.next"
# What no archive is.
NO_FILE = "a pipe, a socket or a device"
# No level has a greater number.
MOST_LEVELS = 99


def level_ending(number: int) -> bytes:
    return b".%d" % number


NUMBERS = {level_ending(number): number for number in range(1, MOST_LEVELS + 1)}
# What makes a file a level if it stands next to it.
MARKS = INDEX, NEXT_INDEX
# What is read next to each file of an archive, and next to the archive alone.
OF_EACH = *MARKS, SUM, NEXT_SUM
OF_ARCHIVE = b".builds", b".builds.next", b".log", b".log.next", b".asked", b".site", b".signers", b".lost", b".changed"


def no_files_beside(path: bytes, levels: List[bytes]) -> Iterator[bytes]:
    """The paths next to the files of an archive at which what is read is neither a file nor a folder, as a pipe, which
    who opens it waits for."""
    beside_each = (file + ending for file in (path, path + TODAY, *levels) for ending in OF_EACH)
    return filter(is_no_file, [*beside_each, *(path + ending for ending in OF_ARCHIVE)])


def is_no_file(path: bytes) -> bool:
    """Whether something stands at a path that is neither a file nor a folder."""
    try:
        mode = os.stat(path).st_mode
    except OSError:
        return False
    return not stat.S_ISREG(mode) and not stat.S_ISDIR(mode)


def numbers_beside(path: bytes) -> List[int]:
    """The numbers of the levels next to an archive, in their order."""
    found = endings_beside(path)
    may_be = [ending for ending in NUMBERS if ending + LOCK not in found and not found.isdisjoint(with_marks(ending))]
    return [NUMBERS[ending] for ending in may_be if has_mark(path, ending, found)]


def with_marks(ending: bytes) -> List[bytes]:
    return [ending, *(ending + mark for mark in MARKS)]


def has_mark(path: bytes, ending: bytes, found: Set[bytes]) -> bool:
    """Whether a mark of a level stands next to it. One that takes its last name while names are listed may be under
    neither: so the other one is looked for first."""
    marks = [ending + mark for mark in reversed(MARKS)]
    return any(mark in found for mark in marks) or any(os.path.lexists(path + mark) for mark in marks)


def archive_of_today(path: bytes) -> Optional[bytes]:
    """The path of the archive for which what comes in goes into a file, if it is called so: the archive may be made
    later."""
    whole = path[: -len(TODAY)]
    return whole if path.endswith(TODAY) and os.path.basename(whole) else None


def archive_of_level(path: bytes) -> Optional[bytes]:
    """The path of the archive of which a file is a level, if it is one."""
    number = NUMBERS.get(b"." + path.rpartition(b".")[2])
    whole = path.rpartition(b".")[0]
    return whole if number and os.path.isfile(whole) and number in numbers_beside(whole) else None


def strangers_beside(path: bytes) -> List[bytes]:
    """The endings of files that are called as levels and are none, nor archives of their own."""
    found, levels = endings_beside(path), numbers_beside(path)
    others = (ending for ending, number in NUMBERS.items() if number not in levels and ending + LOCK not in found)
    return [ending for ending in others if ending in found]


def endings_beside(path: bytes) -> Set[bytes]:
    """What stands after the path of an archive in those of the files next to it, if these may belong to levels."""
    folder, name = os.path.split(path)
    try:
        return {entry[len(name) :] for entry in os.listdir(folder or b".") if entry.startswith(name)}
    except PermissionError:
        # Who may not list a folder may still look names up.
        names = (it for ending in NUMBERS for it in (*with_marks(ending), ending + LOCK))
        return {it for it in names if os.path.lexists(path + it)}
    except (FileNotFoundError, NotADirectoryError):
        # Who opens the archive says that.
        return set()


def is_archive(path: str) -> bool:
    return beginning(path, MAGIC) in MAGICS


def is_zip_file(path: str) -> bool:
    from ..formats.packed_files import ZIP

    return beginning(path, len(ZIP)) == ZIP


# ---- paths that are no archive


def refuse_part(path: bytes, place: bytes) -> None:
    """Fails if a path, which leads to a place, names a file that an archive has next to it. A lock next to that would
    make it an archive of its own, and what it has would be lost with the next fold of the other one."""
    level_of, today_of = archive_of_level(place), archive_of_today(place) or archive_of_link(path)
    if level_of is not None:
        raise Failed(f"{shown(path)} is a level of {shown(level_of)}: name that", 3)
    if today_of is not None:
        raise Failed(f"{shown(path)} has the newest additions to {shown(today_of)}: name that", 3)


def archive_of_link(path: bytes) -> Optional[bytes]:
    """The path of the archive for which what comes in goes to where a link leads, if the archive is there."""
    whole = archive_of_today(os.path.abspath(path))
    return whole if whole is not None and os.path.isfile(whole) else None


def refuse_other(path: bytes, place: bytes, is_made: bool) -> None:
    """Fails if a path, which leads to a place, names what is no file; and if nothing is there, unless that is made."""
    try:
        mode = os.stat(place).st_mode
    except FileNotFoundError:
        if is_made:
            return
        was_there = os.path.exists(place + INDEX)
        how = "restore it from a backup or another site" if was_there else "symarch-keep add makes an archive"
        raise Failed(f"{shown(path)}: No such file; {how}") from None
    if stat.S_ISREG(mode) and is_archive(os.fsdecode(place)):
        return
    from .slices import is_dsym

    if is_dsym(path) or is_dsym(place):
        import shlex

        name = path.rstrip(b"/")
        typed = shown(shlex.quote(os.fsdecode(name)))
        raise Failed(f"{shown(name)} is a dSYM: run symarch-keep add builds.sym {typed}, then name builds.sym")
    if not stat.S_ISREG(mode):
        kind = "a folder" if stat.S_ISDIR(mode) else NO_FILE
        raise Failed(f"{shown(path)} is {kind}, and no archive")
