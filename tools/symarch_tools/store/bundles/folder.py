"""The files that `get` makes in a folder: each is made whole and synced in a room there, and renamed. What is there
already stays."""
import contextlib
import errno
import fcntl
import os
import plistlib
import re
import shutil
import tempfile
from typing import Callable, Dict, Iterator, List

from ...console.escapes import shown
from ...console.faults import Failed
from ...console.signals import signals
from ...formats.builds import UNKNOWN, Build, bytes_of
from ...formats.bundles import KEYS, OF_DSYM
from ...formats.files import linked, sync_folder, write_synced
from ...formats.indexes import IndexRow
from ...formats.universal_files import Layout, copied_to
from .plan import BUNDLE, PlannedFile

# What the rooms of a folder are called. No bundle has such a name.
BEGINS, ENDS = b".symarch-keep-", b".making"
# In a bundle: what says of which app it is, and where its slices stand.
LIST, SLICES = b"Contents/Info.plist", b"Contents/Resources/DWARF"
# What XML cannot have.
UNPRINTABLE = re.compile("[^\t\n\r -\ud7ff\ue000-\ufffd\U00010000-\U0010ffff]")
IS_THERE = errno.EEXIST, errno.ENOTEMPTY, errno.ENOTDIR

# Writes the bytes of a slice as a file of this path.
Extract = Callable[[IndexRow, bytes], None]


class Target:
    """Where a wanted file goes in a folder."""

    def __init__(self, folder: bytes, wanted: PlannedFile) -> None:
        self.wanted, self.layout = wanted, Layout(wanted.rows)
        self.path = os.path.join(folder, wanted.name + (BUNDLE if wanted.is_bundle else b""))
        self.file = os.path.join(self.path, SLICES, wanted.name) if wanted.is_bundle else self.path

    def is_there(self) -> bool:
        """Whether it is there with these slices. What else has its name stays, and no other file is put there."""
        if not os.path.lexists(self.path):
            return False
        with contextlib.suppress(FileNotFoundError, NotADirectoryError):
            if self.layout.is_file(self.file):
                return True
        raise self.refusal()

    def refusal(self) -> Failed:
        return Failed(f"{shown(self.path)}: is there, and has other bytes than {self.wanted.rows[0].words()}", 2)

    def make(self, room: bytes, extract: Extract) -> None:
        """Makes it in a room, and gives it its name."""
        made = self.made_file(room, extract)
        if self.wanted.is_bundle:
            made = self.made_bundle(room, made)
        try:
            put(made, self.path)
        except OSError as error:
            if error.errno not in IS_THERE:
                raise
            # Another call may have made the same.
            if not self.is_there():
                raise
        sync_folder(os.path.dirname(self.path) or b".")

    def made_file(self, room: bytes, extract: Extract) -> bytes:
        one, whole = os.path.join(room, b"slice"), os.path.join(room, b"whole")
        if not self.layout.is_universal:
            extract(self.wanted.rows[0], one)
            return one
        with open(whole, "w+b") as file:
            for place in self.layout.places:
                extract(place.row, one)
                copied_to(file, place.at, one)
                os.unlink(one)
            table = self.layout.table(file)
            file.seek(0)
            file.write(table)
            file.flush()
            os.fsync(file.fileno())
        return whole

    def made_bundle(self, room: bytes, slices: bytes) -> bytes:
        """The bundle in a room that has this file."""
        made = os.path.join(room, b"bundle")
        os.makedirs(os.path.join(made, SLICES))
        os.replace(slices, os.path.join(made, SLICES, self.wanted.name))
        write_synced(os.path.join(made, LIST), [info_list(self.wanted.build, self.wanted.name)])
        for folder, _, _ in os.walk(made):
            sync_folder(folder)
        return made


def put(made: bytes, path: bytes) -> None:
    """Gives a file or a folder a name that nothing has. What came there meanwhile stays, except for an empty folder."""
    if os.path.lexists(path):
        raise FileExistsError(errno.EEXIST, os.strerror(errno.EEXIST), path)
    if os.path.isdir(made) or not linked(made, path):
        os.replace(made, path)


def info_list(build: Build, name: bytes) -> bytes:
    """An Info.plist as `dsymutil` writes it, with what is known of the build."""
    known = {key: text_of(bytes_of(it)) for key, it in zip(KEYS, build) if it != UNKNOWN}
    stated: Dict[str, str] = {
        "CFBundleDevelopmentRegion": "English",
        "CFBundleInfoDictionaryVersion": "6.0",
        "CFBundlePackageType": "dSYM",
        "CFBundleSignature": "????",
        **known,
        KEYS[0]: OF_DSYM + known.get(KEYS[0], text_of(name)),
    }
    return plistlib.dumps(stated)


def text_of(name: bytes) -> str:
    return UNPRINTABLE.sub("\ufffd", name.decode(errors="replace"))


# ---- rooms


@contextlib.contextmanager
def room_in(folder: bytes) -> Iterator[bytes]:
    """A folder in this one, which is made if it is not there. It is locked as long as it is worked in, so that the next
    call removes it if this one is killed."""
    if os.path.lexists(folder) and not os.path.isdir(folder):
        raise Failed(f"{shown(folder)} is no folder", 2)
    os.makedirs(folder, exist_ok=True)
    with contextlib.ExitStack() as ends:
        with signals.later():
            room = locked_room(folder, ends)
        yield room


def locked_room(folder: bytes, ends: contextlib.ExitStack) -> bytes:
    """A new room. Another call may take one that is not locked yet for one that was left."""
    room, is_there = b"", False
    while not is_there:
        try:
            room = tempfile.mkdtemp(ENDS, BEGINS, folder)
        except OSError as error:
            error.filename = folder
            raise
        with contextlib.suppress(FileNotFoundError):
            lock = os.open(room, os.O_RDONLY)
            ends.callback(os.close, lock)
            with contextlib.suppress(OSError):
                fcntl.flock(lock, fcntl.LOCK_EX)
            is_there = os.path.samestat(os.stat(room), os.fstat(lock))
    ends.callback(removed, room)
    return room


@contextlib.contextmanager
def part_of(room: bytes) -> Iterator[bytes]:
    """A folder in a room, which is empty."""
    part = os.path.join(room, b"part")
    os.mkdir(part)
    try:
        yield part
    finally:
        removed(part)


def removed(room: bytes) -> None:
    with signals.later():
        shutil.rmtree(room, ignore_errors=True)


def remove_left(folder: bytes) -> None:
    """Removes the rooms of calls that were killed."""
    names: List[bytes] = []
    with contextlib.suppress(OSError):
        names = [name for name in os.listdir(folder) if name.startswith(BEGINS) and name.endswith(ENDS)]
    for name in names:
        with contextlib.suppress(OSError):
            remove_unlocked(os.path.join(folder, name))


def remove_unlocked(room: bytes) -> None:
    lock = os.open(room, os.O_RDONLY | os.O_DIRECTORY | os.O_NOFOLLOW)
    try:
        fcntl.flock(lock, fcntl.LOCK_EX | fcntl.LOCK_NB)
        removed(room)
    finally:
        os.close(lock)
