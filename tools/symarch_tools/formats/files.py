"""Files: their sizes and times, and how bytes are written so that they are on the disk."""
import contextlib
import errno
import os
import stat
from typing import Iterable, Optional, Tuple, Union

from ..console.faults import about
from ..console.streams import write

# By what the program gets the files that this tool has open, also those whose paths are no UTF-8.
DESCRIPTORS = "/dev/fd"
# What the system says where it copies nothing by itself.
UNABLE = (errno.EINVAL, errno.ENOSYS, errno.EOPNOTSUPP)


def stamp(path: bytes, of: bytes) -> None:
    """Gives a file the time of another one. It is synced."""
    time = time_of(of)
    descriptor = os.open(path, os.O_RDONLY)
    try:
        os.utime(descriptor, ns=(time, time))
        os.fsync(descriptor)
    finally:
        os.close(descriptor)


def tell_apart(new: bytes, old: bytes) -> None:
    """Gives a new file another time than the one has that it replaces, if they have one time."""
    if os.path.exists(old) and time_of(new) == time_of(old):
        # Some file systems have even seconds alone.
        later = time_of(new) + 2 * 10**9
        os.utime(new, ns=(later, later))


def write_synced(path: bytes, chunks: Iterable[bytes]) -> None:
    with about(path), open(path, "wb", buffering=0) as file:
        write_to_disk(file.fileno(), chunks)


def write_to_disk(descriptor: int, chunks: Iterable[bytes]) -> None:
    for chunk in chunks:
        write(descriptor, chunk)
    os.fsync(descriptor)


def copied(to: int, of: int, at: int, size: int) -> int:
    """How many bytes of an open file the system wrote to another one: at most so many, from a place on. None of them
    comes into this process, unless the system copies nothing by itself."""
    try:
        return os.sendfile(to, of, at, size)
    except OSError as error:
        if error.errno not in UNABLE:
            raise
    chunk = os.pread(of, size, at)
    write(to, chunk)
    return len(chunk)


def append_synced(path: bytes, text: bytes) -> None:
    """Adds all of a text to a file, or nothing."""
    with about(path), open(path, "ab", buffering=0) as file:
        size = os.fstat(file.fileno()).st_size
        try:
            write(file.fileno(), text)
            os.fsync(file.fileno())
        except OSError:
            os.ftruncate(file.fileno(), size)
            raise


def sync_folder(path: bytes) -> None:
    # Not every file system can sync a folder.
    with contextlib.suppress(OSError):
        descriptor = os.open(path, os.O_RDONLY)
        try:
            os.fsync(descriptor)
        finally:
            os.close(descriptor)


def remove(path: bytes) -> None:
    """Removes a file, if it is there."""
    with contextlib.suppress(FileNotFoundError):
        os.unlink(path)


def linked(path: bytes, new: bytes) -> bool:
    """Gives a file a second name that nothing has, if the file system has such."""
    try:
        os.link(path, new)
    except FileExistsError:
        raise
    except OSError:
        return False
    return True


def beginning(path: Union[str, bytes], size: int) -> bytes:
    """The first bytes of a file. What is none, as a pipe, is not read."""
    with contextlib.suppress(OSError, ValueError):
        if stat.S_ISREG(os.stat(path).st_mode):
            with open(path, "rb") as file:
                return file.read(size)
    return b""


def identity_of(path: Union[str, bytes]) -> Optional[Tuple[int, int]]:
    """What is one for all paths of a file; None where there is none."""
    try:
        found = os.stat(path)
    except OSError:
        return None
    return found.st_dev, found.st_ino


def size_of(path: bytes) -> int:
    try:
        return os.stat(path).st_size
    except FileNotFoundError:
        return 0


def time_of(path: bytes) -> int:
    return os.stat(path).st_mtime_ns
