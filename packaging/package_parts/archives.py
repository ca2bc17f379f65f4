"""Archives whose bytes rest on their files alone: fixed times and owners, and the files in the order of their paths."""
from __future__ import annotations

import gzip
import io
import tarfile
from typing import IO, Iterable, Mapping, NamedTuple, Sequence, Set, Tuple, cast


class File(NamedTuple):
    """A file by its bytes, and whether it is a program."""

    data: bytes
    is_program: bool = False


def folders_of(paths: Iterable[str]) -> Set[str]:
    """The folders in which the files of these paths lie, each before what lies in it."""
    found: Set[str] = set()
    for path in paths:
        parts = path.split("/")[:-1]
        found.update("/".join(parts[: i + 1]) for i in range(len(parts)))
    return found


def member(path: str, seconds: int, mode: int) -> tarfile.TarInfo:
    made = tarfile.TarInfo(path)
    made.mtime, made.mode, made.uname, made.gname = seconds, mode, "root", "root"
    return made


def tar_gz(files: Mapping[str, File], top: str, seconds: int) -> bytes:
    """The files below a folder, which stands in the archive too."""
    made = io.BytesIO()
    with gzip.GzipFile("", "wb", 9, made, mtime=seconds) as packed:
        with tarfile.open(fileobj=cast(IO[bytes], packed), mode="w", format=tarfile.GNU_FORMAT) as tar:
            folders = dict.fromkeys(["", *folders_of(files)])
            for path in sorted([*folders, *files]):
                if path in folders:
                    entry = member(f"{top}/{path}".rstrip("/"), seconds, 0o755)
                    entry.type = tarfile.DIRTYPE
                    tar.addfile(entry)
                else:
                    entry = member(f"{top}/{path}", seconds, 0o755 if files[path].is_program else 0o644)
                    entry.size = len(files[path].data)
                    tar.addfile(entry, io.BytesIO(files[path].data))
    return made.getvalue()


def ar(members: Sequence[Tuple[str, bytes]], seconds: int) -> bytes:
    """An archive of ar(1), which a package of Debian is."""
    made = b"!<arch>\n"
    for name, data in members:
        made += f"{name:<16}{seconds:<12}{0:<6}{0:<6}{100644:<8}{len(data):<10}`\n".encode()
        made += data + b"\n" * (len(data) % 2)
    return made
