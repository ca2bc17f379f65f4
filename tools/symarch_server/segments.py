"""Bytes of several open files as one file, which is read from any place."""
from __future__ import annotations

import bisect
import io
import os
from dataclasses import dataclass, field
from typing import Callable, List, NamedTuple, Optional

from .control import close


class Segment(NamedTuple):
    """Bytes: some themselves, or so many of an open file from a place on."""

    data: Optional[bytes]
    descriptor: int
    at: int
    length: int


# So much is read at once. Each connection to which a file is sent holds as much.
BLOCK = 1 << 16


@dataclass(eq=False)
class Segments(io.RawIOBase):
    """Bytes one after another. It closes the files at its end."""

    at_end: Optional[Callable[[], None]] = None
    parts: List[Segment] = field(default_factory=list)
    ends: List[int] = field(default_factory=list)
    descriptors: List[int] = field(default_factory=list)
    place: int = 0
    # What was read last, and where it stands: waitress reads what it sends, and reads again what it sent of it.
    last: bytes = b""
    last_at: int = 0

    def add(self, data: bytes) -> None:
        self.append(Segment(data, -1, 0, len(data)))

    def add_file(self, descriptor: int, at: int, length: int) -> None:
        """Adds bytes of an open file, which is closed with this."""
        self.descriptors.append(descriptor)
        self.append(Segment(None, descriptor, at, length))

    def append(self, segment: Segment) -> None:
        if segment.length:
            self.parts.append(segment)
            self.ends.append(self.size() + segment.length)

    def size(self) -> int:
        return self.ends[-1] if self.ends else 0

    # ---- as a file

    def readable(self) -> bool:
        return True

    def seekable(self) -> bool:
        return True

    def tell(self) -> int:
        return self.place

    def seek(self, offset: int, whence: int = io.SEEK_SET) -> int:
        begin = {io.SEEK_SET: 0, io.SEEK_CUR: self.place, io.SEEK_END: self.size()}[whence]
        self.place = max(begin + offset, 0)
        return self.place

    def read(self, size: int = -1) -> bytes:
        """The next bytes, fewer than are asked for where more than a block is."""
        begin = self.place - self.last_at
        if not 0 <= begin < len(self.last):
            self.last, self.last_at, begin = self.block(), self.place, 0
        most = len(self.last) if size < 0 else begin + size
        data = self.last[begin:most]
        self.place += len(data)
        return data

    def block(self) -> bytes:
        """The bytes from here on, so many of them as one read has."""
        if self.place >= self.size():
            return b""
        number = bisect.bisect_right(self.ends, self.place)
        part = self.parts[number]
        inside = self.place - (self.ends[number] - part.length)
        size = min(BLOCK, part.length - inside)
        if part.data is not None:
            return part.data[inside : inside + size]
        data = os.pread(part.descriptor, size, part.at + inside)
        if not data:
            raise OSError("a file is shorter than it was")
        return data

    def close(self) -> None:
        if not self.closed:
            close(self.descriptors)
            if self.at_end:
                self.at_end()
        super().close()
