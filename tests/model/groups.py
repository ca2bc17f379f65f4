"""Parts of tables whose rows are numbers in LEB128, group by group, told a second time by docs/FILES.md: written, and
read page by page."""
import struct
from typing import Callable, Optional, Sequence, Tuple, TypeVar

from .pages import MOST_ADDRESSES, Changed, Pages

T = TypeVar("T")
PER_GROUP, GROUP, MOST_BYTES = 128, 16, 5120


# ---- made


def signed(number: int) -> bytes:
    """A number in LEB128, which may be negative, in its fewest bytes."""
    made = bytearray()
    while not -64 <= number < 64:
        made.append(128 + number % 128)
        number //= 128
    return bytes([*made, number % 128])


def difference(new: int, old: int) -> int:
    """The number of 64 bits, with its sign, that makes one of two numbers the other."""
    apart = (new - old) % MOST_ADDRESSES
    return apart - MOST_ADDRESSES if apart >= MOST_ADDRESSES // 2 else apart


def differences(rows: Sequence[Tuple[int, ...]]) -> bytes:
    """A group of rows: each number as its difference from that of the row before."""
    made, last = bytearray(), (0,) * len(rows[0])
    for row in rows:
        for new, old in zip(row, last):
            made += signed(difference(new, old))
        last = row
    return bytes(made)


def grouped(rows: Sequence[T], key: Callable[[T], int], write: Callable[[Sequence[T]], bytes]) -> Tuple[bytes, bytes]:
    """The groups, each the key of its first row and the bytes before it; and the rows."""
    groups = [rows[at : at + PER_GROUP] for at in range(0, len(rows), PER_GROUP)]
    written = [write(group) for group in groups]
    places, before = [], 0
    for group, content in zip(groups, written):
        places.append(struct.pack(">2Q", key(group[0]), before))
        before += len(content)
    return b"".join(places), b"".join(written)


# ---- asked


class Numbers:
    """The numbers of a group, read front to back."""

    def __init__(self, content: bytes) -> None:
        self.content, self.at = content, 0

    @property
    def are_read(self) -> bool:
        return self.at == len(self.content)

    def signed(self) -> int:
        """A number that may be negative, as the low 64 of its bits."""
        value, bits = 0, 0
        while True:
            if self.are_read:
                raise Changed
            byte = self.content[self.at]
            self.at += 1
            value |= byte % 128 << bits
            bits += 7
            if byte < 128:
                return (value - (1 << bits) if byte >= 64 else value) % MOST_ADDRESSES


class Groups:
    """A part of a table: where its groups stand, and its rows."""

    def __init__(self, pages: Pages, first: int, rows: int, size: int) -> None:
        self.pages, self.first, self.count, self.size = pages, first, -(-rows // PER_GROUP), size
        self.rows = first + GROUP * self.count
        self.end = self.rows + size

    def group(self, number: int) -> Tuple[int, int]:
        """The key of a group, and the bytes before it."""
        key, before = struct.unpack(">2Q", self.pages.read(self.first + GROUP * number, GROUP))
        return key, before

    def numbers(self, number: int) -> Numbers:
        """The numbers of a group."""
        begin = self.group(number)[1]
        end = self.group(number + 1)[1] if number + 1 < self.count else self.size
        if not begin <= end <= min(self.size, begin + MOST_BYTES):
            raise Changed
        return Numbers(self.pages.read(self.rows + begin, end - begin))

    def found(self, key: int) -> Optional[Numbers]:
        """The last group whose key is not above this one, found by halving."""
        low, high = 0, self.count
        while low < high:
            middle = (low + high) // 2
            if self.group(middle)[0] <= key:
                low = middle + 1
            else:
                high = middle
        return self.numbers(low - 1) if low else None
