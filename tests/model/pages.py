"""Stored bytes, told a second time by docs/FILES.md: the digests of their pages, stored in the same way, and then
themselves; read page by page."""
import struct
from typing import Callable, Dict, List, NamedTuple, Tuple

from .images import sha

PAGE, DIGEST, PIECE = 4096, 32, 64
MOST_ADDRESSES = 1 << 64

# What gives so many bytes from an offset on, as many as there are.
Take = Callable[[int, int], bytes]


class Claim(NamedTuple):
    """Where a stored table begins, how many bytes the table has, and its root."""

    offset: int
    size: int
    root: bytes

    def bytes(self) -> bytes:
        return struct.pack(">QQ", self.offset, self.size) + self.root

    @property
    def levels(self) -> List[Tuple[int, int]]:
        """The offset and the size of each level: of the table, and of the page digests above each."""
        sizes = [self.size]
        while sizes[-1] > PAGE:
            sizes.append(DIGEST * pages_in(sizes[-1]))
        return [(self.offset + sum(sizes[level + 1 :]), size) for level, size in enumerate(sizes)]

    @property
    def stored(self) -> int:
        """How many bytes are stored."""
        return sum(size for _, size in self.levels)

    @property
    def end(self) -> int:
        return self.offset + self.stored


NO_CLAIM = Claim(0, 0, bytes(DIGEST))


def pages_in(size: int) -> int:
    return -(-size // PAGE)


def page_digests(table: bytes) -> bytes:
    return b"".join(sha(table[at : at + PAGE]) for at in range(0, len(table), PAGE))


def stored(table: bytes) -> bytes:
    """A table as it stands in an index."""
    return table if len(table) <= PAGE else stored(page_digests(table)) + table


def root_of(table: bytes) -> bytes:
    """The SHA-256 of the first page that is stored."""
    return sha(table) if len(table) <= PAGE else root_of(page_digests(table))


def claim_at(offset: int, table: bytes) -> Claim:
    return Claim(offset, len(table), root_of(table))


class Changed(Exception):
    """What stands where a claim says is not what it vouches for."""


class Pages:
    """The bytes that a claim names, of which each page is read once, and compared with its digest."""

    def __init__(self, take: Take, claim: Claim) -> None:
        self.take, self.claim = take, claim
        # The pages that were read, by their levels and numbers.
        self.kept: Dict[Tuple[int, int], bytes] = {}
        if claim.end >= MOST_ADDRESSES:
            raise Changed
        self.levels = claim.levels

    def checked(self, offset: int, count: int, digest: bytes) -> bytes:
        found = self.take(offset, count)
        if len(found) < count or sha(found) != digest:
            raise Changed
        return found

    def forget(self) -> None:
        """Keeps no page of the bytes, but those of digests."""
        self.kept = {(level, number): page for (level, number), page in self.kept.items() if level}

    def page(self, level: int, number: int) -> bytes:
        if (level, number) not in self.kept:
            first, size = self.levels[level]
            digest = self.claim.root
            if level + 1 < len(self.levels):
                at = DIGEST * number
                digest = self.page(level + 1, at // PAGE)[at % PAGE :][:DIGEST]
            at = PAGE * number
            self.kept[level, number] = self.checked(first + at, min(PAGE, size - at), digest)
        return self.kept[level, number]

    def read(self, offset: int, count: int) -> bytes:
        """So many bytes of the table from an offset on."""
        found = b""
        while len(found) < count:
            at = offset + len(found)
            if at >= self.claim.size:
                raise Changed
            found += self.page(0, at // PAGE)[at % PAGE :][: count - len(found)]
        return found


def text_from(pages: Pages, at: int, end: int) -> bytes:
    """What stands from a place on, up to a NUL or an end, read piece by piece."""
    text = b""
    while at < end:
        piece = pages.read(at, min(PIECE, end - at))
        part, nul, _ = piece.partition(b"\0")
        text += part
        if nul:
            break
        at += len(piece)
    return text
