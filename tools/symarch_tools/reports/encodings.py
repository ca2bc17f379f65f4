"""The bytes of a report: a byte-order mark and UTF-16 are read, and written again as they were."""
from __future__ import annotations

import codecs
from typing import Iterator, NamedTuple, Tuple

UTF_8, UTF_16_LE, UTF_16_BE = "utf-8", "utf-16-le", "utf-16-be"
MARKS = ((codecs.BOM_UTF8, UTF_8), (codecs.BOM_UTF16_LE, UTF_16_LE), (codecs.BOM_UTF16_BE, UTF_16_BE))
# So many bytes say whether a report without a mark is UTF-16: reports begin with ASCII.
FIRST = 16
# UTF-16 is converted in pieces of so many bytes, since a text needs up to four bytes a character.
PIECE = 1 << 20


class Encoding(NamedTuple):
    """How the bytes of a report stand in its file: after a mark, in a codec, and before the half of a character."""

    mark: bytes
    codec: str
    half: bytes = b""

    def written(self, data: bytes) -> Iterator[bytes]:
        """The bytes of a file for a piece of UTF-8 that is cut within no character."""
        if self.codec == UTF_8:
            yield data
            return
        for piece in whole_pieces(data):
            text = piece.decode(UTF_8, "surrogatepass")
            yield text.encode(self.codec, "surrogatepass")

    def byte_of(self, data: bytes, place: int) -> int:
        """The byte of the file that a byte of the UTF-8 comes from."""
        if self.codec == UTF_8:
            return len(self.mark) + place
        return len(self.mark) + sum(len(part) for part in self.written(data[:place]))


def whole_pieces(data: bytes) -> Iterator[bytes]:
    """Pieces that end where a character ends."""
    begin = 0
    while begin < len(data):
        end = min(begin + PIECE, len(data))
        while end < len(data) and data[end] & 0xC0 == 0x80:
            end -= 1
        yield bytes(data[begin:end])
        begin = end


def codec_of(raw: bytes) -> Tuple[bytes, str]:
    """The mark and the codec of a file."""
    for mark, codec in MARKS:
        if raw.startswith(mark):
            return mark, codec
    first = raw[:FIRST]
    evens, odds = first[: len(first) & ~1 : 2], first[1::2]
    if odds and not any(odds) and all(evens):
        return b"", UTF_16_LE
    if odds and not any(evens) and all(odds):
        return b"", UTF_16_BE
    return b"", UTF_8


def decoded(raw: bytes) -> Tuple[bytes, Encoding]:
    """The UTF-8 of the bytes of a file, and how they stood there. What is no UTF-8 stays as it is."""
    mark, codec = codec_of(raw)
    if codec == UTF_8:
        return raw[len(mark) :] if mark else raw, Encoding(mark, codec)
    end = len(raw) - (len(raw) - len(mark)) % 2
    decode = codecs.getincrementaldecoder(codec)("surrogatepass").decode
    made = bytearray()
    for begin in range(len(mark), end, PIECE):
        piece = raw[begin : min(begin + PIECE, end)]
        made += decode(piece, begin + PIECE >= end).encode(UTF_8, "surrogatepass")
    return bytes(made), Encoding(mark, codec, raw[end:])
