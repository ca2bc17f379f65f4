"""Images, universal files and archives, made from mach-o/loader.h, mach-o/fat.h and docs/FILES.md, and the line that
`symarch-keep add` prints of an image."""
import hashlib
import struct
import uuid
from typing import Dict, Iterable, Iterator, List, Optional, Sequence, Tuple

from ..model.images import sha
from ..model.indexes import EARLIER_IDX, claim_in, entries_in, index_of
from ..model.pages import Claim

Arch = Tuple[int, int]
X86_64, X86_64H = (0x01000007, 3), (0x01000007, 8)
ARM64, ARM64E, ARM64_32 = (0x0100000C, 0), (0x0100000C, 0x80000002), (0x0200000C, 1)
# What is printed of an architecture; the high byte of the cpusubtype does not count.
WORDS: Dict[Tuple[int, ...], str] = {
    **{X86_64: "x86_64", X86_64H: "x86_64h"},
    **{ARM64: "arm64", (0x0100000C, 2): "arm64e", ARM64_32: "cpu:0200000c/00000001"},
}
OBJECT, EXECUTE, DYLIB = 1, 2, 6
UUID_COMMAND = 0x1B
ARCHIVE = b"MSYMARC2"
EMPTY = ARCHIVE + b"\x03" + bytes(8)


def number_uuid(number: int) -> bytes:
    return hashlib.md5(b"%d" % number).digest()


def image(
    number: int, arch: Arch = X86_64, kind: int = EXECUTE, more: bytes = b"", commands: Optional[bytes] = None
) -> bytes:
    """A 64-bit image with a UUID of this number, and no other command."""
    if commands is None:
        commands = struct.pack("<II", UUID_COMMAND, 24) + number_uuid(number)
    count = 0 if not commands else 1
    return struct.pack("<IIIIIIII", 0xFEEDFACF, *arch, kind, count, len(commands), 0, 0) + commands + more


def without_uuid(kind: int) -> bytes:
    return image(0, kind=kind, commands=struct.pack("<II8x", 0x2A, 16))


def symbols_outside(number: int) -> bytes:
    commands = struct.pack("<II", UUID_COMMAND, 24) + number_uuid(number) + struct.pack("<6I", 2, 24, 4096, 1, 0, 0)
    return struct.pack("<IIIIIIII", 0xFEEDFACF, *X86_64, EXECUTE, 2, len(commands), 0, 0) + commands


def thirty_two_bit(order: str = "<") -> bytes:
    return struct.pack(order + "7I", 0xFEEDFACE, 7, 3, EXECUTE, 0, 0, 0)


def universal(parts: Sequence[bytes], wide: bool = False) -> bytes:
    """A universal file. Its parts are aligned to 64 bytes."""
    entry = ">IIQQII" if wide else ">IIIII"
    at, table, body = 8 + len(parts) * struct.calcsize(entry), b"", b""
    for part in parts:
        body += bytes(-(at + len(body)) % 64)
        place = at + len(body)
        table += struct.pack(entry, 7, 3, place, len(part), 6, *([0] if wide else []))
        body += part
    return struct.pack(">II", 0xCAFEBABF if wide else 0xCAFEBABE, len(parts)) + table + body


def slices_in(file: bytes) -> List[bytes]:
    """The slices of a thin file, or of a universal one with entries of 32 bits."""
    if file[:4] != b"\xca\xfe\xba\xbe":
        return [file]
    entries = (struct.unpack_from(">5I", file, 8 + 20 * at) for at in range(int.from_bytes(file[4:8], "big")))
    return [file[offset : offset + size] for _, _, offset, size, _ in entries]


def uuid_of(made: bytes) -> bytes:
    """The UUID of an image, which has one."""
    at, left = 32, struct.unpack_from("<I", made, 16)[0]
    while left:
        command, size = struct.unpack_from("<II", made, at)
        if command == UUID_COMMAND:
            return made[at + 8 : at + 24]
        at, left = at + size, left - 1
    raise ValueError("no UUID")


def key_of(made: bytes) -> bytes:
    """The key of an image: its UUID, its cputype, and its cpusubtype without the high byte."""
    cputype, cpusubtype = struct.unpack_from("<II", made, 4)
    return uuid_of(made) + struct.pack(">II", cputype, cpusubtype & 0xFFFFFF)


def retirement(made: bytes) -> bytes:
    return b"\x01" + key_of(made) + hashlib.sha256(made).digest()


def admission(made: bytes) -> bytes:
    return b"\x02" + key_of(made) + struct.pack(">Q", len(made)) + made


def pieces_of_archive(records: Iterable[bytes], magic: bytes = ARCHIVE) -> Iterator[bytes]:
    """The bytes of the archive of these records, which ascend."""
    count = 0
    yield magic
    for record in records:
        yield record
        count += 1
    yield b"\x03" + struct.pack(">Q", count)


def archive(images: Iterable[bytes], retired: Iterable[bytes] = (), magic: bytes = ARCHIVE) -> bytes:
    """The archive of these images, and of the retirements of those."""
    records = {admission(made) for made in images} | {retirement(made) for made in retired}
    return b"".join(pieces_of_archive(sorted(records), magic))


def records_in(text: bytes) -> List[bytes]:
    """The records of an archive."""
    at, records = 8, []
    while text[at] != 3:
        size = 57 if text[at] == 1 else 33 + int.from_bytes(text[at + 25 : at + 33], "big")
        records.append(text[at : at + size])
        at += size
    return records


def join_of(*texts: bytes) -> bytes:
    """The archive that has what these have together, but for slices that one of them retires."""
    records = {record for text in texts for record in records_in(text)}

    def is_retired(record: bytes) -> bool:
        return record[0] == 2 and b"\x01" + record[1:25] + hashlib.sha256(record[33:]).digest() in records

    return b"".join(pieces_of_archive(sorted(it for it in records if not is_retired(it))))


def operations(images: Iterable[bytes]) -> bytes:
    """The operations file that admits these images, in their order."""
    return b"MSYMOPS1" + b"".join(map(admission, images))


def summary(images: Iterable[bytes]) -> bytes:
    """The summary of the archive of these images."""
    entries = {b"\x02" + key_of(made) + hashlib.sha256(made).digest() for made in images}
    return b"".join(pieces_of_archive(sorted(entries), b"MSYMSUM1"))


def index(images: Iterable[bytes]) -> bytes:
    """The index of the archive of these images."""
    return index_of(archive(images))


def index_without_tables(text: bytes) -> bytes:
    """The index of an archive as it was before it had tables: the first 74 bytes of each entry, and a number."""
    return b"".join(pieces_of_archive((entry[:74] for entry in entries_in(index_of(text))), b"MSYMIDX2"))


def index_of_wide_pages(text: bytes) -> bytes:
    """The index of an archive as it was before pages had 4,096 bytes: the SHA-256 of each 16,384 bytes of a table stood
    before it."""
    index, tables, made = index_of(text), bytearray(b"MSYMIDX2"), []
    for entry in sorted(entries_in(index), key=lambda entry: entry[58:66]):
        if entry[:1] == b"\2":
            place, size = struct.unpack_from(">2Q", entry, 74)
            end = Claim(place, size, b"").end
            table = index[end - size : end]
            digests = b"".join(sha(table[at : at + 16384]) for at in range(0, size, 16384))
            entry = entry[:74] + struct.pack(">2Q", len(tables), size) + sha(digests)
            tables += digests + table
        made.append(entry)
    return bytes(tables) + plain_end(made)


def plain_end(made: Iterable[bytes]) -> bytes:
    """Entries and an end record as they were before entries were stored in pages."""
    entries = sorted(made)
    return b"".join(entries) + b"\3" + struct.pack(">Q", len(entries)) + sha(b"".join(entries))


def index_without_pages(text: bytes) -> bytes:
    """The index of an archive as it was before entries were stored in pages."""
    index = index_of(text)
    entries = entries_in(index)
    return index[: max([len(EARLIER_IDX), *(claim_in(entry).end for entry in entries)])] + plain_end(entries)


def index_of_2_3(text: bytes) -> bytes:
    """The index of an archive as releases before 2.4 wrote it, if no frame in it changed."""
    return EARLIER_IDX + index_without_pages(text)[len(EARLIER_IDX) :]


def digest_of(made: bytes) -> str:
    """The DIGEST of a slice, as it is printed."""
    return hashlib.sha256(made).hexdigest()


def slice_text(made: bytes) -> str:
    """UUID, ARCH and DIGEST of an image, as they are printed."""
    cputype, cpusubtype = struct.unpack_from("<II", made, 4)
    arch = WORDS[cputype, cpusubtype & 0xFFFFFF]
    return f"{uuid.UUID(bytes=uuid_of(made))} {arch} {digest_of(made)}"


def line(word: str, made: bytes, path: str) -> str:
    """The line of a slice, by its path as it has to be printed."""
    return f"{word} {slice_text(made)} {path}"


def slice_words(made: bytes) -> List[str]:
    """UUID, ARCH and DIGEST of an image."""
    return slice_text(made).split()
