"""Contents of archives: the retirements and the slices of one, by key and digest. docs/FILES.md has the bytes of
archives and summaries."""
import functools
import hashlib
import os
import re
import struct
from dataclasses import dataclass, field
from typing import BinaryIO, Callable, Collection, Dict, Iterable, Iterator, List, Optional, Sequence, Set, Tuple

MAGICS = (b"MSYMARC2", b"MSYMARC1")
SUMMARY = b"MSYMSUM1"
RETIREMENT, ADMISSION, END = b"\1", b"\2", b"\3"
MAGIC, KEY, DIGEST, LENGTH = 8, 24, 32, 8
ENTRY = KEY + DIGEST
EMPTY = MAGICS[0] + END + bytes(LENGTH)
TOO_LARGE = 1 << 32
# Larger pieces of a file leave the cache of the processor before they are hashed.
CHUNK = 1 << 17

NAMES = {(0x01000007, 3): "x86_64", (0x01000007, 8): "x86_64h", (0x0100000C, 0): "arm64", (0x0100000C, 2): "arm64e"}
NUMBERS = {name: numbers for numbers, name in NAMES.items()}
NUMBERED = re.compile("cpu:([0-9a-fA-F]{8})/([0-9a-fA-F]{8})")
# The first line of a file that is kept next to an archive, and how the last one begins.
FIRST, LAST = "symarch-keep 1\n", "sha256 "
# How many digits the sum of a line of ARCHIVE.builds has, and how long a field of it may be.
SUM, MOST_OF_FIELD = 16, 255


# What is called for each piece of a file that is read, with its length.
Moved = Callable[[int], None]


class Malformed(Exception):
    """Why bytes are no archive, no summary, or no file that is kept next to an archive."""


class EndsEarly(Malformed):
    """What is cut short."""


def unmoved(_size: int) -> None:
    """For a file of which nobody watches how far it is read."""


@dataclass
class Content:
    """A set of retirements, by key and digest, and the slices that none of them withdraws, with their lengths."""

    retired: Set[bytes] = field(default_factory=set)
    held: Dict[bytes, int] = field(default_factory=dict)

    def __len__(self) -> int:
        return len(self.retired) + len(self.held)

    def joined(self, other: "Content") -> "Content":
        return join_of([self, other])

    def take(self, other: "Content") -> None:
        """Becomes the join with another one, at the cost of that alone."""
        self.retired |= other.retired
        self.held.update(other.held)
        for entry in other.retired.union(other.held).intersection(self.retired):
            self.held.pop(entry, None)

    def beyond(self, other: "Content") -> "Content":
        """What `other` has neither as it is here nor withdrawn."""
        held = {
            entry: length
            for entry, length in self.held.items()
            if entry not in other.held and entry not in other.retired
        }
        return Content(self.retired - other.retired, held)

    def heads(self) -> List[bytes]:
        """The records in their order, without the bytes of slices."""
        admissions = (head_of(entry[:KEY], length) for entry, length in self.held.items())
        return sorted(RETIREMENT + entry for entry in self.retired) + sorted(admissions)

    def size(self) -> int:
        """How long its archive is."""
        return MAGIC + sum(map(record_size, self.heads())) + len(END) + LENGTH

    def entries(self) -> List[bytes]:
        return sorted([RETIREMENT + entry for entry in self.retired] + [ADMISSION + entry for entry in self.held])

    def summary(self) -> bytes:
        return summary_of(self.entries())


def join_of(contents: Sequence[Content]) -> Content:
    """What some contents have together."""
    joined = Content(set().union(*(one.retired for one in contents)))
    for one in contents:
        joined.held.update(one.held)
    for entry in joined.retired.intersection(joined.held):
        del joined.held[entry]
    return joined


def is_within(content: Content, others: Sequence[Content]) -> bool:
    """Whether others have all of a content, or withdraw it."""
    are_retired = all(any(entry in one.retired for one in others) for entry in content.retired)
    return are_retired and all(
        any(entry in one.held or entry in one.retired for one in others) for entry in content.held
    )


def archive_of_retirements(entries: Collection[bytes]) -> List[bytes]:
    """The pieces of the archive of retirements, by key and digest."""
    return [MAGICS[0], *sorted(RETIREMENT + entry for entry in entries), END, len(entries).to_bytes(LENGTH, "big")]


def head_of(key: bytes, length: int) -> bytes:
    return ADMISSION + key + length.to_bytes(LENGTH, "big")


def record_size(head: bytes) -> int:
    """How long a record is, by its head."""
    return len(head) + (int.from_bytes(head[-LENGTH:], "big") if head[:1] == ADMISSION else 0)


def summary_of(entries: Collection[bytes]) -> bytes:
    return SUMMARY + b"".join(entries) + END + len(entries).to_bytes(LENGTH, "big")


def entries_in(summary: bytes) -> List[bytes]:
    """The entries of a summary."""
    size = len(RETIREMENT) + ENTRY
    body = summary[MAGIC : -LENGTH - len(END)]
    entries = [body[at : at + size] for at in range(0, len(body), size)]
    if summary != summary_of(entries) or any(one[:1] not in (RETIREMENT, ADMISSION) for one in entries):
        raise Malformed("is no summary")
    return entries


def content_of(entries: Iterable[bytes]) -> Content:
    """The content whose summary has these entries, where the lengths of slices are not known."""
    retired = {entry[1:] for entry in entries if entry[:1] == RETIREMENT}
    return Content(retired, {entry[1:]: 0 for entry in entries if entry[:1] == ADMISSION})


# ---- archives


def exactly(file: BinaryIO, size: int) -> bytes:
    data = file.read(size)
    if len(data) < size:
        raise EndsEarly("ends early")
    return data


def records_in(file: BinaryIO) -> Iterator[Tuple[bytes, int]]:
    """The head of each record of an archive, and where its slice begins; the file stands there. The bytes of slices are
    not looked at."""
    file.seek(0)
    if exactly(file, MAGIC) not in MAGICS:
        raise Malformed("is no archive")
    size, count, at = os.fstat(file.fileno()).st_size, 0, MAGIC
    while (tag := exactly(file, 1)) in (RETIREMENT, ADMISSION):
        head = tag + exactly(file, ENTRY if tag == RETIREMENT else KEY + LENGTH)
        yield head, at + len(head)
        at, count = at + record_size(head), count + 1
        if at > size:
            raise EndsEarly("ends early")
        file.seek(at)
    if tag != END or int.from_bytes(exactly(file, LENGTH), "big") != count or file.read(1):
        raise Malformed("has no right end")


def heads_in(file: BinaryIO) -> Optional[List[bytes]]:
    """The heads of an archive's records; None where it is none, or where retirements next to their slices have to be
    read together, as in version 1."""
    try:
        heads = [head for head, _ in records_in(file)]
    except Malformed:
        return None
    file.seek(0)
    return heads if file.read(MAGIC) == MAGICS[0] else None


def chunks_in(file: BinaryIO) -> Iterator[bytes]:
    """What is left of a file."""
    return iter(lambda: file.read(CHUNK), b"")


def digest_in(file: BinaryIO, at: int, length: int, moved: Moved = unmoved) -> bytes:
    """The SHA-256 of so many bytes of a file, or of what there is of them."""
    digest = hashlib.sha256()
    file.seek(at)
    while length > 0 and (chunk := file.read(min(length, CHUNK))):
        digest.update(chunk)
        length -= len(chunk)
        moved(len(chunk))
    return digest.digest()


def content_in(file: BinaryIO, moved: Moved = unmoved, places: Optional[Dict[bytes, int]] = None) -> Content:
    """The content of an archive, which is read to its end. Where each slice begins is noted, if that is wanted."""
    content = Content()
    for head, at in records_in(file):
        if head[:1] == RETIREMENT:
            content.retired.add(head[1:])
        else:
            length = record_size(head) - len(head)
            entry = head[1 : 1 + KEY] + digest_in(file, at, length, moved)
            content.held[entry] = length
            if places is not None:
                places[entry] = at
    return Content().joined(content)


# ---- words


def arch_of(numbers: Tuple[int, int]) -> str:
    return NAMES.get(numbers) or "cpu:{:08x}/{:08x}".format(*numbers)


def uuid_text(number: bytes) -> str:
    """A UUID as it is printed."""
    digits = number.hex()
    return f"{digits[:8]}-{digits[8:12]}-{digits[12:16]}-{digits[16:20]}-{digits[20:]}"


def words_of(entry: bytes) -> str:
    """UUID, ARCH and DIGEST of a slice."""
    return f"{uuid_text(entry[:16])} {arch_in(entry[16:KEY])} {entry[KEY:].hex()}"


@functools.lru_cache(maxsize=None)
def arch_in(numbers: bytes) -> str:
    cputype, cpusubtype = struct.unpack(">II", numbers)
    return arch_of((cputype, cpusubtype))


@functools.lru_cache(maxsize=None)
def numbers_of(arch: str) -> bytes:
    """The bytes that an ARCH means; ValueError where it has another form."""
    numbered = NUMBERED.fullmatch(arch)
    if numbered:
        return struct.pack(">II", *(int(digits, 16) for digits in numbered.groups()))
    if arch not in NUMBERS:
        raise ValueError("ARCH")
    return struct.pack(">II", *NUMBERS[arch])


def entry_in(name: str, arch: str, digest: str) -> bytes:
    """The key and the digest that three words mean, which `words_of` wrote."""
    return bytes.fromhex(name.replace("-", "")) + numbers_of(arch) + bytes.fromhex(digest)


# ---- files that are kept next to an archive


def sum_of(text: bytes) -> bytes:
    """The sum before a line of ARCHIVE.builds."""
    return hashlib.sha256(text).hexdigest()[:SUM].encode()


def kept_text(content: Content, notes: Iterable[str] = ()) -> bytes:
    """The text of a file that has a content, and lines of other words before it."""
    lines = [f"{note}\n" for note in notes]
    lines += [f"retired {words_of(entry)}\n" for entry in sorted(content.retired)]
    lines += [f"slice {words_of(entry)} {length}\n" for entry, length in sorted(content.held.items())]
    text = FIRST + "".join(lines)
    return f"{text}{LAST}{hashlib.sha256(text.encode()).hexdigest()}\n".encode()


class KeptFile:
    """What a file has that is kept next to an archive: the lines of a content, and notes, which are its other lines."""

    def __init__(self, data: bytes) -> None:
        text, last, digest = data.decode(errors="replace").rpartition(LAST)
        if not last or not text.startswith(FIRST) or digest != f"{hashlib.sha256(text.encode()).hexdigest()}\n":
            raise Malformed("is damaged")
        self.lines = text[len(FIRST) :].splitlines()
        self.notes = [line for line in self.lines if not line.startswith(("retired ", "slice "))]

    def content(self, begins: str = "") -> Content:
        """The content of the lines that begin so."""
        content = Content()
        for line in self.lines:
            word, *more = line[len(begins) :].split(" ") if line.startswith(begins) else [""]
            if word == "retired":
                content.retired.add(entry_in(*more))
            elif word == "slice":
                content.held[entry_in(*more[:3])] = int(more[3])
        return content
