"""The content of archives, and the texts of archives, operations and summaries, told a second time. Archives
of both versions are read, and version 2 is written: what the retirements of version 1 cover is dropped."""
import struct
from functools import lru_cache
from typing import Callable, Collection, Dict, Iterable, List, Optional, Set, Tuple

from .images import U32_MAX, Image, image_of, sha, slice_of

OLD_ARCHIVE, ARCHIVE = b"MSYMARC1", b"MSYMARC2"
ARCHIVES = [OLD_ARCHIVE, ARCHIVE]
OPS, SUM = b"MSYMOPS1", b"MSYMSUM1"
# The tags of records, and how long the head of each is in a text.
RETIREMENT, ADMISSION, END = 1, 2, 3
HEADS = {"archive": {1: 57, 2: 33, 3: 9}, "ops": {1: 57, 2: 33}, "summary": {1: 57, 2: 57, 3: 9}}

Write = Callable[[bytes], None]


def end_record(count: int) -> bytes:
    return b"\x03" + struct.pack(">Q", count)


# ---- records and contents


def admission(b: bytes) -> bytes:
    return b"\x02" + image_of(b).key + struct.pack(">Q", len(b)) + b


def retirement(key: bytes, digest: bytes) -> bytes:
    return b"\x01" + key + digest


@lru_cache(maxsize=400000)
def covering(record: bytes) -> bytes:
    """The retirement that covers an admission."""
    return b"\x01" + record[1:25] + sha(record[33:])


def entry_of(record: bytes) -> bytes:
    return record if record[0] == RETIREMENT else b"\x02" + covering(record)[1:]


class Content:
    """A content: its retirements, and its admissions by the retirement that covers each."""

    def __init__(self, records: Iterable[bytes] = ()) -> None:
        self.rets: Set[bytes] = set()
        self.adms: Dict[bytes, bytes] = {}
        for record in records:
            self.take(record)

    def copy(self) -> "Content":
        made = Content()
        made.rets, made.adms = set(self.rets), dict(self.adms)
        return made

    def holds(self, record: bytes) -> bool:
        return record in self.rets if record[0] == RETIREMENT else covering(record) in self.adms

    def take(self, record: bytes) -> bool:
        """Takes a record, and says whether it changed the content."""
        if record[0] == RETIREMENT:
            if record in self.rets:
                return False
            self.rets.add(record)
            self.adms.pop(record, None)
            return True
        cover = covering(record)
        if cover in self.adms or cover in self.rets:
            return False
        self.adms[cover] = record
        return True

    def join(self, other: "Content") -> None:
        for record in [*other.rets, *other.adms.values()]:
            self.take(record)

    def covers(self, other: "Content") -> bool:
        return other.rets <= self.rets and all(it in self.adms or it in self.rets for it in other.adms)

    def live(self) -> List[bytes]:
        return [record for cover, record in self.adms.items() if cover not in self.rets]

    def records(self) -> List[bytes]:
        return sorted(self.rets) + sorted(self.adms.values())

    def len(self) -> int:
        return len(self.rets) + len(self.adms)

    def text(self) -> bytes:
        return ARCHIVE + b"".join(self.records()) + end_record(self.len())

    def summary(self) -> Set[bytes]:
        return self.rets | {b"\x02" + cover[1:] for cover in self.adms}

    def delta(self, entries: Collection[bytes]) -> "Content":
        made = Content()
        made.rets = {it for it in self.rets if it not in entries}
        made.adms = {cover: it for cover, it in self.adms.items() if b"\x02" + cover[1:] not in entries}
        return made

    def answering(self, key: bytes) -> List[Image]:
        """The slices that answer for a key: its companions, if it has any."""
        images = [image_of(record[33:]) for record in sorted(it for it in self.live() if it[1:25] == key)]
        return [it for it in images if it.is_dsym] or images


def summary_text(entries: Collection[bytes]) -> bytes:
    return SUM + b"".join(sorted(entries)) + end_record(len(entries))


# ---- readers


class Fault(Exception):
    """What is wrong with a text, and where."""

    def __init__(self, kind: str, at: int) -> None:
        super().__init__(kind, at)
        self.text = f"{kind} at {at}"


class Source:
    """First bytes of a file, which fails where it gave so many."""

    def __init__(self, data: bytes, fails_after: Optional[int] = None) -> None:
        self.data, self.pos, self.limit = data, 0, fails_after
        self.fails = fails_after is not None and fails_after <= len(data)
        self.end = fails_after if fails_after is not None and self.fails else len(data)

    def take(self, count: int) -> bytes:
        some = self.data[self.pos : min(self.pos + count, self.end)]
        self.pos += len(some)
        return some

    def rest(self) -> bytes:
        return self.take(1 << 62)


class Reader:
    """One text of records: kind `archive`, `ops` or `summary`."""

    def __init__(self, source: Source, kind: str) -> None:
        self.source, self.kind, self.at = source, kind, 0
        self.last: Optional[bytes] = None
        self.count = 0
        self.rets: Set[bytes] = set()
        self.version: Optional[int] = None

    def ended(self, at: int) -> Fault:
        return Fault("Device" if self.source.fails else "Truncated", at)

    def magic(self) -> None:
        wants = {"archive": ARCHIVES, "ops": [OPS], "summary": [SUM]}[self.kind]
        got = self.source.take(8)
        if len(got) < 8 and self.source.fails:
            raise Fault("Device", 0)
        if not any(want.startswith(got) for want in wants):
            raise Fault("BadMagic", 0)
        if len(got) < 8:
            raise Fault("Truncated", 0)
        self.at = 8
        if self.kind == "archive":
            self.version = int(got[7:])

    def next(self, whole: bool = True) -> Optional[bytes]:
        """A record or an entry, or None at the end."""
        at = self.at
        record = self.source.take(1)
        if not record:
            if self.kind == "ops" and not self.source.fails:
                return None
            raise self.ended(at)
        tag, heads = record[0], HEADS[self.kind]
        if tag not in heads:
            raise Fault("BadTag", at)
        record += self.source.take(heads[tag] - 1)
        if len(record) < heads[tag]:
            raise self.ended(at)
        if tag == END:
            self.test_end(record, at, whole)
            return None
        is_slice = tag == ADMISSION and self.kind != "summary"
        if is_slice:
            record += self.slice_bytes(record, at)
        if self.kind != "ops" and self.last is not None and record <= self.last:
            raise Fault("NotAscending", at)
        if is_slice:
            self.test_slice(record, at)
        if self.kind == "archive" and tag == RETIREMENT:
            self.rets.add(record)
        self.last = record
        self.count += 1
        self.at = at + len(record)
        return record

    def test_end(self, record: bytes, at: int, whole: bool) -> None:
        """The end record, after which nothing stands if the whole is asked for."""
        if int.from_bytes(record[1:], "big") != self.count:
            raise Fault("BadCount", at)
        if whole:
            if self.source.take(1):
                raise Fault("Trailing", at + 9)
            if self.source.fails:
                raise Fault("Device", at)

    def slice_bytes(self, head: bytes, at: int) -> bytes:
        length = int.from_bytes(head[25:33], "big")
        if length > U32_MAX:
            raise Fault("TooLarge", at)
        found = self.source.take(length)
        if len(found) < length:
            raise self.ended(at)
        return found

    def test_slice(self, record: bytes, at: int) -> None:
        found = slice_of(record[33:])
        if isinstance(found, str):
            raise Fault(f"BadSlice({found})", at)
        if found.key != record[1:25]:
            raise Fault("KeyMismatch", at)
        if self.version == 2 and covering(record) in self.rets:
            raise Fault("Covered", at)


def read_list(source: Source, kind: str, whole: bool = True) -> List[bytes]:
    reader = Reader(source, kind)
    reader.magic()
    found: List[bytes] = []
    while True:
        record = reader.next(whole)
        if record is None:
            return found
        found.append(record)


def read_archive(source: Source, whole: bool = True) -> Content:
    made = Content()
    for record in read_list(source, "archive", whole):
        if record[0] == RETIREMENT:
            made.rets.add(record)
        elif covering(record) not in made.rets:
            made.adms[covering(record)] = record
    return made


def read_ops(source: Source) -> List[bytes]:
    return read_list(source, "ops")


def read_summary(source: Source) -> Set[bytes]:
    return set(read_list(source, "summary"))


def archive_of(b: bytes) -> Content:
    return read_archive(Source(b))


# ---- merges


class MergeFault(Exception):
    """The fault of side 0 or 1; no side where the output failed."""

    def __init__(self, side: Optional[int], text: str) -> None:
        super().__init__(side, text)
        self.side, self.text = side, text


def magic_fault(source: Source) -> Optional[str]:
    """The fault of an archive's magic, if it has one."""
    try:
        Reader(source, "archive").magic()
    except Fault as fault:
        return fault.text
    return None


class Side:
    """A side of a merge, whose faults name it."""

    def __init__(self, number: int, source: Source) -> None:
        self.number, self.reader = number, Reader(source, "archive")
        self.record: Optional[bytes] = None

    def magic(self) -> None:
        try:
            self.reader.magic()
        except Fault as fault:
            raise MergeFault(self.number, fault.text) from None

    def next(self) -> None:
        try:
            self.record = self.reader.next()
        except Fault as fault:
            raise MergeFault(self.number, fault.text) from None


def merge_streams(left: Source, right: Source, write: Write) -> int:
    """The order of reading and writing of two sides; `write` raises where the output fails. Returns how many records
    were written."""
    sides = [Side(0, left), Side(1, right)]
    for side in sides:
        side.magic()
    write(ARCHIVE)
    for side in sides:
        side.next()
    count = 0
    while True:
        first = [side.record for side in sides if side.record is not None]
        if not first:
            break
        least = min(first)
        is_covered = least[0] == ADMISSION and any(covering(least) in side.reader.rets for side in sides)
        if not is_covered:
            write(least)
            count += 1
        for side in [side for side in sides if side.record == least]:
            side.next()
    write(end_record(count))
    return count


def copy_unnamed(source: Source, entries: Collection[bytes], write: Write) -> int:
    """The records that entries do not name, written as they are read; how many there are."""
    reader = Reader(source, "archive")
    reader.magic()
    write(ARCHIVE)
    count, record = 0, reader.next()
    while record is not None:
        is_covered = record[0] == ADMISSION and covering(record) in reader.rets
        if not is_covered and entry_of(record) not in entries:
            write(record)
            count += 1
        record = reader.next()
    write(end_record(count))
    return count


def good_front(data: bytes) -> Tuple[List[bytes], Optional[str]]:
    """The records of the longest good front, and the fault after it, if there is one; no records without the magic."""
    reader = Reader(Source(data), "archive")
    records: List[bytes] = []
    try:
        reader.magic()
        while True:
            record = reader.next()
            if record is None:
                return records, None
            records.append(record)
    except Fault as fault:
        return records, fault.text


def merged_by_definition(left: bytes, right: bytes) -> Tuple[bytes, Optional[Tuple[int, str]]]:
    """What OUT has, and the side and its fault if there is one, by the place of a merge's fault."""
    fronts = [good_front(left), good_front(right)]
    for side, text in enumerate((left, right)):
        if text[:8] not in ARCHIVES:
            return b"", (side, str(fronts[side][1]))
    faulty = [(records[-1] if records else b"", side) for side, (records, fault) in enumerate(fronts) if fault]
    every = set(fronts[0][0]) | set(fronts[1][0])
    records = sorted(it for it in every if it[0] == RETIREMENT or covering(it) not in every)
    if not faulty:
        return ARCHIVE + b"".join(records) + end_record(len(records)), None
    last, side = min(faulty)
    return ARCHIVE + b"".join(it for it in records if it <= last), (side, str(fronts[side][1]))
