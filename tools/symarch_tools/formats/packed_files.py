"""Zip files and gzipped tar files, of which each member is read in turn. A member that is asked for is unpacked into a
file that has no name, so nothing is left of it however the tool ends; the name of a member is never a path."""
import contextlib
import copy
import functools
import io
import os
from dataclasses import dataclass, field
from typing import IO, Any, BinaryIO, Callable, Container, Dict, Iterator, NamedTuple, Optional, Set, Tuple, Type, cast

from ..console.signals import signals
from .contents import CHUNK, TOO_LARGE
from .files import DESCRIPTORS

ZIP, GZIP = b"PK\3\4", b"\x1f\x8b"
MAGIC_AT, TAR = 257, b"ustar"
# What such files are called that are taken of folders.
NAMES_OF_PACKED = (b".zip", b".ipa", b".tar.gz", b".tgz")
# How deep such a file may lie in others.
MOST_LEVELS = 3
# How many bytes a member may unpack to.
MOST = TOO_LARGE - 1
# All members together may unpack to so many times the bytes of their file, and these. Images pack to a third or a
# tenth; deflate alone packs to a thousandth, and members of a zip file may even have the same packed bytes.
MOST_TIMES, MOST_OF_ALL = 100, 64 << 20
# Deflate alone unpacks in small pieces whatever it has.
STORED, DEFLATED, IS_ENCRYPTED = 0, 8, 1
GONE = "it is not there any more"


class Damaged(Exception):
    """Why a member, or the file that has it, is not read."""


class TooMuch(Damaged):
    """Why no more members of a file are read."""


class DamagedInner(Damaged):
    """Why a packed file that is a member is not read, though its bytes are as its entry promises."""


@dataclass(eq=False)
class Allowance:
    """How many bytes the members of a file may unpack to, with those of files among them, when it is read once, and how
    many are left of these."""

    most: int
    left: int = field(init=False)

    def __post_init__(self) -> None:
        self.left = self.most

    def take(self, size: int) -> None:
        self.left -= size
        if self.left < 0:
            raise TooMuch(f"unpacks, with the members before it, to more than {self.most} bytes")


def faults() -> Tuple[Type[Exception], ...]:
    """What the modules of Python raise of such a file."""
    from .packed_modules import FAULTS

    return FAULTS


@contextlib.contextmanager
def faults_of(kind: str) -> Iterator[None]:
    """What the modules of Python raise of such a file is a fault of it, except for what the system said."""
    try:
        yield
    except faults():
        raise Damaged(f"{kind}cut or damaged") from None
    except OSError as error:
        if error.errno is not None:
            raise
        raise Damaged(f"{kind}cut or damaged") from None


@contextlib.contextmanager
def unnamed() -> Iterator[BinaryIO]:
    """A file without a name, which is closed where it cannot be written."""
    with contextlib.ExitStack() as ends:
        with signals.later():
            import tempfile

            file = cast(BinaryIO, ends.enter_context(tempfile.TemporaryFile()))
        yield file
        ends.pop_all()


class Member(NamedTuple):
    """A member: its place among all, its name, what it promises, its bytes, and why they are not read."""

    number: int
    name: bytes
    size: int
    stream: Optional[IO[bytes]]
    allowance: Allowance
    fault: str = ""

    def read(self, size: int) -> bytes:
        if self.stream is None:
            raise Damaged(self.fault)
        with faults_of(""):
            chunk = self.stream.read(size)
        self.allowance.take(len(chunk))
        return chunk

    def unpack(self, file: BinaryIO, front: bytes, most: Optional[int] = None) -> None:
        """Writes its bytes, of which the first were read, up to a limit, or to that of slices. What comes is counted,
        whatever was promised."""
        size, chunk = 0, front
        limit, why = (MOST, ", and no slice has more") if most is None else (most, "")
        while chunk:
            size += len(chunk)
            if size > limit:
                raise Damaged(f"unpacks to more than {limit} bytes{why}")
            file.write(chunk)
            chunk = self.read(CHUNK)
        if size != self.size:
            raise Damaged(f"unpacks to {size} bytes, and its entry promises {self.size}")

    def whole(self, most: int) -> bytes:
        """Its bytes, if they are not more than these."""
        made = io.BytesIO()
        self.unpack(made, self.read(CHUNK), most)
        return made.getvalue()

    def unpacked(self, front: bytes) -> BinaryIO:
        """A file of its bytes, of which the first were read."""
        with unnamed() as file:
            self.unpack(file, front)
            file.flush()
        return file


class Metered(NamedTuple):
    """A stream of which each byte is counted."""

    stream: IO[bytes]
    allowance: Allowance

    def read(self, size: int = -1) -> bytes:
        chunk = self.stream.read(size)
        self.allowance.take(len(chunk))
        return chunk


@dataclass(eq=False)
class Packed:
    """A zip file, or else a gzipped tar file, which a call opens, and to how many bytes its members may unpack. In a
    zip file what is wrong with a member is not wrong with others. Of an inner tar file all is counted, also what is
    passed over: it may be as long as the outermost file unpacks to, and unpack to a thousand times that."""

    opens: Callable[[], BinaryIO]
    is_zip: bool
    most: int
    is_inner: bool = False

    @property
    def kind(self) -> str:
        return "a zip file" if self.is_zip else "a gzipped tar file"

    def members(self, first: int = 0, allowance: Optional[Allowance] = None) -> Iterator[Member]:
        """The members from one on, each of which has to be read before the next."""
        allowance = allowance or Allowance(self.most)
        with faults_of(f"{self.kind} that is "):
            yield from self.zip_members(first, allowance) if self.is_zip else self.tar_members(first, allowance)

    def zip_members(self, first: int, allowance: Allowance) -> Iterator[Member]:
        import zipfile

        with self.opens() as file, zipfile.ZipFile(file) as packed:
            for number, entry in enumerate(packed.infolist()[first:], first):
                name = entry.filename.encode(errors="surrogateescape")
                if entry.is_dir():
                    continue
                if entry.flag_bits & IS_ENCRYPTED:
                    yield Member(number, name, 0, None, allowance, "encrypted")
                elif entry.compress_type not in (STORED, DEFLATED):
                    yield Member(number, name, 0, None, allowance, "packed by another method than deflate")
                else:
                    # It is read to its end or past the limit, however few bytes its entry promises.
                    whole = copy.copy(entry)
                    whole.file_size = MOST + 2 * CHUNK
                    try:
                        stream = packed.open(whole)
                    except faults():
                        yield Member(number, name, 0, None, allowance, "cut or damaged")
                        continue
                    with stream:
                        yield Member(number, name, entry.file_size, stream, allowance)

    def tar_members(self, first: int, allowance: Allowance) -> Iterator[Member]:
        import gzip
        import tarfile

        from .packed_modules import TarHeader

        with self.opens() as file, gzip.GzipFile(fileobj=file) as stream:
            whole, number = cast(IO[bytes], stream), -1
            if self.is_inner:
                whole, allowance = cast(IO[bytes], Metered(whole, allowance)), Allowance(self.most)
            with tarfile.open(fileobj=whole, mode="r|", tarinfo=TarHeader, errors="surrogateescape") as packed:
                while (entry := packed.next()) is not None:
                    number += 1
                    # Only the one that is read is kept.
                    packed.members = []  # type: ignore[attr-defined]
                    if number >= first and entry.isreg():
                        name = entry.name.encode(errors="surrogateescape")
                        yield Member(number, name, entry.size, packed.extractfile(entry), allowance)
            # What is wrong with the whole is known at its end.
            while whole.read(CHUNK):
                pass


def packed_at(path: bytes) -> Optional[Packed]:
    """The zip or gzipped tar file of a path, if it is one."""
    return packed_by(lambda: open(path, "rb"), MOST_TIMES * os.stat(path).st_size + MOST_OF_ALL)


def packed_by(opens: Callable[[], BinaryIO], most: int, is_inner: bool = False) -> Optional[Packed]:
    """The zip or gzipped tar file that a call opens, if it is one."""
    with opens() as file:
        front = file.read(len(ZIP))
        if front == ZIP:
            return Packed(opens, True, most, is_inner)
        if front[: len(GZIP)] != GZIP:
            return None
        import gzip

        from .packed_modules import BLOCK

        file.seek(0)
        with faults_of("a gzip file that is "), gzip.GzipFile(fileobj=file) as stream:
            header = stream.read(BLOCK)
    return Packed(opens, False, most, is_inner) if header[MAGIC_AT : MAGIC_AT + len(TAR)] == TAR else None


class Window(io.RawIOBase):
    """Some bytes of a file, as a file of their own."""

    def __init__(self, file: BinaryIO, begin: int, size: int) -> None:
        super().__init__()
        self.file, self.begin, self.size, self.at = file, begin, size, 0

    def readable(self) -> bool:
        return True

    def seekable(self) -> bool:
        return True

    def seek(self, offset: int, whence: int = os.SEEK_SET) -> int:
        self.at = max(offset + (0, self.at, self.size)[whence], 0)
        return self.at

    def readinto(self, buffer: Any) -> int:
        data = os.pread(self.file.fileno(), max(min(len(buffer), self.size - self.at), 0), self.begin + self.at)
        buffer[: len(data)] = data
        self.at += len(data)
        return len(data)


@dataclass(eq=False)
class Inner:
    """Packed files that are members of others, one after another in a file without a name."""

    file: Optional[BinaryIO] = None

    def take(self, packed: Packed, member: Member, front: bytes) -> Optional[Packed]:
        """The packed file that a member is, of which the first bytes were read; none if it is none."""
        if self.file is None:
            with unnamed() as self.file:
                pass
        begin = self.file.seek(0, os.SEEK_END)
        try:
            member.unpack(self.file, front)
            self.file.flush()
        except BaseException:
            self.file.truncate(begin)
            raise
        try:
            return packed_by(functools.partial(self.window, begin, self.file.tell() - begin), packed.most, True)
        except Damaged as fault:
            raise DamagedInner(str(fault)) from None

    def window(self, begin: int, size: int) -> BinaryIO:
        assert self.file
        return cast(BinaryIO, io.BufferedReader(Window(self.file, begin, size)))


@dataclass(eq=False)
class Whole:
    """The members of packed files that were asked for in another order than they stand there: each such file is
    unpacked once, into one file without a name."""

    file: Optional[BinaryIO] = None
    # Where each member begins, and how long it is, by its number.
    places: Dict[Packed, Dict[int, Tuple[int, int]]] = field(default_factory=dict)
    # What the system said as a file was unpacked.
    faults: Dict[Packed, OSError] = field(default_factory=dict)

    def take(self, packed: Packed, wanted: Container[int]) -> None:
        if self.file is None:
            with unnamed() as self.file:
                pass
        self.places[packed] = {}
        # What is damaged is missed if it is asked for.
        with contextlib.suppress(Damaged):
            try:
                for member in packed.members():
                    if member.number in wanted:
                        self.take_member(member, self.places[packed], packed.is_zip)
            except OSError as error:
                self.faults[packed] = error

    def take_member(self, member: Member, found: Dict[int, Tuple[int, int]], goes_on: bool) -> None:
        assert self.file
        begin = self.file.seek(0, os.SEEK_END)
        try:
            member.unpack(self.file, member.read(CHUNK))
            found[member.number] = begin, self.file.tell() - begin
        except Damaged:
            if not goes_on:
                raise

    def unpacked(self, packed: Packed, number: int) -> BinaryIO:
        """A file of the bytes of a member."""
        if self.file is None or number not in self.places[packed]:
            raise self.faults.get(packed, Damaged(GONE))
        begin, left = self.places[packed][number]
        self.file.seek(begin)
        with unnamed() as file:
            while left > 0:
                chunk = self.file.read(min(left, CHUNK))
                file.write(chunk)
                left -= len(chunk)
            file.flush()
        return file


@dataclass(eq=False)
class Unpacker:
    """Opens members by their numbers. It has no more than one of them unpacked, and goes on in the file that has it,
    for as long as they are asked for in their order."""

    place: Tuple[Optional[Packed], int] = (None, 0)
    members: Iterator[Member] = iter(())
    file: Optional[BinaryIO] = None
    # The members that may be asked for, of each file; and those files that were begun.
    wanted: Dict[Packed, Set[int]] = field(default_factory=dict)
    begun: Set[Packed] = field(default_factory=set)
    whole: Whole = field(default_factory=Whole)

    def open(self, packed: Packed, number: int) -> BinaryIO:
        if self.file is None or self.place != (packed, number):
            self.file, self.place = self.unpacked(packed, number), (packed, number)
        return open(f"{DESCRIPTORS}/{self.file.fileno()}", "rb", buffering=0)

    def unpacked(self, packed: Packed, number: int) -> BinaryIO:
        before, at = self.place
        self.close()
        goes_on = before is packed and at < number and packed not in self.whole.places
        if packed in self.begun and not goes_on:
            if packed not in self.whole.places:
                self.whole.take(packed, self.wanted[packed])
            return self.whole.unpacked(packed, number)
        if not goes_on:
            self.begun.add(packed)
            self.members = packed.members(number)
        member = next((one for one in self.members if one.number == number), None)
        if member is None:
            raise Damaged(GONE)
        return member.unpacked(member.read(CHUNK))

    def close(self) -> None:
        """Forgets what was unpacked."""
        if self.file is not None:
            self.file.close()
        self.file, self.place = None, (None, 0)


def is_named_as_packed(path: bytes) -> bool:
    return path.lower().endswith(NAMES_OF_PACKED)


def is_of_dsym(path: bytes) -> bool:
    """Whether a path is in the folder in which a dSYM bundle has its companions."""
    *folders, _ = path.split(b"/")
    found = [folders[at + 1 : at + 4] for at, name in enumerate(folders) if name.endswith(b".dSYM")]
    return [b"Contents", b"Resources", b"DWARF"] in found
