"""The slices that files and folders have: which of them go in, and what is passed over or refused."""
import contextlib
import errno
import functools
import hashlib
import io
import os
import stat
import struct
from dataclasses import dataclass, field
from typing import BinaryIO, Callable, Dict, Iterable, Iterator, List, Optional, Set, Tuple

from ..console.escapes import shown
from ..console.faults import SliceRefused
from ..console.json_lines import line_of, path_members
from ..console.screen import Screen
from ..formats.builds import Build, Sight
from ..formats.bundles import MOST_OF_LIST, Bundles
from ..formats.contents import CHUNK, KEY, head_of, words_of
from ..formats.file_kinds import MOST_LOOKED_AT, ONE, look_of
from ..formats.files import copied
from ..formats.mach_images import COMMAND, HEADER
from ..formats.packed_files import GZIP, MOST_LEVELS, ZIP, Allowance, Damaged, DamagedInner, Inner, Member, Packed
from ..formats.packed_files import TooMuch, Unpacker, is_named_as_packed, is_of_dsym, packed_at
from ..formats.universal_files import FAT_HEADER, NARROW, UNIVERSAL, WIDE_ENTRY, count_in, front_in, parts_in
from .losses import record_members

# A Java class file begins as a universal file, and has its version in place of the number of parts.
LEAST_OF_JAVA = 45
# mach-o/loader.h: the magic of a 64-bit image, file types, and the command with its UUID.
THIN = bytes.fromhex("cffaedfe")
MH_OBJECT, MH_DSYM, LC_UUID = 1, 10, 0x1B
# Commands after these bytes are not looked at here.
MOST_OF_COMMANDS = 16 << 20
KINDS = {
    bytes.fromhex("cefaedfe"): "32-bit images",
    bytes.fromhex("feedface"): "32-bit images",
    bytes.fromhex("feedfacf"): "big-endian images",
    b"!<ar": "static libraries",
    b"!<th": "static libraries",
}
CHANGED = "changed while it was read"
OUTSIDE = "files outside of dSYMs"
NOTHING_THERE = (errno.ENOENT, errno.ELOOP, errno.ENOTDIR)


@dataclass(eq=False)
class Slice:
    """The bytes of an image for one architecture: a file of `size` bytes, or its part of a number; and the head of its
    record. It is printed by the name of the file, which is its path, or - for standard input. A member of a zip or tar
    file is opened by a call."""

    path: bytes
    part: Optional[int]
    offset: int
    length: int
    size: int
    head: bytes
    name: bytes
    opens: Optional[Callable[[], BinaryIO]] = None
    digest: Optional[bytes] = None
    # What became of it, by the word of its line.
    word: str = ""
    # Whether the archive had it before.
    was_held: bool = False
    sight: Sight = Sight(Build())
    # The name of a member, and of the file that has it.
    member: Optional[Tuple[bytes, bytes]] = None

    def open(self) -> BinaryIO:
        return self.opens() if self.opens else open(self.path, "rb", buffering=0)

    @contextlib.contextmanager
    def opened(self) -> Iterator[int]:
        """Its file, of which what is wrong keeps the slice out."""
        try:
            with self.open() as file:
                yield file.fileno()
        except BrokenPipeError:
            # The reader of what is sent ended.
            raise
        except OSError as error:
            raise SliceRefused(str(error.strerror), self) from None
        except Damaged:
            raise SliceRefused(CHANGED, self) from None

    def after(self, file: int, at: int, size: int) -> int:
        """The place after a piece. The file is as long as it was."""
        if not size or at + size == self.offset + self.length and os.fstat(file).st_size != self.size:
            raise SliceRefused(CHANGED, self)
        return at + size

    def pieces(self) -> Iterator[bytes]:
        """The bytes."""
        at, end = self.offset, self.offset + self.length
        with self.opened() as file:
            while at < end:
                piece = os.pread(file, min(end - at, CHUNK), at)
                at = self.after(file, at, len(piece))
                yield piece

    def sent(self, descriptor: int) -> Iterator[int]:
        """Has the system write the bytes to an open file, piece by piece. Nobody looks at them here."""
        at, end = self.offset, self.offset + self.length
        with self.opened() as file:
            while at < end:
                size = copied(descriptor, file, at, min(end - at, CHUNK))
                at = self.after(file, at, size)
                yield size

    def chunks(self) -> Iterator[bytes]:
        """The bytes, which have to be those of the first time."""
        digest = hashlib.sha256()
        for piece in self.pieces():
            digest.update(piece)
            yield piece
        if self.digest not in (None, digest.digest()):
            raise SliceRefused(CHANGED, self)
        self.digest = digest.digest()

    def write_to(self, file: BinaryIO) -> None:
        """Writes a file of the bytes."""
        file.writelines(self.chunks())

    def refused(self, reason: str) -> SliceRefused:
        """Why the program refuses its bytes, unless they changed."""
        try:
            for _ in self.chunks():
                pass
        except SliceRefused as changed:
            return changed
        return SliceRefused(reason, self, True)

    def entry(self) -> bytes:
        """The key and the digest, which is known once its bytes were read."""
        return self.head[1 : 1 + KEY] + (self.digest or b"")

    def line(self) -> str:
        members = {**record_members(self.entry()), "bytes": self.length, **path_members(self.name)}
        return line_of(f"{self.word} {words_of(self.entry())} {shown(self.name)}", self.word, **members)


@dataclass(eq=False)
class FaultyFile:
    """A universal file whose table cannot be followed: its name, its header and table as far as they are there, and its
    length. The program finds its fault by these."""

    name: bytes
    front: bytes
    length: int

    def write_to(self, file: BinaryIO) -> None:
        """Writes a file with the header and the table, and a hole after them."""
        try:
            file.write(self.front)
            file.truncate(self.length)
        except OSError as error:
            raise SliceRefused(str(error.strerror), self) from None


def compared(one: Slice, other: Slice) -> int:
    """The order of two records, by their heads, then by the bytes of their slices."""
    if one.head != other.head:
        return -1 if one.head < other.head else 1
    for chunk, other_chunk in zip(one.chunks(), other.chunks()):
        if chunk != other_chunk:
            return -1 if chunk < other_chunk else 1
    return 0


@dataclass(eq=False)
class Finder:
    """Finds the slices that paths have, and says what is passed over or refused. Universal files whose tables cannot be
    followed are kept for the program, which refuses them."""

    screen: Screen
    dsyms_only: bool = False
    files: int = 0
    slices: List[Slice] = field(default_factory=list)
    faulty: List[FaultyFile] = field(default_factory=list)
    # Of the file that is read: its path, its name, what was passed over of it, and what opens it if it is a member.
    path: bytes = b""
    name: bytes = b""
    over: List[str] = field(default_factory=list)
    opens: Optional[Callable[[], BinaryIO]] = None
    member: Optional[Tuple[bytes, bytes]] = None
    bundles: Bundles = field(default_factory=Bundles)
    unpacker: Unpacker = field(default_factory=Unpacker)
    inner: Inner = field(default_factory=Inner)
    # What stands where in place of its name.
    places: Dict[bytes, bytes] = field(default_factory=dict)

    def find(self, paths: Iterable[bytes]) -> None:
        self.screen.begin("finding: {} files")
        for name, size, is_named in self.walk(paths):
            self.begin_file(self.places.get(name, name), name)
            try:
                packed = packed_at(self.path) if is_named or is_named_as_packed(name) else None
                if packed:
                    self.take_whole(packed, is_named)
                elif self.dsyms_only and not is_named and not is_of_dsym(os.path.abspath(name)):
                    self.pass_over(OUTSIDE)
                else:
                    self.take_path(size, is_named)
            except OSError as error:
                self.screen.refuse(self.name, error.strerror)
            except Damaged as damaged:
                self.screen.refuse(self.name, damaged)

    def name_builds(self) -> None:
        """Notes of each slice what is known of its build, once all was found."""
        for one in self.slices:
            path, packed = one.member or (one.name, None)
            one.sight = self.bundles.sight_of(path, packed)

    def found(self) -> int:
        """How many slices and refused files were found."""
        return len(self.slices) + len(self.faulty) + self.screen.refused

    def begin_file(self, path: bytes, name: bytes) -> None:
        self.files += 1
        self.screen.progress(self.files)
        self.path, self.name, self.over, self.opens, self.member = path, name, [], None, None

    def take_path(self, size: int, is_named: bool) -> None:
        before = len(self.slices)
        with open(self.path, "rb") as file:
            self.take_file(file, size)
            if is_named and self.over and len(self.slices) == before:
                self.say_look(file)

    def take_whole(self, packed: Packed, is_named: bool) -> None:
        """Takes what a zip or tar file has, and says it if it was named and nothing goes in."""
        name, before = self.name, self.found()
        kinds: List[str] = []
        self.take_packed(packed, Allowance(packed.most), 1, kinds)
        if self.found() > before:
            return
        if is_named:
            others = "; ".join(ONE.get(it, it) for it in kinds if it not in ("other files", OUTSIDE))
            what = "no dSYM" if self.dsyms_only else "no Mach-O file"
            self.screen.tell(name, f"{packed.kind} that holds {others or what}")
        elif not kinds:
            self.pass_over("other files")

    def take_packed(self, packed: Packed, allowance: Allowance, level: int, kinds: List[str]) -> bool:
        """Takes the members of a zip or tar file as the files of a folder, and returns whether more may be read of the
        file that has it. The kinds of what is passed over are added."""
        name, path = self.name, self.path
        for member in packed.members(allowance=allowance):
            self.begin_file(path, name + b": " + member.name)
            self.opens = functools.partial(self.unpacker.open, packed, member.number)
            self.member = member.name, name
            found, inner = len(self.slices), None
            try:
                front = member.read(8) if is_named_as_packed(member.name) and level < MOST_LEVELS else b""
                inner = self.inner.take(packed, member, front) if front.startswith((ZIP, GZIP)) else None
                if inner:
                    if not self.take_inner(inner, allowance, level + 1, kinds):
                        return False
                else:
                    self.take_member(member, front)
            except (Damaged, OSError) as fault:
                is_its_own = packed.is_zip or isinstance(fault, DamagedInner)
                self.refuse_member(fault, is_last=not is_its_own or isinstance(fault, TooMuch))
                if not is_its_own or isinstance(fault, TooMuch):
                    return not isinstance(fault, TooMuch)
            if len(self.slices) > found and not inner:
                self.unpacker.wanted.setdefault(packed, set()).add(member.number)
            kinds += [kind for kind in self.over if kind not in kinds]
            # A fault of the file itself is none of its last member.
            self.name = name
        return True

    def take_inner(self, packed: Packed, allowance: Allowance, level: int, kinds: List[str]) -> bool:
        """Takes the members of a file that is a member itself. What is wrong with it is not wrong with others."""
        try:
            return self.take_packed(packed, allowance, level, kinds)
        except (Damaged, OSError) as fault:
            self.refuse_member(fault, is_last=isinstance(fault, TooMuch))
            return not isinstance(fault, TooMuch)

    def refuse_member(self, fault: Exception, is_last: bool) -> None:
        told = fault.strerror if isinstance(fault, OSError) else fault
        self.screen.refuse(self.name, f"{told}; the members after it were not read" if is_last else told)

    def take_member(self, member: Member, front: bytes) -> None:
        """Takes a member, of which the first bytes may have been read."""
        is_list = Bundles.is_list(member.name)
        if self.dsyms_only and not is_of_dsym(member.name):
            if is_list:
                self.take_list(member)
            self.pass_over(OUTSIDE)
            return
        front = self.take_list(member) if is_list else front or member.read(8)
        if front[:4] == THIN or front[:4] in UNIVERSAL and not is_java(front[:8]):
            with member.unpacked(front) as file:
                self.take_file(file, file.seek(0, os.SEEK_END))
        else:
            self.take_file(io.BytesIO(front), len(front))

    def take_list(self, member: Member) -> bytes:
        """Takes what an Info.plist says of its bundle, and returns what was read of it: nothing of one that is
        damaged."""
        assert self.member
        with contextlib.suppress(Damaged, OSError):
            text = member.read(MOST_OF_LIST + 1)
            self.bundles.take(self.member[1], member.name, text)
            return text
        return b""

    def say_look(self, file: BinaryIO) -> None:
        """Says of a file that was named, and of which nothing goes in, what it is."""
        file.seek(0)
        look = look_of(file.read(MOST_LOOKED_AT)) if self.over == ["other files"] else None
        self.screen.tell(self.name, look or "; ".join(ONE.get(it, it) for it in self.over))

    def pass_over(self, kind: str, part: Optional[int] = None) -> None:
        self.screen.pass_over(self.name, kind, part)
        self.over.append(kind if part is None else f"part {part}, {ONE[kind]}")

    def walk(self, paths: Iterable[bytes]) -> Iterator[Tuple[bytes, int, bool]]:
        """Each regular file that a path is or has, once, its size, and whether it was named. Those of a folder come in
        the order of names."""
        left = [(path, True) for path in reversed(list(paths))]
        seen: Set[Tuple[int, int]] = set()
        while left:
            path, is_word = left.pop()
            try:
                status = os.stat(self.places.get(path, path))
                place, is_folder = (status.st_dev, status.st_ino), stat.S_ISDIR(status.st_mode)
                if is_folder and not is_word and os.path.islink(path):
                    self.screen.pass_over(path, "links to folders")
                elif place not in seen:
                    seen.add(place)
                    if is_folder:
                        left += [(os.path.join(path, name), False) for name in sorted(os.listdir(path), reverse=True)]
                    elif stat.S_ISREG(status.st_mode):
                        yield path, status.st_size, is_word
                    elif is_word:
                        self.screen.refuse(path, "neither a file nor a folder")
                    else:
                        self.screen.pass_over(path, "devices and pipes")
            except OSError as error:
                if is_word or error.errno not in NOTHING_THERE:
                    self.screen.refuse(path, error.strerror)
                else:
                    self.screen.pass_over(path, "links that lead nowhere")

    def take_file(self, file: BinaryIO, size: int) -> None:
        file.seek(0)
        first = file.read(FAT_HEADER.size)
        if first[:4] not in UNIVERSAL:
            self.take_part(file, None, 0, size, size)
        elif is_java(first):
            self.pass_over("other files")
        else:
            front = front_in(file, first)
            parts = parts_in(front, size)
            if parts is None:
                self.faulty.append(FaultyFile(self.name, front, size))
            elif not parts:
                self.pass_over("universal files without a part")
            for part, (offset, length) in enumerate(parts or ()):
                self.take_part(file, part, offset, length, size)

    def take_part(self, file: BinaryIO, part: Optional[int], offset: int, length: int, size: int) -> None:
        file.seek(offset)
        front = file.read(min(length, HEADER.size))
        key = key_of(front, file, length - len(front)) if front[:4] == THIN else None
        if key is not None:
            one = Slice(self.path, part, offset, length, size, head_of(key, length), self.name, self.opens)
            one.member = self.member
            self.slices.append(one)
        elif front[:4] == THIN:
            self.pass_over(f"{'object files' if front[12] == MH_OBJECT else 'images'} without a UUID", part)
        else:
            self.pass_over(KINDS.get(front[:4], "other files" if part is None else "other parts"), part)


def is_dsym(path: bytes) -> bool:
    """Whether a path is a dSYM bundle, or a file whose first slice is a companion's."""
    if os.path.isdir(path):
        return path.rstrip(b"/").endswith(b".dSYM")
    if not os.path.isfile(path):
        return False
    with open(path, "rb") as file:
        front = file.read(FAT_HEADER.size + WIDE_ENTRY.size)
        layout = UNIVERSAL.get(front[:4])
        if layout and FAT_HEADER.size + layout.size <= len(front):
            _, offset, *_ = layout.unpack_from(front, FAT_HEADER.size)
            file.seek(min(offset, os.fstat(file.fileno()).st_size))
            front = file.read(HEADER.size)
    return front[:4] == THIN and front[12:16] == MH_DSYM.to_bytes(4, "little")


def is_java(first: bytes) -> bool:
    return first[:4] == NARROW and count_in(first) >= LEAST_OF_JAVA


def key_of(front: bytes, file: BinaryIO, left: int) -> Optional[bytes]:
    """The key of an image, or None where it names no UUID. Where its header or commands are faulty, the UUID is of
    zeros: the program is given the slice, and says which fault it is."""
    if len(front) < HEADER.size:
        return bytes(KEY)
    cputype, cpusubtype, _, count, size = HEADER.unpack(front)
    commands, at = file.read(min(size, left, MOST_OF_COMMANDS)), 0
    found: Optional[bytes] = None
    while count > 0 and found is None:
        command, length = COMMAND.unpack(commands[at : at + COMMAND.size].ljust(COMMAND.size, b"\0"))
        if length < COMMAND.size or at + length > len(commands):
            found = bytes(16)
        elif command == LC_UUID:
            found = commands[at + 8 : at + min(length, 24)].ljust(16, b"\0")
        at, count = at + length, count - 1
    return found and found + struct.pack(">II", cputype, cpusubtype & 0xFFFFFF)
