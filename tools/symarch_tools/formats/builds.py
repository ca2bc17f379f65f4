"""ARCHIVE.builds: of which app, version, build and file each slice is, and the day on which that came in; and
ARCHIVE.builds.next, that of a new archive which is being put in place. docs/FILES.md has the bytes.

What two files have together is the union of their lines, where of lines that differ in the day alone the earliest
stays. So sites that know the same have the same bytes, in whatever order it came."""
import contextlib
import dataclasses
import functools
import hashlib
import io
import os
import time
from typing import Dict, Iterable, Iterator, List, Mapping, NamedTuple, Optional, Tuple

from ..console.escapes import shown
from .contents import FIRST, KEY, LAST, MOST_OF_FIELD, SUM, Content, entry_in, kept_text, sum_of, words_of
from .files import remove

BUILDS, NEXT_BUILDS = b".builds", b".builds.next"
UNKNOWN = "?"
# The name of a line that says in which app a slice came in, whose digest it has with each bit inverted. No file has
# this name and no slice this digest, so to one who does not know such lines they are of a slice that is not there.
WITHIN = "\\x00within"
# How long a line may be with its newline.
MOST_OF_LINE = 4236
DAY, UUID_SIZE = 10, 36
# Where in a line the day stands, and what follows it.
DAY_AT, REST_AT = SUM + 1, SUM + DAY + 2
FRAME = FIRST.encode(), LAST.encode()
# The first day on which each of these was known, by the rest of its line.
Days = Dict[bytes, bytes]


class Build(NamedTuple):
    """What is known of a slice, each as it stands in a line: its bundle's identifier, version and build, and the name
    of its file."""

    app: str = UNKNOWN
    version: str = UNKNOWN
    build: str = UNKNOWN
    name: str = UNKNOWN

    def members(self) -> Dict[str, Optional[str]]:
        """Each text as it was, by its name; None for what is not known."""
        return {name: None if it == UNKNOWN else os.fsdecode(bytes_of(it)) for name, it in self._asdict().items()}


class Sight(NamedTuple):
    """What is known of a file that comes in: its build; the app in which it is, if that is another one; and the day on
    which that was made, if it is known."""

    build: Build
    outer: Optional[Build] = None
    day: str = ""


class Named(NamedTuple):
    """A build, and the day on which it came in."""

    day: str
    build: Build


def field(text: bytes) -> str:
    """What stands in a line for a text: one that is empty or too long is not known."""
    if not 0 < len(text) <= MOST_OF_FIELD:
        return UNKNOWN
    return "".join(chr(it) if 0x20 < it < 0x7F and it != 0x5C else f"\\x{it:02x}" for it in text)


def bytes_of(text: str) -> bytes:
    """What a field stands for."""
    return text.encode().decode("unicode_escape").encode("latin-1")


def field_shown(text: str) -> str:
    """A field as it is printed, which keeps its bytes."""
    return shown(bytes_of(text))


def rest_of(entry: bytes, build: Build) -> bytes:
    """What follows the day in the line of a slice."""
    return f"{words_of(entry)} {' '.join(build)}".encode()


def rest_of_outer(entry: bytes, outer: Build) -> bytes:
    """The same of a line that says in which app a slice came in."""
    return rest_of(inverted(entry), outer._replace(name=WITHIN))


def inverted(entry: bytes) -> bytes:
    return entry[:KEY] + bytes(byte ^ 0xFF for byte in entry[KEY:])


def is_of_outer(rest: bytes) -> bool:
    return rest.endswith(b" " + WITHIN.encode())


def days_of(sights: Iterable[Tuple[bytes, Sight, bool]]) -> Days:
    """The lines of slices that come in: the day is that on which their bundles were made, or else this one. Of some it
    is not known in which apps they came in before."""
    days: Days = {}
    for entry, sight, is_of_others in sights:
        day = min(filter(None, [sight.day.encode(), today()]))
        add_line(days, (rest_of(entry, sight.build), day))
        for outer in [sight.outer, *[Build()] * is_of_others] if sight.outer else []:
            add_line(days, (rest_of_outer(entry, outer), day))
    return days


def today() -> bytes:
    return time.strftime("%Y-%m-%d", time.gmtime()).encode()


def text_of(days: Mapping[bytes, bytes]) -> bytes:
    """The file of these lines; one without a line is not there."""
    texts = sorted(day + b" " + rest for rest, day in days.items())
    return kept_text(Content(), ((sum_of(it) + b" " + it).decode() for it in texts)) if texts else b""


def is_framed(text: bytes) -> bool:
    """Whether a file has the first line, and the last one with the SHA-256 of what stands before it."""
    first, last = FRAME
    before, _, digest = text.rpartition(last)
    return before.startswith(first) and digest == f"{hashlib.sha256(before).hexdigest()}\n".encode()


def lines_of(text: bytes) -> Iterator[Tuple[int, bytes]]:
    """The lines between the first and the last one, with their numbers. What should be one of these two, and is not,
    is a line too."""
    first, last = FRAME
    for number, line in enumerate(io.BytesIO(text), 1):
        is_frame = line == first if number == 1 else line.startswith(last) and len(line) == len(last) + 65
        if not is_frame:
            yield number, line[:-1] if line.endswith(b"\n") else line


def add_line(days: Days, line: Tuple[bytes, bytes]) -> None:
    """Adds what follows the day in a line, and the day."""
    rest, day = line
    days[rest] = min(day, days.get(rest, day))


def earliest(days: Days, more: Mapping[bytes, bytes]) -> Days:
    """The lines of both; of those that differ in the day alone the earliest."""
    new = {rest: day for rest, day in more.items() if day < days.get(rest, b"~")}
    return {**days, **new} if new else days


@dataclasses.dataclass(eq=False)
class Builds:
    """What the file next to an archive has, as it was when it was first looked at, and what comes in."""

    archive: bytes
    news: Days = dataclasses.field(default_factory=dict)

    def __post_init__(self) -> None:
        self.path, self.next = self.archive + BUILDS, self.archive + NEXT_BUILDS

    @functools.cached_property
    def text(self) -> bytes:
        """The bytes of the file; none if it is not there."""
        with contextlib.suppress(FileNotFoundError), open(self.path, "rb") as file:
            return file.read()
        return b""

    def take_next(self) -> None:
        """Takes what the file of a new archive has, which is in its place, if this one is not put in place yet."""
        with contextlib.suppress(FileNotFoundError), open(self.next, "rb") as file:
            self.text = file.read()

    @functools.cached_property
    def is_whole(self) -> bool:
        return not self.text or is_framed(self.text)

    @functools.cached_property
    def known(self) -> Days:
        """The lines of the file that are as they were written."""
        if self.is_whole:
            return {line[REST_AT:]: line[DAY_AT : REST_AT - 1] for _, line in lines_of(self.text)}
        from .build_lines import line_in

        days: Days = {}
        for line in filter(None, (line_in(line) for _, line in lines_of(self.text))):
            add_line(days, line)
        return days

    def fault(self) -> str:
        """What is damaged of the file; nothing if it is whole or not there."""
        if self.is_whole:
            return ""
        from .build_lines import line_in

        bad = [number for number, line in lines_of(self.text) if not line_in(line)]
        if len(bad) > 1:
            return f"line {bad[0]} and {len(bad) - 1} others are damaged, and passed over"
        return f"line {bad[0]} is damaged, and passed over" if bad else "lines of it are lost"

    def is_changed(self) -> bool:
        """Whether the file has to be written."""
        return not self.is_whole or bool(self.news) and earliest(self.known, self.news) is not self.known

    def new_text(self) -> bytes:
        """What the file has to have."""
        return text_of(earliest(self.known, self.news))

    def put_next(self) -> bool:
        """Puts the file of a new archive in place, and returns whether there is one."""
        with contextlib.suppress(FileNotFoundError):
            os.replace(self.next, self.path)
            return True
        return False

    def drop_next(self) -> None:
        remove(self.next)

    # ---- of slices

    def of_slices(self, days: Optional[Days] = None) -> Dict[bytes, List[Named]]:
        """The lines of each slice, or those of some days."""
        found: Dict[bytes, List[Named]] = {}
        for rest, day in (self.known if days is None else days).items():
            if not is_of_outer(rest):
                uuid, arch, digest, *words = rest.decode().split(" ")
                found.setdefault(entry_in(uuid, arch, digest), []).append(Named(day.decode(), Build(*words)))
        return found

    def outer_of_slices(self) -> Dict[bytes, List[Named]]:
        """The apps in which each slice came in, if these are others than its own."""
        found: Dict[bytes, List[Named]] = {}
        for rest, day in self.known.items():
            if is_of_outer(rest):
                uuid, arch, digest, *words, _ = rest.decode().split(" ")
                found.setdefault(inverted(entry_in(uuid, arch, digest)), []).append(Named(day.decode(), Build(*words)))
        return found

    def near(self, uuids: Iterable[bytes]) -> Days:
        """The lines of UUIDs, as they stand in lines, and of those of which one says what a line of these does."""
        asked = set(uuids)
        its = (rest for rest in self.known if rest[:UUID_SIZE] in asked and not is_of_outer(rest))
        builds = {rest.split(b" ", 3)[3] for rest in its}
        asked |= {rest[:UUID_SIZE] for rest in self.known if rest.split(b" ", 3)[3] in builds}
        return {rest: day for rest, day in self.known.items() if rest[:UUID_SIZE] in asked}

    def of(self, held: Iterable[bytes]) -> "BuildLines":
        return BuildLines(self.of_slices(), held)


class BuildLines:
    """The lines of the slices that an archive has. Each version of an app has the first day on which a slice of its
    UUID and architecture came in."""

    def __init__(self, every: Dict[bytes, List[Named]], held: Iterable[bytes]) -> None:
        self.every = every
        self.of_keys: Dict[bytes, List[Named]] = {}
        for entry in held:
            self.of_keys.setdefault(entry[:KEY], []).extend(every.get(entry, []))
        self.first: Dict[Tuple[bytes, Tuple[str, ...]], str] = {}
        for key, lines in self.of_keys.items():
            for one in lines:
                at = key, one.build[:3]
                self.first[at] = min(one.day, self.first.get(at, one.day))
        self.of_keys = {key: self.dated(key, with_app(lines) or lines) for key, lines in self.of_keys.items()}

    def dated(self, key: bytes, lines: Iterable[Named]) -> List[Named]:
        return sorted({one._replace(day=self.first[key, one.build[:3]]) for one in lines})

    def of_slice(self, entry: bytes) -> List[Named]:
        """Those that name the app of a slice."""
        return self.dated(entry[:KEY], with_app(self.every.get(entry, [])))


def with_app(lines: Iterable[Named]) -> List[Named]:
    return [one for one in lines if one.build.app != UNKNOWN]
