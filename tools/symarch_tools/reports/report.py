"""A whole report: JSON documents and text, one after another, and what is said of it."""
from __future__ import annotations

import os
import re
import shlex
from dataclasses import dataclass
from typing import TYPE_CHECKING, Iterator, List, Match, Optional, Sequence, Union

from ..console.escapes import line_shown, shown
from ..console.packed_kinds import PACKED
from ..console.streams import standard_input
from .encodings import decoded
from .faults import Failure, NoReport, NoStacks, Status
from .images import HAD_NAME, IS_INLINED, MOST_IMAGES, NO_IMAGE, Frames, GivenImage, Images, one_of
from .text.doubled import Doubled, undoubled
from .text.pasted import FIRST_WORDS, MOST_OF_BEGINNING, lines_in, unpasted

if TYPE_CHECKING:
    from .json.readable import ReadableReport
    from .json.report import JsonReport
    from .json.walk import Broken
    from .text.report import TextReport

DOCUMENT = re.compile(rb"\s*(?=[{\[])")
# The path that means standard input.
STANDARD_INPUT = "-"
# What stands in the first lines of a report.
BEGINNING = re.compile(rb"^" + FIRST_WORDS + rb'|"(?:bug_type|app_name|timeStampBegin)" *:', re.MULTILINE)
# What stands after the frames of a text.
LISTING = re.compile(rb"^[ \t]*Binary Images\b", re.MULTILINE)
# What `symarch frames` reads: UUID, ARCH, LOAD and ADDRESS, after lines that it passes over.
FRAMES = re.compile(rb"[0-9a-fA-F-]{32,36} \w+ (?:0x)?[0-9a-fA-F-]+ (?:0x)?[0-9a-fA-F]+(?:\n|\Z)")
PASSED_OVER = (b"#", b"\n")
# A heading between lines of hyphens, after which the same report stands as JSON.
FULL = re.compile(rb"^-+[ \t]*\r?\nFull Report[ \t]*\r?\n-+[ \t]*\r?\n\s*(?=[{\[])", re.MULTILINE)

# What is called otherwise than by the number of its type.
KINDS = {"211": "an analytics report", "298": "a jetsam report"}
# Of so many parts a report is made, and so many of its faults are said.
MOST_PARTS, MOST_NOTES = 10_000, 10

# What a report is made of. What reads JSON or text, and what makes JSON readable, is imported where it is asked for.
Part = Union["JsonReport", "TextReport", "ReadableReport"]


@dataclass
class Count:
    """How many frames have a name from the archive, had one before and keep it, have several answers, or have no name;
    and how many are of no image that the report lists."""

    named: int = 0
    named_before: int = 0
    several: int = 0
    not_named: int = 0
    not_listed: int = 0

    def add(self, frames: Frames) -> None:
        for key, count in frames.alike():
            number, _, kind = key
            if kind & IS_INLINED:
                continue
            answers = frames.answers_of(key)
            if one_of(answers):
                self.named += count
            elif len(answers) > 1:
                self.several += count
            elif kind & HAD_NAME:
                self.named_before += count
            else:
                self.not_named += count
            self.not_listed += count * (number == NO_IMAGE)

    def add_count(self, other: Count) -> None:
        for name, number in vars(other).items():
            setattr(self, name, getattr(self, name) + number)

    def text(self) -> str:
        every = self.named + self.named_before + self.several + self.not_named
        said = f"{self.named} of {every} frames named, {self.named_before} named before, {self.not_named} not named"
        said += f", {self.several} with several answers" if self.several else ""
        return said + (f"; {self.not_listed} of images that the report does not list" if self.not_listed else "")


class Report:
    """A whole report. With `is_text` its JSON is printed as people read it. With `is_kept` it is known which lists of
    frames its JSON has. The given images are those of text that lists none. The content is that of a member of a zip
    file, whose path has the name of this before it."""

    def __init__(
        self,
        path: str,
        is_text: bool = False,
        is_kept: bool = False,
        given: Sequence[GivenImage] = (),
        content: Optional[bytes] = None,
    ) -> None:
        self.path, self.is_kept = path, is_text or is_kept
        # Where --out writes it in its folder.
        self.target = os.path.basename(path)
        self.label = "standard input" if path == STANDARD_INPUT and content is None else shown(path)
        raw = bytes_of(path) if content is None else content
        packed = next((what for begins, what in PACKED if raw.startswith(begins)), None)
        if packed:
            raise NoReport(f"{self.label}: {packed}: unpack it first", Status.REFUSED)
        data, self.encoding = decoded(raw)
        data, self.pasted = unpasted(data)
        self.data, self.doubled = (data, Doubled(b"")) if DOCUMENT.match(data) else undoubled(data)
        self.images = Images(given)
        self.notes: List[str] = []
        self.faults = 0
        # The next heading of a full report, once it was looked for: a report may have many parts.
        self.full: Optional[Match[bytes]] = None
        self.is_full_known = False
        found = self.read()
        if not any(len(part.frames) for part in found):
            raise self.without_frames(found)
        if not self.images.listed:
            what = "none of an image that is named" if given else "no binary images with UUIDs"
            raise self.refusal(f"frames, but {what}")
        if self.images.has_more:
            self.note(f"it lists more than {MOST_IMAGES} images, and the others are left out")
        if self.faults > len(self.notes):
            self.notes.append(f"it has {self.faults - len(self.notes)} faults more")
        self.parts: List[Part] = self.readable(found) if is_text else [*found]

    def readable(self, found: Sequence[Union[JsonReport, TextReport]]) -> List[Part]:
        """Its parts, as people read them."""
        from .json.readable import parts

        return [*parts(found, self.notes)]

    def without_frames(self, found: Sequence[Union[JsonReport, TextReport]]) -> Failure:
        """Why a file is refused that has no frames in its parts."""
        if is_for_program(self.data):
            typed = line_shown(f"symarch frames {shlex.quote(self.path)} ARCHIVE")
            return NoReport(f"{self.label}: no report, but frames for the program: {typed}", Status.REFUSED)
        kind = kind_of(self.data, found)
        if kind and not self.notes:
            return NoStacks(f"{self.label}: {kind}, which has no stacks", Status.REFUSED)
        has_images = "images, but " if self.images.listed else ""
        has_images = has_images or ("a list of images, but " if LISTING.search(self.data) else "")
        if not self.notes and not has_images and BEGINNING.search(self.data, 0, MOST_OF_BEGINNING):
            self.note(f"it ends at {self.last()}, before its first frame")
        return self.refusal(f"no report of a known kind: {has_images}no stack frames")

    def note(self, said: str, place: Optional[int] = None) -> None:
        """Says what is wrong, at a place that stands for {} there. Of many faults the first are said."""
        self.faults += 1
        if len(self.notes) < MOST_NOTES:
            self.notes.append(said if place is None else said.format(self.place(place)))

    def refusal(self, why: str) -> Failure:
        kind = Failure if BEGINNING.search(self.data, 0, MOST_OF_BEGINNING) else NoReport
        return kind("; ".join([f"{self.label}: {why}", *self.notes]), Status.REFUSED)

    def read(self) -> List[Union[JsonReport, TextReport]]:
        """The parts of the report. JSON without frames that ends within a document is text. Documents without frames
        that follow one another are one part, of which the last says what the others might have said."""
        begin, is_full = 0, False
        found: List[Union[JsonReport, TextReport]] = []
        while begin < len(self.data):
            part: Union[JsonReport, TextReport, None] = self.read_json(begin, is_full, len(found))
            if part is None:
                part = self.read_text(begin, len(found))
                is_full = part.heading < part.end
            begin = part.end
            if found and is_plain(found[-1]) and is_plain(part):
                part.begin = found.pop().begin
            found.append(part)
        return found

    def read_json(self, begin: int, is_full: bool, count: int) -> Optional[JsonReport]:
        """The JSON document that begins at a place, if one does, after so many parts."""
        found = DOCUMENT.match(self.data, last_flat(self.data, begin)) if count < MOST_PARTS else None
        if not found:
            return None
        from .json.report import JsonReport

        part = JsonReport(self.data, found.end(), self.images, self.is_kept)
        if part.broken and not part.broken.is_cut and not len(part.frames):
            if part.broken.limit:
                self.note(f"it {part.broken.limit} at {{}}", part.broken.place)
            elif is_full:
                self.note("its Full Report is left as it is: no JSON at {}", part.broken.place)
            return None
        part.begin, part.is_full = begin, is_full
        self.note_broken(part.broken)
        return part

    def read_text(self, begin: int, count: int) -> TextReport:
        """The text from a place on, up to a full report, or to pasted JSON; to the end after so many parts."""
        full = self.full_after(begin) if count < MOST_PARTS else None
        if count == MOST_PARTS:
            self.note(f"it has more than {MOST_PARTS} parts, and is read as text from {{}} on", begin)
        heading, end = full.span() if full else (len(self.data), len(self.data))
        outside = self.pasted.outside(self.data, begin)
        if outside > begin and DOCUMENT.match(self.data, outside):
            heading = end = outside
        from .text.report import TextReport

        part = TextReport(self.data, begin, end, self.images)
        part.heading = heading
        self.note_cut(part)
        return part

    def full_after(self, begin: int) -> Optional[Match[bytes]]:
        """The heading of the next full report. The places from which it is looked for ascend."""
        if not self.is_full_known or (self.full and self.full.start() < begin):
            self.full, self.is_full_known = FULL.search(self.data, begin), True
        return self.full

    def note_broken(self, broken: Optional[Broken]) -> None:
        if broken and broken.is_cut:
            self.note(f"it ends at {self.last()}, within its JSON")
        elif broken and broken.limit:
            self.note(f"it {broken.limit} at {{}}, and the rest stays as it is", broken.place)
        elif broken:
            self.note("it is no JSON from {} on", broken.place)

    def note_cut(self, part: TextReport) -> None:
        if part.end < len(self.data):
            return
        if not part.is_whole:
            self.note(f"it ends at {self.last()}, before the images of its last frames")
        elif not self.data.endswith((b"\n", b"\r")):
            self.note(f"it ends at {self.last()}, within a line")

    def place(self, place: int) -> str:
        data, place = self.doubled.before(self.data, place)
        line = data.count(b"\n", 0, place) + 1
        return f"line {line}, byte {self.encoding.byte_of(*self.pasted.before(data, place)) + 1}"

    def last(self) -> str:
        data, place = self.doubled.before(self.data, len(self.data))
        line = data.count(b"\n", 0, place - 1) + 1
        end = self.encoding.byte_of(*self.pasted.before(data, place))
        return f"line {line}, byte {end + len(self.encoding.half)}"

    def pieces(self) -> Iterator[bytes]:
        """The bytes of the report with names in it, as they stand in its file."""
        yield self.encoding.mark
        pieces = self.doubled.restored(piece for part in self.parts for piece in part.pieces())
        for piece in self.pasted.restored(pieces):
            yield from self.encoding.written(piece)
        yield self.encoding.half

    def count(self) -> Count:
        count = Count()
        for frames in self.frames():
            count.add(frames)
        return count

    def frames(self) -> Iterator[Frames]:
        """The frames of each part, and those of its backtraces."""
        for part in self.parts:
            yield part.frames
            backtraces: Optional[TextReport] = getattr(part, "backtraces", None)
            if backtraces:
                yield backtraces.frames

    def find_interrupted(self) -> bool:
        """Whether there are frames that a signal interrupted, as the names of the archive say, which have to be asked
        for otherwise."""
        return any([frames.interrupt_named() for frames in self.frames()])


def last_flat(data: bytes, begin: int) -> int:
    """Where the last one begins of the documents from a place on that follow one another, and have no others in them;
    the place itself if there are none. Such have no frames."""
    found, last = DOCUMENT.match(data, begin), begin
    if not found:
        return last
    from .json.walk import flat_at

    flat = flat_at(data, found.end())
    while found and flat:
        last = found.start()
        found = DOCUMENT.match(data, flat[1])
        flat = flat_at(data, found.end()) if found else None
    return last


def is_plain(part: Union[JsonReport, TextReport]) -> bool:
    """Whether a part is JSON without frames."""
    from .json.report import JsonReport

    return isinstance(part, JsonReport) and not len(part.frames) and not part.broken


def is_for_program(data: bytes) -> bool:
    """Whether the first line is a frame for the program, after those that it passes over."""
    line = next((line for line in lines_in(data) if not line.startswith(PASSED_OVER)), b"")
    return bool(FRAMES.match(line))


def kind_of(data: bytes, found: Sequence[Union[JsonReport, TextReport]]) -> Optional[str]:
    """What a report is by the type that its first line states, if it is one of those without stacks, or if all of its
    JSON is there."""
    first = DOCUMENT.match(data)
    if not first:
        return None
    from .json.walk import flat_at

    flat = flat_at(data, first.end())
    if not flat or not isinstance(flat[0], dict):
        return None
    number = str(flat[0].get("bug_type", ""))
    if number in KINDS:
        return f"{KINDS[number]} (bug_type {number})"
    is_whole = all(is_plain(part) or not data[part.begin : part.end].strip() for part in found)
    has_more = bool(DOCUMENT.match(data, flat[1]))
    return f"a report of bug_type {number}" if number.isdigit() and is_whole and has_more else None


def bytes_of(path: str) -> bytes:
    if path == STANDARD_INPUT:
        return standard_input()
    with open(path, "rb") as file:
        return file.read()
