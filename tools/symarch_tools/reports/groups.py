"""Reports by the top frames of the thread that crashed."""
from __future__ import annotations

import bisect
import re
from typing import Any, Dict, Iterable, Iterator, List, Match, NamedTuple, Optional, Pattern, Sequence, Tuple

from ..console.escapes import line_shown, one_line
from .images import HAD_NAME, IS_INLINED, Frames
from .json.readable import name_of, text_in
from .json.report import JsonReport
from .report import Part, Report
from .text.logged import TIME
from .text.named_lines import INLINED, SOURCE
from .text.report import BACKTRACE, CONFLICTING, CRASH, NO_NAME, REST_OF_LINE, TextReport, frames_in, plain

# So many frames make a group, below those that threw the exception: the images that have these.
TOP = 3
THROWING = ("CoreFoundation", "libobjc.A.dylib")
EXCEPTION_IN_JSON = "lastExceptionBacktrace"
NO_THREAD = "no crashed thread"
BEGIN, END = rb"(?<![^\r\n])(?:%b)?" % TIME, rb"[^\r\n]*(?:\r\n|\r|\n|\Z)"
CRASHED = re.compile(BEGIN + rb"(?:Thread [0-9]+ Crashed:|Crashed: |Fatal Exception: )" + END)
EXCEPTION = re.compile(BEGIN + rb"[ \t]*(?:Last Exception Backtrace|\*{3} First throw call stack)" + END)
# What encloses the frames of an exception.
OPENED = b"("


def group_lines(reports: Iterable[Report]) -> Iterator[str]:
    """A line for each group: how many reports it has, its frames, and the first report, between tabs."""
    groups: Dict[str, List[str]] = {}
    for report in reports:
        groups.setdefault(group_of(report), []).append(report.label)
    for text, labels in sorted(groups.items(), key=lambda group: (-len(group[1]), group[0])):
        yield f"{len(labels)}\t{line_shown(text)}\t{labels[0]}\n"


def group_of(report: Report) -> str:
    """The top frames of the backtrace of an exception that nothing caught, whose thread crashed in `abort`; or else of
    the first thread that a report says crashed."""
    for frames_of in (exception_frames, crashed_frames):
        for part in report.parts:
            found = frames_of(part)
            if found:
                return "; ".join(one.text() for one in found)
    return NO_THREAD


class Frame(NamedTuple):
    """A frame by its name, if it has one, and its image, or by the offset in it, if that is known."""

    name: Optional[str]
    image: str
    offset: Optional[int]

    def text(self) -> str:
        if self.name:
            return f"{self.name} ({self.image})"
        return self.image if self.offset is None else f"{self.image} + {self.offset}"


def exception_frames(part: Part) -> List[Frame]:
    """The top frames of what called for the throw. Those of the throw are the same in all reports."""
    found: List[Frame] = []
    most = TOP + len(THROWING)
    if isinstance(part, JsonReport):
        stacks = [stack for stack in part.stacks if stack.name == EXCEPTION_IN_JSON and stack.end > stack.first]
        found = json_frames(part, range(stacks[0].first, stacks[0].end), most) if stacks else []
    elif isinstance(part, TextReport):
        found = text_frames(part, EXCEPTION, most)
    is_throw = tuple(one.image for one in found[: len(THROWING)]) == THROWING and len(found) > len(THROWING)
    return found[len(THROWING) :] if is_throw else found[:TOP]


def crashed_frames(part: Part) -> List[Frame]:
    if isinstance(part, JsonReport):
        return json_frames(part, crashed_places(part), TOP)
    return text_frames(part, CRASHED, TOP) if isinstance(part, TextReport) else []


def frame_of(frames: Frames, at: Optional[int], written: Optional[str], had: Optional[str]) -> Frame:
    """A frame by its name and its image, or by the offset in the image. `had` is the name that the report has for it,
    and `written` the image. A frame without a number stands in text, and was inlined."""
    image = frames.image(at) if at is not None else None
    answers = frames.answers(at) if at is not None else {}
    symbol = frames.name(at) if at is not None else None
    name = symbol[0] if symbol else None if len(answers) > 1 else had
    image_name = one_line((image.name if image else None) or written or "???")
    offset = frames.offset(at) if image and at is not None else None
    return Frame(one_line(name) if name else None, image_name, offset)


def with_inlined(frames: Frames, at: int, own: Frame, said: Sequence[Frame]) -> List[Frame]:
    """A frame after the functions that were inlined there: those that the archive has, where it answers, so that a
    report is as its copy with names; else those that the report says."""
    if not frames.answers(at).keys() - {None}:
        return [*said, own]
    inlined = frames.answered_lines(at).inlined
    return [*(Frame(one_line(one.name) if one.name else None, own.image, None) for one in inlined), own]


# ---- JSON


def crashed_places(document: JsonReport) -> range:
    """The numbers of the frames of the thread that crashed."""
    for stack in document.stacks:
        if document.is_crashed(stack):
            return range(stack.first, stack.end)
    for calls in document.calls:
        for owner, first, end in calls.stacks:
            if calls.is_thread and owner.value("threadAttributed"):
                return range(first, end)
    return range(0)


def json_frames(document: JsonReport, places: range, most: int) -> List[Frame]:
    """The first frames of a list."""
    found: List[Frame] = []
    inlined: List[Frame] = []
    for at in places:
        if len(found) >= most:
            break
        frame = json_frame(document, at)
        if document.frames.kinds[at] & IS_INLINED:
            inlined.append(frame)
        else:
            found += with_inlined(document.frames, at, frame, inlined)
            inlined = []
    return [*found, *inlined][:most]


def json_frame(document: JsonReport, at: int) -> Frame:
    said: Any = document.said(at)
    if isinstance(said, dict):
        index, symbol, written = said.get("imageIndex"), said.get("symbol"), text_in(said.get("binaryName"))
    else:
        index, symbol, written = said[0], said[2] if len(said) > 2 else None, None
    if type(index) is int and 0 <= index < len(document.listed):
        written = name_of(document.listed[index])
    return frame_of(document.frames, at, written, text_in(symbol))


# ---- text


def text_frames(part: TextReport, heading: Pattern[bytes], most: int) -> List[Frame]:
    """The first frames below a heading: numbered, or as a line of addresses."""
    begins = heading.search(part.data, part.begin, part.end)
    found: List[Frame] = []
    inlined: List[Frame] = []
    place = begins.end() if begins else part.end
    while place < part.end and len(found) < most:
        line = part.line_at(place)
        form, frame = frames_in(line[1])
        if form is BACKTRACE and not found:
            return addressed_frames(part, line.start(), most)
        place = line.end()
        if is_below_frame(line[1]):
            continue
        if frame is None or form is not CRASH:
            break
        at, one = text_frame(part, line.start(), frame)
        if at is None:
            inlined.append(one)
        else:
            found += with_inlined(part.frames, at, one, inlined)
            inlined = []
    return [*found, *inlined][:most]


def is_below_frame(line: bytes) -> bool:
    """Whether a line belongs to the frame before it: the answer of a slice, or the rest of a line that was wrapped; or
    opens a list of frames."""
    return bool(line.strip() == OPENED or CONFLICTING.match(line) or REST_OF_LINE.fullmatch(plain(line)))


def addressed_frames(part: TextReport, place: int, most: int) -> List[Frame]:
    """The first frames of a line of addresses."""
    first = bisect.bisect_left(part.frames.places, place)
    end = bisect.bisect_right(part.frames.places, place)
    found: List[Frame] = []
    for at in range(first, min(end, first + most)):
        found += with_inlined(part.frames, at, frame_of(part.frames, at, None, None), [])
    return found[:most]


def name_in(said: bytes) -> bytes:
    """A name of a line of a crash without what stands after it: an offset, a source, and that it was inlined."""
    said = without_inlined(said.rstrip())
    source = SOURCE.search(said)
    said = without_inlined(said[: source.start()] if source else said)
    name, plus, offset = said.rpartition(b" + ")
    return name if plus and offset.isdigit() else said


def without_inlined(said: bytes) -> bytes:
    return said[: -len(INLINED)].rstrip(b" ") if said.endswith(b" " + INLINED) else said


def text_frame(part: TextReport, place: int, found: Match[bytes]) -> Tuple[Optional[int], Frame]:
    """The frame of a line, after its number, which one that was inlined has not."""
    places = part.frames.places
    number = bisect.bisect_left(places, place)
    at = number if number < len(places) and places[number] == place else None
    is_inlined = INLINED in found.string and not NO_NAME.fullmatch(found["said"])
    has_name = is_inlined if at is None else part.frames.kinds[at] & HAD_NAME
    had = name_in(found["said"]).decode(errors="surrogateescape") if has_name else None
    return at, frame_of(part.frames, at, found["image"].decode(errors="surrogateescape"), had)
