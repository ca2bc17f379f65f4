"""Reports as JSON, as people read them: what happened, the threads with names and offsets, and the images."""
from __future__ import annotations

import uuid
from dataclasses import dataclass, field
from typing import Any, Dict, Iterable, Iterator, List, NamedTuple, Optional, Sequence, Tuple, Union

from ...console.escapes import line_shown
from ...console.streams import encoded
from ..images import IS_INLINED
from ..source_lines import Inlined, Source
from ..text.named_lines import INLINED, NO_NAME, LineAnswers, inlined_lines, named_line, numbered, source_after
from ..text.report import TextReport
from .readable_header import backtrace_blocks, header_lines, labelled, of, state_lines
from .report import Calls, JsonReport, Stack
from .walk import MOST_FLAT, NESTED, SPACE, Node, loaded

# Values of more bytes are left away, and a tree is set in no further than so many calls.
MOST_OF_VALUE = 100_000
MOST_SET_IN = 200
EXCEPTION = "lastExceptionBacktrace"


def parts(found: Iterable[Union[JsonReport, TextReport]], notes: List[str]) -> List[Union[TextReport, ReadableReport]]:
    """The parts of a report as people read them: text as it stands, and each JSON document that has frames, after what
    the document before it says. The full report after a text says the same as the text, and is left out."""
    made: List[Union[TextReport, ReadableReport]] = []
    header: Dict[str, Any] = {}
    for part in found:
        if isinstance(part, TextReport):
            space = SPACE.match(part.data, part.begin, part.end)
            assert space is not None
            if space.end() < part.end:
                part.begin = space.end() if part.begin else 0
                made.append(part)
            continue
        before = made[-1] if made else None
        if not len(part.frames):
            header = part.value if isinstance(part.value, dict) else {}
        elif part.is_full and isinstance(before, TextReport) and len(before.frames):
            before.end = before.heading
            notes.append("its Full Report is omitted, since it repeats the text above it")
        else:
            made.append(ReadableReport(part, header))
    return made


def values_of(data: bytes, node: Node) -> Dict[str, Any]:
    """The members of an object. One with others in it is read if it is small, and so is a long string."""
    found: Dict[str, Any] = {}
    for name, member in node.members.items():
        is_long = member.value == "" and member.end - member.begin > MOST_FLAT
        is_left = member.value is NESTED or is_long
        found[name] = nested(data[member.begin : member.end]) if is_left else member.value
    return found


def nested(data: bytes) -> Any:
    try:
        return loaded(data) if len(data) <= MOST_OF_VALUE else None
    except (ValueError, RecursionError):
        return None


class SaidFrame(NamedTuple):
    """What a document says of a frame: the name of its image and where that was loaded, the offset in it, the name of
    the function with the offset in that, and the file and the line."""

    name: Optional[str]
    base: Optional[int]
    offset: int
    symbol: Sequence[Any]
    source: str

    def address(self) -> str:
        return "???" if self.base is None else f"0x{self.base + self.offset:x}"

    def function(self, has_image: bool) -> str:
        """The name of the function, or else where an image that is known was loaded."""
        if self.symbol and self.symbol[0]:
            has_offset = len(self.symbol) > 1 and self.symbol[1] is not None
            return line_shown(f"{self.symbol[0]} + {self.symbol[1]}" if has_offset else f"{self.symbol[0]}")
        return f"0x{self.base:x} + {self.offset}" if self.base is not None and has_image else "???"


@dataclass(eq=False)
class ReadableReport:
    """A JSON document that has frames, after a header that stood before it."""

    document: JsonReport
    header: Dict[str, Any]
    bases: Dict[uuid.UUID, Tuple[int, Optional[str]]] = field(default_factory=dict)

    def __post_init__(self) -> None:
        document = self.document
        self.data, self.frames, self.end = document.data, document.frames, document.end
        node = document.report or document.root
        self.top = values_of(self.data, node) if node and document.stacks else {}
        blocks = ["\n".join(lines) for lines in backtrace_blocks(self.top)]
        self.backtraces = self.as_text("\n\n".join(blocks)) if blocks else None

    def as_text(self, text: str) -> TextReport:
        """Backtraces that are texts, with the images of the document."""
        own, listed = encoded(f"{text}\n"), "\n".join(map(line_shown, self.image_lines()))
        data = own + encoded(f"\n{listed}\n")
        made = TextReport(data, 0, len(data), self.document.images)
        made.end = len(own)
        return made

    def pieces(self) -> Iterator[bytes]:
        """The bytes of the report."""
        for line in self.lines():
            # The answers of several slices are lines below that of their frame.
            lines = [line] if isinstance(line, str) else line.decode(errors="surrogateescape").split("\n")
            yield encoded("\n".join(map(line_shown, lines))) + b"\n"

    def lines(self) -> Iterator[Union[str, bytes]]:
        if self.document.stacks:
            yield from self.crash()
        for calls in self.document.calls:
            yield from self.diagnostic(calls)
        yield from self.image_lines()

    # ---- .ips

    def crash(self) -> Iterator[Union[str, bytes]]:
        yield from header_lines(self.header, self.top)
        if self.backtraces:
            yield b"".join(self.backtraces.pieces())
        stacks = self.document.stacks
        for stack in sorted(stacks, key=lambda stack: stack.name != EXCEPTION):
            yield self.heading(stack)
            yield from self.frame_lines(range(stack.first, stack.end))
            yield ""
        for stack in stacks:
            thread = values_of(self.data, stack.owner)
            if thread.get("triggered") and isinstance(thread.get("threadState"), dict):
                yield from state_lines(stack.owner.number, thread["threadState"])

    def heading(self, stack: Stack) -> str:
        """The line above a list of frames."""
        owner = stack.owner
        if stack.name == EXCEPTION:
            return "Last Exception Backtrace:"
        thread = owner.members
        names = [str(owner.value("name"))] if owner.value("name") else []
        names += [f"Dispatch queue: {owner.value('queue')}"] if owner.value("queue") else []
        is_list = owner.parent is not None and owner.parent.is_list
        number = owner.number if is_list else owner.value("id") if "id" in thread else owner.key
        process = process_of(owner)
        names += [process] if process else []
        names += [] if stack.name == "frames" else [str(stack.name)]
        is_crashed = self.document.is_crashed(stack)
        return f"Thread {number}{' Crashed' if is_crashed else ''}:{': ' if names else ''}{', '.join(names)}"

    def frame_lines(self, places: range) -> Iterator[bytes]:
        number = 0
        for at in places:
            said = self.document.said(at)
            index, offset = (said["imageIndex"], said["imageOffset"]) if isinstance(said, dict) else said[:2]
            listed = self.document.listed[index] if 0 <= index < len(self.document.listed) else None
            base, name = base_of(listed), name_of(listed)
            symbol = [said.get("symbol"), said.get("symbolLocation")] if isinstance(said, dict) else said[2:4]
            lines = self.lines_of_frame(number, at, SaidFrame(name, base, offset, symbol, source_of(said)))
            number += len(lines)
            yield from lines

    def lines_of_frame(self, number: int, at: int, said: SaidFrame) -> List[bytes]:
        """A line of a crash: the image, the address, the name and its offset, or where the image was loaded; after one
        for each function that was inlined there."""
        head = encoded(f"{number:<4}{said.name or '???':<30}\t{said.address():>18} ")
        lines = self.frames.lines(at)
        made = list(inlined_lines(lines, head, 0))
        tail = source_after(lines.source, encoded(f" ({said.source})" if said.source else ""))
        head = numbered(head, len(made))
        if self.frames.kinds[at] & IS_INLINED:
            tail += b" " + INLINED
        own = said.function(self.frames.image(at) is not None)
        return [*made, named_line(self.answers(at), head, b"", tail, b"") or head + encoded(own) + tail]

    def answers(self, at: int) -> LineAnswers:
        """The answers to a frame, as those of a line."""
        return {(symbol,): digests for symbol, digests in self.frames.answers(at).items()}

    # ---- MetricKit

    def diagnostic(self, calls: Calls) -> Iterator[Union[str, bytes]]:
        yield from labelled(self.data, calls.owner, values_of)
        for number, (owner, first, end) in enumerate(calls.stacks):
            is_crashed = calls.is_thread and owner.value("threadAttributed")
            yield f"Thread {number}{' Crashed' if is_crashed else ''}:"
            lines = self.thread_lines if calls.is_thread else self.tree_lines
            yield from lines(range(first, end))
            yield ""

    def thread_lines(self, places: range) -> Iterator[bytes]:
        number = 0
        for at in places:
            base, name, offset, symbol = self.call(at)
            source = source_of(self.document.said(at))
            lines = self.lines_of_frame(number, at, SaidFrame(name, base, offset or 0, symbol, source))
            number += len(lines)
            yield from lines

    def tree_lines(self, places: range) -> Iterator[bytes]:
        """The lines of a tree. What a frame called stands below the functions that were inlined there."""
        open_frames: List[Tuple[int, int]] = []
        for at in places:
            depth = self.document.depths[at]
            open_frames = [one for one in open_frames if one[0] < depth]
            depth += sum(count for _, count in open_frames)
            lines = self.frames.lines(at)
            yield self.node(at, depth, lines.source, None)
            for number, one in enumerate(reversed(lines.inlined), 1):
                yield self.node(at, depth + number, one.source, one)
            open_frames.append((self.document.depths[at], len(lines.inlined)))

    def call(self, at: int) -> Tuple[Optional[int], Optional[str], Optional[int], Sequence[Any]]:
        """Where the image of a frame was loaded, its name, the offset in it, and the name that the report has."""
        said = self.document.said(at)
        address, offset = number_in(said.get("address")), number_in(said.get("offsetIntoBinaryTextSegment"))
        image, name = self.frames.image(at), line_shown(text_in(said.get("binaryName")) or "") or None
        is_placed = address is not None and offset is not None
        base = address - offset if address is not None and offset is not None else address
        if image and is_placed and base is not None:
            self.bases.setdefault(image.uuid, (base, name))
        return base, name, offset if is_placed else None, (said.get("symbol"), said.get("symbolLocation"))

    def node(self, at: int, depth: int, source: Optional[Source], inlined: Optional[Inlined]) -> bytes:
        """A line of a tree: of a frame, or of a function that was inlined there."""
        base, name, offset, symbol = self.call(at)
        samples = number_in(self.document.said(at).get("sampleCount"))
        head = f"{'  ' * (1 + min(depth, MOST_SET_IN))}{1 if samples is None else samples:<4} ".encode()
        text = source.text() if source else "" if inlined else source_of(self.document.said(at))
        inside = f"{text} in " if text else ""
        place = f" ({inside}{name or '???'} + {offset})" if offset is not None else ""
        tail = encoded(f"{place} [0x{(base or 0) + (offset or 0):x}]")
        if inlined:
            return head + encoded(inlined.name or NO_NAME) + tail + b" " + INLINED
        before = line_shown(f"{symbol[0]} + {symbol[1]}") if symbol[0] else "???"
        return named_line(self.answers(at), head, b"", tail, b"") or head + encoded(before) + tail

    # ---- images

    def image_lines(self) -> Iterator[str]:
        yield "Binary Images:"
        for listed in self.document.listed:
            base, name = base_of(listed), name_of(listed)
            size, arch, path = (of(listed, one) for one in ("size", "arch", "path"))
            end = f"0x{base + size - 1:x}" if base is not None and type(size) is int and size > 0 else "???"
            told = listed[0] if isinstance(listed, list) and listed else of(listed, "uuid")
            yield image_line(base, end, f"{name or '???'}{f' {arch}' if arch else ''}", told, path)
        for number, (base, name) in self.bases.items():
            yield image_line(base, "???", name or "???", number, None)


def image_line(base: Optional[int], end: str, name: str, told: object, path: object) -> str:
    begin = "0x0" if base is None else f"0x{base:x}"
    return f"{begin:>18} - {end:>18} {name} <{told}> {path or ''}".rstrip()


def base_of(listed: Any) -> Optional[int]:
    """Where an image of a list was loaded, if it is said."""
    base = listed[1] if isinstance(listed, list) and len(listed) > 1 else of(listed, "base")
    found = number_in(base)
    return found if found is not None and found >= 0 else None


def name_of(listed: Any) -> Optional[str]:
    name = text_in(of(listed, "name")) or (text_in(of(listed, "path")) or "").rpartition("/")[2]
    return line_shown(name) or None


def text_in(value: object) -> Optional[str]:
    return value if isinstance(value, str) else None


def number_in(value: object) -> Optional[int]:
    """The whole number that a value is, which `true` is not."""
    return value if type(value) is int else None


def source_of(said: Any) -> str:
    """The source file and line that a frame states."""
    if isinstance(said, list):
        file, line = said[4:6] if len(said) > 5 else (None, None)
    else:
        file, line = said.get("sourceFile"), said.get("sourceLine", 0)
    return line_shown(f"{file}:{line}") if file else ""


def process_of(node: Optional[Node]) -> Optional[str]:
    """The process that a thread is of, where the report has several."""
    while node is not None:
        name = node.value("procname")
        if name:
            return f"{name} [{node.value('pid')}]"
        node = node.parent
    return None
