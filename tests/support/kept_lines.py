"""The companions of tests/fixtures/lines, and what LLVM's tools said of them."""
import pathlib
import re
from typing import Dict, Iterator, List, NamedTuple, Sequence, Tuple

from ..model.images import image_of
from . import llvm
from .made_dsyms import SOURCES

AROUND = 16
AT = re.compile(" (?=at( |$))")
# Addresses from the first on, below the last, which have the same lines of frames.
Span = Tuple[int, int, List[str]]


def escaped(text: bytes) -> str:
    return "".join(chr(b) if 0x20 <= b <= 0x7E and b != 0x5C else f"\\x{b:02x}" for b in text)


def frame_line(place: llvm.Place) -> str:
    """A frame as `--lines` prints it."""
    name = "?" if place.name is None else AT.sub(r"\\x20", escaped(place.name))
    path = "?" if place.path is None else escaped(place.path)
    return f"    {name} at {path}:{place.line}:{place.column}"


def spans_of(addresses: Sequence[int], lines: Sequence[List[str]]) -> Iterator[Span]:
    """Addresses that follow one another and have the same lines, put together."""
    first = 0
    for place in range(1, len(addresses) + 1):
        is_next = place < len(addresses) and addresses[place] == addresses[place - 1] + 1
        if not is_next or lines[place] != lines[first]:
            yield addresses[first], addresses[place - 1] + 1, lines[first]
            first = place


class Said(NamedTuple):
    """What LLVM said of a companion: the lines of frames of all addresses in code and beside it, and the rows of each
    program by its offset."""

    spans: List[Span]
    rows: Dict[int, List[llvm.Row]]

    def text(self) -> str:
        lines = []
        for first, last, frames in self.spans:
            lines += [f"{first:#x} {last:#x}", *frames]
        for offset, rows in self.rows.items():
            lines.append(f"program {offset:#x}")
            for address, file, line, column, is_end in rows:
                lines.append(f"  {address:#x} {file} {line} {column}{' end' if is_end else ''}")
        return "\n".join(lines) + "\n"


def read_said(text: str) -> Said:
    spans: List[Span] = []
    programs: Dict[int, List[llvm.Row]] = {}
    for line in text.splitlines():
        words = line.split()
        if line.startswith("    "):
            spans[-1][2].append(line)
        elif line.startswith("  "):
            file, number, column = map(int, words[1:4])
            programs[max(programs)].append((int(words[0], 16), file, number, column, len(words) == 5))
        elif words[0] == "program":
            programs[int(words[1], 16)] = []
        else:
            spans.append((int(words[0], 16), int(words[1], 16), []))
    return Said(spans, programs)


def code_of(content: bytes) -> List[Tuple[int, int]]:
    """The address and the size of each section of code of a companion."""
    return [(it.addr, it.size) for it in image_of(content).sections if it.name == b"__text"]


def said_by_llvm(path: pathlib.Path) -> Said:
    """What LLVM says of a companion."""
    content = path.read_bytes()
    code = code_of(content)
    near = {it for address, size in code for it in range(max(address - AROUND, 0), address + size + AROUND)}
    addresses = sorted(near)
    found = llvm.frames(content, addresses)
    lines = [[frame_line(it) for it in frames] for frames in found]
    return Said(list(spans_of(addresses, lines)), llvm.rows(path))


def frames_in(lines: Sequence[str]) -> List[List[str]]:
    """The lines of frames after each line of an answer."""
    found: List[List[str]] = []
    for line in lines:
        if line.startswith("    "):
            found[-1].append(line)
        else:
            found.append([])
    return found


class Kept(NamedTuple):
    """A companion that is kept."""

    name: str
    content: bytes
    said: Said


def kept() -> List[Kept]:
    texts = sorted(SOURCES.glob("*.said"))
    return [Kept(it.stem, it.with_suffix(".dsym").read_bytes(), read_said(it.read_text("utf-8"))) for it in texts]
