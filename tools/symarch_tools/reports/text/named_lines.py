"""Lines of text with the names, files and lines of their frames, as Apple's reports have them."""
from __future__ import annotations

import re
from typing import Iterator, List, Mapping, Match, Optional, Sequence, Tuple

from ..answers import Symbol
from ..source_lines import Inlined, Lines, Source

# The answers to the frames of a line, one for each.
LineAnswers = Mapping[Tuple[Optional[Symbol], ...], List[str]]

# What stands after a frame of a crash.
INLINED = b"[inlined]"
SOURCE = re.compile(rb" \([^()]*:[0-9]+\)$")
# The number of a frame after spaces, and what is between it and the image.
NUMBER = re.compile(rb"(\s*)([0-9]+)(\.?)\s+")
NO_NAME = "???"


def named_line(answers: LineAnswers, head: bytes, middle: bytes, tail: bytes, end: bytes) -> Optional[bytes]:
    """A line with its names, between what stands around them; None where no slice has a name."""
    if len(answers) > 1:
        lines = [b"%b!%d%b%b" % (head, len(answers), middle, tail)]
        for answer, digests in answers.items():
            said = " + ".join(names_and_offsets(answer)) if any(answer) else "-"
            lines.append(bytes_of(" ".join([" ", *digests, said])))
        return (end or b"\n").join(lines) + end
    if not any(any(answer) for answer in answers):
        return None
    names, offsets = map(bytes_of, names_and_offsets(next(iter(answers))))
    return b"%b%b%b + %b%b%b" % (head, names, middle, offsets, tail, end)


def names_and_offsets(symbols: Sequence[Optional[Symbol]]) -> Tuple[str, str]:
    """The names of the symbols of a line, once where all have one name, and their offsets."""
    names, offsets = zip(*[symbol or ("-", "-") for symbol in symbols])
    return ",".join(names if len(set(names)) > 1 else names[:1]), ",".join(map(str, offsets))


def bytes_of(text: str) -> bytes:
    return text.encode(errors="surrogateescape")


# ---- crashes


def source_after(source: Optional[Source], otherwise: bytes = b"") -> bytes:
    """What stands after a name and its offset."""
    return bytes_of(f" ({source.text()})") if source else otherwise


def inlined_text(inlined: Inlined) -> bytes:
    """As `clamp (shared.h:6) [inlined]`."""
    return bytes_of(inlined.name or NO_NAME) + source_after(inlined.source) + b" " + INLINED


def numbered(head: bytes, more: int) -> bytes:
    """What stands before a name, with a greater number of the frame, in the columns that it has."""
    found = NUMBER.match(head) if more else None
    return greater(found, more) + head[found.end() :] if found else head


def greater(found: Match[bytes], more: int) -> bytes:
    number, width = b"%d%b" % (int(found[2]) + more, found[3]), found.end() - found.start(2)
    return found[1] + number.ljust(width if len(number) < width else len(number) + 1)


def inlined_lines(lines: Lines, head: bytes, more: int) -> Iterator[bytes]:
    """A line for each function that was inlined at a frame."""
    for number, one in enumerate(lines.inlined):
        yield numbered(head, more + number) + inlined_text(one)
