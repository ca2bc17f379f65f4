"""What the program prints of an address: the symbol that a slice answers, and below it, by `--lines`, the frames, each
with its file and line; and, by `--slices`, what it prints of the slices under a key."""
from __future__ import annotations

import re
from typing import Match, NamedTuple, Optional, Tuple

# What a slice answers, `NAME + OFFSET (SEG,SECT)`, up to the section; and the line before the answers of several.
ANSWER = re.compile(rb"(.*) \+ ([0-9]{1,20}) \(")
SEVERAL = re.compile(rb"!([0-9]{1,9})")
NO_SYMBOL, NO_SLICE = b"-", b"?"
# What the lines of frames begin with, and those of several slices.
OF_FRAME, OF_SLICE = b"    ", b"  "
# What is not known of a frame.
UNKNOWN = b"?"
# How many digits a line or a column has at most.
MOST_DIGITS = 20
# Bytes that the program does not print as they are.
ESCAPED = re.compile(r"(?:\\x[0-9a-f]{2})+")
# A slice that answers under a key, that there is none, or why the key is refused.
SLICE = re.compile(r"([0-9a-f-]{36}) (\S+) (?:(dsym|image) [0-9a-f]{64}|(absent)|refused (.+))\n")


class SymbolSaid(NamedTuple):
    """A symbol as it is printed: its name, the offset in it, and its section in parentheses."""

    name: bytes
    offset: int
    section: bytes


class FrameSaid(NamedTuple):
    """A frame as it is printed: the name of its function, its path, line and column."""

    name: bytes
    path: bytes
    line: int
    column: int


class SliceSaid(NamedTuple):
    """What is printed of a key: its UUID and architecture; dsym, image or absent, or else why it is refused."""

    uuid: str
    arch: str
    kind: Optional[str]
    reason: Optional[str]


def symbol_in(said: bytes) -> Optional[SymbolSaid]:
    """What a slice answers; None if it has no symbol. ValueError if that is no answer."""
    found = ANSWER.match(said) if said.endswith(b")") else None
    if not found and said != NO_SYMBOL:
        raise ValueError
    return SymbolSaid(found[1], int(found[2]), said[found.end() - 1 :]) if found else None


def count_in(said: bytes) -> Optional[int]:
    """How many slices answer, if it is said that there are several."""
    found = SEVERAL.fullmatch(said) if said.startswith(b"!") else None
    return int(found[1]) if found else None


def two_words(line: bytes) -> Tuple[bytes, bytes]:
    first, space, rest = line.rstrip(b"\n").partition(b" ")
    if not space:
        raise ValueError
    return first, rest


def frame_in(line: bytes) -> FrameSaid:
    """What the line of a frame says, `NAME at PATH:LINE:COLUMN`, after four spaces. The name ends at the first ` at `.
    ValueError if a line is no frame."""
    before, _, column = line.rstrip(b"\n").rpartition(b":")
    before, _, number = before.rpartition(b":")
    name, at, path = before[len(OF_FRAME) :].partition(b" at ")
    if not (line.startswith(OF_FRAME) and at and is_number(number) and is_number(column)):
        raise ValueError
    return FrameSaid(name, path, int(number), int(column))


def slice_in(line: bytes) -> SliceSaid:
    """What the line of a slice says. ValueError if it is none."""
    found = SLICE.fullmatch(line.decode())
    if not found:
        raise ValueError
    return SliceSaid(found[1], found[2], found[3] or found[4], found[5])


def is_number(digits: bytes) -> bool:
    return digits.isdigit() and len(digits) <= MOST_DIGITS


def unescaped(text: str) -> str:
    """A text of the program with the characters that it stands for, except for those that would not be one line."""
    return ESCAPED.sub(characters, text) if "\\x" in text else text


def characters(found: Match[str]) -> str:
    try:
        made = bytes.fromhex(found[0].replace("\\x", "")).decode()
    except ValueError:
        return found[0]
    return made if made.isprintable() else found[0]
