"""A report as a page has it: the threads with their frames, and what stands between them, by the forms of lines of
`symarch_tools.reports.text.report`."""
from __future__ import annotations

import re
from typing import Any, Dict, Iterable, List, Optional, Tuple

from symarch_tools.reports.text.named_lines import INLINED, SOURCE
from symarch_tools.reports.text.report import CRASH, EXCEPTION, NO_NAME, frames_in

from .control import Members

# So many bytes of a report stand on a page, and no longer lines.
MOST_OF_PAGE, MOST_OF_LINE = 1 << 19, 2_000
THREAD = re.compile(rb"Thread \S[^:]*:.*|" + re.escape(EXCEPTION) + rb":.*")
# A heading before that of the thread itself, as older reports have it.
NAME = re.compile(r"Thread \S+ name:\s*")
STATE, IMAGES = re.compile(rb"Thread \S+ crashed with .*"), re.compile(rb"\s*Binary Images:")
IS_CRASHED = re.compile(rb"Thread \S+ Crashed\b")
OFFSET = re.compile(r"(.*) \+ ([0-9]{1,20})")
# The answers of several slices, below a line that has so many.
ANSWER = re.compile(rb"  [0-9a-f]{64} .*")


def blocks_of(pieces: Iterable[bytes]) -> Tuple[List[Members], bool]:
    """The blocks of a report, and whether it has more than stands on a page."""
    data, is_cut = beginning(pieces)
    made: List[Members] = []
    for line in data.splitlines():
        add_line(made, line[:MOST_OF_LINE])
    whole = [{**one, "lines": without_end(one["lines"])} for one in made]
    return [one for one in whole if one["lines"] or one["kind"] == "thread"], is_cut


def without_end(lines: List[Any]) -> List[Any]:
    """Lines without empty ones at their end."""
    count = len(lines)
    while count and not lines[count - 1]:
        count -= 1
    return lines[:count]


def beginning(pieces: Iterable[bytes]) -> Tuple[bytes, bool]:
    """The first bytes, up to the end of a line, and whether there are more."""
    kept: List[bytes] = []
    left = MOST_OF_PAGE
    for piece in pieces:
        kept.append(piece[: left + 1])
        left -= len(piece)
        if left < 0:
            return b"".join(kept)[:MOST_OF_PAGE].rpartition(b"\n")[0], True
    return b"".join(kept), False


def add_line(made: List[Members], line: bytes) -> None:
    """Adds a line to the last block, or begins one by it."""
    last = made[-1] if made else None
    frame = frame_of(line) if last and last["kind"] == "thread" else None
    if last and last["kind"] == "thread" and frame:
        last["lines"].append(frame)
    elif last and last["kind"] == "thread" and last["lines"] and ANSWER.fullmatch(line):
        last["lines"][-1]["more"].append(text_of(line).strip())
    elif THREAD.fullmatch(line) and not STATE.match(line):
        heading = text_of(line)
        if last and last["kind"] == "thread" and not last["lines"]:
            heading = f"{heading} {NAME.sub('', made.pop()['heading'])}"
        made.append({"kind": "thread", "heading": heading, "is_crashed": bool(IS_CRASHED.match(line)), "lines": []})
    elif IMAGES.match(line):
        made.append({"kind": "images", "lines": [text_of(line)]})
    elif last and last["kind"] != "thread":
        last["lines"].append(text_of(line))
    elif line.strip():
        made.append({"kind": "text", "lines": [text_of(line)]})


def text_of(line: bytes) -> str:
    return line.decode(errors="replace").replace("\t", "    ")


def frame_of(line: bytes) -> Optional[Dict[str, Any]]:
    """The frame that a line of a crash has."""
    form, found = frames_in(line)
    if form is not CRASH or found is None:
        return None
    said = found["said"].strip()
    is_inlined = said.endswith(INLINED)
    said = said[: -len(INLINED)].rstrip() if is_inlined else said
    source = SOURCE.search(said)
    name = text_of(said[: source.start()] if source else said)
    with_offset = OFFSET.fullmatch(name)
    is_named = not NO_NAME.fullmatch(said) and not said.startswith(found["image"].strip() + b" + ")
    return {
        "number": text_of(found["number"]),
        "image": text_of(found["image"]).strip(),
        "address": text_of(found["addresses"]),
        "name": with_offset[1] if with_offset and is_named else name,
        "offset": with_offset[2] if with_offset and is_named else None,
        "source": text_of(source[0])[2:-1] if source else None,
        "is_named": is_named,
        "is_inlined": is_inlined,
        "more": [],
    }
