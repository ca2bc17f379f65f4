"""Frames as objects of JSON: where each is, and what the archive says of it."""
from __future__ import annotations

from array import array
from typing import Iterator, List, Optional

from ..console.json_lines import Members
from .images import CANNOT_BE_ASKED, HAD_NAME, IS_INLINED, Frames
from .report import Report
from .source_lines import Source

# The number of no frame.
NO_FRAME = -1


def frame_objects(report: Report) -> Iterator[Members]:
    """An object for each frame of a report but those that it says were inlined. They have numbers in its order."""
    first = 0
    for frames in report.frames():
        callers = callers_of(frames)
        for at in range(len(frames)):
            if not frames.kinds[at] & IS_INLINED:
                caller = None if callers[at] == NO_FRAME else first + callers[at]
                yield {"type": "frame", "number": first + at, "caller": caller, **members_of_frame(frames, at)}
        first += len(frames)


def callers_of(frames: Frames) -> array[int]:
    """The frame that called each one, where the report has it. Addresses of one line of a tree have one caller."""
    callers = array("i", [NO_FRAME]) * len(frames)
    for inner, outer in zip(frames.inner, frames.outer):
        for at in frames.of_line(inner):
            callers[at] = outer
    return callers


def members_of_frame(frames: Frames, at: int) -> Members:
    image, kind = frames.image(at), frames.kinds[at]
    answers, symbol, lines = frames.answers(at), frames.name(at), frames.answered_lines(at)
    of_image: Members = {
        "image": image.name or None if image else None,
        "uuid": str(image.uuid) if image else None,
        "arch": image.arch if image else None,
        "image_offset": frames.offset(at) if image and not kind & CANNOT_BE_ASKED else None,
    }
    name, offset = symbol or (None, None)
    inlined: List[Members] = [{"function": one.name, **members_of_source(one.source)} for one in lines.inlined]
    function: Members = {"function": name, "offset": offset, **members_of_source(lines.source), "inlined": inlined}
    several: List[Members] = []
    if len(answers) > 1:
        several = [several_members(answer, digests) for answer, digests in answers.items()]
    return {**of_image, **function, "several": several, "named_before": bool(kind & HAD_NAME)}


def several_members(answer: object, digests: List[str]) -> Members:
    name, offset = answer if isinstance(answer, tuple) else (None, None)
    return {"function": name, "offset": offset, "digests": digests}


def members_of_source(source: Optional[Source]) -> Members:
    return {"file": source.file if source else None, "line": source.line if source else None}
