"""Lines of a text, and what a log or a page put before each: a time, with the process, and a bullet. Both stay before
a line, and before those that are made of it."""
from __future__ import annotations

import re
from typing import Match, Pattern

# As `2026-11-30 10:00:01.123 +0100 spool[4:5] `, `[10:00:01] `, or `Nov 30 10:00:01 host spool[4]: `.
DATE = rb"(?:[0-9]{4}[-/][0-9]{2}[-/][0-9]{2}[T ]|[A-Z][a-z]{2} [ 0-9][0-9] )?"
ZONE = rb"(?:Z| ?[+-][0-9]{2}:?[0-9]{2})?"
PROCESS = rb"(?:(?:[\w.-]{1,64} )?[^\s\[\]]{1,64}\[[0-9a-fx:]{1,32}\]:? ?)?"
CLOCK = rb"[0-9]{2}:[0-9]{2}:[0-9]{2}(?:[.,][0-9]{1,9})?"
TIME = rb"\[?" + DATE + CLOCK + ZONE + rb"\]?(?:[ \t]%b|(?=[\r\n]))" % PROCESS
# A bullet stands before what begins with a number or a heading.
BULLET = rb"[ \t]*(?:[*-]|\xe2\x80\xa2)[ \t]+(?=[0-9A-Z])"
BEFORE = rb"(?:%b)?(?:%b)?" % (TIME, BULLET)
ANY = re.compile(rb"^(?:%b|%b)" % (TIME, BULLET), re.MULTILINE)
# A line without what stands before it, and its end.
LINE = re.compile(rb"([^\r\n]*)(\r\n|\r|\n|\Z)")
LOGGED_LINE = re.compile(BEFORE + LINE.pattern)


def line_form(data: bytes, begin: int, end: int) -> Pattern[bytes]:
    """The form of the lines of a text."""
    return LOGGED_LINE if ANY.search(data, begin, end) else LINE


def with_before(made: bytes, whole: Match[bytes]) -> bytes:
    """Lines that were made of one, after what stands before that."""
    before = whole.string[whole.start() : whole.start(1)]
    if not before or not made:
        return made
    lines = (found[0] for found in LINE.finditer(made) if found[0])
    return b"".join(before + line for line in lines)
