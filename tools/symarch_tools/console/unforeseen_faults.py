"""What no part of a tool foresaw: one line in place of a traceback, for both tools, and that too by --debug."""
from __future__ import annotations

import os
from dataclasses import dataclass
from typing import Callable, List, Sequence

from .escapes import shown
from .faults import Failed
from .screen import Screen

DEBUG = "--debug"
HELP = "after an unexpected error, print the traceback"
# More characters of an exception are not printed.
MOST_OF_TEXT = 300


@dataclass
class Debugging:
    """Whether it is printed where a tool ended by what it did not foresee."""

    is_on: bool = False

    def taken_from(self, arguments: Sequence[str]) -> List[str]:
        """The arguments of a call without --debug, which may be anywhere before --."""
        end = arguments.index("--") if "--" in arguments else len(arguments)
        self.is_on = DEBUG in arguments[:end]
        return [*(one for one in arguments[:end] if one != DEBUG), *arguments[end:]]


# That of the process.
debugging = Debugging()


def unforeseen(error: Exception) -> Failed:
    """What no part of a tool foresaw."""
    return Failed(line_of(error), 4, traceback_of(error) if debugging.is_on else "", leaves_archive=False)


def traceback_of(error: Exception) -> str:
    import traceback

    lines = "".join(traceback.format_exception(type(error), error, error.__traceback__)).splitlines()
    return "\n".join(map(printed, lines))


def printed(text: str) -> str:
    return shown(text.encode(errors="backslashreplace"))


def line_of(error: Exception) -> str:
    """What an exception is, and which line raised it."""
    if isinstance(error, MemoryError):
        return "out of memory"
    import traceback

    last = traceback.extract_tb(error.__traceback__)[-1]
    text = printed(str(error)[:MOST_OF_TEXT])
    what = f"{type(error).__name__}{': ' if text else ''}{text}"
    return f"unexpected: {what}, at line {last.lineno} of {os.path.basename(last.filename)}; {DEBUG} prints more"


def guarded(tool: str, work: Callable[[], int]) -> int:
    """The status of a work, or of what it did not foresee, which is said."""
    try:
        return work()
    except Exception as error:
        fault = unforeseen(error)
    Screen().write("".join(f"{line}\n" for line in (f"{tool}: {fault.text}", fault.more) if line))
    return fault.status
