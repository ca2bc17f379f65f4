"""The standard streams of symbolicate-report, each of which may be closed; and how all of a text is written."""
from __future__ import annotations

import contextlib
import errno
import os
import re
import sys
from typing import TYPE_CHECKING, BinaryIO, Iterator, List, Optional, TextIO

from .escapes import line_shown
from .faults import about

if TYPE_CHECKING:
    import argparse

# What was said that is wrong, as --json prints it.
noted: List[str] = []
# The columns of what is no terminal, or of one that does not state them.
COLUMNS = 80
# What JSON may escape and UTF-8 does not have, except for what stands for bytes that were no UTF-8.
LONE_SURROGATE = re.compile("[\ud800-\udc7f\udd00-\udfff]")


def encoded(text: str) -> bytes:
    """The bytes of a text that was read from a report."""
    return LONE_SURROGATE.sub("\ufffd", text).encode(errors="surrogateescape")


def say(text: str) -> None:
    """Writes on standard error, if it is open. If it accepts nothing, that is not reported."""
    if sys.stderr is None:
        return
    try:
        sys.stderr.buffer.write(encoded("\n".join(map(line_shown, text.split("\n")))))
        sys.stderr.flush()
    except OSError:
        drop(2)


def note(text: object) -> None:
    noted.append(str(text))
    say(f"symbolicate-report: {text}\n")


@contextlib.contextmanager
def printing() -> Iterator[BinaryIO]:
    """Standard output, of which errors say that they are its own."""
    with about(b"standard output"):
        if sys.stdout is None:
            raise OSError(errno.EBADF, "closed")
        yield sys.stdout.buffer
        sys.stdout.buffer.flush()


def standard_input() -> bytes:
    with about(b"standard input"):
        if sys.stdin is None:
            raise OSError(errno.EBADF, "closed")
        return sys.stdin.buffer.read()


def columns_of(stream: Optional[TextIO]) -> int:
    """The columns of the terminal that a standard stream is; None is a closed one."""
    if stream is None:
        return COLUMNS
    with contextlib.suppress(OSError, ValueError):
        return os.get_terminal_size(stream.fileno()).columns or COLUMNS
    return COLUMNS


def help_columns() -> int:
    """The columns of a help, as `shutil.get_terminal_size` finds them: by COLUMNS, or by standard output."""
    with contextlib.suppress(KeyError, ValueError):
        wanted = int(os.environ["COLUMNS"])
        if wanted > 0:
            return wanted
    return columns_of(sys.stdout)


def help_form(prog: str) -> argparse.HelpFormatter:
    """The form of a help. argparse makes one for each argument, and would import other modules to find the width."""
    import argparse

    return argparse.RawDescriptionHelpFormatter(prog, width=help_columns() - 2)


def write(descriptor: int, data: bytes) -> None:
    left = memoryview(data)
    while left:
        left = left[os.write(descriptor, left) :]


def drop(stream: int) -> None:
    """Drops what a standard stream did not take, which Python would try to write again at the end."""
    with contextlib.suppress(OSError), open(os.devnull, "wb") as nothing:
        os.dup2(nothing.fileno(), stream)
