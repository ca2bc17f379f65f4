"""How far a long work is, as one line on the terminal of standard error, which is wiped before anything else is
printed there."""
import contextlib
import os
import sys
import time
from dataclasses import dataclass
from typing import Callable, Union

from .streams import columns_of

# The line comes after so many seconds, and is written anew as often. A stage that goes on for so long has a speed.
LEAST, PAUSE, LEAST_OF_STAGE = 2.0, 0.2, 1.0
# What takes longer than so many seconds is not known yet.
MOST_LEFT = 100 * 3600
WIPE = "\r\x1b[K"
UNITS = ((10**12, "TB", 1), (10**9, "GB", 1), (10**6, "MB", 0), (10**3, "kB", 0))


@dataclass
class Progress:
    """The line of a process. A work is a chain of stages, each of so many bytes, if that is known."""

    clock: Callable[[], float] = time.monotonic
    is_shown: bool = False
    stage: str = ""
    size: int = 0
    done: int = 0
    # When the first stage began, this one, and when the line may be written again.
    first: float = -1.0
    began: float = 0.0
    next: float = 0.0

    def begin(self, stage: str, size: int = 0) -> None:
        """Begins a stage; its text may have {} in place of how many files or slices are done."""
        self.stage, self.size, self.done, self.began = stage, size, 0, self.clock()
        if self.first < 0:
            self.first, self.next = self.began, self.began + LEAST

    def moved(self, size: int) -> None:
        """So many bytes more of the stage are done."""
        self.done += size
        self.show(0, self.done)

    def show(self, count: int, size: Union[int, Callable[[], int]] = 0) -> None:
        """So many files or slices are done, and bytes, which are counted if the line is written."""
        now = self.clock()
        if self.first >= 0 and now >= self.next and is_terminal():
            self.next = now + PAUSE
            done = size if isinstance(size, int) else size()
            self.put(f"{WIPE}{self.text(count, done, now - self.began)[:columns_of(sys.stderr) - 1]}")
            self.is_shown = True

    def text(self, count: int, done: int, took: float) -> str:
        text = self.stage.format(count)
        if not self.size:
            return text
        text += f", {bytes_text(min(done, self.size))} of {bytes_text(self.size)}"
        if took < LEAST_OF_STAGE or not 0 < done <= self.size:
            return text
        left = took * (self.size - done) / done
        return f"{text}, {time_text(left)} left" if left < MOST_LEFT else text

    def wipe(self) -> None:
        """Leaves nothing of the line."""
        if self.is_shown:
            self.put(WIPE)
            self.is_shown = False

    @staticmethod
    def put(text: str) -> None:
        with contextlib.suppress(OSError, AttributeError):
            sys.stderr.buffer.write(text.encode())
            sys.stderr.flush()


def is_terminal() -> bool:
    """Whether standard error is a terminal on which a line can be wiped."""
    return sys.stderr is not None and sys.stderr.isatty() and os.environ.get("TERM") != "dumb"


def bytes_text(size: int) -> str:
    for unit, name, places in UNITS:
        if size >= unit:
            return f"{size / unit:.{places}f} {name}"
    return f"{size} bytes"


def time_text(seconds: float) -> str:
    """Minutes and seconds, after hours if there are any."""
    minutes, left = divmod(round(seconds), 60)
    return f"{minutes // 60}:{minutes % 60:02}:{left:02}" if minutes >= 60 else f"{minutes}:{left:02}"


# That of the process.
progress = Progress()
