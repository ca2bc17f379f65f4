"""Waits for what has to come: until it is so, and not for so many seconds, since a machine may have other work."""
import contextlib
import os
import pathlib
import subprocess
import time
from typing import Callable, Optional

from .cases import Wrong
from .program import MOST_SECONDS, Word


def wait_until(is_so: Callable[[], object], process: "Optional[subprocess.Popen[bytes]]" = None) -> None:
    """Waits until something is so, as long as a process lives, and not for ever."""
    end = time.monotonic() + MOST_SECONDS
    while not is_so():
        if process is not None and process.poll() is not None:
            raise Wrong(f"the process ended before: {process.returncode}")
        if time.monotonic() > end:
            raise Wrong(f"it is not so after {MOST_SECONDS} seconds")
        time.sleep(0.005)


def has_open(process: int, path: Word) -> bool:
    """Whether a process has a file open."""
    found = []
    for one in pathlib.Path(f"/proc/{process}/fd").iterdir():
        with contextlib.suppress(FileNotFoundError):
            found.append(os.readlink(one))
    return os.path.realpath(path) in found


def is_running(process: int) -> bool:
    """Whether a process works, and is not merely there until somebody asks how it ended."""
    with contextlib.suppress(FileNotFoundError, ProcessLookupError):
        return pathlib.Path("/proc", str(process), "stat").read_text().rpartition(") ")[2][0] not in "ZX"
    return False
