"""Processes that a tool begins, and that end with it."""
from __future__ import annotations

import contextlib
import subprocess
from typing import Any, Sequence, Union

from .signals import signals


def begun(ends: contextlib.ExitStack, command: Sequence[Union[str, bytes]], **how: Any) -> subprocess.Popen[bytes]:
    """A process, which is ended where something fails before these ends come. A signal waits until it is among them."""
    with signals.later():
        process: subprocess.Popen[bytes] = ends.enter_context(subprocess.Popen(command, **how))
        ends.push(lambda failed, *_: process.kill() if failed else None)
    return process
