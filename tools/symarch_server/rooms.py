"""Folders for what comes in and goes out. They stand in one that is locked, so that the next server removes those of
one that was killed."""
from __future__ import annotations

import contextlib
import os
import shutil
import tempfile
from dataclasses import dataclass
from typing import Iterator

from symarch_tools.store.bundles.folder import remove_left, room_in


@dataclass(frozen=True)
class Rooms:
    """The rooms of a server, in a folder of their own."""

    folder: str

    @classmethod
    def until(cls, ends: contextlib.ExitStack) -> Rooms:
        """Rooms in the folder for temporary files, which end with these ends."""
        folder = os.fsencode(tempfile.gettempdir())
        remove_left(folder)
        return cls(os.fsdecode(ends.enter_context(room_in(folder))))

    @contextlib.contextmanager
    def room(self) -> Iterator[str]:
        """An empty folder, which is gone after this."""
        room = tempfile.mkdtemp(dir=self.folder)
        try:
            yield room
        finally:
            shutil.rmtree(room, ignore_errors=True)
