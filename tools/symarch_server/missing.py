"""ARCHIVE.missing: of which images reports had frames that no dSYM named. It has the name of an image, its UUID, how
often it was so and on which days, and no report."""
from __future__ import annotations

import contextlib
import os
import sqlite3
import threading
import time
from dataclasses import dataclass, field
from typing import Dict, Iterator, List, NamedTuple, Optional

ENDING = ".missing"
TABLE = """CREATE TABLE IF NOT EXISTS missing (
    uuid TEXT PRIMARY KEY, name TEXT NOT NULL, count INTEGER NOT NULL, first TEXT NOT NULL, last TEXT NOT NULL,
    turn INTEGER NOT NULL
) WITHOUT ROWID"""
# In which order they were seen last.
TURNS = "CREATE INDEX IF NOT EXISTS turns ON missing (turn)"
ADD = """INSERT INTO missing VALUES (?, ?, 1, ?, ?, (SELECT COALESCE(MAX(turn), 0) + 1 FROM missing))
ON CONFLICT (uuid) DO UPDATE SET count = count + 1, last = excluded.last, turn = excluded.turn,
name = CASE excluded.name WHEN '' THEN name ELSE excluded.name END"""
BOUND = "DELETE FROM missing WHERE turn IN (SELECT turn FROM missing ORDER BY turn DESC LIMIT -1 OFFSET ?)"
LIST = "SELECT uuid, name, count, first, last FROM missing ORDER BY count DESC, last DESC, uuid"
# So many rows are kept, and so many characters of a name. A report has so many.
MOST, MOST_OF_NAME, MOST_OF_REPORT = 10_000, 255, 1_000
# How many seconds a request waits for another process that writes it.
WAIT = 1.0


class Row(NamedTuple):
    """An image that lacked a dSYM: how often, and the first and the last day."""

    uuid: str
    name: str
    reports: int
    first: str
    last: str


def text_of(name: str) -> str:
    """A name as a database may have it."""
    return name[:MOST_OF_NAME].encode(errors="replace").decode()


@dataclass(eq=False)
class Missing:
    """The file next to an archive. Whoever may not write it remembers nothing, and answers all the same."""

    archive: str
    is_kept: bool
    lock: threading.Lock = field(default_factory=threading.Lock)
    # What kept the last report from being kept, or the rows from being read, if something did.
    fault: Optional[str] = None

    def path(self) -> str:
        return self.archive + ENDING

    @contextlib.contextmanager
    def opened(self) -> Iterator[sqlite3.Connection]:
        with self.lock, contextlib.closing(sqlite3.connect(self.path(), timeout=WAIT)) as connection, connection:
            connection.execute(TABLE)
            connection.execute(TURNS)
            yield connection

    def add(self, images: Dict[str, str]) -> Optional[str]:
        """Counts the images of a report, by their UUIDs. Returns what keeps it from that, if nothing did before."""
        if not self.is_kept or not images:
            return None
        day = time.strftime("%Y-%m-%d", time.gmtime())
        some = list(images.items())[:MOST_OF_REPORT]
        try:
            with self.opened() as connection:
                connection.executemany(ADD, [(number, text_of(name), day, day) for number, name in some])
                connection.execute(BOUND, (MOST,))
            self.fault = None
        except sqlite3.Error as error:
            before, self.fault = self.fault, str(error)
            return None if before == self.fault else self.fault
        return None

    def rows(self) -> List[Row]:
        if not self.is_kept or not os.path.lexists(self.path()):
            return []
        try:
            with self.opened() as connection:
                return [Row(*row) for row in connection.execute(LIST)]
        except sqlite3.Error as error:
            self.fault = str(error)
            return []
