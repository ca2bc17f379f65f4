"""All that requests share: the words of the call, the workers, the rooms, the tokens, and what is remembered and
counted."""
from __future__ import annotations

import atexit
import contextlib
import json
import os
import sys
import threading
import time
import traceback
from dataclasses import dataclass, field
from typing import Any, Dict, Iterator, List, NamedTuple, Optional, Sequence

from symarch_tools.console.escapes import shown

from .control import ERR, OUT, Members, close
from .metrics import Metrics
from .missing import Missing
from .pool import Busy, Limits, Pool, WorkerEnded
from .refusals import Refusal
from .rooms import Rooms
from .settings import Settings
from .tokens import BadTokens, Tokens

# Bundles and searches by name, which read all slices, have workers of their own, and so much more time. So have
# uploads, of which one is added after another.
LONG_WORKERS, LONGER = 2, 10
# So many requests wait for them, so that others are answered meanwhile; and for the other workers.
LONG_WAITING, MOST_WAITING = 4, 1_000
# So many bytes of files that stand in no archive are sent at once, since slow clients have them kept on the disk.
# Bodies and files of SMALL bytes are not counted, so that those who have large ones keep nobody else out.
MOST_SENDING, SMALL = 16 << 30, 1 << 20
# So much is read of what a word says on standard error.
MOST_SAID = 100_000
NOT_ASKED = "the archive could not be read"


class Work(NamedTuple):
    """What a worker answered, in its room, and the files that it opened. Who takes one of these closes it."""

    members: Members
    room: str
    descriptors: List[int]

    def path(self, name: str) -> str:
        return os.path.join(self.room, name)

    def said(self) -> List[str]:
        """The lines on standard error."""
        with open(self.path(ERR), "rb") as file:
            return file.read(MOST_SAID).decode(errors="replace").splitlines()

    def refusal(self, status: int = 503) -> Refusal:
        """That the archive could not be read, as the lines on standard error say it."""
        said = self.said()
        return Refusal(status, said[0] if said else NOT_ASKED, said[1:])

    def printed(self) -> str:
        with open(self.path(OUT), "rb") as file:
            return file.read().decode(errors="replace")


@dataclass(eq=False)
class Site:
    """An archive that is served by this process."""

    settings: Settings
    metrics: Metrics = field(default_factory=Metrics)
    ends: contextlib.ExitStack = field(default_factory=contextlib.ExitStack)
    lock: threading.Lock = field(default_factory=threading.Lock)
    # How many bytes of files are being sent that stand in no archive.
    sending: int = 0

    def __post_init__(self) -> None:
        settings = self.settings
        self.rooms = Rooms.until(self.ends)
        self.missing = Missing(settings.archive, settings.has_missing)
        self.readers = Tokens(settings.readers) if settings.readers else None
        self.uploads = Tokens(settings.uploads) if settings.uploads else None
        self.workers = Pool(settings.workers, Limits(settings.memory, settings.seconds), MOST_WAITING)
        longer = Limits(settings.memory, settings.seconds * LONGER)
        self.long_workers, self.adding = Pool(LONG_WORKERS, longer, LONG_WAITING), Pool(1, longer, LONG_WAITING)
        atexit.register(self.end)

    def end(self) -> None:
        """Ends the workers, and removes the rooms."""
        for pool in (self.workers, self.long_workers, self.adding):
            pool.end()
        self.ends.close()

    @contextlib.contextmanager
    def work(self, job: str, room: str, pool: Optional[Pool] = None, **members: Any) -> Iterator[Work]:
        """What a worker answers. What keeps it from that refuses the request."""
        asked = {"job": job, "room": room, "archive": self.settings.archive, **members}
        try:
            answer, descriptors = (pool or self.workers).ask(asked)
        except Busy:
            raise Refusal(503, "all workers are busy: repeat the request", headers={"Retry-After": "10"}) from None
        except WorkerEnded as ended:
            raise Refusal(503, str(ended)) from None
        try:
            refuse_fault(answer)
            yield Work(answer, room, descriptors)
        finally:
            close(descriptors)

    def keep(
        self, words: Sequence[str], room: str, pool: Optional[Pool] = None
    ) -> contextlib.AbstractContextManager[Work]:
        """What comes of words of symarch-keep."""
        return self.work("keep", room, pool, words=list(words))

    def begin_sending(self, size: int) -> None:
        """Counts bytes of a file that is sent."""
        with self.lock:
            if self.sending and self.sending + size > MOST_SENDING:
                raise Refusal(503, "other answers are being sent: repeat the request", headers={"Retry-After": "10"})
            self.sending += size

    def end_sending(self, size: int) -> None:
        with self.lock:
            self.sending -= size

    # ---- who asks

    def reader_of(self, token: Optional[bytes]) -> Optional[str]:
        """The name of a token that may read."""
        return name_in(self.readers, token)

    def uploader_of(self, token: Optional[bytes]) -> Optional[str]:
        return name_in(self.uploads, token)


def name_in(tokens: Optional[Tokens], token: Optional[bytes]) -> Optional[str]:
    if tokens is None or token is None:
        return None
    try:
        return tokens.name_of(token)
    except (OSError, BadTokens) as fault:
        log(f"nobody has a token: {fault}")
        raise Refusal(503, "the file of tokens could not be read") from None


def refuse_fault(answer: Members) -> None:
    """Refuses a request whose work failed, by what the worker says of it."""
    fault = answer.get("fault")
    if fault is None:
        return
    if answer.get("is_bug"):
        raise Refusal(500, "the server has a fault, which its log describes")
    status = answer.get("status")
    raise Refusal(400 if status == 3 else 503, fault or NOT_ASKED)


def log_fault() -> None:
    """Writes into the log where the error came from that is being handled."""
    for line in traceback.format_exc().splitlines():
        log(line)


def log(text: str) -> None:
    """Writes a line of the log, which is standard error."""
    with contextlib.suppress(OSError, AttributeError):
        line = shown(text.encode(errors="replace"))
        sys.stderr.write(f"{time.strftime('%Y-%m-%dT%H:%M:%SZ', time.gmtime())} {line}\n")
        sys.stderr.flush()


def objects_in(text: str) -> List[Dict[str, Any]]:
    """The objects of JSON in lines."""
    return [json.loads(line) for line in text.splitlines() if line]
