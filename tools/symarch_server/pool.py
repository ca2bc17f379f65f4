"""The processes that work. Each is begun once and answers one job after another, within limits of memory and time;
one that passes them, or ends, gets a successor. Each has a group of its own, and one answer at a time: so a limit
ends an answer with all its children, and nothing else."""
from __future__ import annotations

import contextlib
import os
import pathlib
import queue
import signal
import socket
import subprocess
import sys
import threading
from dataclasses import InitVar, dataclass, field
from typing import List, NamedTuple, Optional, Set, Tuple

from .control import Members, encoded, receive

TOOLS = pathlib.Path(__file__).resolve().parent.parent
BEGIN = "import sys; sys.path.insert(0, sys.argv[1]); from symarch_server.worker import main; main()"
# How many seconds a request waits for a worker, and a worker may take to begin.
MOST_WAIT, MOST_TO_BEGIN = 120, 120


class Limits(NamedTuple):
    """What a worker may have for a job: bytes of memory, and seconds."""

    memory: int
    seconds: int


class Busy(Exception):
    """No worker was free for long."""


class WorkerEnded(Exception):
    """A worker that passed its limits, or that ended: what it was, for people."""


@dataclass(eq=False)
class Worker:
    """A process that works, in a group of its own with what it calls."""

    limits: Limits
    control: socket.socket
    process: subprocess.Popen[bytes]
    has_begun: bool = False

    @classmethod
    def begun(cls, limits: Limits) -> Worker:
        control, its = socket.socketpair()
        with its:
            words = [sys.executable or "/usr/bin/python3", "-BIS", "-c", BEGIN, str(TOOLS), *map(str, limits)]
            return cls(limits, control, subprocess.Popen(words, stdin=its.fileno(), stdout=2, start_new_session=True))

    def ask(self, job: Members) -> Tuple[Members, List[int]]:
        """What the worker answers, and the files that it opened."""
        try:
            # Its limit does not count while it begins.
            self.has_begun = self.has_begun or receive(self.control, MOST_TO_BEGIN) is not None
            self.control.settimeout(self.limits.seconds)
            self.control.sendall(encoded(job))
            answer = receive(self.control, self.limits.seconds)
        except socket.timeout:
            raise WorkerEnded(f"the work took more than {self.limits.seconds} seconds, and was ended") from None
        except OSError:
            answer = None
        if answer is None:
            raise WorkerEnded("the work passed its limits of memory or time, and was ended")
        return answer

    def has_ended(self) -> bool:
        return self.process.poll() is not None

    def end(self) -> None:
        """Ends it, and the processes that it began. A request that waits for its answer gets an error."""
        with contextlib.suppress(ProcessLookupError, PermissionError):
            os.killpg(self.process.pid, signal.SIGKILL)
        self.process.wait()
        self.control.close()


@dataclass(eq=False)
class Pool:
    """So many workers with the same limits, for which so many more requests wait."""

    count: int
    limits: Limits
    most_waiting: InitVar[int]
    wait: float = MOST_WAIT
    # All that have begun, also those that work; and whether none begins any more.
    living: Set[Worker] = field(default_factory=set)
    is_ended: bool = False
    lock: threading.Lock = field(default_factory=threading.Lock)
    # The one that worked last works next: its files are known. None stands for one that could not be begun.
    idle: queue.LifoQueue[Optional[Worker]] = field(default_factory=queue.LifoQueue)

    def __post_init__(self, most_waiting: int) -> None:
        self.asking = threading.BoundedSemaphore(self.count + most_waiting)
        for _ in range(self.count):
            self.idle.put(self.begun())

    def ask(self, job: Members) -> Tuple[Members, List[int]]:
        """What a worker answers, once one is free."""
        if not self.asking.acquire(blocking=False):
            raise Busy()
        try:
            return self.ask_one(self.idle.get(timeout=self.wait), job)
        except queue.Empty:
            raise Busy() from None
        finally:
            self.asking.release()

    def ask_one(self, worker: Optional[Worker], job: Members) -> Tuple[Members, List[int]]:
        """What a worker answers, or its successor if it has ended. One of them is idle again after this."""
        is_good = False
        try:
            if worker is None or worker.has_ended():
                worker = self.successor(worker)
            if worker is None:
                raise Busy()
            answer = worker.ask(job)
            is_good = not answer[0].pop("is_last", False)
            return answer
        finally:
            self.idle.put(worker if is_good else self.successor(worker))

    def successor(self, worker: Optional[Worker]) -> Optional[Worker]:
        """Ends a worker, and begins another one, if the system lets it."""
        if worker is not None:
            with self.lock:
                self.living.discard(worker)
            worker.end()
        with contextlib.suppress(OSError):
            return self.begun()
        return None

    def begun(self) -> Optional[Worker]:
        """A new worker, unless the pool has ended."""
        with self.lock:
            if self.is_ended:
                return None
            worker = Worker.begun(self.limits)
            self.living.add(worker)
            return worker

    def end(self) -> None:
        """Ends the workers, also those that work."""
        with self.lock:
            self.is_ended = True
            for worker in self.living:
                worker.end()
