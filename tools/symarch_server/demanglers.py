"""Demanglers that stay: a worker begins each once, and asks it by lines, since to begin takes longer than the names of
a report. They are of the worker's group, and end with it."""
from __future__ import annotations

import contextlib
import os
import select
import subprocess
from dataclasses import dataclass, field
from typing import Dict, List, Sequence, Tuple

from symarch_tools.console.demangler import changed

# One that answers this line by itself within so many milliseconds answers each line as it comes.
PROBE, MOST_OF_PROBE = b"_Z5probev\n", 2_000
# So many bytes are read and written at once. After so many bytes of names one is begun anew, so that the system has
# back what it took for these.
CHUNK, MOST_OF_NAMES = 1 << 16, 64 << 20


class DemanglerEnded(Exception):
    """A demangler that ended, or that says nothing."""


@dataclass(eq=False)
class Demangler:
    """A command that answers each line by a line."""

    process: subprocess.Popen[bytes]
    to: int
    back: int
    # How many bytes of names it was asked.
    size: int = 0

    @classmethod
    def begun(cls, words: Sequence[str]) -> Demangler:
        process = subprocess.Popen(
            words, stdin=subprocess.PIPE, stdout=subprocess.PIPE, stderr=subprocess.DEVNULL, cwd="/", bufsize=0
        )
        assert process.stdin and process.stdout
        os.set_blocking(process.stdin.fileno(), False)
        return cls(process, process.stdin.fileno(), process.stdout.fileno())

    def stays(self) -> bool:
        """Whether it answers a line before there is no more."""
        with contextlib.suppress(DemanglerEnded, OSError):
            return len(self.lines(PROBE, 1, MOST_OF_PROBE)) == 1
        return False

    def lines(self, data: bytes, count: int, most: int = -1) -> List[bytes]:
        """So many lines that come back for this text. It waits so many milliseconds for more, or without end."""
        self.size += len(data)
        came, ends, sent = bytearray(), 0, 0
        poll = select.poll()
        poll.register(self.back, select.POLLIN)
        poll.register(self.to, select.POLLOUT)
        while ends < count:
            ready = poll.poll(most)
            if not ready:
                raise DemanglerEnded()
            if any(place == self.back for place, _ in ready):
                chunk = os.read(self.back, CHUNK)
                if not chunk:
                    raise DemanglerEnded()
                came += chunk
                ends += chunk.count(b"\n")
            elif sent < len(data):
                sent += os.write(self.to, data[sent : sent + CHUNK])
                if sent == len(data):
                    poll.unregister(self.to)
        return bytes(came).split(b"\n")[:count]

    def end(self) -> None:
        self.process.kill()
        # It closes both ends.
        self.process.communicate()


@dataclass(eq=False)
class Demanglers:
    """Those of a process, by their words."""

    begun: Dict[Tuple[str, ...], Demangler] = field(default_factory=dict)
    # Those that do not stay.
    others: List[Tuple[str, ...]] = field(default_factory=list)

    def changed(self, words: Sequence[str], names: List[str]) -> List[str]:
        """What a demangler makes of names, as one makes of them that is called for these alone."""
        key = tuple(words)
        # A name of two lines would be answered by two.
        if key in self.others or any("\n" in name for name in names):
            return changed(words, names)
        try:
            demangler = self.begun.get(key) or self.begin(key)
            data = "".join(f"{name}\n" for name in names).encode(errors="surrogateescape")
            made = [line.decode(errors="surrogateescape") for line in demangler.lines(data, len(names))]
            if demangler.size > MOST_OF_NAMES:
                self.drop(key)
            return made
        except (DemanglerEnded, OSError):
            self.drop(key)
            return changed(words, names)

    def begin(self, words: Tuple[str, ...]) -> Demangler:
        made = self.begun[words] = Demangler.begun(words)
        if not made.stays():
            self.others.append(words)
            raise DemanglerEnded()
        return made

    def drop(self, words: Tuple[str, ...]) -> None:
        """Ends one, so that the next names have another."""
        demangler = self.begun.pop(words, None)
        if demangler:
            demangler.end()
