"""Who may read, and who may upload: files with a line NAME SHA256-OF-TOKEN for each."""
from __future__ import annotations

import base64
import hashlib
import hmac
import os
import re
import stat
import threading
from dataclasses import dataclass, field
from typing import List, Optional, Tuple

from symarch_tools.console.escapes import shown
from symarch_tools.store.lock import state_in

# The name stands in the log, and in the paths of what is uploaded.
LINE = re.compile(rb"([A-Za-z0-9_][A-Za-z0-9_-]{0,63})[ \t]+([0-9a-f]{64})")
# What comes of `printf %s "$TOKEN" | sha256sum` where TOKEN has nothing.
OF_NOTHING = hashlib.sha256().hexdigest().encode()
PASSED_OVER = re.compile(rb"[ \t]*(?:#.*)?")


class BadTokens(Exception):
    """A line of another form."""


def token_in(authorization: str) -> Optional[bytes]:
    """The token of a header: what comes after Bearer, or the password that a browser asks for."""
    kind, _, word = authorization.partition(" ")
    if kind.lower() == "bearer":
        return word.strip().encode("latin-1", errors="replace")
    if kind.lower() != "basic":
        return None
    try:
        _, colon, password = base64.b64decode(word.strip(), validate=True).partition(b":")
    except ValueError:
        return None
    return password if colon else None


@dataclass(eq=False)
class Tokens:
    """The tokens of a file, which is read again once it is another one."""

    path: str
    lock: threading.Lock = field(default_factory=threading.Lock)
    state: Tuple[int, ...] = ()
    known: List[Tuple[str, bytes]] = field(default_factory=list)

    def lines(self) -> List[Tuple[str, bytes]]:
        """The names, each with its digest. OSError or BadTokens if they cannot be read."""
        with self.lock:
            state = state_in(os.stat(self.path))
            if state != self.state:
                self.known, self.state = self.read(), state
            return self.known

    def read(self) -> List[Tuple[str, bytes]]:
        # A pipe in its place is not waited for.
        descriptor = os.open(self.path, os.O_RDONLY | os.O_NONBLOCK | os.O_CLOEXEC)
        with open(descriptor, "rb") as file:
            if not stat.S_ISREG(os.fstat(descriptor).st_mode):
                raise BadTokens(f"{shown(self.path)} is no file")
            lines = file.read().splitlines()
        found = []
        for number, line in enumerate(lines, 1):
            one = LINE.fullmatch(line.strip())
            if one and one[2] == OF_NOTHING:
                raise BadTokens(f"{shown(self.path)}: line {number} has the SHA-256 of an empty token")
            if one:
                found.append((one[1].decode(), one[2]))
            elif not PASSED_OVER.fullmatch(line):
                raise BadTokens(f"{shown(self.path)}: line {number} is not NAME SHA256-OF-TOKEN")
        return found

    def name_of(self, token: bytes) -> Optional[str]:
        """Whose token it is. Each line is compared, in a time that is the same for all tokens."""
        digest, name = hashlib.sha256(token).hexdigest().encode(), None
        for one, its in self.lines():
            if hmac.compare_digest(its, digest):
                name = one
        return name
