"""What a worker is asked, and what it answers: objects of JSON, each in a line, over a socket; with an answer come the
files that it opened."""
from __future__ import annotations

import array
import json
import os
import socket
import time
from typing import Any, Dict, List, Optional, Sequence, Tuple

Members = Dict[str, Any]
# What a word prints, in the room of a job. Nothing that comes in has such a name.
OUT, ERR = ".out", ".err"
CHUNK, MOST_DESCRIPTORS = 1 << 16, 8


def encoded(members: Members) -> bytes:
    return json.dumps(members).encode() + b"\n"


def send(control: socket.socket, members: Members, descriptors: List[int]) -> None:
    """Sends an answer and open files, of which the receiver has copies."""
    data = encoded(members)
    more = [(socket.SOL_SOCKET, socket.SCM_RIGHTS, array.array("i", descriptors))] if descriptors else []
    sent = control.sendmsg([data[:CHUNK]], more)
    control.sendall(data[sent:])


def receive(control: socket.socket, seconds: Optional[float] = None) -> Optional[Tuple[Members, List[int]]]:
    """The next object, and the open files that come with it; None where the other one ended. TimeoutError where it
    takes longer."""
    end = None if seconds is None else time.monotonic() + seconds
    pieces: List[bytes] = []
    descriptors: List[int] = []
    try:
        while not pieces or not pieces[-1].endswith(b"\n"):
            control.settimeout(None if end is None else max(end - time.monotonic(), 0.001))
            data, more, flags, _ = control.recvmsg(CHUNK, socket.CMSG_SPACE(4 * MOST_DESCRIPTORS))
            descriptors += [it for level, kind, its in more for it in descriptors_in(level, kind, its)]
            if flags & socket.MSG_CTRUNC:
                raise OSError("no more files may be open")
            if not data:
                return None
            pieces.append(data)
        return json.loads(b"".join(pieces)), descriptors
    except ConnectionResetError:
        # It ended before it had read all.
        close(descriptors)
        return None
    except BaseException:
        close(descriptors)
        raise


def close(descriptors: Sequence[int]) -> None:
    for descriptor in descriptors:
        os.close(descriptor)


def descriptors_in(level: int, kind: int, data: bytes) -> List[int]:
    if (level, kind) != (socket.SOL_SOCKET, socket.SCM_RIGHTS):
        return []
    found = array.array("i")
    found.frombytes(data[: len(data) - len(data) % found.itemsize])
    for descriptor in found:
        os.set_inheritable(descriptor, False)
    return list(found)
