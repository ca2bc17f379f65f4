"""A server of an archive, at a free port of this machine, and what it answers."""
import contextlib
import functools
import hashlib
import http.client
import json
import os
import pathlib
import re
import signal
import socket
import subprocess
import sys
from typing import Any, Dict, Iterable, List, Mapping, NamedTuple, Optional, Sequence, Tuple

from .builds import DWARF
from .cases import Without, same, symarch
from .program import MOST_SECONDS, TOP, Ended, call, is_done
from .rooms import Room, RoomCase, keep
from .waits import wait_until

CRASH = TOP / "examples" / "crash"
PACKAGES = "apt-get install python3-flask python3-waitress"
SERVES = re.compile(r"symarch-server: serves .* at http://([^/]*):([0-9]+)/\n")
# UUIDs of examples/crash: the first build, and the second one, for arm64.
FIRST, FIRST_X86_64 = "4c4c4419-5555-3144-a1d2-4341c97782f0", "4c4c44c0-5555-3144-a19f-a433d7651718"
SECOND = "4c4c4435-5555-3144-a1b5-8515a36e45e9"
# How a script in the place of the program calls it, whatever limits of memory it has.
LIFTED = 'ulimit -S -v unlimited\nexec $symarch "$@"'
# As much address space as a program may need that is built as people have it.
LEAST = 4 << 30


@functools.lru_cache(maxsize=None)
def python() -> str:
    """A Python that has what the server is made of."""
    for path in (sys.executable, "/usr/bin/python3"):
        if is_done([path, "-BI", "-c", "import flask, waitress"]):
            return path
    raise Without(f"no Flask and waitress: {PACKAGES}")


def server_tool() -> str:
    """The tool beside symarch-keep, whose modules are compiled, or else that of this tree."""
    beside = pathlib.Path(keep).with_name("symarch-server")
    return str(beside if beside.exists() else TOP / "tools" / "symarch-server")


@functools.lru_cache(maxsize=None)
def is_within_limits() -> bool:
    """Whether the program runs where memory is limited. One that is built with checks of addresses does not."""
    return is_done(["/bin/sh", "-c", f'ulimit -v {LEAST >> 10} && exec "$0" --version', symarch])


class Answer(NamedTuple):
    """What a server answers."""

    status: int
    headers: Mapping[str, str]
    body: bytes

    @property
    def text(self) -> str:
        return self.body.decode()

    @property
    def lines(self) -> List[str]:
        return self.text.splitlines()

    def json(self) -> Any:
        return json.loads(self.body)


# Begins a server with other numbers: lines of Python over its modules.
WITH_NUMBERS = """
import runpy, sys
del sys.argv[:3]
sys.path.insert(0, sys.argv[0].rpartition("/")[0])
from symarch_server import fetching, pool, serving, site
{}
runpy.run_path(sys.argv[0], run_name="__main__")
"""


def with_numbers(lines: str) -> List[str]:
    """Words before those of a server, by which it has other numbers."""
    return [python(), "-BI", "-c", WITH_NUMBERS.format(lines)]


class Server:
    """A server that runs, of the archive of a room."""

    def __init__(
        self,
        room: Room,
        archive: Any,
        *words: Any,
        environment: Optional[Dict[str, str]] = None,
        before: Sequence[str] = (),
    ) -> None:
        self.room, self.log_path = room, room.path / "server.log"
        self.log = open(self.log_path, "ab")
        own = "--listen", "127.0.0.1:0", "--seconds", str(MOST_SECONDS)
        whole = [*before, python(), "-BI", server_tool(), *own, *words, archive]
        program = {"SYMARCH": lifted(room.path), "TMPDIR": str(temporary(room.path))}
        how = {"stdin": subprocess.DEVNULL, "stdout": subprocess.PIPE, "stderr": self.log, "cwd": room.path}
        self.process: "subprocess.Popen[bytes]" = subprocess.Popen(
            list(map(str, whole)), env={**os.environ, **program, **(environment or {})}, **how  # type: ignore
        )
        assert self.process.stdout
        found = SERVES.fullmatch(self.process.stdout.readline().decode())
        if not found:
            self.end()
            raise AssertionError(f"the server did not begin: {self.said()}")
        self.host, self.port = found[1], int(found[2])

    @property
    def url(self) -> str:
        return f"http://127.0.0.1:{self.port}"

    def said(self) -> str:
        return self.log_path.read_text()

    def ask(self, path: str, body: Any = None, method: str = "", headers: Mapping[str, str] = {}) -> Answer:
        connection = http.client.HTTPConnection("127.0.0.1", self.port, timeout=2 * MOST_SECONDS)
        try:
            connection.request(method or ("GET" if body is None else "POST"), path, body, dict(headers))
            came = connection.getresponse()
            return Answer(came.status, {name.lower(): value for name, value in came.getheaders()}, came.read())
        finally:
            connection.close()

    def goes_on(self) -> None:
        """Waits until it answers, also where it has a limit of few seconds for that."""
        wait_until(lambda: self.ask("/status").status == 200, self.process)

    def is_reached(self) -> bool:
        """Whether it takes connections. One that comes as it closes is reset."""
        with contextlib.suppress(ConnectionRefusedError, ConnectionResetError):
            with socket.create_connection(("127.0.0.1", self.port)):
                return True
        return False

    def end(self, number: int = signal.SIGTERM) -> int:
        """Ends it by a signal, and returns its status."""
        if self.process.poll() is None:
            self.process.send_signal(number)
        try:
            return self.process.wait(timeout=2 * MOST_SECONDS)
        finally:
            self.process.kill()
            self.process.wait()
            assert self.process.stdout
            self.process.stdout.close()
            self.log.close()


def connections(server: Server) -> List[int]:
    """How many bytes have come that the server has not read yet, of each of its connections, as the system says it."""
    sockets = set()
    for one in pathlib.Path(f"/proc/{server.process.pid}/fd").iterdir():
        with contextlib.suppress(OSError):
            sockets.add(os.readlink(one))
    rows = [row.split() for row in pathlib.Path("/proc/net/tcp").read_text().splitlines()[1:]]
    return [int(row[4].rpartition(":")[2], 16) for row in rows if f"socket:[{row[9]}]" in sockets and row[3] == "01"]


def temporary(folder: pathlib.Path) -> pathlib.Path:
    """The folder in which the server has its rooms."""
    path = folder / "temporary"
    path.mkdir(exist_ok=True)
    return path


def lifted(folder: pathlib.Path) -> str:
    """The program, for which limits of memory are lifted if it cannot run within them."""
    if is_within_limits():
        return symarch
    path = folder / "lifted"
    path.write_text(f'#!/bin/sh\nulimit -S -v unlimited\nexec {symarch} "$@"\n')
    path.chmod(0o755)
    return str(path)


class ServerCase(RoomCase):
    """Cases over a server. The archive has both builds of examples/crash, whose dSYMs are in bundles."""

    seconds = 8
    is_side_by_side = True

    @classmethod
    def setUpClass(cls) -> None:
        super().setUpClass()
        python()

    def setUp(self) -> None:
        super().setUp()
        self.servers: List[Server] = []
        for number in (1, 2):
            self.room.file(f"{number}/spool.app/spool", (CRASH / f"spool-{number}").read_bytes())
            self.room.file(f"{number}/spool.dSYM/{DWARF}/spool", (CRASH / f"spool-{number}.dSYM").read_bytes())
        self.room.add("1", "2")

    def serve(self, *words: Any, archive: Any = None, **how: Any) -> Server:
        """A server, which is ended after the case; it leaves no room and no traceback."""
        server = Server(self.room, archive or self.room.archive, *words, **how)
        self.servers.append(server)
        self.addCleanup(self.ended, server)
        return server

    def ended(self, server: Server) -> None:
        if server.process.poll() is None:
            same("status of the server", server.end(), 0)
        if all(one.process.poll() is not None for one in self.servers):
            same("rooms that are left", os.listdir(temporary(self.folder)), [])
        self.assertNotIn("Traceback", server.said())

    def tool(self, name: str, *words: Any) -> Ended:
        """What comes of a tool with these words."""
        path = pathlib.Path(keep).with_name(name)
        return call([sys.executable, "-BIS", path, *words], cwd=self.folder, environment={"SYMARCH": symarch})

    def refuses(self, came: Answer, status: int, *lines: str) -> None:
        """Fails where something else was answered than this status, and these lines."""
        same(f"status, of {came.text[:300]}", came.status, status)
        same("lines", came.lines[: len(lines)], list(lines))
        self.assertNotIn("Traceback", came.text)


def objects(answer: Iterable[str]) -> List[Any]:
    """The objects of JSON in lines."""
    return [json.loads(line) for line in answer]


def tokens(room: Room, name: str, given: Mapping[str, str]) -> pathlib.Path:
    """A file of tokens by their names."""
    lines = (f"{one} {hashlib.sha256(token.encode()).hexdigest()}\n" for one, token in given.items())
    path = room.path / name
    path.write_text("# who may\n" + "".join(lines))
    return path


def bearer(token: str) -> Dict[str, str]:
    return {"Authorization": f"Bearer {token}"}


def form(name: str, content: bytes, field: str = "report") -> Tuple[bytes, Dict[str, str]]:
    """The body of a form that has a file, or a text if the name is empty, and its headers."""
    mark = "----form"
    about = f'; filename="{name}"' if name else ""
    head = f'--{mark}\r\nContent-Disposition: form-data; name="{field}"{about}\r\n\r\n'
    body = head.encode() + content + f"\r\n--{mark}--\r\n".encode()
    return body, {"Content-Type": f"multipart/form-data; boundary={mark}"}
