"""The program symarch-server: what it needs, and how it begins."""
from __future__ import annotations

import contextlib
import importlib.util
import socket
import sys
from typing import Optional, Sequence

from symarch_tools.console.escapes import shown
from symarch_tools.console.faults import Failed, system_text
from symarch_tools.formats.contents import MAGIC, MAGICS
from symarch_tools.store.program import Program

from .settings import NAME, Settings, settings_of
from .tokens import BadTokens, Tokens

PACKAGES = {"flask": "python3-flask", "waitress": "python3-waitress"}
BACKLOG = 1024


def main(words: Optional[Sequence[str]] = None) -> int:
    settings = settings_of(sys.argv[1:] if words is None else words)
    lacking = [name for name in PACKAGES if importlib.util.find_spec(name) is None]
    if lacking:
        return failed(f"there is no {' and no '.join(lacking)}: apt-get install {' '.join(PACKAGES.values())}", 126)
    try:
        read_files(settings)
        bound = listening(settings)
    except (OSError, BadTokens) as fault:
        return failed(system_text(fault) if isinstance(fault, OSError) else str(fault), 2)
    except Failed as fault:
        return failed(fault.text, fault.status)
    return serve(settings, bound)


def serve(settings: Settings, bound: socket.socket) -> int:
    from .app import Sites, make_app
    from .serving import serve as serve_connections

    app = make_app(settings)
    sites = app.extensions["symarch"]
    assert isinstance(sites, Sites)
    with contextlib.closing(bound):
        site = sites.site()
        try:
            serve_connections(app, site, bound, lambda: say_where(settings, bound))
        finally:
            site.end()
    return 0


def failed(text: str, status: int) -> int:
    print(f"{NAME}: {text}", file=sys.stderr)
    return status


def read_files(settings: Settings) -> None:
    """Fails if the archive is none, or a file of tokens cannot be read, or there is no program."""
    Program()
    with open(settings.archive, "rb") as file:
        if file.read(MAGIC) not in MAGICS:
            raise Failed(f"{shown(settings.archive)} is no archive", 2)
    for path in filter(None, (settings.readers, settings.uploads)):
        Tokens(path).lines()


def listening(settings: Settings) -> socket.socket:
    """The socket of the address."""
    found = socket.getaddrinfo(settings.address, settings.port, type=socket.SOCK_STREAM, flags=socket.AI_PASSIVE)
    family, kind, protocol, _, address = found[0]
    bound = socket.socket(family, kind, protocol)
    try:
        bound.setsockopt(socket.SOL_SOCKET, socket.SO_REUSEADDR, 1)
        bound.bind(address)
        bound.listen(BACKLOG)
        return bound
    except OSError as error:
        bound.close()
        raise Failed(f"{settings.address}:{settings.port}: {error.strerror}", 2) from None


def say_where(settings: Settings, bound: socket.socket) -> None:
    """Says where it listens, and who can read what it serves."""
    port = bound.getsockname()[1]
    host = settings.hosts[0]
    print(f"{NAME}: serves {shown(settings.archive)} at http://{host}:{port}/", flush=True)
    if settings.is_open():
        print(f"{NAME}: whoever reaches {settings.address} can read all of it: --readers requires tokens",
              file=sys.stderr, flush=True)
