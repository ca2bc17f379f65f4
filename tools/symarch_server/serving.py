"""How connections are held, by waitress: how long a body may be before anybody looks at it, how long a client may
take, and how the server ends. Requests are read and answers are sent by one loop, so that a slow client keeps nobody
out. waitress stores a body before the application sees it, so the head of a request decides how long it may be, and
only a token allows a large one."""
from __future__ import annotations

import collections
import contextlib
import copy
import functools
import logging
import resource
import signal
import socket
import time
import weakref
from dataclasses import dataclass, field
from typing import Any, Callable, Deque, List

from flask import Flask
from waitress import wasyncore
from waitress.adjustments import Adjustments
from waitress.channel import HTTPChannel
from waitress.parser import HTTPRequestParser, ParsingError
from waitress.server import TcpWSGIServer
from waitress.utilities import BadRequest, Error

from . import reporting
from .refusals import Refusal
from .site import SMALL, Site
from .tokens import token_in

# What stands around a file in a form.
AROUND = 100_000
# How many bytes of reports are held at once, of all requests that are being received or answered, besides the first
# ones of each.
MOST_HELD = 1 << 30
# How many connections are open at once; how long one may be without a sign of life, in seconds, and how often it is
# looked for.
MOST_CONNECTIONS, MOST_SILENCE, BETWEEN_LOOKS = 2_000, 60, 5
# So many files are open besides connections, and so many of each: itself, what came in, and what is sent.
OF_ITSELF, OF_EACH = 300, 3
# How long a client may take for a request's head, for its body, and for an upload.
OF_HEAD, OF_BODY, OF_UPLOAD = 60, 900, 86_400
MOST_OF_HEAD = 32 << 10
# The lines between the chunks of a body, which waitress looks through anew with each byte that comes.
MOST_BETWEEN = 4 << 10
UPLOADS = "/images"


class Full(Error):
    """Refuses a body where others are held."""

    code, reason = 503, "Service Unavailable"


@dataclass(eq=False)
class Held:
    """How many bytes large bodies have at once. The loop alone counts them; a request may be gone in any thread, and
    leaves what it had."""

    size: int = 0
    gone: Deque[int] = field(default_factory=collections.deque)

    def release(self, counted: List[int]) -> None:
        self.gone.append(counted[0])

    def add(self, size: int) -> int:
        """How many there are with so many more."""
        while self.gone:
            self.size -= self.gone.popleft()
        self.size += size
        return self.size


class RequestParser(HTTPRequestParser):
    """A request while it is received."""

    adj: Any
    error: Any

    def __init__(self, site: Site, held: Held, adj: Any) -> None:
        super().__init__(adj)
        self.site, self.held = site, held
        self.is_upload = False
        self.deadline = time.monotonic() + OF_HEAD
        self.counted = [0]
        weakref.finalize(self, held.release, self.counted)

    def parse_header(self, header_plus: bytes) -> None:
        """Says how long the body may be: one that nobody may upload is not received."""
        try:
            super().parse_header(header_plus)
        except ValueError:
            # Of a number of thousands of digits, or an address that is none.
            raise ParsingError("the head of the request is malformed") from None
        self.is_upload = self.may_upload()
        self.deadline = time.monotonic() + (OF_UPLOAD if self.is_upload else OF_BODY)
        self.adj = copy.copy(self.adj)
        most = self.site.settings.most if self.is_upload else reporting.MOST + AROUND
        self.adj.max_request_body_size = most + 1

    def may_upload(self) -> bool:
        path = getattr(self, "path", "")
        if getattr(self, "command", "") != "PUT" or not (path == UPLOADS or path.startswith(f"{UPLOADS}/")):
            return False
        with contextlib.suppress(Refusal):
            return self.site.uploader_of(token_in(self.headers.get("AUTHORIZATION", ""))) is not None
        return False

    def received(self, data: bytes) -> int:
        consumed: int = super().received(data)
        between = len(getattr(self.body_rcv, "control_line", b"")) + len(getattr(self.body_rcv, "trailer", b""))
        if between > MOST_BETWEEN and not self.error:
            self.error, self.completed = BadRequest("a line between chunks is too long"), True
        if not self.is_upload:
            self.count()
        if self.error or self.body_rcv is None:
            # Nobody waits for a body that is refused, or that there is not.
            self.expect_continue = False
        return consumed

    def count(self) -> None:
        """Counts what the body has besides its first bytes, for which there is always room."""
        more = max(self.body_bytes_received - SMALL, 0) - self.counted[0]
        self.counted[0] += more
        if more and self.held.add(more) > MOST_HELD and not self.error:
            self.error, self.completed = Full("other reports are being received: repeat the request"), True


class Channel(HTTPChannel):
    """A connection."""

    def is_late(self, now: float) -> bool:
        """Whether its client takes too long for a request."""
        return self.request is not None and now > self.request.deadline

    def is_busy(self) -> bool:
        """Whether an answer is under way."""
        return bool(self.requests or self.total_outbufs_len)


class Server(TcpWSGIServer):
    """The connections of an address."""

    channel_class = Channel

    def maintenance(self, now: float) -> None:
        """Ends connections that are late, or silent: at the next look also those whose clients take nothing any more,
        which cannot be written to."""
        for channel in [one for one in self.active_channels.values() if one.will_close]:
            channel.handle_close()
        super().maintenance(now)
        late = [one for one in self.active_channels.values() if one.is_late(time.monotonic())]
        for channel in late:
            channel.will_close = True

    def stop(self) -> None:
        """Takes no further connection."""
        self.accepting = False
        self.del_channel()
        self.socket.close()

    def is_busy(self) -> bool:
        return any(channel.is_busy() for channel in list(self.active_channels.values()))


@dataclass(eq=False)
class Ending:
    """The end of the server: a signal asks for it, and answers that are under way come before."""

    server: Server
    grace: float
    is_asked: bool = False
    deadline: float = 0.0

    def ask(self, *_: object) -> None:
        self.is_asked = True
        self.server.pull_trigger()

    def has_come(self) -> bool:
        if not self.is_asked:
            return False
        if not self.deadline:
            self.deadline = time.monotonic() + self.grace
            self.server.stop()
        return not self.server.is_busy() or time.monotonic() > self.deadline


def serve(app: Flask, site: Site, bound: socket.socket, begun: Callable[[], None]) -> None:
    """Answers requests until a signal ends it."""
    logging.getLogger("waitress.queue").setLevel(logging.ERROR)
    allow_files()
    adj = Adjustments(
        threads=4 * site.settings.workers + 16,
        connection_limit=connections_within(resource.getrlimit(resource.RLIMIT_NOFILE)[0]),
        channel_timeout=MOST_SILENCE,
        cleanup_interval=BETWEEN_LOOKS,
        max_request_header_size=MOST_OF_HEAD,
        max_request_body_size=reporting.MOST + AROUND,
        asyncore_use_poll=True,
        clear_untrusted_proxy_headers=True,
        ident=None,
        sockets=[bound],
    )
    about = (bound.family, bound.type, bound.proto, bound.getsockname())
    server = Server(app, {}, _sock=bound, adj=adj, sockinfo=about, bind_socket=False)
    Channel.parser_class = functools.partial(RequestParser, site, Held())
    ending = Ending(server, site.settings.seconds)
    at_signals(ending.ask)
    begun()
    while not ending.has_come():
        wasyncore.loop(timeout=1, map=server._map, use_poll=True, count=1)
    # Another signal would end what is being ended.
    at_signals(signal.SIG_IGN)
    server.task_dispatcher.shutdown(timeout=1)


def at_signals(handler: Any) -> None:
    """Answers the signals that end the server."""
    for number in (signal.SIGTERM, signal.SIGINT):
        signal.signal(number, handler)


def connections_within(files: int) -> int:
    """How many connections may be open, where so many files may."""
    most = MOST_CONNECTIONS if files == resource.RLIM_INFINITY else (files - OF_ITSELF) // OF_EACH
    return min(MOST_CONNECTIONS, max(most, 16))


def allow_files() -> None:
    """As many open files as the system lets this process have."""
    soft, hard = resource.getrlimit(resource.RLIMIT_NOFILE)
    if soft != hard:
        with contextlib.suppress(OSError, ValueError):
            resource.setrlimit(resource.RLIMIT_NOFILE, (hard, hard))
