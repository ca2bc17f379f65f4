"""What the words of a call say."""
from __future__ import annotations

import argparse
import ipaddress
import os
import re
import sys
from dataclasses import dataclass
from typing import Any, List, NoReturn, Optional, Sequence, Tuple

from symarch_tools.commands.arguments import size_in
from symarch_tools.console.escapes import shown
from symarch_tools.console.faults import Failed
from symarch_tools.console.version import PrintVersion

NAME = "symarch-server"
DESCRIPTION = """\
Serves over HTTP an archive that symarch-keep keeps: to browsers, curl, lldb, clients of debuginfod, Symbolicator and
profilers. docs/OPERATING.md describes the requests.

Examples:

  symarch-server builds.sym                                  serves it to this machine, at http://127.0.0.1:8080/
  curl --data-binary @report.ips 127.0.0.1:8080/reports      prints the report with names
  symarch-server --listen 10.0.0.5:8080 --host builds --readers readers builds.sym
                                                             serves it to clients with a token in the file readers

Each answer is from ARCHIVE, its levels, indexes and names of builds as they are at that moment. The server writes
only ARCHIVE.missing, unless --uploads lets clients add. SIGTERM ends it after the answers that it has begun. The log is
standard error.

The server finds the program symarch as symarch-keep does. It needs Flask and waitress, which Debian has as
python3-flask and python3-waitress.

Status:
  0    a signal ended it
  2    the archive or a file of tokens cannot be read, or the address is not free
  3    the command line is wrong
  126  Flask or waitress is missing, or there is no program"""
LISTEN = re.compile(r"(\[[0-9a-fA-F:.]+\]|[^:\[\]/@\s]+):([0-9]{1,5})")
NAME_OF_HOST = re.compile(r"\[[0-9a-f:.]+\]|[a-z0-9._-]+")
ORIGIN = re.compile(r"https?://[^/\s?#@]+")
MOST_WORKERS, MOST_SECONDS = 256, 86_400
# The bytes of an upload, and of memory, if nothing else is said.
OTHERWISE = 4 << 30

LISTEN_HELP = "the address, by default 127.0.0.1:8080. Port 0 is any free one, which is printed"
HOST_HELP = "a name by which clients reach it, by default the address of --listen. It may be repeated"
ORIGIN_HELP = "a web page that may call /symbolicate/v5, as https://profiler.firefox.com. It may be repeated"
READERS_HELP = "the clients that may read: a line NAME SHA256-OF-TOKEN for each. By default all may"
UPLOADS_HELP = "the clients that may upload, in the same form. By default none may"
MOST_HELP = "the largest upload, by default 4 GiB. It may end in k, M, G or T"
MISSING_HELP = "keep no ARCHIVE.missing"
WORKERS_HELP = "how many answers are computed at once; by default one for each processor, and at least 2"
SECONDS_HELP = "how long an answer may take, by default 60. Uploads, bundles and searches by name have ten times that"
MEMORY_HELP = "how much memory the process of an answer may have, by default 4 GiB"


@dataclass(frozen=True)
class Settings:
    """What is served, where, and to whom."""

    archive: str
    address: str
    port: int
    hosts: Tuple[str, ...]
    origins: Tuple[str, ...]
    readers: Optional[str]
    uploads: Optional[str]
    most: int
    has_missing: bool
    workers: int
    seconds: int
    memory: int

    def is_open(self) -> bool:
        """Whether others than this machine reach it, and need no token to read."""
        return not is_loopback(self.address) and self.readers is None


class ServerParser(argparse.ArgumentParser):
    """The parser of a command line. One that is wrong ends with status 3, as with the other tools."""

    def error(self, message: str) -> NoReturn:
        self.print_usage(sys.stderr)
        self.exit(3, f"{NAME}: {message}\n")


def parser() -> ServerParser:
    shape = argparse.RawDescriptionHelpFormatter
    made = ServerParser(NAME, usage=USAGE, description=DESCRIPTION, formatter_class=shape, allow_abbrev=False)
    made.add_argument("archive", metavar="ARCHIVE", help="the archive that symarch-keep keeps")
    made.add_argument("--listen", metavar="ADDRESS", default="127.0.0.1:8080", help=LISTEN_HELP)
    repeated: Any = {"action": "append", "default": []}
    made.add_argument("--host", metavar="NAME", help=HOST_HELP, **repeated)
    made.add_argument("--origin", metavar="ORIGIN", help=ORIGIN_HELP, **repeated)
    made.add_argument("--readers", metavar="FILE", help=READERS_HELP)
    made.add_argument("--uploads", metavar="FILE", help=UPLOADS_HELP)
    made.add_argument("--most", metavar="BYTES", help=MOST_HELP)
    made.add_argument("--no-missing", action="store_true", help=MISSING_HELP)
    made.add_argument("--workers", metavar="N", type=int, default=max(os.cpu_count() or 1, 2), help=WORKERS_HELP)
    made.add_argument("--seconds", metavar="N", type=int, default=60, help=SECONDS_HELP)
    made.add_argument("--memory", metavar="BYTES", help=MEMORY_HELP)
    made.add_argument("--version", action=PrintVersion, nargs=0, help="print the version and exit")
    return made


OPTIONS = "[--listen ADDRESS] [--host NAME]... [--origin ORIGIN]... [--readers FILE] [--uploads FILE]"
LIMITS = "[--most BYTES] [--no-missing] [--workers N] [--seconds N] [--memory BYTES]"
USAGE = f"{NAME} {OPTIONS} {LIMITS} ARCHIVE"


def settings_of(words: Sequence[str]) -> Settings:
    called = parser()
    asked = called.parse_args(list(words))
    try:
        address, port = address_of(asked.listen)
        most, memory = (size_in(word) if word is not None else OTHERWISE for word in (asked.most, asked.memory))
    except Failed as failed:
        called.error(failed.text)
    fault = fault_of(asked, address)
    if fault:
        called.error(fault)
    hosts = tuple(name.lower() for name in asked.host) or names_of(address)
    return Settings(
        archive=os.path.abspath(asked.archive),
        address=address,
        port=port,
        hosts=hosts,
        origins=tuple(origin.lower() for origin in asked.origin),
        readers=asked.readers and os.path.abspath(asked.readers),
        uploads=asked.uploads and os.path.abspath(asked.uploads),
        most=most,
        has_missing=not asked.no_missing,
        workers=asked.workers,
        seconds=asked.seconds,
        memory=memory,
    )


def fault_of(asked: argparse.Namespace, address: str) -> Optional[str]:
    """What is wrong with the words, if something is."""
    others: List[str] = [one for one in asked.origin if not ORIGIN.fullmatch(one)]
    if others:
        return f"--origin is `{shown(others[0])}`: expected one as https://profiler.firefox.com"
    hosts = [one for one in asked.host if not NAME_OF_HOST.fullmatch(one.lower())]
    if hosts:
        return f"--host is `{shown(hosts[0])}`: expected a name without a port, as builds.example.com"
    if not 1 <= asked.workers <= MOST_WORKERS:
        return f"--workers is {asked.workers}: expected 1 to {MOST_WORKERS}"
    if not 1 <= asked.seconds <= MOST_SECONDS:
        return f"--seconds is {asked.seconds}: expected 1 to {MOST_SECONDS}"
    if is_every(address) and not asked.host:
        return f"{address} is every address: --host NAME names the server"
    return None


def address_of(word: str) -> Tuple[str, int]:
    found = LISTEN.fullmatch(word)
    if not found or int(found[2]) > 65_535:
        raise Failed(f"--listen is `{shown(word)}`: expected ADDRESS:PORT, as 127.0.0.1:8080 or [::1]:8080", 3)
    return found[1].strip("[]"), int(found[2])


def is_loopback(address: str) -> bool:
    try:
        return ipaddress.ip_address(address).is_loopback
    except ValueError:
        return address == "localhost"


def is_every(address: str) -> bool:
    try:
        return ipaddress.ip_address(address).is_unspecified
    except ValueError:
        return False


def names_of(address: str) -> Tuple[str, ...]:
    """The names by which an address is asked, as they stand in a Host."""
    name = f"[{address}]" if ":" in address else address
    return (name.lower(), "localhost") if is_loopback(address) else (name.lower(),)
