"""Attempts to keep others from symarch-server: bad heads, clients that read nothing, large bodies and bundles, caches
between, tokens, pipes in place of files."""
import base64
import contextlib
import os
import socket
from concurrent.futures import ThreadPoolExecutor
from typing import Callable, List

from .support.cases import same
from .support.made_images import slice_words, slices_in
from .support.program import MOST_SECONDS, TOP, call
from .support.servers import CRASH, FIRST, Server, ServerCase, bearer, connections, python, tokens, with_numbers
from .support.waits import is_running, wait_until
from .test_server_states import LargeCase, slow_connection

REPORT = (CRASH / "arm64.crash").read_bytes()
HEX = FIRST.replace("-", "")
DSYM = slices_in((CRASH / "spool-1.dSYM").read_bytes())[1]
TOKEN = "a-long-token"


def said_to(server: Server, sent: bytes) -> bytes:
    """What comes back by the end of the connection."""
    with socket.create_connection(("127.0.0.1", server.port), timeout=MOST_SECONDS) as connection:
        connection.sendall(sent)
        return b"".join(iter(lambda: connection.recv(1 << 16), b""))


class Heads(ServerCase):
    """Heads of requests. Each is answered, and none is a fault."""

    def head(self, server: Server, *lines: str) -> bytes:
        return "\r\n".join([*lines, f"Host: 127.0.0.1:{server.port}", "Connection: close", "", ""]).encode("latin-1")

    def test_heads_that_are_none(self) -> None:
        server = self.serve()
        digits = "9" * 5_000
        for lines in (
            ["GET http://[/status HTTP/1.1"], ["GET //[::1/ HTTP/1.1"],
            ["POST /reports HTTP/1.1", f"Content-Length: {digits}"],
            [f"PUT /images/{digits} HTTP/1.1", f"Content-Length: {digits}"],
        ):
            came = said_to(server, self.head(server, *lines))
            self.assertRegex(came.partition(b"\r\n")[0], rb"^HTTP/1\.[01] 40[04] ", lines[0])
        same("status", server.ask("/status").status, 200)
        self.assertNotIn("exception", server.said())

    def test_a_body_that_is_refused_is_not_waited_for(self) -> None:
        """Nobody is asked to go on with a body that there is not, or that is too long."""
        server = self.serve()
        go_on = "Expect: 100-continue"
        came = said_to(server, self.head(server, "GET /status HTTP/1.1", go_on))
        self.assertTrue(came.startswith(b"HTTP/1.1 200 "), came[:100])
        came = said_to(server, self.head(server, "PUT /images/x HTTP/1.1", go_on, "Content-Length: 1000000000"))
        self.assertTrue(came.startswith(b"HTTP/1.1 413 "), came[:100])
        came = said_to(server, self.head(server, "POST /reports HTTP/1.1", go_on, "Content-Length: 4") + b"none")
        self.assertTrue(came.startswith(b"HTTP/1.1 100 "), came[:100])
        self.assertIn(b"HTTP/1.1 422 ", came)

    def test_the_last_part_of_a_range(self) -> None:
        """Of one that is longer than the bytes it is all, as RFC 9110 has it."""
        server, path, size = self.serve(), f"/buildid/{HEX}/debuginfo", len(DSYM)
        for count in (size, size + 1, 10**12):
            came = server.ask(path, headers={"Range": f"bytes=-{count}"})
            same(f"{count}", (came.status, came.body), (206, DSYM))
            same(f"{count}", came.headers["content-range"], f"bytes 0-{size - 1}/{size}")
        digits = "9" * 5_000
        for word in (f"{digits}-", f"0-{digits}", f"-{digits}"):
            same(word[:10], server.ask(path, headers={"Range": f"bytes={word}"}).body, DSYM)

    def test_lines_of_the_log(self) -> None:
        """Each request has one line of so many words, whatever its path is, and no long one."""
        server = self.serve()
        for path in ("/a%20-%20GET%20/status%20200%200.001", "/a%0a%0d2026", "/" + "b" * 20_000, "/%1b[31m%e2%80%ae"):
            same(path[:20], server.ask(path).status, 404)
        lines = [line for line in server.said().splitlines() if " GET " in line]
        same("lines", len(lines), 4)
        for line in lines:
            same(line[:100], (len(line.split(" ")), line.isprintable(), line.split(" ")[5]), (7, True, "404"))
            self.assertLess(len(line), 1_200)

    def test_the_name_of_two_hyphens(self) -> None:
        self.refuses(self.serve().ask("/symbols/--"), 404, "no slice has a symbol of this name")


class Held(LargeCase):
    """Those who hold much keep nobody else out."""

    def test_clients_that_take_nothing(self) -> None:
        """A connection whose client asked for much and reads nothing is ended, as a silent one is."""
        server, _, path = self.begin_with_a_large_one(
            before=with_numbers("serving.MOST_SILENCE = serving.BETWEEN_LOOKS = 1"))
        with slow_connection(server) as connection:
            connection.sendall(f"GET {path} HTTP/1.1\r\nHost: 127.0.0.1\r\n\r\n".encode())
            self.assertEqual(server.ask("/status").status, 200)
            wait_until(lambda: not connections(server), server.process)

    def test_large_bundles_that_nobody_reads(self) -> None:
        """Reports are answered while those wait that ask for more of what is large."""
        server, _, _ = self.begin_with_a_large_one(before=with_numbers("site.MOST_SENDING = 1"))
        large = b"\n".join([REPORT, b" " * 9_000_000])
        with slow_connection(server) as connection:
            head = f"POST /reports HTTP/1.1\r\nHost: 127.0.0.1\r\nContent-Length: {len(large)}\r\n\r\n"
            connection.sendall(head.encode() + large)
            self.assertTrue(connection.recv(100).startswith(b"HTTP/1.1 200 "))
            same("another large one", server.ask("/reports", large).status, 503)
            same("a small one", server.ask("/reports", REPORT).status, 200)
            same("builds", server.ask("/builds", headers={"Accept": "application/json"}).status, 200)

    def test_large_bodies_that_are_never_whole(self) -> None:
        """Reports are taken while those wait that send more of what is large; and these once the others are gone."""
        server, _, _ = self.begin_with_a_large_one(before=with_numbers("serving.MOST_HELD = 1 << 20"))
        large = b"\n".join([REPORT, b" " * 3_000_000])
        with socket.create_connection(("127.0.0.1", server.port)) as connection:
            head = f"POST /reports HTTP/1.1\r\nHost: 127.0.0.1\r\nContent-Length: {len(large)}\r\n\r\n"
            connection.sendall(head.encode() + large[:-1_000])
            wait_until(lambda: not any(connections(server)), server.process)
            with contextlib.suppress(BrokenPipeError, ConnectionResetError):
                same("another large one", server.ask("/reports", large).status, 503)
            same("a small one", server.ask("/reports", REPORT).status, 200)
        wait_until(lambda: server.ask("/reports", large[:2_000_000]).status == 200, server.process)

    def test_the_end_while_work_goes_on(self) -> None:
        """What works longer than the server waits for is ended with it."""
        waits = 'if [ "$1" = name ]; then echo $$ >waits.pid; exec sleep 6000; fi'
        slow = self.room.program(f'cd {self.folder}\n{waits}\nulimit -S -v unlimited\nexec $symarch "$@"')
        grace = "ending = serving.Ending; serving.Ending = lambda server, _: ending(server, 2)"
        server = self.serve(environment=slow, before=with_numbers(grace))
        path = self.folder / "waits.pid"
        with ThreadPoolExecutor(1) as threads:
            threads.submit(lambda: contextlib.suppress(OSError) and server.ask("/symbols/_x"))
            wait_until(lambda: path.exists() and path.read_text().strip(), server.process)
            same("status of the server", server.end(), 0)
        wait_until(lambda: not is_running(int(path.read_text())))


class Given(ServerCase):
    """Tokens, and what is for those alone who have one."""

    def test_no_cache_between_keeps_what_is_for_readers(self) -> None:
        digest = slice_words(DSYM)[2]
        path = f"/buildid/{HEX}/debuginfo?digest={digest}"
        server = self.serve("--readers", tokens(self.room, "readers", {"a": TOKEN}))
        same("for readers", server.ask(path, headers=bearer(TOKEN)).headers["cache-control"],
             "private, max-age=31536000, immutable")
        same("for all", self.serve().ask(path).headers["cache-control"], "public, max-age=31536000, immutable")

    def test_tokens_of_other_characters(self) -> None:
        """A token is bytes, of which the file has the SHA-256, whichever way a client sends it."""
        token = "schlüssel €"
        server = self.serve("--readers", tokens(self.room, "readers", {"a": token}))
        basic = base64.b64encode(f"x:{token}".encode()).decode()
        sent = token.encode().decode("latin-1")
        for word in (f"Bearer {sent}", f"bearer  {sent}", f"Basic {basic}"):
            same(word, server.ask("/status", headers={"Authorization": word}).status, 200)
        none = base64.b64encode(token.encode()).decode()
        long = "x" * 20_000
        for word in ("Bearer schl\xfcssel", f"Basic {none}", f"Basic {basic[:-2]}", "Basic \xff", f"Bearer {long}"):
            same(word[:30], server.ask("/status", headers={"Authorization": word}).status, 401)

    def test_a_pipe_in_the_place_of_tokens(self) -> None:
        """Nobody waits for it: who needs no token is answered, and others are refused."""
        path = tokens(self.room, "uploads", {"ci": TOKEN})
        server = self.serve("--uploads", path)
        path.unlink()
        os.mkfifo(path)
        same("upload", server.ask("/images/x", DSYM, "PUT", bearer(TOKEN)).status, 503)
        same("status", server.ask("/status").status, 200)
        path.unlink()

    def test_values_of_flags(self) -> None:
        server = self.serve("--uploads", tokens(self.room, "uploads", {"ci": TOKEN}))
        for query in ("dsyms-only=0", "dsyms-only=false", "dsyms-only&dsyms-only=0"):
            came = server.ask(f"/images/x?{query}", DSYM, "PUT", bearer(TOKEN))
            self.refuses(came, 400, "`dsyms-only` has no value here")
        same("known", server.ask("/images/x?name=y&dsyms-only=1", DSYM, "PUT", bearer(TOKEN)).status, 200)

    def test_names_of_machines(self) -> None:
        """A name that no request can have is refused as the server begins."""
        tool = TOP / "tools" / "symarch-server"
        for name in ("builds.example.com:443", "https://builds.example.com", "builds example", "[::1", ""):
            came = call([python(), "-BI", tool, "--host", name, self.room.archive])
            said = f"symarch-server: --host is `{name}`: expected a name without a port, as builds.example.com"
            same(name, (came.status, came.error_lines[-1]), (3, said))


class Beside(ServerCase):
    """What stands in the place of a file beside the archive."""

    def test_what_reports_lacked_is_unread(self) -> None:
        """It is said, and reports are answered. What is there again is read."""
        lacking = REPORT.replace(b"4c4c4419", b"4c4c44ff")
        server = self.serve()
        path = self.folder / "site.sym.missing"
        makes: List[Callable[[], object]] = [lambda: path.write_bytes(b"none of SQLite, " * 100), path.mkdir]
        for make in (*makes, lambda: os.mkfifo(path)):
            make()
            same("report", server.ask("/reports", lacking).status, 200)
            came = server.ask("/missing")
            same("lines", (came.status, came.text, came.headers["symarch-status"]), (200, "", "2"))
            self.assertIn("could not be kept or read: ", server.ask("/missing", headers={"Accept": "text/html"}).text)
            path.rmdir() if path.is_dir() else path.unlink()
        self.assertIn("fault: the dSYMs that reports lack are not kept: ", server.said())
        same("report", server.ask("/reports", lacking).status, 200)
        came = server.ask("/missing")
        same("one", (len(came.lines), came.headers["symarch-status"]), (1, "0"))

    def test_a_pipe_in_the_place_of_the_archive(self) -> None:
        """Each request is refused at once."""
        server, away = self.serve(), self.folder / "away"
        self.room.archive.rename(away)
        os.mkfifo(self.room.archive)
        said = f"{self.room.archive} is a pipe, a socket or a device, and no archive"
        asked = b'{"memoryMap": [["spool", "%s0"]], "stacks": [[[0, 1040]]]}' % HEX.encode()
        for path, body in (("/reports", REPORT), ("/symbolicate/v5", asked), ("/builds", None), ("/status", None)):
            self.refuses(server.ask(path, body), 503, said)
        self.room.archive.unlink()
        away.rename(self.room.archive)
        same("report", server.ask("/reports", REPORT).status, 200)

    def test_pipes_are_not_waited_for(self) -> None:
        """In the place of a file beside an archive a pipe is named, by the server and the tools, and what came of it is
        gone with it."""
        server = self.serve()
        endings = ".idx", ".today", ".today.idx", ".builds", ".asked", ".lost", ".idx.next", ".log.next", ".changed"
        for ending in endings:
            path = self.folder / f"site.sym{ending}"
            kept = path.read_bytes() if path.exists() else None
            path.unlink(missing_ok=True)
            os.mkfifo(path)
            said = f"{path} is a pipe, a socket or a device"
            told = f"{said}, and no archive" if ending == ".today" else f"{said}: remove it"
            self.refuses(server.ask("/status"), 503, f"symarch-keep: {told}; the archive is as it was")
            errors = self.room.call("find", self.room.archive, FIRST, status=2)[1]
            same(f"find with {ending}", errors, [f"symarch-keep: {told}"])
            came = server.ask("/reports", REPORT)
            # Of what a report does not ask it says nothing.
            is_said = came.lines[0] == f"{said}: remove it"
            same(f"report with {ending}: {came.lines[0]}", came.status, 503 if is_said else 200)
            same(f"a refusal with {ending}", came.status == 503, ending in (".idx", ".today", ".idx.next"))
            path.unlink()
            if kept is not None:
                path.write_bytes(kept)
        same("report", server.ask("/reports", REPORT).status, 200)
