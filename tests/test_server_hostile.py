"""symarch-server with requests that try to read other files, to write, or to stop it; full disks, few open files."""
import hashlib
import json
import os
import sys
from concurrent.futures import ThreadPoolExecutor

from .support.cases import same
from .support.program import TOP, call
from .support.servers import CRASH, FIRST, ServerCase, bearer, form, python, temporary, tokens
from .test_server_states import LargeCase, slow_connection

REPORT = (CRASH / "arm64.crash").read_bytes()
HEX = FIRST.replace("-", "")
DSYM = (CRASH / "spool-1.dSYM").read_bytes()


class Asked(ServerCase):
    """Paths, headers and bodies. None is a fault of the server."""

    def test_paths_that_lead_elsewhere(self) -> None:
        server = self.serve()
        for path in (
            "/../../etc/passwd", "/%2e%2e/%2e%2e/etc/passwd", "/static/../app.py", "/static/..%2fapp.py", "/static/%00",
            "/static/%2fetc%2fpasswd", "/static//etc/passwd", "/builds/..%2f..%2fetc%2fpasswd", "/builds/%00",
            "/symbols/%00", "/symbols/..%2f..%2fetc%2fpasswd", "/symbols/--help", "/symbols/%ff", "/symbols/a%0d%0ab",
            f"/buildid/{HEX}%2f..%2f../debuginfo", f"/{HEX[:2]}/..%2f{HEX[2:29]}/debuginfo", "/images/..%2fx",
            f"/buildid/{HEX}/debuginfo?arch=../x", f"/buildid/{HEX}/debuginfo?digest=%00", "/builds?app=%00",
        ):
            came = server.ask(path)
            self.assertIn(came.status, (200 if path.startswith("/builds?") else 404, 308, 400, 405), path)
            self.assertNotIn(b"root:", came.body)
        came = server.ask("/search?for=%0d%0aX-Other:%201%2f%2fevil.example")
        same("one header", (came.status, "x-other" in came.headers), (302, False))
        self.assertTrue(came.headers["location"].startswith("/symbols/"))

    def test_origins_that_are_none(self) -> None:
        server = self.serve("--origin", "https://profiler.firefox.com")
        of_a_site = "https://profiler.firefox.com"
        for origin in ("null", "http://[", "http://]", "http://[::1", "http://\xff", f"{of_a_site}.evil",
                       f"{of_a_site}:444", "file://", "x" * 9_000):
            for path in ("/status", "/symbolicate/v5"):
                same(origin[:40], server.ask(path, headers={"Origin": origin}).status, 403)

    def test_conditions_that_are_none(self) -> None:
        """Whoever asks so has all of it."""
        server, path = self.serve(), f"/buildid/{HEX}/debuginfo"
        dsym = server.ask(path).body
        many = ",".join(f"{at}-{at}" for at in range(0, 8_000, 2))
        for headers in (
            {"If-Range": "Mon, 01 Jan 99999999999 00:00:00 GMT"}, {"If-Range": "\xff"}, {"If-Range": 'W/"'},
            {"Range": f"bytes={many[:25_000]}"}, {"Range": "bytes=\xb2-5"}, {"Range": "bytes=5-2"}, {"Range": "=0-1"},
            {"If-None-Match": '"'}, {"If-Modified-Since": "Mon, 31 Feb 2000 00:00:00 -9999"},
        ):
            came = server.ask(path, headers={"Range": "bytes=0-1", **headers})
            self.assertIn((came.status, came.body), ((200, dsym), (206, dsym[:2])), str(headers)[:60])
        came = server.ask(path, headers={"Range": "bytes=1-" + "9" * 30})
        same("to the end", (came.status, came.body), (206, dsym[1:]))
        came = server.ask(path, headers={"Range": f"bytes={'9' * 30}-"})
        same("past the end", came.status, 416)

    def test_forms_that_are_none(self) -> None:
        server = self.serve()
        body, headers = form("a", REPORT)
        for charset in ("nonsense", "hex", "\xff"):
            text = f"Content-Type: text/plain; charset={charset}\r\nContent-Disposition".encode("latin-1")
            pasted = form("", REPORT)[0].replace(b"Content-Disposition", text)
            self.assertIn(server.ask("/reports", pasted, headers=headers).status, (200, 400))
        same("cut", server.ask("/reports", body[:-30], headers=headers).status, 400)
        same("many", server.ask("/reports", b"\r\n".join([body.partition(b"\r\n------form--")[0]] * 50) +
                                b"\r\n------form--\r\n", headers=headers).status, 413)
        same("no boundary", server.ask("/reports", body, headers={"Content-Type": "multipart/form-data"}).status, 400)
        same("after it", server.ask("/reports", body, headers=headers).status, 200)

    def test_names_as_long_as_a_report(self) -> None:
        """A page has so much of each."""
        server = self.serve()
        head, _, rest = (CRASH / "arm64.ips").read_bytes().partition(b"\n")
        report = json.loads(rest)
        report["usedImages"][0].update(name="\u202e" * 1_000_000, uuid="4c4c4419-5555-3144-a1d2-4341c97782ff")
        came = server.ask("/reports", head + b"\n" + json.dumps(report).encode(), headers={"Accept": "text/html"})
        same("status", came.status, 200)
        self.assertLess(len(came.body), 500_000)
        self.assertNotIn("\u202e", came.text)

    def test_a_form_that_takes_long(self) -> None:
        """It is ended, and keeps nobody else out meanwhile."""
        server = self.serve("--seconds", "5")
        body, headers = form("a", REPORT)
        body = body.replace(b'filename="a"', b"x" + b"; a=b" * 800_000)
        with ThreadPoolExecutor(1) as threads:
            came = threads.submit(server.ask, "/reports", body, headers=headers)
            for _ in range(3):
                server.goes_on()
            same(came.result().text, came.result().status, 503)


class Given(ServerCase):
    """Tokens that nobody has given."""

    def test_an_empty_token(self) -> None:
        """A line for it is refused, as it comes of a variable that is not set."""
        path = tokens(self.room, "uploads", {"ci": ""})
        tool = TOP / "tools" / "symarch-server"
        words = [python(), "-BI", str(tool), "--uploads", str(path), str(self.room.archive)]
        came = call(words, environment={"SYMARCH": os.environ.get("SYMARCH", "symarch")})
        same("said", (came.status, came.error_lines), (2, [
            f"symarch-server: {path}: line 2 has the SHA-256 of an empty token"]))
        tokens(self.room, "uploads", {"ci": "x"})
        server = self.serve("--uploads", path)
        tokens(self.room, "uploads", {"ci": ""})
        same("while it serves", server.ask("/images/x", DSYM, "PUT", bearer("")).status, 503)

    def test_parts_of_a_token(self) -> None:
        server = self.serve("--readers", tokens(self.room, "readers", {"a": "a-long-token"}))
        digest = hashlib.sha256(b"a-long-token").hexdigest()
        for word in ("a-long-toke", "a-long-token2", "A-LONG-TOKEN", digest, "", " ", "\xe4", "*"):
            same(word, server.ask("/status", headers=bearer(word)).status, 401)
        for name in ("Authorization: Bearer", "X-Forwarded-User", "Cookie", "Remote-User"):
            same(name, server.ask("/status", headers={name.partition(":")[0]: "a-long-token"}).status, 401)


class Lacking(LargeCase):
    """What the system has no more of."""

    def test_no_room(self) -> None:
        """Where nothing can be stored the answer is a line, and the server goes on."""
        server = self.serve()
        (name,) = os.listdir(temporary(self.folder))
        rooms, away = temporary(self.folder) / name, self.folder / "away"
        rooms.rename(away)
        for path in ("/status", f"/buildid/{HEX}/debuginfo"):
            self.refuses(server.ask(path), 503, "the server could not do it: No such file or directory")
        away.rename(rooms)
        same("then", server.ask("/status").status, 200)

    def test_few_open_files(self) -> None:
        """Many that read nothing of what they asked for have all files that there are; others are answered."""
        large_server, _, path = self.begin_with_a_large_one()
        large_server.end()
        server = self.serve(before=["/bin/sh", "-c", 'ulimit -n 360; exec "$@"', "sh"])
        connections = [slow_connection(server) for _ in range(15)]
        for one in connections:
            one.sendall(f"GET {path} HTTP/1.1\r\nHost: 127.0.0.1\r\n\r\n".encode())
        same("status", server.ask("/status").status, 200)
        for one in connections:
            one.close()
        self.assertNotIn("fault", server.said())

    def test_how_many_connections(self) -> None:
        lines = (
            "import sys; sys.path.insert(0, sys.argv[1])",
            "from symarch_server.serving import connections_within as within",
            "print(within(64), within(1024), within(1 << 20), within(-1))",
        )
        came = call([python(), "-BI", "-c", "\n".join(lines), str(TOP / "tools")])
        same(came.errors.decode(), came.lines, ["16 241 2000 2000"])

    def test_a_file_that_could_not_come(self) -> None:
        """An answer without the file that it should have is none."""
        lines = (
            "import os, resource, socket, sys; sys.path.insert(0, sys.argv[1])",
            "from symarch_server.control import receive, send",
            "one, other = socket.socketpair()",
            "send(one, {}, [os.open('/dev/null', os.O_RDONLY)])",
            "resource.setrlimit(resource.RLIMIT_NOFILE, (os.open('/dev/null', os.O_RDONLY), 100))",
            "try: print(receive(other))",
            "except OSError as error: print(error)",
        )
        came = call([sys.executable, "-BI", "-c", "\n".join(lines), str(TOP / "tools")])
        same(came.errors.decode(), came.lines, ["no more files may be open"])
