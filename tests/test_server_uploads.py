"""Uploads to symarch-server: tokens, names of the machine, refusals, cuts, kills, full disks."""
import base64
import contextlib
import http.client
import os
import signal
import socket
from typing import List

from .support.builds import DWARF, tarred, zipped
from .support.cases import same
from .support.made_images import image, slice_words
from .support.rooms import Gate
from .support.servers import LIFTED, Server, ServerCase, bearer, connections, objects, temporary, tokens
from .support.waits import wait_until

GIVEN = image(11, more=bytes(200))
TOKEN = "a-long-token"


class Uploads(ServerCase):
    """PUT /images, for those who have a token."""

    def begin(self, *words: str) -> Server:
        path = tokens(self.room, "uploads", {"ci": TOKEN, "other": "another one"})
        return self.serve("--uploads", path, *words)

    def found(self) -> List[str]:
        return self.room.call("find", self.room.archive, slice_words(GIVEN)[0], status=None)[0]

    def test_a_file(self) -> None:
        """It is in the archive, with its name; the logs say who brought it."""
        server = self.begin()
        came = server.ask("/images/spool.dylib", GIVEN, "PUT", bearer(TOKEN))
        same(came.text, (came.status, came.headers["symarch-status"]), (200, "0"))
        first, end = objects(came.lines)
        same("added", (first["type"], first["digest"]), ("added", slice_words(GIVEN)[2]))
        same("path", first["path"], "ci/spool.dylib")
        same("counts", (end["added"], end["known"]), (1, 0))
        same("found", len(self.found()), 1)
        self.assertIn("ci/spool.dylib", (self.folder / "site.sym.log").read_text())
        self.assertIn(" ci PUT /images/spool.dylib 200 ", server.said())
        self.assertIn("spool.dylib", "".join(self.room.call("list", self.room.archive)[0]))
        again = server.ask("/images", GIVEN, "PUT", bearer(TOKEN))
        same("again", objects(again.lines)[0]["type"], "known")

    def test_packed_bundles(self) -> None:
        server = self.begin()
        members = [(f"shop.dSYM/{DWARF}/shop", GIVEN), ("readme", b"nothing")]
        for name, data in (("shop.dSYM.zip", zipped(members)), ("shop.tar.gz", tarred(members))):
            came = server.ask(f"/images?name={name}&dsyms-only", data, "PUT", bearer(TOKEN))
            same(name, came.status, 200)
            self.assertIn(f"ci/{name}: ", objects(came.lines)[0]["path"])
        same("found", len(self.found()), 1)

    def test_who_may_not(self) -> None:
        server = self.begin()
        for word in ("", "Bearer wrong", "Bearer ", "Bearer", "Basic eDp5", f"Digest {TOKEN}"):
            came = server.ask("/images/x", GIVEN, "PUT", {"Authorization": word} if word else {})
            self.refuses(came, 401, "a token is needed: Authorization: Bearer TOKEN")
        same("found", self.found(), [])
        other = self.serve()
        came = other.ask("/images/x", GIVEN, "PUT", bearer(TOKEN))
        self.refuses(came, 403, "nobody may upload here: --uploads names those who may")
        for method in ("POST", "DELETE", "PATCH"):
            same(method, server.ask("/images/x", GIVEN, method, bearer(TOKEN)).status, 405)

    def test_names_that_lead_elsewhere(self) -> None:
        server = self.begin()
        for name in ("..%2f..%2fevil", "%2fetc%2fevil", "--json", "..", "a%00b", ".hidden", "out", "a%0Ab", "x" * 300):
            came = server.ask(f"/images?name={name}", GIVEN, "PUT", bearer(TOKEN))
            same(name, came.status, 200)
            path = objects(came.lines)[0]["path"]
            self.assertRegex(path, r"^ci/[^/.-][^/]*$", name)
        same("elsewhere", [str(it) for it in self.folder.rglob("*evil*")], [])

    def test_what_is_no_image(self) -> None:
        server = self.begin()
        came = server.ask("/images/x", b"nothing of the kind", "PUT", bearer(TOKEN))
        same("status", (came.status, came.headers["symarch-status"]), (422, "1"))
        self.refuses(server.ask("/images/x", b"", "PUT", bearer(TOKEN)), 400, "the body is empty")
        came = server.ask("/images/x.zip", zipped([("a", GIVEN)])[:-40], "PUT", bearer(TOKEN))
        same("status", came.status, 422)

    def test_too_long(self) -> None:
        server = self.begin("--most", "1k")
        same("at the cap", server.ask("/images/x", GIVEN, "PUT", bearer(TOKEN)).status, 200)
        came = server.ask("/images/x", bytes(1001), "PUT", bearer(TOKEN))
        same("past it", came.status, 413)

    def test_a_large_body_without_a_token_is_not_received(self) -> None:
        server = self.begin()
        for token in (TOKEN[1:], "wrong"):
            more = {"Content-Length": str(1 << 30), **bearer(token)}
            same("status", server.ask("/images/x", b"", "PUT", more).status, 413)

    def test_one_that_is_cut(self) -> None:
        """Nothing is added, and nothing left."""
        server = self.begin()
        head = f"PUT /images/x HTTP/1.1\r\nHost: 127.0.0.1:{server.port}\r\nAuthorization: Bearer {TOKEN}\r\n"
        before = self.room.archive.read_bytes()
        with socket.create_connection(("127.0.0.1", server.port)) as connection:
            connection.sendall(f"{head}Content-Length: {len(GIVEN)}\r\n\r\n".encode() + GIVEN[:100])
            wait_until(lambda: connections(server) == [0], server.process)
        wait_until(lambda: not connections(server), server.process)
        same("status", server.ask("/status").status, 200)
        same("archive", self.room.archive.read_bytes(), before)
        same("found", self.found(), [])
        (room,) = os.listdir(temporary(self.folder))
        same("rooms", os.listdir(temporary(self.folder) / room), [])

    def test_killed_while_it_adds(self) -> None:
        """The archive has it or not, and the next server removes what is left."""
        gate = Gate(self.room, "merge|index", LIFTED)
        path = tokens(self.room, "uploads", {"ci": TOKEN})
        server = self.serve("--uploads", path, environment=gate.environment)
        with socket.create_connection(("127.0.0.1", server.port)) as connection:
            head = f"PUT /images/x HTTP/1.1\r\nHost: 127.0.0.1:{server.port}\r\nAuthorization: Bearer {TOKEN}\r\n"
            connection.sendall(f"{head}Content-Length: {len(GIVEN)}\r\n\r\n".encode() + GIVEN)
            gate.wait(server.process)
            server.end(signal.SIGKILL)
        gate.open()
        self.assertIn(len(self.found()), (0, 1))
        other = self.serve("--uploads", path)
        same("again", other.ask("/images/x", GIVEN, "PUT", bearer(TOKEN)).status, 200)
        same("found", len(self.found()), 1)
        other.end()
        same("left beside it", self.room.left(), [])

    def test_a_full_disk(self) -> None:
        """A body that cannot be stored is refused, and the server goes on."""
        path = tokens(self.room, "uploads", {"ci": TOKEN})
        server = self.serve("--uploads", path, before=["/bin/sh", "-c", 'ulimit -f 64; exec "$@"', "sh"])
        came = server.ask("/images/x", bytes(200_000), "PUT", bearer(TOKEN))
        same("status", came.status, 507)
        # This one does not even reach the disk on its way.
        with contextlib.suppress(OSError, http.client.HTTPException):
            self.assertGreaterEqual(server.ask("/images/x", bytes(2_000_000), "PUT", bearer(TOKEN)).status, 500)
        same("status", server.ask("/status").status, 200)
        same("found", self.found(), [])

    def test_tokens_are_read_again(self) -> None:
        server = self.begin()
        tokens(self.room, "uploads", {"ci": "a new one"})
        same("the old one", server.ask("/images/x", GIVEN, "PUT", bearer(TOKEN)).status, 401)
        same("the new one", server.ask("/images/x", GIVEN, "PUT", bearer("a new one")).status, 200)
        (self.folder / "uploads").write_text("no such line\n")
        same("none", server.ask("/images/x", GIVEN, "PUT", bearer("a new one")).status, 503)
        (self.folder / "uploads").unlink()
        same("none", server.ask("/images/x", GIVEN, "PUT", bearer("a new one")).status, 503)


class Reading(ServerCase):
    """Who may read."""

    def test_readers(self) -> None:
        path = tokens(self.room, "readers", {"team": TOKEN})
        server = self.serve("--readers", path)
        slice_way = f"/buildid/{'0' * 32}/debuginfo"
        for way in ("/", "/status", "/builds", "/metrics", "/missing", "/symbols/_x", slice_way):
            same(way, server.ask(way).status, 401)
            same(way, server.ask(way, headers=bearer("wrong")).status, 401)
            self.assertNotEqual(server.ask(way, headers=bearer(TOKEN)).status, 401, way)
        same("report", server.ask("/reports", b"x").status, 401)
        # A browser sends it as a password.
        basic = base64.b64encode(f"me:{TOKEN}".encode()).decode()
        same("basic", server.ask("/status", headers={"Authorization": f"Basic {basic}"}).status, 200)
        for word in ("Basic !!!", "Basic", "Bearer \xff", "Digest x", "Basic " + base64.b64encode(b"x").decode()):
            same(word, server.ask("/status", headers={"Authorization": word}).status, 401)
        self.assertIn(" team GET /status 200 ", server.said())

    def test_hosts(self) -> None:
        server = self.serve("--host", "builds.example.com")
        same("by its name", server.ask("/status", headers={"Host": "builds.example.com:8080"}).status, 200)
        for name in ("127.0.0.1", "evil.example.com", "builds.example.com.evil", "", "builds.example.com@evil", "a/b"):
            same(name, server.ask("/status", headers={"Host": name}).status, 421)
        within = {"Sec-Fetch-Site": "cross-site", "Sec-Fetch-Mode": "no-cors", "Host": "builds.example.com"}
        same("a part of a page of elsewhere", server.ask("/status", headers=within).status, 403)
        same("a link", server.ask("/status", headers={**within, "Sec-Fetch-Mode": "navigate"}).status, 200)
        other = self.serve()
        for name in ("127.0.0.1", "localhost", f"LOCALHOST:{other.port}"):
            same(name, other.ask("/status", headers={"Host": name}).status, 200)
        same("another", other.ask("/status", headers={"Host": "evil.example.com"}).status, 421)
