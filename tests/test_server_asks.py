"""Answers of symarch-server: reports, builds, symbols and numbers are those of the command line."""
import contextlib
import json
import plistlib
import re
import socket
import uuid
from typing import Dict, Iterator, List

from .support.builds import DWARF, SHOP
from .support.cases import same
from .support.made_images import image, number_uuid, slice_words
from .support.packed_files import zipped
from .support.program import MOST_SECONDS, TOP, call
from .support.reports import FORMS
from .support.servers import CRASH, FIRST, FIRST_X86_64, SECOND, Server, ServerCase, form, objects, python

HTML = {"Accept": "text/html,application/xhtml+xml"}
JSON = {"Accept": "application/json"}
ABSENT = "00112233-4455-6677-8899-aabbccddeeff"
OPTIONS: Dict[str, List[str]] = {
    "": [],
    "?text": ["--text"],
    "?paths": ["--paths"],
    "?no-lines&text": ["--no-lines", "--text"],
    "?json": ["--json"],
    "?raw": ["--raw"],
}


class Reports(ServerCase):
    """Each report is as symbolicate-report prints it."""

    seconds = 20

    def test_each_form(self) -> None:
        server = self.serve()
        for name, one in FORMS.items():
            with self.subTest(name):
                wanted = self.tool("symbolicate-report", one.path, self.room.archive)
                came = server.ask("/reports", one.path.read_bytes())
                same(f"status of {name}", (came.status, came.headers["symarch-status"]), (200, str(wanted.status)))
                same(name, came.body, wanted.out)

    def test_options(self) -> None:
        server, report = self.serve(), CRASH / "arm64.ips"
        for query, words in OPTIONS.items():
            wanted = self.tool("symbolicate-report", *words, report, self.room.archive).out
            came = server.ask(f"/reports{query}", report.read_bytes()).body
            same(query, came.replace(b'"path": "report"', f'"path": "{report}"'.encode()), wanted)

    def test_a_form_with_a_file_and_a_text(self) -> None:
        server, report = self.serve(), CRASH / "arm64.crash"
        wanted = self.tool("symbolicate-report", report, self.room.archive).out
        for name in ("arm64.crash", "--json", "../../out", "err", ""):
            body, headers = form(name, report.read_bytes(), "report" if name else "pasted")
            came = server.ask("/reports", body, headers=headers)
            same(f"of `{name}`: {came.status}", came.body, wanted)

    def test_in_two_encodings(self) -> None:
        server, text = self.serve(), (CRASH / "arm64.crash").read_text()
        for data in (text.encode("utf-16"), re.sub("^(?=.)", "> ", text, flags=re.M).encode()):
            (self.folder / "given").write_bytes(data)
            wanted = self.tool("symbolicate-report", "given", self.room.archive).out
            same("report", server.ask("/reports", data).body, wanted)
            self.assertIn("copy_body", server.ask("/reports", data, headers=HTML).text)

    def test_frames_are_counted_in_a_header(self) -> None:
        came = self.serve().ask("/reports", (CRASH / "arm64.ips").read_bytes())
        wanted = "named=4 named_before=1 several=0 not_named=0 not_listed=0"
        same("frames", sorted(came.headers["symarch-frames"].split()), sorted(wanted.split()))

    def test_a_zip_file(self) -> None:
        """One with a report is that report; one with several is refused in each form, and so is one that is damaged."""
        server, report = self.serve(), (CRASH / "arm64.crash").read_bytes()
        one = zipped({"feedback.json": b"{}", "../../a.crash": report})
        wanted = self.tool("symbolicate-report", CRASH / "arm64.crash", self.room.archive)
        same("report", server.ask("/reports", one).body, wanted.out)
        self.assertIn("copy_body", server.ask("/reports", one, headers=HTML).text)
        several = zipped({"a.crash": report, "b.crash": report})
        for query in OPTIONS:
            said = "report: a zip file that holds several reports"
            self.refuses(server.ask(f"/reports{query}", several), 422, said)
        same("page", server.ask("/reports", several, headers=HTML).status, 422)
        self.refuses(server.ask("/reports", zipped({"a": report})), 422, "report: a zip file that holds no report")
        self.refuses(server.ask("/reports", one[:-30]), 422, "report: a zip file that is cut or damaged")
        long = zipped({"a.crash": bytes(70 << 20)})
        said = "report: a.crash: unpacks to more than 64000000 bytes"
        self.refuses(server.ask("/reports", long), 422, said)

    def test_what_is_no_report(self) -> None:
        server = self.serve()
        said = "report: no report of a known kind: no stack frames"
        self.refuses(server.ask("/reports", b"nothing of the kind\n"), 422, said)
        self.refuses(server.ask("/reports", b""), 400, "the body is empty")
        archive = self.room.archive.read_bytes()
        self.refuses(server.ask("/reports", archive), 422, "report: an archive, and no report")
        self.refuses(server.ask("/reports?texts", b"x"), 400)
        self.refuses(server.ask("/reports?text=2", b"x"), 400, "`text` has no value here")
        given = (CRASH / "arm64.crash").read_bytes()
        self.refuses(server.ask("/reports?no-lines&paths", given), 400)
        cut = self.tool("symbolicate-report", "-", self.room.archive)
        self.assertEqual(cut.status, 2)

    def test_too_long(self) -> None:
        """It is refused before it is sent, and once it is, if nobody says how long it is."""
        server = self.serve()
        came = server.ask("/reports", b"", headers={"Content-Length": str(64_200_000)})
        same("status", came.status, 413)
        piece = b"100000\r\n" + bytes(1 << 20) + b"\r\n"
        same("status", self.sent(server, (piece for _ in range(70))), 413)
        # A line between chunks that never ends.
        same("status", self.sent(server, (bytes(1 << 16) for _ in range(70))), 400)
        same("status", server.ask("/status").status, 200)

    @staticmethod
    def sent(server: Server, chunks: Iterator[bytes]) -> int:
        """The status of an answer, which may come before all is sent."""
        with socket.create_connection(("127.0.0.1", server.port), timeout=MOST_SECONDS) as connection:
            head = f"POST /reports HTTP/1.1\r\nHost: 127.0.0.1:{server.port}\r\nTransfer-Encoding: chunked\r\n\r\n"
            with contextlib.suppress(BrokenPipeError, ConnectionResetError):
                connection.sendall(head.encode())
                for chunk in chunks:
                    connection.sendall(chunk)
            with contextlib.suppress(ConnectionResetError):
                return int(connection.recv(100).split(b" ")[1])
        # The rest of what was sent took the answer away.
        return -1

    def test_the_page(self) -> None:
        """It has threads, names, lines and inlined functions; and what answered for each image."""
        dsym = TOP / "tests/fixtures/lines/arm64-2-dsymutil.dsym"
        self.room.add(dsym)
        server = self.serve()
        text = server.ask("/reports", (TOP / "tests/fixtures/reports/inlined.ips").read_bytes(), headers=HTML).text
        for part in ("Thread 0 Crashed:", '<span class="function">clamp_low</span>', "shared.h:3", "a.c:9", "inlined"):
            self.assertIn(part, text)
        self.assertNotIn("Missing dSYMs</h2>", text)
        text = server.ask("/reports", (CRASH / "arm64.crash").read_bytes(), headers=HTML).text
        self.assertIn('<span class="function">copy_body</span>', text)
        self.assertIn(f'href="/builds/{FIRST}"', text)

    def test_missing_dsyms_come_first_on_a_page(self) -> None:
        report = (CRASH / "arm64.crash").read_bytes().replace(b"4c4c4419", b"4c4c44ff")
        text = self.serve().ask("/reports", report, headers=HTML).text
        found = FIRST.replace("4c4c4419", "4c4c44ff")
        self.assertIn("Missing dSYMs</h2>", text)
        self.assertLess(text.index(found.upper()), text.index("Images with frames"))
        self.assertIn(f'data-copy="{found.upper()}"', text)

    def test_several_answers(self) -> None:
        """A frame for which slices differ has each answer below it."""
        linked = (CRASH / "spool-1.arm64").read_bytes()
        self.room.begin_anew()
        self.room.file("one/spool", linked)
        self.room.file("two/spool", (CRASH / "spool-1").read_bytes())
        self.room.add("one", "two")
        text = self.serve().ask("/reports", (CRASH / "arm64.crash").read_bytes(), headers=HTML).text
        self.assertRegex(text, r'<span class="answer">[0-9a-f]{64}.*copy_body')


class Escaped(ServerCase):
    """Nothing of a report or a build reaches a page as it is."""

    HOSTILE = "<script>alert(1)</script>\"'&\x1b[31m\u202e\ud800\udc41\udfff"

    def test_a_report(self) -> None:
        report = json.loads((CRASH / "arm64.ips").read_bytes().partition(b"\n")[2])
        report["procName"] = report["procPath"] = self.HOSTILE
        for one in report["usedImages"]:
            one["name"] = one["path"] = self.HOSTILE
        for one in report["threads"]:
            one["name"] = one["queue"] = self.HOSTILE
            for frame in one["frames"]:
                frame.update({"symbol": self.HOSTILE, "sourceFile": self.HOSTILE, "sourceLine": 1})
        head = json.dumps({"app_name": self.HOSTILE, "bug_type": "309"}).encode()
        body, headers = form("<script>alert(2)</script>.ips", head + b"\n" + json.dumps(report).encode())
        came = self.serve().ask("/reports", body, headers={**headers, **HTML})
        same("status", came.status, 200)
        self.is_escaped(came.text)

    def test_a_missing_image(self) -> None:
        """Its name is kept, and printed as one line."""
        report = json.loads((CRASH / "arm64.ips").read_bytes().partition(b"\n")[2])
        report["usedImages"][0].update({"uuid": ABSENT, "name": self.HOSTILE})
        server = self.serve()
        came = server.ask("/reports", b'{"app_name":"x"}\n' + json.dumps(report).encode(), headers=HTML)
        self.is_escaped(came.text)
        self.is_escaped(server.ask("/missing", headers=HTML).text)
        same("lines", [line.split(" ")[0] for line in server.ask("/missing").lines], [ABSENT])

    def test_names_of_builds_and_symbols(self) -> None:
        named = {**SHOP, "CFBundleIdentifier": "com.<script>alert(1)</script>", "CFBundleVersion": "\"'><b>"}
        name = "<img src=x onerror=alert(1)>"
        self.room.file(f"evil.dSYM/{DWARF}/{name}", (CRASH / "spool-1.arm64").read_bytes())
        self.room.file("evil.dSYM/Contents/Info.plist", plistlib.dumps(named))
        self.room.add("evil.dSYM")
        server = self.serve()
        for path in ("/", "/builds", f"/builds/{FIRST}", "/builds?app=%3Cscript%3E", "/symbols/%3Cscript%3E%22"):
            came = server.ask(path, headers=HTML)
            self.assertIn(came.status, (200, 404), path)
            self.is_escaped(came.text)
        self.is_escaped(server.ask("/builds/%3Cscript%3E", headers=HTML).text)
        self.is_escaped(server.ask("/%3Cscript%3E", headers=HTML).text)

    def is_escaped(self, text: str) -> None:
        self.assertNotRegex(text, r"<script>|<b>|<img|\x1b|\u202e|<script(?! src=\"/static/page.js\")")

    def test_headers(self) -> None:
        server = self.serve()
        for path, status in (("/", 200), ("/static/page.js", 200), ("/nothing", 404), ("/status", 200)):
            came = server.ask(path, headers=HTML)
            same(path, came.status, status)
            policy = came.headers["content-security-policy"]
            self.assertIn("default-src 'none'", policy)
            self.assertIn("script-src 'self';", policy)
            self.assertNotIn("unsafe", policy)
            same("sniffing", came.headers["x-content-type-options"], "nosniff")
            self.assertNotIn("server", came.headers)

    def test_pages_have_no_script_and_style_within(self) -> None:
        server = self.serve()
        pages = [server.ask(path, headers=HTML).text for path in ("/", "/builds", f"/builds/{FIRST}", "/missing")]
        pages.append(server.ask("/reports", (CRASH / "arm64.ips").read_bytes(), headers=HTML).text)
        for text in pages:
            self.assertNotRegex(text, r"<script(?! src)|<style| style=| on[a-z]+=")


class Builds(ServerCase):
    """Builds, and what the archive has of each."""

    def test_json_is_that_of_list(self) -> None:
        server = self.serve()
        wanted = objects(self.room.call("list", "--json", self.room.archive)[0])
        same("builds", server.ask("/builds", headers=JSON).json(), wanted)
        same("type", server.ask("/builds", headers=JSON).headers["content-type"], "application/json")

    def test_by_app_and_day(self) -> None:
        self.room.file(f"shop.dSYM/{DWARF}/shop", (CRASH / "spool-1.arm64").read_bytes())
        self.room.file("shop.dSYM/Contents/Info.plist", plistlib.dumps(SHOP))
        self.room.add("shop.dSYM")
        server = self.serve()
        for query, words in (
            ("app=com.example.shop", ["--app", "com.example.shop"]),
            ("since=2020-01-01", ["--since", "2020-01-01"]),
            ("since=2999-01-01", ["--since", "2999-01-01"]),
        ):
            wanted = objects(self.room.call("list", "--json", *words, self.room.archive, status=None)[0])
            same(query, server.ask(f"/builds?{query}", headers=JSON).json(), wanted)
        same("until", len(server.ask("/builds?until=2020-01-01", headers=JSON).json()), 1)
        every = self.room.call("list", self.room.archive)[0]
        same("until", len(server.ask("/builds?until=2999-01-01", headers=JSON).json()), len(every) + 1)
        self.assertIn("com.example.shop", server.ask("/builds?app=com.example.shop", headers=HTML).text)
        self.refuses(server.ask("/builds?since=x"), 400, "DATE is `x`: expected a day as YYYY-MM-DD")
        self.refuses(server.ask("/builds?apps=x"), 400)

    def test_of_a_uuid(self) -> None:
        server = self.serve()
        found = server.ask(f"/builds/{FIRST}", headers=JSON).json()
        lines = [
            f"{one['arch']} {its['kind']} {its['digest']}" for one in found["architectures"] for its in one["slices"]
        ]
        same("slices", sorted(lines), sorted(self.room.call("find", self.room.archive, FIRST)[0]))
        page = server.ask(f"/builds/{FIRST.upper()}", headers=HTML).text
        for line in lines:
            self.assertIn(line.split(" ")[2], page)
        self.refuses(server.ask(f"/builds/{ABSENT}"), 404, f"the archive has no {ABSENT}")
        self.refuses(server.ask("/builds/x"), 400, "UUID is `x`: expected 32 hex digits, with or without hyphens")

    def test_a_conflict_and_a_retirement(self) -> None:
        one, other, gone = image(7, more=b"1"), image(7, more=b"2"), image(7, more=b"3")
        for at, made in enumerate((one, other, gone)):
            self.room.file(f"{at}.dylib", made)
            self.room.add(f"{at}.dylib")
        self.room.call("retire", self.room.archive, *slice_words(gone))
        server = self.serve()
        number = uuid.UUID(bytes=number_uuid(7))
        (found,) = server.ask(f"/builds/{number}", headers=JSON).json()["architectures"]
        same("conflict", found["conflict"], True)
        wanted = sorted(slice_words(it)[2] for it in (one, other))
        same("slices", sorted(it["digest"] for it in found["slices"]), wanted)
        same("retired", found["retired"], [slice_words(gone)[2]])
        self.assertIn("conflict", server.ask(f"/builds/{number}", headers=HTML).text)

    def test_symbols(self) -> None:
        server = self.serve()
        for name in ("_copy_body", "_file_message"):
            wanted = self.room.call("name", self.room.archive, name)[0]
            same(name, server.ask(f"/symbols/{name}").lines, wanted)
        self.assertIn(FIRST_X86_64, server.ask("/symbols/_copy_body", headers=HTML).text)
        self.refuses(server.ask("/symbols/_none"), 404, "no slice has a symbol of this name")
        self.refuses(server.ask("/symbols/-[Spool%20copy:/]"), 404)
        self.refuses(server.ask("/symbols/--help"), 404)
        self.refuses(server.ask("/symbols/a%00b"), 400)

    def test_search(self) -> None:
        server = self.serve()
        for word, where in ((FIRST, f"/builds/{FIRST}"), ("_copy_body", "/symbols/_copy_body"), ("", "/")):
            came = server.ask(f"/search?for={word}")
            same(word, (came.status, came.headers["location"]), (302, where))

    def test_the_first_page(self) -> None:
        text = self.serve().ask("/", headers=HTML).text
        self.assertIn(SECOND, text)
        self.assertIn('name="report"', text)

    def test_status_and_metrics(self) -> None:
        server = self.serve()
        wanted = self.room.call("status", self.room.archive)[0]
        same("status", server.ask("/status").lines, wanted)
        server.ask("/reports", (CRASH / "arm64.ips").read_bytes())
        lines = server.ask("/metrics").lines
        self.assertIn("symarch_archive_companions 4", lines)
        self.assertIn('symarch_frames_total{kind="named"} 4', lines)
        self.assertIn('symarch_requests_total{route="/reports",method="POST",status="200"} 1', lines)

    def test_methods_and_paths_that_are_not_there(self) -> None:
        server = self.serve()
        self.refuses(server.ask("/nothing"), 404, "not found")
        self.refuses(server.ask("/reports"), 405, "method not allowed")
        self.refuses(server.ask("/builds", b"x"), 405, "method not allowed")
        self.refuses(server.ask("/static/../app.py"), 404)
        self.refuses(server.ask("/static/..%2fapp.py"), 404)
        self.refuses(server.ask("/static/%2e%2e/app.py"), 404)


class Missing(ServerCase):
    """Which dSYMs reports lacked."""

    REPORT = (CRASH / "arm64.crash").read_bytes()

    def test_what_lacked_and_what_came(self) -> None:
        self.room.begin_anew()
        self.room.add("2")
        server = self.serve()
        for _ in range(2):
            server.ask("/reports", self.REPORT)
        (row,) = server.ask("/missing", headers=JSON).json()
        same("row", {**row, "first": "", "last": ""},
             {"uuid": FIRST, "name": "spool", "reports": 2, "first": "", "last": "", "came": False})
        self.room.add("1")
        (row,) = server.ask("/missing", headers=JSON).json()
        same("came", row["came"], True)
        self.assertIn("came since", server.ask("/missing", headers=HTML).text)
        self.assertRegex(server.ask("/missing").text, rf"^{FIRST} 2 [0-9-]{{10}} came spool\n$")
        server.end()
        server = self.serve()
        same("after another start", len(server.ask("/missing", headers=JSON).json()), 1)

    def test_no_missing(self) -> None:
        self.room.begin_anew()
        self.room.add("2")
        server = self.serve("--no-missing")
        server.ask("/reports", self.REPORT)
        same("rows", server.ask("/missing", headers=JSON).json(), [])
        self.is_absent("site.sym.missing")

    def test_a_file_that_is_none(self) -> None:
        """What cannot be remembered is answered all the same."""
        self.room.begin_anew()
        self.room.add("2")
        self.room.file("site.sym.missing", b"no database, but a text that is long enough to be looked at" * 20)
        server = self.serve()
        same("status", server.ask("/reports", self.REPORT).status, 200)
        same("rows", server.ask("/missing", headers=JSON).json(), [])

    def test_it_is_bounded(self) -> None:
        """Of more images than are kept those stay that were seen last."""
        lines = (
            "import sys; sys.path.insert(0, sys.argv[1]); from symarch_server import missing; missing.MOST = 3",
            "one = missing.Missing(sys.argv[2], True)",
            "[one.add({str(number): 'a' * 1000}) for number in range(5)]; one.add({'4': ''})",
            "print([(len(row.name), row.reports) for row in one.rows()])",
        )
        came = call([python(), "-BI", "-c", "\n".join(lines), str(TOP / "tools"), str(self.room.archive)])
        same(came.errors.decode(), came.lines, ["[(255, 2), (255, 1), (255, 1)]"])
