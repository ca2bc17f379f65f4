"""Files from symarch-server: slices by their UUIDs, ranges, bundles as `symarch-keep get` makes them, and the frames of
profilers."""
import io
import json
import os
import pathlib
import tarfile
import uuid
from typing import Any, Dict, List

from .support.cases import same
from .support.made_images import ARM64, X86_64, image, number_uuid, slice_words, slices_in
from .support.program import TOP
from .support.rooms import change
from .support.servers import CRASH, FIRST, FIRST_X86_64, Server, ServerCase

HEX = FIRST.replace("-", "")
DSYM = slices_in((CRASH / "spool-1.dSYM").read_bytes())
SHIPPED = slices_in((CRASH / "spool-1").read_bytes())
PROFILER = "https://profiler.example.com"


def path_of(number: int, kind: str = "executable") -> str:
    return f"/buildid/{number_uuid(number).hex()}/{kind}"


class Slices(ServerCase):
    """Slices, as debuginfod has them, and by the unified layout."""

    def add(self, *made: bytes) -> List[str]:
        """Adds images, and returns their digests."""
        for number, one in enumerate(made):
            self.room.file(f"made/{number}", one)
        self.room.add("made")
        return [slice_words(one)[2] for one in made]

    def test_both_kinds_by_both_layouts(self) -> None:
        server = self.serve()
        for kind, wanted in (("debuginfo", DSYM[1]), ("executable", SHIPPED[1])):
            for path in (f"/buildid/{HEX}/{kind}", f"/buildid/{HEX.upper()}/{kind}", f"/{HEX[:2]}/{HEX[2:]}/{kind}"):
                came = server.ask(path)
                same(path, came.body, wanted)
                same("etag", came.headers["etag"], f'"{slice_words(wanted)[2]}"')
                same("kept", came.headers["cache-control"], "no-cache")
                same("size", came.headers["x-debuginfod-size"], str(len(wanted)))

    def test_head(self) -> None:
        came = self.serve().ask(f"/buildid/{HEX}/debuginfo", method="HEAD")
        same("head", (came.status, came.headers["content-length"], came.body), (200, str(len(DSYM[1])), b""))

    def test_ranges(self) -> None:
        server, size = self.serve(), len(DSYM[1])
        spans = {"0-0": (0, 1), "10-99": (10, 100), f"{size - 5}-": (size - 5, size), "-7": (size - 7, size)}
        for word, (first, end) in spans.items():
            came = server.ask(f"/buildid/{HEX}/debuginfo", headers={"Range": f"bytes={word}"})
            same(word, (came.status, came.body), (206, DSYM[1][first:end]))
            same(word, came.headers["content-range"], f"bytes {first}-{end - 1}/{size}")
        came = server.ask(f"/buildid/{HEX}/debuginfo", headers={"Range": f"bytes={size}-"})
        same("past the end", (came.status, came.headers["content-range"]), (416, f"bytes */{size}"))
        for word in ("bytes=0-1,5-6", "lines=1-2", "bytes=x"):
            same(word, server.ask(f"/buildid/{HEX}/debuginfo", headers={"Range": word}).body, DSYM[1])
        other = {"Range": "bytes=0-0", "If-Range": '"0123"'}
        same("of another one", server.ask(f"/buildid/{HEX}/debuginfo", headers=other).status, 200)

    def test_what_a_client_has(self) -> None:
        server, digest = self.serve(), slice_words(DSYM[1])[2]
        came = server.ask(f"/buildid/{HEX}/debuginfo", headers={"If-None-Match": f'"{digest}"'})
        same("again", (came.status, came.body), (304, b""))
        came = server.ask(f"/buildid/{HEX}/debuginfo?digest={digest}")
        same("by its digest", came.body, DSYM[1])
        self.assertIn("immutable", came.headers["cache-control"])

    def test_what_is_not_there(self) -> None:
        server = self.serve()
        absent = "00112233445566778899aabbccddeeff"
        said = f"no slice answers as debuginfo of {uuid.UUID(absent)}"
        self.refuses(server.ask(f"/buildid/{absent}/debuginfo"), 404, said)
        for path in (f"/buildid/{FIRST}/debuginfo", "/buildid/xyz/debuginfo", f"/buildid/{HEX}0/debuginfo"):
            self.refuses(server.ask(path), 400)
        for path in (f"/buildid/{HEX}/source", f"/buildid/{HEX}/debuginfo/more", f"/buildid/../{HEX}/debuginfo"):
            same(path, server.ask(path).status, 404)
        self.refuses(server.ask(f"/buildid/{HEX}/debuginfo?digest=12"), 400)
        self.refuses(server.ask(f"/buildid/{HEX}/debuginfo?arch=arm65"), 400)
        self.refuses(server.ask(f"/buildid/{HEX}/debuginfo?arch=x86_64"), 404)

    def test_a_conflict(self) -> None:
        made = [image(7, more=b"1"), image(7, more=b"2")]
        digests = self.add(*made)
        server = self.serve()
        came = server.ask(path_of(7))
        number = uuid.UUID(bytes=number_uuid(7))
        self.refuses(came, 409, f"2 slices answer as executable of {number}: ?digest= chooses one")
        same("digests", sorted(line.split(" ")[1] for line in came.lines[1:]), sorted(digests))
        for one, digest in zip(made, digests):
            same(digest, server.ask(f"{path_of(7)}?digest={digest}").body, one)

    def test_two_architectures(self) -> None:
        made = {"arm64": image(8, ARM64), "x86_64": image(8, X86_64)}
        self.add(*made.values())
        server = self.serve()
        came = server.ask(path_of(8))
        self.assertIn("?arch= chooses one", came.text)
        same("status", came.status, 409)
        for arch, one in made.items():
            same(arch, server.ask(f"{path_of(8)}?arch={arch}").body, one)

    def test_a_retired_one(self) -> None:
        (digest,) = self.add(image(9))
        server = self.serve()
        same("before", server.ask(path_of(9)).status, 200)
        self.room.call("retire", self.room.archive, *slice_words(image(9)))
        same("after", server.ask(path_of(9)).status, 404)
        same("after", server.ask(f"{path_of(9)}?digest={digest}").status, 404)
        self.room.call("fold", "--purge", self.room.archive)
        same("after a fold", server.ask(path_of(9)).status, 404)

    def test_one_that_changed(self) -> None:
        """It is not sent, and it is said what to call. The others are."""
        at = self.room.archive.read_bytes().index(DSYM[1])
        change(self.room.archive, at + len(DSYM[1]) - 1)
        server = self.serve()
        said = f"{FIRST} arm64 {slice_words(DSYM[1])[2]} changed since it was added: run symarch-keep check "
        self.refuses(server.ask(f"/buildid/{HEX}/debuginfo"), 503, f"{said}{self.room.archive}")
        same("another one", server.ask(f"/buildid/{HEX}/executable").body, SHIPPED[1])
        self.refuses(server.ask(f"/builds/{FIRST}/dsym"), 503)

    def test_a_stale_archive(self) -> None:
        """Nobody answers by an archive that somebody wrote."""
        with open(self.room.archive, "ab") as file:
            file.write(b"more")
        server, what = self.serve(), "symarch-keep check|is cut short: restore it from a backup"
        for way in (f"/buildid/{HEX}/debuginfo", f"/builds/{FIRST}", "/builds", "/symbols/_x", f"/builds/{FIRST}/dsym"):
            came = server.ask(way)
            same(way, came.status, 503)
            self.assertRegex(came.text, what)
        came = server.ask("/reports", (CRASH / "arm64.crash").read_bytes())
        same("report", came.status, 503)
        self.assertRegex(came.text, what)

    def test_an_archive_that_is_gone(self) -> None:
        server = self.serve()
        for path in self.folder.glob("site.sym*"):
            path.unlink()
        for way in ("/", "/builds", f"/builds/{FIRST}", f"/buildid/{HEX}/debuginfo", "/status"):
            same(way, server.ask(way).status, 503)


class Bundles(ServerCase):
    """A dSYM bundle, as `get` makes it."""

    def test_it_is_that_of_get(self) -> None:
        server = self.serve()
        for number in (FIRST, FIRST_X86_64.upper()):
            self.room.call("get", self.room.archive, number, "--to", f"got-{number}")
            folder = self.folder / f"got-{number}"
            wanted = {str(it.relative_to(folder)): it.read_bytes() for it in folder.rglob("*") if it.is_file()}
            came = server.ask(f"/builds/{number}/dsym")
            with tarfile.open(fileobj=io.BytesIO(came.body)) as tar:
                found = {it.name: self.bytes_in(tar, it) for it in tar.getmembers() if it.isfile()}
            same(number, found, wanted)
            same("type", came.headers["content-type"], "application/x-tar")

    @staticmethod
    def bytes_in(tar: tarfile.TarFile, member: tarfile.TarInfo) -> bytes:
        file = tar.extractfile(member)
        assert file
        return file.read()

    def test_long_names(self) -> None:
        """They stand in the tar as they are."""
        name = "ein-langer-Name-" + "x" * 180
        self.room.begin_anew()
        self.room.file(f"{name}.dSYM/Contents/Resources/DWARF/{name}", (CRASH / "spool-2.dSYM").read_bytes())
        self.room.add(f"{name}.dSYM")
        found = self.serve()
        number = uuid.UUID(slice_words(slices_in((CRASH / "spool-2.dSYM").read_bytes())[0])[0])
        with tarfile.open(fileobj=io.BytesIO(found.ask(f"/builds/{number}/dsym").body)) as tar:
            self.assertIn(f"{name}.dSYM/Contents/Resources/DWARF/{name}", tar.getnames())

    def test_none(self) -> None:
        made = image(5)
        self.room.file("only", made)
        self.room.add("only")
        server = self.serve()
        number = uuid.UUID(bytes=number_uuid(5))
        self.refuses(server.ask(f"/builds/{number}/dsym"), 404, f"the archive has no dSYM of {number}")
        absent = "00112233-4455-6677-8899-aabbccddeeff"
        self.refuses(server.ask(f"/builds/{absent}/dsym"), 404, f"the archive has no dSYM of {absent}")


class Profiled(ServerCase):
    """The names of frames, in version 5."""

    JOB: Dict[str, Any] = {"memoryMap": [["spool", f"{HEX.upper()}0"], ["other", "ABCD"]],
                           "stacks": [[[0, 1040], [1, 5]], [[-1, 7], [0, 0xFFFFFFFF]]]}

    def ask(self, server: Server, said: Any, **how: Any) -> Any:
        body = said if isinstance(said, bytes) else json.dumps(said).encode()
        return server.ask("/symbolicate/v5", body, **how)

    def test_names(self) -> None:
        (result,) = self.ask(self.serve(), {"jobs": [self.JOB]}).json()["results"]
        same("modules", result["found_modules"], {f"spool/{HEX.upper()}0": True, "other/ABCD": False})
        one, other = result["stacks"]
        same("frame", one[0], {"frame": 0, "module": "spool", "module_offset": "0x410", "function": "copy_body",
                               "function_offset": "0xc", "file": "./spool.c", "line": 9})
        same("frame", one[1], {"frame": 1, "module": "other", "module_offset": "0x5"})
        same("frame", other[0], {"frame": 0, "module": "<unknown>", "module_offset": "0x7"})
        self.assertNotIn("function", other[1])

    def test_inlined_functions(self) -> None:
        self.room.add(TOP / "tests/fixtures/lines/arm64-2-dsymutil.dsym")
        asked = {"memoryMap": [["lines", "4C4C441E55553144A16DBC6C720CC8120"]], "stacks": [[[0, 0x3AF]]], "version": 5}
        (((frame,),),) = [it["stacks"] for it in self.ask(self.serve(), asked).json()["results"]]
        same("function", (frame["function"], frame["line"]), ("start", 16))
        same("inlined", [it["function"] for it in frame["inlines"]], ["clamp_low", "clamp", "twice"])

    def test_of_another_form(self) -> None:
        server = self.serve()
        for said, where in (
            (b"{", "the body is no JSON"),
            ([], "the body: expected an object"),
            ({"jobs": {}}, "jobs: expected a list"),
            ({"jobs": [1]}, "jobs[0]: expected an object"),
            ({"jobs": [{}]}, "jobs[0].memoryMap: expected a list"),
            ({"memoryMap": [["a"]]}, "the body.memoryMap[0]: expected [NAME, DEBUG ID]"),
            ({"memoryMap": [], "stacks": [[[0, 1]]]}, "the body.stacks[0][0]: there is no module 0"),
            ({"memoryMap": [], "stacks": [[["0", 1]]]}, "the body.stacks[0][0]: expected [MODULE INDEX, OFFSET]"),
            ({"memoryMap": [], "stacks": [[[-1, 1.5]]]}, "the body.stacks[0][0]: expected [MODULE INDEX, OFFSET]"),
            ({"memoryMap": [], "stacks": [[]] * 100_001}, "the body.stacks: expected 100000 at most"),
            ({"jobs": [0] * 100_001}, "jobs: expected 100000 at most"),
            (b"[" * 100_000, "the body is no JSON"),
        ):
            came = self.ask(server, said)
            same(str(said)[:60], (came.status, came.text[: len(where)]), (400, where))
        wide = {"memoryMap": [["spool", f"{HEX}0"]], "stacks": [[[0, 2**70], [0, -1]]]}
        same("offsets that are none", self.ask(server, wide).status, 200)

    def test_origins(self) -> None:
        server = self.serve("--origin", PROFILER)
        came = self.ask(server, self.JOB, headers={"Origin": PROFILER})
        same("allowed", (came.status, came.headers["access-control-allow-origin"]), (200, PROFILER))
        asked = {"Origin": PROFILER, "Access-Control-Request-Method": "POST"}
        came = server.ask("/symbolicate/v5", method="OPTIONS", headers=asked)
        same("asked before", (came.status, came.headers["access-control-allow-methods"]), (204, "POST"))
        for path, body in (("/symbolicate/v5", b"{}"), ("/reports", b"x")):
            came = server.ask(path, body, headers={"Origin": "https://evil.example.com"})
            same(path, (came.status, "access-control-allow-origin" in came.headers), (403, False))
        came = server.ask("/reports", b"x", headers={"Origin": PROFILER})
        same("elsewhere", came.status, 403)


class Rooms(ServerCase):
    """What a server that was killed leaves, the next one removes."""

    def test_after_a_kill(self) -> None:
        server = self.serve()
        same("status", server.ask("/status").status, 200)
        folder = pathlib.Path(self.folder, "temporary")
        same("rooms", len(os.listdir(folder)), 1)
        server.end(9)
        same("rooms that are left", len(os.listdir(folder)), 1)
        other = self.serve()
        same("rooms", len(os.listdir(folder)), 1)
        same("status", other.ask("/status").status, 200)
