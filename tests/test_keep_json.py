"""`symarch-keep --json`: an object for each line, compared with it, and an `end`."""
import json
import os
import pathlib
from typing import Any, Dict, List, Tuple

from .support.cases import same
from .support.made_images import archive, image, slice_words, universal
from .support.packed_files import zipped
from .support.rooms import RoomCase, change
from .support.sites import DATE, Site

Objects = List[Dict[str, Any]]
RECORD = ["type", "record", "uuid", "arch", "digest"]
# The members of each last object, before `faults` and `status`.
ENDS = {
    "add": ["added", "known", "retired", "refused", "passed_over", "made", "dry_run"],
    "list": ["builds"],
    "check": ["slices", "retirements", "wrong"],
    "status": ["images", "companions", "retirements", "conflicts", "bytes", "today", "levels", "waiting"]
    + ["sites", "conflicting", "lost", "left"],
}


class JsonCase(RoomCase):
    """Words by --json, and as lines."""

    def objects(self, *words: Any, status: int = 0, **more: Any) -> Tuple[Objects, Dict[str, Any], List[str]]:
        """The objects of a word, its end, whose members stand in their order, and the lines on standard error."""
        out, errors = self.room.call(words[0], "--json", *words[1:], status=status, **more)
        *found, end = [json.loads(line) for line in out]
        same(f"members of {words[0]}", [*end], ["type", *ENDS[words[0]], "faults", "status"])
        same(f"end of {words[0]}", (end["type"], end["status"]), ("end", status))
        return found, end, errors

    def record(self, made: bytes, kind: str = "slice") -> Dict[str, str]:
        return dict(zip(RECORD[1:], [kind, *slice_words(made)]))


class Added(JsonCase):
    """`add`."""

    seconds = 6

    def test_each_type(self) -> None:
        self.room.file("many/a", image(1))
        self.room.file("many/b", universal([image(2), image(1)]))
        self.room.file(b"many/c\xff\n\\", image(3))
        self.room.file("many/cut", image(4)[:-1])
        self.room.file("many/text", b"text")
        self.room.call("retire", "--before-it-comes", self.new(), *slice_words(image(2)))
        found, end, errors = self.objects("add", "--verbose", self.room.archive, "many", status=2)
        plain: Dict[str, Any] = {"path_hex": None}
        size = len(image(1))
        other = {"path": "many/c\ufffd\n\\", "path_hex": b"many/c\xff\n\\".hex()}
        cut = "Slice(0, Image(CommandsOutside))"
        why = next(it["why"] for it in found if it["type"] == "refused")
        self.assertIn(cut.partition("(")[0], why)
        same("objects", found, [
            {"type": "added", **self.record(image(1)), "bytes": size, "path": "many/a", **plain},
            {"type": "retired", **self.record(image(2)), "bytes": size, "path": "many/b", **plain},
            {"type": "known", **self.record(image(1)), "bytes": size, "path": "many/b", **plain},
            {"type": "added", **self.record(image(3)), "bytes": size, **other},
            {"type": "passed_over", "path": "many/text", **plain, "part": None, "why": "other files"},
            {"type": "refused", "path": "many/cut", **plain, "why": why},
        ])
        counts = {"added": 2, "known": 1, "retired": 1, "refused": 1, "passed_over": {"other files": 1}}
        fault = f"many/cut: {why}"
        self.assertIn(f"symarch-keep: {fault}", errors)
        last = {"made": False, "dry_run": False, "faults": [fault], "status": 2}
        same("end", end, {"type": "end", **counts, **last})

    def new(self) -> Any:
        self.room.archive.write_bytes(archive([]))
        return self.room.archive

    def test_the_lines(self) -> None:
        """The objects have the words of the lines, and standard error has the same."""
        self.room.make_many(3)
        self.room.file("a.zip", zipped({"x/one": image(7)}))
        words = "add", "--dry-run", self.room.archive, "many", "a.zip"
        lines, errors = self.room.call(*words)
        found, end, said = self.objects(*words)
        names = ("type", "uuid", "arch", "digest", "path")
        same("lines", [" ".join(one[name] for name in names) for one in found], lines)
        same("errors, end", (said, end["dry_run"], end["made"]), (errors, True, False))
        same("made", self.objects("add", self.room.archive, "many")[1]["made"], True)

    def test_nothing_and_what_was_named(self) -> None:
        self.room.file("text", b"<html>")
        found, end, errors = self.objects("add", self.room.archive, "text", status=1)
        same("objects", [(it["type"], it["path"]) for it in found], [("passed_over", "text")])
        same("why", f"symarch-keep: text: {found[0]['why']}", errors[0])
        same("faults", end["faults"], [])

    def test_what_fails(self) -> None:
        """The end has what is not known as null, and the words on standard error."""
        self.room.file("one", image(1))
        self.room.file("site.sym", b"no archive")
        words: Dict[str, List[str]] = {"add": ["one"], "status": [], "check": [], "list": []}
        for word, more in words.items():
            status = 2 if word == "list" else 4
            out, errors = self.room.call(word, "--json", self.room.path / "gone/a.sym", *more, status=status)
            said = errors[0].partition(": ")[2]
            nothing = dict.fromkeys(ENDS[word])
            wanted = {"type": "end", **nothing, "faults": [said], "status": status}
            same(word, [json.loads(it) for it in out], [wanted])
        same("wrong words", self.room.call("add", "--json", "--no", status=3)[0], [])
        same("another order", self.room.call("add", "--json", "one", "gone.sym", status=3)[0], [])


class Stated(JsonCase):
    """`status`, `check` and `list`."""

    seconds = 8

    def test_status(self) -> None:
        self.room.make_many(2)
        self.room.add("many")
        west = Site(self.room, "west")
        west.exchange()
        self.room.call("exchange", self.room.archive, west.folder, "east")
        found, end, errors = self.objects("status", self.room.archive)
        same("objects, errors", (found, errors), ([], []))
        (site,) = end["sites"]
        same("site", ([*site], site["name"], site["joined"]), (["name", "asked", "answered", "joined"], "west", None))
        self.assertRegex(site["asked"], f"^{DATE}$")
        lines = dict(it.split(" ", 1) for it in self.room.call("status", self.room.archive)[0])
        numbers = {name: int(lines[name]) for name in ("images", "companions", "retirements", "conflicts", "bytes")}
        same("numbers", {name: end[name] for name in numbers}, numbers)
        same("today", (end["today"], end["lost"], end["left"]), (int(lines.get("today", 0)), [], []))
        same("levels", (end["levels"], end["waiting"]), (0, int(lines.get("waiting", 0))))

    def test_what_is_lost_and_left(self) -> None:
        self.room.make_many(2)
        self.room.add("many")
        self.room.archive.write_bytes(archive([image(1)]))
        self.room.call("fold", self.room.archive, status=2)
        (self.room.path / "site.sym.making-x").mkdir()
        _, end, _ = self.objects("status", self.room.archive, status=2)
        same("lost", end["lost"], [self.record(image(0))])
        left = str(self.room.path / "site.sym.making-x")
        same("left", end["left"], [{"path": left, "path_hex": None}])
        same("faults", end["faults"], [f"lost {' '.join(slice_words(image(0)))}"])
        found, _, _ = self.objects("check", self.room.archive, status=2)
        nowhere = {"at": None, "path": None, "path_hex": None}
        same("check", found, [{"type": "lost", **self.record(image(0)), **nowhere}])

    def test_check(self) -> None:
        self.room.make_many(2)
        self.room.add("many")
        found, end, _ = self.objects("check", self.room.archive)
        same("good", (found, end["slices"], end["wrong"], end["faults"]), ([], 2, 0, []))
        change(self.room.archive, 8 + 33 + 40)
        change(self.room.archive, self.room.archive.stat().st_size - 1)
        change(pathlib.Path(f"{self.room.archive}.idx"), 8)
        change(pathlib.Path(f"{self.room.archive}.today.idx"), 20)
        lines, errors = self.room.call("check", self.room.archive, status=2)
        found, end, said = self.objects("check", self.room.archive, status=2)
        file = {"path": str(self.room.archive), "path_hex": None}
        types = [(it["type"], it["record"], it["at"]) for it in found]
        same("types", types, [tuple(self.of_line(line)) for line in lines])
        same("files", [it["path"] for it in found][:2], [file["path"]] * 2)
        same("end", (end["wrong"], end["slices"], said), (len(lines), 2, errors))

    @staticmethod
    def of_line(line: str) -> List[Any]:
        word, *more = line.split(" ")
        kind = more.pop(0) if more[0] == "table" else "slice"
        return [word, kind, int(more[3])] if len(more) == 5 else [word, None, None]

    def test_list(self) -> None:
        self.room.make_many(2)
        self.room.add("many")
        found, end, _ = self.objects("list", self.room.archive)
        lines = self.room.call("list", self.room.archive)[0]
        for line, one in zip(lines, found):
            day, app, version, build, uuid, arch, size, kind, name = line.split(" ")
            texts = [None if it == "?" else it for it in (day, app, version, build, name)]
            members = dict(zip(("type", "day", "app", "version", "build", "name"), ["build", *texts]))
            whole = {**members, "uuid": uuid, "arch": arch, "bytes": int(size), "dsym": kind == "dsym", "answering": 1}
            same("object", one, whole)
        same("end", (len(found), end["builds"]), (2, 2))
        same("none", self.objects("list", "--app", "no", self.room.archive, status=1)[0], [])

    def test_quiet(self) -> None:
        """Nothing where nothing is wrong, and all else."""
        self.room.make_many(2)
        same("add", self.room.call("add", "--json", "--quiet", self.room.archive, "many"), ([], []))
        for word in ("status", "check"):
            same(word, self.room.call(word, "--json", "--quiet", self.room.archive), ([], []))
        change(self.room.archive, 8 + 33 + 40)
        came = self.room.call("check", "--json", "--quiet", self.room.archive, status=2)
        same("check", came, self.room.call("check", "--json", self.room.archive, status=2))

    def test_a_full_disk(self) -> None:
        """It is said once."""
        self.room.make_many(2)
        self.room.add("many")
        change(self.room.archive, 8 + 33 + 40)
        with open("/dev/full", "wb") as full:
            with self.room.start("check", "--json", self.room.archive, stdout=full) as process:
                errors = process.communicate()[1].decode().splitlines()
        told = "symarch-keep: standard output: No space left on device"
        same("status, errors", (process.returncode, errors.count(told), len(errors)), (2, 1, 2))

    def test_nobody_reads(self) -> None:
        self.room.make_many(1)
        self.room.add("many")
        for word in ("status", "check", "list"):
            reader, writer = os.pipe()
            os.close(reader)
            with self.room.start(word, "--json", self.room.archive, stdout=writer) as process:
                os.close(writer)
                errors = process.communicate()[1].decode().splitlines()
            same(word, (process.returncode, [it for it in errors if "nothing changed" not in it]), (2, []))
