"""A month of lookups and scripts: `--json` of each command, `has`, offsets and decimal addresses, parts of names.
Addresses and names are those that `llvm-nm` prints of examples/crash, and what the program prints of whole names."""
import json
import plistlib
import shutil
from typing import Any, Dict, List, Tuple

from .support import kept_lines
from .support.cases import same
from .support.made_dsyms import companion
from .support.made_images import image, slice_words, slices_in
from .support.program import TOP, call, symarch
from .support.rooms import RoomCase, bytes_of, change, today_of
from .support.sites import Site

CRASH = TOP / "examples" / "crash"
UUID, SECOND = "4c4c4419-5555-3144-a1d2-4341c97782f0", "4c4c4435-5555-3144-a1b5-8515a36e45e9"
TEXT = {"segment": "__TEXT", "section": "__text"}
Objects = List[Dict[str, Any]]
NOTHING: Dict[str, Any] = {"function": None, "offset": None, "segment": None, "section": None, "file": None,
                           "line": None, "inlined": []}  # fmt: skip


def slice_of(name: str, arch: str = "arm64") -> bytes:
    """The slice of a file for an architecture."""
    found = {slice_words(one)[1]: one for one in slices_in((CRASH / name).read_bytes())}
    return found[arch]


def symbol_line(it: Dict[str, Any]) -> str:
    """The line of an object of a symbol."""
    return f"{it['uuid']} {it['arch']} {it['digest']} {it['address']} ({it['segment']},{it['section']})"


class LookupCase(RoomCase):
    """A site of version 1 with its dSYM."""

    def setUp(self) -> None:
        super().setUp()
        for name in ("spool-1", "spool-1.dSYM"):
            self.room.call("add", self.room.archive, CRASH / name)

    def objects(self, *words: Any, status: int = 0, **more: Any) -> Tuple[Objects, Dict[str, Any]]:
        """The objects of a command, and its end. Standard error is as without --json."""
        out, _ = self.room.call(words[0], "--json", *words[1:], status=status, **more)
        *found, end = [json.loads(line) for line in out]
        same("end", (end["type"], end["status"]), ("end", status))
        return found, end

    def record(self, made: bytes) -> Dict[str, str]:
        return dict(zip(("record", "uuid", "arch", "digest"), ("slice", *slice_words(made))))


class AsJson(LookupCase):
    """Each command that had no --json before."""

    seconds = 10

    def test_find(self) -> None:
        found, end = self.objects("find", self.room.archive, UUID)
        lines = self.room.call("find", self.room.archive, UUID)[0]
        same("lines", [f"{it['arch']} {it['kind']} {it['digest']}" for it in found], lines)
        wanted = {"type": "found", "kind": "dsym", "uuid": UUID, "arch": "arm64",
                  "digest": slice_words(slice_of("spool-1.dSYM"))[2], "answering": None}  # fmt: skip
        self.assertIn(wanted, found)
        same("end", end, {"type": "end", "found": 2, "faults": [], "status": 0})
        self.room.file("signed", slice_of("spool-1.dSYM")[:-1] + b"\1")
        self.room.call("add", self.room.archive, "signed")
        found, _ = self.objects("find", self.room.archive, UUID)
        conflict = {"type": "found", "kind": "conflict", "uuid": UUID, "arch": "arm64", "digest": None, "answering": 2}
        self.assertIn(conflict, found)
        same("none", self.objects("find", self.room.archive, SECOND, status=1)[0], [])

    def test_symbolicate(self) -> None:
        words = "symbolicate", self.room.archive, UUID, "arm64", "0x100000410", "0", "0x1000003f8"
        found, end = self.objects(*words, status=1)
        address = {"type": "address", "held": True, "several": []}
        body, message = ({**NOTHING, **TEXT, "function": name, "offset": offset}
                         for name, offset in (("_copy_body", 12), ("_file_message", 32)))  # fmt: skip
        same("objects", found, [
            {**address, "address": "0x0000000100000410", **body},
            {**address, "address": "0x0000000000000000", **NOTHING},
            {**address, "address": "0x00000001000003f8", **message},
        ])
        same("end", end, {"type": "end", "addresses": 3, "named": 2, "faults": [], "status": 1})
        found, _ = self.objects("symbolicate", "--lines", *words[1:], status=1)
        same("line", (found[0]["file"].rpartition("/")[2], found[0]["line"]), ("spool.c", 9))
        found, _ = self.objects("symbolicate", self.room.archive, SECOND, "arm64", "0", status=1)
        same("not held", found, [{**address, "held": False, "address": "0x0000000000000000", **NOTHING}])

    def test_symbolicate_with_inlined_functions(self) -> None:
        """As `llvm-symbolizer` says of the same address."""
        kept = next(one for one in kept_lines.kept() if one.name == "arm64-2-dsymutil")
        first, _, lines = next(span for span in kept.said.spans if len(span[2]) > 1)
        self.room.call("add", self.room.archive, kept_lines.SOURCES / "arm64-2-dsymutil.dsym")
        words = slice_words((kept_lines.SOURCES / "arm64-2-dsymutil.dsym").read_bytes())
        found, _ = self.objects("symbolicate", "--lines", self.room.archive, words[0], words[1], hex(first))
        (one,) = found
        frames = [*one["inlined"], {"function": one["function"][1:], "file": one["file"], "line": one["line"]}]
        said = [f"{it['function']} at {it['file']}:{it['line']}" for it in frames]
        same("frames", said, [line.strip().rpartition(":")[0] for line in lines])

    def test_several(self) -> None:
        other = slice_of("spool-1.dSYM").replace(b"_copy_body\0", b"_copy_bodY\0")
        self.room.file("other", other)
        self.room.call("add", self.room.archive, "other")
        found, end = self.objects("symbolicate", self.room.archive, UUID, "arm64", "100000410", status=1)
        (one,) = found
        came = [(it["digest"], it["function"], it["offset"]) for it in one["several"]]
        wanted = [(slice_words(made)[2], name, 12) for made, name in
                  ((slice_of("spool-1.dSYM"), "_copy_body"), (other, "_copy_bodY"))]  # fmt: skip
        same("several", sorted(came), sorted(wanted))
        same("none is named", (one["held"], one["function"], end["named"]), (True, None, 0))

    def test_name(self) -> None:
        found, end = self.objects("name", self.room.archive, "_copy_body")
        lines = self.room.call("name", self.room.archive, "_copy_body")[0]
        said = list(map(symbol_line, found))
        same("lines", said, lines)
        same("name", {it["name"] for it in found}, {"_copy_body"})
        same("end", end, {"type": "end", "symbols": len(lines), "faults": [], "status": 0})

    def test_get(self) -> None:
        """What is written, what is there, and what is undecided."""
        for word in ("got", "known"):
            found, end = self.objects("get", self.room.archive, UUID, SECOND, "--to", "debug", status=1)
            types = {(it["type"], it["arch"]) for it in found}
            same(word, types, {(word, "arm64"), (word, "x86_64")})
            counts = {"got": 0, "known": 0, "conflict": 0, word: len(found), "absent": 1}
            same("end", {key: end[key] for key in counts}, counts)
        made = slice_of("spool-1.dSYM")
        path = "debug/spool-1.dSYM.dSYM/Contents/Resources/DWARF/spool-1.dSYM"
        self.assertIn({"type": "known", **self.record(made), "path": path, "path_hex": None}, found)
        self.room.file("signed", made[:-1] + b"\1")
        self.room.call("add", self.room.archive, "signed")
        found, _ = self.objects("get", self.room.archive, UUID, "--to", "other", status=1)
        self.assertIn({"type": "conflict", **self.record(made), "path": None, "path_hex": None}, found)

    def test_retire(self) -> None:
        made = slice_of("spool-1")
        for word, count in (("retired", 1), ("known", 0)):
            found, end = self.objects("retire", self.room.archive, *slice_words(made))
            same(word, found, [{"type": word, **self.record(made)}])
            rest = {"staying": 0, "dry_run": False, "faults": [], "status": 0}
            same("end", end, {"type": "end", "retired": count, **rest})
        names = [it["name"] for it in self.objects("list", self.room.archive)[0]]
        same("names", set(names), {"spool-1", "spool-1.dSYM"})
        none = "--app", "com.example.none", "--before", "2026-01-01"
        _, end = self.objects("retire", *none, self.room.archive, status=1)
        same("null", (end["retired"], end["staying"], len(end["faults"])), (None, None, 1))

    def test_retire_an_app(self) -> None:
        stated = {"CFBundleIdentifier": "com.example.spool", "CFBundleVersion": "2"}
        self.room.file("Spool.app/Info.plist", plistlib.dumps(stated))
        self.room.file("Spool.app/Spool", image(3))
        self.room.call("add", self.room.archive, "Spool.app")
        words = "retire", "--dry-run", "--app", "com.example.spool", "--build", "2", self.room.archive
        found, end = self.objects(*words)
        lines = self.room.call(*words)[0]
        said = [" ".join(str(it[key] or "?") for key in ("type", "uuid", "arch", "digest", "day", "app", "version",
                                                         "build", "name")) for it in found]  # fmt: skip
        same("lines", said, lines)
        same("version", found[0]["version"], None)
        same("end", (end["retired"], end["dry_run"]), (1, True))

    def test_exchange(self) -> None:
        """Each line of two sites, as an object."""
        west = Site(self.room, "west")
        west.add(image(7))
        words = "exchange", self.room.archive, west.folder, "east"
        types: Dict[str, Dict[str, Any]] = {}
        for _ in range(3):
            west.exchange()
            found, end = self.objects(*words)
            types.update({it["type"]: it for it in found})
        keys = {"added": ["record", "uuid", "arch", "digest", "site"], "asked": ["file"], "told": ["file"],
                "answered": ["site", "file"], "named": ["site", "names"]}  # fmt: skip
        same("keys", {kind: [*it][1:] for kind, it in types.items()}, keys)
        same("added", types["added"], {"type": "added", **self.record(image(7)), "site": "west"})
        self.assertTrue((west.folder / types["told"]["file"]).exists())
        same("named", (types["named"]["site"], types["named"]["names"]), ("west", 1))
        wanted = {"added": 0, "retired": 0, "answered": 0, "not_whole": 0, "refused": 0, "lost": 0}
        same("end", {key: end[key] for key in wanted}, wanted)
        self.assertRegex(types["asked"]["file"], r"^east\.asks\.[0-9T]+")

    def test_what_fails(self) -> None:
        """The end of each has what is not known as null."""
        gone = self.folder / "gone" / "a.sym"
        for words, status in (
            (["find", gone, UUID], 2), (["symbolicate", gone, UUID, "arm64", "0"], 2), (["name", gone, "_a"], 2),
            (["has", gone, UUID], 2), (["get", gone, UUID, "--to", "debug"], 2),
            (["retire", gone, *slice_words(image(1))], 4), (["exchange", gone, "nowhere", "east"], 4),
        ):  # fmt: skip
            found, end = self.objects(*words, status=status)
            values = {value for key, value in end.items() if key not in ("type", "faults", "status")}
            same(f"{words[0]}", (found, values, len(end["faults"])), ([], {None}, 1))


class Has(LookupCase):
    """Which dSYMs are there."""

    seconds = 4

    def has(self, *uuids: str, status: int = 1, words: Any = ()) -> List[str]:
        return self.room.call("has", *words, self.room.archive, *uuids, status=status)[0]

    def test_each_answer(self) -> None:
        """A dSYM whose DWARF has no units is one without lines."""
        stripped, alone = companion({"info": b""}, [(0x100000400, 16)], number=31), image(32)
        lines = companion({"info": b"\0" * 8}, [(0x100000400, 16)], number=33)
        for name, made in (("stripped", stripped), ("alone", alone), ("lines", lines)):
            self.room.file(name, made)
            self.room.call("add", self.room.archive, name)
        number, other, third = (slice_words(made)[0] for made in (stripped, alone, lines))
        same("all", self.has(UUID, status=0), [f"dsym {UUID}"])
        same("each", self.has(number, UUID, SECOND, other, third), [
            f"no-dwarf {number}", f"dsym {UUID}", f"absent {SECOND}", f"image {other}", f"dsym {third}",
        ])
        out, _ = self.room.call("has", "--json", self.room.archive, number, UUID, status=1)
        same("objects", [json.loads(it) for it in out], [
            {"type": "has", "uuid": number, "held": "no-dwarf"}, {"type": "has", "uuid": UUID, "held": "dsym"},
            {"type": "end", "dsym": 1, "no_dwarf": 1, "image": 0, "absent": 0, "faults": [], "status": 1},
        ])  # fmt: skip

    def test_one_that_is_retired(self) -> None:
        self.room.call("retire", self.room.archive, *slice_words(slice_of("spool-1.dSYM")))
        same("retired", self.has(UUID), [f"image {UUID}"])
        self.room.call("retire", self.room.archive, *slice_words(slice_of("spool-1")))
        same("both", self.has(UUID), [f"absent {UUID}"])

    def test_of_two_architectures_the_least_counts(self) -> None:
        made = slice_of("spool-1")
        self.room.file("arm64e", made[:8] + b"\2" + made[9:])
        self.room.call("add", self.room.archive, "arm64e")
        same("least", self.has(UUID), [f"image {UUID}"])

    def test_without_an_index(self) -> None:
        self.room.begin_anew(bytes_of(self.room.archive))
        same("by its records", self.has(UUID, status=0), [f"dsym {UUID}"])
        same("forms", self.room.call("has", self.room.archive, "4c4c", status=3)[1],
             ["symarch-keep: UUID is `4c4c`: expected 32 hex digits, with or without hyphens"])


class Addresses(LookupCase):
    """Addresses as reports and MetricKit have them, and names as reports print them."""

    seconds = 5

    def symbolicated(self, *words: str, status: int = 0) -> List[str]:
        options, addresses = [it for it in words if it[0] == "-"], [it for it in words if it[0] != "-"]
        return self.room.call("symbolicate", *options, self.room.archive, UUID, "arm64", *addresses, status=status)[0]

    def test_offsets_and_decimal_numbers(self) -> None:
        """`imageOffset` and `offsetIntoBinaryTextSegment` are decimal, and so is `address` of MetricKit."""
        said = "_copy_body + 12 (__TEXT,__text)"
        for words, address in (
            (["--offset", "1040"], 0x410), (["--offset", "0x410"], 0x410),
            (["--decimal", str(0x100000410)], 0x100000410),
            (["--decimal", "--load=0x104d38000", "4375938064"], 0x104D38410),
            (["--decimal", f"--load={0x104d38000}", "4375938064"], 0x104D38410),
            (["--decimal", "0x100000410"], 0x100000410), (["100000410"], 0x100000410),
        ):  # fmt: skip
            same(f"{words}", self.symbolicated(*words), [f"0x{address:016x} {said}"])

    def test_faults_of_words(self) -> None:
        decimal = "expected a decimal number below 2^64, or hex digits after 0x"
        for words, told in (
            (["--offset", "4a"], f"ADDRESS is `4a`: {decimal}"),
            (["--decimal", str(2**64)], f"ADDRESS is `{2**64}`: {decimal}"),
            (["--decimal", "--load=1f", "1"], f"HEX is `1f`: {decimal}"),
            (["--offset", "--load=0", "1"],
             "an --offset is the same wherever the image was loaded, so --load may not be used with it"),
        ):  # fmt: skip
            options, addresses = [it for it in words if it[0] == "-"], [it for it in words if it[0] != "-"]
            _, errors = self.room.call("symbolicate", *options, self.room.archive, UUID, "arm64", *addresses, status=3)
            same(f"{words}", errors, [f"symarch-keep: {told}"])

    def test_names_as_reports_have_them(self) -> None:
        same("C", self.symbolicated("--demangle", "100000410"), ["0x0000000100000410 copy_body + 12 (__TEXT,__text)"])
        lines = self.symbolicated("--demangle", "--lines", "100000410")
        plain = self.symbolicated("--lines", "100000410")
        same("lines", [lines[0], *lines[1:]], [plain[0].replace("_copy_body", "copy_body"), *plain[1:]])
        same("none", self.symbolicated("--demangle", "0", status=1), ["0x0000000000000000 -"])

    def test_each_language(self) -> None:
        """What `c++filt` says of C++, and that Swift needs its own command, once."""
        names = [b"__ZN5spool4copyEv", b"_$s5spool4copyyyF", b"_$s5spool4moveyyF"]
        code = [(0x100000400, 64)]
        made = companion({}, code, "arm64", 40, [(name, 0x100000400 + 16 * at) for at, name in enumerate(names)])
        self.room.file("made", made)
        self.room.call("add", self.room.archive, "made")
        tools = self.folder / "tools"
        tools.mkdir()
        for tool in ("c++filt", "sh", "env", "python3"):
            (tools / tool).symlink_to(shutil.which(tool) or "")
        uuid, arch, _ = slice_words(made)
        addresses = [hex(0x100000404 + 16 * at) for at in range(3)]
        words = "symbolicate", "--demangle", self.room.archive, uuid, arch, *addresses
        out, errors = self.room.call(*words, environment={"PATH": str(tools)})
        same("names", [it.split(" ", 1)[1].rpartition(" + ")[0] for it in out],
             ["spool::copy()", "$s5spool4copyyyF", "$s5spool4moveyyF"])
        same("said", errors, ["symarch-keep: names of Swift stay as they are: install Swift, whose `swift demangle` "
                              "makes them readable"])  # fmt: skip


class Parts(LookupCase):
    """Names by a part of them."""

    seconds = 6

    def part(self, text: str, status: int = 0, *words: Any) -> List[str]:
        return self.room.call("name", "--part", *words, self.room.archive, "--", text, status=status)[0]

    def whole(self, *names: str) -> List[str]:
        """The lines of the program for whole names, each with its name."""
        self.room.call("fold", "--all", self.room.archive)
        return [f"{line} {name}" for name in names for line in call([symarch, "name", self.room.archive, name]).lines]

    def test_as_whole_names(self) -> None:
        """Each line is the one of the whole name, in the order of their slices and addresses."""
        for part, names in (
            ("copy", ["_copy_body"]), ("shel", ["_shelf_letters", "_shelf_of", "_shelves"]), ("_start", ["_start"]),
            ("_o", ["_shelf_of", "_spool_one"]), ("spool_one", ["_spool_one"]),
        ):  # fmt: skip
            came = self.part(part)
            same(part, sorted(came), sorted(self.whole(*names)))
            first = [it.split(" ")[:4] for it in came]
            same("order", first, sorted(first, key=self.order))
        same("none", self.part("Copy", 1), [])

    @staticmethod
    def order(words: List[str]) -> Any:
        uuid, arch, digest, address = words
        return uuid, {"x86_64": 0, "arm64": 1}[arch], digest, address

    def test_across_files_and_retired_ones(self) -> None:
        self.room.call("fold", self.room.archive)
        self.room.call("add", self.room.archive, CRASH / "spool-2.dSYM")
        made = slice_of("spool-1.dSYM")
        self.room.call("retire", self.room.archive, *slice_words(made))
        came = self.part("copy_b")
        same("slices", {it.split(" ")[2] for it in came} & {slice_words(made)[2]}, set())
        same("lines", sorted(came), sorted(self.whole("_copy_body")))

    def test_a_slice_that_changed(self) -> None:
        today = today_of(self.room.archive) if today_of(self.room.archive).stat().st_size > 100 else self.room.archive
        change(today, today.read_bytes().index(b"_copy_body") + 1)
        out, errors = self.room.call("name", "--part", self.room.archive, "dopy", status=None)
        self.assertEqual(out, [])
        out, errors = self.room.call("name", "--part", self.room.archive, "_body", status=2)
        self.assertIn("changed since it was added: run symarch-keep check", errors[0])

    def test_hostile_names(self) -> None:
        """Names that are no text, very long ones, and those that share their ends."""
        long = b"_" + b"part" * 2_000
        names = [(b"_a\x1bpart\n", 0x100000400), (long, 0x100000410), (b"_p\xffend", 0x100000420)]
        self.room.file("made", companion({}, [(0x100000400, 64)], "arm64", 50, names))
        self.room.call("add", self.room.archive, "made")
        came = [line.split(" ", 5)[5] for line in self.part("part")]
        same("names", came, ["_a\\x1bpart\\x0a", long.decode()[:4096]])
        same("no text", [line.split(" ", 5)[5] for line in self.part("end")], ["_p\\xffend"])
        same("refused", self.room.call("name", "--part", self.room.archive, "", status=3)[1],
             ["symarch-keep: NAME is ``: expected a part of a name"])

    def test_as_json(self) -> None:
        out, _ = self.room.call("name", "--part", "--json", self.room.archive, "copy")
        *found, end = [json.loads(it) for it in out]
        lines = self.part("copy")
        said = [f"{symbol_line(it)} {it['name']}" for it in found]
        same("objects", (said, end["symbols"]), (lines, len(lines)))
