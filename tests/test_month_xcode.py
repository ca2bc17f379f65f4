"""A month with Xcode: crash points of its Organizer, the libraries of a device, reports that are read again with names,
and the most wanted dSYMs. Names are those of `tests/expected/reports`."""
import json
import re
import shutil
import struct
import uuid
from typing import Any, Dict, List

from .support import kept_lines
from .support.cases import same
from .support.made_images import ARM64E, DYLIB, image, slice_words
from .support.reports import CRASHES, DYLD, FIXTURES, FORMS, KERNEL, SPOOL, SPOOL_2, SPOOL_X86_64, ReportCase, named
from .support.reports import program, source
from .support.rooms import RoomCase

POINT = "Crashes/Points/9F1C.xccrashpoint"
LOG = "2026-11-20_09-14-02.1530_+0000-4a5b.crash"
# What Xcode has beside the reports of a crash point: which filters there are, and what it is about.
BESIDE = {"PointInfo.json": '{"identifier": "9F1C", "title": "copy_body + 12"}',
          "Filters/Filter_1/FilterInfo.json": '{"filter": {"version": "2.1 (210)"}, "logs": ["1"]}'}  # fmt: skip
BY_DSYM = f"4 of 4 frames named, 0 named before, 0 not named; by dSYM: spool {SPOOL} arm64"


class Organizer(ReportCase):
    """Crash points as Xcode's Organizer keeps them: reports below each filter that has them, and copies of those that
    Xcode named. Its older versions have `DistributionInfos` in the place of `Filters`."""

    seconds = 8

    def point(self, *filters: str, logs: Any = (LOG,), point: str = POINT) -> None:
        for name, text in BESIDE.items():
            self.file(f"{point}/{name}", text)
        for its in filters:
            for log in logs:
                self.file(f"{point}/{its}/Logs/{log}", source("crash"))

    def test_one_report(self) -> None:
        """It is printed, as it is without the folder, whatever filters list it."""
        for number, filters in enumerate((["Filters/Filter_1"], ["Filters/Filter_1", "Filters/Filter_2"],
                                          ["DistributionInfos/all"])):  # fmt: skip
            with self.subTest(filters):
                point = f"{number}/{POINT}"
                self.point(*filters, point=point)
                self.file(f"{point}/{filters[0]}/Logs/LocallySymbolicated/{LOG}", named("crash"))
                self.prints([point, "shipped"], "crash", *BY_DSYM.split("; "))
                self.prints([f"{point}/", "shipped"], "crash", *BY_DSYM.split("; "))

    def test_one_that_xcode_alone_has(self) -> None:
        self.file(f"{POINT}/Filters/Filter_1/Logs/LocallySymbolicated/{LOG}", named("crash"))
        self.prints([POINT, "shipped"], "crash", *BY_DSYM.split("; "))

    def test_several(self) -> None:
        """They are counted once each, and written as they stand in the folder."""
        logs = [LOG, LOG.replace("4a5b", "4a5c")]
        self.point("Filters/Filter_1", "Filters/Filter_2", logs=logs)
        for log in logs:
            self.file(f"{POINT}/Filters/Filter_1/Logs/LocallySymbolicated/{log}", named("crash"))
        said = f"symbolicate-report: {POINT} has several reports: add --out NEWFOLDER, or --group"
        self.is_refused([POINT, "shipped"], said, status=3)
        first = f"Filters/Filter_1/Logs/{LOG}"
        group = "copy_body (spool); file_message (spool); spool_one (spool)"
        for folder in (POINT, "Crashes"):
            lines = self.report("--group", folder, "shipped").lines
            self.assertEqual(lines, [f"2\t{group}\t{POINT}/{first}"])
        made, came = self.written([self.folder / POINT], "shipped")
        self.assertEqual(made, {f"Filters/Filter_1/Logs/{log}": named("crash") for log in logs})
        self.assertEqual(came.status, 0)

    def test_two_points_have_a_report_each(self) -> None:
        """Files of one name in two of them are two reports."""
        self.point("Filters/Filter_1")
        self.point("Filters/Filter_1", point="Crashes/Points/AA00.xccrashpoint")
        lines = self.report("--group", "Crashes", "shipped").lines
        self.assertEqual([line.partition("\t")[0] for line in lines], ["2"])

    def test_none(self) -> None:
        for name, text in BESIDE.items():
            self.file(f"{POINT}/{name}", text)
        self.is_refused([POINT, "shipped"], f"symbolicate-report: {POINT}: no report in this folder")


class Again(ReportCase):
    """A report that has names goes in again, and comes out as it is."""

    seconds = 10

    def again(self, path: Any, archive: Any, option: str) -> None:
        words = [option] if option else []
        once = self.report(*words, path, archive)
        self.assertEqual(once.status, 0, once.errors)
        made = self.file("named", once.out)
        twice = self.report(*words, made, archive)
        self.assertEqual(twice.out.decode(errors="replace"), once.out.decode(errors="replace"), f"{path} {option}")

    def test_each_form(self) -> None:
        for form, (path, archive) in FORMS.items():
            others = {"ips": "--text", "metrickit": "--text", "crash": "--raw", "sample": "--no-lines"}
            for option in ["", *filter(None, [others.get(form)])]:
                with self.subTest(f"{form} {option}"):
                    self.again(path, archive, option)

    def test_with_inlined_functions(self) -> None:
        archive = self.folder / "lines.sym"
        kept = [kept_lines.SOURCES / f"{name}.dsym" for name in ("arm64-2-dsymutil", "x86_64-4-dsymutil")]
        program("admit", self.archives / "empty", archive, *kept)
        for name in ("inlined.crash", "inlined.ips", "inlined.metrickit.json", "inlined.sample.txt",
                     "inlined.spindump.txt", "system.crash", "system.ips", "system.sample.txt",
                     "system.spindump.txt"):  # fmt: skip
            with self.subTest(name):
                self.again(FIXTURES / name, archive, "")

    def test_several_answers(self) -> None:
        for form in ("crash", "ips", "sample", "spindump"):
            with self.subTest(form):
                path = FORMS[form].path
                once = self.report(path, "differ")
                made = self.file("named", once.out)
                self.assertEqual(self.report(made, "differ").out.decode(), once.out.decode())

    def test_of_another_archive(self) -> None:
        """Names stay where the archive has none."""
        for form in ("crash", "ips", "metrickit", "sample", "spindump"):
            with self.subTest(form):
                made = self.file("named", self.report(FORMS[form].path, FORMS[form].archive).out)
                self.assertEqual(self.report(made, "empty").out, made.read_bytes())


class MostWanted(ReportCase):
    """`--missing --counts`, and by --json."""

    seconds = 5

    def test_most_wanted_first(self) -> None:
        """Versions and architectures are those of the reports."""
        ips = source("ips").replace(b'"name" : "spool"', b'"name" : "spool", "CFBundleVersion" : "210",\n'
                                    b'"CFBundleShortVersionString" : "2.1"')  # fmt: skip
        self.file("in/a.ips", ips)
        self.file("in/b.crash", source("crash"))
        self.file("in/x.crash", (CRASHES / "x86_64.crash").read_bytes())
        other = source("mac").replace(SPOOL.encode(), SPOOL_2.encode())
        self.file("in/mac.crash", other.replace(b"(1.0)", b"(3.0 - 300)"))
        self.file("in/mac2.crash", other)
        wanted = [f"2\t{SPOOL}\tarm64\t2.1 (210)\tspool", f"2\t{SPOOL_2}\t?\t3.0 (300)\tSpool Server"]
        lines = self.report("--missing", "--counts", "in", "empty").lines
        self.assertEqual(lines[:2], sorted(wanted))
        rest = [line.split("\t")[:2] for line in lines[2:]]
        self.assertEqual(rest, [["1", SPOOL_X86_64]])
        came = self.report("--missing", "--json", "in", "empty")
        *found, end = [json.loads(line) for line in came.lines]
        texts = ["\t".join([str(it["reports"]), it["uuid"], *(it[key] or "?" for key in ("arch", "version", "name"))])
                 for it in found]  # fmt: skip
        self.assertEqual((texts, {it["type"] for it in found}), (lines, {"missing"}))
        self.assertEqual(end, {"type": "end", "reports": 5, "frames": None, "faults": [], "status": 0})
        plain = self.report("--missing", "in", "empty").lines
        self.assertEqual(sorted(line[:36] for line in plain), sorted(line.split("\t")[1] for line in lines))

    def test_the_version_of_a_process(self) -> None:
        """It is in the header of a report whose list of images has none, as Apple's examples have it."""
        text = source("crash").decode()
        head = "Process:             spool [412]\nIdentifier:          com.example.spool\n"
        text = f"{head}Version:             1 (3.0)\n" + re.sub(r"^(Process|Version):.*\n", "", text, flags=re.M)
        lines = self.report("--missing", "--counts", self.file("a.crash", text), "empty").lines
        self.assertEqual(lines, [f"1\t{SPOOL}\tarm64\t1 (3.0)\tspool"])

    def test_nothing_is_known(self) -> None:
        lines = self.report("--missing", "--counts", FIXTURES / "stackshot.ips", "shipped").lines
        self.assertEqual(lines, sorted(f"1\t{it}\t?\t?\t?" for it in (DYLD, KERNEL)))

    def test_words(self) -> None:
        path = CRASHES / "arm64.crash"
        for words, why in (
            (["--counts"], "--counts needs --missing, without --json"),
            (["--missing", "--counts", "--json"], "--counts needs --missing, without --json"),
            (["--missing", "--frames", "--json"], "--missing allows only --counts or --json"),
            (["--frames"], "--frames needs --json"),
        ):  # fmt: skip
            came = self.report(*words, path, "shipped")
            self.assertEqual((came.status, came.out, came.error_lines[-1]), (3, b"", f"symbolicate-report: {why}"))


class System(RoomCase):
    """The folder of a device that Xcode copies: a few hundred images, and shared caches beside them."""

    seconds = 10
    folder_of_device = "iOS DeviceSupport/iPhone15,2 17.5.1 (21F90)/Symbols"

    def make(self, count: int) -> List[bytes]:
        made = [image(number, ARM64E, DYLIB, bytes(100)) for number in range(count)]
        for number, one in enumerate(made):
            name = (f"System/Library/Frameworks/F{number}.framework/F{number}",
                    f"System/Library/PrivateFrameworks/P{number}.framework/Frameworks/I.framework/I",
                    f"usr/lib/swift/libswift{number}.dylib")[number % 3]  # fmt: skip
            self.room.file(f"{self.folder_of_device}/{name}", one)
        for ending in ("", ".01", ".symbols"):
            cache = f"System/Library/Caches/com.apple.dyld/dyld_shared_cache_arm64e{ending}"
            self.room.file(f"{self.folder_of_device}/{cache}", b"dyld_v1  arm64e\0" + bytes(5_000))
        return made

    def test_a_device(self) -> None:
        """All goes in, caches are passed over, and standard error has a line; the second time nothing is new."""
        made = self.make(300)
        out, errors = self.room.add("iOS DeviceSupport")
        same("lines", len(out), len(made))
        counts = "300 added, 0 known, 0 retired, 0 refused, passed over 3 (other files 3)"
        same("errors", errors, [f"symarch-keep: {counts}"])
        _, errors = self.room.add("iOS DeviceSupport", words=["--quiet"])
        same("quiet", errors, [])
        lines = self.room.call("list", self.room.archive)[0]
        names = {line.split(" ")[4]: line.split(" ")[8] for line in lines}
        same("names", [names[slice_words(made[at])[0]] for at in range(3)], ["F0", "I", "libswift2.dylib"])

    def test_folders_are_looked_at_once(self) -> None:
        """However many images a folder has: by what is asked of the system."""
        if not shutil.which("strace"):
            self.skipTest("there is no strace")
        counts: Dict[int, int] = {}
        for count in (50, 100):
            folder = f"flat-{count}/a/b/c/d/e/f"
            for number in range(count):
                self.room.file(f"{folder}/lib{number}.dylib", image(number, ARM64E, DYLIB))
            trace = self.room.path / f"trace-{count}"
            before = ["strace", "-f", "-qq", "-e", "trace=lstat,newfstatat,readlink", "-o", str(trace)]
            self.room.call("add", "--dry-run", self.room.archive, f"flat-{count}", before=before)
            counts[count] = sum("/e/f\"" in line for line in trace.read_text().splitlines())
        self.assertEqual(counts[50], counts[100])

    def test_names_through_links(self) -> None:
        """A bundle that a link leads to, or that has one in it, says what it did before."""
        self.room.file("real/Kit.framework/Info.plist", b"<plist><dict><key>CFBundleIdentifier</key>"
                       b"<string>com.example.kit</string></dict></plist>")  # fmt: skip
        self.room.file("real/Kit.framework/Kit", image(1, ARM64E, DYLIB))
        self.room.file("plain/other", image(2, ARM64E, DYLIB))
        (self.room.path / "link").symlink_to("real/Kit.framework")
        (self.room.path / "one").symlink_to("real/Kit.framework/Kit")
        for path in ("link", "one", "real/../link", "plain/../real/Kit.framework/Kit"):
            self.room.begin_anew()
            self.room.add(path)
            line = self.room.call("list", self.room.archive)[0][0].split(" ")
            same(path, (line[1], line[8]), ("com.example.kit", "one" if path == "one" else "Kit"))


class SystemFrames(ReportCase):
    """What comes of them in a report: names by an archive of their own."""

    def test_a_report(self) -> None:
        names = [b"_start_of_dyld"]
        made = dyld_of(names)
        system = self.folder / "system.sym"
        program("admit", self.archives / "empty", system, self.file("dyld", made))
        came = self.report(FORMS["ips"].path, "shipped", system)
        frame = json.loads(came.out.partition(b"\n")[2])["threads"][0]["frames"][4]
        self.assertEqual(frame["symbol"], "start_of_dyld")
        self.assertIn(f"without dSYM: dyld {DYLD} arm64e", came.error_lines[-1])


def dyld_of(names: List[bytes]) -> bytes:
    """An image for arm64e of the UUID of dyld with a function for each name, whose code has 32,768 bytes."""
    strings = b"\0" + b"".join(name + b"\0" for name in names)
    text, size = 0x185763000, 0x8000
    section = struct.pack("<16s16sQQI28x", b"__text", b"__TEXT", text, size, 0)
    segment = struct.pack("<II16sQQQQ8xI4x", 0x19, 152, b"__TEXT", text, size, 0, 0, 1) + section
    at = 32 + 152 + 24 + 24
    symtab = struct.pack("<6I", 2, 24, at, len(names), at + 16 * len(names), len(strings))
    identity = struct.pack("<II", 0x1B, 24) + uuid.UUID(DYLD).bytes
    places, entries = 1, b""
    for number, name in enumerate(names):
        entries += struct.pack("<IBBHQ", places, 0x0F, 1, 0, text + 16 * number)
        places += len(name) + 1
    header = struct.pack("<IIIIIIII", 0xFEEDFACF, *ARM64E, DYLIB, 3, at - 32, 0, 0)
    return header + segment + identity + symtab + entries + strings
