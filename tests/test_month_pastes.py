"""A month of reports that people paste into tickets: frames without images, and crashes as pages, logs and other
services print them. Names are those of `tests/expected/reports`."""
import plistlib
import re
import subprocess
import sys
from typing import Any, Callable, Dict, List

from .support import kept_lines
from .support.builds import DWARF
from .support.growth import LONGER, MOST_RATIO, ratio
from .support.program import TOP, call, symarch
from .support.reports import CRASHES, FIXTURES, SPOOL, ReportCase, named, program, source
from .support.rooms import keep
from .test_month_input import MEASURE

BARE = "".join(re.findall(r"^\d .*\n", source("crash").decode(), re.M))
NAMED = "".join(re.findall(r"^\d .*\n", named("crash").decode(), re.M))
GIVEN = f"spool={SPOOL}@0x104d38000"
BY_DSYM = f"4 of 4 frames named, 0 named before, 0 not named; by dSYM: spool {SPOOL}"
APP = {"CFBundleIdentifier": "com.apple.xcode.dsym.com.example.spool",
       "CFBundleShortVersionString": "2.1", "CFBundleVersion": "210"}  # fmt: skip


def after(before: str, text: str) -> str:
    """Lines, each after the same."""
    return "".join(before + line for line in text.splitlines(keepends=True))


# What a page or a log made of a crash.
PASTES: Dict[str, Callable[[str], str]] = {
    "doubled": lambda text: text.replace("\n", "\n\n"),
    "doubled by a mail": lambda text: text.replace("\n", "\r\n\r\n"),
    "doubled in a mail": lambda text: "Hello,\n\n" + after("> ", text.replace("\n", "\n\n")),
    "bullets": lambda text: re.sub(r"^(?=[0-9])", "* ", text, flags=re.M),
    "numbers of a list": lambda text: re.sub(r"^([0-9]) {2}", r"\1. ", text, flags=re.M),
    "a time": lambda text: re.sub("^(?=.)", "2026-11-30 10:00:01.123 ", text, flags=re.M),
    "a time and a process": lambda text: re.sub("^(?=.)", "2026-11-30 10:00:01.1+0100 spool[4:5f] ", text, flags=re.M),
    "a time of a log": lambda text: re.sub("^(?=.)", "Nov  3 10:00:01 phone spool[4]: ", text, flags=re.M),
    "a time in brackets": lambda text: after("[10:00:01] ", text),
    "escapes of a page": lambda text: text.replace("<", "&lt;").replace(">", "&gt;"),
}


class Pastes(ReportCase):
    """What is pasted whole: each copy has the names that the crash has, and is a copy still."""

    def test_each_paste(self) -> None:
        for name, pasted in PASTES.items():
            with self.subTest(name):
                path = self.file("pasted", pasted(source("crash").decode()))
                self.prints([path, "shipped"], pasted(named("crash").decode()).encode(), *BY_DSYM.split("; ")[:1],
                            f"by dSYM: spool {SPOOL} arm64")  # fmt: skip
                self.assertEqual(self.report(path, "empty").out, path.read_bytes())

    def test_lines_of_inlined_functions(self) -> None:
        """They are as the others, and the numbers after them are greater."""
        archive = self.folder / "lines.sym"
        program("admit", self.archives / "empty", archive, kept_lines.SOURCES / "arm64-2-dsymutil.dsym")
        raw = FIXTURES / "inlined.crash"
        wanted = self.report(raw, archive).out.decode()
        for name in ("doubled", "doubled by a mail", "a time", "a time and a process", "bullets"):
            with self.subTest(name):
                came = self.report(self.file("pasted", PASTES[name](raw.read_text("utf-8"))), archive)
                self.assertEqual(came.out.decode(), PASTES[name](wanted))

    def test_a_place_is_that_of_the_file(self) -> None:
        text = PASTES["doubled"](source("crash").decode())[:-3]
        came = self.report(self.file("cut", text), "shipped")
        self.assertIn(f"it ends at line 27, byte {len(text)}, within a line", came.error_lines[0])

    def test_groups(self) -> None:
        for number, pasted in enumerate(PASTES.values()):
            self.file(f"in/{number}.crash", pasted(source("crash").decode()))
        lines = self.report("--group", "in", "shipped").lines
        wanted = "copy_body (spool); file_message (spool); spool_one (spool)"
        self.assertEqual(lines, [f"{len(PASTES)}\t{wanted}\tin/0.crash"])


class Bare(ReportCase):
    """Frames without images."""

    def is_named(self, text: str, wanted: str, *words: str, archive: Any = "shipped", count: str = BY_DSYM) -> None:
        path = self.file("bare", text)
        came = self.report(*words, path, archive)
        self.assertEqual((came.out.decode(), came.status), (wanted, 0), came.errors)
        self.assertEqual(came.error_lines, [count])

    def kept(self) -> Any:
        """An archive of `symarch-keep add` that has names of builds."""
        archive = self.folder / "kept.sym"
        self.file("Spool.app.dSYM/Contents/Info.plist", plistlib.dumps(APP))
        self.file(f"Spool.app.dSYM/{DWARF}/spool", (CRASHES / "spool-1.dSYM").read_bytes())
        came = call([keep, "add", archive, "Spool.app.dSYM"], cwd=self.folder, environment={"SYMARCH": symarch})
        self.assertEqual(came.status, 0, came.errors)
        return archive

    def test_an_image_that_is_named(self) -> None:
        self.is_named(BARE, NAMED, "--image", GIVEN)
        self.is_named(BARE, NAMED, "--image", f"spool={SPOOL.replace('-', '').upper()}")
        self.is_named(after("> ", BARE), after("> ", NAMED), "--image", GIVEN)
        whole = BARE.replace("0x104d38000 + ", "spool + ")
        self.is_named(whole, NAMED, "--image", f"spool={SPOOL}")
        self.is_named(re.sub(r"0x104d38000 \+ [0-9]+", "???", BARE), NAMED, "--image", GIVEN)
        self.is_named(BARE.replace("0x104d38000 + 1016", "file_message + 9"), NAMED, "--image", f"spool={SPOOL}")

    def test_a_build(self) -> None:
        """Its images of the report's processor, or the only one of a name."""
        archive = self.kept()
        count = f"{BY_DSYM} arm64"
        self.is_named(f"Code Type: ARM-64\n{BARE}", f"Code Type: ARM-64\n{NAMED}", "--build",
                      "com.example.spool/2.1/210", archive=archive, count=count)  # fmt: skip
        path = self.file("bare", BARE)
        self.is_refused(["--build", "com.example.spool/2.1/210", path, archive],
                        "symbolicate-report: bare: frames, but none of an image that is named")  # fmt: skip
        self.is_refused(["--build", "com.example.spool/2.2/1", path, archive], "symbolicate-report: no build "
                        "com.example.spool/2.2/1; of this app there are 2.1/210")  # fmt: skip
        self.is_refused(["--build", "a\x1b/2.2/1", path, "shipped"], r"symbolicate-report: no build a\x1b/2.2/1")

    def test_what_is_thrown(self) -> None:
        """The addresses of the system's images stay, as they are of none that is named."""
        addresses = re.findall("0x0{7}[0-9a-f]+", BARE)
        text = f"*** Terminating app\n*** First throw call stack:\n(0x18e2b1234 {' '.join(addresses)})\nlibc++abi\n"
        came = self.report("--image", GIVEN, self.file("thrown", text), "shipped")
        lines = came.out.decode().splitlines()
        names = [line.partition("0 (")[0].split(" ", 1)[1] for line in NAMED.splitlines()]
        self.assertEqual(len(names), 4)
        self.assertRegex(lines[2], r"^0 +\?\?\? +\t0x000000018e2b1234 \?\?\?$")
        self.assertEqual([re.split("0x[0-9a-f]{16} ", line)[1].rpartition(" (")[0] for line in lines[3:7]],
                         ["copy_body + 12", "file_message + 32", "spool_one + 24", "start + 48"])  # fmt: skip
        self.assertEqual(lines[7:], ["libc++abi"])
        numbered = "*** First throw call stack:\n(\n" + after("\t", BARE) + ")\n"
        wanted = numbered.replace(after("\t", BARE), after("\t", NAMED))
        self.is_named(numbered, wanted, "--image", GIVEN)

    def test_crashlytics(self) -> None:
        """Of the images without a dSYM there it says the UUID and the offset."""
        offsets = re.findall(r"\+ ([0-9]+)", BARE)
        said = f"(Missing UUID {SPOOL.replace('-', '')})"
        frames = "".join(f"{at}  spool                          {int(it):#x} {said}\n" for at, it in enumerate(offsets))
        text = f"# Crashlytics - Stack trace\n# Platform: apple\n\nCrashed: com.apple.main-thread\n{frames}"
        text += "4  UIKitCore                      0x1f0a4 UIApplicationMain\n5  Other      0x53c (Missing)\n"
        came = self.report(self.file("crash.txt", text), "shipped")
        wanted = text
        for name in re.findall(r"\S+ \+ .*", NAMED):
            wanted = wanted.replace(said, name, 1)
        self.assertEqual((came.out.decode(), came.status), (wanted, 0))
        self.assertEqual(came.error_lines, ["4 of 6 frames named, 1 named before, 1 not named; 2 of images that the "
                                            f"report does not list; by dSYM: spool {SPOOL}"])  # fmt: skip
        lines = self.report("--group", self.folder / "crash.txt", "shipped").lines
        self.assertIn("copy_body (spool); file_message (spool); spool_one (spool)", lines[0])

    def test_words_that_name_no_image(self) -> None:
        path, no_image = self.file("bare", BARE), f"is no NAME=UUID@LOAD, as spool={SPOOL}@0x104d38000"
        for option, word, said in (
            ("--image", "spool", f"spool {no_image}"),
            ("--image", f"spool={SPOOL}@main", f"spool={SPOOL}@main {no_image}"),
            ("--image", f"\x1b={SPOOL[1:]}", f"\\x1b={SPOOL[1:]} {no_image}"),
            ("--build", "a/2.1", "a/2.1 is no ID/VERSION/BUILD, as com.example.spool/2.1/210"),
        ):
            came = self.report(option, word, path, "shipped")
            self.assertEqual((came.status, came.out, came.error_lines[-1]),
                             (3, b"", f"symbolicate-report: argument {option}: {said}"))  # fmt: skip
        self.is_refused(["--image", f"other={SPOOL}@1", path, "shipped"],
                        "symbolicate-report: bare: frames, but none of an image that is named")  # fmt: skip
        self.is_refused([path, "shipped"], "symbolicate-report: bare: frames, but no binary images with UUIDs; "
                        f"it ends at line 4, byte {len(BARE)}, before the images of its last frames")  # fmt: skip
        typed = f"symbolicate-report --image {GIVEN} bare shipped"
        self.assertIn(typed, self.report("--image", GIVEN, "shipped", "bare").errors.decode().replace(
            f"{self.archives}/", ""))  # fmt: skip


class Hostile(ReportCase):
    """Pastes that take time in proportion to their lengths. Beside others the times would say less."""

    is_alone = True

    def read(self, data: bytes) -> float:
        """The processor time that a report takes."""
        script = MEASURE.format(tools=str(TOP / "tools"))
        words = [sys.executable, "-BIS", "-c", script, str(self.file("measured", data))]
        return float(subprocess.run(words, stdout=subprocess.PIPE, check=True).stdout.split()[0])

    def test_lines(self) -> None:
        made: List[Callable[[int], bytes]] = [
            lambda size: BARE.encode() + (b"* " + b" " * (size // 270) + b"x\n") * 270,
            lambda size: b"10:00:01 " + b"x" * size + b"\n" + BARE.encode(),
            lambda size: (b"0\n\n" + b"> " * 100 + b"\n\n") * (size // 200) + BARE.encode(),
            lambda size: BARE.encode() + b"0 x 0x1 (Missing UUID " + b"0" * 31 + b")\n" * (size // 2),
        ]
        for number, one in enumerate(made):
            with self.subTest(number):
                self.is_in_proportion(one)

    def is_in_proportion(self, made: Callable[[int], bytes]) -> None:
        one, long = made(300_000), made(LONGER * 300_000)
        self.assertLessEqual(ratio(lambda: self.read(one), lambda: self.read(long)), MOST_RATIO)
