"""symbolicate-report: each form of report, its last line, refusals, signals, and its calls of the program."""
import json
import os
import re
import shutil
import signal
import subprocess
import sys
from pathlib import Path
from typing import Any, List, Sequence, Tuple

from .support.kills import interrupted
from .support.program import MOST_SECONDS, TOP, call, symarch
from .support.reports import CRASHES, DYLD, FIXTURES, KERNEL, SPOOL, SPOOL_2, SPOOL_X86_64, TOOL, ReportCase
from .support.reports import FORMS, named, source, without_lines
from .support.waits import wait_until

ARM64, X86_64 = f"spool {SPOOL} arm64", f"spool {SPOOL_X86_64}"
BY_DSYM, WITHOUT, UNLISTED = f"by dSYM: {ARM64}", f"without dSYM: {ARM64}", "1 of images that the report does not list"
NO_DYLD, NO_DYLD_ARM64E = f"not in the archive: dyld {DYLD}", f"not in the archive: dyld {DYLD} arm64e"
NO_LIBDYLD = "libdyld.dylib b3f1a5d2-7c44-3e0b-9a61-5d2c8e7f4a90"
OLD_LIBDYLD = "not in the archive: libdyld.dylib 9fd01a5a-d3e5-3b0f-8b7c-6d5e4f3a2b10 arm64e"
ABSENT_HELPER = f"Spool Helper (Renderer) 5e0c7b1a-26d4-3f98-8c3b-a9f1e2d4c507, dyld {DYLD}"
NAMES = "[--demangle | --no-demangle | --raw]"
IMAGES = "[--image NAME=UUID@LOAD | --build ID/VERSION/BUILD]..."
PRINTED = f"[--json [--frames]] [--text] [--no-lines | --paths] {NAMES} [--out FOLDER]"
OPTIONS = f"{IMAGES} [--missing [--counts | --json] | {PRINTED} | --group {NAMES}]"
USAGE = f"usage: symbolicate-report {OPTIONS} REPORT... ARCHIVE..."


class Forms(ReportCase):
    """Each form of report, with one answer for each frame of the archive."""

    def test_crash_for_arm64(self) -> None:
        counts = "4 of 4 frames named, 0 named before, 0 not named"
        self.prints([CRASHES / "arm64.crash", "shipped"], "crash", counts, BY_DSYM)

    def test_crash_for_x86_64(self) -> None:
        counts = "4 of 5 frames named, 1 named before, 0 not named"
        words = [CRASHES / "x86_64.crash", "shipped"]
        self.prints(words, "x86_64", counts, f"by dSYM: {X86_64}", f"not in the archive: {NO_LIBDYLD}")

    def test_crash_of_a_mac(self) -> None:
        counts = "7 of 11 frames named, 1 named before, 3 not named", "3 of images that the report does not list"
        self.prints([FIXTURES / "mac.crash", "shipped"], "mac", *counts, f"by dSYM: Spool Server {SPOOL}", NO_DYLD)

    def test_ips(self) -> None:
        counts = "4 of 5 frames named, 1 named before, 0 not named"
        self.prints([CRASHES / "arm64.ips", "shipped"], "ips", counts, BY_DSYM, NO_DYLD_ARM64E)

    def test_older_ips(self) -> None:
        counts = "2 of 3 frames named, 1 named before, 0 not named"
        self.prints([FIXTURES / "older.ips", "shipped"], "older", counts, BY_DSYM, OLD_LIBDYLD)

    def test_exception(self) -> None:
        counts = "4 of 7 frames named, 1 named before, 2 not named", UNLISTED
        absent = "not in the archive: CoreFoundation 2f1c7e60-8d94-3a5b-b6f0-13c2d4e5a687 x86_64h"
        self.prints([FIXTURES / "exception.ips", "shipped"], "exception", *counts, f"by dSYM: {X86_64}", absent)

    def test_stackshot(self) -> None:
        counts = "4 of 8 frames named, 0 named before, 4 not named", UNLISTED
        absent = f"not in the archive: {DYLD}, {KERNEL}"
        self.prints([FIXTURES / "stackshot.ips", "shipped"], "stackshot", *counts, f"by dSYM: {SPOOL}", absent)

    def test_metrickit(self) -> None:
        counts = "5 of 7 frames named, 0 named before, 2 not named", UNLISTED
        self.prints([FIXTURES / "metrickit.json", "shipped"], "metrickit", *counts, f"by dSYM: spool {SPOOL}", NO_DYLD)

    def test_sample(self) -> None:
        counts = "13 of 16 frames named, 1 named before, 2 not named", UNLISTED
        absent = f"not in the archive: {ABSENT_HELPER}"
        self.prints([FIXTURES / "spool.sample.txt", "shipped"], "sample", *counts, f"by dSYM: spool {SPOOL}", absent)

    def test_spindump_of_two_processes(self) -> None:
        counts = "11 of 15 frames named, 3 named before, 1 not named"
        ours, absent = f"by dSYM: spool {SPOOL}, spool {SPOOL_2}", f"{NO_DYLD}, kernel {KERNEL}"
        self.prints([FIXTURES / "spool.spindump.txt", "both"], "spindump", counts, ours, absent)

    def test_hang(self) -> None:
        counts = "3 of 6 frames named, 0 named before, 3 not named", UNLISTED
        absent = f"not in the archive: {DYLD}"
        self.prints([FIXTURES / "hang.ips", "shipped"], "hang", *counts, f"by dSYM: {SPOOL}", absent)

    def test_a_call_that_does_not_return_stands_last(self) -> None:
        """It returns to the next function, and the name is that of the caller."""
        line = b"3   spool   0x0000000104d3846c 0x104d38000 + 1132"
        ends = self.file("ends", re.sub(rb"^3 .*", line, source("crash"), flags=re.M))
        self.prints([ends, "shipped"], "crash-ends", "4 of 4 frames named, 0 named before, 0 not named", BY_DSYM)

    def test_decimal_addresses(self) -> None:
        """Of the frames, of the images, and of both. What stays is as it was."""
        decimal = lambda found: str(int(found[0], 16)).encode()
        frames, images = rb"^[0-9] .*", rb"^0x.*"
        for name, lines in (("frames", frames), ("images", images), ("both", frames + b"|" + images)):
            in_line = lambda found: re.sub(rb"0x[0-9a-f]+", decimal, found[0])
            change = lambda data: re.sub(lines, in_line, data, flags=re.M)
            with self.subTest(name):
                counts = "4 of 4 frames named, 0 named before, 0 not named"
                path = self.file(name, change(source("crash")))
                self.prints([path, "shipped"], change(named("crash")), counts, BY_DSYM)

    def test_decimal_addresses_of_each_line(self) -> None:
        """As a Mac's report has them: with a source file after the offset, after a name, and of an exception."""
        decimal = lambda found: str(int(found[0], 16)).encode()
        data = re.sub(rb"0x[0-9a-f]+", decimal, source("mac"))
        came = self.report(self.file("x.crash", data), "shipped")
        line = "7 of 9 frames named, 1 named before, 1 not named; 1 of images that the report does not list"
        self.assertTrue(came.error_lines[0].startswith(line), came.errors)
        wanted = re.sub(rb"(?<=\t {7})0x[0-9a-f]+|(?<=\t)0x[0-9a-f]+(?= 0x)", decimal, named("mac"))
        for name in (b"copy_body + 12", b"file_message + 32 (spool.c:27)", b"spool_one + 24", b"start + 2476"):
            lines = [line for line in re.findall(rb"(?m)^[0-9]+ .*", came.out) if line.endswith(b" " + name)]
            others = [line for line in re.findall(rb"(?m)^[0-9]+ .*", wanted) if line.endswith(b" " + name)]
            self.assertEqual(len(lines), len(others), name)
        self.assertNotIn(b"(4375938064 4375938040)", came.out)

    def test_decimal_addresses_of_trees(self) -> None:
        """Of the frames, of the images, and of both. Other numbers in brackets are none."""
        decimal = lambda found: found[1] + str(int(found[2], 16)).encode()
        frames, images = rb"(\[|load address |\b,)0x([0-9a-f]+)\b", rb"(^ *\*?|- +)0x([0-9a-f]+)(?= [- ])"
        for form in ("sample", "spindump", "hang"):
            for name, lines in (("frames", [frames]), ("images", [images]), ("both", [frames, images])):
                def change(data: bytes) -> bytes:
                    for line in lines:
                        data = re.sub(line, decimal, data, flags=re.M)
                    return data.replace(b"[412]", b"[40412]").replace(b"(serial)", b"(serial) [51234]")
                with self.subTest((form, name)):
                    path, archive = self.file(name, change(source(form))), FORMS[form].archive
                    came, usual = self.report(path, archive), self.report(FORMS[form].path, archive)
                    self.is_printed(came, change(named(form)))
                    self.assertEqual(came.error_lines, usual.error_lines)

    def test_lines_that_end_by_a_return(self) -> None:
        returns = self.file("returns", source("sample").replace(b"\n", b"\r\n"))
        self.is_printed(self.report(returns, "differ"), named("sample-differ").replace(b"\n", b"\r\n"))


class Text(ReportCase):
    """Reports as people read them, by --text."""

    def test_ips(self) -> None:
        counts = "4 of 8 frames named, 1 named before, 3 not named", "2 of images that the report does not list"
        self.prints(["--text", FIXTURES / "abort.ips", "shipped"], "text-abort", *counts, BY_DSYM, NO_DYLD_ARM64E)

    def test_stackshot(self) -> None:
        counts = "4 of 8 frames named, 0 named before, 4 not named", UNLISTED
        ours, absent = f"by dSYM: {SPOOL}", f"not in the archive: {DYLD}, {KERNEL}"
        self.prints(["--text", FIXTURES / "stackshot.ips", "shipped"], "text-stackshot", *counts, ours, absent)

    def test_metrickit(self) -> None:
        counts = "5 of 7 frames named, 0 named before, 2 not named", UNLISTED
        words = ["--text", FIXTURES / "metrickit.json", "shipped"]
        self.prints(words, "text-metrickit", *counts, f"by dSYM: spool {SPOOL}", NO_DYLD)

    def test_older_ips(self) -> None:
        counts = "2 of 3 frames named, 1 named before, 0 not named"
        self.prints(["--text", FIXTURES / "older.ips", "shipped"], "text-older", counts, BY_DSYM, OLD_LIBDYLD)

    def test_a_text_stays(self) -> None:
        counts = "4 of 4 frames named, 0 named before, 0 not named"
        self.prints(["--text", CRASHES / "arm64.crash", "shipped"], "crash", counts, BY_DSYM)

    def test_answers_that_differ(self) -> None:
        counts = "2 of 5 frames named, 1 named before, 0 not named, 2 with several answers"
        self.prints(["--text", CRASHES / "arm64.ips", "differ"], "text-ips-differ", counts, WITHOUT, NO_DYLD_ARM64E)

    def test_what_the_system_said_of_the_end(self) -> None:
        """The reasons and details of a termination, the region of a fault, what the kernel said, and backtraces of the
        process: of a crash in dyld that is all that says why."""
        came = self.report("--text", FIXTURES / "dyld.ips", "shipped")
        self.is_printed(came, "text-dyld")

    def test_what_the_system_said_at_length(self) -> None:
        """Texts of more bytes than a small document has."""
        region = "0 is not in any region.\n" + "".join(f"      __TEXT {number:09x} r-x\n" for number in range(400))
        backtraces = ["".join(f"{number}   CoreFoundation   0x1a2b3c4d {number}\n" for number in range(300))] * 2
        first, _, document = source("ips").decode().partition("\n")
        more = {"vmRegionInfo": region, "asiBacktraces": backtraces}
        path = self.file("long.ips", first + "\n" + json.dumps({**json.loads(document), **more}))
        text = self.report("--text", path, "shipped").out.decode()
        self.assertIn(f"\nVM Region Info:        {region}\n", text)
        for number, backtrace in enumerate(backtraces):
            self.assertIn(f"\nApplication Specific Backtrace {number}:\n{backtrace}\n", text)


class Conflicts(ReportCase):
    """Slices of one key: what they answer alike is one answer, and what they do not stands below the frame."""

    def test_slices_that_answer_alike(self) -> None:
        counts = "4 of 4 frames named, 0 named before, 0 not named"
        self.prints([CRASHES / "arm64.crash", "alike"], without_lines(named("crash")), counts, WITHOUT)

    def test_sample_of_slices_that_answer_alike(self) -> None:
        counts = "13 of 16 frames named, 1 named before, 2 not named", UNLISTED
        ours, absent = f"without dSYM: spool {SPOOL}", f"not in the archive: {ABSENT_HELPER}"
        wanted = without_lines(named("sample")).replace(b"0x104d383f0]", b"0x104d383f0]  spool.c:20")
        self.prints([FIXTURES / "spool.sample.txt", "alike"], wanted, *counts, ours, absent)

    def test_crash(self) -> None:
        counts = "2 of 4 frames named, 0 named before, 0 not named, 2 with several answers"
        self.prints([CRASHES / "arm64.crash", "differ"], "crash-differ", counts, WITHOUT)

    def test_crash_with_a_stripped_image(self) -> None:
        counts = "2 of 4 frames named, 0 named before, 0 not named, 2 with several answers"
        self.prints([CRASHES / "arm64.crash", "stripped"], "crash-stripped", counts, WITHOUT)

    def test_ips(self) -> None:
        counts = "2 of 5 frames named, 1 named before, 0 not named, 2 with several answers"
        self.prints([CRASHES / "arm64.ips", "differ"], "ips-differ", counts, WITHOUT, NO_DYLD_ARM64E)

    def test_crash_of_a_mac(self) -> None:
        counts = "3 of 11 frames named, 1 named before, 3 not named, 4 with several answers"
        more = "3 of images that the report does not list", f"without dSYM: Spool Server {SPOOL}", NO_DYLD
        self.prints([FIXTURES / "mac.crash", "differ"], "mac-differ", counts, *more)

    def test_stackshot(self) -> None:
        counts = "2 of 8 frames named, 0 named before, 4 not named, 2 with several answers", UNLISTED
        ours, absent = f"without dSYM: {SPOOL}", f"not in the archive: {DYLD}, {KERNEL}"
        self.prints([FIXTURES / "stackshot.ips", "differ"], "stackshot-differ", *counts, ours, absent)

    def test_sample(self) -> None:
        counts = "7 of 16 frames named, 1 named before, 2 not named, 6 with several answers", UNLISTED
        ours, absent = f"without dSYM: spool {SPOOL}", f"not in the archive: {ABSENT_HELPER}"
        self.prints([FIXTURES / "spool.sample.txt", "differ"], "sample-differ", *counts, ours, absent)

    def test_hang(self) -> None:
        counts = "1 of 6 frames named, 0 named before, 3 not named, 2 with several answers", UNLISTED
        ours, absent = f"without dSYM: {SPOOL}", f"not in the archive: {DYLD}"
        self.prints([FIXTURES / "hang.ips", "differ"], "hang-differ", *counts, ours, absent)


class Architectures(ReportCase):
    """An architecture that the report does not state is that of its processor if the archive has several."""

    def setUp(self) -> None:
        super().setUp()
        unstated = source("crash").replace(b" arm64 <", b" <")
        self.unstated = self.file("unstated", unstated)
        self.no_processor = self.file("no-processor", re.sub(rb"^Code Type.*\n", b"", unstated, flags=re.M))

    def test_the_one_that_the_archive_has(self) -> None:
        counts = "4 of 4 frames named, 0 named before, 0 not named"
        self.prints([self.unstated, "shipped"], "unstated", counts, f"by dSYM: spool {SPOOL}")

    def test_that_of_the_processor(self) -> None:
        counts = "4 of 4 frames named, 0 named before, 0 not named"
        self.prints([self.unstated, "two"], "unstated", counts, f"by dSYM: spool {SPOOL}")

    def test_several_and_no_processor(self) -> None:
        counts = "0 of 4 frames named, 0 named before, 4 not named"
        absent = f"under another architecture: spool {SPOOL} (the archive has arm64, arm64e)"
        self.prints([self.no_processor, "two"], "no-processor", counts, absent, status=1)

    def test_another_one_than_that_of_the_report(self) -> None:
        """The UUID is right, and it answers if it is there under one architecture alone. That is said, also by an
        index."""
        change = lambda data: data.replace(b"spool arm64 <", b"spool arm64e <")
        counts = "4 of 4 frames named, 0 named before, 0 not named"
        other = f"by dSYM: spool {SPOOL} arm64e (the archive has arm64)"
        path = self.file("arm64e", change(source("crash")))
        shipped = self.file("shipped.sym", (self.archives / "shipped").read_bytes())
        self.prints([path, shipped], change(named("crash")), counts, other)
        self.assertEqual(self.call("index", shipped, f"{shipped}.idx").status, 0)
        self.prints([path, shipped], change(named("crash")), counts, other)
        came = self.report("--missing", path, shipped)
        self.assertEqual((came.status, came.out), (0, b""))

    def test_two_others_than_that_of_the_report(self) -> None:
        """None of them answers, and they are named."""
        path = self.file("x86_64h", source("crash").replace(b"spool arm64 <", b"spool x86_64h <"))
        counts = "0 of 4 frames named, 0 named before, 4 not named"
        other = f"under another architecture: spool {SPOOL} x86_64h (the archive has arm64, arm64e)"
        self.prints([path, "two"], path.read_bytes(), counts, other, status=1)
        self.assertEqual(self.report("--missing", path, "two").lines, [f"{SPOOL} spool"])

    def test_another_one_that_is_retired(self) -> None:
        """The archive does not have it."""
        path = self.file("arm64e", source("crash").replace(b"spool arm64 <", b"spool arm64e <"))
        digests = [row.split()[3] for row in self.call("list", self.archives / "image").lines if " arm64 " in row]
        retires = self.folder / "retires"
        self.assertEqual(self.call("retire", self.archives / "empty", retires, SPOOL, "arm64", *digests).status, 0)
        counts = "0 of 4 frames named, 0 named before, 4 not named"
        absent = f"not in the archive: spool {SPOOL} arm64e"
        self.prints([path, retires, "image"], path.read_bytes(), counts, absent, status=1)

    def test_one_that_is_no_word_for_an_architecture(self) -> None:
        path = self.file("no-word", source("ips").replace(b'"arm64e"', b'"arm 64 e"'))
        absent = f"not in the archive: dyld {DYLD} arm 64 e"
        lines = self.report(path, "shipped").error_lines
        self.assertEqual(lines, [f"4 of 5 frames named, 1 named before, 0 not named; {BY_DSYM}; {absent}"])


class Absent(ReportCase):
    """Images that the archive does not have."""

    def test_a_crash_of_none(self) -> None:
        counts = "0 of 5 frames named, 1 named before, 4 not named"
        absent = f"not in the archive: {X86_64}, {NO_LIBDYLD}"
        self.prints([CRASHES / "x86_64.crash", "empty"], "none", counts, absent, status=1)

    def test_an_ips_of_none(self) -> None:
        counts = "0 of 5 frames named, 1 named before, 4 not named"
        absent = f"not in the archive: {ARM64}, dyld {DYLD} arm64e"
        self.prints([CRASHES / "arm64.ips", "empty"], "ips-none", counts, absent, status=1)

    def test_missing(self) -> None:
        self.lists(["--missing", FIXTURES / "stackshot.ips", "shipped"], DYLD, KERNEL)

    def test_missing_as_the_last_word(self) -> None:
        self.lists([FIXTURES / "metrickit.json", "shipped", "--missing"], f"{DYLD} dyld")

    def test_two_are_missing(self) -> None:
        self.lists(["--missing", FIXTURES / "spool.spindump.txt", "shipped"], f"{KERNEL} kernel", f"{SPOOL_2} spool")

    def test_missing_of_frames_with_names(self) -> None:
        """An image is left out if the report names all its frames, as it does those of the system."""
        self.lists(["--missing", FIXTURES / "mac.crash", "shipped"])
        self.lists(["--missing", CRASHES / "x86_64.crash", "empty"], f"{SPOOL_X86_64} spool")
        named_in_part = re.sub(rb"0x10a5c4000 \+ 1040", b"copy_body + 16", (CRASHES / "x86_64.crash").read_bytes())
        self.lists(["--missing", self.file("part", named_in_part), "empty"], f"{SPOOL_X86_64} spool")
        self.lists(["--missing", self.file("named", named("x86_64")), "empty"])

    def test_missing_of_a_name_with_a_newline(self) -> None:
        """It makes no line of its own."""
        path = self.file("ips", source("ips").replace(b'"name" : "spool"', b'"name" : "a\\nb\\ud800"'))
        self.lists(["--missing", path, "empty"], f"{SPOOL} a b\ufffd")

    def test_none_is_missing(self) -> None:
        self.lists(["--missing", CRASHES / "arm64.crash", "shipped"])

    def test_missing_dsym_of_an_image_that_is_there(self) -> None:
        """The image alone names a function by its exported neighbour, so its dSYM is missing."""
        self.lists(["--missing", CRASHES / "arm64.crash", "image"], f"{SPOOL} spool")
        self.lists(["--missing", CRASHES / "arm64.ips", "image"], f"{SPOOL} spool")

    def lists(self, words: List[Any], *uuids: str) -> None:
        came = self.report(*words)
        self.assertEqual((came.status, came.lines, came.error_lines), (0, list(uuids), []))


class Origins(ReportCase):
    """What is said of each image: whether its dSYM answered."""

    def says(self, *archives: Any, origin: str) -> None:
        """Fails where something else is said of the image of a crash."""
        came = self.report(CRASHES / "arm64.crash", *archives)
        self.assertEqual(came.error_lines[-1].partition("; ")[2], f"{origin}: {ARM64}" if origin else "")

    def made(self, name: str, *files: Path, before: str = "empty") -> Path:
        path = self.folder / name
        self.assertEqual(self.call("admit", self.archives / before, path, *files).status, 0)
        return path

    def test_the_stripped_image_alone(self) -> None:
        self.says("image", origin="without dSYM")
        self.says("shipped", origin="by dSYM")

    def test_a_dsym_in_another_archive(self) -> None:
        dsym = self.made("dsym", CRASHES / "spool-1.dSYM")
        self.says("image", dsym, origin="by dSYM")
        self.says(dsym, "image", origin="by dSYM")

    def test_a_dsym_that_is_retired(self) -> None:
        """In the archive itself, and by another archive, whichever is read by its index."""
        dsym = self.made("dsym", CRASHES / "spool-1.dSYM")
        rows = self.call("list", dsym).lines
        digest = next(row.split()[3] for row in rows if row.split()[1] == "arm64")
        retired, retires = self.folder / "retired", self.folder / "retires"
        self.assertEqual(self.call("retire", self.archives / "shipped", retired, SPOOL, "arm64", digest).status, 0)
        self.assertEqual(self.call("retire", self.archives / "empty", retires, SPOOL, "arm64", digest).status, 0)
        self.says(retired, origin="without dSYM")
        self.says("shipped", retires, origin="without dSYM")
        for path in (retires, dsym):
            self.assertEqual(self.call("index", path, f"{path}.idx").status, 0)
            self.says("image", dsym, retires, origin="without dSYM")

    def test_by_the_index(self) -> None:
        shipped = self.file("shipped.sym", (self.archives / "shipped").read_bytes())
        image = self.file("image.sym", (self.archives / "image").read_bytes())
        for path, origin in ((shipped, "by dSYM"), (image, "without dSYM")):
            self.assertEqual(self.call("index", path, f"{path}.idx").status, 0)
            self.says(path, origin=origin)

    def test_an_archive_of_version_1(self) -> None:
        shipped = (self.archives / "shipped").read_bytes()
        self.says(self.file("old.sym", b"MSYMARC1" + shipped[8:]), origin="by dSYM")

    def test_an_archive_that_is_no_file(self) -> None:
        """A pipe is read once."""
        for name, origin in (("shipped", "by dSYM"), ("image", "without dSYM")):
            pipe = self.folder / f"{name}.pipe"
            os.mkfifo(pipe)
            with subprocess.Popen(["cp", self.archives / name, pipe]):
                self.says(pipe, origin=origin)

    def test_each_of_several_reports(self) -> None:
        paths = [self.file("one/crash", source("crash")), self.file("one/ips", source("ips"))]
        made, came = self.written(paths, "image")
        self.assertEqual(sorted(made), ["crash", "ips"])
        ends = [line.partition("; ")[2] for line in came.error_lines]
        self.assertEqual(ends, [WITHOUT, f"{WITHOUT}; {NO_DYLD_ARM64E}", f"{WITHOUT}; {NO_DYLD_ARM64E}"])


class Refused(ReportCase):
    """Reports and archives that cannot be read, of which nothing is printed, and other words."""

    def test_no_report(self) -> None:
        path = self.file("source", (CRASHES / "spool.c").read_bytes())
        self.is_refused([path, "shipped"], self.unread("source: no report of a known kind: no stack frames"))

    def test_frames_of_the_program(self) -> None:
        """What to type is said."""
        path = self.file("crash.frames", f"# a crash\n\n{SPOOL} arm64 0x104d38000 0x104d38410\n")
        why = "crash.frames: no report, but frames for the program: symarch frames crash.frames ARCHIVE"
        self.is_refused([path, "shipped"], self.unread(why))

    def test_images_alone(self) -> None:
        path = self.file("images", re.sub(rb"^[0-9] .*\n", b"", source("crash"), flags=re.M))
        why = "images: no report of a known kind: images, but no stack frames"
        self.is_refused([path, "shipped"], self.unread(why))

    def test_the_first_lines_of_a_text(self) -> None:
        path = self.head("head", "crash", 5)
        why = "no report of a known kind: no stack frames; it ends at line 5, byte 204, before its first frame"
        self.is_refused([path, "shipped"], self.unread(f"head: {why}"))

    def test_the_first_line_of_an_ips(self) -> None:
        path = self.head("first", "ips", 1)
        why = "no report of a known kind: no stack frames; it ends at line 1, byte 215, before its first frame"
        self.is_refused([path, "shipped"], self.unread(f"first: {why}"))

    def test_an_ips_that_ends_before_its_images(self) -> None:
        path = self.head("cut", "ips", 40)
        why = "cut: frames, but no binary images with UUIDs; it ends at line 40, byte 1121, within its JSON"
        self.is_refused(["--missing", path, "shipped"], self.unread(why))

    def test_a_text_that_ends_before_its_images(self) -> None:
        path = self.head("frames", "crash", 11)
        end = "it ends at line 11, byte 423, before the images of its last frames"
        self.is_refused([path, "shipped"], self.unread(f"frames: frames, but no binary images with UUIDs; {end}"))

    def test_a_whole_text_without_uuids(self) -> None:
        """It is not called cut."""
        for name, uuid in (("gone", b""), ("short", b"<4c4c4419>")):
            path = self.file(name, re.sub(rb"<[0-9a-f]{32}>", uuid, source("crash")))
            self.is_refused([path, "shipped"], self.unread(f"{name}: frames, but no binary images with UUIDs"))
        mac = self.file("mac", re.sub(rb" <[0-9a-f-]{36}>", b"", source("mac")))
        self.is_refused([mac, "shipped"], self.unread("mac: frames, but no binary images with UUIDs"))

    def test_a_whole_text_without_frames(self) -> None:
        path = self.file("none", re.sub(rb"^([0-9]) .*\n", rb"\1   spool   spool + 12\n", source("crash"), flags=re.M))
        why = "none: no report of a known kind: images, but no stack frames"
        self.is_refused([path, "shipped"], self.unread(why))
        path = self.file("less", re.sub(rb"<[0-9a-f]{32}>", b"", path.read_bytes()))
        why = "less: no report of a known kind: a list of images, but no stack frames"
        self.is_refused([path, "shipped"], self.unread(why))

    def test_a_report_that_is_not_there(self) -> None:
        self.is_refused(["nowhere", "shipped"], self.unread("nowhere: No such file or directory"))

    def test_an_archive_that_is_not_there(self) -> None:
        why = "nowhere: No such file; symarch-keep add makes an archive"
        self.is_refused([CRASHES / "arm64.crash", "nowhere"], self.unread(why))

    def test_an_image_in_the_place_of_an_archive(self) -> None:
        why = "  archive 0 is spool-1, a universal file, which `admit` takes"
        self.is_refused([CRASHES / "arm64.crash", CRASHES / "spool-1"], "symarch: archive 0: BadMagic at 0", why)

    def test_an_archive_that_is_cut(self) -> None:
        short = self.file("short", (self.archives / "shipped").read_bytes()[:-1])
        line = self.unread("short is cut short: restore it from a backup or another site")
        self.is_refused([CRASHES / "arm64.crash", short], line)

    def test_words(self) -> None:
        path, out = CRASHES / "arm64.crash", self.folder / "x"
        refused: Sequence[Tuple[List[Any], str]] = (
            ([], "there is no report before the archive"),
            ([path], f"there is no archive after {path}"),
            (["--missing", path, CRASHES / "arm64.ips"], "there is no archive after arm64.ips"),
            (["--text", self.archives / "shipped"], "there is no report before the archive"),
            ([self.archives / "shipped", "both"], "there is no report before the archive"),
            (["--out", out, path], f"there is no archive after {path}"),
            (["--text", "--text", path, "shipped"], "--text is repeated"),
            (["--missing", "--missing", path, "shipped"], "--missing is repeated"),
            (["--out", out, "--out", out, path, "shipped"], "--out is repeated"),
            (["--missing", "--text", path, "shipped"], "--missing allows only --counts or --json"),
            (["--missing", "--raw", path, "shipped"], "--missing allows only --counts or --json"),
            (["--demangle", "--raw", path, "shipped"], "--raw keeps names that --demangle changes: use one"),
            (["--missing", "--out", out, path, "shipped"], "--missing allows only --counts or --json"),
            (["--missing", "--no-lines", path, "shipped"], "--missing allows only --counts or --json"),
            (["--no-lines", "--paths", path, "shipped"],
             "--no-lines prints no paths, so --paths may not be used with it"),
            (["--demangle", "--no-demangle", path, "shipped"], "--demangle and --no-demangle: use one"),
            (["--out"], "argument --out: expected one argument"),
            (["--unknown", path, "shipped"], "there is no option --unknown"),
            ([path, "shipped", "-q"], "there is no option -q"),
            ([path, path, "shipped"], "several reports are written by --out FOLDER"),
        )
        for words, why in refused:
            why = why.replace(f"{CRASHES}/", "")
            self.is_refused(words, USAGE, self.unread(why), status=3)

    def test_names_in_another_order(self) -> None:
        """What to type is said."""
        path, mac, out = CRASHES / "arm64.crash", FIXTURES / "mac.crash", self.folder / "x y"
        typed = "symbolicate-report"
        refused: Sequence[Tuple[List[Any], str]] = (
            (["shipped", path], f"shipped is an archive, and belongs after the reports: {typed} arm64.crash shipped"),
            (
                ["shipped", path, "--text", mac, "both", "--out", out],
                f"shipped is an archive, and belongs after the reports: "
                f"{typed} --text --out 'x y' arm64.crash mac.crash shipped both",
            ),
            (
                [path, "shipped", mac],
                f"shipped is an archive, and belongs after the reports: "
                f"{typed} --out FOLDER arm64.crash mac.crash shipped",
            ),
            (["shipped", "--", "-"], f"shipped is an archive, and belongs after the reports: {typed} - shipped"),
            (["frames", path, "shipped"], f"frames is a command of symarch: {typed} arm64.crash shipped"),
            (["symbolicate", path, "shipped"], f"symbolicate is a command of symarch: {typed} arm64.crash shipped"),
            (["symbolicate", "shipped", path], f"symbolicate is a command of symarch: {typed} arm64.crash shipped"),
        )
        for words, why in refused:
            self.is_refused(words, USAGE, self.unread(why), status=3)

    def test_standard_input(self) -> None:
        came = self.report("-", "shipped", stdin=source("crash"))
        self.is_printed(came, "crash")
        self.assertEqual((came.status, len(came.error_lines)), (0, 1))
        cut = self.report("-", "shipped", stdin=source("crash")[:300])
        why = "standard input: frames, but no binary images with UUIDs; it ends at line 9, byte 300, "
        self.assertTrue(cut.error_lines[0].startswith(self.unread(why)), cut.errors)

    def test_standard_input_elsewhere(self) -> None:
        path, out = CRASHES / "arm64.crash", self.folder / "x"
        nameless = "--out writes each report under the name of its file, and standard input has none"
        refused: Sequence[Tuple[List[Any], str]] = (
            ([path, "-"], "standard input is a report, not an archive"),
            (["--missing", "-", "-", "shipped"], "standard input is read once"),
            (["--out", out, "-", "shipped"], nameless),
        )
        for words, why in refused:
            self.is_refused(words, USAGE, self.unread(why), status=3)

    def test_what_the_system_refuses(self) -> None:
        """A fault names its path, and no number."""
        crash, file = CRASHES / "arm64.crash", self.file("file", "")
        self.is_refused([file / "a.crash", "shipped"], self.unread("file/a.crash: Not a directory"))
        came = self.report("--out", file / "out", crash, "shipped")
        self.assertEqual((came.status, self.shortened(came)), (2, [self.unread("file/out: Not a directory")]))
        with open("/dev/full", "wb") as full:
            several: List[List[Any]] = [[crash, "shipped"], ["--help"], ["--version"], ["--missing", crash, "image"]]
            for words in several:
                came = self.report(*words, stdout=full)
                line = self.unread("standard output: No space left on device")
                self.assertEqual((came.status, came.error_lines), (2, [line]), words)

    def test_a_pipe_that_nobody_reads(self) -> None:
        """It ends the tool as it ends others, and nothing is said."""
        crash = CRASHES / "arm64.crash"
        several: List[List[Any]] = [[crash, "shipped"], ["--help"], ["--missing", crash, "image"]]
        for words in several:
            reader, writer = os.pipe()
            os.close(reader)
            with self.subTest(words), open(writer, "wb") as pipe:
                came = self.report(*words, stdout=pipe)
                self.assertEqual((came.status, came.errors), (-signal.SIGPIPE, b""))
                self.assertEqual(self.report("--version", stdout=pipe).errors, b"")

    def test_words_after_two_hyphens(self) -> None:
        path = self.file("-crash", source("crash"))
        self.is_printed(self.report("--text", "--", path.name, "shipped"), "crash")
        self.is_printed(self.report("--", CRASHES / "arm64.crash", "shipped"), "crash")

    def test_an_option_at_the_end(self) -> None:
        self.is_printed(self.report(CRASHES / "arm64.crash", "shipped", "--text"), "crash")

    def test_help(self) -> None:
        came = self.report("--help")
        self.assertEqual((came.status, came.errors), (0, b""))
        for option in ("missing", "group", "text", "no-lines", "paths", "no-demangle", "raw", "out FOLDER", "version"):
            self.assertIn(f"--{option}".encode(), came.out)

    def test_nothing_can_be_written(self) -> None:
        crash = CRASHES / "arm64.crash"
        missing = ["--missing", FIXTURES / "metrickit.json", "shipped"]
        several: List[List[Any]] = [["--help"], ["--version"], [crash, "shipped"], missing]
        for words in several:
            with self.subTest(words), open("/dev/full", "wb") as full:
                came = self.report(*words, stdout=full)
                self.assertEqual((came.status, len(came.error_lines)), (2, 1), came.errors)

    def head(self, name: str, form: str, count: int) -> Path:
        """The first lines of a report."""
        return self.file(name, b"".join(source(form).splitlines(keepends=True)[:count]))

    @staticmethod
    def unread(why: str) -> str:
        return f"symbolicate-report: {why}"


class Calls(ReportCase):
    """How the program is called, and which one."""

    def counting(self) -> str:
        """A program that writes down its words and what it is asked."""
        lines = f'echo "$1 ${{@##*/}}" >>"{self.folder}/calls"', f'cat "$2" >>"{self.folder}/asked"'
        path = self.file("counting", "\n".join(["#!/bin/bash", *lines, f'exec {symarch} "$@"', ""]))
        path.chmod(0o755)
        return str(path)

    def test_one_call_for_all_images(self) -> None:
        self.report(FIXTURES / "spool.spindump.txt", "both", environment={"SYMARCH": self.counting()})
        (words,) = (self.folder / "calls").read_text().splitlines()
        self.assertRegex(words, r"^frames frames \S+ --lines --slices both$")
        asked = (self.folder / "asked").read_text().splitlines()
        self.assertEqual(len(set(asked)), len(asked), "a frame that is asked for twice")
        uuids = [uuid.replace("-", "") for uuid in (SPOOL, SPOOL_2, DYLD, KERNEL)]
        keys = sorted(f"{uuid} {arch}" for uuid in uuids for arch in ("arm64", "arm64e", "x86_64", "x86_64h"))
        self.assertEqual(sorted({" ".join(line.split()[:2]) for line in asked}), keys)

    def test_one_call_for_missing(self) -> None:
        self.report("--missing", FIXTURES / "mac.crash", "shipped", environment={"SYMARCH": self.counting()})
        self.assertEqual((self.folder / "calls").read_text().count("\n"), 1)

    def test_nothing_below_proc_or_dev_is_named(self) -> None:
        """Where /proc is not mounted, a standard input has no path."""
        program = self.script("telling", 'echo "$*" >words')
        self.report(CRASHES / "arm64.crash", "shipped", environment={"SYMARCH": program})
        words = (self.folder / "words").read_text().split()
        self.assertEqual([word for word in words if word.startswith(("/dev/", "/proc/"))], [])

    def test_without_proc(self) -> None:
        unmounted = ["unshare", "--mount", *([] if call(["id", "-u"]).out == b"0\n" else ["--map-root-user"])]
        hidden = [*unmounted, "sh", "-c", 'mount -t tmpfs none /proc && exec "$0" "$@"']
        if call([*hidden, "test", "!", "-e", "/proc/self"]).status != 0:
            self.skipTest("the rights to mount are not granted")
        came = self.report(CRASHES / "arm64.crash", "shipped", before=hidden)
        self.assertEqual((came.status, came.error_lines[:-1]), (0, []))
        self.is_printed(came, "crash")

    def test_no_program_that_symarch_names(self) -> None:
        came = self.report(CRASHES / "arm64.crash", "shipped", environment={"SYMARCH": str(self.folder / "gone")})
        lines = ["symbolicate-report: SYMARCH names gone: there is no program gone"]
        self.assertEqual((came.status, came.out, self.shortened(came)), (126, b"", lines))

    def test_nothing_is_built(self) -> None:
        """Where there is no program the script beside the tools is not called, which would build one."""
        shutil.copytree(TOP / "tools", self.folder / "tools")
        self.script("symarch", f"echo built >>{self.folder}/built")
        words: List[Any] = [sys.executable, "-B", "tools/symbolicate-report", CRASHES / "arm64.crash"]
        words.append(self.archives / "shipped")
        came = call(words, cwd=self.folder, environment={"SYMARCH": ""})
        why = "SYMARCH may name one, and in the repository ./symarch --version builds it"
        lines = [f"symbolicate-report: there is no program crates/symarch/out/symarch: {why}"]
        self.assertEqual((came.status, came.out, self.shortened(came)), (126, b"", lines))
        self.is_absent("built")

    def test_symarch_names_the_script(self) -> None:
        """The program that ./symarch built is called, and the script is not, since it might build."""
        self.file("top/packaging/build-program", "")
        script = self.script("top/symarch", f"echo built >{self.folder}/built")
        came = self.report(CRASHES / "arm64.crash", "shipped", environment={"SYMARCH": script})
        lines = ["symbolicate-report: SYMARCH names top/symarch: there is no program top/crates/symarch/out/symarch"]
        self.assertEqual((came.status, came.out, self.shortened(came)), (126, b"", lines))
        (self.folder / "top/crates/symarch/out").mkdir(parents=True)
        self.script("top/crates/symarch/out/symarch", 'exec "$symarch" "$@"')
        self.is_printed(self.report(CRASHES / "arm64.crash", "shipped", environment={"SYMARCH": script}), "crash")
        self.is_absent("built")

    def test_programs_that_are_none(self) -> None:
        plain = self.file("plain", "no program\n")
        for program in (plain, self.folder):
            with self.subTest(program):
                came = self.report(CRASHES / "arm64.crash", "shipped", environment={"SYMARCH": str(program)})
                self.assertEqual((came.status, came.out), (126, b""))
                self.assertIn(f"SYMARCH names {program}: ", came.error_lines[-1])

    def test_programs_that_answer_otherwise(self) -> None:
        for name, body in {
            "says nothing": "exit 0",
            "fails": "exit 1",
            "says anything": "echo x y; echo y z",
            "never ends": "while :; do echo x y; done",
            "has other words": "echo no such command >&2; exit 2",
            "says less": '"$symarch" "$@" | head -n 3',
            "says more": '"$symarch" "$@"; echo 0x0000000000000000 ?',
            "says other addresses": '"$symarch" "$@" | sed s/0x0000/0x0001/',
        }.items():
            with self.subTest(name):
                program = self.script(name.replace(" ", "-"), body)
                came = self.report(CRASHES / "arm64.crash", "shipped", environment={"SYMARCH": program})
                line = f"symbolicate-report: SYMARCH names {program}, which does not answer as symarch does"
                self.assertEqual((came.status, came.out, came.error_lines[-1]), (126, b"", line))


class Signals(ReportCase):
    """A signal ends the tool without a traceback, and leaves no file."""

    def test_ctrl_c_while_it_begins(self) -> None:
        for module in ("subprocess", "tempfile"):
            with self.subTest(module):
                words = interrupted(module, TOOL, str(CRASHES / "arm64.crash"), "shipped")
                came = call(words, cwd=self.archives, environment={"SYMARCH": symarch})
                self.assertEqual((came.status, came.errors), (-signal.SIGINT, b""))

    def test_while_the_program_runs(self) -> None:
        """What the tool wrote for the program is removed, and the program ends."""
        begun, temporary = self.folder / "begun", self.folder / "temporary"
        temporary.mkdir()
        program = self.script("slow", f'echo $$ >"{begun}"; exec sleep 6000')
        environment = {**os.environ, "SYMARCH": program, "TMPDIR": str(temporary)}
        words: List[Any] = [sys.executable, "-B", TOOL, CRASHES / "arm64.crash", self.archives / "shipped"]
        for number in (signal.SIGINT, signal.SIGTERM, signal.SIGHUP):
            with self.subTest(number), subprocess.Popen(words, env=environment, stderr=subprocess.PIPE) as run:
                wait_until(lambda: begun.exists() and begun.read_text(), run)
                run.send_signal(number)
                self.assertEqual((run.communicate(timeout=MOST_SECONDS)[1], run.returncode), (b"", -number))
                self.assertEqual(list(temporary.iterdir()), [])
                self.assertRaises(ProcessLookupError, os.kill, int(begun.read_text()), 0)
                begun.unlink()

    def test_an_ignored_signal(self) -> None:
        before = ["sh", "-c", 'trap "" INT; exec "$0" "$@"']
        program = self.script("interrupted", 'kill -INT $PPID; exec "$symarch" "$@"')
        came = self.report(CRASHES / "arm64.crash", "shipped", before=before, environment={"SYMARCH": program})
        self.assertEqual(came.status, 0, came.errors)
        self.is_printed(came, "crash")
