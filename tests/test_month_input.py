"""A month of bad input: time and memory of hostile reports, names that would control a terminal, packed reports,
reports without stacks."""
import io
import json
import pathlib
import subprocess
import sys
import time
import zipfile
from typing import Callable, Dict, Sequence, Tuple

from .support.growth import LONGER, MOST_RATIO, ratio
from .support.program import TOP
from .support.reports import SPOOL, TOOL, ReportCase, named, source

sys.path.insert(0, str(TOP / "tools"))
from symarch_tools.console.escapes import json_shown, line_shown  # noqa: E402
from symarch_tools.formats.file_kinds import look_of  # noqa: E402

MEGABYTE = 1 << 20
IMAGES = f"Binary Images:\n0x104d38000 - 0x104d3bfff spool arm64 <{SPOOL}> /usr/local/bin/spool\n".encode()
FRAME = b"0   spool   0x0000000104d38410 0x104d38000 + 1040\n"
CRASH = b"Process: spool\n" + FRAME + b"\n" + IMAGES
CALL = f'{{"binaryUUID":"{SPOOL}","offsetIntoBinaryTextSegment":1132}}'


def lines_of(begin: str, again: str, end: str, count: int = 3) -> Callable[[int], bytes]:
    """Some lines in which the same stands again and again, with so many bytes of it."""
    return lambda size: CRASH + f"{begin}{again * (size // len(again))}{end}\n".encode() * count


def keys(size: int) -> bytes:
    made = "".join(f',"k{number}":[[]]' for number in range(size // 13))
    return f'{{"callStacks":[{{"callStackRootFrames":[{CALL}]{made}}}]}}'.encode()


def backtraces(size: int) -> bytes:
    """A crash with many backtraces that are texts, and as many images."""
    count = size // 100
    images = [{"uuid": f"{number:032x}", "base": number << 12, "size": 4096} for number in range(1, count)]
    used = [{"uuid": SPOOL, "base": 0, "size": 4096, "name": "spool"}, *images]
    threads, texts = [{"frames": [{"imageIndex": 0, "imageOffset": 1132}]}], ["0   spool   0x410 x"] * count
    document = {"usedImages": used, "threads": threads, "asiBacktraces": texts}
    return f'{{"bug_type":"309"}}\n{json.dumps(document)}'.encode()


def pasted(size: int) -> bytes:
    """Many pasted documents, each after a line of the mail, and then as many bytes of text."""
    document = f'{{"usedImages":[{{"uuid":"{SPOOL}"}}],"threads":[{{"frames":[{{"imageIndex":0,"imageOffset":1}}]}}]}}'
    return f"> {document}\nand\n".encode() * (size // 200) + b"a line of the mail\n" * (size // 20)


def long_lines(begin: str, again: str, end: str) -> Callable[[int], bytes]:
    """So many lines, which are the longer the more bytes there are: of 1.2 MB nearly as long as a line that is read."""
    return lambda size: lines_of(begin, again, end, LINES)(size // LINES)


# Reports that took minutes or gigabytes, of about so many bytes, and the lengths of large ones.
LINES = 133
HOSTILE: Dict[str, Tuple[Callable[[int], bytes], int]] = {
    "an image with spaces": (lines_of("0x1 - 0x2 ", " ", "x"), 4_000_000),
    "a spindump with offsets": (long_lines("  1 ", " + 1 (", " [0x1]"), 1_200_000),
    "a sample with images": (long_lines("+ 1 ", " (in x)", " [0x1]x"), 1_200_000),
    "a crash with spaces": (long_lines("0 x", " ", "x"), 1_200_000),
    "many documents": (lambda size: b"{}" * (size // 2), 800_000),
    "many brackets": (lambda size: b"[" * size, 4_000_000),
    "many keys": (keys, 800_000),
    "many headings": (lambda size: CRASH + b"-----\nFull Report\n-----\n{no JSON}\n" * (size // 34), 320_000),
    "many escapes": (lambda size: b'{"a":"' + b"\\n" * (size // 2) + b'"}', 4_000_000),
    "many backtraces": (backtraces, 200_000),
    "many pasted documents": (pasted, 800_000),
    "many images": (lambda size: CRASH + b"".join(b"0 - 1 x <%032x>\n" % it for it in range(1, size // 43)), 1_200_000),
}
# How a report may be printed.
WAYS: Sequence[Sequence[str]] = ((), ("--text",), ("--group",), ("--missing",), ("--json",))
# Reads a report, and prints the processor time without the start of the tool, and the most memory above that, in kB.
MEASURE = """
import sys, time
sys.path.insert(0, {tools!r})
from symarch_tools.reports.report import Report
from symarch_tools.reports.faults import Failure
def most():
    return int(open("/proc/self/status").read().partition("VmHWM:")[2].split()[0])
before, began = most(), time.process_time()
try:
    Report(sys.argv[1], is_text=True)
except Failure:
    pass
print(time.process_time() - began, most() - before)
"""


class Month(ReportCase):
    """A team's month of reports that nobody should have sent. Beside others the times would say less."""

    is_alone = True

    def read(self, data: bytes) -> Tuple[float, int]:
        """The processor time that a report takes, and how many bytes of memory it needs."""
        path = self.file("measured", data)
        script = MEASURE.format(tools=str(pathlib.Path(TOOL).parent))
        words = [sys.executable, "-BIS", "-c", script, str(path)]
        done = subprocess.run(words, stdout=subprocess.PIPE, check=True)
        seconds, memory = done.stdout.split()
        return float(seconds), int(memory) * 1024

    def is_in_proportion(self, name: str) -> None:
        made, size = HOSTILE[name]
        one, long = made(size // LONGER), made(size)
        self.assertLessEqual(ratio(lambda: self.read(one)[0], lambda: self.read(long)[0]), MOST_RATIO, name)

    def test_lines_that_took_minutes(self) -> None:
        for name in ("an image with spaces", "a spindump with offsets", "a sample with images", "a crash with spaces"):
            with self.subTest(name):
                self.is_in_proportion(name)

    def test_documents_that_took_minutes(self) -> None:
        names = "many documents", "many pasted documents", "many brackets", "many keys", "many headings"
        for name in (*names, "many backtraces"):
            with self.subTest(name):
                self.is_in_proportion(name)

    def test_memory(self) -> None:
        """At most five times the report, and 64 MB."""
        for name, (made, size) in HOSTILE.items():
            with self.subTest(name):
                data = made(max(size, 1_200_000))
                self.assertLessEqual(self.read(data)[1], 5 * len(data) + 64 * MEGABYTE)

    def test_a_page_with_comments(self) -> None:
        """What a file looks like is known at once."""
        for count in (24, 60):
            began = time.process_time()
            self.assertIsNone(look_of(b"<!---->" * count + b"x"))
            self.assertLess(time.process_time() - began, 1)
        self.assertIn("a page of HTML", look_of(b"\xef\xbb\xbf <!-- a --> <!--\n-->\n<!DOCTYPE html>") or "")

    def test_what_is_too_deep_is_named(self) -> None:
        deep = '{"a":' * 982 + "1" + "}" * 982
        stacks = f'"callStackTree":{{"callStacks":[{{"callStackRootFrames":[{CALL}]}}]}}'
        path = self.file("deep.json", f'{{"diagnosticMetaData":{deep},{stacks}}}')
        for words in WAYS[:3]:
            came = self.report(*words, path, "shipped")
            self.assertEqual((came.status, came.out), (2, b""))
            self.assertIn("it is nested more than 500 deep at line 1, byte ", came.error_lines[0])
        after = self.file("after.json", f'{{{stacks},"diagnosticMetaData":{deep}}}\n')
        came = self.report("--text", after, "shipped")
        self.assertEqual((came.status, len(came.error_lines)), (0, 2), came.errors)
        self.assertIn("is nested more than 500 deep at line 1, byte ", came.error_lines[0])
        self.assertTrue(came.error_lines[1].startswith("1 of 1 frames named"), came.errors)

    def test_a_deep_stack_of_calls_is_read(self) -> None:
        """A thread that ran out of its stack has more calls than anything else is deep."""
        calls = f'{CALL[:-1]},"subFrames":[' * 1500 + CALL + "]}" * 1500
        path = self.file("deep", f'{{"callStacks":[{{"callStackRootFrames":[{calls}]}}]}}')
        came = self.report("--no-lines", path, "shipped")
        self.assertEqual((came.status, came.error_lines[0].partition(",")[0]), (0, "1501 of 1501 frames named"))

    # ---- a terminal

    def forged(self) -> bytes:
        """A report whose first image is called as what moves a terminal, and as the last line."""
        first, _, rest = source("ips").decode().partition("\n")
        document = json.loads(rest)
        for image in document["usedImages"]:
            image["name"] = NAME
        document["procName"] = NAME
        return f"{first}\n{json.dumps(document)}".encode()

    def test_names_move_no_terminal(self) -> None:
        path = self.file("forged.ips", self.forged())
        for words in WAYS:
            with self.subTest(words):
                came = self.report(*words, path, "empty" if "--missing" in words else "shipped")
                printed = came.errors + (came.out if words else b"")
                text = printed.decode()
                self.assertFalse([one for one in text if ord(one) in (7, 27, 0x9B)], text)
                self.assertNotIn("9 of 9 frames named", [line.partition(",")[0] for line in text.splitlines()])
                self.assertTrue("\\x1b[2J" in text or "\\u001b[2J" in text, text)
        (one, _) = (json.loads(line) for line in self.report("--json", path, "shipped").out.decode().splitlines())
        self.assertEqual(one["images"][1]["name"], NAME)

    def test_one_escaper(self) -> None:
        self.assertEqual(line_shown("a\x1b\x07\n\u009b\\b\tc\u2028"), "a\\x1b\\x07\\x0a\\xc2\\x9b\\b\tc\\xe2\\x80\\xa8")
        self.assertEqual(json_shown('"\u009b\u2028a"'), '"\\u009b\\u2028a"')

    # ---- counts

    def test_spaces_that_are_not_broken(self) -> None:
        """A page or an editor put them there: the frames have names as without them."""
        crash = source("crash").replace(b" + ", b"\xc2\xa0+ ").replace(b"   ", b" \xc2\xa0 ")
        came = self.report(self.file("page", crash), "shipped")
        self.assertEqual((came.status, came.error_lines[0].partition(";")[0]), (0, COUNTS), came.errors)
        for line in [line for line in named("crash").splitlines() if b"(spool.c:" in line]:
            self.assertIn(line, came.out)
        none = self.report(self.file("page", crash), "empty")
        self.assertEqual((none.out, none.error_lines[0].partition(";")[0]), (crash, NOT_NAMED))

    def test_lines_that_a_mail_wrapped(self) -> None:
        crash = source("crash")
        for before, after in ((b" + ", b" +\n"), (b" + ", b"\n+ ")):
            for wrapped in (crash.replace(before, after), crash.replace(before, after).replace(b"> /", b">\n/")):
                with self.subTest((after, wrapped)):
                    came = self.report(self.file("mail", wrapped), "shipped")
                    self.assertEqual((came.status, came.error_lines[0].partition(";")[0]), (0, COUNTS), came.errors)
                    self.assertEqual(came.out.replace(b">\n/", b"> /"), named("crash"))
                    none = self.report(self.file("mail", wrapped), "empty")
                    self.assertEqual((none.out, none.error_lines[0].partition(";")[0]), (wrapped, NOT_NAMED))
        images = self.file("images", crash.replace(b" arm64 <", b" arm64\n<"))
        self.assertEqual(self.report(images, "shipped").error_lines[0].partition(";")[0], COUNTS)

    def test_what_is_packed_otherwise_than_by_zip(self) -> None:
        packed = io.BytesIO()
        with zipfile.ZipFile(packed, "w") as file:
            file.writestr("a.txt", source("crash"))
        path = self.file("a.crash", packed.getvalue())
        self.is_refused([path, "shipped"], "symbolicate-report: a.crash: a zip file that holds no report")
        gzip = self.file("a.ips", b"\x1f\x8b\x08" + source("ips"))
        self.is_refused([gzip, "shipped"], "symbolicate-report: a.ips: a gzip file: unpack it first")

    def test_a_report_without_stacks_is_called_so(self) -> None:
        whole = '{"bug_type":"%s","timestamp":"2026-11-01"}\n{"a": [{"b": [1]}]}\n'
        for number, kind in (
            ("298", "a jetsam report (bug_type 298)"),
            ("211", "an analytics report (bug_type 211)"),
            ("115", "a report of bug_type 115"),
        ):
            path = self.file(f"{number}.ips", whole % number)
            self.is_refused([path, "shipped"], f"symbolicate-report: {number}.ips: {kind}, which has no stacks")
        cut = self.report(self.file("cut.ips", (whole % "115")[:-6]), "shipped")
        self.assertIn("within its JSON", cut.error_lines[0])

    def test_in_a_folder_it_is_passed_over(self) -> None:
        for name in ("in/1.ips", "in/2.ips"):
            self.file(name, '{"bug_type":"298"}\n{"a": []}\n')
        self.file("in/a.crash", source("crash"))
        made, came = self.written([self.folder / "in"], "shipped")
        self.assertEqual((came.status, made), (0, {"a.crash": named("crash")}), came.errors)
        self.assertEqual(self.shortened(came)[0], "in: reports without stacks, which are passed over: 2")


NAME = "spool\x1b[2J\x07\u009b\n9 of 9 frames named, 0 named before, 0 not named"
COUNTS = "4 of 4 frames named, 0 named before, 0 not named"
NOT_NAMED = "0 of 4 frames named, 0 named before, 4 not named"
