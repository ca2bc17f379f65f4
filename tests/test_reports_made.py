"""symbolicate-report with reports that are made here: in other encodings, pasted, cut, large, several at once, with a
full report, with frames of each kind, and hostile ones. Expected output is made from the fixtures, from
expected/reports, whose names were written from `llvm-nm`, and by arithmetic."""
import json
import os
import re
import resource
import subprocess
import sys
from itertools import product
from pathlib import Path
from typing import Any, Callable, Dict, Iterable, List, Optional, Sequence, Tuple

from .support.program import symarch
from .support.reports import DYLD, FIXTURES, FORMS, KERNEL, SPOOL, TOOL, ReportCase, named, source

SUMMARY = re.compile(
    r"(\d+) of (\d+) frames named, (\d+) named before, (\d+) not named(?:, (\d+) with several answers)?(?:; .*)?"
)
MEGABYTE = 1_000_000
CODED: Dict[str, Callable[[bytes], bytes]] = {
    "mark": lambda data: b"\xef\xbb\xbf" + data,
    "little": lambda data: b"\xff\xfe" + data.decode().encode("utf-16-le"),
    "big": lambda data: b"\xfe\xff" + data.decode().encode("utf-16-be"),
    "unmarked": lambda data: data.decode().encode("utf-16-le"),
    "returns": lambda data: data.replace(b"\n", b"\r\n"),
}
# What stands in a report that is cut: its output, None if it is refused; and what is said of its end, None if nothing
# has to be.
Wanted = Tuple[Optional[bytes], Optional[str]]


def forms_of(archive: str) -> List[str]:
    return [form for form, (_, one) in FORMS.items() if one == archive]


class Encodings(ReportCase):
    """Each form with a byte-order mark, in UTF-16 and with lines that end by a return and a newline."""

    seconds = 4

    def test_forms(self) -> None:
        for archive in ("shipped", "both"):
            cases = [(form, change) for form in forms_of(archive) for change in CODED]
            paths = [self.file(f"coded/{form}.{name}", CODED[name](source(form))) for form, name in cases]
            made, came = self.written(paths, archive)
            self.assertEqual(came.status, 0, archive)
            for form, name in cases:
                with self.subTest(f"{form}, {name}"):
                    self.assertEqual(made.get(f"{form}.{name}"), CODED[name](named(form)))

    def test_json_as_text(self) -> None:
        abort, text = (FIXTURES / "abort.ips").read_bytes(), named("text-abort")
        for name in ("mark", "little", "big", "unmarked"):
            with self.subTest(name):
                came = self.report("--text", self.file(name, CODED[name](abort)), "shipped")
                self.is_printed(came, CODED[name](text))

    def test_half_of_a_character_at_the_end(self) -> None:
        path = self.file("half", CODED["little"](source("crash")) + b"x")
        self.is_printed(self.report(path, "shipped"), CODED["little"](named("crash")) + b"x")


def before_lines(prefix: bytes, data: bytes, is_bare: bool = False) -> bytes:
    """A report as a mail has it. With `is_bare` no line ends with a space that it did not end with."""
    lines = data.splitlines(keepends=True)
    return b"".join(prefix.rstrip() + line if is_bare and not line.strip() else prefix + line for line in lines)


class Pasted(ReportCase):
    """Reports with the same before each line: all is printed so, and what is added too."""

    seconds = 4
    pasted: Dict[str, Callable[[bytes], bytes]] = {
        "reply": lambda data: before_lines(b"> ", data, True),
        "second": lambda data: before_lines(b">> ", data),
        "nested": lambda data: before_lines(b"> > ", data.replace(b"\n", b"\r\n")),
        "spaces": lambda data: before_lines(b"    ", data, True),
        "tab": lambda data: before_lines(b"\t", data),
        "utf-16": lambda data: CODED["little"](before_lines(b"> ", data)),
    }

    def test_forms(self) -> None:
        for archive in ("shipped", "both"):
            cases = [(form, change) for form in forms_of(archive) for change in self.pasted]
            paths = [self.file(f"pasted/{form}.{name}", self.pasted[name](source(form))) for form, name in cases]
            made, came = self.written(paths, archive)
            self.assertEqual(came.status, 0, came.errors.decode())
            for form, name in cases:
                with self.subTest(f"{form}, {name}"):
                    self.assertEqual(made.get(f"{form}.{name}"), self.pasted[name](named(form)))

    def test_lines_that_are_added(self) -> None:
        for form in ("crash", "mac", "ips", "sample", "hang"):
            with self.subTest(form):
                came = self.report(self.file(form, self.pasted["second"](source(form))), "differ")
                self.is_printed(came, self.pasted["second"](named(f"{form}-differ")))

    def test_within_a_mail(self) -> None:
        """What is no line of the report stays, and so do its first lines if they are not there."""
        _, _, frames = source("crash").partition(b"\n\n")
        _, _, names = named("crash").partition(b"\n\n")
        for prefix in (b"> ", b"    "):
            for text, wanted in ((source("crash"), named("crash")), (frames, names)):
                with self.subTest((prefix, text[:9])):
                    mail = lambda data: b"Hi,\n\nit ended:\n" + before_lines(prefix, data) + b"\nBye\n"
                    if prefix == b"    " and text is frames:
                        mail = lambda data: before_lines(prefix, data)
                    came = self.report(self.file("mail", mail(text)), "shipped")
                    self.is_printed(came, mail(wanted))

    def test_json_within_a_mail(self) -> None:
        firsts = b"Hi,\n\nit ended:\n", b"[EXTERNAL] Hi,\r\n\r\nit ended:\r\n\r\n", b"  It ended:\n"
        prefixes, forms = (b"> ", b"    ", b"\t", b" > "), ("ips", "older", "metrickit", "stackshot", "hang")
        mail = lambda first, prefix, data: first + before_lines(prefix, data, True) + b"\nBye\n"
        cases = list(enumerate(product(forms, firsts, prefixes)))
        paths = [self.file(f"mails/{at}", mail(one[1], one[2], source(one[0]))) for at, one in cases]
        made, _ = self.written(paths, "shipped")
        for at, (form, first, prefix) in cases:
            with self.subTest((form, first, prefix)):
                self.assertEqual(made.get(str(at)), mail(first, prefix, named(form)))

    def test_text_after_a_word_in_brackets(self) -> None:
        mail = lambda data: b"[EXTERNAL] Hi,\n\nit ended:\n" + before_lines(b"> ", data) + b"\nBye\n"
        self.is_printed(self.report(self.file("mail", mail(source("crash"))), "shipped"), mail(named("crash")))

    def test_as_text(self) -> None:
        mail = lambda data: before_lines(b"> ", data)
        path = self.file("abort", mail((FIXTURES / "abort.ips").read_bytes()))
        self.is_printed(self.report("--text", path, "shipped"), mail(named("text-abort")))

    def test_where_one_ends(self) -> None:
        """By the bytes of the file."""
        for prefix in (b"> ", b"  "):
            data = before_lines(prefix, b"".join(source("crash").splitlines(keepends=True)[:11]))
            came = self.report(self.file("cut", data), "shipped")
            self.assertTrue(came.error_lines[0].endswith(f"{where(data, 'before the images of its last frames')}"))
            data = before_lines(b"> ", source("ips")).replace(b'"arch" : "arm64e"', b'"arch" : arm64e')
            place = data.index(b"arm64e")
            line = f"it is no JSON from line {data[:place].count(10) + 1}, byte {place + 1} on"
            self.assertTrue(self.report(self.file("ips", data), "shipped").error_lines[0].endswith(line))


def cuts(data: bytes) -> List[int]:
    """A hundred places of a report, and each end of a line."""
    ends = [place + 1 for place, byte in enumerate(data[:-1]) if byte == 10]
    return sorted({len(data) * number // 100 for number in range(1, 100)} | set(ends))


def where(data: bytes, kind: str) -> str:
    return f"it ends at line {data[:-1].count(10) + 1}, byte {len(data)}, {kind}"


class CutCase(ReportCase):
    """Cases over reports that are cut at many places."""

    def cut(self, form: str, archive: str, places: Iterable[int]) -> Tuple[List[Path], Dict[str, bytes], List[str]]:
        """A report cut at places: the files, what is printed of each by its name, and the lines that are said."""
        paths = [self.file(f"cut/{place:06}", source(form)[:place]) for place in places]
        made, came = self.written(paths, archive)
        self.assertEqual(came.status, 2)
        self.assertNotIn(b"Traceback", came.errors)
        return paths, made, came.error_lines

    def comes_out(
        self, form: str, wanted_of: Callable[[bytes], Wanted], left_out: Sequence[int] = (), more: Sequence[int] = ()
    ) -> None:
        """Fails where something else is printed of a part of a report than is wanted of it, or said of its end."""
        data = source(form)
        places = sorted({place for place in cuts(data) if place not in left_out}.union(more))
        paths, made, said = self.cut(form, FORMS[form].archive, places)
        for place, path in zip(places, paths):
            lines = [line for line in said if str(path) in line]
            text, end = wanted_of(data[:place])
            with self.subTest(place):
                self.assertEqual(made.get(path.name), text)
                if text is None:
                    self.assertEqual(len(lines), 1)
                else:
                    self.assertRegex(lines[-1].partition(": ")[2], SUMMARY)
                if end is not None:
                    self.assertTrue(any(line.endswith(end) for line in lines), lines)


class CutTexts(CutCase):
    """Texts whose frames stand before the images: all are named, or none is."""

    seconds = 6

    def text(self, form: str, frames: bytes) -> None:
        data, names = source(form), named(form)
        first = data.index(frames)
        after_first = data.index(b"\n", first)
        known = data.index(b">", data.index(b"Binary Images")) + 1

        def wanted_of(part: bytes) -> Wanted:
            end = None if part.endswith(b"\n") else where(part, "within a line")
            if len(part) >= known:
                return names[: len(names) - (len(data) - len(part))], end
            if len(part) > after_first:
                end = where(part, "before the images of its last frames")
            return None, end if len(part) < first or len(part) > after_first else None

        # Within the path of the image its name is cut, which stands in the lines of a backtrace.
        left_out = range(known, data.index(b"\n", known)) if b"(0x" in frames else ()
        self.comes_out(form, wanted_of, left_out)

    def test_crash(self) -> None:
        self.text("crash", b"0   spool")

    def test_crash_of_a_mac(self) -> None:
        self.text("mac", b"(0x104d38410")

    def test_sample(self) -> None:
        self.text("sample", b"    + 2543 start")


class CutTrees(CutCase):
    """Call trees: a frame is named where its images stand, in the list after it or with it. The last one may have had
    another one below it, so either name may stand there."""

    seconds = 5

    def tree(self, form: str, is_listed: bool) -> None:
        data = source(form)
        lines, names = data.splitlines(keepends=True), named(form).splitlines(keepends=True)
        begins = [sum(map(len, lines[:number])) for number in range(len(lines))]
        frames = [number for number, line in enumerate(lines) if b" [0x" in line]
        known = {number: begins[number] + len(lines[number]) - 1 for number in frames}
        if is_listed:
            known = {number: data.index(b">", data.index(b"Binary Images", begins[number])) + 1 for number in frames}

        def wanted_of(part: bytes) -> Optional[bytes]:
            made = [names[number] if len(part) >= known.get(number, 0) else line for number, line in enumerate(lines)]
            whole = [begin + len(old) <= len(part) for begin, old in zip(begins, lines)]
            left = part[sum(len(old) for old, is_whole in zip(lines, whole) if is_whole) :]
            printed = b"".join(line for line, is_whole in zip(made, whole) if is_whole) + left
            return printed if any(len(part) >= known[number] for number in frames) else None

        paths, made, said = self.cut(form, FORMS[form].archive, cuts(data))
        for place, path in zip(cuts(data), paths):
            with self.subTest(place):
                came, text = made.get(path.name), wanted_of(data[:place])
                self.assertEqual(came is None, text is None)
                if came is not None and text is not None:
                    self.assertTrue(are_alike(came, text), (came[-200:], text[-200:]))
                if data[place - 1] != 10:
                    ends = [line for line in said if str(path) in line and f"byte {place}, " in line]
                    self.assertTrue(ends, "no end is said")

    def test_spindump(self) -> None:
        self.tree("spindump", True)

    def test_hang(self) -> None:
        self.tree("hang", False)


def are_alike(came: bytes, text: bytes) -> bool:
    """Whether two texts are equal but for the name in one line, that of the last frame."""
    if came == text:
        return True
    pairs = list(zip(came.splitlines(), text.splitlines()))
    differing = [number for number, (one, other) in enumerate(pairs) if one != other]
    last = max(number for number, (one, _) in enumerate(pairs) if b" [0x" in one)
    return len(pairs) == came.count(b"\n") + (not came.endswith(b"\n")) and differing in ([last], [])


class CutJson(CutCase):
    """JSON: its frames are named where the first image stands."""

    seconds = 7

    def json(self, form: str, known: bytes) -> None:
        """An end within the first line, or at it, is before any frame."""
        data, names = source(form), named(form)
        threshold = data.index(known) + len(known)
        first_line = data.index(b"\n")

        def wanted_of(part: bytes) -> Wanted:
            end = None if len(part.strip()) in (first_line, len(data.strip())) else where(part, "within its JSON")
            if len(part) < threshold:
                return None, end
            return names[: len(names) - (len(data) - len(part))], end

        self.comes_out(form, wanted_of)

    def test_ips(self) -> None:
        self.json("ips", b'"uuid" : "4c4c4419-5555-3144-a1d2-4341c97782f0"')

    def test_exception(self) -> None:
        self.json("exception", b'"uuid":"4c4c44c0-5555-3144-a19f-a433d7651718"')

    def test_stackshot(self) -> None:
        self.json("stackshot", b'["4c4c4419-5555-3144-a1d2-4341c97782f0",4375937024,"P"]')

    def test_metrickit(self) -> None:
        """A payload, whose frames have their UUIDs with them: each one whose offset stands there is named. Of a tree it
        is known that a frame has another one below it where that one begins."""
        data = source("metrickit")
        offsets = list(re.finditer(rb'( *)"offsetIntoBinaryTextSegment" : [0-9]+', data))
        below = data.index(b"{", offsets[3].end())
        has_image = re.compile(rb'"binaryUUID" : "[0-9A-F-]{36}"')
        spool_one, start, copy_body = (b"spool_one", 0, 24), (b"start", 52, 32), (b"copy_body", 12, 9)
        members = b',\n%b"symbol" : "%b",\n%b"symbolLocation" : %d,\n%b"sourceFile" : "spool.c",\n%b"sourceLine" : %d'

        def wanted_of(part: bytes) -> Wanted:
            names = [spool_one, start, None, start if len(part) > below else spool_one, copy_body, spool_one]
            made, done = b"", 0
            for found, name in zip(offsets, names):
                if name and len(part) > found.end():
                    added = members % (found[1], name[0], found[1], name[1], found[1], found[1], name[2])
                    made, done = made + part[done : found.end()] + added, found.end()
            end = None if part.strip() == data.strip() else where(part, "within its JSON")
            return (made + part[done:], end) if has_image.search(part) else (None, end)

        # Within the digits of an offset, and at their end, where more of them may have followed.
        digits = [found.end() - number for found in offsets for number in range(4)]
        self.comes_out("metrickit", wanted_of, (), digits)

    def test_json_that_goes_wrong(self) -> None:
        """What stands before is named, and the rest stays."""
        data = source("ips").replace(b'"arch" : "arm64e"', b'"arch" : arm64e')
        place = data.index(b"arm64e")
        came = self.report(self.file("ips", data), "shipped")
        self.is_printed(came, named("ips").replace(b'"arch" : "arm64e"', b'"arch" : arm64e'))
        line = f"it is no JSON from line {data[:place].count(10) + 1}, byte {place + 1} on"
        self.assertEqual((came.status, came.error_lines[0].endswith(line)), (0, True), came.errors)


class CutReadable(CutCase):
    """Reports that are cut and printed as people read them: each part has a result."""

    seconds = 8

    def test_forms(self) -> None:
        for path in (FIXTURES / "abort.ips", FIXTURES / "dyld.ips", *(form.path for form in FORMS.values())):
            with self.subTest(path.name):
                data = path.read_bytes()
                paths = [self.file(f"{path.name}/{place:06}", data[:place]) for place in cuts(data)]
                made, came = self.written(paths, "shipped", "--text")
                said = came.error_lines
                self.assertEqual([one for one in paths if not any(str(one) in line for line in said)], [])
                counts = [line for line in said if SUMMARY.fullmatch(line.partition(": ")[2])]
                self.assertEqual((came.status, len(counts)), (2, len(made)))
                self.assertNotIn(b"Traceback", came.errors)


# Runs a command, and writes the memory that it and what it calls needed, in kilobytes. A command that is run from here
# would begin with the memory that is used here.
MEASURE = """import resource, subprocess, sys
status = subprocess.run(sys.argv[2:]).returncode
print(resource.getrusage(resource.RUSAGE_CHILDREN).ru_maxrss, file=open(sys.argv[1], "w"))
sys.exit(status)"""


def split(data: bytes, begin: bytes, end: bytes) -> Tuple[bytes, bytes, bytes]:
    """The beginning of a report, the part that is repeated, and the end."""
    first = data.index(begin) + len(begin)
    last = data.index(end, first)
    return data[:first], data[first:last], data[last:]


class LargeCase(ReportCase):
    """Reports of 50 MB, in which the four frames between a beginning and an end come again and again; they take six
    times their size as memory at most."""

    seconds = 40

    def large(self, form: str, begin: bytes, end: bytes) -> None:
        data, names = split(source(form), begin, end), split(named(form), begin, end)
        count = 50 * MEGABYTE // len(data[1]) + 1
        path = self.file("large", data[0] + data[1] * count + data[2])
        out, memory = self.folder / "out", self.folder / "memory"
        words: List[Any] = [sys.executable, "-c", MEASURE, memory, sys.executable, "-B", TOOL, path]
        words.append(self.archives / "shipped")
        with out.open("wb") as file:
            environment = {**os.environ, "SYMARCH": symarch}
            done = subprocess.run(words, stdout=file, stderr=subprocess.PIPE, check=False, env=environment)
        self.assertEqual(done.returncode, 0, done.stderr)
        self.assertTrue(out.read_bytes() == names[0] + names[1] * count + names[2], "something else is printed")
        self.assertEqual(done.stderr.decode().splitlines()[-1].partition(" ")[0], str(4 * count))
        self.assertLessEqual(int(memory.read_text()) * 1024, 6 * path.stat().st_size)


class LargeText(LargeCase):
    """A text of 50 MB."""

    def test_what_is_printed(self) -> None:
        self.large("crash", b"Thread 0 Crashed:\n", b"\nBinary Images")


class LargeJson(LargeCase):
    """JSON of 50 MB."""

    def test_what_is_printed(self) -> None:
        self.large("ips", b'"frames" : [\n', b'        {\n          "imageOffset" : 25204')


class ManyImages(ReportCase):
    """Hundreds of images, of which the archive has one: its frames are named, and the others are said."""

    uuids = [f"{number:08x}-0000-3000-8000-000000000001" for number in range(1, 600)]

    def test_text(self) -> None:
        frames, listed, labels = [], [], []
        for number, uuid in enumerate(self.uuids):
            start = 0x200000000 + number * 0x10000
            frames.append(f"{number + 1}   lib{number}   {start + 1040:#018x} {start:#x} + 1040\n")
            listed.append(f"{start:#x} - {start + 0xffff:#x} lib{number} arm64 <{uuid}> /usr/lib/lib{number}\n")
            labels.append(f"lib{number} {uuid} arm64")
        heading = b"\nBinary Images:\n"
        more = "".join(frames).encode() + heading + "".join(listed).encode()
        path = self.file("crash", source("crash").replace(heading, more))
        counts = "4 of 603 frames named, 0 named before, 599 not named", f"by dSYM: spool {SPOOL} arm64"
        absent = f"not in the archive: {', '.join(labels)}"
        self.prints([path, "shipped"], named("crash").replace(heading, more), *counts, absent)

    def test_json(self) -> None:
        first, rest = source("ips").decode().split("\n", 1)
        document = json.loads(rest)
        ours = document["usedImages"][0]
        document["usedImages"] = [{"uuid": it, "base": 0x200000000, "size": 4096} for it in self.uuids] + [ours]
        frames = [{"imageOffset": 1040, "imageIndex": len(self.uuids)}, {"imageOffset": 8, "imageIndex": 598}]
        document["threads"] = [{"frames": frames}]
        text = first + "\n" + json.dumps(document)
        frame = f'{{"imageOffset": 1040, "imageIndex": {len(self.uuids)}'
        more = ', "symbol": "copy_body", "symbolLocation": 12, "sourceFile": "spool.c", "sourceLine": 9'
        names = text.replace(frame, frame + more)
        self.is_printed(self.report(self.file("ips", text), "shipped"), names.encode())


class Several(ReportCase):
    """Several reports at once, by --out."""

    def setUp(self) -> None:
        super().setUp()
        self.forms = forms_of("shipped")
        self.paths = [self.file(f"several/{form}", source(form)) for form in self.forms]

    def test_each_is_written(self) -> None:
        lines = f'echo "$1 ${{5##*/}}" >>"{self.folder}/calls"', f'cat "$2" >>"{self.folder}/asked"'
        counting = self.script("counting", "\n".join([*lines, 'exec "$symarch" "$@"']))
        out = self.folder / "out of several"
        came = self.report("--out", out, *self.paths, "shipped", environment={"SYMARCH": counting})
        self.assertEqual((came.status, sorted(it.name for it in out.iterdir())), (0, sorted(self.forms)))
        for form in self.forms:
            self.assertEqual((out / form).read_bytes(), named(form), form)
        self.assertEqual((self.folder / "calls").read_text(), "frames shipped\n")
        asked = (self.folder / "asked").read_text().splitlines()
        self.assertEqual(len(set(asked)), len(asked), "something is asked twice")
        self.counts_are_summed(came.error_lines)

    def counts_are_summed(self, lines: Sequence[str]) -> None:
        found = [SUMMARY.fullmatch(line.partition(": ")[2]) for line in lines if line.startswith(str(self.folder))]
        counts = [one.groups() for one in found if one]
        self.assertEqual(len(counts), len(self.forms))
        sums = [sum(int(one[place] or 0) for one in counts) for place in range(4)]
        last = "{} of {} frames named, {} named before, {} not named".format(*sums)
        self.assertEqual(lines[-1].partition(";")[0], last)

    def test_two_of_one_name(self) -> None:
        made, came = self.written([self.paths[0], self.file("other/crash", source("crash"))], "shipped")
        self.assertEqual((made, came.status), ({}, 3))
        self.assertIn("would both be written", came.error_lines[0])

    def test_over_one_that_is_not_read(self) -> None:
        self.report("--out", self.paths[0].parent, self.file("other/crash", source("crash")), "shipped")
        self.assertEqual(self.paths[0].read_bytes(), named("crash"))

    def test_over_itself(self) -> None:
        came = self.report("--out", self.paths[0].parent, *self.paths, "shipped")
        self.assertEqual((came.status, self.paths[0].read_bytes()), (3, source("crash")))

    def test_one_that_can_be_read_of_three(self) -> None:
        absent, none = self.folder / "absent.crash", self.file("none", "no report\n")
        made, came = self.written([absent, none, self.paths[0]], "shipped")
        self.assertEqual((list(made), came.status), (["crash"], 2))
        for words in ("absent.crash", "none: no report"):
            self.assertTrue(any(words in line for line in came.error_lines), came.errors)

    def test_without_out(self) -> None:
        came = self.report(*self.paths, "shipped")
        self.assertEqual((came.out, came.status), (b"", 3))
        self.assertIn("--out FOLDER", came.error_lines[-1])

    def test_missing_of_several(self) -> None:
        """Each image once, with its name if one of the reports has it."""
        came = self.report("--missing", *self.paths, "shipped")
        helper = "5e0c7b1a-26d4-3f98-8c3b-a9f1e2d4c507 Spool Helper (Renderer)"
        self.assertEqual((came.lines, came.status), ([f"{DYLD} dyld", KERNEL, helper], 0))

    def test_one_that_cannot_be_written(self) -> None:
        """It is too large for where it is written: it leaves nothing there, and what is there stays."""
        self.file("full/crash", "before\n")
        limit = lambda: resource.setrlimit(resource.RLIMIT_FSIZE, (300, 300))
        came = self.report("--out", self.folder / "full", self.paths[0], "shipped", preexec_fn=limit)
        self.assertEqual(came.status, 2)
        self.assertNotIn(b"Traceback", came.errors)
        found = {it.name: it.read_text() for it in (self.folder / "full").iterdir()}
        self.assertEqual(found, {"crash": "before\n"})


class Backtraces(ReportCase):
    """A line of addresses: the first one is where a function begins, and others are in no image of the archive, or in
    none at all."""

    line = b"(0x104d38410 0x104d383f8)"

    def setUp(self) -> None:
        super().setUp()
        self.names = named("mac")
        found = re.search(rb"^0   Spool.* copy_body.*\n1   Spool.*\n", self.names, re.M)
        self.ours = found[0] if found else b""

    def test_some_have_names(self) -> None:
        addresses = b"(0x104d3846c 0x104d3846c 0x18576a274 0x12345678)"
        frames = (
            ("Spool Server", 0x104D3846C, "spool_one + 0 (spool.c:24)"),
            ("Spool Server", 0x104D3846C, "start + 52 (spool.c:32)"),
            ("dyld", 0x18576A274, "0x18576a000 + 628"),
            ("???", 0x12345678, "???"),
        )
        lines = ["%-4d%-30s\t0x%016x %s\n" % (number, *frame) for number, frame in enumerate(frames)]
        came = self.report(self.file("some", source("mac").replace(self.line, addresses)), "shipped")
        self.is_printed(came, self.names.replace(self.ours, "".join(lines).encode()))
        counts = came.error_lines[-1].partition(";")[0]
        self.assertEqual(counts, "7 of 13 frames named, 1 named before, 5 not named")

    def test_none_has_a_name(self) -> None:
        """The line stays."""
        addresses = b"(0x18576a274 0x12345678)"
        came = self.report(self.file("none", source("mac").replace(self.line, addresses)), "shipped")
        self.is_printed(came, self.names.replace(self.ours, addresses + b"\n"))

    def test_after_another_heading(self) -> None:
        other = self.file("other", source("mac").replace(b"Last Exception Backtrace", b"Other Addresses"))
        self.assertEqual(self.report(other, "shipped").out.count(self.line), 1)


def with_frames(frames: str) -> bytes:
    """An .ips without a first line that has these frames and one image."""
    image = f'{{"uuid":"{SPOOL}","arch":"arm64","name":"sp\xf6\xfel"}}'
    return f'{{"threads":[{{"frames":[{frames}]}}],"usedImages":[{image}]}}'.encode("latin-1")


class KindsOfFrames(ReportCase):
    """Frames that are named before and that are not, in no image that is listed, and those that were inlined."""

    def test_named_before_and_not(self) -> None:
        more = b"4   other   0x0000000200000000 other + 12\n5   other   0x0000000200000000 ???\n"
        more += b"6   other   0x0000000200000000 0x1f0000000 + 7\n7   other   0x0000000200000000 main + 12\n"
        begin, end = b"\nBinary Images", more + b"\nBinary Images"
        counts = "4 of 8 frames named, 1 named before, 3 not named", "4 of images that the report does not list"
        path = self.file("names", source("crash").replace(begin, end))
        names = named("crash").replace(begin, end)
        self.prints([path, "shipped"], names, *counts, f"by dSYM: spool {SPOOL} arm64")

    def test_a_first_frame_that_was_inlined(self) -> None:
        """The next one is where the thread was, and where a function begins."""
        begin = b"\nBinary Images"
        more = b"\nThread 1:\n0   spool   0x0000000104d3846c copy_more + 4 [inlined] (spool.c:12)\n"
        more += b"1   spool   0x0000000104d3846c "
        path = self.file("inlined", source("crash").replace(begin, more + b"0x104d38000 + 1132\n" + begin))
        names = named("crash").replace(begin, more + b"spool_one + 0 (spool.c:24)\n" + begin)
        self.is_printed(self.report(path, "shipped"), names)

    def test_a_first_frame_that_was_inlined_in_json(self) -> None:
        inlined, frame = '{"imageOffset":1132,"imageIndex":0,"inline":true}', '{"imageOffset":1132,"imageIndex":0'
        added = [',"symbol":"spool_one","symbolLocation":0', ',"symbol":"start","symbolLocation":52']
        added = [f'{one},"sourceFile":"spool.c","sourceLine":{line}}}' for one, line in zip(added, (24, 32))]
        path = self.file("ips", with_frames(",".join([inlined, frame + "}", inlined, frame + "}"])))
        names = with_frames(",".join([inlined, frame + added[0], inlined, frame + added[1]]))
        self.is_printed(self.report(path, "shipped"), names)

    def test_a_frame_in_the_place_of_an_offset(self) -> None:
        frame = '{"imageOffset":1132,"imageIndex":0}'
        data = with_frames(f'{{"imageOffset":1040,"imageIndex":0,"symbol":"x","symbolLocation":[{frame}]}}')
        names = with_frames('{"imageOffset":1040,"imageIndex":0,"sourceFile":"spool.c","sourceLine":9,'
                            '"symbol":"copy_body","symbolLocation":12}')
        self.is_printed(self.report(self.file("within", data), "shipped"), names)


class FullReports(ReportCase):
    """A report after a text, as JSON."""

    heading = b"\n-----------\nFull Report\n-----------\n\n"

    def test_both_are_named(self) -> None:
        data, names = source("mac") + self.heading + source("ips"), named("mac") + self.heading + named("ips")
        for end in (b"\n", b"\r\n"):
            with self.subTest(end):
                came = self.report(self.file("mac", data.replace(b"\n", end)), "shipped")
                self.is_printed(came, names.replace(b"\n", end))
                counts = came.error_lines[-1].partition(";")[0]
                self.assertEqual(counts, "11 of 16 frames named, 2 named before, 3 not named")

    def test_as_text(self) -> None:
        """The full report repeats the text, and is left out."""
        data = source("mac") + self.heading + source("ips")
        for end in (b"\n", b"\r\n"):
            with self.subTest(end):
                came = self.report("--text", self.file("mac", data.replace(b"\n", end)), "shipped")
                self.is_printed(came, named("mac").replace(b"\n", end) + end)
                self.assertIn("Full Report is omitted", came.error_lines[0])
                self.assertEqual(came.status, 0)

    def test_one_that_is_none(self) -> None:
        path = self.file("damaged", source("mac") + self.heading + b"{no JSON}\n")
        came = self.report(path, "shipped")
        self.is_printed(came, named("mac") + self.heading + b"{no JSON}\n")
        self.assertIn("Full Report is left as it is", came.error_lines[0])


class Again(ReportCase):
    """What was printed is a report, of which the same is printed."""

    def test_forms(self) -> None:
        for archive in ("shipped", "both"):
            forms = forms_of(archive)
            made, _ = self.written([self.file(f"again/{form}", named(form)) for form in forms], archive)
            for form in forms:
                with self.subTest(form):
                    self.assertEqual(made.get(form), named(form))

    def test_answers_that_differ(self) -> None:
        differ = self.file("ips-differ", named("ips-differ"))
        self.is_printed(self.report(differ, "differ"), "ips-differ")
        self.is_printed(self.report(differ, "shipped"), "ips")
        one = self.report("--no-lines", FORMS["ips"].path, "shipped").out
        self.is_printed(self.report(self.file("ips", one), "differ"), "ips-differ")


# Values of all kinds in the places of others.
VALUES = f"""[
{{"threads":[{{"frames":[{{"imageOffset":1,"imageIndex":1,"symbol":[],"sourceFile":{{}}}},
{{"imageOffset":8,"imageIndex":2,"symbol":5}},
{{"imageOffset":8,"imageIndex":3,"symbol":{{"a":[]}}}}],"name":{{"a":[1]}},
"queue":[[]],"triggered":[],"threadState":{{"x":1,"flavor":{{}},"lr":9}}}},
{{"frames":[{{"imageOffset":1,"imageIndex":6}}],"triggered":1,
"threadState":{{"x":[{{"value":"x"}},7],"flavor":[],"lr":{{"value":-9}}}}}}],
"asi":[],"exception":5,"osVersion":"x","termination":{{"code":{{}},"reasons":7,"details":[[],{{}},5]}},"bundleInfo":[],
"vmRegionInfo":[{{}}],"ktriageinfo":9,"asiBacktraces":[[[]],7,{{}},"x"],
"usedImages":[1,null,"x",[],{{"base":"x","name":[],"path":{{}},"uuid":7}},[7],
{{"uuid":"{SPOOL}","base":-5,"size":{{}}}}]}},
{{"callStacks":[{{"callStackRootFrames":[{{"binaryName":[1],"address":"x","sampleCount":{{}}}},
{{"subFrames":{{}},"binaryUUID":[]}},7,[[]],
{{"subFrames":[1,[],{{"address":-7,"offsetIntoBinaryTextSegment":9}}]}}]}},[],5],
"callStackPerThread":null,"a":{{}}}}]""".encode()


def hostile_reports() -> Dict[str, bytes]:
    """Reports that nobody writes, by their names."""
    call = f'{{"binaryUUID":"{SPOOL}","offsetIntoBinaryTextSegment":1132,"subFrames":['
    frame, none = '{"imageOffset":1040,"imageIndex":0}', '{"imageOffset":0,"imageIndex":0}'
    number = "9" * 30
    return {
        "deep": b"[" * 200_000,
        "deep stacks": ('{"callStacks":[{"callStackRootFrames":[' + call * 20_000).encode(),
        "deep reasons": with_frames(frame)[:-1] + b',"termination":{"reasons":' + b"[" * 900 + b"]" * 900 + b"}}",
        "negative": with_frames(f'{{"imageOffset":-1,"imageIndex":-1}},{none},{none}'),
        "huge": with_frames(f'{{"imageOffset":{number},"imageIndex":{number}}}'),
        "long": with_frames(f'{{"imageOffset":1,"imageIndex":{"9" * 9000}}}'),
        "types": with_frames(
            f'{{"imageOffset":true,"imageIndex":0}},{{"imageOffset":1.5,"imageIndex":null}},[],{{}},1,"x",{frame}'
        ),
        "bytes": with_frames('{"imageOffset":1040,"symbol":"\\ud800\xff","imageIndex":0,"\xff":"\xfe"}'),
        "surrogates": with_frames(frame).replace(b"sp\xf6\xfel", b"sp\\ud83d").replace(b"arm64", b"arm\\udead"),
        "values": VALUES,
        "headings": b"Binary Images:\n" * 2000,
        "nothing": b"",
        "zeros": bytes(5000),
        "odd": b"\xff\xfeP",
        "brace": b"{",
        "line": b"0x" * 60_000,
        "frames": b"0   x   0x" + b"f" * 40 + b" \n0   x   0xffffffffffffffff x\n0   x   0x0 x\n1   x   0x0 x\n"
        b"Binary Images:\n0x0 - 0xffffffffffffffff x arm64 <" + SPOOL.encode() + b"> x\n",
    }


class Hostile(ReportCase):
    """Reports that nobody writes: each has a result, and none a traceback."""

    seconds = 8

    def test_each_has_a_result(self) -> None:
        for name, data in hostile_reports().items():
            path = self.file(name, data)
            for flag in ("", "--text", "--missing"):
                with self.subTest(f"{name} {flag}"):
                    came = self.report(*([flag] if flag else []), path, "shipped")
                    self.assertIn(came.status, (0, 1, 2))
                    self.assertTrue(came.errors or flag == "--missing")
                    self.assertNotIn(b"Traceback", came.errors)

    def test_a_frame_among_what_is_none(self) -> None:
        came = self.report(self.file("types", hostile_reports()["types"]), "shipped")
        frame = b'{"imageOffset":1040,"imageIndex":0,"symbol":"copy_body","symbolLocation":12'
        self.assertIn(frame + b',"sourceFile":"spool.c","sourceLine":9}', came.out)
        self.assertTrue(came.error_lines[-1].startswith("1 of 1 "), came.errors)

    def test_bytes_that_are_no_utf_8(self) -> None:
        came = self.report(self.file("bytes", hostile_reports()["bytes"]), "shipped")
        wanted = b'{"imageOffset":1040,"symbol":"copy_body","imageIndex":0,"\xff":"\xfe","symbolLocation":12'
        self.assertIn(wanted + b',"sourceFile":"spool.c","sourceLine":9}', came.out)
