"""symbolicate-report --json: an object for each report, with the source of the names of its images, and an `end`."""
import json
import os
import re
import signal
import subprocess
from typing import Any, Dict, List, Tuple

from .support import kept_lines
from .support.program import Ended
from .support.reports import CRASHES, DYLD, FIXTURES, FORMS, SPOOL, SPOOL_X86_64, ReportCase, program, source

FRAMES = ["named", "named_before", "several", "not_named", "not_listed"]
KEYS_OF_FRAME = ["type", "number", "caller", "image", "uuid", "arch", "image_offset", "function", "offset", "file",
                 "line", "inlined", "several", "named_before", "path", "path_hex"]  # fmt: skip


class Json(ReportCase):
    """Standard output has JSON and nothing else, and standard error what it has without it."""

    seconds = 10

    def objects(self, *words: Any, status: int = 0, **how: Any) -> Tuple[List[Dict[str, Any]], Dict[str, Any], Ended]:
        came = self.report("--json", *words, **how)
        *found, end = [json.loads(line) for line in came.out.decode().splitlines()]
        self.assertEqual((came.status, end["status"]), (status, status), came.errors)
        self.assertEqual([*end], ["type", "reports", "frames", "faults", "status"])
        for one in [*found, end]:
            if isinstance(one.get("frames"), dict):
                self.assertEqual(sorted(one["frames"]), sorted(FRAMES))
        return found, end, came

    def image(self, name: str, uuid: str, arch: Any, word: str, *others: str) -> Dict[str, Any]:
        return {"name": name, "uuid": uuid, "arch": arch, "answered_by": word, "others": list(others)}

    def test_a_report(self) -> None:
        """The counts are those of the line on standard error, and nothing is printed of the report."""
        found, end, came = self.objects(CRASHES / "arm64.ips", "shipped")
        (one,) = found
        images = [self.image("spool", SPOOL, "arm64", "dsym"), self.image("dyld", DYLD, "arm64e", "absent")]
        self.assertEqual([*one], ["type", "path", "path_hex", "frames", "images", "faults"])
        self.assertEqual((one["path"], one["path_hex"], one["images"]), (str(CRASHES / "arm64.ips"), None, images))
        self.assertEqual(one["frames"], dict(zip(FRAMES, (4, 1, 0, 0, 0))))
        self.assertEqual((end["reports"], end["frames"], end["faults"]), (1, one["frames"], []))
        self.assertEqual(came.errors, self.report(CRASHES / "arm64.ips", "shipped").errors)

    def test_what_answered(self) -> None:
        """Each word of it."""
        crash = CRASHES / "arm64.ips"
        for archive, word, status in (("alike", "image", 0), ("empty", "absent", 1)):
            found, _, _ = self.objects(crash, archive, status=status)
            self.assertEqual(found[0]["images"][0]["answered_by"], word)
        both = ["arm64", "arm64e"]
        several = ("arm64e", "shipped", 0, "dsym", both[:1]), ("x86_64h", "two", 1, "other_architecture", both)
        for arch, archive, status, word, others in several:
            path = self.file("x.crash", source("crash").replace(b"spool arm64 <", b"spool %b <" % arch.encode()))
            found, _, _ = self.objects(path, archive, status=status)
            self.assertEqual(found[0]["images"], [self.image("spool", SPOOL, arch, word, *others)])
        pipe = self.folder / "archive.pipe"
        os.mkfifo(pipe)
        with subprocess.Popen(["cp", self.archives / "shipped", pipe]):
            found, _, _ = self.objects(crash, pipe)
        self.assertEqual(found[0]["images"][0]["answered_by"], "dsym")

    def test_several(self) -> None:
        """A line for each, also of those that are refused and of those in a folder; without --out none is written."""
        self.file("in/a.crash", source("crash"))
        self.file("in/b.ips", b"")
        os.rename(self.file("in/x", source("crash")), os.fsencode(self.folder / "in") + b"/\xff.crash")
        cut = self.file("cut.crash", source("crash")[:-1])
        found, end, came = self.objects("in", cut, self.folder / "gone", "shipped", status=2)
        types = [(it["type"], it["path"].rpartition("/")[2]) for it in found]
        wanted = [("report", "a.crash"), ("report", "\ufffd.crash"), ("report", "cut.crash")]
        self.assertEqual(types, [*wanted, ("refused", "b.ips"), ("refused", "gone")])
        self.assertEqual([it["path_hex"] for it in found[:2]], [None, b"in/\xff.crash".hex()])
        self.assertIn("within a line", found[2]["faults"][0])
        said = [f"symbolicate-report: {it}" for it in end["faults"]]
        self.assertEqual(said, came.errors.decode().splitlines()[:-1])
        self.assertEqual((len(said), end["reports"]), (3, 3))

    def test_written_too(self) -> None:
        """With --out the reports are as without it."""
        paths = [CRASHES / "arm64.crash", FIXTURES / "older.ips"]
        made, came = self.written(paths, "shipped", "--json")
        without, other = self.written(paths, "shipped")
        self.assertEqual((made, came.errors.replace(b"made", b""), len(came.lines)), (without, other.errors, 3))

    def test_what_fails(self) -> None:
        crash = CRASHES / "arm64.crash"
        failing: List[Tuple[List[Any], int, str]] = [
            ([crash, "gone.sym"], 2, "gone.sym: No such file; symarch-keep add makes an archive"),
            (["gone.ips", "shipped"], 2, "gone.ips: No such file or directory"),
            (["--out", "/dev/null", crash, "shipped"], 2, "--out needs a folder, and /dev/null is a file"),
        ]
        for words, status, fault in failing:
            found, end, _ = self.objects(*words, status=status)
            self.assertEqual((end["faults"][0], end["images"] if "images" in end else None), (fault, None))
            self.assertEqual(end["reports"], 0 if "gone.ips" in words else None)
        gone = {"SYMARCH": "/gone"}
        end = self.objects(crash, "shipped", status=126, environment=gone)[1]
        self.assertEqual(end["frames"], None)

    def test_words(self) -> None:
        crash = CRASHES / "arm64.crash"
        for words, why in (
            (["--missing", "--text"], "--missing allows only --counts or --json"),
            (["--group"], "--group prints no report, so --json may not be used with it"),
        ):
            came = self.report("--json", *words, crash, "shipped")
            self.assertEqual((came.status, came.out), (3, b""))
            self.assertEqual(came.error_lines[-1], f"symbolicate-report: {why}")

    def test_frames(self) -> None:
        """Each frame stands before its report: where it is, and what the archive says, as the report with names has it
        and as `llvm-symbolizer` names lines."""
        found, end, _ = self.objects("--frames", CRASHES / "arm64.ips", "shipped")
        *frames, report = found
        places = [("spool", SPOOL, "arm64", offset) for offset in (1040, 1016, 1156, 1128)]
        said = [("copy_body", 12, "spool.c", 9), ("file_message", 32, "spool.c", 21), ("spool_one", 24, "spool.c", 26),
                ("start", 48, "spool.c", 31)]  # fmt: skip
        wanted = [dict(zip(KEYS_OF_FRAME, ("frame", at, at + 1, *place, *one, [], [], False, report["path"], None)))
                  for at, (place, one) in enumerate(zip(places, said))]  # fmt: skip
        last: List[Any] = ["frame", 4, None, "dyld", DYLD, "arm64e", 25204, *[None] * 4, [], [], True]
        wanted.append(dict(zip(KEYS_OF_FRAME, [*last, report["path"], None])))
        self.assertEqual(frames, wanted)
        self.assertEqual((report["type"], end["reports"]), ("report", 1))
        without = self.objects(CRASHES / "arm64.ips", "shipped")[0]
        self.assertEqual(without, [report])
        names = self.objects("--frames", "--no-lines", "--raw", CRASHES / "arm64.ips", "shipped")[0]
        raw = [(it["function"], it["file"]) for it in names[:2]]
        self.assertEqual(raw, [("_copy_body", None), ("_file_message", None)])

    def test_frames_with_inlined_functions(self) -> None:
        """As `llvm-symbolizer` says of the addresses, whether the report has them or not."""
        archive = self.folder / "lines.sym"
        program("admit", self.archives / "empty", archive, kept_lines.SOURCES / "arm64-2-dsymutil.dsym")
        spans = next(one.said for one in kept_lines.kept() if one.name == "arm64-2-dsymutil").spans
        for name in ("inlined.crash", "system.crash"):
            with self.subTest(name):
                found, _, _ = self.objects("--frames", "--paths", FIXTURES / name, archive)
                frames = [it for it in found if it["type"] == "frame" and it["image"] == "lines"]
                self.assertGreater(len(frames), 3)
                for it in frames:
                    is_return = any(one["caller"] == it["number"] for one in found[:-1])
                    asked = 0x100000000 + it["image_offset"] - is_return
                    lines = next(lines for first, last, lines in spans if first <= asked < last)
                    own = {"function": it["function"], "file": it["file"], "line": it["line"]}
                    said = [f"{one['function']} at {one['file']}:{one['line']}" for one in [*it["inlined"], own]]
                    self.assertEqual(said, [line.strip().rpartition(":")[0] for line in lines])

    def test_frames_of_a_tree(self) -> None:
        """A frame of a tree has the one above it as its caller, as `sample` sets it in."""
        text = source("sample").decode()
        found, _, _ = self.objects("--frames", FORMS["sample"].path, "shipped")
        frames = [it for it in found if it["type"] == "frame"]
        tree = text.partition("Call graph:")[2].partition("Total number in stack")[0]
        wanted: List[Any] = []
        # The columns of the lines that are not closed, and the first frame of each.
        above: List[Tuple[int, int]] = []
        for line in (it for it in tree.splitlines() if "[0x" in it):
            column = len(line) - len(line.lstrip(" +!:|"))
            above = [it for it in above if it[0] < column]
            caller = above[-1][1] if above else None
            above.append((column, len(wanted)))
            wanted += [caller] * line.partition("[")[2].count("0x")
        self.assertEqual(len(wanted), 13)
        self.assertEqual([it["caller"] for it in frames[: len(wanted)]], wanted)

    def test_frames_with_several_answers(self) -> None:
        found, _, _ = self.objects("--frames", CRASHES / "arm64.crash", "differ")
        several = [it for it in found if it.get("several")]
        self.assertTrue(several)
        for it in several:
            self.assertEqual((it["function"], it["offset"], it["file"]), (None, None, None))
            self.assertGreater(len({(one["function"], one["offset"]) for one in it["several"]}), 1)
            digests = [digest for one in it["several"] for digest in one["digests"]]
            self.assertEqual([one for one in digests if not re.fullmatch("[0-9a-f]{64}", one)], [])

    def test_names_that_are_no_text(self) -> None:
        """JSON of a report may escape what is no character; the line is UTF-8 all the same."""
        first, _, rest = source("ips").decode().partition("\n")
        document = json.loads(rest)
        document["usedImages"][0]["name"] = "cut \ud83d"
        path = self.file("x.ips", f"{first}\n{json.dumps(document)}")
        found, _, _ = self.objects(path, "shipped")
        self.assertEqual(found[0]["images"][0]["name"], "cut \ufffd")

    def test_x86_64(self) -> None:
        """An image whose architecture the report does not state."""
        found, _, _ = self.objects(CRASHES / "x86_64.crash", "shipped")
        self.assertEqual(found[0]["images"][0], self.image("spool", SPOOL_X86_64, None, "dsym"))

    def test_nobody_reads(self) -> None:
        reader, writer = os.pipe()
        os.close(reader)
        with open(writer, "wb") as pipe:
            came = self.report("--json", CRASHES / "arm64.crash", "shipped", stdout=pipe)
        self.assertEqual((came.status, len(came.error_lines)), (-signal.SIGPIPE, 1))
