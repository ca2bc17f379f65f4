"""symbolicate-report with folders of reports, and `--group`."""
import json
import os
import re
import signal
import subprocess
import sys
from typing import Any, Dict, List, Optional, Sequence, Tuple

from .support.kills import interrupted
from .support.program import MOST_SECONDS, call, symarch
from .support.reports import CRASHES, FIXTURES, TOOL, ReportCase, named, source
from .support.waits import wait_until

COPY = "copy_body (spool); file_message (spool); spool_one (spool)"
NO_THREAD = "no crashed thread"


def without_top(data: bytes) -> bytes:
    """A crash of another place: that of the second frame."""
    return re.sub(rb"^0 .*\n", b"", data, count=1, flags=re.M)


def thrown(name: str, more: bytes) -> bytes:
    """A crash by an exception: the frames of the throw, then those of spool, and a thread that ends in `abort`, of
    which one report knows the names."""
    throw = [b"0   CoreFoundation   0x000000019a2b3c4d __exceptionPreprocess + 164",
             b"1   libobjc.A.dylib   0x000000019a1b3c4d objc_exception_throw + 60"]  # fmt: skip
    frames = [b"%d   spool   %b 0x104d38000 + 1" % (at, address) for at, address in
              ((2, b"0x104d38410"), (3, b"0x104d383f8"), (4, b"0x104d384ac"))]  # fmt: skip
    backtrace = b"\n".join([b"Last Exception Backtrace:", *throw, *frames, b"", b""])
    crash = source("crash")
    abort = b"0   libsystem_%b.dylib   0x000000019b000001 __pthread_kill + 8\n" % (more + name.encode())
    heading, _, rest = crash[crash.index(b"Thread 0 Crashed") :].partition(b"\n")
    return crash[: crash.index(b"Thread 0 Crashed")] + backtrace + heading + b"\n" + abort + rest


class GroupCase(ReportCase):
    def grouped(self, words: Sequence[Any], *wanted: str, status: int = 0, said: Optional[List[str]] = None) -> None:
        """Fails where other lines are printed. Without `said` one line is on standard error, the counts."""
        came = self.report("--group", *words)
        lines = self.shortened(came)
        printed = [line.replace(f"{self.folder}/", "") for line in came.lines]
        self.assertEqual((printed, came.status), (list(wanted), status), came.errors)
        self.assertEqual(lines[:-1], said or [])
        self.assertRegex(lines[-1], r"^\d+ of \d+ frames named, ")


class Folders(GroupCase):
    """A folder stands for the reports below it."""

    def test_nested(self) -> None:
        for name, form in (("b.crash", "crash"), ("a/z.ips", "ips"), ("c/d/mail.txt", "sample"), ("c/bare", "mac")):
            self.file(f"in/{name}", source(form))
        self.file("in/coded", source("older").decode().encode("utf-16-le"))
        made, came = self.made("in")
        self.assertEqual((came.status, made), (0, {
            "b.crash": named("crash"), "a/z.ips": named("ips"), "c/d/mail.txt": named("sample"),
            "c/bare": named("mac"), "coded": named("older").decode().encode("utf-16-le"),
        }))
        order = [line.partition(": ")[0] for line in self.shortened(came)]
        self.assertEqual(order[:-1], ["in/a/z.ips", "in/b.crash", "in/c/bare", "in/c/d/mail.txt", "in/coded"])

    def test_what_is_no_report(self) -> None:
        """It is passed over in a folder, and refused by its name."""
        self.file("in/a.crash", source("crash"))
        none = self.file("in/notes.txt", "no report\n")
        self.file("in/some.json", '{"a": 1}')
        self.file("in/asked.txt", (CRASHES / "three.frames").read_bytes())
        self.file("in/builds.sym", (self.archives / "shipped").read_bytes())
        os.mkfifo(self.folder / "in/pipe.crash")
        made, came = self.made("in")
        self.assertEqual((came.status, list(made), len(came.error_lines)), (0, ["a.crash"], 2), came.errors)
        said = "symbolicate-report: in/notes.txt: no report of a known kind: no stack frames"
        self.grouped(["in", none, "shipped"], f"1\t{COPY}\tin/a.crash", status=2, said=[said])

    def test_one_that_is_refused(self) -> None:
        """What is called a report, or begins as one, is not lost without a word."""
        self.file("in/a.crash", source("crash"))
        self.file("in/b.ips", b"")
        self.file("in/c", source("crash")[:200])
        said = [
            "symbolicate-report: in/b.ips: no report of a known kind: no stack frames",
            "symbolicate-report: in/c: no report of a known kind: no stack frames; "
            "it ends at line 5, byte 200, within a line",
        ]
        self.grouped(["in", "shipped"], f"1\t{COPY}\tin/a.crash", status=2, said=said)

    def test_without_a_report(self) -> None:
        (self.folder / "bare/deep").mkdir(parents=True)
        self.file("none/notes", "no report\n")
        for name in ("bare", "none"):
            said = f"symbolicate-report: {name}: no report in this folder"
            self.is_refused(["--missing", name, "shipped"], said)
            self.is_refused(["--group", name, "shipped"], said)
            self.is_refused(["--out", "out", name, "shipped"], said)

    def test_links(self) -> None:
        """Those in a folder are not followed, and one that is named is."""
        self.file("in/a.crash", source("crash"))
        self.file("else/b.crash", source("crash"))
        (self.folder / "in/b.crash").symlink_to(self.folder / "else/b.crash")
        (self.folder / "in/deep").symlink_to(self.folder / "else")
        (self.folder / "in/round").symlink_to(self.folder / "in")
        (self.folder / "link").symlink_to(self.folder / "in")
        self.grouped(["in", "shipped"], f"1\t{COPY}\tin/a.crash")
        self.grouped(["link", "shipped"], f"1\t{COPY}\tlink/a.crash")
        self.grouped(["else", "link", "in", "shipped"], f"2\t{COPY}\telse/b.crash")

    def test_words(self) -> None:
        """A folder is several reports, and no archive."""
        self.file("in/a.crash", source("crash"))
        refused = (
            (["in", "shipped"], "in may hold several reports: add --out NEWFOLDER, or --group"),
            (["in"], "there is no archive after in"),
            (["--group", "in", "in"], "there is no archive after in"),
            (["shipped", "in"], "shipped is an archive, and belongs after the reports: "
             "symbolicate-report --out FOLDER in shipped"),
            (["--group", "shipped", "in"], "shipped is an archive, and belongs after the reports: "
             "symbolicate-report --group in shipped"),
        )
        for words, why in refused:
            came = self.report(*words)
            line = self.shortened(came)[-1]
            self.assertEqual((came.status, came.out, line), (3, b"", f"symbolicate-report: {why}"), words)

    def test_two_of_one_name(self) -> None:
        """They are written as they stand below their folders, and what is no report hinders nothing. Two that would be
        one file are not written."""
        for name in ("in/a", "in/b"):
            self.file(f"{name}/notes.txt", "no report\n")
            self.file(f"{name}/one.crash", source("crash"))
        wanted = {"a/one.crash": named("crash"), "b/one.crash": named("crash")}
        self.assertEqual((self.made("in")[0], self.made("in/a", "in/b")[0]), (wanted, wanted))
        self.file("other/a/one.crash", source("crash"))
        came = self.report("--out", "new", "in/a", "other/a", "shipped")
        why = "symbolicate-report: in/a/one.crash and other/a/one.crash would both be written to new/a/one.crash"
        self.assertEqual((came.status, came.error_lines), (3, [why]))
        self.assertFalse((self.folder / "new").exists())

    def made(self, *words: Any) -> Any:
        return self.written(words, "shipped")


class Groups(GroupCase):
    """Reports whose crashed threads have the same top frames."""

    def test_two_that_are_equal_and_another_one(self) -> None:
        """Also of other forms: a crash and an .ips."""
        self.file("in/a.crash", without_top(source("crash")))
        self.file("in/b.crash", source("crash"))
        self.file("in/c.ips", source("ips"))
        other = "1\tfile_message (spool); spool_one (spool); start (spool)\tin/a.crash"
        self.grouped(["in", "shipped"], f"2\t{COPY}\tin/b.crash", other)
        underscored = f"2\t_{COPY.replace('; ', '; _')}\tin/b.crash"
        self.assertEqual(self.report("--group", "--raw", "in", "shipped").lines[0], underscored)

    def test_each_form(self) -> None:
        paths = [FIXTURES / name for name in ("older.ips", "metrickit.json", "mac.crash", "hang.ips", "stackshot.ips")]
        came = self.report("--group", *paths, FIXTURES / "spool.sample.txt", "shipped")
        self.assertEqual([line.rpartition("\t")[0] for line in came.lines], [
            f"3\t{NO_THREAD}",
            "1\tcopy_body (Spool Server); file_message (Spool Server)",
            "1\tcopy_body (spool); file_message (spool); start (libdyld.dylib)",
            "1\tspool_one (spool); start (spool); dyld + 25204",
        ])

    def test_an_exception(self) -> None:
        """That nothing caught: by its backtrace, and not by `abort` in the thread that crashed. The frames of the
        throw are in all of these. The names are those of `llvm-nm`."""
        lines = {name: thrown(name, more) for name, more in (("a", b""), ("b", b"_"), ("c", b""))}
        self.file("in/a.crash", lines["a"])
        self.file("in/b.crash", lines["b"])
        self.file("in/c.crash", lines["c"].replace(b"0x104d38410", b"0x104d38470"))
        self.grouped(
            ["in", "shipped"],
            "2\t" + COPY.replace("spool_one", "shelf_of") + "\tin/a.crash",
            "1\tspool_one (spool); file_message (spool); shelf_of (spool)\tin/c.crash",
        )

    def test_an_exception_in_other_forms(self) -> None:
        """As a line of addresses, and in JSON; a report whose list is empty has none, and no frame may be known."""
        line = b"Last Exception Backtrace:\n(0x104d38470 0x104d383f8)\n\n"
        crash = source("crash")
        self.file("in/a.crash", crash.replace(b"Thread 0 Crashed", line + b"Thread 0 Crashed", 1))
        frames: Dict[str, List[Tuple[int, int]]] = {"b": [(1136, 0), (1016, 0)], "c": [], "d": [(3, 1), (5, 1), (7, 1)]}
        for name, backtrace in frames.items():
            self.file(f"in/{name}.ips", self.with_exception(backtrace))
        self.grouped(
            ["in", "shipped"],
            "2\tspool_one (spool); file_message (spool)\tin/a.crash",
            f"1\t{COPY}\tin/c.ips",
            "1\tdyld + 3; dyld + 5; dyld + 7\tin/d.ips",
        )

    @staticmethod
    def with_exception(frames: List[Tuple[int, int]]) -> str:
        """An .ips with such a backtrace, of offsets and images."""
        first, _, rest = source("ips").decode().partition("\n")
        document = json.loads(rest)
        document["lastExceptionBacktrace"] = [{"imageOffset": at, "imageIndex": it} for at, it in frames]
        return f"{first}\n{json.dumps(document)}"

    def test_other_images(self) -> None:
        """Equal names in images of other names are other groups, also where the report alone says that a function was
        inlined."""
        for name in ("spool", "shelf"):
            self.file(f"in/{name}.crash", source("crash").replace(b"local/bin/spool", b"local/bin/" + name.encode()))
            self.file(f"in/{name}.ips", self.inlined(name))
        shelf = COPY.replace("spool)", "shelf)")
        self.grouped(["in", "shipped"], f"2\t{shelf}\tin/shelf.crash", f"2\t{COPY}\tin/spool.crash")
        self.grouped(
            ["in", "empty"],
            "1\tshelf + 1040; shelf + 1016; shelf + 1156\tin/shelf.crash",
            "1\tspool + 1040; spool + 1016; spool + 1156\tin/spool.crash",
            "1\twithin (shelf); shelf + 1040; shelf + 1016\tin/shelf.ips",
            "1\twithin (spool); spool + 1040; spool + 1016\tin/spool.ips",
            status=1,
        )

    @staticmethod
    def inlined(image: str) -> str:
        """An .ips whose image has this name, and on top a function that was inlined."""
        first, _, rest = source("ips").decode().partition("\n")
        document = json.loads(rest)
        thread = next(one for one in document["threads"] if one.get("triggered"))
        top = thread["frames"][0]
        thread["frames"].insert(0, {**top, "symbol": "within", "symbolLocation": 3, "inline": True})
        document["usedImages"][top["imageIndex"]]["name"] = image
        return f"{first}\n{json.dumps(document)}"

    def test_frames_without_a_name(self) -> None:
        """By the offset in the image, wherever it was loaded; an address in no image has none."""
        crash = source("crash")
        nowhere = re.sub(rb"^0 .*", b"0   ???   0x0000000000000008 ???", crash, flags=re.M)
        self.file("in/a.crash", crash)
        self.file("in/b.crash", crash.replace(b"0x104d3", b"0x204d3").replace(b"0x0000000104d3", b"0x0000000204d3"))
        self.file("in/c.crash", nowhere)
        callers = "spool + 1016; spool + 1156"
        lines = f"2\tspool + 1040; {callers}\tin/a.crash", f"1\t???; {callers}\tin/c.crash"
        self.grouped(["in", "empty"], *lines, status=1)

    def test_status(self) -> None:
        """That of the reports."""
        crash, absent = CRASHES / "arm64.crash", self.folder / "absent.crash"
        line = f"1\t{COPY}\t{crash}"
        said = ["symbolicate-report: absent.crash: No such file or directory"]
        self.grouped([crash, "shipped"], line)
        self.grouped([absent, crash, "shipped"], line, status=2, said=said)
        self.is_refused(["--group", absent, "shipped"], *said)

    def test_standard_input(self) -> None:
        came = self.report("--group", "-", CRASHES / "arm64.ips", "shipped", stdin=source("crash"))
        self.assertEqual((came.lines, came.status), ([f"2\t{COPY}\tstandard input"], 0))

    def test_a_path_with_a_newline(self) -> None:
        self.file("in/a\nb.crash", source("crash"))
        self.grouped(["in", "shipped"], f"1\t{COPY}\tin/a\\x0ab.crash")

    def test_words(self) -> None:
        crash = CRASHES / "arm64.crash"
        beside = "--group prints no report, so {} may not be used with it"
        refused: Sequence[Any] = (
            (["--text"], beside.format("--text")),
            (["--out", "out"], beside.format("--out")),
            (["--missing"], "--missing allows only --counts or --json"),
            (["--group"], "--group is repeated"),
            (["--raw", "--demangle"], "--raw keeps names that --demangle changes: use one"),
        )
        for words, why in refused:
            came = self.report("--group", *words, crash, crash, "shipped")
            line = f"symbolicate-report: {why}"
            self.assertEqual((came.status, came.out, came.error_lines[-1]), (3, b"", line), words)

    def test_nobody_reads(self) -> None:
        reader, writer = os.pipe()
        os.close(reader)
        with open(writer, "wb") as pipe:
            came = self.report("--group", CRASHES / "arm64.crash", "shipped", stdout=pipe)
        self.assertEqual((came.status, came.errors), (-signal.SIGPIPE, b""))


class Signals(GroupCase):
    """A Ctrl-C ends the tool without a word."""

    def test_while_it_begins(self) -> None:
        words = interrupted("tempfile", TOOL, "--group", str(CRASHES), "shipped")
        came = call(words, cwd=self.archives, environment={"SYMARCH": symarch})
        self.assertEqual((came.status, came.errors), (-signal.SIGINT, b""))

    def test_while_the_program_runs(self) -> None:
        begun = self.folder / "begun"
        self.file("in/a.crash", source("crash"))
        environment = {**os.environ, "SYMARCH": self.script("slow", f'echo $$ >"{begun}"; exec sleep 6000')}
        words: List[Any] = [sys.executable, "-B", TOOL, "--group", self.folder / "in", self.archives / "shipped"]
        pipe = subprocess.PIPE
        with subprocess.Popen(words, env=environment, stdout=pipe, stderr=pipe) as run:
            wait_until(lambda: begun.exists() and begun.read_text(), run)
            run.send_signal(signal.SIGINT)
            self.assertEqual((run.communicate(timeout=MOST_SECONDS), run.returncode), ((b"", b""), -signal.SIGINT))
