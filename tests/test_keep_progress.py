"""Progress on a terminal: a line by a clock that the cases set, which is erased before other output."""
import os
import re
import signal
import subprocess
import sys
import unittest
from typing import Any, Dict, List, Optional, Tuple
from unittest import mock

from .support.cases import same
from .support.made_images import image, slice_words
from .support.program import MOST_SECONDS, TOP
from .support.rooms import Gate, RoomCase, change
from .support.sites import Site
from .support.terminals import WIPE, Terminal
from .support.waits import wait_until

sys.path.insert(0, str(TOP / "tools"))
from symarch_tools.console import progress  # noqa: E402

# Runs the tool by a clock that goes on by so many seconds whenever it is read.
CLOCKED = """import os, sys
step, sys.argv = float(sys.argv[1]), sys.argv[2:]
sys.path.insert(0, os.path.dirname(sys.argv[0]))
from symarch_tools.console.progress import progress
times = iter(range(1 << 60))
progress.clock = lambda: step * next(times)
sys.exit(__import__("symarch_tools.keep").keep.main())
"""
LEFT = r"\d+:\d\d left"


class TerminalCase(RoomCase):
    """Words that run on a terminal."""

    def start(self, terminal: Terminal, step: float, *words: Any, **more: Any) -> "subprocess.Popen[bytes]":
        """A word by a clock of steps, with a terminal as standard error."""
        before = [sys.executable, "-BI", "-c", CLOCKED, str(step)]
        streams: Dict[str, Any] = {"stderr": terminal.writer, **more}
        return self.room.start(*words, before=before, **streams)

    def shown(
        self, *words: Any, step: float = 1, columns: int = 80, status: int = 0, **more: Any
    ) -> Tuple[Terminal, List[str]]:
        """A terminal on which a word ended, and the lines on standard output."""
        terminal = Terminal(columns)
        with self.start(terminal, step, *words, **more) as process:
            out = (process.communicate(timeout=MOST_SECONDS)[0] or b"").decode().splitlines()
        terminal.close()
        same(f"status of {words[0]}", process.returncode, status)
        return terminal, out


class Shown(TerminalCase):
    """Each word with much to do, on a terminal."""

    is_side_by_side = True
    seconds = 20

    def is_shown(self, stage: str, *words: Any, **more: Any) -> None:
        """Fails where no line matches, or something of a line is left."""
        terminal, _ = self.shown(*words, columns=300, **more)
        self.is_left(stage, terminal)

    def is_shown_meanwhile(self, stage: str, *words: Any) -> None:
        """The same of a program that has written what it writes, and does not end before the line is there."""
        gate = Gate(self.room, "[!-]*", is_after=True)
        terminal = Terminal(300)
        with self.start(terminal, 1, *words, environment=gate.environment) as process:
            wait_until(lambda: re.search(stage, "\n".join(terminal.stages())), process)
            gate.open()
            process.communicate(timeout=MOST_SECONDS)
        terminal.close()
        gate.opened.unlink()
        same(f"status of {words[0]}", process.returncode, 0)
        self.is_left(stage, terminal)

    def is_left(self, stage: str, terminal: Terminal) -> None:
        self.assertRegex("\n".join(terminal.stages()), stage)
        for line in terminal.lines():
            self.assertRegex(line, "^symarch-keep: ")
        self.assertNotRegex("\n".join(terminal.lines()), f"{LEFT}|reading,|writing")

    def test_each_word(self) -> None:
        self.room.make_many(10, more=bytes(100_000))
        line = r"(?m)^reading: \d+ of 10 files, \d+ [kM]B of 1 MB, " + LEFT + "$"
        self.is_shown(line, "add", self.room.archive, "many")
        self.room.make_many(1, "more", bytes(100_000), 50)
        self.room.add("more")
        self.is_shown_meanwhile(rf"(?m)^writing, [\d.]+ [kM]B of 1 MB, {LEFT}$", "fold", self.room.archive)
        self.is_shown(rf"(?m)^reading, [\d.]+ [kM]B of 1 MB, {LEFT}$", "check", self.room.archive)
        names = [slice_words(image(number))[0] for number in range(3)]
        line = rf"(?m)^writing, \d+ kB of 300 kB, {LEFT}$"
        self.is_shown_meanwhile(line, "get", self.room.archive, *names, "--to", "out")
        good = self.room.path / "good.sym"
        good.write_bytes(self.room.archive.read_bytes())
        change(self.room.archive, 500_000)
        self.is_shown(rf"(?m)^writing, 1 MB of 1 MB, {LEFT}$", "repair", self.room.archive, good)

    def test_exchange(self) -> None:
        self.room.make_many(10, more=bytes(100_000))
        self.room.add("many")
        west = Site(self.room, "west")
        west.exchange()
        words = "exchange", self.room.archive, west.folder, "east"
        self.is_shown(rf"(?m)^answering west, \d+ [kM]B of 4 MB, {LEFT}$", *words)
        words = "exchange", west.archive, west.folder, "west"
        self.is_shown(rf"(?m)^fetching: 1 of 1 answers, \d+ [kM]B of 2 MB, {LEFT}$", *words)
        same("bytes", west.has(), self.room.archive.read_bytes())

    def test_one_terminal_for_both_streams(self) -> None:
        """The line is wiped before standard output is written."""
        self.room.make_many(3)
        terminal = Terminal()
        with self.start(terminal, 1, "add", self.room.archive, "many", stdout=terminal.writer) as process:
            process.communicate(timeout=MOST_SECONDS)
        self.assertIn("files", terminal.close())
        lines = [line for line in "\n".join(terminal.lines()).splitlines() if line[:6] == "added "]
        same("lines", len(lines), 3)
        same("rest", "reading:" in "".join(terminal.lines()), False)

    def test_a_narrow_terminal(self) -> None:
        """What does not fit is left out, so the line stays one."""
        self.room.make_many(12)
        terminal, _ = self.shown("add", self.room.archive, "many", columns=20)
        same("widest", max(map(len, terminal.stages()[:-2])), 19)
        same("left", [line for line in terminal.lines() if "reading" in line], [])

    def test_a_word_that_fails(self) -> None:
        self.room.make_many(3)
        self.room.add("many")
        self.room.make_many(1, "more", first=9)
        self.room.add("more")
        gate, terminal = Gate(self.room, "merge", '[ "$1" != merge ] || exit 5\nexec "$symarch" "$@"'), Terminal()
        with self.start(terminal, 1, "fold", self.room.archive, environment=gate.environment) as process:
            wait_until(lambda: "writing" in terminal.text, process)
            gate.open()
            process.communicate(timeout=MOST_SECONDS)
        terminal.close()
        same("status", process.returncode, 4)
        same("lines", terminal.lines(), ["symarch-keep: ; the archive is as it was"])

    def test_a_signal(self) -> None:
        """It leaves nothing on the terminal."""
        self.room.make_many(3)
        self.room.add("many")
        self.room.make_many(1, "more", first=9)
        self.room.add("more")
        gate, terminal = Gate(self.room, "merge"), Terminal()
        with self.start(terminal, 1, "fold", self.room.archive, environment=gate.environment) as process:
            wait_until(lambda: "writing" in terminal.text, process)
            process.send_signal(signal.SIGINT)
            process.communicate(timeout=MOST_SECONDS)
        terminal.close()
        same("status, lines", (process.returncode, terminal.lines()), (-signal.SIGINT, []))


class NotShown(TerminalCase):
    """Where no line is written."""

    seconds = 4

    def plain(self, *words: Any, **more: Any) -> None:
        terminal, _ = self.shown(*words, **more)
        self.assertNotIn("\x1b", terminal.text)
        self.assertNotIn("reading", terminal.text)

    def test_not_shown(self) -> None:
        self.room.make_many(12)
        self.plain("add", "--dry-run", self.room.archive, "many", step=0.001)
        self.plain("add", "--dry-run", self.room.archive, "many", environment={"TERM": "dumb"})
        terminal, _ = self.shown("add", "--quiet", self.room.archive, "many")
        same("a quiet one", terminal.text, "")
        terminal, _ = self.shown("check", "--quiet", self.room.archive)
        same("a quiet check", terminal.text, "")

    def test_a_pipe(self) -> None:
        self.room.make_many(12)
        before = [sys.executable, "-BI", "-c", CLOCKED, "1"]
        _, errors = self.room.call("add", self.room.archive, "many", before=before)
        same("errors", len(errors), 2)


class Clock(unittest.TestCase):
    """The line by a clock that is set, on a terminal of its own."""

    def setUp(self) -> None:
        self.terminal = Terminal()
        self.stream: Any = open(os.dup(self.terminal.writer), "w")
        self.now = 100.0
        self.line = progress.Progress(lambda: self.now)

    def written(self, *moves: Tuple[float, int], count: Optional[int] = None) -> List[str]:
        """What is written where at these times so many bytes are done."""
        with mock.patch.dict(os.environ, {"TERM": "xterm"}), mock.patch.object(sys, "stderr", self.stream):
            for at, done in moves:
                self.now = 100.0 + at
                self.line.show(count or 0, done)
        return self.stages()

    def stages(self) -> List[str]:
        os.write(self.terminal.writer, b"\n")
        wait_until(lambda: self.terminal.text.endswith("\n"))
        found, self.terminal.text = self.terminal.stages(), ""
        return found

    def tearDown(self) -> None:
        self.stream.close()
        self.terminal.close()

    def test_when_it_comes(self) -> None:
        """After two seconds of the work, and not more often than five times a second."""
        self.line.begin("reading", 100_000_000)
        same("before", self.written((0.1, 1), (1.99, 40_000_000)), [])
        came = self.written((2.0, 50_000_000), (2.1, 52_000_000), (2.25, 75_000_000))
        wanted = ["reading, 50 MB of 100 MB, 0:02 left", "reading, 75 MB of 100 MB, 0:01 left"]
        same("lines", came, wanted)

    def test_a_next_stage(self) -> None:
        """The two seconds are of the work, and what is left is of the stage: it is said once the stage has a speed."""
        self.line.begin("finding: {} files")
        same("without a size", self.written((3, 0), count=7), ["finding: 7 files"])
        self.line.begin("writing: {} of 9 slices", 8_000_000_000)
        moves = (3.5, 1_000_000_000), (4, 0), (5, 1_000_000_000), (6, 8_000_000_000), (7, 9_000_000_000)
        begins = "writing: 2 of 9 slices,"
        same("lines", self.written(*moves, count=2), [
            f"{begins} 1.0 GB of 8.0 GB",
            f"{begins} 0 bytes of 8.0 GB",
            f"{begins} 1.0 GB of 8.0 GB, 0:14 left",
            f"{begins} 8.0 GB of 8.0 GB, 0:00 left",
            f"{begins} 8.0 GB of 8.0 GB",
        ])

    def test_units(self) -> None:
        """A time that is too long to be known is not said."""
        self.line.begin("reading", 2_000_000_000_000)
        came = self.written((2, 1_000), (3, 5_000_000_000), (4, 999_000_000_000))
        same("lines", came, [
            "reading, 1 kB of 2.0 TB",
            "reading, 5.0 GB of 2.0 TB, 19:57 left",
            "reading, 999.0 GB of 2.0 TB, 0:04 left",
        ])
        self.line.begin("reading", 7_200_000_000)
        same("hours", self.written((7, 1_000_000)), ["reading, 1 MB of 7.2 GB, 5:59:57 left"])

    def test_wiped(self) -> None:
        """Once, and only if there is a line."""
        self.line.begin("reading", 10)
        with mock.patch.object(sys, "stderr", self.stream):
            self.line.wipe()
        self.written((2, 5))
        with mock.patch.object(sys, "stderr", self.stream):
            self.line.wipe()
            self.line.wipe()
        os.write(self.terminal.writer, b"\n")
        wait_until(lambda: self.terminal.text.endswith("\n"))
        same("written", self.terminal.text, f"{WIPE}\r\n")
