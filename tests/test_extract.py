"""That `extract` writes each slice as it was added, with and without an index, in the memory of a piece; and archives
that change meanwhile."""
import os
import pathlib
import select
import signal
import subprocess
from typing import Callable, Collection, Iterator, Optional

from .model.images import Image, parts_of_file, slice_of
from .support.case_slices import slices_of_cases
from .support.cases import Wrong, same
from .support.made_images import archive, image, index, operations, slice_words
from .support.program import MOST_SECONDS, TOP, symarch
from .support.waits import wait_until
from .test_inputs import LIMIT, InputsCase

# How many bytes of a slice are held.
PIECE = 1 << 16
FOLDERS = ("examples/crash", "examples/first", "tests/fixtures/lines")


def kept_slices() -> Iterator[bytes]:
    """The slices of the files of examples and fixtures."""
    for path in (path for folder in FOLDERS for path in sorted((TOP / folder).iterdir())):
        parts = parts_of_file(path.read_bytes())
        for part in () if isinstance(parts, str) else parts:
            if part is not None and isinstance(slice_of(part), Image):
                yield part


class Extract(InputsCase):
    """Bytes in are bytes out."""

    seconds = 60

    def come_out(self, made: Collection[bytes]) -> None:
        """Images, taken into an archive as operations, come out by their digests, with its index and without it."""
        self.put("empty.sym", archive([]))
        self.put("all.ops", operations(made))
        for words in (("apply", "empty.sym", "all.sym", "all.ops"), ("index", "all.sym", "all.idx")):
            came = self.run_program(*words)
            same(words[0], (came.status, came.error_lines), (0, []))
        for one in made:
            uuid, arch, digest = slice_words(one)
            line = f"slice {uuid} {arch} {digest}, {len(one)} bytes"
            plain = ["extract", "all.sym", uuid, arch, "out.sym", "--digest", digest]
            for asked in (plain, [*plain, "--index", "all.idx"]):
                same(f"{asked}", self.writes(one, *asked), [line])

    def test_slices_of_the_cases(self) -> None:
        """Each slice of each file of the cases."""
        made = {one for same_key in slices_of_cases().values() for one in same_key}
        self.assertGreater(len(made), 400)
        self.come_out(sorted(made))

    def test_kept_slices(self) -> None:
        """Each slice of the files that are kept here."""
        made = list(kept_slices())
        self.assertGreater(len(made), 15)
        self.come_out(made)

    def test_about_a_piece(self) -> None:
        """Slices of the bytes of one piece and of several, of one byte less and of one more."""
        sizes = [times * PIECE + more for times in (1, 2, 16) for more in (-1, 0, 1)]
        self.come_out([image(number, more=os.urandom(size - 56)) for number, size in enumerate(sizes)])

    def test_more_than_memory(self) -> None:
        """By an index a slice comes out that is larger than the memory which the command gets."""
        made = image(1, more=os.urandom(2 * LIMIT))
        self.put("one.sym", archive([made]))
        self.put("one.idx", index([made]))
        uuid, arch, _ = slice_words(made)
        self.writes(made, "extract", "one.sym", uuid, arch, "out.sym", "--index", "one.idx", limit=LIMIT)


class Changing(InputsCase):
    """An archive that changes once it was read, and before it is read again."""

    def setUp(self) -> None:
        super().setUp()
        self.made = image(1, more=os.urandom(1 << 26))
        self.put("one.idx", index([self.made]))
        self.words = ["extract", "one.sym", *slice_words(self.made)[:2], "out.sym", "--index", "one.idx"]
        self.out = self.folder / "out.sym"

    def change(self) -> None:
        """The last byte of the slice becomes another one."""
        with open(self.folder / "one.sym", "r+b") as file:
            file.seek(-10, os.SEEK_END)
            file.write(bytes([self.made[-1] ^ 1]))

    def cut(self) -> None:
        """The archive ends in its slice."""
        os.truncate(self.folder / "one.sym", len(self.made) // 2)

    def start(self) -> "subprocess.Popen[bytes]":
        """The command, over the archive as it was indexed."""
        self.put("one.sym", archive([self.made]))
        said = {"stdout": subprocess.PIPE, "stderr": subprocess.PIPE}
        return subprocess.Popen([symarch, *self.words], cwd=self.folder, **said)  # type: ignore

    def is_refused(self, process: "subprocess.Popen[bytes]") -> None:
        printed, told = process.communicate(timeout=MOST_SECONDS)
        lines = told.decode().splitlines()[:1]
        same("end", (process.returncode, printed, lines), (2, b"", ["symarch: index 0: Stale at entry 0"]))

    def test_before(self) -> None:
        """Of a slice that changed before the command a pipe gets no byte."""
        changed = "of an archive in which a slice changed since it came in: run `symarch-keep check` first"
        other = "not of this archive, of which `index` writes a new one"
        for change, fault, hint in ((self.change, "Stale at entry 0", changed), (self.cut, "Stale", other)):
            self.put("one.sym", archive([self.made]))
            change()
            os.mkfifo(self.out)
            reading = os.open(self.out, os.O_RDONLY | os.O_NONBLOCK)
            came = self.call(*self.words)
            same("what came", b"".join(pieces_of(reading)), b"")
            os.close(reading)
            self.out.unlink()
            told = [f"symarch: index 0: {fault}", f"  index 0 is one.idx, {hint}"]
            same("end", (came.status, came.error_lines), (2, told))

    def test_into_a_pipe(self) -> None:
        """A pipe gets first bytes of the slice, and the index is stale."""
        for change in (self.change, self.cut):
            os.mkfifo(self.out)
            reading = os.open(self.out, os.O_RDONLY | os.O_NONBLOCK)
            with self.start() as process:
                self.assertTrue(select.select([reading], [], [], MOST_SECONDS)[0])
                change()
                came = b"".join(pieces_of(reading))
                self.is_refused(process)
            os.close(reading)
            self.out.unlink()
            self.assertTrue(0 < len(came) <= len(self.made) and self.made[: len(came) - 1] == came[:-1])

    def test_into_a_file(self) -> None:
        """Nothing is at OUT, and no draft is left."""
        for change in (self.change, self.cut):
            for _ in range(20):
                if self.is_changed_in_time(change):
                    break
            else:
                raise Wrong("no draft was met before it was whole")

    def is_changed_in_time(self, change: Callable[[], None]) -> bool:
        """Whether the program was stopped with a part of the slice in its draft, so that a change came in time."""
        with self.start() as process:
            draft = self.met_draft(process)
            os.kill(process.pid, signal.SIGSTOP)
            # What is under way then ends.
            wait_until(lambda: self.state_of(process) in "tTZ")
            is_in_time = draft is not None and draft.exists() and draft.stat().st_size < len(self.made) // 4
            if is_in_time:
                change()
            os.kill(process.pid, signal.SIGCONT)
            if is_in_time:
                self.is_refused(process)
                same("files", sorted(it.name for it in self.folder.iterdir()), ["one.idx", "one.sym"])
            else:
                process.communicate(timeout=MOST_SECONDS)
                self.out.unlink()
            return is_in_time

    @staticmethod
    def state_of(process: "subprocess.Popen[bytes]") -> str:
        return pathlib.Path("/proc", str(process.pid), "stat").read_text().rpartition(") ")[2][0]

    def met_draft(self, process: "subprocess.Popen[bytes]") -> Optional[pathlib.Path]:
        """The draft, once it has bytes; None if the program ended before."""
        while process.poll() is None:
            for path in self.folder.glob(".symarch-*"):
                if path.stat().st_size:
                    return path
        return None


def pieces_of(descriptor: int) -> Iterator[bytes]:
    """What comes out of a pipe to its end."""
    os.set_blocking(descriptor, True)
    while piece := os.read(descriptor, PIECE):
        yield piece
