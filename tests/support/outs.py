"""The commands that write a file, and what may be at OUT before them, for the cases about OUT."""
import contextlib
import hashlib
import os
import pathlib
import stat
import subprocess
from typing import Any, Callable, Dict, Iterator, List, Optional, Sequence, Tuple, Union

from .cases import ProgramCase, Without, is_done, same
from .made_images import EMPTY, archive, image, index, operations, slice_words, summary, universal
from .program import MOST_SECONDS, Word, symarch
from .second_lines import FOREIGN, OTHER_SLICE, second_line

CANNOT_CREATE, CANNOT_REPLACE = "output: cannot create", "output: cannot replace"
OTHER_USER = 65534
VERSION_1 = b"MSYMARC1"
SLICES = [image(number) for number in range(4)]
OUT = "OUT"

# The inputs of each case, in its folder.
INPUTS = {
    "one": SLICES[1],
    "two": SLICES[2],
    "one.sym": archive(SLICES[1:2]),
    "two.sym": archive(SLICES[2:3]),
    "three.sym": archive(SLICES[3:4]),
    "both.sym": archive(SLICES[1:3]),
    "old.sym": archive(SLICES[1:3], retired=SLICES[2:3], magic=VERSION_1),
    "two.ops": operations(SLICES[2:3]),
    "one.sum": summary(SLICES[1:2]),
    "one.idx": index(SLICES[1:2]),
}
RETIRED = slice_words(SLICES[1])
# Each command that writes: its words, and the text that it writes.
COMMANDS: Dict[str, Tuple[List[str], bytes]] = {
    "new": (["new", OUT], EMPTY),
    "admit": (["admit", "one.sym", OUT, "two"], archive(SLICES[1:3])),
    "retire": (["retire", "one.sym", OUT, *RETIRED], archive([], retired=SLICES[1:2])),
    "merge": (["merge", "one.sym", OUT, "two.sym"], archive(SLICES[1:3])),
    "merge of two": (["merge", "one.sym", OUT, "two.sym", "three.sym"], archive(SLICES[1:4])),
    "migrate": (["migrate", "old.sym", OUT], archive(SLICES[1:2], retired=SLICES[2:3])),
    "apply": (["apply", "one.sym", OUT, "two.ops"], archive(SLICES[1:3])),
    "summary": (["summary", "one.sym", OUT], summary(SLICES[1:2])),
    "index": (["index", "both.sym", OUT], index(SLICES[1:3])),
    "delta": (["delta", "both.sym", "one.sum", OUT], archive(SLICES[2:3])),
    "extract": (["extract", "both.sym", *RETIRED[:2], OUT], SLICES[1]),
}
# What may be at OUT: an empty file, which each command replaces, and files of the program by their kind.
NOTHING = b""
KINDS = {
    "an archive": [EMPTY, VERSION_1 + EMPTY[8:]],
    "a summary": [summary(SLICES[:1])],
    "an index": [index(SLICES[:1])],
    "an operations file": [operations(SLICES[:1])],
}
# What a command replaces that writes no archive.
REPLACED = {"summary": "a summary", "index": "an index", "extract": "the same slice"}
# Archives that have a slice which no other command brings, what begins as an archive and is none, and others.
WITH_ANOTHER = [archive(SLICES[:1]), archive(SLICES[:1], magic=VERSION_1)]
DAMAGED_FILES = [EMPTY[:8], EMPTY + b"\0", archive(SLICES[:1])[:-1], archive(SLICES[1:2])[:-1] + b"\2"]
OTHER_FILES = [
    SLICES[0],
    universal(SLICES[:1]),
    b"what somebody wrote\n",
    b"M",
    EMPTY[:7],
    b"MSYMARC3" + EMPTY[8:],
    b"\0" + EMPTY,
]
BEFORE = EMPTY

Path = Union[str, pathlib.Path]


def replaced_by(name: str) -> List[bytes]:
    """Files that a command replaces."""
    same_slice = {"the same slice": [SLICES[1]]}
    return [NOTHING, *{**KINDS, **same_slice}[REPLACED.get(name, "an archive")]]


def stays_at(name: str, kind: str = FOREIGN) -> str:
    """What is said of a file of a kind, or of any, that a command does not replace: what it is, but of no slice."""
    return OTHER_SLICE if name == "extract" else kind


def state_of(path: Path) -> Any:
    """All that may not change of what is at a path."""
    if not os.path.lexists(path):
        return None
    it = os.lstat(path)
    content = pathlib.Path(path).read_bytes() if stat.S_ISREG(it.st_mode) and os.access(path, os.R_OK) else None
    return it.st_ino, it.st_mode, it.st_uid, it.st_gid, it.st_nlink, it.st_mtime_ns, it.st_rdev, content


def become_other_user() -> None:
    os.setgroups([])
    os.setgid(OTHER_USER)
    os.setuid(OTHER_USER)


def need_root() -> None:
    if os.getuid() != 0:
        raise Without("it takes root's rights")


@contextlib.contextmanager
def mounted(where: pathlib.Path, *words: Word) -> Iterator[None]:
    if not is_done(["mount", *words, where]):
        raise Without("nothing can be mounted")
    try:
        yield
    finally:
        subprocess.run(["umount", where], check=True)


class OutCase(ProgramCase):
    """Cases with the inputs, and with OUT at `out.sym`."""

    # What is done in each run before the program begins.
    before: Optional[Callable[[], Any]]

    def setUp(self) -> None:
        super().setUp()
        self.out, self.before = self.folder / "out.sym", None
        for name, content in INPUTS.items():
            self.put(name, content)

    def put(self, name: str, content: bytes = BEFORE, mode: int = 0o644) -> pathlib.Path:
        """Writes a new file with a mode."""
        path = self.folder / name
        path.parent.mkdir(exist_ok=True)
        if path.exists():
            path.unlink()
        path.write_bytes(content)
        path.chmod(mode)
        return path

    def give_up_root(self) -> None:
        """Has programs run by another user if this is root."""
        if os.getuid() == 0:
            os.chmod(self.folder, 0o777)
            self.before = become_other_user
            with contextlib.suppress(OSError):
                if self.run_program(["--version"])[0] == 0:
                    return
            raise Without("another user cannot run the program")

    def start(
        self, words: Sequence[Word], out: Optional[Path] = None, under: Sequence[Word] = (), **more: Any
    ) -> "subprocess.Popen[bytes]":
        given = [*under, symarch, *(str(out or self.out) if word == OUT else word for word in words)]
        streams = {"stdin": subprocess.DEVNULL, "stdout": subprocess.PIPE, "stderr": subprocess.PIPE}
        how: Dict[str, Any] = {"cwd": self.folder, "preexec_fn": self.before, **streams, **more}
        return subprocess.Popen(given, **how)

    def run_program(self, words: Sequence[Word], out: Optional[Path] = None, **more: Any) -> Tuple[int, bytes, str]:
        """The status, what was printed, and what stands on standard error."""
        with self.start(words, out, **more) as process:
            try:
                printed, told = process.communicate(timeout=MOST_SECONDS)
            except subprocess.TimeoutExpired:
                process.kill()
                raise
        return process.returncode, printed or b"", (told or b"").decode(errors="surrogateescape")

    def places(self, name: str, out: Optional[Path] = None, at: Optional[Path] = None, **more: Any) -> None:
        """A command puts its text in place at OUT, or at the path `at` to which that leads."""
        words, text = COMMANDS[name]
        status, printed, told = self.run_program(words, out, **more)
        same(name, (status, told), (0, ""))
        same(f"{name}: end of the report", printed[-20:].split(b", ")[-1], b"%d bytes\n" % len(text))
        same(f"{name}: OUT", (self.folder / (at or out or self.out)).read_bytes(), text)
        same(f"{name}: drafts", self.drafts(), [])

    def keeps(
        self, words: List[str], line: str, hint: str = "", out: Optional[Path] = None, status: int = 2, **more: Any
    ) -> None:
        """A command is refused with a line, and one after it that says more of the path; it prints nothing, and leaves
        OUT as it was."""
        path = self.folder / (out or self.out)
        before = state_of(path), self.drafts()
        came = self.run_program(words, out, **more)
        second = second_line(words, line, str(out or self.out), hint) if status == 2 else ""
        same(f"{words}", came, (status, b"", f"symarch: {line}\n{second}"))
        same(f"{words}: OUT and drafts", (state_of(path), self.drafts()), before)

    def drafts(self) -> List[str]:
        """The names of the drafts that are left in the folder, and below it."""
        return sorted(path.name for path in self.folder.rglob(".symarch-*"))

    def sizes_of_drafts(self) -> List[int]:
        """The sizes of the drafts, which are removed."""
        paths = [*self.folder.glob(".symarch-*")]
        sizes = [path.stat().st_size for path in paths]
        for path in paths:
            path.unlink()
        return sizes


def digest(content: bytes) -> str:
    return hashlib.sha256(content).hexdigest()
