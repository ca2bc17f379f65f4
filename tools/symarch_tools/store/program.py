"""The program symarch, which reads and writes archives."""
from __future__ import annotations

import contextlib
import os
import re
import subprocess
from dataclasses import dataclass, field
from typing import TYPE_CHECKING, Dict, List, Mapping, Optional, Sequence, Tuple, Union

from ..console.escapes import shown
from ..console.faults import CutShort, Failed, SliceRefused
from ..console.processes import begun
from ..console.program_faults import OWN_WORDS, fault_on_standard_error
from ..console.program_path import candidates, named
from ..console.signals import signals
from ..console.streams import write
from ..formats.contents import END, LENGTH, MAGIC, MAGICS, Moved, unmoved
from ..formats.files import DESCRIPTORS

if TYPE_CHECKING:
    from .slices import Slice

Argument = Union[str, bytes]
# The faults of a slice and of a file, which have those of the image in parentheses.
BAD_SLICE, OF_FILE = "BadSlice(", "Slice(0, "
# What is reported of a file that `admit` passes over; and the status of a command that went on without a part.
PASSED_OVER, IN_PART = re.compile(r"file ([0-9]+) refused (.*)"), 2


@dataclass(frozen=True)
class Run:
    """A call of the program: its arguments, the slices whose archive is on its standard input, the folder in which it
    runs, the open files that it gets, and what is called as it moves on. A fault names a path of `names` by what that
    has for it. `goes_on` is said of a command that may report what it refuses, and carry out the rest. The bytes of
    slices are not compared with their digests here if those of its result are (`is_read_back`)."""

    arguments: Sequence[Argument]
    slices: Sequence[Slice] = ()
    folder: Optional[bytes] = None
    open_files: Sequence[int] = ()
    moved: Moved = unmoved
    names: Mapping[str, str] = field(default_factory=dict)
    goes_on: bool = False
    is_read_back: bool = False

    def all_names(self) -> Dict[str, str]:
        """How paths are shown, also the arguments of a command if they name files of the folder."""
        arguments = self.arguments[1:] if self.folder is not None else ()
        of_folder = {os.fsdecode(it): shown(os.path.join(self.folder or b"", os.fsencode(it))) for it in arguments}
        return {**of_folder, **self.names}


@dataclass(frozen=True)
class Merge:
    """Archives of which the program writes the join as a new file, the largest one first; slices that it has too, whose
    bytes are tested in that file; and open files that the program holds."""

    paths: Sequence[bytes]
    new: bytes
    moved: Moved
    slices: Sequence[Slice] = ()
    held: Sequence[int] = ()


@dataclass(eq=False)
class Program:
    """The program symarch."""

    path: str = field(default_factory=lambda: answering_program())

    def __post_init__(self) -> None:
        if not os.path.exists(os.path.join(DESCRIPTORS, "0")):
            raise Failed(f"there is no {DESCRIPTORS}, by which the program gets its files: /proc is not mounted")

    def run(self, run: Run) -> bytes:
        """Carries out a call, and returns what is printed."""
        return self.answer(run)[0]

    def answer(self, run: Run) -> Tuple[bytes, int, bytes]:
        """Carries out a call, and returns what is printed, the status, and what is noted."""
        with contextlib.ExitStack() as ends:
            # One that goes on would write into a folder that is being removed.
            pipes = dict.fromkeys(("stdin", "stdout", "stderr"), subprocess.PIPE)
            command, files = [self.path, *run.arguments], tuple(run.open_files)
            process = begun(ends, command, bufsize=0, cwd=run.folder, pass_fds=files, **pipes)
            assert process.stdin
            with contextlib.suppress(BrokenPipeError):
                give(process.stdin.fileno(), run)
            printed, said = None, b""
            while printed is None:
                # What is raised within would leave its lock.
                with contextlib.suppress(subprocess.TimeoutExpired), signals.later():
                    printed, said = process.communicate(timeout=0.2)
                run.moved(len(run.slices))
        is_in_part = run.goes_on and process.returncode == IN_PART and not said.startswith(OWN_WORDS.encode())
        if process.returncode not in (0, 1) and not is_in_part:
            raise fault(run, said, process.returncode)
        return printed or b"", process.returncode, said

    def refused(self, files: Sequence[object], room: bytes) -> List[SliceRefused]:
        """Why some slices or files are refused, of which the room has the bytes as files that are called by their
        numbers."""
        names = map(str, range(len(files)))
        arguments = ["admit", "--keep-going", "/dev/stdin", "/dev/null", *names]
        printed = self.run(Run(arguments, folder=room, goes_on=True)) if files else b""
        found = filter(None, map(PASSED_OVER.fullmatch, printed.decode().splitlines()))
        return [SliceRefused(inner(it[2], OF_FILE), files[int(it[1])], it[2].startswith(OF_FILE)) for it in found]

    def merge(self, asked: Merge) -> None:
        """Writes the join of archives and of slices. Those after the first come joined by a pipe, so that nothing is
        written twice or has to fit in memory. What is no UTF-8 is refused, so no argument has the path of an
        archive."""
        folder, name = os.path.split(asked.new)
        with contextlib.ExitStack() as ends:
            opened = [ends.enter_context(open(path, "rb")).fileno() for path in asked.paths]
            names = {f"{DESCRIPTORS}/{number}": shown(path) for number, path in zip(opened, asked.paths)}
            pipes = Pipes(self.path, ends)
            read = [opened[0], *pipes.joined(opened[1:])]
            names.update({f"{DESCRIPTORS}/{number}": " and ".join(map(shown, asked.paths[1:])) for number in read[1:]})
            first, *others = [f"{DESCRIPTORS}/{number}" for number in read]
            arguments = ["merge", first, os.fsdecode(name), *(others or ["/dev/stdin"])]
            names[arguments[2]] = shown(asked.new)
            try:
                held = [*read, *asked.held]
                self.run(Run(arguments, asked.slices, folder, held, asked.moved, names, is_read_back=True))
            except Failed as failed:
                raise pipes.fault(names) or failed from None
            finally:
                pipes.close()

    def run_over(
        self, path: bytes, command: str, *more: str, folder: Optional[bytes] = None, moved: Moved = unmoved
    ) -> bytes:
        """Runs a command over the archive of a path, which it gets by another name: what is no UTF-8 is refused."""
        with open(path, "rb") as file:
            arguments = [command, f"{DESCRIPTORS}/{file.fileno()}", *more]
            names = {arguments[1]: shown(path)}
            return self.run(Run(arguments, (), folder, [file.fileno()], moved, names))


@dataclass(eq=False)
class Pipes:
    """Programs that join archives into pipes: each an archive and the pipe of the one before it."""

    program: str
    ends: contextlib.ExitStack
    processes: List["subprocess.Popen[bytes]"] = field(default_factory=list)
    # The end of the last pipe, which is read.
    end: Optional[int] = None

    def joined(self, opened: Sequence[int]) -> List[int]:
        """What the join of open archives is read from, if there are any."""
        read = opened[-1:]
        for one in reversed(opened[:-1]):
            read = [self.begin(one, read[0])]
        return list(read)

    def begin(self, opened: int, rest: int) -> int:
        end, written = os.pipe()
        arguments = [self.program, "merge", *(f"{DESCRIPTORS}/{it}" for it in (opened, written, rest))]
        nothing = subprocess.DEVNULL
        how = {"stdin": nothing, "stdout": nothing, "stderr": subprocess.PIPE, "pass_fds": (opened, written, rest)}
        self.processes.append(begun(self.ends, arguments, **how))
        os.close(written)
        self.close()
        self.end = end
        return end

    def close(self) -> None:
        """Ends those that write: nobody reads on."""
        if self.end is not None:
            os.close(self.end)
        self.end = None

    def fault(self, names: Dict[str, str]) -> Optional[Exception]:
        """Why the first one failed that was refused an archive. Those after it read half a pipe."""
        self.close()
        for process in self.processes:
            with signals.later():
                said = process.communicate()[1]
            if process.returncode > 0 and said.startswith(b"symarch: archive "):
                return fault(Run(["merge"], names=names), said, process.returncode)
        return None


def answering_program() -> str:
    """The first program that answers as symarch does."""
    for path in candidates():
        with contextlib.suppress(OSError), signals.later():
            arguments, nothing = [path, "--version"], subprocess.DEVNULL
            if subprocess.run(arguments, stdin=nothing, capture_output=True, check=False).stdout[:8] == b"symarch ":
                return path
    wanted = named()
    which = f"SYMARCH is {shown(wanted)}, which is no" if wanted else "there is no"
    raise Failed(f"{which} program symarch; `./symarch --version` in its sources builds one", 126)


def give(descriptor: int, run: Run) -> None:
    """Writes the archive of slices, which are in the order of their records."""
    write(descriptor, MAGICS[0])
    for done, one in enumerate(run.slices):
        write(descriptor, one.head)
        if run.is_read_back:
            for _ in one.sent(descriptor):
                run.moved(done)
            continue
        for chunk in one.chunks():
            write(descriptor, chunk)
            run.moved(done)
    write(descriptor, END + len(run.slices).to_bytes(LENGTH, "big"))


def inner(reason: str, begins: str) -> str:
    """The fault in the parentheses of another one, which begins so; else that one."""
    return reason[len(begins) : -1] if reason.startswith(begins) and reason.endswith(")") else reason


def fault(run: Run, said: bytes, status: int) -> Exception:
    """What the program says of a slice that it was given, or else of the whole: its line, and the one for people."""
    line, _, more = said.decode(errors="replace").strip().partition("\n")
    found = fault_on_standard_error(line)
    if found and found.kind == "archive" and found.number == (run.arguments[0] == "merge"):
        at, reason = MAGIC, found.reason
        for one in run.slices:
            if at == found.byte:
                return one.refused(inner(reason, BAD_SLICE))
            at += len(one.head) + one.length
    where, _, path = more.partition(" is ")
    names = run.all_names()
    for name in names:
        if path.startswith(name) and path[len(name) :][:1] in ("", ":", ","):
            if found and found.is_cut_short():
                return CutShort.at(names[name])
            more = f"{where} is {names[name]}{path[len(name):]}"
            break
    return Failed(line, 4, more) if status > 0 else Failed(f"symarch ended by signal {-status}")
