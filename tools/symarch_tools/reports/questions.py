"""The program, which is called by `frames`, with 0 as the load address, so each offset of an image is looked up once.

For many frames of several images there is a call for each processor at most, each for 100 offsets or more; if a file of
the archive changed meanwhile, one call for all, so that all answers are of one moment. Whether a dSYM answered, and the
other architectures of a UUID, are lines of `frames --slices`."""
from __future__ import annotations

import contextlib
import fcntl
import heapq
import os
import subprocess
import tempfile
from dataclasses import dataclass, field
from typing import IO, List, NamedTuple, Optional, Sequence, Tuple

from ..console.escapes import shown
from ..console.faults import CutShort, about
from ..console.processes import begun
from ..console.program_faults import OWN_WORDS, InputFault, fault_on_standard_error
from ..console.program_path import found_program, named
from ..console.streams import noted, say
from ..store.lock import State, state_of
from .answers import Answers, KeyLines, Said
from .faults import Failure, Status

# The lines of so many questions are written at once.
MOST_LINES = 10_000
# A call of its own is worth so many offsets. Its answers wait in a pipe of so many bytes, if the system grants that.
LEAST_OF_CALL, SET_PIPE_SIZE, OF_PIPE = 100, 1031, 1 << 20
# More than this of what the program says on standard error is not read.
MOST_SAID = 100_000


class Reply(NamedTuple):
    """What came of a call: what the program said on standard error, its status, whether it answered as `frames` does,
    None if it said nothing, and the lines of keys."""

    said: bytes
    status: int
    is_answered: Optional[bool]
    keys: KeyLines

    def fault(self) -> Optional[InputFault]:
        """The fault of an input for which the whole is refused, if one is."""
        return fault_on_standard_error(self.text()) if self.status == Status.REFUSED else None

    def text(self) -> str:
        return self.said.decode(errors="surrogateescape")

    def is_good(self) -> bool:
        """Whether it is all answers, but for those of refused keys."""
        most = Status.REFUSED if self.keys.refused else Status.NONE_NAMED
        return bool(self.is_answered) and 0 <= self.status <= most


def cut_short(archive: str) -> CutShort:
    return CutShort.at(shown(archive), Status.REFUSED)


@dataclass(eq=False)
class FramesCall:
    """A call of the program, which writes what it says into a file."""

    answers: Sequence[Answers]
    process: subprocess.Popen[bytes]
    errors: IO[bytes]

    def reply(self) -> Reply:
        """Takes its answers, and waits for its end."""
        keys = KeyLines()
        is_answered = take(self.answers, keys, self.process)
        assert self.process.stdout
        self.process.stdout.close()
        status = self.process.wait()
        self.errors.seek(0)
        return Reply(self.errors.read(MOST_SAID), status, is_answered, keys)


@dataclass
class FramesProgram:
    """The program, which answers for frames."""

    path: str = field(default_factory=found_program)
    # What SYMARCH says, if it names a program.
    symarch: Optional[str] = field(default_factory=named)

    def reply(self, files: Sequence[Tuple[str, str]], answers: Sequence[Answers], has_lines: bool) -> Reply:
        """Asks archives, with their indexes if they have such, for lines of the source too, or not: for much by several
        calls side by side; and by one where a file was changed or replaced meanwhile, of which these may have seen two
        states."""
        groups, before = side_by_side(answers), states_of(files)
        reply = self.side_by_side(files, groups, has_lines)
        if len(groups) > 1 and states_of(files) != before:
            return self.side_by_side(files, [answers], has_lines)
        return reply

    def side_by_side(
        self, files: Sequence[Tuple[str, str]], groups: Sequence[Sequence[Answers]], has_lines: bool
    ) -> Reply:
        """What comes of calls for groups of answers: that of the first which is not all answers, or of all."""
        options = ["--lines"] * has_lines + ["--slices"]
        options += [it for _, index in files if index for it in ("--index", index)]
        with contextlib.ExitStack() as ends:
            begun = [self.begin(ends, group, [*options, *(path for path, _ in files)]) for group in groups]
            replies = [one.reply() for one in begun]
        keys = KeyLines()
        for one in replies:
            keys.add(one.keys)
        others = [one for one in replies if not one.is_good()]
        are_known = all(fault.number < len(files) for fault in keys.refused.values())
        joined = Reply(b"".join(one.said for one in replies), max(one.status for one in replies), are_known, keys)
        return others[0] if others else joined

    def begin(self, ends: contextlib.ExitStack, answers: Sequence[Answers], words: List[str]) -> "FramesCall":
        """Begins a call. The questions are in a file of their own: a standard input has no path where /proc is not
        mounted."""
        asked = ends.enter_context(tempfile.NamedTemporaryFile(prefix="symbolicate-report."))
        errors = ends.enter_context(tempfile.TemporaryFile())
        with about(asked.name.encode()):
            write_questions(asked, answers)
        # It is ended before the file that it reads is removed.
        return FramesCall(answers, self.start(ends, ["frames", asked.name, *words], errors), errors)

    def start(self, ends: contextlib.ExitStack, words: List[str], errors: IO[bytes]) -> subprocess.Popen[bytes]:
        how = {"stdin": subprocess.DEVNULL, "stdout": subprocess.PIPE, "stderr": errors}
        try:
            run = begun(ends, [self.path, *words], **how)
        except OSError as error:
            raise self.not_started(error) from None
        assert run.stdout is not None
        # It goes on while the answers of another call are taken.
        with contextlib.suppress(OSError):
            fcntl.fcntl(run.stdout, SET_PIPE_SIZE, OF_PIPE)
        return run

    def make(self, command: str, archive: str, out: str, named: str) -> None:
        """Has a command make a file of an archive, or of a copy of the one that is named. Its refusal is that of the
        archive."""
        with tempfile.TemporaryFile() as errors, contextlib.ExitStack() as ends:
            run = self.start(ends, [command, archive, out], errors)
            run.communicate()
            errors.seek(0)
            reply = Reply(errors.read(MOST_SAID), run.returncode, None if run.returncode else True, KeyLines())
        fault = reply.fault()
        if fault and fault.is_cut_short():
            raise cut_short(named)
        if reply.status:
            self.judge(reply)

    def judge(self, reply: Reply) -> None:
        """Says what the program said on standard error, and refuses what is not all answers."""
        noted.extend(line.strip() for line in reply.text().splitlines())
        say(reply.text())
        if reply.is_good():
            return
        if reply.status > Status.NONE_NAMED and reply.text().startswith(OWN_WORDS):
            raise Failure("", reply.status)
        if reply.status < 0 and reply.is_answered is not False:
            raise Failure(f"{self.path}: ended by signal {-reply.status}", Status.REFUSED)
        which = f"SYMARCH names {self.symarch}, which" if self.symarch else f"the program {self.path}"
        raise Failure(f"{which} does not answer as symarch does", Status.NO_PROGRAM)

    def not_started(self, error: OSError) -> Failure:
        if self.symarch:
            why = f"there is no program {self.path}" if isinstance(error, FileNotFoundError) else error.strerror
            return Failure(f"SYMARCH names {self.symarch}: {why}", Status.NO_PROGRAM)
        how = "SYMARCH may name one, and in the repository ./symarch --version builds it"
        return Failure(f"there is no program {self.path}: {how}", Status.NO_PROGRAM)


def side_by_side(answers: Sequence[Answers]) -> List[List[Answers]]:
    """Answers in as many groups as are worth a call, each of about as many offsets, and all of an image in one."""
    worth = sum(len(one.offsets) for one in answers) // LEAST_OF_CALL
    count = min(worth, len(os.sched_getaffinity(0)), len(answers))
    if count < 2:
        return [[*answers]]
    groups: List[List[Answers]] = [[] for _ in range(count)]
    sizes = [(0, at) for at in range(count)]
    for one in sorted(answers, key=lambda it: len(it.offsets), reverse=True):
        size, at = heapq.heappop(sizes)
        groups[at].append(one)
        heapq.heappush(sizes, (size + len(one.offsets), at))
    return groups


def states_of(files: Sequence[Tuple[str, str]]) -> List[State]:
    """Which files archives and indexes are."""
    return [state_of(os.fsencode(path)) for file in files for path in file]


def take(answers: Sequence[Answers], keys: KeyLines, run: subprocess.Popen[bytes]) -> Optional[bool]:
    """Whether the program answers as `frames` does; None if it says nothing more. What does is ended, since it may
    never end."""
    assert run.stdout is not None
    said = Said(run.stdout)
    try:
        for one in answers:
            one.take(said)
        while said.ahead:
            keys.take(said.ahead)
            said.line()
        for one in answers:
            one.take_origin(keys)
        return True
    except ValueError:
        pass
    if not said.ahead:
        return None
    run.kill()
    return False


def write_questions(file: IO[bytes], answers: Sequence[Answers]) -> None:
    lines = []
    for one in answers:
        for line in one.questions():
            lines.append(line)
            if len(lines) == MOST_LINES:
                file.write("".join(lines).encode())
                lines = []
    file.write("".join(lines).encode())
    file.flush()
