"""What a program asks of the system that makes, changes or removes a file, by strace."""
import collections
import itertools
import os
import pathlib
import re
from typing import Counter, List, NamedTuple, Optional, Tuple

from .cases import Without
from .program import Word, is_done

CALLS = {
    "open": ("open", "openat", "creat"),
    "write": ("write", "writev", "pwrite64", "pwritev", "sendfile", "fallocate", "ftruncate"),
    "sync": ("fsync", "fdatasync"),
    "rename": ("rename", "renameat", "renameat2"),
    "remove": ("unlink", "unlinkat"),
    "other": ("link", "linkat", "symlink", "symlinkat", "truncate", "mkdir", "mkdirat", "mknod", "mknodat"),
}
KINDS = {call: kind for kind, calls in CALLS.items() for call in calls}
# Its numbers say which run it is.
DRAFT = re.compile(r"\.symarch-[0-9]+-[0-9]+")
LINE = re.compile(r"(\w+)\((.*)\) += (-?[0-9]+)")
DESCRIPTOR = re.compile(r"([0-9]+)<(.*?)>")
QUOTED = re.compile(r'"(.*?)"')
WRITES = ("O_WRONLY", "O_RDWR", "O_CREAT", "O_TRUNC")


class Call(NamedTuple):
    """A call of a run: its name, which one of this name it is, from 1, and its line in the trace."""

    name: str
    number: int
    line: str

    @property
    def kind(self) -> Optional[str]:
        return KINDS.get(self.name)

    def killing(self) -> List[Word]:
        """The words that run a program, and kill it before this call. The program is the process that they begin."""
        kill = ["-e", f"trace={self.name}", "-e", f"inject={self.name}:signal=KILL:when={self.number}"]
        return ["strace", "-D", "-qq", "-o", os.devnull, *kill]


def calls_in(text: str) -> List[Call]:
    """Each call of a trace."""
    counts: Counter[str] = collections.Counter()
    calls = []
    for line in text.split("\n"):
        name, is_call, _ = line.partition("(")
        if is_call and name.isidentifier():
            counts[name] += 1
            calls.append(Call(name, counts[name], line))
    return calls


def need_strace() -> None:
    if not is_done(["strace", "-o", os.devnull, "true"]):
        raise Without("strace is not there, or may not trace")


def words(trace: Word) -> List[Word]:
    """The words that run a program, and write to a file what it calls. Descriptors stand there with their paths."""
    return ["strace", "-y", "-s", "0", "-qq", "-o", trace, "-e", "trace=" + ",".join(KINDS)]


def steps(text: str, folder: pathlib.Path) -> List[str]:
    """The calls that were done, with paths from a folder on, where a draft is DRAFT. Several writes in turn are one.
    What is below /dev is left out, but for the standard streams."""
    found = [step(line, folder) for line in text.split("\n")]
    return [it for it, _ in itertools.groupby(found) if it]


def step(line: str, folder: pathlib.Path) -> Optional[str]:
    """The call of a line, if it was done and is one of these."""
    read = LINE.match(line)
    if not read or int(read[3]) < 0:
        return None
    kind, given = KINDS[read[1]], read[2]
    if kind in ("write", "sync"):
        number, path = descriptor_in(given)
        return {"1": "report", "2": "fault"}.get(number) or f"{kind} {named(path, folder)}"
    paths = QUOTED.findall(given)
    what = opening(read[1], given) if kind == "open" else kind
    if what is None or paths[0].startswith("/dev/"):
        return None
    return " ".join([what, *(named(path, folder) for path in paths)])


def descriptor_in(given: str) -> Tuple[str, str]:
    """The number and the path of the descriptor that stands first."""
    found = DESCRIPTOR.match(given)
    assert found is not None, given
    return found[1], found[2]


def input_in(line: str, folder: pathlib.Path) -> Optional[str]:
    """The path of the file that is opened to be read in a line, or closed."""
    read = LINE.match(line)
    if not read or int(read[3]) < 0:
        return None
    if read[1] == "close":
        return named(descriptor_in(read[2])[1], folder)
    return named(QUOTED.findall(read[2])[0], folder) if opening(read[1], read[2]) is None else None


def opening(call: str, given: str) -> Optional[str]:
    """How a file is opened, unless it is only read."""
    flags = set(re.findall(r"O_\w+", given))
    if call == "creat" or "O_CREAT" in flags:
        return "create" if "O_EXCL" in flags else "create or open"
    if "O_TRUNC" in flags:
        return "empty"
    return "open" if flags.intersection(WRITES) else None


def named(path: str, folder: pathlib.Path) -> str:
    return DRAFT.sub("DRAFT", os.path.relpath(folder / path, folder))
