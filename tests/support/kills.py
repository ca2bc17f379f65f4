"""Kills: a tool that is killed before one of its steps, and the end of the programs that it had begun; and each state
that a kill may leave."""
import contextlib
import os
import pathlib
import shutil
import sys
import tempfile
from typing import Any, Callable, Dict, Iterator, List, Tuple

from .cases import Wrong, remove, same
from .rooms import Room
from .waits import wait_until

# Ends a tool before one of its steps, by a kill: STEPS says before which.
KILLER = """
import os, runpy, signal, sys

left = int(os.environ["STEPS"])

def counted(call):
    def carry_out(*words, **more):
        global left
        left -= 1
        if left == 0:
            os.kill(os.getpid(), signal.SIGKILL)
        return call(*words, **more)
    return carry_out

for name in ("fsync", "link", "mkdir", "replace", "rmdir", "unlink", "write"):
    setattr(os, name, counted(getattr(os, name)))
sys.argv = sys.argv[1:]
sys.path[0] = os.path.dirname(sys.argv[0])
runpy.run_path(sys.argv[0], run_name="__main__")
"""

# Gives a tool SIGINT before it imports a module.
INTERRUPTER = """
import os, runpy, signal, sys

class Finder:
    @staticmethod
    def find_spec(name, path=None, target=None):
        if name == module:
            os.kill(os.getpid(), signal.SIGINT)

module, *sys.argv = sys.argv[1:]
sys.meta_path.insert(0, Finder)
sys.path[0] = os.path.dirname(sys.argv[0])
runpy.run_path(sys.argv[0], run_name="__main__")
"""


def interrupted(module: str, tool: str, *words: str) -> List[str]:
    """What runs a tool with these words that gets SIGINT before it imports a module, which nothing imports sooner."""
    return [sys.executable, "-BIS", "-c", INTERRUPTER, module, tool, *words]


def running(session: int) -> Iterator[str]:
    """The processes of a session that have not ended."""
    for stat in pathlib.Path("/proc").glob("[0-9]*/stat"):
        # One that ends meanwhile has no such file any more.
        with contextlib.suppress(FileNotFoundError, ProcessLookupError):
            state, _, _, its_session = stat.read_text().rpartition(")")[2].split()[:4]
            if int(its_session) == session and state not in "ZX":
                yield stat.parent.name


def wait_for_session(session: int) -> None:
    """Waits until each process of a session has ended: a program goes on for a while where the tool that had begun it
    is killed."""
    wait_until(lambda: not any(running(session)))


def status_where_killed(start: Callable[..., Any], steps: int, *words: Any) -> int:
    """The status of a tool that is killed before so many steps are done. It has ended then, and so have the programs
    that it had begun."""
    before = [sys.executable, "-B", "-c", KILLER]
    with start(*words, before=before, environment={"STEPS": str(steps)}, start_new_session=True) as process:
        process.communicate()
    wait_for_session(process.pid)
    return int(process.returncode)


# Keeps what a kill would leave before each step of a tool: the files, by links, so that each stays the file that it is;
# of what is written in place, copies. What stands in a folder of the tool itself goes with it.
KEEPER = """
import os, runpy, shutil, sys
from os.path import join

ROOM, STATES, link, mkdir = os.environ["ROOM"], os.environ["STATES"], os.link, os.mkdir
taken = 0

def keep():
    global taken
    taken += 1
    state = join(STATES, f"{taken:04}")
    mkdir(state)
    for folder, _, names in os.walk(ROOM):
        if ".making-" in folder:
            continue
        its = join(state, os.path.relpath(folder, ROOM))
        if folder != ROOM:
            mkdir(its)
        for name in names:
            is_written_in_place = ".log" in name or name.endswith(".part")
            (shutil.copy2 if is_written_in_place else link)(join(folder, name), join(its, name))

def counted(call):
    def carry_out(*words, **more):
        if not busy:
            busy.append(1)
            keep()
            busy.pop()
        return call(*words, **more)
    return carry_out

busy = []
for name in ("fsync", "link", "mkdir", "replace", "rmdir", "unlink", "write"):
    setattr(os, name, counted(getattr(os, name)))
sys.argv = sys.argv[1:]
sys.path[0] = os.path.dirname(sys.argv[0])
runpy.run_path(sys.argv[0], run_name="__main__")
"""


class Left:
    """The states that a kill of a tool may leave in a room, each of them once, and the one at its end."""

    def __init__(self, room: Room, *words: Any, status: int = 0) -> None:
        self.room = room
        self.folder = pathlib.Path(tempfile.mkdtemp(prefix="states-", dir=room.path.parent))
        before = [sys.executable, "-B", "-c", KEEPER]
        environment = {"ROOM": str(room.path), "STATES": str(self.folder)}
        with room.start(*words, before=before, environment=environment) as process:
            out, errors = process.communicate()
        same(f"status: {errors.decode()}", process.returncode, status)
        self.steps = sorted(self.folder.iterdir())
        if len(self.steps) < 5:
            raise Wrong(f"{words[0]} has {len(self.steps)} steps")

    def __enter__(self) -> "Left":
        return self

    def __exit__(self, *_: object) -> None:
        remove(self.folder)

    def each(self) -> Iterator[str]:
        """Makes the room what a kill leaves, for each state that is another one than those before it, with a room of
        the tool; and says after which step."""
        seen: List[Dict[str, Tuple[int, bytes]]] = []
        for step in self.steps:
            state = files_in(step)
            if state not in seen:
                seen.append(state)
                self.bring(step)
                yield step.name

    def bring(self, step: pathlib.Path) -> None:
        for path in self.room.path.iterdir():
            if path.is_dir():
                shutil.rmtree(path)
            else:
                path.unlink()
        for path in sorted(step.rglob("*")):
            target = self.room.path / path.relative_to(step)
            if path.is_dir():
                target.mkdir()
            elif ".log" in path.name or path.name.endswith(".part"):
                shutil.copy2(path, target)
            else:
                os.link(path, target)
        self.room.file(f"{self.room.archive.name}.making-killed/new", b"half")


def files_in(folder: pathlib.Path) -> Dict[str, Tuple[int, bytes]]:
    """The files of a folder, at any depth: which one each is, but for logs, and its bytes."""
    found = {}
    for path in folder.rglob("*"):
        if path.is_file():
            number = 0 if ".log" in path.name or path.name.endswith(".part") else path.stat().st_ino
            found[str(path.relative_to(folder))] = number, path.read_bytes()
    return found
