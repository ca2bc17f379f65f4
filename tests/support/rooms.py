"""A folder in which a case calls symarch-keep."""
import atexit
import compileall
import os
import pathlib
import re
import shutil
import subprocess
import tempfile
from typing import Any, Dict, Iterable, List, Mapping, Optional, Sequence, Tuple, Union

from .cases import ProgramCase, Wrong, same, symarch
from .made_images import image, join_of
from .program import MOST_SECONDS, TOP
from .waits import wait_until


def compiled() -> str:
    """The path of symarch-keep in a copy of the tools whose modules are compiled, so that each call begins sooner. It
    is removed at the end; the processes of the runner share it."""
    folder = pathlib.Path(tempfile.mkdtemp(prefix="tools-"))
    atexit.register(shutil.rmtree, folder, True)
    folder.chmod(0o755)
    shutil.copytree(TOP / "tools", folder / "tools", ignore=shutil.ignore_patterns("__pycache__"))
    compileall.compile_dir(folder, quiet=2)
    return os.environ.setdefault("KEEP", str(folder / "tools" / "symarch-keep"))


# Calls a tool once something of its modules is another thing.
CHANGED = """
import sys

sys.path.insert(0, {folder})
{statements}
from symarch_tools.{module} import main

sys.exit(main())
"""
# The tool that the environment variable KEEP names, or else that of this tree.
keep = os.environ.get("KEEP") or compiled()
# What stays beside an archive.
INDEXES = ("idx", "today.idx")
BESIDE = ("lock", "log", *INDEXES, "today", "asked", "site", "lost", "builds", "signers", "changed")
LEVEL = re.compile(r"\.[1-9][0-9]?(\.idx)?")


def levelled(folder: pathlib.Path) -> str:
    """A tool in a folder that is symarch-keep, for archives of which no size is too small for levels."""
    return changed_tool(folder, "from symarch_tools.store import levels", "levels.LEAST = 0")


def changed_tool(folder: pathlib.Path, *statements: str, module: str = "keep") -> str:
    """A tool in a folder that is the one of a module, after these statements."""
    tool = folder / f"changed-{module}-{len(os.listdir(folder))}"
    lines = CHANGED.replace("{folder}", repr(os.path.dirname(os.path.realpath(keep))))
    lines = lines.replace("{statements}", "\n".join(statements)).replace("{module}", module)
    tool.write_text(f"#!/usr/bin/env -S python3 -BIS{lines}")
    tool.chmod(0o755)
    return str(tool)


def levels_of(archive: Union[str, pathlib.Path]) -> List[pathlib.Path]:
    """The levels of an archive, in their order."""
    paths = [pathlib.Path(f"{os.fspath(archive)}.{number}") for number in range(1, 100)]
    return [path for path in paths if path.exists()]


def today_of(archive: Union[str, pathlib.Path]) -> pathlib.Path:
    """The file into which goes what comes in."""
    return pathlib.Path(f"{os.fspath(archive)}.today")


def kept_index(path: Union[str, pathlib.Path]) -> bytes:
    """The index that is kept of an archive file."""
    return pathlib.Path(f"{os.fspath(path)}.idx").read_bytes()


def bytes_of(archive: Union[str, pathlib.Path]) -> bytes:
    """What an archive has, with what came in since its last fold."""
    files = [path for path in (pathlib.Path(archive), *levels_of(archive), today_of(archive)) if path.exists()]
    texts = [path.read_bytes() for path in files]
    return texts[0] if len(texts) == 1 else join_of(*texts)


def change(path: pathlib.Path, at: int) -> None:
    """Changes a byte of a file in place."""
    with open(path, "r+b") as file:
        file.seek(at)
        byte = file.read(1)
        file.seek(at)
        file.write(bytes([byte[0] ^ 1]))


class Room:
    """A folder of one case."""

    def __init__(self, path: pathlib.Path) -> None:
        self.path, self.tool = path, keep
        self.archive = path / "site.sym"

    def file(self, name: Union[str, bytes], content: bytes) -> bytes:
        """Writes a file, and returns its path."""
        path = os.path.join(os.fsencode(self.path), os.fsencode(name))
        os.makedirs(os.path.dirname(path), exist_ok=True)
        with open(path, "wb") as file:
            file.write(content)
        return path

    def make_many(self, count: int, folder: str = "many", more: bytes = b"", first: int = 0) -> List[bytes]:
        """Images in a folder."""
        made = [image(first + number, more=more) for number in range(count)]
        for number, one in enumerate(made):
            self.file(f"{folder}/{number:04}", one)
        return made

    def program(self, script: str, name: str = "program") -> Dict[str, str]:
        """A program in the place of symarch, which is "$symarch" in it."""
        path = self.path / name
        path.write_text(f"#!/bin/sh\nsymarch={symarch}\n{script}\n")
        path.chmod(0o755)
        return {"SYMARCH": str(path)}

    def start(
        self,
        *words: Any,
        environment: Optional[Mapping[str, str]] = None,
        before: Sequence[str] = (),
        **more: Any,
    ) -> "subprocess.Popen[bytes]":
        """Begins the tool with these words; `before` is what runs it."""
        more = {"stdin": subprocess.DEVNULL, "stdout": subprocess.PIPE, "stderr": subprocess.PIPE, **more}
        environment = {**os.environ, "SYMARCH": symarch, **(environment or {})}
        return subprocess.Popen([*before, self.tool, *words], cwd=self.path, env=environment, **more)

    def call(self, *words: Any, status: Optional[int] = 0, **more: Any) -> Tuple[List[str], List[str]]:
        """Carries out a word, and returns the lines of standard output and of standard error. Its status is this one,
        if there is one."""
        with self.start(*words, **more) as process:
            try:
                said = [text.decode().split("\n") for text in process.communicate(timeout=MOST_SECONDS)]
            except subprocess.TimeoutExpired:
                process.kill()
                raise
        if status not in (None, process.returncode):
            raise Wrong(f"{words[0]}: came status {process.returncode}, wanted {status}: {said[1]}")
        out, errors = said
        same("end of a line", (out[-1], errors[-1]), ("", ""))
        return out[:-1], errors[:-1]

    def add(self, *paths: Any, words: Iterable[str] = (), **more: Any) -> Tuple[List[str], List[str]]:
        """Adds paths, and returns the lines of standard output and of standard error, of which the last has counts, but
        for the one that says that the archive was made."""
        out, errors = self.call("add", *words, self.archive, *paths, **more)
        return out, [one for one in errors if one != f"symarch-keep: made {os.path.realpath(self.archive)}"]

    def has(self, wanted: bytes) -> None:
        """Fails where the archive, with what came in since its last fold, has other bytes."""
        same("archive", bytes_of(self.archive), wanted)

    def begin_anew(self, text: Optional[bytes] = None) -> None:
        """Removes the archive with all beside it, and puts these bytes in its place, if any. A program whose caller was
        killed just now may remove its own draft meanwhile."""

        def pass_over(_function: Any, _path: str, failure: Any) -> None:
            if not isinstance(failure[1], FileNotFoundError):
                raise failure[1]

        for path in self.path.glob("site.sym*"):
            if path.is_dir():
                shutil.rmtree(path, onerror=pass_over)
            else:
                path.unlink()
        if text is not None:
            self.archive.write_bytes(text)

    def index(self) -> None:
        """Has the tool make the index of the archive, and nothing else."""
        self.call("status", "--accept", self.archive)

    def folded(self, wanted: bytes) -> None:
        """After a fold the archive alone has all."""
        self.call("fold", self.archive)
        same("archive after a fold", self.archive.read_bytes(), wanted)

    def left(self) -> List[str]:
        """What has a name that begins with that of the archive, but for what stays beside it."""
        names = (name for name in os.listdir(self.path) if name.startswith("site.sym."))
        others = (name for name in names if name not in [f"site.sym.{ending}" for ending in BESIDE])
        return sorted(name for name in others if not LEVEL.fullmatch(name[len("site.sym") :]))


class Gate:
    """A program in the place of symarch that waits at some of its commands, a pattern of the shell, until a case lets
    it go on: before what it does then, or after that. It does not wait for ever."""

    def __init__(self, room: Room, commands: str, then: str = 'exec "$symarch" "$@"', is_after: bool = False) -> None:
        self.reached, self.opened = room.path / "gate.reached", room.path / "gate.opened"
        waits = f'for at in $(seq {10 * MOST_SECONDS}); do [ -e {self.opened} ] && break; sleep 0.1; done'
        waits = f"case $1 in {commands}) : >{self.reached}; {waits};; esac"
        script = f"({then}\n)\nstatus=$?\n{waits}\nexit $status" if is_after else f"{waits}\n{then}"
        self.environment = room.program(script)

    def wait(self, process: "subprocess.Popen[bytes]") -> None:
        """Waits until the program stands there, by which a process was to come."""
        wait_until(self.reached.exists, process)

    def open(self) -> None:
        self.opened.touch()


class RoomCase(ProgramCase):
    """Cases over symarch-keep, each in a room of its own."""

    room: Room

    def setUp(self) -> None:
        super().setUp()
        self.room = Room(self.folder)
