"""The packages that packaging/package makes of the program, and what they have."""
import hashlib
import io
import os
import pathlib
import shutil
import subprocess
import sys
import tarfile
import tempfile
import unittest
from typing import Any, ClassVar, Dict, List, Optional, Tuple

from .cases import Without, remove
from .program import TOP, Word, symarch

sys.path[:0] = [str(TOP / "packaging"), str(TOP / "tools")]

# The script may be another one, as that of another commit.
PACKAGE = os.environ.get("PACKAGE") or str(TOP / "packaging" / "package")
CRASHES = TOP / "examples" / "crash"
# The line of no kit that there is.
KIT = "rattle-kit-0 logic 0123456789abcdef"
TOOLS = ("symarch-keep", "symbolicate-report")
NAMES = ("symarch", *TOOLS)
DOC = "share/doc/symarch"
# Where a package has completion for zsh. All else both have in one place.
ZSH = {"tar": "share/zsh/site-functions", "deb": "share/zsh/vendor-completions"}


def ran(*words: Word, **how: Any) -> "subprocess.CompletedProcess[str]":
    how = {"stdin": subprocess.DEVNULL, "stdout": subprocess.PIPE, "stderr": subprocess.PIPE, **how}
    return subprocess.run(words, errors="replace", text=True, check=False, **how)


def said(*words: Word, **how: Any) -> str:
    """What a command prints that does what it is asked for, and says nothing else."""
    done = ran(*words, **how)
    if done.returncode or done.stderr:
        raise AssertionError(f"{words} ended with {done.returncode}: {done.stdout}{done.stderr}")
    return done.stdout


def needs(*commands: str) -> None:
    """Leaves a case out if one of these commands is not there."""
    for it in commands:
        if not shutil.which(it):
            raise Without(f"there is no command {it}")


def ar_members(data: bytes) -> Dict[str, bytes]:
    """The parts of an archive of ar(1), by their names."""
    if data[:8] != b"!<arch>\n":
        raise AssertionError("no archive of ar")
    at, found = 8, {}
    while at < len(data):
        name, size = data[at : at + 16].decode().strip(), int(data[at + 48 : at + 58])
        found[name] = data[at + 60 : at + 60 + size]
        at += 60 + size + size % 2
    return found


def tar_members(data: bytes) -> List[Tuple[tarfile.TarInfo, Optional[bytes]]]:
    """The members of a tar, and the bytes of those that are files."""
    found: List[Tuple[tarfile.TarInfo, Optional[bytes]]] = []
    with tarfile.open(fileobj=io.BytesIO(data)) as tar:
        for it in tar.getmembers():
            file = tar.extractfile(it) if it.isfile() else None
            found.append((it, file.read() if file else None))
    return found


def sha256(data: bytes) -> str:
    return hashlib.sha256(data).hexdigest()


class Packages:
    """The two packages in a folder: what came of making them, and what they have."""

    def __init__(self, folder: pathlib.Path, *words: str, **how: Any) -> None:
        self.folder = folder
        folder.mkdir()
        environment = {"SYMARCH": symarch, **how.pop("env", os.environ)}
        self.done = ran(sys.executable, "-B", PACKAGE, *words, folder, env=environment, **how)
        if self.done.returncode:
            raise AssertionError(f"packaging/package: {self.done.stdout}{self.done.stderr}")
        self.files = {it.name: it.read_bytes() for it in sorted(folder.iterdir())}
        (deb,) = (name for name in self.files if name.startswith("symarch_"))
        self.version = deb.split("_")[1]
        self.top = f"symarch-{self.version}-linux-x86_64"
        self.names = {"tar": f"{self.top}.tar.gz", "deb": deb}
        self.server = f"symarch-server_{self.version}_all.deb"
        self.parts = ar_members(self.files[deb])
        packed = {"tar": self.files[self.names["tar"]], "deb": self.parts["data.tar.gz"]}
        self.members = {kind: tar_members(data) for kind, data in packed.items()}

    def tree(self, kind: str = "tar") -> Dict[str, bytes]:
        """The files of a package by their paths below its folder."""
        begin = {"tar": f"{self.top}/", "deb": "./usr/"}[kind]
        return {it.name[len(begin) :]: data for it, data in self.members[kind] if data is not None}

    def about(self) -> Dict[str, str]:
        """The texts of the control archive of the .deb."""
        return {it.name: data.decode() for it, data in tar_members(self.parts["control.tar.gz"]) if data is not None}

    def unpack(self, folder: pathlib.Path) -> pathlib.Path:
        """Puts the files of the tar into a folder, with their rights."""
        begin = len(self.top) + 1
        for it, data in self.members["tar"]:
            if data is not None:
                path = folder / it.name[begin:]
                path.parent.mkdir(parents=True, exist_ok=True)
                path.write_bytes(data)
                path.chmod(it.mode)
        return folder


class PackageCase(unittest.TestCase):
    """Cases over the packages, which are made once for all of them, and over what they had been made of."""

    made: ClassVar[Packages]
    room: ClassVar[pathlib.Path]

    @classmethod
    def setUpClass(cls) -> None:
        if not os.access(symarch, os.X_OK):
            raise AssertionError(f"there is no program {symarch}")
        cls.room = pathlib.Path(tempfile.mkdtemp(prefix=f"{cls.__name__}-"))
        cls.addClassCleanup(remove, cls.room)
        cls.made = Packages(cls.room / "first", "--kit", KIT)
