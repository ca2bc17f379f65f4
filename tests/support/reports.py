"""Cases over symbolicate-report, with archives of the images of examples/crash."""
import os
import pathlib
import re
import subprocess
import sys
import tempfile
from typing import Any, Callable, Dict, List, Mapping, NamedTuple, Sequence, Tuple, Union

from .cases import ProgramCase, remove
from .program import TOP, Ended, Word, call, symarch

# The tool may be another one, as that of another commit.
TOOL = os.environ.get("REPORT") or str(TOP / "tools" / "symbolicate-report")
CRASHES = TOP / "examples" / "crash"
FIXTURES = TOP / "tests" / "fixtures" / "reports"
EXPECTED = TOP / "tests" / "expected" / "reports"

# The images of reports, as the last line on standard error has them. DYLD and KERNEL are in no archive.
SPOOL, SPOOL_X86_64 = "4c4c4419-5555-3144-a1d2-4341c97782f0", "4c4c44c0-5555-3144-a19f-a433d7651718"
SPOOL_2 = "4c4c4435-5555-3144-a1b5-8515a36e45e9"
DYLD, KERNEL = "7ad1c2b4-3f60-3d8e-9c15-e4b0a2f85d73", "c18f8d2e-47b9-3e05-a1d6-5b2c7f8e9034"


class Form(NamedTuple):
    """A form of report: its file, and the archive that is asked."""

    path: pathlib.Path
    archive: str


FORMS: Dict[str, Form] = {
    "crash": Form(CRASHES / "arm64.crash", "shipped"),
    "mac": Form(FIXTURES / "mac.crash", "shipped"),
    "ips": Form(CRASHES / "arm64.ips", "shipped"),
    "older": Form(FIXTURES / "older.ips", "shipped"),
    "exception": Form(FIXTURES / "exception.ips", "shipped"),
    "stackshot": Form(FIXTURES / "stackshot.ips", "shipped"),
    "metrickit": Form(FIXTURES / "metrickit.json", "shipped"),
    "sample": Form(FIXTURES / "spool.sample.txt", "shipped"),
    "spindump": Form(FIXTURES / "spool.spindump.txt", "both"),
    "hang": Form(FIXTURES / "hang.ips", "shipped"),
}


def source(form: str) -> bytes:
    """The report of a form."""
    return FORMS[form].path.read_bytes()


def named(form: str) -> bytes:
    """What has to be printed of it. Names and offsets were written from `llvm-nm` of the images."""
    return (EXPECTED / form).read_bytes()


def without_lines(data: bytes) -> bytes:
    """A text without the files and lines of the frames of spool."""
    return re.sub(rb" \(\w+\.c:[0-9]+\)$|  \w+\.c:[0-9,]+$", b"", data, flags=re.M)


def program(*words: Word) -> None:
    """Runs the program, which has to end well."""
    subprocess.run([symarch, *words], check=True, stdout=subprocess.DEVNULL)


def make_archives(folder: pathlib.Path) -> None:
    """Makes the archives of the cases:

    - empty      nothing
    - shipped    version 1 of spool and its dSYM, for both architectures
    - both       that, and version 2
    - alike      an image, and the same one signed anew, which have one UUID and answer alike
    - differ     these, and a third one of that UUID, which was stripped
    - two        shipped, and an image for arm64e under the UUID of that for arm64
    - stripped   the image of `alike`, and the stripped one
    - image      the stripped image alone"""
    linked = (CRASHES / "spool-1.arm64").read_bytes()
    (folder / "signed").write_bytes(linked[:-1] + b"\0")
    (folder / "arm64e").write_bytes(linked[:8] + b"\2" + linked[9:])
    first, second = [CRASHES / "spool-1", CRASHES / "spool-1.dSYM"], [CRASHES / "spool-2", CRASHES / "spool-2.dSYM"]
    program("new", folder / "empty")
    for name, before, files in (
        ("shipped", "empty", first),
        ("both", "shipped", second),
        ("alike", "empty", [CRASHES / "spool-1.arm64", folder / "signed"]),
        ("differ", "alike", first[:1]),
        ("two", "shipped", [folder / "arm64e"]),
        ("stripped", "empty", [CRASHES / "spool-1.arm64", CRASHES / "spool-1"]),
        ("image", "empty", first[:1]),
    ):
        program("admit", folder / before, folder / name, *files)


class ReportCase(ProgramCase):
    """Cases over symbolicate-report, which runs in the folder of the case. The archives are made once for them all."""

    archives: pathlib.Path

    @classmethod
    def setUpClass(cls) -> None:
        super().setUpClass()
        cls.archives = pathlib.Path(tempfile.mkdtemp(prefix="archives-"))
        cls.addClassCleanup(remove, cls.archives)
        make_archives(cls.archives)

    def report(
        self, *words: Any, before: Sequence[str] = (), environment: Mapping[str, str] = {}, **how: Any
    ) -> Ended:
        """What comes of the tool with these words. A word that is the name of an archive is its path."""
        whole = [self.archives / word if (self.archives / word).is_file() else word for word in words]
        environment = {"SYMARCH": symarch, **environment}
        return call([*before, sys.executable, "-BIS", TOOL, *whole], cwd=self.folder, environment=environment, **how)

    def prints(self, words: Sequence[Any], wanted: Union[bytes, str], *counts: str, status: int = 0) -> None:
        """Fails where something else is printed than these bytes, or than a file of expected/reports has; where the
        last line does not say this and no more is said; or where the status is another one."""
        came = self.report(*words)
        self.assertEqual((came.status, self.shortened(came)), (status, ["; ".join(counts)]), f"of {words}")
        self.is_printed(came, wanted)

    def is_printed(self, came: Ended, wanted: Union[bytes, str]) -> None:
        """Fails where something else was printed. """
        expected = wanted if isinstance(wanted, bytes) else named(wanted)
        if came.out != expected:
            self.assertEqual(*(text.decode(errors="backslashreplace") for text in (came.out, expected)))

    def shortened(self, came: Ended) -> List[str]:
        """The lines on standard error, without the folders of paths."""
        lines = came.error_lines
        for folder in (self.archives, self.folder, CRASHES, FIXTURES):
            lines = [line.replace(f"{folder}/", "") for line in lines]
        return lines

    def is_refused(self, words: Sequence[Any], *said: str, status: int = 2) -> None:
        """Fails where something is printed, or something else is said."""
        came = self.report(*words)
        self.assertEqual((came.status, came.out, self.shortened(came)), (status, b"", list(said)), f"of {words}")

    def written(self, paths: Sequence[pathlib.Path], archive: Any, *words: Any) -> Tuple[Dict[str, bytes], Ended]:
        """What --out writes of several reports, by its path, and what came of the call."""
        out = pathlib.Path(tempfile.mkdtemp(prefix="out-", dir=self.folder)) / "made"
        came = self.report("--out", out, *words, *paths, archive)
        made = {str(path.relative_to(out)): path.read_bytes() for path in out.rglob("*") if path.is_file()}
        return made, came

    def script(self, name: str, body: str) -> str:
        """A program in the place of symarch, which is "$symarch" in it."""
        path = self.file(name, f"#!/bin/sh\nsymarch={symarch}\n{body}\n")
        path.chmod(0o755)
        return str(path)


Change = Callable[[bytes], bytes]
