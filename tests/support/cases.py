"""Cases with a folder of their own, and cases over the program:

    class New(ProgramCase):
        def test_an_empty_archive(self) -> None:
            self.expect("new out", prints="archive: 0 records, 17 bytes")
            self.has_bytes("out", EMPTY)

`python3 -B -m unittest tests.test_words.New.test_an_empty_archive` runs this case alone. The program is the one that
SYMARCH names, or else that of this tree; where there is none, each case over it fails. What takes rights that are not
granted here is left out, by `raise Without(REASON)`."""
import hashlib
import os
import pathlib
import subprocess
import tempfile
import textwrap
import unittest
from typing import Any, Iterable, Iterator, List, Optional, Sequence, Union

from .program import NOT_ROOT, TOP, Ended, Word, call, is_done, symarch

__all__ = ["TOP", "FolderCase", "ProgramCase", "Without", "Wrong", "digest_of", "is_done", "pieces_in"]
__all__ += ["powerless_over", "same", "symarch"]


# The words of a command, in a list or with spaces between them; the lines of a text, in a list or as they stand, where
# the space before all of them does not count.
Words = Union[str, Sequence[Word]]
Text = Union[str, Sequence[str]]


def words_of(words: Words) -> Sequence[Word]:
    return words.split(" ") if isinstance(words, str) else words


def text_lines(text: Text) -> List[str]:
    return textwrap.dedent(text).strip("\n").splitlines() if isinstance(text, str) else list(text)


class Wrong(AssertionError):
    """What did not come as it has to."""


class Without(unittest.SkipTest):
    """What is not granted here, so that a case is left out."""


def same(what: str, came: Any, wanted: Any) -> None:
    """Fails where two values differ: of long bytes it says their lengths and digests, of lists what only one has."""
    if came != wanted:
        if isinstance(came, bytes):
            came, wanted = ([len(text), hashlib.sha256(text).hexdigest()] for text in (came, wanted))
        if isinstance(came, list) and isinstance(wanted, list):
            more, less = [one for one in came if one not in wanted], [one for one in wanted if one not in came]
            came, wanted = (more, less) if more or less else (came, wanted)
        raise Wrong(f"{what}: came {str(came)[:1500]}, wanted {str(wanted)[:1500]}")


def powerless_over(path: Word) -> List[str]:
    """The words before a command that may not read a file without rights."""
    before = NOT_ROOT if os.getuid() == 0 else []
    if not is_done([*before, "true"]) or is_done([*before, "cat", path]):
        raise Without("root's rights cannot be given up")
    return before


def pieces_in(path: Word) -> Iterator[bytes]:
    """The bytes of a file, in pieces."""
    with open(path, "rb") as file:
        while piece := file.read(1 << 20):
            yield piece


def digest_of(pieces: Iterable[bytes]) -> str:
    """The SHA-256 of bytes that come in pieces."""
    digest = hashlib.sha256()
    for piece in pieces:
        digest.update(piece)
    return digest.hexdigest()


def remove(folder: pathlib.Path) -> None:
    """Removes a folder, whatever rights its files have."""
    subprocess.run(["chmod", "-R", "u+rwX", folder], stderr=subprocess.DEVNULL, check=False)
    subprocess.run(["rm", "-rf", folder], check=False)


class FolderCase(unittest.TestCase):
    """Cases with a folder of their own, which is removed after each."""

    folder: pathlib.Path

    def setUp(self) -> None:
        self.folder = pathlib.Path(tempfile.mkdtemp(prefix=f"{type(self).__name__}-"))
        self.addCleanup(remove, self.folder)

    def file(self, name: str, content: Union[bytes, str]) -> pathlib.Path:
        """Writes a file into the folder, and the folders above it."""
        path = self.folder / name
        path.parent.mkdir(parents=True, exist_ok=True)
        path.write_bytes(content.encode() if isinstance(content, str) else content)
        return path

    def has_bytes(self, name: Union[str, pathlib.Path], wanted: bytes) -> None:
        """Fails where a file has other bytes, or is not there."""
        path = self.folder / name
        self.assertTrue(path.exists(), f"{name} is not there")
        same(str(name), path.read_bytes(), wanted)

    def is_absent(self, name: Union[str, pathlib.Path]) -> None:
        """Fails where a file is there."""
        self.assertFalse(os.path.lexists(self.folder / name), f"{name} is there")


class ProgramCase(FolderCase):
    """Cases over the program, which runs in the folder of the case."""

    @classmethod
    def setUpClass(cls) -> None:
        if not os.access(symarch, os.X_OK):
            raise AssertionError(f"there is no program {symarch}")

    def call(self, *words: Word, before: Sequence[str] = (), **how: Any) -> Ended:
        """What comes of the program with these words; `before` is what runs it, and `how` is of `program.call`."""
        return call([*before, symarch, *words], cwd=self.folder, **how)

    def expect(
        self, words: Words, prints: Optional[Text] = "", tells: Text = "", status: int = 0, **how: Any
    ) -> None:
        """Fails where the program ends with another status, or prints other lines, or others on standard error. None as
        what it prints is anything."""
        came = self.call(*words_of(words), **how)
        wanted = (status, came.lines if prints is None else text_lines(prints), text_lines(tells))
        self.assertEqual((came.status, came.lines, came.error_lines), wanted, f"of {words!r}")

    def expect_refusal(self, words: Words, where: str, fault: str, hint: str, **how: Any) -> None:
        """Fails where a command is not refused so: nothing is printed, and standard error has the fault at an input or
        at OUT, and the line for people, which names its path and what is known of it."""
        tells = [f"symarch: {where}: {fault}", f"  {where} is {hint}"]
        self.expect(words, tells=tells, status=2, **how)
