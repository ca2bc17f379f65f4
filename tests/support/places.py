"""Each place of an input and of OUT in the words of the commands, for the cases that try all of them."""
import errno
import os
from typing import Any, Iterable, NamedTuple, Optional

from .cases import ProgramCase
from .hostile_images import with_two_symbols_at_the_last_address
from .made_images import EMPTY, archive, digest_of, index, operations, summary
from .program import TOP

IMAGE = (TOP / "examples" / "first" / "image").read_bytes()
# An image with a symbol `_a` at the last address.
ENDS = with_two_symbols_at_the_last_address()
UUID = "00112233-4455-6677-8899-aabbccddeeff"
KEY = f"{UUID} x86_64"
DIGEST = digest_of(IMAGE)
# UUID, ARCH and DIGEST of the image.
ROW = f"{KEY} {DIGEST}"
ONE, RETIRED = archive([IMAGE]), archive([], [IMAGE])
ONE_OPS, EMPTY_OPS, ONE_SUM, EMPTY_SUM = operations([IMAGE]), operations([]), summary([IMAGE]), summary([])
FRAMES, SCRIPT = f"{KEY} - 0\n", "sites 1\nsave 0\n"
INPUTS = {
    **{"image": IMAGE, "empty.sym": EMPTY, "one.sym": ONE, "retired.sym": RETIRED, "cut.sym": ONE[:105]},
    **{"one.ops": ONE_OPS, "empty.ops": EMPTY_OPS, "one.sum": ONE_SUM, "empty.sum": EMPTY_SUM},
    **{"one.frames": FRAMES.encode(), "one.script": SCRIPT.encode(), "ends.sym": archive([ENDS])},
}


class Command(NamedTuple):
    """A command: its words, its status, what it prints, and what OUT then is, if it writes that."""

    words: str
    prints: str
    status: int = 0
    out: Optional[bytes] = None


# Each command, and those that take `--lines` also with it.
COMMANDS = [
    Command("new out", "archive: 0 records, 17 bytes", out=EMPTY),
    Command("admit empty.sym out image", f"file 0 slice 0 added {ROW}\narchive: 1 records, 106 bytes", out=ONE),
    Command(f"retire one.sym out {ROW}", f"retired {ROW}\narchive: 1 records, 74 bytes", out=RETIRED),
    Command("merge one.sym out empty.sym", "archive: 1 records, 106 bytes", out=ONE),
    Command("merge one.sym out retired.sym empty.sym", "archive: 1 records, 74 bytes", out=RETIRED),
    Command("migrate one.sym out", "archive: 1 records, 106 bytes", out=ONE),
    Command("apply empty.sym out one.ops", "applied: 1 new, 0 known\narchive: 1 records, 106 bytes", out=ONE),
    Command("summary empty.sym out", "summary: 0 entries, 17 bytes", out=EMPTY_SUM),
    Command("delta one.sym empty.sum out", "archive: 1 records, 106 bytes", out=ONE),
    Command("index one.sym out", "index: 1 entries, 291 bytes", out=index([IMAGE])),
    Command(f"extract one.sym {KEY} out", f"slice {ROW}, 56 bytes", out=IMAGE),
    Command(f"find one.sym {UUID}", f"x86_64 image {DIGEST}"),
    Command("list one.sym", f"{KEY} image {DIGEST}"),
    Command(f"symbolicate one.sym {KEY} 0", "0x0000000000000000 -", 1),
    Command(f"symbolicate --lines one.sym {KEY} 0", "0x0000000000000000 -", 1),
    Command("frames one.frames one.sym", "0x0000000000000000 -", 1),
    Command("frames --lines one.frames one.sym", "0x0000000000000000 -", 1),
    Command("name one.sym _a", "", 1),
    Command("name ends.sym _a", f"{KEY} {digest_of(ENDS)} 0xffffffffffffffff (__TEXT,__text)"),
    Command("rehearse one.script", f"0 saved\nsite 0 0 17 {digest_of(EMPTY)}"),
]

# The commands that read an archive, with its place; `merge` stands there with one FILE and with two.
READING = {
    "admit": "admit {} out image",
    "retire": f"retire {{}} out {ROW}",
    "merge": "merge {} out empty.sym",
    "merge of two": "merge {} out empty.sym empty.sym",
    "migrate": "migrate {} out",
    "apply": "apply {} out empty.ops",
    "find": f"find {{}} {UUID}",
    "list": "list {}",
    "symbolicate": f"symbolicate {{}} {KEY} 0",
    "frames": "frames one.frames {}",
    "name": "name {} _a",
    "summary": "summary {} out",
    "index": "index {} out",
    "delta": "delta {} empty.sum out",
    "extract": f"extract {{}} {KEY} out",
}
# The commands that write a file, with the place of OUT.
WRITING = {
    "new": "new {}",
    "admit": "admit empty.sym {} image",
    "retire": f"retire one.sym {{}} {ROW}",
    "merge": "merge one.sym {} empty.sym",
    "merge of two": "merge one.sym {} empty.sym empty.sym",
    "migrate": "migrate one.sym {}",
    "apply": "apply empty.sym {} one.ops",
    "summary": "summary one.sym {}",
    "index": "index one.sym {}",
    "delta": "delta one.sym empty.sum {}",
    "extract": f"extract one.sym {KEY} {{}}",
}
# The places of the FILEs of `merge`, by their numbers in a fault.
MERGED = {"archive 1": "merge empty.sym out {}", "archive 2": "merge empty.sym out empty.sym {}"}


def said(number: int) -> str:
    """What the system says, by the number of its error."""
    return f"{os.strerror(number)} (os error {number})"


ENOENT, ENOTDIR, EISDIR = said(errno.ENOENT), said(errno.ENOTDIR), said(errno.EISDIR)
A_FOLDER = f"{EISDIR}; of a dSYM, name the file in its folder Contents/Resources/DWARF"
AN_ARCHIVE = "an archive, which `merge` takes"
AN_OLD_ARCHIVE = "an archive of version 1, which `migrate` takes"
OF_AN_INPUT = "the file of an input"
FOREIGN = "there, and neither empty nor one of symarch's files"
OTHER_SLICE = "there, and neither empty nor the same slice"


class PlacesCase(ProgramCase):
    """Cases with a file for each place of an input."""

    # What is at OUT before each command, which a refused one leaves there; None if nothing is.
    out_before: Optional[bytes] = None

    def setUp(self) -> None:
        super().setUp()
        for name, content in INPUTS.items():
            self.file(name, content)
        self.put_out()

    def put_out(self) -> None:
        """Puts to OUT what is there before a command."""
        out = self.folder / "out"
        if self.out_before is not None:
            out.write_bytes(self.out_before)
        elif os.path.lexists(out):
            out.unlink()

    def keeps_out(self) -> None:
        """Fails where OUT is not as it was."""
        if self.out_before is None:
            self.is_absent("out")
        else:
            self.has_bytes("out", self.out_before)

    def refuses(self, words: str, where: str, path: str, fault: str, hint: str = "", **how: Any) -> None:
        """Fails where a command does not refuse the file of a path so, or does not leave OUT as it was. The path stands
        for `{}` in the words."""
        self.expect_refusal([it.format(path) for it in words.split(" ")], where, fault, f"{path}{hint}", **how)
        self.keeps_out()

    def refuses_archive(
        self, path: str, fault: str, hint: str = "", commands: Iterable[str] = READING, **how: Any
    ) -> None:
        """Fails where a command does not refuse an archive so in its first place."""
        for command in commands:
            self.refuses(READING[command], "archive 0", path, fault, hint, **how)

    def refuses_archives(
        self, path: str, fault: str, hint: str = "", commands: Iterable[str] = READING, **how: Any
    ) -> None:
        """Fails where a command does not refuse an archive so, or `merge` one of its FILEs."""
        self.refuses_archive(path, fault, hint, commands, **how)
        for where, words in MERGED.items():
            self.refuses(words, where, path, fault, hint, **how)

    def refuses_records(self, path: str, fault: str, hint: str = "", **how: Any) -> None:
        """The same of each place of archives, operations and summaries."""
        self.refuses_archives(path, fault, hint, **how)
        self.refuses("apply empty.sym out {}", "ops", path, fault, hint, **how)
        self.refuses("delta one.sym {} out", "summary", path, fault, hint, **how)

    def refuses_image(self, path: str, fault: str, hint: str = "", **how: Any) -> None:
        """The same of each place of an image."""
        self.refuses("admit empty.sym out {}", "file 0", path, fault, hint, **how)
        self.refuses("admit empty.sym out image image {} image", "file 2", path, fault, hint, **how)

    def refuses_text(self, path: str, fault: str, hint: str = "", **how: Any) -> None:
        """The same of frames and of a script."""
        self.refuses("frames {} one.sym", "frames", path, fault, hint, **how)
        self.refuses("rehearse {}", "script", path, fault, hint, **how)

    def refuses_input(self, path: str, fault: str, hint: str = "", **how: Any) -> None:
        """The same of each place of an input."""
        self.refuses_records(path, fault, hint, **how)
        self.refuses_image(path, fault, hint, **how)
        self.refuses_text(path, fault, hint, **how)

    def refuses_out(self, path: str, fault: str, hint: str = "", commands: Iterable[str] = WRITING, **how: Any) -> None:
        """Fails where a command that writes does not refuse OUT so."""
        for command in commands:
            words = [it.format(path) for it in WRITING[command].split(" ")]
            self.expect_refusal(words, "output", fault, f"{path}{hint}", **how)
