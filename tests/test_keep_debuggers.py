"""lldb with the files of `symarch-keep get`: the lines of examples/crash; and the script of docs/OPERATING.md, by which
a Mac gets a dSYM over ssh."""
import os
import pathlib
import plistlib
import re
import uuid
from typing import Dict

from .support.cases import same
from .support.llvm import tool
from .support.made_images import slices_in, uuid_of
from .support.program import TOP, call, symarch
from .support.rooms import RoomCase, keep

CRASH = TOP / "examples" / "crash"
DWARF = "Contents/Resources/DWARF"
# Functions and lines at addresses of the dSYM of spool-1, as llvm-symbolizer says.
LINES = {
    "arm64": [("0x100000410", "copy_body", "9:28"), ("0x1000003f8", "file_message", "22:1")],
    "x86_64": [("0x100000410", "copy_body", "9:28"), ("0x1000003ed", "file_message", "22:1")],
}


class DebuggerCase(RoomCase):
    """A site with the first build of examples/crash, whose dSYM is in a bundle."""

    seconds = 8

    def setUp(self) -> None:
        super().setUp()
        for name, text in (("spool.app/spool", "spool-1"), (f"spool.dSYM/{DWARF}/spool", "spool-1.dSYM")):
            self.room.file(name, (CRASH / text).read_bytes())
        self.room.add("spool.app", "spool.dSYM")
        self.uuids = {arch: self.uuid(at) for arch, at in (("x86_64", 0), ("arm64", 1))}

    @staticmethod
    def uuid(at: int, name: str = "spool-1") -> str:
        return str(uuid.UUID(bytes=uuid_of(slices_in((CRASH / name).read_bytes())[at])))


class Lldb(DebuggerCase):
    """lldb takes an image, and the file of a bundle as its symbols."""

    def says(self, *orders: str) -> str:
        """What lldb prints of these orders. It has no Python on some systems, and says that too."""
        words = [it for order in orders for it in ("-o", order)]
        came = call([tool("lldb"), "--batch", "--no-lldbinit", *words], cwd=self.folder)
        return came.out.decode() + came.errors.decode()

    def test_lines_of_both_architectures(self) -> None:
        self.room.call("get", self.room.archive, self.uuids["arm64"], "--to", "out")
        for arch, lines in LINES.items():
            create = f"target create --arch {arch}-apple-macosx out/spool"
            lookups = [f"image lookup --address {address}" for address, _, _ in lines]
            before = self.says(create, *lookups)
            self.assertNotIn("spool.c", before)
            said = self.says(create, f"target symbols add out/spool.dSYM/{DWARF}/spool", *lookups)
            for _, name, line in lines:
                self.assertRegex(said, rf"Summary: spool`{name} \+ [0-9]+ at spool\.c:{line}\n")

    def test_a_bundle_alone(self) -> None:
        """Its file says which UUIDs it has."""
        self.room.call("get", self.room.archive, self.uuids["x86_64"], "--to", "out")
        for arch, its in self.uuids.items():
            said = self.says(f"target create --arch {arch}-apple-macosx out/spool.dSYM/{DWARF}/spool", "image list")
            self.assertIn(its.upper(), said)


class OverSsh(DebuggerCase):
    """The script gets a dSYM from another machine, and leaves nothing there."""

    def setUp(self) -> None:
        super().setUp()
        text = (TOP / "docs" / "OPERATING.md").read_text(encoding="utf-8")
        found = re.search(r"^```\n(#!/bin/sh\n(?:.*\n){3})```", text, re.M)
        assert found
        for name in ("bin", "home", "there", "temporary"):
            (self.folder / name).mkdir()
        self.command("dsymForUUID", found[1])
        # The other machine has this PATH, and its files in this folder.
        self.command("ssh", f'#!/bin/sh\ncd "{self.folder}/there" && shift && exec sh -c "$*"\n')
        (self.folder / "bin/symarch-keep").symlink_to(keep)
        for path in self.folder.glob("site.sym*"):
            path.rename(self.folder / "there" / path.name.replace("site", "builds"))

    def command(self, name: str, text: str) -> None:
        path = self.folder / "bin" / name
        path.write_text(text)
        path.chmod(0o755)

    def asked(self, *words: str) -> Dict[str, Dict[str, str]]:
        """What the script prints, as a property list."""
        folders = {"HOME": f"{self.folder}/home", "TMPDIR": f"{self.folder}/temporary", "SYMARCH": symarch}
        environment = {**folders, "PATH": f"{self.folder}/bin:{os.environ['PATH']}"}
        came = call(["dsymForUUID", *words], environment=environment, cwd=self.folder)
        same(f"status: {came.errors.decode()}", came.status, 0)
        found: Dict[str, Dict[str, str]] = plistlib.loads(came.out)
        same("left", os.listdir(self.folder / "temporary"), [])
        return found

    def test_a_dsym(self) -> None:
        """As lldb asks, with options or without, again and again; of a name that XML cannot have as it is."""
        self.room.file(f"a & b.dSYM/{DWARF}/a & b", (CRASH / "spool-2.dSYM").read_bytes())
        self.room.call("add", self.folder / "there/builds.sym", "a & b.dSYM")
        other = self.uuid(0, "spool-2.dSYM")
        for words, name, text in (
            ([self.uuids["arm64"]], "spool", "spool-1.dSYM"),
            (["--copyExecutable", self.uuids["arm64"].upper()], "spool", "spool-1.dSYM"),
            ([other.upper()], "a & b", "spool-2.dSYM"),
        ):
            path = pathlib.Path(self.asked(*words)[words[-1]]["DBGDSYMPath"])
            same("bytes", path.read_bytes(), (CRASH / text).read_bytes())
            same("path", path.parts[-5:], (f"{name}.dSYM", *DWARF.split("/"), name))

    def test_a_uuid_that_is_not_there(self) -> None:
        found = self.asked("00000000-0000-0000-0000-000000000000")
        (told,) = found.values()
        self.assertFalse(os.path.exists(told["DBGDSYMPath"]), told)
