"""`symarch-keep add` of zip and tar files: members as files of a folder; bombs, cut, damaged and encrypted ones;
`--dsyms-only`. No member is written under its own path."""
import fcntl
import gzip
import os
import signal
import struct
import subprocess
import sys
import tarfile
import tempfile
import unittest
import zipfile
from typing import Any, Callable, Dict, Iterator, List, Mapping, Optional, Tuple

from .support.cases import Without, is_done, same
from .support.made_images import archive, image, line, thirty_two_bit, universal
from .support.packed_files import tarred, zipped
from .support.program import TOP
from .support.rooms import RoomCase, changed_tool

sys.path.insert(0, str(TOP / "tools"))
from symarch_tools.formats.packed_files import Allowance, Damaged, Member, Packed, Unpacker  # noqa: E402

ONE, TWO = (f"{name}.dSYM/Contents/Resources/DWARF/{name}" for name in ("one", "two"))
TEXT, OUT = b"text " * 1000, "../../leads-out"
# Runs the tool with another limit of what a member may unpack to.
LIMITED = """import os, runpy, sys
sys.argv = sys.argv[1:]
sys.path.insert(0, os.path.dirname(sys.argv[0]))
from symarch_tools.formats import packed_files
packed_files.MOST = 5000
sys.exit(__import__("symarch_tools.keep").keep.main())
"""

# Ends the tool when a part of a member is unpacked.
ENDED_WITHIN = """
import os, signal
from symarch_tools.formats import packed_files

unpack = packed_files.Member.unpack

def ended(self, file, front, most=None):
    file.write(front)
    os.kill(os.getpid(), signal.SIGTERM)
    unpack(self, file, self.read(packed_files.CHUNK), most)

packed_files.Member.unpack = ended
"""


def changed(made: bytes, number: int, of_local: Tuple[int, bytes], of_list: Tuple[int, bytes]) -> bytes:
    """A zip file with other bytes in the two headers of a member, which are at these places of them."""
    text = bytearray(made)
    for begins, (place, new) in ((b"PK\3\4", of_local), (b"PK\1\2", of_list)):
        at = -1
        for _ in range(number + 1):
            at = text.index(begins, at + 1)
        text[at + place : at + place + len(new)] = new
    return bytes(text)


class PackedCase(RoomCase):
    """Files that are packed, and what is said of them."""

    def says(self, name: str, content: bytes, lines: List[str], errors: List[str], *words: str) -> None:
        """Fails where an addition prints other lines, or says anything else before the counts."""
        self.room.begin_anew()
        self.room.file(name, content)
        is_refused = any(" that holds " not in it for it in errors)
        status = 2 if is_refused else 0 if lines else 1
        said, told = self.room.add(name, status=status, words=list(words))
        same(f"lines of {name}", said, lines)
        others = [it for it in told[:-1] if ": made " not in it]
        same(f"errors of {name}", others, [f"symarch-keep: {it}" for it in errors])


class Taken(PackedCase):
    """What goes in."""

    seconds = 8
    members = {ONE: image(1), "notes.txt": TEXT, TWO: universal([image(3), image(2)]), OUT: image(4)}

    def test_each_kind(self) -> None:
        """Two dSYMs, a text, and a name that would lead out of the folder."""
        stored = zipped(self.members, zipfile.ZIP_STORED)
        for name, made in (("a.zip", zipped(self.members)), ("b.zip", stored), ("c.tar.gz", tarred(self.members))):
            places = ((1, ONE), (3, TWO), (2, TWO), (4, OUT))
            self.says(name, made, [line("added", image(number), f"{name}: {path}") for number, path in places], [])
            self.room.has(archive([image(number) for number in (1, 2, 3, 4)]))
            led = [str(it) for it in (self.folder, *self.folder.parents) if (it / "leads-out").exists()]
            same("left, made outside", (self.room.left(), led), ([], []))
            said, errors = self.room.add(name)
            same("second add", [it.split()[0] for it in said], ["known"] * 4)
            counts = "0 added, 4 known, 0 retired, 0 refused, passed over 1 (other files 1)"
            same("last line", errors, [f"symarch-keep: {counts}"])

    def test_verbose(self) -> None:
        self.room.file("a.zip", zipped({**self.members, "old": thirty_two_bit()}))
        _, errors = self.room.add("a.zip", words=["--verbose"])
        told = ["notes.txt: passed over: other files", "old: passed over: 32-bit images"]
        same("errors", errors[:2], [f"symarch-keep: a.zip: {it}" for it in told])

    def test_an_archive_that_stands_last(self) -> None:
        self.room.file("a.zip", zipped(self.members))
        _, errors = self.room.call("add", "--dsyms-only", "a.zip", "new.sym", status=3)
        told = "a.zip is no archive, and ARCHIVE is first: symarch-keep add --dsyms-only new.sym a.zip"
        same("errors, made", (errors, os.listdir(self.folder)), ([f"symarch-keep: {told}"], ["a.zip"]))

    def test_standard_input(self) -> None:
        for made in (zipped(self.members), tarred(self.members)):
            self.room.begin_anew()
            with self.room.start("add", self.room.archive, "-", stdin=subprocess.PIPE) as process:
                out, _ = process.communicate(made)
            same("lines", (process.returncode, out.decode().splitlines()[0]), (0, line("added", image(1), f"-: {ONE}")))
            self.room.has(archive([image(number) for number in (1, 2, 3, 4)]))

    def test_conflicts(self) -> None:
        """Members of one UUID and of one length stand in the order of their bytes, also of several files."""
        made = [image(1, more=bytes([number]) * 2_000_000) for number in (3, 1, 2, 4)]
        self.room.file("a.zip", zipped({"0": made[0], "1": made[1]}))
        self.room.file("b.tgz", tarred({"2": made[2], "3": made[3]}))
        self.room.add("a.zip", "b.tgz")
        self.room.has(archive(made))

    def test_of_a_folder(self) -> None:
        """One that a folder has goes in by its name, and so does one within another."""
        made = {"folder/a.zip": zipped(self.members), "folder/b/c.TGZ": tarred({"e": image(5)}),
                "folder/d.tar.gz": tarred({"f": image(6), "g.zip": zipped({"h": image(7)})}),
                "folder/i.apk": zipped({"j": image(8)})}  # fmt: skip
        for name, content in made.items():
            self.room.file(name, content)
        said, errors = self.room.add("folder")
        places = [(1, f"a.zip: {ONE}"), (3, f"a.zip: {TWO}"), (2, f"a.zip: {TWO}"), (4, f"a.zip: {OUT}")]
        places += [(5, "b/c.TGZ: e"), (6, "d.tar.gz: f"), (7, "d.tar.gz: g.zip: h")]
        same("lines", said, [line("added", image(number), f"folder/{path}") for number, path in places])
        counts = "7 added, 0 known, 0 retired, 0 refused, passed over 2 (other files 2)"
        same("errors", errors, [f"symarch-keep: {counts}"])
        self.room.has(archive([image(number) for number in (1, 2, 3, 4, 5, 6, 7)]))
        self.says("b.zip", zipped({"a.zip": zipped({})}), [], ["b.zip: a zip file that holds no Mach-O file"])

    def test_of_a_folder_without_an_image(self) -> None:
        """It is as silent as other files are, whatever it has."""
        self.room.file("folder/one", image(1))
        for name, content in (("a.zip", zipped({"a.txt": TEXT})), ("b.tgz", tarred({"b.txt": TEXT})), ("c.zip", TEXT),
                              ("d.tgz", gzip.compress(TEXT)), ("e.zip", zipped({})), ("f.tgz", tarred({}))):
            self.room.file(f"folder/{name}", content)
        said, errors = self.room.add("folder")
        counts = "1 added, 0 known, 0 retired, 0 refused, passed over 6 (other files 6)"
        same("lines, errors", (len(said), errors), (1, [f"symarch-keep: {counts}"]))

    def test_damaged_ones_of_a_folder(self) -> None:
        """They are told as those that were named, and the others go in."""
        self.room.file("folder/a.zip", zipped({ONE: image(1)})[:-30])
        self.room.file("folder/b.tgz", tarred({"more": os.urandom(50_000)})[:-1000])
        self.room.file("folder/c.zip", zipped({TWO: image(2)}))
        said, errors = self.room.add("folder", status=2)
        same("lines", said, [line("added", image(2), f"folder/c.zip: {TWO}")])
        told = ["a.zip: a zip file that is cut or damaged", "b.tgz: a gzipped tar file that is cut or damaged"]
        same("errors", errors[:2], [f"symarch-keep: folder/{it}" for it in told])

    def test_dsyms_only(self) -> None:
        for name, made in (("a.zip", zipped(self.members)), ("a.tgz", tarred(self.members))):
            places = ((1, ONE), (3, TWO), (2, TWO))
            lines = [line("added", image(number), f"{name}: {path}") for number, path in places]
            self.says(name, made, lines, [], "--dsyms-only")
        told = ["c.zip: a zip file that holds no dSYM"]
        self.says("c.zip", zipped({"one": image(1)}), [], told, "--dsyms-only")
        self.room.begin_anew()
        for path, content in (*self.members.items(), ("one.dSYM/Contents/Resources/other", image(5))):
            self.room.file(f"folder/{path.replace('../../leads-out', 'x')}", content)
        said, errors = self.room.add("folder", "folder/x", words=["--dsyms-only"])
        lines = [line("added", image(number), f"folder/{path}") for number, path in ((1, ONE), (3, TWO), (2, TWO))]
        same("lines of a folder", said, lines)
        counts = "3 added, 0 known, 0 retired, 0 refused, passed over 3 (files outside of dSYMs 3)"
        same("last line", errors[-1], f"symarch-keep: {counts}")
        said, _ = self.room.add("folder/x", words=["--dsyms-only"])
        same("lines of a file", said, [line("added", image(4), "folder/x")])
        self.room.file("others/a.zip", zipped({"one": image(8), ONE: image(9)}))
        said, _ = self.room.add("others", words=["--dsyms-only"])
        same("lines of a zip file in a folder", said, [line("added", image(9), f"others/a.zip: {ONE}")])


class Refused(PackedCase):
    """What stays out. The other members go in, and so do other files."""

    seconds = 8

    def test_nothing_in_it(self) -> None:
        self.says("a.docx", zipped({"a.xml": b"<a/>"}), [], ["a.docx: a zip file that holds no Mach-O file"])
        self.says("a.tgz", tarred({"a": TEXT}), [], ["a.tgz: a gzipped tar file that holds no Mach-O file"])
        self.says("a.apk", zipped({"a": thirty_two_bit()}), [], ["a.apk: a zip file that holds a 32-bit image"])

    def test_cut(self) -> None:
        made = zipped({ONE: image(1), TWO: image(2)})
        for size in (4, 50, len(made) - 30):
            self.says("a.zip", made[:size], [], ["a.zip: a zip file that is cut or damaged"])
        packed = tarred({ONE: image(1), "more": os.urandom(50_000)})
        told = ["a.tgz: a gzipped tar file that is cut or damaged"]
        self.says("a.tgz", packed[:-1000], [line("added", image(1), f"a.tgz: {ONE}")], told)
        self.says("a.tgz", packed[:-8] + bytes(8), [line("added", image(1), f"a.tgz: {ONE}")], told)
        self.says("a.tgz", packed[:10], [], ["a.tgz: a gzip file that is cut or damaged"])

    def test_damaged_member(self) -> None:
        made = zipped({ONE: image(1, more=TEXT), TWO: image(2)}, zipfile.ZIP_STORED)
        made = made.replace(TEXT, TEXT[:-1] + b"x")
        self.says("a.zip", made, [line("added", image(2), f"a.zip: {TWO}")], [f"a.zip: {ONE}: cut or damaged"])

    def test_encrypted(self) -> None:
        made = changed(zipped({ONE: image(1), TWO: image(2)}), 0, (6, b"\1\0"), (8, b"\1\0"))
        self.says("a.zip", made, [line("added", image(2), f"a.zip: {TWO}")], [f"a.zip: {ONE}: encrypted"])

    def test_another_method(self) -> None:
        told = [f"a.zip: {ONE}: packed by another method than deflate"]
        self.says("a.zip", zipped({ONE: image(1)}, zipfile.ZIP_BZIP2), [], told)

    def test_a_promise_that_is_not_kept(self) -> None:
        """A member that promises ten bytes, and has more."""
        big = image(1, more=bytes(2000))
        ten = struct.pack("<I", 10)
        made = changed(zipped({ONE: big, TWO: image(2)}), 0, (22, ten), (24, ten))
        told = [f"a.zip: {ONE}: unpacks to {len(big)} bytes, and its entry promises 10"]
        self.says("a.zip", made, [line("added", image(2), f"a.zip: {TWO}")], told)

    def test_a_bomb(self) -> None:
        """More than the limit is refused by what is read, whatever is promised; in a tar file it ends the file."""
        ten, big = struct.pack("<I", 10), image(1, more=bytes(1_000_000))
        members = {"first": image(3), ONE: big, TWO: image(2)}
        bomb = changed(zipped(members), 1, (22, ten), (24, ten))
        told = f"{ONE}: unpacks to more than 5000 bytes, and no slice has more"
        after = "; the members after it were not read"
        for name, made, numbers, end in (("a.zip", bomb, (3, 2), ""), ("a.tgz", tarred(members), (3,), after)):
            self.room.begin_anew()
            self.room.file(name, made)
            how: Dict[str, Any] = {"before": [sys.executable, "-BI", "-c", LIMITED]}
            with self.room.start("add", self.room.archive, name, **how) as process:
                out, errors = (text.decode().splitlines() for text in process.communicate())
            same("status, refusal", (process.returncode, errors[0]), (2, f"symarch-keep: {name}: {told}{end}"))
            places = {3: "first", 2: TWO}
            same("lines", out, [line("added", image(it), f"{name}: {places[it]}") for it in numbers])
            self.room.has(archive([image(it) for it in numbers]))

    def test_a_long_name(self) -> None:
        """The name of a tar header is not read into memory, however long it is."""
        entry = tarfile.TarInfo("././@LongLink")
        entry.type, entry.size = tarfile.GNUTYPE_LONGNAME, 1 << 32
        text = tarred({ONE: image(1)}, "w")[:1024] + entry.tobuf(tarfile.GNU_FORMAT) + bytes(100_000)
        told = ["a.tgz: a gzipped tar file that is cut or damaged"]
        self.says("a.tgz", gzip.compress(text), [line("added", image(1), f"a.tgz: {ONE}")], told)

    def test_a_damaged_header(self) -> None:
        """It is not taken for the end of a tar file."""
        text = bytearray(tarred({ONE: image(1), TWO: image(2)}, "w"))
        text[1024 + 150] ^= 1
        told = ["a.tgz: a gzipped tar file that is cut or damaged"]
        self.says("a.tgz", gzip.compress(bytes(text)), [line("added", image(1), f"a.tgz: {ONE}")], told)


    def test_a_sparse_one(self) -> None:
        """A map of any length is not read into memory, in either form that tar writes."""
        for form in ("gnu", "pax"):
            (self.folder / "sparse").write_bytes(b"")
            os.truncate(self.folder / "sparse", 10_000_000)
            self.room.file("one", image(1))
            words = ["tar", f"--format={form}", "-C", str(self.folder), "-Sczf", str(self.folder / "made")]
            if not is_done([*words, "one", "sparse"]):
                raise Without("there is no tar of GNU")
            told = ["a.tgz: a gzipped tar file that is cut or damaged"]
            content = (self.folder / "made").read_bytes()
            self.says("a.tgz", content, [line("added", image(1), "a.tgz: one")], told)

    def test_changing(self) -> None:
        """A member whose file changes before its bytes are given to the program stays out, and the others go in."""
        packs: Dict[str, Callable[[Mapping[str, bytes]], bytes]] = {"a.zip": zipped, "a.tgz": tarred}
        for name, pack in packs.items():
            self.room.begin_anew()
            path = self.folder / name
            path.write_bytes(pack({"1": image(1), "2": image(2)}))
            with open(f"{self.room.archive}.lock", "w") as lock:
                fcntl.flock(lock, fcntl.LOCK_EX)
                process = self.room.start("add", self.room.archive, name)
                assert process.stderr
                process.stderr.readline()
                path.write_bytes(pack({"1": image(1, more=b"more"), "2": image(2)}))
            out, errors = (text.decode().splitlines() for text in process.communicate())
            same("refusal", (process.returncode, errors[0]), (2, f"symarch-keep: {name}: 1: changed while it was read"))
            same("lines", out, [line("added", image(2), f"{name}: 2")])


class Ended(PackedCase):
    """A signal leaves nothing of a member."""

    seconds = 4

    def test_stopped(self) -> None:
        temporary = self.folder / "temporary"
        temporary.mkdir()
        self.room.file("a.zip", zipped({ONE: image(1, more=bytes(20_000_000))}))
        self.room.tool = changed_tool(self.folder, ENDED_WITHIN)
        how: Dict[str, Any] = {"status": -signal.SIGTERM, "environment": {"TMPDIR": str(temporary)}}
        same("said", self.room.call("add", self.room.archive, "a.zip", **how), ([], []))
        same("left", (os.listdir(temporary), self.room.left(), self.room.archive.exists()), ([], [], False))


class Order(unittest.TestCase):
    """A file is unpacked twice at most, whatever the order is in which its members are asked for."""

    def unpacks_twice(self, made: bytes, is_zip: bool, names: List[str]) -> None:
        with tempfile.NamedTemporaryFile() as file:
            file.write(made)
            file.flush()
            packed = Counted(lambda: open(file.name, "rb"), is_zip, 1 << 20)
            unpacker = Unpacker()
            unpacker.wanted[packed] = set(range(len(names)))
            for number in [*range(len(names)), *reversed(range(len(names))), 1, 0, 2]:
                with unpacker.open(packed, number) as member:
                    self.assertEqual(member.read(), names[number].encode() * 100)
            self.assertEqual(packed.times, 2)
            self.assertRaises(Damaged, unpacker.open, packed, len(names))

    def test_reversed(self) -> None:
        names = [f"{number}.dSYM" for number in range(40)]
        members = {name: name.encode() * 100 for name in names}
        self.unpacks_twice(zipped(members), True, names)
        self.unpacks_twice(tarred(members), False, names)


class Counted(Packed):
    """A packed file that counts how often it is read from the first member on, or from another."""

    times = 0

    def members(self, first: int = 0, allowance: Optional[Allowance] = None) -> Iterator[Member]:
        self.times += 1
        return super().members(first, allowance)
