"""`symarch-keep add` of named files: the kind of one that has nothing to add, the slices that a cut one lacks, the
advice if ARCHIVE is last. No archive is made for nothing."""
import gzip
import os
import pathlib
import struct
import subprocess

from .support.cases import same
from .support.made_images import EXECUTE, archive, image, line, slice_words, symbols_outside, thirty_two_bit
from .support.made_images import universal, without_uuid
from .support.packed_files import zipped
from .support.program import TOP, call, symarch
from .support.rooms import RoomCase, today_of

FRONTS = {
    "an ELF file, which no command takes": b"\x7fELF\2\1\1",
    "an empty zip file": b"PK\5\6",
    "a gzip file, which has to be unpacked first": gzip.compress(b"text"),
    "a tar file, which has to be unpacked first": b"a.dSYM/".ljust(257, b"\0") + b"ustar\x0000",
    "a PDB file, which no command takes": b"Microsoft C/C++ MSF 7.00\r\n\x1aDS\0\0\0",
    "a PE file, which no command takes": b"MZ\x90\0",
    "a page of HTML, which no command takes": b"\n<!DOCTYPE html>\n<html lang='en'>",
    "a text that begins as a report, which `symbolicate-report` reads": b'{"app_name":"spool"}\n{}',
    "a Java class file, which no command takes": bytes.fromhex("cafebabe00000037"),
    "an archive, which `symarch merge` takes": archive([image(1)]),
    "an empty file": b"",
    "neither a Mach-O file nor a universal one": b"\0\1\2\3\4",
    "a static library": b"!<arch>\n",
    "a 32-bit image": thirty_two_bit(),
    "an image without a UUID": without_uuid(EXECUTE),
    "part 0, a 32-bit image; part 1, no image": universal([thirty_two_bit(), b"text"]),
}


class Named(RoomCase):
    """One that was named is told by its name and kind; one that was found in a folder is counted."""

    seconds = 4

    def test_each_kind(self) -> None:
        for number, front in enumerate(FRONTS.values()):
            self.room.file(f"folder/{number}", front)
        named = [f"folder/{number}" for number in range(len(FRONTS))]
        said, errors = self.room.add(*named, status=1)
        told = [f"symarch-keep: folder/{number}: {look}" for number, look in enumerate(FRONTS)]
        same("lines", (said, errors[:-1]), ([], told))
        self.assertTrue(errors[-1].startswith("symarch-keep: 0 added, 0 known, 0 retired, 0 refused, passed over 17 ("))
        same("lines of the folder", self.room.add("folder", status=1), ([], errors[-1:]))

    def test_as_admit_says_it(self) -> None:
        """Of an ELF, a zip and a gzip the program says the same before the comma."""
        empty = self.room.file("empty.sym", archive([]))
        fronts = {**FRONTS, "a zip file, which has to be unpacked first": b"PK\3\4"}
        for look in [it for it in fronts if it.startswith(("an ELF", "a zip", "a gzip"))]:
            path = self.room.file("one", fronts[look])
            came = call([symarch, "admit", empty, self.folder / "out", path])
            self.assertIn(f", {look.partition(',')[0]},", came.errors.decode())

    def test_one_of_which_a_part_goes_in(self) -> None:
        self.room.file("two", universal([thirty_two_bit(), image(1)]))
        said, errors = self.room.add("two")
        same("lines", said, [line("added", image(1), "two")])
        self.assertFalse([it for it in errors if "symarch-keep: two" in it], errors)

    def test_standard_input(self) -> None:
        """`-` is what standard input has, also where that is a pipe."""
        made = universal([image(1), image(2)])
        with self.room.start("add", self.room.archive, "-", stdin=subprocess.PIPE) as process:
            out, _ = process.communicate(made)
        wanted = [line("added", one, "-") for one in (image(1), image(2))]
        same("lines", (process.returncode, out.decode().splitlines()), (0, wanted))
        self.room.has(archive([image(1), image(2)]))
        with self.room.start("add", self.room.archive, "-", stdin=subprocess.PIPE) as process:
            _, errors = process.communicate(b"PK\3\4")
        same("errors", errors.decode().splitlines()[0], "symarch-keep: -: a zip file that is cut or damaged")


class NoArchive(RoomCase):
    """A file in the place of ARCHIVE that is none is told by its kind, and stays as it is."""

    seconds = 2

    def test_each_word(self) -> None:
        for name, kind in (("site.sym", "a zip file, which has to be unpacked first"), ("b.sym", "an empty file")):
            text = b"PK\3\4" if name == "site.sym" else b""
            self.room.file(name, text)
            for words, status in ((["add", name, "."], 4), (["fold", name], 4), (["find", name, "0" * 32], 2)):
                _, errors = self.room.call(*words, status=status)
                same(f"{words}", errors[0].partition(";")[0], f"symarch-keep: {name} is no archive, but {kind}")
                same("bytes", (self.folder / name).read_bytes(), text)


class Made(RoomCase):
    """An archive is made if something goes into it, and that is said."""

    seconds = 3

    def test_nothing_is_made_of_nothing(self) -> None:
        self.room.file("text", b"text")
        self.room.file("bad", image(4)[:-1])
        for path, status in (("text", 1), ("nowhere", 2)):
            self.room.add(path, status=status)
            same("made", sorted(os.listdir(self.folder)), ["bad", "text"])
        self.room.add("bad", status=2)
        same("made", (self.room.archive.exists(), today_of(self.room.archive).exists()), (False, False))

    def test_one_that_is_made(self) -> None:
        for number in (1, 2):
            self.room.file(str(number), image(number))
        made = f"symarch-keep: made {self.room.archive}"
        counts = "symarch-keep: 1 added, 0 known, 0 retired, 0 refused, passed over 0"
        same("errors of a dry run", self.room.add("1", words=["--dry-run"])[1], [f"{counts}; nothing was written"])
        for path, wanted in (("1", [made, counts]), ("2", [counts])):
            same(f"errors of {path}", self.room.call("add", self.room.archive, path)[1], wanted)


class Cut(RoomCase):
    """A file that was cut is refused with what its table or its commands promise, and what is there."""

    seconds = 3

    def refused(self, content: bytes, told: str) -> None:
        self.room.file("cut", content)
        _, errors = self.room.add("cut", status=2)
        same("refusal", errors[0], f"symarch-keep: cut: {told}")

    def test_a_universal_file(self) -> None:
        made = universal([image(1), image(2, more=bytes(100))])
        first = -(-(8 + 40) // 64) * 64
        second = first + -(-len(image(1)) // 64) * 64
        end = second + len(image(2)) + 100
        for size in (len(made) - 1, second, second + 10):
            told = f"Fat(SliceOutside(1)): part 1 is bytes {second} to {end} by the table, and the file has {size}"
            self.refused(made[:size], told)
        self.refused(made[:47], "Fat(TableTruncated): its table needs 48 bytes, and the file has 47")
        for size in (4, 7):
            self.refused(made[:size], f"Fat(HeaderTruncated): its header needs 8 bytes, and the file has {size}")

    def test_an_image(self) -> None:
        told = f"Slice(0, Image(CommandsOutside)): its commands promise 56 bytes, and there are {len(image(4)) - 1}"
        self.refused(image(4)[:-1], told)
        for size in (4, 31):
            told = f"Slice(0, Image(HeaderTruncated)): its header needs 32 bytes, and there are {size}"
            self.refused(image(4)[:size], told)
        made = symbols_outside(5)
        told = f"Slice(0, Symbols(SymbolsOutside)): its commands promise {4096 + 16} bytes, and there are {len(made)}"
        self.refused(made, told)


class FaultyTables(RoomCase):
    """Universal files whose tables are faulty: the program finds the faults of all at once."""

    seconds = 3

    def test_one_call(self) -> None:
        """In folders and in a packed file, each is refused by its own fault, and the others are added."""
        two, counted = universal([image(1), image(2)]), struct.pack(">II", 0xCAFEBABE, 33)
        cut = f"Fat(SliceOutside(1)): part 1 is bytes 128 to 184 by the table, and the file has {len(two) - 1}"
        table = "Fat(TableTruncated): its table needs 48 bytes, and the file has 20"
        header = "Fat(HeaderTruncated): its header needs 8 bytes, and the file has 5"
        places = {
            "many/count": (counted + bytes(33 * 20), "Fat(TooManyArches(33))"),
            "many/cut": (two[:-1], cut),
            "many/lower/table": (two[:20], table),
            "many/short": (counted, "Fat(TooManyArches(33)): its table needs 668 bytes, and the file has 8"),
        }
        for name, (content, _) in places.items():
            self.room.file(name, content)
        self.room.file("many/one", image(3))
        self.room.file("many/packed.zip", zipped({"header": two[:5], "table": two[:20], "four": image(4)}))
        wanted = [f"{name}: {fault}" for name, (_, fault) in places.items()]
        wanted[3:3] = [f"many/packed.zip: {name}: {fault}" for name, fault in (("header", header), ("table", table))]
        counting = self.room.program(f'echo "$1" >>{self.folder}/calls\nexec "$symarch" "$@"')
        said, errors = self.room.add("many", status=2, environment=counting)
        same("errors", errors[:6], [f"symarch-keep: {one}" for one in wanted])
        same("lines", said, [line("added", image(3), "many/one"), line("added", image(4), "many/packed.zip: four")])
        self.room.has(archive([image(3), image(4)]))
        same("calls of admit", (self.folder / "calls").read_text().split("\n").count("admit"), 1)

    def test_no_memory(self) -> None:
        """One that does not fit into the memory of the program keeps no other one out."""
        self.room.file("many/small", universal([image(1)])[:20])
        self.room.file("many/one", image(3))
        os.truncate(self.room.file("many/large", struct.pack(">II", 0xCAFEBABE, 33)), 200 << 20)
        narrow = self.room.program('[ "$1" != admit ] || ulimit -v 65536\nexec "$symarch" "$@"')
        said, errors = self.room.add("many", status=2, environment=narrow)
        same("refused", errors[:2], [
            "symarch-keep: many/large: symarch: out of memory",
            "symarch-keep: many/small: Fat(TableTruncated): its table needs 28 bytes, and the file has 20",
        ])
        same("lines", said, [line("added", image(3), "many/one")])

    def test_no_fault(self) -> None:
        """One of which the program reports no fault is refused too."""
        self.room.file("many/cut", universal([image(1)])[:20])
        self.room.file("many/one", image(3))
        silent = self.room.program('[ "$1" != admit ] || exit 0\nexec "$symarch" "$@"')
        said, errors = self.room.add("many", status=2, environment=silent)
        told = "symarch-keep: many/cut: its table cannot be followed, but symarch reports no fault"
        same("refused", errors[0], told)
        same("lines", said, [line("added", image(3), "many/one")])


class Order(RoomCase):
    """If ARCHIVE stands after the paths, nothing is done, and what to type is said."""

    seconds = 2

    def said(self, *words: str) -> str:
        _, errors = self.room.call("add", *words, status=3)
        same("errors", len(errors), 1)
        return errors[0]

    def test_an_archive_that_is_there(self) -> None:
        self.room.file("dSYMs/one", image(1))
        self.room.file("two", image(2))
        text = archive([image(3)])
        self.room.archive.write_bytes(text)
        before = sorted(os.listdir(self.folder))
        told = "ARCHIVE is first: symarch-keep add site.sym dSYMs"
        same("a folder", self.said("dSYMs", "site.sym"), f"symarch-keep: dSYMs is a folder, and {told}")
        told = "ARCHIVE is first: symarch-keep add --dry-run site.sym two dSYMs"
        said = self.said("--dry-run", "two", "dSYMs", "site.sym")
        same("a file", said, f"symarch-keep: two is no archive, and {told}")
        self.room.has(text)
        same("made", sorted(os.listdir(self.folder)), before)

    def test_one_that_is_not(self) -> None:
        self.room.file("my dSYMs/one", image(1))
        told = "my dSYMs is a folder, and ARCHIVE is first: symarch-keep add new.sym 'my dSYMs'"
        same("a folder", self.said("my dSYMs", "new.sym"), f"symarch-keep: {told}")
        self.room.file("one", image(1))
        said = self.said("one", "new.sym")
        same("a file", said, "symarch-keep: one is no archive, and ARCHIVE is first: symarch-keep add new.sym one")
        same("made", sorted(os.listdir(self.folder)), ["my dSYMs", "one"])

    def test_a_path_that_is_not_there(self) -> None:
        """It is no archive if what stands before it is none of the files that go in."""
        self.room.file("new.sym", b"")
        _, errors = self.room.call("add", "new.sym", "nowhere", status=4)
        same("errors", errors, ["symarch-keep: new.sym is no archive, but an empty file"])

    def test_of_an_exchange(self) -> None:
        self.room.archive.write_bytes(archive([image(3)]))
        (self.folder / "shared").mkdir()
        before = sorted(os.listdir(self.folder))
        _, errors = self.room.call("exchange", "shared", "site.sym", "east", status=3)
        told = "shared is a folder, and ARCHIVE is first: symarch-keep exchange site.sym shared east"
        same("errors", (errors, sorted(os.listdir(self.folder))), ([f"symarch-keep: {told}"], before))

    def test_standard_input(self) -> None:
        """It is no archive, and what is to be typed does not have it as one."""
        self.room.archive.write_bytes(archive([image(3)]))
        self.room.file("dSYMs/one", image(1))
        first = "ARCHIVE is first: symarch-keep add"
        for words, told in (
            (("-", "site.sym"), f"- is standard input, and {first} site.sym -"),
            (("-", "new.sym"), f"- is standard input, and {first} new.sym -"),
            (("dSYMs", "-"), f"dSYMs is a folder, and {first} ARCHIVE dSYMs -"),
            (("--json", "dSYMs", "dSYMs/one"), f"dSYMs is a folder, and {first} --json ARCHIVE dSYMs dSYMs/one"),
        ):
            same(f"{words}", self.said(*words), f"symarch-keep: {told}")
        for words in (("check", "-"), ("exchange", "-", "dSYMs", "east"), ("find", "-", "a")):
            _, errors = self.room.call(*words, status=3)
            same(f"{words}", errors, ["symarch-keep: - is standard input, and ARCHIVE is a file"])
        same("made", sorted(os.listdir(self.folder)), ["dSYMs", "site.sym"])

    def test_of_other_words(self) -> None:
        """Those that name an archive after what they ask of it. `repair` has two archives, and says nothing of them."""
        self.room.archive.write_bytes(archive([image(3)]))
        uuid, arch, digest = slice_words(image(3))
        (self.folder / "shared").mkdir()
        for words, typed in (
            (["find", uuid, "site.sym"], f"find site.sym {uuid}"),
            (["name", "--", "-[A b]", "site.sym"], "name -- site.sym '-[A b]'"),
            (["symbolicate", uuid, arch, "0", "site.sym", "--load", "0"],
             f"symbolicate --load 0 site.sym {uuid} {arch} 0"),
            (["retire", uuid, arch, digest, "site.sym"], f"retire site.sym {uuid} {arch} {digest}"),
            (["exchange", "nowhere", "site.sym", "east"], "exchange site.sym nowhere east"),
            (["exchange", "east", "site.sym", "shared"], "exchange site.sym shared east"),
        ):
            _, errors = self.room.call(*words, status=3)
            told = "is no archive, and ARCHIVE is first: symarch-keep"
            first = words[2 if words[1] == "--" else 1]
            same(f"{words}", errors, [f"symarch-keep: {first} {told} {typed}"])
        _, errors = self.room.call("exchange", "site.sym", "east", "shared", status=3)
        told = "east is no folder, and FOLDER precedes NAME: symarch-keep exchange site.sym shared east"
        same("a name", errors, [f"symarch-keep: {told}"])
        _, errors = self.room.call("repair", "nowhere", "site.sym", status=4)
        self.assertIn("nowhere: No such file", errors[0])
        _, errors = self.room.call("repair", "shared", "site.sym", status=4)
        same("a folder", errors, ["symarch-keep: shared is a folder, and no archive"])

    def test_what_is_said_may_be_typed(self) -> None:
        self.room.file("dSYMs/one", (TOP / "examples/crash/spool-1").read_bytes())
        typed = self.said("dSYMs", "new.sym").partition("is first: symarch-keep ")[2]
        self.room.call(*typed.split(" "))
        self.assertTrue(pathlib.Path(self.folder / "new.sym").exists())
