"""The tables in kept indexes: added, copied, checked and repaired; and sites whose indexes had none, or tables in
wide pages. Expected indexes are made by tests.model, from docs/FILES.md."""
import hashlib
import os
import pathlib
import random
import subprocess
import sys
from typing import Callable, Dict, List

from .model.indexes import entries_in, table_place
from .model.pages import Claim
from .support.cases import same, symarch
from .support.kills import Left
from .support.made_images import EMPTY, archive, image, index_of_wide_pages, index_of, index_of_2_3
from .support.made_images import index_without_pages, index_without_tables, slice_words, slices_in
from .support.program import TOP
from .support.reports import TOOL as REPORT
from .support.rooms import RoomCase, change, kept_index, today_of
from .support.sites import Site, until_same

CRASH = TOP / "examples" / "crash"
# Runs the tool where the system copies no bytes by itself.
WITHOUT_SENDFILE = """
import errno, os, runpy, sys

def sendfile(*_):
    raise OSError(errno.EINVAL, "Invalid argument")

os.sendfile = sendfile
sys.argv = sys.argv[1:]
sys.path[0] = os.path.dirname(sys.argv[0])
runpy.run_path(sys.argv[0], run_name="__main__")
"""


def words_of(made: bytes) -> str:
    return " ".join(slice_words(made))


def spools() -> List[bytes]:
    """Slices that have symbols."""
    return [one for name in ("spool-1", "spool-1.dSYM", "spool-2") for one in slices_in((CRASH / name).read_bytes())]


class TableCase(RoomCase):
    """Cases over an archive of slices with symbols, and others."""

    seconds = 20

    def setUp(self) -> None:
        super().setUp()
        # A table of several pages, of which the strings are nearly all.
        self.made = [*spools(), image(1), image(2, more=b"some bytes"), large(3)]
        self.retired = [image(20)]
        self.text = archive(self.made, retired=self.retired)

    def begin(self) -> None:
        self.room.begin_anew(self.text)
        self.room.index()

    def index(self) -> pathlib.Path:
        return pathlib.Path(f"{self.room.archive}.idx")

    def is_indexed(self, *paths: pathlib.Path) -> None:
        for path in paths or (self.room.archive,):
            same(f"index of {path.name}", kept_index(path), index_of(path.read_bytes()))

    def table_line(self, word: str, entry: bytes) -> str:
        """The line of the table of an entry."""
        made = next(one for one in self.made if hashlib.sha256(one).digest() == entry[25:57])
        return f"{word} table {words_of(made)} {table_place(entry)} {self.index()}"

    def slice_line(self, word: str, made: bytes) -> str:
        return f"{word} {words_of(made)} {self.text.index(made) - 33} {self.room.archive}"


def large(number: int) -> bytes:
    """An image whose string table has 40,000 bytes."""
    text = image(number)
    symtab = b"\2\0\0\0\x18\0\0\0" + b"".join(it.to_bytes(4, "little") for it in (0, 0, 80, 40_000))
    dice = random.Random(number)
    strings = bytes(dice.randrange(256) for _ in range(40_000))
    return text[:16] + (2).to_bytes(4, "little") + (48).to_bytes(4, "little") + text[24:] + symtab + strings


class Kept(TableCase):
    """Each word leaves each file with its index, whose tables are those of its slices."""

    def test_words(self) -> None:
        files = self.room.archive, today_of(self.room.archive)
        for number, one in enumerate(self.made):
            self.room.file(f"given/{number}", one)
        self.room.add("given/0", "given/1")
        self.is_indexed(*files)
        counting = self.room.program(f'echo "$1" >>{self.folder}/calls\nexec "$symarch" "$@"')
        for number in range(2, len(self.made)):
            self.room.add(f"given/{number}", environment=counting)
            self.is_indexed(*files)
        self.room.call("retire", self.room.archive, *slice_words(self.made[0]), environment=counting)
        self.is_indexed(*files)
        self.room.call("fold", "--purge", self.room.archive, environment=counting)
        self.is_indexed(*files)
        same("archive", self.room.archive.read_bytes(), archive(self.made[1:], retired=self.made[:1]))
        calls = (self.folder / "calls").read_text().split()
        same("how often tables were made", calls.count("index"), len(self.made) - 2)

    def test_where_the_system_copies_nothing(self) -> None:
        """The tool copies slices and tables itself."""
        for number, one in enumerate(self.made[:3]):
            self.room.file(f"given/{number}", one)
            self.room.add(f"given/{number}", before=[sys.executable, "-c", WITHOUT_SENDFILE])
        self.is_indexed(self.room.archive, today_of(self.room.archive))
        self.room.has(archive(self.made[:3]))

    def test_exchange(self) -> None:
        east, west = Site(self.room, "east"), Site(self.room, "west")
        east.add(*self.made[:4])
        west.add(*self.made[3:])
        west.retire(self.made[2])
        until_same([east, west], archive([*self.made[:2], *self.made[3:]], retired=self.made[2:3]))
        for site in (east, west):
            self.is_indexed(site.archive, today_of(site.archive))

    def test_a_name_by_its_table(self) -> None:
        self.begin()
        name, arch, _ = slice_words(self.made[3])
        words = ["symbolicate", self.room.archive, name, arch, "0x100000404"]
        wanted = ["0000000100000404 _copy_body + 0 (__TEXT,__text)"]
        came = self.room.call(*words)[0]
        same("name", [it.split(" ")[1] for it in came], [it.split(" ")[1] for it in wanted])
        # The slice is not read.
        change(self.room.archive, self.text.index(self.made[3]) + len(self.made[3]) - 1)
        same("name of one that changed", self.room.call(*words)[0], came)
        digest = hashlib.sha256(self.made[3]).digest()
        entry = next(it for it in entries_in(kept_index(self.room.archive)) if it[25:57] == digest)
        change(self.index(), table_place(entry))
        _, errors = self.room.call(*words, status=2)
        told = f"{words_of(self.made[3])} changed since it was added: run symarch-keep check {self.room.archive}"
        same("errors", errors, [f"symarch-keep: {told}"])


class ChangedTables(TableCase):
    """`check` finds each byte of a table that changed, and `repair` makes that anew of its slice, out of no archive."""

    def places(self) -> Dict[int, bytes]:
        """Places of each table: of its digests, its first and its last byte, and others; with its entry."""
        dice = random.Random(4)
        found: Dict[int, bytes] = {}
        entries = [entry for entry in entries_in(kept_index(self.room.archive)) if entry[:1] == b"\2"]
        for entry in entries:
            size = int.from_bytes(entry[82:90], "big")
            stored = Claim(0, size, b"").stored
            for at in {0, stored - 1, stored - size, *(dice.randrange(stored) for _ in range(2))}:
                found[table_place(entry) + at] = entry
        return found

    def test_each(self) -> None:
        self.room.file("none.sym", EMPTY)
        self.begin()
        good = kept_index(self.room.archive)
        for at, entry in self.places().items():
            change(self.index(), at)
            found, _ = self.room.call("check", self.room.archive, status=2)
            same(f"found of {at}", found, [self.table_line("changed", entry)])
            came, _ = self.room.call("repair", self.room.archive, "none.sym")
            same(f"repaired of {at}", came, [self.table_line("repaired", entry)])
            same(f"index after {at}", self.index().read_bytes(), good)
            self.room.has(self.text)
        self.room.call("check", self.room.archive)
        log = pathlib.Path(f"{self.room.archive}.log").read_text()
        # Two lines of one second and one table are one.
        told = {line.split(" ", 1)[1] for line in log.splitlines() if " repaired table " in line}
        same("tables of the log", len(told), len(set(self.places().values())))

    def test_without_a_check_before(self) -> None:
        """And with a slice that changed."""
        self.room.file("good.sym", self.text)
        self.begin()
        good = kept_index(self.room.archive)
        entries = [it for it in entries_in(good) if it[:1] == b"\2"]
        for entry in entries[1:3]:
            change(self.index(), table_place(entry))
        made = self.made[2]
        change(self.room.archive, self.text.index(made) + 50)
        came, _ = self.room.call("repair", self.room.archive, "good.sym")
        tables = [self.table_line("repaired", entry) for entry in entries[1:3]]
        same("repaired", came, [self.slice_line("repaired", made), *tables])
        same("index", self.index().read_bytes(), good)
        self.room.has(self.text)

    def test_of_a_slice_that_stays_changed(self) -> None:
        self.room.file("none.sym", EMPTY)
        self.room.file("good.sym", self.text)
        self.begin()
        entry = entries_in(kept_index(self.room.archive))[1]
        made = next(one for one in self.made if hashlib.sha256(one).digest() == entry[25:57])
        change(self.room.archive, self.text.index(made) + len(made) - 1)
        change(self.index(), table_place(entry))
        lines = [self.slice_line("changed", made), self.table_line("changed", entry)]
        same("check", self.room.call("check", self.room.archive, status=2)[0], lines)
        same("repair", self.room.call("repair", self.room.archive, "none.sym", status=2)[0], lines)
        came, _ = self.room.call("repair", self.room.archive, "good.sym")
        same("repair", came, [line.replace("changed", "repaired") for line in lines])
        self.is_indexed()

    def test_killed_before_each_step(self) -> None:
        self.room.file("none.sym", EMPTY)
        self.begin()
        good = kept_index(self.room.archive)
        entry = entries_in(good)[1]
        change(self.index(), table_place(entry))
        with Left(self.room, "repair", self.room.archive, "none.sym") as left:
            for _ in left.each():
                self.room.call("repair", self.room.archive, "none.sym")
                same("index", self.index().read_bytes(), good)
                same("left", self.room.left(), [])
                self.room.call("check", self.room.archive)


class OtherKinds(TableCase):
    """A site with indexes of an earlier release, or that no release wrote: without tables, with tables in wide pages,
    or with entries that are not stored in pages. The next command that writes makes them anew, and says so; until then
    nothing is said by them."""

    def setUp(self) -> None:
        super().setUp()
        self.new = [image(30), spools()[0]]
        self.texts = self.text, archive([*self.new[:1]], retired=[self.made[0]])
        self.files = self.room.archive, today_of(self.room.archive)

    def reported(self) -> str:
        """A report with names, and what was named."""
        words = [REPORT, "--text", str(CRASH / "arm64.crash"), str(self.room.archive)]
        environment = {**os.environ, "SYMARCH": symarch}
        ended = subprocess.run(words, env=environment, capture_output=True, text=True, check=False)
        self.assertEqual(ended.returncode, 0, ended.stderr)
        return ended.stdout + ended.stderr

    def begin_with(self, index_made: Callable[[bytes], bytes]) -> None:
        self.room.begin_anew()
        for path, text in zip(self.files, self.texts):
            path.write_bytes(text)
            self.room.file(f"{path.name}.idx", index_made(text))

    def is_made_anew(self, errors: List[str]) -> None:
        told = {f"symarch-keep: {path}.idx was of another kind, and is made anew" for path in self.files}
        self.assertLessEqual(told, set(errors))
        self.is_indexed(*self.files)
        same("left", self.room.left(), [])

    def test_by_each_command_that_writes(self) -> None:
        self.room.file("none.sym", EMPTY)
        self.room.file("given", self.new[0])
        (self.folder / "shared").mkdir()
        site = self.room.archive
        for words in (
            ["add", site, "given"],
            ["status", "--accept", site],
            ["exchange", "--take-name", site, "shared", "east"],
            ["fold", site],
        ):
            for index_made in KINDS:
                self.begin_with(index_made)
                self.is_made_anew(self.room.call(*words)[1])
                self.room.call("check", site)
        self.begin_with(index_without_tables)
        _, errors = self.room.call("repair", site, "none.sym", status=4)
        told = f"symarch-keep: {site}.idx is of another kind, so the changed bytes are not known"
        told += "; the archive is as it was"
        same("repair", errors[-1], told)

    def test_commands_that_only_read_change_nothing(self) -> None:
        """They say that the index is another one, or refuse it."""
        told = "symarch-keep: {}.idx is of another kind: the next command that writes makes it anew"
        for index_made in KINDS:
            self.begin_with(index_made)
            before = {path.name: path.read_bytes() for path in self.folder.glob("site.sym*")}
            for command, status in (("status", 0), ("check", 2)):
                _, errors = self.room.call(command, self.room.archive, status=status)
                same(command, sorted(errors[:2]), sorted(told.format(path) for path in self.files))
            if index_made is not index_of_2_3:
                _, errors = self.room.call("find", self.room.archive, slice_words(self.made[3])[0], status=2)
                self.assertIn("is of another kind: run symarch-keep check", errors[0])
            self.room.call("add", "--dry-run", self.room.archive, CRASH / "spool-1")
            same("files", {path.name: path.read_bytes() for path in self.folder.glob("site.sym*")}, before)

    def test_one_of_an_earlier_release_counts_as_none(self) -> None:
        """Until it is made anew, lookups and reports answer by the archive, as they do by its new index."""
        self.begin_with(index_of_2_3)
        uuid, arch, _ = slice_words(self.new[1])
        asked = ["find", self.room.archive, uuid], ["symbolicate", self.room.archive, uuid, arch, "0x100000432"]
        before = [self.room.call(*words)[0] for words in asked]
        report = self.reported()
        self.room.call("status", "--accept", self.room.archive)
        self.is_indexed(*self.files)
        same("answers", [self.room.call(*words)[0] for words in asked], before)
        same("report", self.reported(), report)

    def test_killed_before_each_step(self) -> None:
        self.begin_with(index_without_tables)
        with Left(self.room, "status", "--accept", self.room.archive) as left:
            for _ in left.each():
                self.room.index()
                self.is_indexed(*self.files)


KINDS = index_without_tables, index_of_wide_pages, index_without_pages, index_of_2_3
