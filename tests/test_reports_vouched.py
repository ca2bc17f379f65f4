"""symbolicate-report with indexes: it prints no name for which they do not vouch."""
import os
import re
import shutil
import struct
from pathlib import Path
from typing import Any, List, Optional, Union

from .model.indexes import entries_in, table_place
from .support.cases import powerless_over
from .support.made_images import index_without_tables, records_in
from .support.program import TOP, call, symarch
from .support.reports import CRASHES, DYLD, FIXTURES, KERNEL, SPOOL, SPOOL_2, ReportCase, named, source
from .support.rooms import change, changed_tool

KEEP = TOP / "tools" / "symarch-keep"
ARM64, MH_DSYM = struct.pack(">II", 0x0100000C, 0), struct.pack("<I", 10)
NONE_NAMED = "0 of 4 frames named, 0 named before, 4 not named"
ALL_NAMED = f"4 of 4 frames named, 0 named before, 0 not named; by dSYM: spool {SPOOL} arm64"
CHANGED = f"changed since it was added: spool {SPOOL} arm64"

# Renames the index of an archive once a tool has looked for it twice, for however long that takes.
COMING = """
import os
from symarch_tools.reports import archives
from symarch_tools.store import lock

looks, lock.looks.__defaults__ = lock.looks, (600.0,)
archives.MOST_OF_CHANGES = lock.MOST_OF_CHANGES = 600.0

def looked(state, **more):
    for number, _ in enumerate(looks(state, **more)):
        yield
        if number == 1:
            os.rename({before!r}, {then!r})

archives.looks = looked
"""


def advice(uuid: str, kept: object, arch: str = "arm64") -> str:
    return f"symbolicate-report: {uuid} {arch} changed since it was added: run symarch-keep check {kept}"


class VouchedCase(ReportCase):
    """Cases over `site.sym`, an archive with an index."""

    def setUp(self) -> None:
        super().setUp()
        self.site = self.archive("site.sym", "shipped")

    def archive(self, name: str, like: str, is_indexed: bool = True) -> Path:
        path = self.file(name, (self.archives / like).read_bytes())
        if is_indexed:
            self.assertEqual(self.call("index", path, f"{path}.idx").status, 0)
        return path

    def change_table(self, path: Path, uuid: str = SPOOL, of_dsym: bool = True) -> None:
        """Changes the first byte of the stored table of an arm64 slice, of a companion or of an image."""
        key, index = bytes.fromhex(uuid.replace("-", "")) + ARM64, Path(f"{path}.idx")
        for entry in entries_in(index.read_bytes()):
            if entry[:25] == b"\x02" + key and entry[57] == of_dsym:
                change(index, table_place(entry))

    def change(self, path: Path, uuid: str = SPOOL, arch: bytes = ARM64, of_dsym: bool = True) -> None:
        """Changes the last byte of the slices of a key, of its companion or of its image."""
        at = 8
        for record in records_in(path.read_bytes()):
            key = bytes.fromhex(uuid.replace("-", "")) + arch
            at += len(record)
            if record[1:25] == key and (record[45:49] == MH_DSYM) == of_dsym:
                change(path, at - 1)

    def says(
        self, *lines: str, words: Optional[List[Any]] = None, status: int = 2, printed: Optional[bytes] = None
    ) -> None:
        """Fails where other lines stand on standard error, in which paths have no folder; where the status is another
        one, or something else is printed than the report as it stands."""
        came = self.report(*(words or [CRASHES / "arm64.crash", "site.sym"]))
        self.assertEqual((came.status, self.shortened(came)), (status, list(lines)))
        self.is_printed(came, source("crash") if printed is None else printed)


class ChangedTables(VouchedCase):
    """A slice whose table is not the one that its index has digests of."""

    def test_no_name_is_printed(self) -> None:
        self.says(ALL_NAMED, status=0, printed=named("crash"))
        self.change_table(self.site)
        self.says(advice(SPOOL, "site.sym"), f"{NONE_NAMED}; {CHANGED}")

    def test_without_lines(self) -> None:
        words = ["--no-lines", CRASHES / "arm64.crash", "site.sym"]
        plain = self.report(*words)
        self.says(ALL_NAMED, words=words, status=0, printed=plain.out)
        self.change_table(self.site)
        self.says(advice(SPOOL, "site.sym"), f"{NONE_NAMED}; {CHANGED}", words=words)

    def test_a_table_that_is_not_asked(self) -> None:
        """The dSYM answers, so that of its image is not read."""
        self.change_table(self.site, of_dsym=False)
        self.says(ALL_NAMED, status=0, printed=named("crash"))

    def test_a_slice_that_changed(self) -> None:
        """Its table is that of the bytes that came in."""
        self.change(self.site)
        self.says(ALL_NAMED, status=0, printed=named("crash"))

    def test_missing(self) -> None:
        """The slice is there, so its dSYM is not missing."""
        self.change_table(self.site)
        words = ["--missing", FIXTURES / "metrickit.json", "site.sym"]
        self.says(advice(SPOOL, "site.sym"), words=words, printed=f"{DYLD} dyld\n".encode())

    def test_the_names_that_the_report_has_stay(self) -> None:
        self.change_table(self.site)
        words = [self.file("named.crash", named("crash")), "site.sym"]
        counts = "0 of 4 frames named, 4 named before, 0 not named"
        self.says(advice(SPOOL, "site.sym"), f"{counts}; {CHANGED}", words=words, printed=named("crash"))

    def test_other_images_are_named(self) -> None:
        both = self.archive("both.sym", "both")
        self.change_table(both)
        came = self.report(FIXTURES / "spool.spindump.txt", "both.sym")
        self.assertEqual((came.status, self.shortened(came)[0]), (2, advice(SPOOL, "both.sym")))
        counts, *origins = came.error_lines[1].split("; ")
        self.assertEqual(counts, "2 of 15 frames named, 5 named before, 8 not named")
        absent = f"not in the archive: dyld {DYLD}, kernel {KERNEL}"
        self.assertEqual(origins, [f"by dSYM: spool {SPOOL_2}", f"changed since it was added: spool {SPOOL}", absent])
        lines = named("spindump").splitlines()
        wanted = [line for line in lines if re.search(rb"copy_body \+ 0|start \+ 48", line)]
        self.assertEqual([line for line in came.out.splitlines() if line in wanted], wanted)

    def test_another_image_than_those_of_the_report(self) -> None:
        both = self.archive("both.sym", "both")
        self.change_table(both, SPOOL_2)
        self.says(ALL_NAMED, words=[CRASHES / "arm64.crash", "both.sym"], status=0, printed=named("crash"))

    def test_several_at_once(self) -> None:
        """The program is called once, however many keys are refused."""
        both = self.archive("both.sym", "both")
        self.change_table(both)
        self.change_table(both, SPOOL_2)
        program = self.script("counting", f'echo >>"{self.folder}/calls"; exec "$symarch" "$@"')
        came = self.report(FIXTURES / "spool.spindump.txt", "both.sym", environment={"SYMARCH": program})
        self.assertEqual(sorted(came.error_lines[:2]), sorted([advice(SPOOL, "both.sym"), advice(SPOOL_2, "both.sym")]))
        self.assertEqual(came.status, 2)
        self.assertEqual((self.folder / "calls").read_text().count("\n"), 1)

    def test_an_architecture_that_is_not_stated(self) -> None:
        """The image for another architecture under its UUID does not answer in its place."""
        two = self.archive("two.sym", "two")
        self.change_table(two)
        path = self.file("unstated", source("crash").replace(b" arm64 <", b" <"))
        changed = f"changed since it was added: spool {SPOOL}"
        self.says(advice(SPOOL, "two.sym"), f"{NONE_NAMED}; {changed}", words=[path, two], printed=path.read_bytes())

    def test_the_same_key_in_another_archive(self) -> None:
        """The table of the first one answers for a slice that several have."""
        self.change_table(self.site)
        words = [CRASHES / "arm64.crash", "site.sym", "shipped"]
        self.says(advice(SPOOL, "site.sym"), f"{NONE_NAMED}; {CHANGED}", words=words)
        words = [CRASHES / "arm64.crash", "shipped", "site.sym"]
        self.says(ALL_NAMED, words=words, status=0, printed=named("crash"))

    def test_what_came_in_lately(self) -> None:
        """The advice names the archive that symarch-keep has it for."""
        empty = self.archive("late.sym", "empty")
        shutil.copy(self.site, f"{empty}.today")
        shutil.copy(f"{self.site}.idx", f"{empty}.today.idx")
        self.says(ALL_NAMED, words=[CRASHES / "arm64.crash", "late.sym"], status=0, printed=named("crash"))
        self.change_table(Path(f"{empty}.today"))
        words = [CRASHES / "arm64.crash", "late.sym"]
        self.says(advice(SPOOL, "late.sym"), f"{NONE_NAMED}; {CHANGED}", words=words)

    def test_a_link_to_an_archive(self) -> None:
        (self.folder / "other").mkdir()
        (self.folder / "other/link.sym").symlink_to(self.site)
        self.change_table(self.site)
        link = self.folder / "other/link.sym"
        self.says(advice(SPOOL, "other/link.sym"), f"{NONE_NAMED}; {CHANGED}", words=[CRASHES / "arm64.crash", link])

    def test_several_reports(self) -> None:
        self.change_table(self.site)
        paths = [self.file("one/crash", source("crash")), self.file("one/ips", source("ips"))]
        made, came = self.written(paths, "site.sym")
        self.assertEqual((came.status, made["crash"], made["ips"]), (2, source("crash"), source("ips")))
        self.assertIn(CHANGED, came.error_lines[1])

    def test_an_archive_of_symarch_keep(self) -> None:
        """From `add` to the word that the advice names, which says the same, and the one that mends it."""
        kept, environment = self.folder / "kept.sym", {"SYMARCH": symarch}
        steps: List[List[Union[str, Path]]] = [["add", kept, CRASHES / "spool-1.dSYM"], ["fold", kept]]
        for words in steps:
            self.assertEqual(call([KEEP, *words], environment=environment).status, 0)
        self.change_table(kept)
        asked = [CRASHES / "arm64.crash", "kept.sym"]
        self.says(advice(SPOOL, "kept.sym"), f"{NONE_NAMED}; {CHANGED}", words=asked)
        checked = call([KEEP, "check", kept], environment=environment)
        self.assertEqual((checked.status, checked.out.decode().split(" arm64 ")[0]), (2, f"changed table {SPOOL}"))
        self.says(advice(SPOOL, "kept.sym"), f"{NONE_NAMED}; {CHANGED}", words=asked)
        self.assertEqual(call([KEEP, "repair", kept, "shipped"], environment=environment, cwd=self.archives).status, 0)
        self.says(ALL_NAMED, words=asked, status=0, printed=named("crash"))


class ReadSlices(VouchedCase):
    """Slices that are read, and have not the SHA-256 that they came in with."""

    def test_of_one_length_in_two_archives(self) -> None:
        """Only their bytes say which comes first. The dSYM of one archive has another last byte."""
        dsym = (CRASHES / "spool-1.dSYM").read_bytes()
        other = self.file("other.dSYM", dsym[:-1] + bytes([dsym[-1] ^ 1]))
        for name, path in (("one.sym", CRASHES / "spool-1.dSYM"), ("other.sym", other)):
            self.assertEqual(self.call("admit", self.archives / "empty", name, path).status, 0)
            self.assertEqual(self.call("index", name, f"{name}.idx").status, 0)
        words = [CRASHES / "arm64.crash", "one.sym", "other.sym"]
        self.says(ALL_NAMED, words=words, status=0, printed=named("crash"))
        self.change(self.folder / "other.sym")
        self.says(advice(SPOOL, "other.sym"), f"{NONE_NAMED}; {CHANGED}", words=words)

    def test_other_keys_are_named(self) -> None:
        """The program refuses the key alone whose slice changed, and is called once."""
        dsym = (CRASHES / "spool-1.dSYM").read_bytes()
        other = self.file("other.dSYM", dsym[:-1] + bytes([dsym[-1] ^ 1]))
        for name, paths in (("one.sym", [CRASHES / "spool-1.dSYM", CRASHES / "spool-2.dSYM"]), ("other.sym", [other])):
            self.assertEqual(self.call("admit", self.archives / "empty", name, *paths).status, 0)
            self.assertEqual(self.call("index", name, f"{name}.idx").status, 0)
        self.change(self.folder / "other.sym")
        program = self.script("counting", f'echo >>"{self.folder}/calls"; exec "$symarch" "$@"')
        words = [FIXTURES / "spool.spindump.txt", "one.sym", "other.sym"]
        came = self.report(*words, environment={"SYMARCH": program})
        self.assertEqual((came.status, self.shortened(came)[0]), (2, advice(SPOOL, "other.sym")))
        self.assertEqual((self.folder / "calls").read_text().count("\n"), 1)
        _, *origins = came.error_lines[1].split("; ")
        wanted = [f"by dSYM: spool {SPOOL_2}", f"changed since it was added: spool {SPOOL}"]
        self.assertEqual(origins[:2], wanted)

    def test_without_an_index_the_archive_alone_answers(self) -> None:
        plain = self.archive("plain.sym", "shipped", is_indexed=False)
        self.change(plain)
        self.says(ALL_NAMED, words=[CRASHES / "arm64.crash", "plain.sym"], status=0, printed=named("crash"))


class OtherArchives(VouchedCase):
    """Archives that were written since their index was, and indexes that are damaged."""

    since = "site.sym was written after site.sym.idx, which is stale: run symarch-keep check site.sym"
    since += ", and if that ends with 0 symarch-keep fold site.sym, which indexes it anew"

    def is_not_asked(self, why: str, archive: str = "site.sym") -> None:
        """Nothing is printed, since nothing vouches for a name, and the word that finds out more is named."""
        line = f"symbolicate-report: {why}: run symarch-keep check {archive}"
        self.is_refused([CRASHES / "arm64.crash", archive], line)

    def test_an_archive_that_was_written_since(self) -> None:
        """What is said of it helps."""
        shutil.copy(self.archives / "both", self.site)
        self.is_refused([CRASHES / "arm64.crash", "site.sym"], f"symbolicate-report: {self.since}")
        for word in ("check", "fold"):
            came = call([KEEP, word, self.site], environment={"SYMARCH": symarch})
            self.assertEqual(came.status, 0, came.errors)
        self.says(ALL_NAMED, status=0, printed=named("crash"))

    def test_one_of_two_archives(self) -> None:
        """It may retire what the other one has."""
        shutil.copy(self.archives / "both", self.site)
        words = [CRASHES / "arm64.crash", "shipped", "site.sym"]
        self.is_refused(words, f"symbolicate-report: {self.since}")

    def test_a_word_that_puts_an_archive_in_place_now(self) -> None:
        """Its index stands there already, under another name."""
        both = self.archive("both.sym", "both")
        os.replace(both, self.site)
        os.replace(f"{both}.idx", f"{self.site}.idx.next")
        self.says(ALL_NAMED, status=0, printed=named("crash"))

    def test_an_index_that_comes_meanwhile(self) -> None:
        """The program is given an index that is an old one by then, and asked again."""
        both = self.archive("both.sym", "both")
        shutil.copy(both, self.site)
        moved = f'mv "{both}.idx" "{self.site}.idx" 2>>"{self.folder}/moves"'
        program = self.script("moving", f'"$symarch" "$@"; status=$?; {moved}; exit $status')
        came = self.report(CRASHES / "arm64.crash", "site.sym", environment={"SYMARCH": program})
        self.assertEqual((came.status, came.error_lines), (0, [ALL_NAMED]))
        self.is_printed(came, "crash")

    def test_an_index_that_is_cut(self) -> None:
        index = self.folder / "site.sym.idx"
        index.write_bytes(index.read_bytes()[:-1])
        self.is_not_asked(f"site.sym.idx is not read: Truncated at {index.stat().st_size - 57}")

    def test_an_index_of_which_a_byte_changed(self) -> None:
        """It has the root of its entries. By these alone the dSYM would have another UUID, and the image answer."""
        kept = self.folder / "kept.sym"
        files = [CRASHES / "spool-1", CRASHES / "spool-1.dSYM"]
        self.assertEqual(call([KEEP, "add", kept, *files], environment={"SYMARCH": symarch}).status, 0)
        self.assertEqual(call([KEEP, "fold", kept], environment={"SYMARCH": symarch}).status, 0)
        words = [CRASHES / "arm64.crash", "kept.sym"]
        self.says(ALL_NAMED, words=words, status=0, printed=named("crash"))
        index = Path(f"{kept}.idx")
        begin = index.stat().st_size - 57 - 122 * len(entries_in(index.read_bytes()))
        change(index, begin + 122 * 2 + 9)
        self.is_not_asked(f"kept.sym.idx is not read: BadDigest at {begin}", "kept.sym")

    def test_an_index_without_tables(self) -> None:
        """As no release left it: it is refused."""
        text = index_without_tables(self.site.read_bytes())
        (self.folder / "site.sym.idx").write_bytes(text)
        self.is_not_asked(f"site.sym.idx is not read: Truncated at {len(text) - 57}")

    def test_one_of_two_archives_without_an_index(self) -> None:
        """It is made elsewhere, also of one of version 1, and nothing is left beside the archives."""
        old = self.archive("old.sym", "both", is_indexed=False)
        old.write_bytes(old.read_bytes().replace(b"MSYMARC2", b"MSYMARC1", 1))
        before = sorted(self.folder.rglob("*"))
        for others in (["shipped", "site.sym"], ["site.sym", "old.sym"]):
            self.says(ALL_NAMED, words=[CRASHES / "arm64.crash", *others], status=0, printed=named("crash"))
        self.assertEqual(sorted(self.folder.rglob("*")), before)

    def test_an_index_that_is_about_to_come(self) -> None:
        """An archive and its index are renamed one after the other."""
        both = self.archive("both.sym", "both")
        os.replace(both, self.site)
        coming = COMING.format(before=f"{both}.idx", then=f"{self.site}.idx")
        tool = changed_tool(self.folder, coming, module="symbolicate")
        came = call([tool, CRASHES / "arm64.crash", "site.sym"], cwd=self.folder, environment={"SYMARCH": symarch})
        self.assertEqual((came.status, came.out), (0, named("crash")), came.errors)
        self.is_absent(f"{both}.idx")


class WhatCameLately(VouchedCase):
    """ARCHIVE.today, which may retire what ARCHIVE has."""

    def test_one_that_is_no_archive(self) -> None:
        self.file("site.sym.today", "no archive\n")
        came = self.report(CRASHES / "arm64.crash", "site.sym")
        self.assertEqual((came.status, came.out), (2, b""))
        self.assertEqual(came.error_lines[0].partition(": ")[2].partition(": ")[2], "BadMagic at 0")
        self.assertIn("site.sym.today", came.error_lines[1])

    def test_one_that_cannot_be_read(self) -> None:
        today = self.archive("site.sym.today", "both", is_indexed=False)
        today.chmod(0)
        before = powerless_over(today)
        came = self.report(CRASHES / "arm64.crash", "site.sym", before=before)
        self.assertEqual((came.status, came.out), (2, b""))
        self.assertTrue(any("site.sym.today: Permission denied" in line for line in came.error_lines), came.errors)

    def test_one_without_records(self) -> None:
        self.archive("site.sym.today", "empty", is_indexed=False)
        self.says(ALL_NAMED, status=0, printed=named("crash"))
