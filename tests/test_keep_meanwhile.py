"""Lookups while another command replaces, renames or removes their files: the tools of these cases do so themselves,
between two steps."""
import os
import pathlib
import shutil
from typing import Dict, List, Tuple

from .support.cases import same
from .support.made_images import image
from .support.program import TOP, Ended, call, symarch
from .support.rooms import RoomCase, changed_tool, keep, levelled, levels_of, today_of

CRASH = TOP / "examples" / "crash"
PLIST = b"<plist><dict><key>CFBundleIdentifier</key><string>com.example.spool</string></dict></plist>"
# A file beside each archive file is gone as it is looked at first.
GONE = """
import errno
from symarch_tools.store import archive_file

known = archive_file.ArchiveFile.known
seen = set()

def gone(self):
    if self.path not in seen:
        seen.add(self.path)
        raise FileNotFoundError(errno.ENOENT, "No such file", self.path + b".idx")
    return known(self)

archive_file.ArchiveFile.known = gone
"""
# However long the machine takes for them, all changes are looked at.
PATIENT = """
from symarch_tools.reports import archives
from symarch_tools.store import lock

archives.MOST_OF_CHANGES = lock.MOST_OF_CHANGES = 3600.0
"""
# Each index is replaced so often by its like while it is looked at, and is not that of the archive so long.
RESTLESS = PATIENT + """
import os
import shutil
from symarch_tools.store import archive_file

known = archive_file.ArchiveFile.known
left = {}

def restless(self):
    left[self.path] = left.get(self.path, 15) - 1
    index = self.path + b".idx"
    if left[self.path] >= 0:
        shutil.copy2(index, index + b".new")
        os.replace(index + b".new", index)
    return known(self)[0], left[self.path] < 0

archive_file.ArchiveFile.known = restless
"""
# The names of what stands beside a level are not among those that are listed.
UNLISTED = """
import os

listdir = os.listdir
os.listdir = lambda path: [name for name in listdir(path) if b".sym.1.idx" not in os.fsencode(name)]
"""
# Once the files were looked at, what came in is more.
MORE = """
import shutil
from symarch_tools.commands.status import Counts

counts_of = Counts.of

def counts(records):
    for ending in (".today", ".today.idx"):
        shutil.copy2("after" + ending, "site.sym" + ending)
    return counts_of(records)

Counts.of = counts
"""
# Once the program has answered, all files become one.
FOLDED = """
import subprocess
from symarch_tools.reports import archives

answers = archives.Archives.answers

def folded(self, *words):
    came = answers(self, *words)
    subprocess.run([{keep!r}, "fold", "--all", "--quiet", *self.paths], check=True)
    return came

archives.Archives.answers = folded
"""
# A program that has the index of an archive replaced under another name, so often, before it is called.
RENAMING = """
at={index}
count=$(cat count 2>/dev/null || echo 0)
if [ "$1" = frames ] && [ "$count" -lt 15 ]; then
    echo $((count + 1)) >count
    from=$at; to=$at.next; [ -e "$from" ] || {{ from=$at.next; to=$at; }}
    cp -p "$from" new && mv new "$to" && rm "$from"
fi
exec "$symarch" "$@"
"""
# A program that notes which commands it is called by.
NOTING = """
echo "$1" >>commands
exec "$symarch" "$@"
"""


class MeanwhileCase(RoomCase):
    """An archive of images, a level with a dSYM, and what came in since."""

    is_side_by_side = True

    def setUp(self) -> None:
        super().setUp()
        self.plain = self.room.tool = levelled(self.folder)
        self.room.make_many(30, folder="old", more=bytes(20_000), first=1000)
        self.room.file("spool.app/Info.plist", PLIST)
        self.room.file("spool.app/spool", (CRASH / "spool-1").read_bytes())
        self.room.file("dsym/spool", (CRASH / "spool-1.dSYM").read_bytes())
        self.begin("dsym", "spool.app")

    def begin(self, in_level: str, then: str) -> None:
        """An archive that has a folder in a level, and another one that came in since."""
        self.room.begin_anew()
        self.room.add("old")
        self.room.add(in_level)
        self.room.call("fold", self.room.archive)
        same("levels", len(levels_of(self.room.archive)), 1)
        self.room.add(then)

    def is_answered(self, statements: str, *words: str) -> None:
        """A command prints what it prints where nothing is done meanwhile."""
        wanted = self.room.call(words[0], self.room.archive, *words[1:])
        self.room.tool = changed_tool(self.folder, statements)
        same(words[0], self.room.call(words[0], self.room.archive, *words[1:]), wanted)
        self.room.tool = self.plain

    def report(self, tool: str = "", program: str = symarch) -> Ended:
        words = [tool or pathlib.Path(keep).with_name("symbolicate-report"), "--json"]
        how: Dict[str, str] = {"SYMARCH": program}
        return call([*words, CRASH / "arm64.ips", self.room.archive], cwd=self.folder, environment=how)


class Asked(MeanwhileCase):
    """Words that ask."""

    def test_an_index_that_is_gone(self) -> None:
        """No file is passed over that is there, since something beside it is not."""
        self.is_answered(GONE, "list")

    def test_many_changes(self) -> None:
        """It does not count how often something changes while somebody looks."""
        self.is_answered(RESTLESS, "list")

    def test_a_level_whose_index_takes_its_name(self) -> None:
        """A listing may have neither the name that an index had nor the one that it gets."""
        self.is_answered(UNLISTED, "list")

    def test_names_of_builds(self) -> None:
        """What stands in its place has the names that it came with, before these do."""
        wanted = self.room.call("list", self.room.archive)
        self.assertIn("com.example.spool", wanted[0][-1])
        for path in (f"{today_of(self.room.archive)}.idx", f"{self.room.archive}.builds"):
            os.replace(path, f"{path}.next")
        same("list", self.room.call("list", self.room.archive), wanted)

    def test_numbers_of_one_moment(self) -> None:
        """`status` prints how long the files were of which it counts the records."""
        wanted = self.room.call("status", self.room.archive)
        before = self.kept_today()
        self.room.file("more/one", image(50, more=bytes(3_000)))
        self.room.add("more")
        for path, ending in self.today():
            shutil.copy2(path, self.folder / f"after{ending}")
        self.assertNotEqual(self.room.call("status", self.room.archive), wanted)
        for path, ending in self.today():
            shutil.copy2(before / path.name, path)
        self.room.tool = changed_tool(self.folder, MORE)
        same("status", self.room.call("status", self.room.archive), wanted)
        self.room.tool = self.plain
        self.assertNotEqual(self.room.call("status", self.room.archive), wanted)

    def today(self) -> List[Tuple[pathlib.Path, str]]:
        return [(self.folder / f"site.sym{ending}", ending) for ending in (".today", ".today.idx")]

    def kept_today(self) -> pathlib.Path:
        """A folder with copies of what came in."""
        folder = self.folder / "before"
        folder.mkdir()
        for path, _ in self.today():
            shutil.copy2(path, folder)
        return folder


class Reported(MeanwhileCase):
    """Reports."""

    def test_folded_meanwhile(self) -> None:
        """What answered for each image is said as before, though the level that had it is gone."""
        self.room.make_many(1, folder="other", first=2000)
        self.begin("spool.app", "other")
        wanted = self.report()
        self.assertIn(b'"answered_by": "image"', wanted.out)
        tool = changed_tool(self.folder, FOLDED.format(keep=self.plain), module="symbolicate")
        same("report", self.report(tool), wanted)
        same("levels", levels_of(self.room.archive), [])

    def test_an_index_that_is_replaced_again_and_again(self) -> None:
        wanted = self.report()
        index = f"{levels_of(self.room.archive)[0]}.idx"
        (path,) = self.room.program(RENAMING.format(index=index)).values()
        tool = changed_tool(self.folder, PATIENT, module="symbolicate")
        same("report", self.report(tool, path), wanted)
        same("renamed", (self.folder / "count").read_text(), "15\n")

    def test_a_level_whose_index_has_no_name_yet(self) -> None:
        """No index is made of a file that has one."""
        wanted = self.report()
        index = f"{levels_of(self.room.archive)[0]}.idx"
        os.replace(index, f"{index}.next")
        (path,) = self.room.program(NOTING).values()
        same("report", self.report(program=path), wanted)
        same("commands", (self.folder / "commands").read_text().split(), ["frames"])
