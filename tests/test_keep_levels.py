"""Levels, which the tool of these cases makes of any size: commands, kills, retirements, changed bytes, sites. Expected
archives are made by tests.support, from docs/FILES.md."""
import os
import pathlib
import random
import re
import resource
import shutil
import signal
import subprocess
import time
from typing import Any, Dict, List, Optional, Tuple

from .support.cases import Wrong, same
from .support.kills import Left
from .support.made_images import EMPTY, archive, image, index_of, line, records_in, slice_words
from .support.program import TOP, Ended, Word, call, symarch
from .support.rooms import Room, RoomCase, bytes_of, change, kept_index, levelled, levels_of, today_of
from .support.sites import Site, bring_back, folded, state_of, until_same

CRASH = TOP / "examples" / "crash"
REPORT = TOP / "tools" / "symbolicate-report"
DSYM = 10
# How many bytes of an admission stand before its slice.
HEAD = 33


def words_of(made: bytes) -> str:
    return " ".join(slice_words(made))


class LevelCase(RoomCase):
    """An archive of forty images, and of days on which fewer came in."""

    def setUp(self) -> None:
        super().setUp()
        self.room.tool = levelled(self.folder)
        self.made: List[bytes] = []
        self.begin()

    def begin(self) -> None:
        self.room.begin_anew()
        self.made = []
        self.come(40, bytes(200))

    def come(self, count: int, more: bytes = b"") -> List[bytes]:
        """So many images come in."""
        folder, first = f"from-{len(self.made):04}", len(self.made)
        made = self.room.make_many(count, folder=folder, more=more, first=first)
        self.room.add(folder)
        self.made += made
        return made

    def days(self, *counts: int) -> List[List[bytes]]:
        """Of each day so many images come in, and are folded."""
        days = []
        for count in counts:
            days.append(self.come(count))
            self.fold()
        return days

    def fold(self, *words: str, status: int = 0) -> Tuple[List[str], List[str]]:
        return self.room.call("fold", *words, self.room.archive, status=status)

    def files(self) -> List[pathlib.Path]:
        return [self.room.archive, *levels_of(self.room.archive), today_of(self.room.archive)]

    def texts(self) -> List[bytes]:
        return [path.read_bytes() for path in self.files()]

    def counts(self) -> List[int]:
        """How many records each file has."""
        return [len(records_in(text)) for text in self.texts()]

    def are_indexed(self) -> None:
        """Fails if a file has not its index, or something is left."""
        for path in self.files():
            same(f"index of {path.name}", kept_index(path), index_of(path.read_bytes()))
        same("left", self.room.left(), [])
        ours = [name for path in self.files() for name in (path.name, f"{path.name}.idx")]
        others = [name for name in os.listdir(self.folder) if re.match(r"site\.sym\.[0-9]", name)]
        same("files of levels that are none", [name for name in others if name not in ours], [])

    def has(self, wanted: bytes) -> None:
        """All files together have this, each with its index."""
        same("all files", bytes_of(self.room.archive), wanted)
        self.are_indexed()

    def is_one(self, wanted: bytes) -> None:
        """ARCHIVE alone has this."""
        same("records of files", self.texts(), [wanted, EMPTY])
        self.are_indexed()


class Sizes(LevelCase):
    """Which files a fold joins."""

    seconds = 20

    def test_a_fold_each_night(self) -> None:
        """Each file is about twice as large as the next one, and all are one by `fold --all`."""
        dice = random.Random(1)
        before = self.room.archive.stat().st_ino
        for _ in range(12):
            self.days(dice.randrange(1, 5))
            sizes = [path.stat().st_size for path in self.files()[:-1]]
            same("alike", [(one, other) for one, other in zip(sizes, sizes[1:]) if one < other * 31 // 16], [])
            self.has(archive(self.made))
            same("today", self.texts()[-1], EMPTY)
        same("whether ARCHIVE was left alone", self.room.archive.stat().st_ino, before)
        self.assertGreater(len(levels_of(self.room.archive)), 1)
        self.fold("--all")
        self.is_one(archive(self.made))
        before = self.room.archive.stat().st_ino
        self.fold("--all")
        same("file after a second one", self.room.archive.stat().st_ino, before)

    def test_what_is_joined(self) -> None:
        """The first level is ARCHIVE.today itself, and is not copied; ARCHIVE is joined once it is not twice as large
        as what came."""
        self.come(8)
        number = today_of(self.room.archive).stat().st_ino
        self.fold()
        same("records", self.counts(), [40, 8, 0])
        same("file of the level", levels_of(self.room.archive)[0].stat().st_ino, number)
        for count, wanted in ((3, [40, 8, 3, 0]), (1, [40, 8, 3, 1, 0]), (2, [40, 17 - 3, 3 - 3])):
            self.days(count)
            same("records", self.counts(), wanted)
            self.has(archive(self.made))
        self.days(60)
        self.is_one(archive(self.made))

    def test_a_fold_of_nothing(self) -> None:
        self.days(8, 3)
        before = [(it.st_ino, it.st_mtime_ns) for it in map(os.stat, self.files())]
        told = f"symarch-keep: {self.room.archive}: 0 slices, 0 retirements joined"
        same("said", self.fold(), ([], [told]))
        same("files", [(it.st_ino, it.st_mtime_ns) for it in map(os.stat, self.files())], before)

    def test_by_an_add(self) -> None:
        """One that finds more than a tenth of all files in ARCHIVE.today folds."""
        self.come(20)
        same("records", self.counts(), [40, 20])
        self.come(1)
        same("records", self.counts(), [40, 21, 0])
        self.has(archive(self.made))

    def test_a_small_archive(self) -> None:
        """It has no levels by the tool as it is."""
        self.days(8, 3)
        self.room.tool = Room(self.folder).tool
        self.come(1)
        self.fold()
        self.is_one(archive(self.made))

    def test_without_links(self) -> None:
        """Where a file system has no links ARCHIVE.today is copied."""
        self.come(8)
        script = pathlib.Path(self.room.tool).read_text().replace("import sys\n", "import os, sys\n\ndel os.link\n", 1)
        script = script.replace("del os.link", "def link(*_):\n    raise PermissionError\n\nos.link = link")
        pathlib.Path(self.room.tool).write_text(script)
        self.fold()
        same("records", self.counts(), [40, 8, 0])
        self.has(archive(self.made))


class Asked(LevelCase):
    """Each word gives the answer that it gives where all is in one file."""

    seconds = 30

    def setUp(self) -> None:
        super().setUp()
        # The images of the crash stand in ARCHIVE, and a dSYM of each in a level.
        self.room.add(*(CRASH / name for name in ("spool-1", "spool-2")))
        self.come(2, more=bytes(300_000))
        self.fold("--all")
        for number, name in enumerate(("spool-2.dSYM", "spool-1.dSYM")):
            self.room.add(CRASH / name)
            self.come(2, more=bytes(60_000 - 40_000 * number))
            self.fold()
        self.conflict = [image(7, more=b"a"), image(7, more=b"b")]
        for number, one in enumerate(self.conflict):
            self.room.file(f"conflict/{number}", one)
            self.room.add(f"conflict/{number}")
            self.days(20 - 15 * number)
        self.room.call("retire", self.room.archive, *slice_words(self.made[1]))
        self.room.call("retire", self.room.archive, *slice_words(self.conflict[1]))
        same("number of levels", len(levels_of(self.room.archive)), 4)
        self.one = Room(self.folder / "one")
        self.one.path.mkdir()
        for path in self.folder.glob("site.sym*"):
            shutil.copy2(path, self.one.path)
        self.one.call("fold", "--all", self.one.archive)
        same("all", self.one.archive.read_bytes(), bytes_of(self.room.archive))

    def both(self, *words: Any, path: Optional[Any] = None, how: Optional[Dict[str, str]] = None) -> None:
        """What words print, in which the archive stands for None."""
        came = []
        for room in (self.room, self.one):
            typed = [room.archive if one is None else one for one in words]
            if path is None:
                with room.start(*typed) as process:
                    out, errors = process.communicate()
                ended = Ended(process.returncode, out, errors)
            else:
                ended = call([path, *typed], environment=how or {"SYMARCH": symarch}, cwd=room.path)
            texts = [text.decode().replace(str(room.archive), "ARCHIVE") for text in (ended.out, ended.errors)]
            came.append((ended.status, *texts))
        same(f"{words}", *came)

    def test_each_word_that_asks(self) -> None:
        uuid = "4c4c4419-5555-3144-a1d2-4341c97782f0"
        for name in (uuid, *(slice_words(one)[0] for one in (*self.made[:3], *self.conflict, image(5000)))):
            self.both("find", None, name)
        self.both("symbolicate", "--load", "0x104d38000", None, uuid, "arm64", "0x104d38410", "0x104d383f8")
        self.both("symbolicate", None, *slice_words(self.conflict[0])[:2], "0x10")
        for name in ("_copy_body", "_main", "_nowhere"):
            self.both("name", None, name)
        self.both("list", None)
        self.both("list", "--json", None)
        self.both("check", None)

    def test_reports(self) -> None:
        for words in (["arm64.ips"], ["--missing", "arm64.ips"], ["--text", "arm64.ips"], ["--json", "arm64.ips"]):
            self.both(*[CRASH / word if word == "arm64.ips" else word for word in words], None, path=REPORT)
        self.both("--out", "named", CRASH / "arm64.ips", None, path=REPORT)

    def test_each_word_that_brings(self) -> None:
        for name in ("from-0000", "from-0040", "conflict", CRASH / "spool-1"):
            self.both("add", "--dry-run", None, self.folder / name if isinstance(name, str) else name)
        self.both("retire", "--dry-run", None, *slice_words(self.made[2]))
        self.both("retire", "--dry-run", None, *slice_words(self.made[1]))
        self.both("retire", "--dry-run", None, *slice_words(image(5000)))

    def test_status(self) -> None:
        """Its first lines; and the bytes of the levels, and of what waits."""
        came = [dict(it.split(" ", 1) for it in room.call("status", room.archive)[0]) for room in (self.room, self.one)]
        for name in ("images", "companions", "retirements", "conflicts"):
            same(name, came[0][name], came[1][name])
        sizes = [path.stat().st_size for path in self.files()]
        bytes_said = [int(came[0][name]) for name in ("bytes", "levels", "today")]
        same("bytes", bytes_said, [sizes[0], sum(sizes[1:-1]), sizes[-1]])
        same("waiting", int(came[0]["waiting"]), len(self.made[1]) + len(self.conflict[1]))
        same("names of one", sorted({"levels", "waiting"} & {*came[1]}), [])

    def test_while_folds_go_on(self) -> None:
        """Who asks meanwhile misses nothing."""
        uuid = "4c4c4419-5555-3144-a1d2-4341c97782f0"
        asked = ["symbolicate", "--load", "0x104d38000", self.room.archive, uuid, "arm64", "0x104d38410"]
        wanted = self.room.call(*asked)
        words: List[Word] = [REPORT, CRASH / "arm64.ips", self.room.archive]
        report = call(words, environment={"SYMARCH": symarch})
        state = state_of(self.folder)
        ended = time.monotonic() + 8
        while time.monotonic() < ended:
            folds = f"'{self.room.tool}' fold site.sym; '{self.room.tool}' add -q site.sym from-0040 && "
            script = f"{folds} '{self.room.tool}' fold --all site.sym"
            environment = {**os.environ, "SYMARCH": symarch}
            with subprocess.Popen(["sh", "-c", script.replace(" -q ", " --quiet ")], cwd=self.folder, env=environment,
                                  stdout=subprocess.DEVNULL, stderr=subprocess.DEVNULL) as folding:
                while folding.poll() is None:
                    same("symbolicate", self.room.call(*asked), wanted)
                    came = call(words, environment={"SYMARCH": symarch})
                    same("report", (came.status, came.out), (report.status, report.out))
            bring_back(self.folder, state)
            # What was brought back are the same bytes in other files.
            self.room.call("status", "--accept", self.room.archive)
            state = state_of(self.folder)


class Killed(LevelCase):
    """A fold that is killed before each of its steps leaves each slice in one file or in several, and the next word
    goes on."""

    is_side_by_side = True
    seconds = 60

    def tried(self, *words: str) -> None:
        wanted = bytes_of(self.room.archive)
        with Left(self.room, "fold", *words, self.room.archive) as left:
            last = left.steps[-1]
            states = 0
            for step in left.each():
                self.is_whole(f"killed before step {step}", wanted)
                self.fold(*words)
                self.has(wanted)
                counts = self.counts()
                states += 1
            left.bring(last)
            self.fold(*words)
            same("records at the end", self.counts(), counts)
        self.assertGreater(states, 5)

    def is_whole(self, what: str, wanted: bytes) -> None:
        """What a kill left has all, and is asked as such; `check` finds nothing that is wrong or lost."""
        same(what, bytes_of(self.room.archive), wanted)
        came = dict(it.split(" ", 1) for it in self.room.call("status", self.room.archive)[0] if it[0] != "l")
        same(f"{what}: images", int(came["images"]), len([it for it in records_in(wanted) if it[0] == 2]))
        self.room.call("find", self.room.archive, slice_words(self.made[-1])[0])

    def test_a_new_level(self) -> None:
        self.days(8)
        self.come(3)
        self.tried()
        same("records", self.counts(), [40, 8, 3, 0])

    def test_into_a_level(self) -> None:
        self.days(8, 3)
        self.come(3)
        self.tried()
        same("records", self.counts(), [40, 14, 0])

    def test_into_the_archive(self) -> None:
        self.days(16, 8, 4)
        same("records", self.counts(), [40, 16, 8, 4, 0])
        self.come(60)
        self.tried()
        self.is_one(archive(self.made))

    def test_all(self) -> None:
        self.days(16, 8, 4)
        self.come(1)
        self.tried("--all")
        self.is_one(archive(self.made))

    def test_purge(self) -> None:
        """Of two levels, and of ARCHIVE."""
        days = self.days(16, 6)
        going = [self.made[0], days[0][0], days[1][1]]
        for one in going:
            self.room.call("retire", self.room.archive, *slice_words(one))
        self.tried("--purge")
        same("what was taken out", [one in b"".join(self.texts()) for one in going], [False] * 3)

    def test_by_an_add(self) -> None:
        """One that folds by itself."""
        self.days(8)
        self.come(14)
        folder, first = "last", len(self.made)
        last = self.room.make_many(1, folder=folder, first=first)
        before, wanted = archive(self.made), archive(self.made + last)
        with Left(self.room, "add", self.room.archive, folder) as left:
            for step in left.each():
                if bytes_of(self.room.archive) not in (before, wanted):
                    raise Wrong(f"killed before step {step}")
                self.room.add(folder)
                self.has(wanted)


class Retired(LevelCase):
    """A retirement reaches its slice in whichever file it stands."""

    seconds = 20

    def setUp(self) -> None:
        super().setUp()
        # One slice of ARCHIVE, of each level and of ARCHIVE.today.
        days = [self.made, *self.days(16, 7, 3)]
        days.append(self.come(2))
        self.going = [made[1] for made in days]
        same("records", self.counts(), [40, 16, 7, 3, 2])
        for one in self.going:
            self.room.call("retire", self.room.archive, *slice_words(one))
        self.wanted = archive([one for one in self.made if one not in self.going], retired=self.going)

    def waiting(self) -> int:
        lines = [it.split(" ") for it in self.room.call("status", self.room.archive)[0]]
        return sum(int(size) for name, size in lines if name == "waiting")

    def there(self) -> List[bool]:
        """Which of the slices stand in a file yet."""
        return [any(one in text for text in self.texts()) for one in self.going]

    def is_age(self, days: int) -> None:
        """The retirements are so many days old, by the log."""
        log, then = pathlib.Path(f"{self.room.archive}.log"), time.gmtime(time.time() - days * 86400)
        date = time.strftime("%Y-%m-%dT%H:%M:%SZ", then)
        log.write_text(re.sub("(?m)^[^ ]*( retired )", rf"{date}\1", log.read_text()))

    def test_at_each_place(self) -> None:
        """Nothing finds them any more, and they leave with the next join of their files."""
        for one in self.going:
            uuid, arch, digest = slice_words(one)
            same("found", self.room.call("find", self.room.archive, uuid)[0], [f"{arch} retired {digest}"])
            same("again", self.room.call("retire", self.room.archive, *slice_words(one))[0], [f"known {words_of(one)}"])
        same("there", self.there(), [True] * 4 + [False])
        same("waiting", self.waiting(), sum(map(len, self.going[:4])))
        self.has(self.wanted)
        self.fold()
        # The retirements are as long as two or three slices, so they join what has so many.
        self.assertTrue(self.there()[0])
        same("the last ones", self.there()[3:], [False, False])
        self.has(self.wanted)

    def test_after_thirty_days(self) -> None:
        self.fold()
        before = self.there()
        self.is_age(29)
        self.fold()
        same("there after 29 days", self.there(), before)
        self.is_age(31)
        self.fold()
        same("there after 31 days", (self.there(), self.waiting()), ([False] * 5, 0))
        self.has(self.wanted)
        inodes = [path.stat().st_ino for path in self.files()]
        self.fold()
        same("files after one more", [path.stat().st_ino for path in self.files()], inodes)

    def test_without_a_log(self) -> None:
        """The file counts then in which the slice stands."""
        self.fold()
        os.unlink(f"{self.room.archive}.log")
        self.fold()
        self.assertTrue(self.there()[0])
        os.utime(self.room.archive, (0, 0))
        self.fold()
        same("there", self.there()[0], False)
        self.has(self.wanted)

    def test_purge(self) -> None:
        waiting = self.waiting()
        _, errors = self.fold("--purge")
        told = f"1 slices, 5 retirements joined; {waiting} bytes of retired slices were removed"
        same("said", errors, [f"symarch-keep: {self.room.archive}: {told}"])
        same("there", (self.there(), self.waiting()), ([False] * 5, 0))
        self.has(self.wanted)
        self.assertGreater(len(levels_of(self.room.archive)), 0)

    def test_all(self) -> None:
        self.fold("--all")
        self.is_one(self.wanted)

    def test_a_slice_that_comes_after_its_retirement(self) -> None:
        """A late answer of another site, or a merge by hand: the older retirement takes it out."""
        self.fold("--all")
        one = self.going[0]
        today = today_of(self.room.archive)
        today.write_bytes(archive([one]))
        self.fold()
        same("there", self.there(), [False] * 5)
        self.has(self.wanted)
        today.write_bytes(archive([one, image(5000)]))
        self.fold()
        same("there after a fold", self.there(), [False] * 5)
        self.room.add("from-0000")
        self.has(archive([it for it in [*self.made, image(5000)] if it not in self.going], retired=self.going))


class Changed(LevelCase):
    """A byte that changed in whichever file is found and mended, and a level that is lost is told."""

    seconds = 40

    def setUp(self) -> None:
        super().setUp()
        self.parts = [self.made[:], *self.days(16, 7), self.come(2)]
        self.wanted = archive(self.made)
        self.good = self.texts()
        self.other = Room(self.folder / "other")
        self.other.path.mkdir()

    def copy_site(self) -> None:
        """Another site has the same in other files."""
        self.other.tool = self.room.tool
        for folder in (0, 40, 56, 63):
            self.other.call("add", self.other.archive, self.folder / f"from-{folder:04}")
            self.other.call("fold", self.other.archive)
        self.assertGreater(len(levels_of(self.other.archive)), 0)

    def change_one(self, number: int) -> str:
        """Changes a byte of a slice in a file, and returns what has to be said of it."""
        path, one = self.files()[number], self.parts[number][1]
        at = path.read_bytes().index(one)
        change(path, at + 50)
        return f"{words_of(one)} {at - HEAD} {path}"

    def test_one_byte_in_each_file(self) -> None:
        self.copy_site()
        for is_checked in (True, False):
            for number in range(4):
                told = self.change_one(number)
                if is_checked:
                    same("check", self.room.call("check", self.room.archive, status=2)[0], [f"changed {told}"])
                came, _ = self.room.call("repair", self.room.archive, self.other.archive)
                same("repair", came, [f"repaired {told}"])
                same("files", self.texts(), self.good)
                self.are_indexed()
        self.room.call("check", self.room.archive)

    def test_what_check_found_is_not_read_again(self) -> None:
        """A byte that changed since is left to the next check, and what was written since is looked through."""
        self.copy_site()
        told = self.change_one(1)
        self.room.call("check", self.room.archive, status=2)
        kept = os.stat(self.files()[0])
        later = self.change_one(0)
        os.utime(self.files()[0], ns=(kept.st_atime_ns, kept.st_mtime_ns))
        same("repair", self.room.call("repair", self.room.archive, self.other.archive)[0], [f"repaired {told}"])
        same("check", self.room.call("check", self.room.archive, status=2)[0], [f"changed {later}"])
        os.utime(self.files()[0])
        self.change_one(2)
        same("repair", len(self.room.call("repair", self.room.archive, self.other.archive)[0]), 2)
        same("files", self.texts(), self.good)
        self.room.call("check", self.room.archive)
        same("kept", os.path.exists(f"{self.room.archive}.changed"), False)

    def test_what_was_found_is_damaged_itself(self) -> None:
        self.copy_site()
        told = self.change_one(0)
        self.room.call("check", self.room.archive, status=2)
        change(pathlib.Path(f"{self.room.archive}.changed"), 30)
        same("repair", self.room.call("repair", self.room.archive, self.other.archive)[0], [f"repaired {told}"])
        same("files", self.texts(), self.good)

    def test_a_level_that_is_cut(self) -> None:
        self.copy_site()
        for size in (len(self.good[1]) - 5, 100, 3, 0):
            with open(self.files()[1], "r+b") as file:
                file.truncate(size)
            self.room.call("check", self.room.archive, status=2)
            self.room.call("repair", self.room.archive, self.other.archive)
            same("files", self.texts(), self.good)
            self.are_indexed()

    def test_slices_of_one_head_stay_in_order(self) -> None:
        """Also where one is mended and another one stays changed."""
        ones = [image(7000, more=bytes([number]) * 9) for number in (1, 3, 5)]
        for number, one in enumerate(ones):
            self.room.file(f"ones/{number}", one)
        self.room.add("ones")
        self.made += ones
        today = today_of(self.room.archive)
        self.room.file("some", ones[2])
        self.room.call("add", "some.sym", "some")
        for one in (ones[0], ones[2]):
            text = today.read_bytes()
            change(today, text.index(one) + 1 + len(one) - 9)
            with open(today, "r+b") as file:
                file.seek(text.index(one) + len(one) - 9)
                file.write(b"\7")
        came, _ = self.room.call("repair", self.room.archive, "some.sym", status=2)
        same("lines", sorted(it.split(" ")[0] for it in came), ["changed", "repaired"])
        call([symarch, "list", today]).lines
        same("status of the program", call([symarch, "list", today]).status, 0)
        same("check", len(self.room.call("check", self.room.archive, status=2)[0]), 1)

    def test_a_level_that_is_lost(self) -> None:
        (self.folder / "shared").mkdir()
        east, west = Site(self.room, "east"), Site(self.room, "west")
        for made in self.made[:3]:
            west.add(made)
        level = levels_of(self.room.archive)[0]
        level.unlink()
        lost = sorted(f"lost {words_of(one)}" for one in self.parts[1])
        same("check", self.room.call("check", self.room.archive, status=2)[0], lost)
        stated, _ = self.room.call("status", self.room.archive, status=2)
        same("status", sorted(it for it in stated if it.startswith("lost")), lost)
        self.room.call("find", self.room.archive, slice_words(self.made[0])[0])
        self.fold(status=2)
        self.are_indexed()
        self.room.file("west/all", b"")
        self.room.call("add", west.archive, "from-0040")
        west.exchange()
        self.room.call("exchange", self.room.archive, "shared", "east", status=2)
        west.exchange()
        self.room.call("exchange", self.room.archive, "shared", "east")
        self.fold("--all")
        self.is_one(self.wanted)
        del east

    def test_an_index_that_is_damaged(self) -> None:
        level = levels_of(self.room.archive)[1]
        index = pathlib.Path(f"{level}.idx")
        good = index.read_bytes()
        change(index, len(good) - 100)
        same("check", self.room.call("check", self.room.archive, status=2)[0], [f"damaged {index}"])
        self.room.call("status", "--accept", self.room.archive)
        self.has(self.wanted)
        same("index", index.read_bytes(), good)
        self.room.call("check", self.room.archive)
        change(index, len(good) - 100)
        change(level, level.read_bytes().index(self.parts[2][0]) + 26)
        _, errors = self.fold(status=4)
        told = f"{index} is not as symarch-keep wrote it, and it is not known whether {level} is as it was"
        same("errors", errors, [f"symarch-keep: {told}; call `symarch-keep check`; the archive is as it was"])

    def test_a_level_of_which_nothing_is_known(self) -> None:
        """It is named, and left alone until `symarch index` makes it one; as is what somebody called so."""
        level = levels_of(self.room.archive)[1]
        os.unlink(f"{level}.idx")
        out, errors = self.room.call("check", self.room.archive, status=2)
        same("check", out, [f"unknown {level}"])
        how = f"give it another name; or, if it is a level, call `symarch index {level} {level}.idx`"
        same("errors", errors[0], f"symarch-keep: {level}: {how}")
        text = level.read_bytes()
        self.come(1)
        self.fold("--all")
        same("level", level.read_bytes(), text)
        self.days(12, 5)
        same("names", [path.name for path in levels_of(self.room.archive)], ["site.sym.1", "site.sym.2", "site.sym.3"])
        same("level", level.read_bytes(), text)
        call([symarch, "index", level, f"{level}.idx"])
        self.room.call("check", self.room.archive)
        self.fold("--all")
        self.is_one(archive(self.made))

    def test_a_level_is_no_archive_to_write_to(self) -> None:
        level = levels_of(self.room.archive)[0]
        _, errors = self.room.call("add", level, "from-0063", status=3)
        same("errors", errors, [f"symarch-keep: {level} is a level of {self.room.archive}: name that"])
        self.room.call("find", level, slice_words(self.parts[1][0])[0])
        self.are_indexed()

    def test_an_archive_of_its_own(self) -> None:
        """One that is called as a level is, of which symarch-keep has a lock."""
        self.fold("--all")
        self.room.call("add", f"{self.room.archive}.1", "from-0056")
        text = pathlib.Path(f"{self.room.archive}.1").read_bytes()
        self.days(12)
        self.fold("--all")
        same("archive", self.room.archive.read_bytes(), archive(self.made))
        same("the other one", pathlib.Path(f"{self.room.archive}.1").read_bytes(), text)
        same("check", self.room.call("check", self.room.archive)[0], [])


class Restored(LevelCase):
    """The lines of docs/OPERATING.md bring back levels."""

    seconds = 15

    def lines(self, number: int) -> str:
        """The lines of one of its blocks on backups, but for an exchange."""
        text = (TOP / "docs" / "OPERATING.md").read_text(encoding="utf-8")
        found = re.search(r"^## Backup and restore\n.*?```sh\n(.*?)```.*?```sh\n(.*?)```", text, re.M | re.S)
        assert found
        lines = found[number].replace("builds.sym", "site.sym").splitlines()
        return "\n".join(line for line in lines if "exchange" not in line)

    def carry_out(self, number: int) -> None:
        came = call(["sh", "-c", self.lines(number)], cwd=self.folder)
        same(f"status: {came.errors.decode()}", came.status, 0)

    def test_after_folds(self) -> None:
        """Whatever levels there are since, what was there then is there again, and what is lost is named."""
        self.days(16, 7, 3)
        self.come(1)
        before, wanted = list(self.made), archive(self.made)
        self.carry_out(1)
        for is_whole in (False, True):
            later = self.come(5)
            self.fold(*["--all"] * is_whole)
            self.carry_out(2)
            came = bytes_of(self.room.archive)
            same("what is there again", [one for one in before if one not in came], [])
            lost = [one for one in later if one not in came]
            checked, _ = self.room.call("check", self.room.archive, status=None)
            same("lost", checked, sorted(f"lost {words_of(one)}" for one in lost))
            self.room.call("status", "--accept", self.room.archive, status=2 if lost else 0)
            self.are_indexed()
            self.made = before + [one for one in later if one in came]
        for path in self.folder.glob("site.sym*"):
            path.unlink()
        pathlib.Path(f"{self.room.archive}.lock").touch()
        self.carry_out(2)
        same("all files were lost", bytes_of(self.room.archive), wanted)
        self.are_indexed()
        same("check", self.room.call("check", self.room.archive)[0], [])


class Exchanged(LevelCase):
    """Sites with levels exchange, and have the same bytes by `fold --all`."""

    seconds = 40

    def test_three_sites(self) -> None:
        dice = random.Random(5)
        sites = [Site(self.room, name) for name in ("east", "west", "north")]
        made: List[bytes] = []
        retired: List[bytes] = []
        for day in range(12):
            for site in sites:
                for _ in range(dice.randrange(3)):
                    made.append(image(len(made), more=bytes(dice.randrange(300))))
                    site.add(made[-1])
                if made and dice.random() < 0.2:
                    retired.append(dice.choice(made))
                    site.retire(retired[-1])
                site.exchange()
                if dice.random() < 0.6 and site.archive.exists():
                    self.room.call("fold", *["--purge"] * (day % 4 == 0), site.archive)
        wanted = archive([one for one in made if one not in retired], retired=retired)
        self.assertTrue(any(levels_of(site.archive) for site in sites))
        until_same(sites, wanted)
        for site in sites:
            self.room.call("fold", "--all", site.archive)
        folded(sites, wanted)

    def test_a_site_that_begins_with_nothing(self) -> None:
        west = Site(self.room, "west")
        west.exchange()
        same("archive", west.archive.read_bytes(), EMPTY)
        same("index", kept_index(west.archive), index_of(EMPTY))

    def test_a_new_site(self) -> None:
        """It gets all levels in one answer."""
        self.days(16, 7, 3)
        self.come(1)
        self.room.call("retire", self.room.archive, *slice_words(self.made[0]))
        west = Site(self.room, "west")
        west.exchange()
        self.room.call("exchange", self.room.archive, west.folder, "east")
        west.exchange()
        same("west", west.has(), archive(self.made[1:], retired=self.made[:1]))
        same("left", [name for name in os.listdir(west.folder) if name.endswith(".part")], [])


def limit_files() -> None:
    resource.setrlimit(resource.RLIMIT_FSIZE, (4096, 4096))
    signal.signal(signal.SIGXFSZ, signal.SIG_IGN)


class Refused(LevelCase):
    """What keeps a fold from being done leaves each file as it was."""

    seconds = 10

    def test_a_level_that_is_damaged(self) -> None:
        """The fault names that level, also where others are read with it."""
        self.days(16, 8, 4)
        self.come(1)
        before, level = self.texts(), levels_of(self.room.archive)[1]
        change(level, 8 + 1 + 16)
        after = self.texts()
        _, errors = self.fold("--all", status=4)
        self.assertTrue(errors, before)
        self.assertIn(str(level), "\n".join(errors))
        same("files", self.texts(), after)
        same("left", self.room.left(), [])

    def test_files_of_few_bytes(self) -> None:
        """Where files may have no more bytes."""
        self.days(16, 8, 4)
        self.come(1)
        before = self.texts()
        self.room.call("fold", "--all", self.room.archive, status=4, preexec_fn=limit_files)
        same("files", self.texts(), before)
        same("left", self.room.left(), [])
        self.fold("--all")
        self.is_one(archive(self.made))

    def test_lines(self) -> None:
        """A retirement and a slice of a file each have their line in the log, once."""
        self.days(8)
        made = self.come(3)
        self.fold()
        log = pathlib.Path(f"{self.room.archive}.log").read_text()
        same("lines", log.count(f" {line('added', made[0], 'from-0048/0000')}\n"), 1)
