"""ARCHIVE.today and `fold`: commands at once, and each state that a kill may leave. Expected archives are made by
tests.support, from docs/FILES.md."""
import os
import pathlib
import random
import subprocess
import time
from typing import Any, Dict, List, Sequence, Tuple

from .support.cases import Wrong, same
from .support.kills import Left, wait_for_session
from .support.made_images import EMPTY, archive, image, index_of, line, slice_words
from .support.program import TOP, Word, call, symarch
from .support.rooms import RoomCase, change, changed_tool, kept_index, today_of

NOISE = bytes(range(256)) * 800
# Once an index was read, and before its time is, the command that put it there ends.
RENAMED = """
import os
from symarch_tools.store import archive_file

time_of = archive_file.time_of

def renamed(path):
    if path.endswith(b".idx.next"):
        os.replace(path, path[: -len(b".next")])
    return time_of(path)

archive_file.time_of = renamed
"""
DSYM = 10


def words_of(made: bytes) -> str:
    return " ".join(slice_words(made))


class TodayCase(RoomCase):
    """An archive of forty images, and an empty one of today."""

    def setUp(self) -> None:
        super().setUp()
        self.made = self.room.make_many(40, folder="old", more=bytes(200), first=1000)
        self.room.add("old")
        self.both(archive(self.made), EMPTY)

    def both(self, wanted: bytes, wanted_today: bytes) -> None:
        """What both files have, of which each has its index."""
        today = today_of(self.room.archive)
        same("archive", self.room.archive.read_bytes(), wanted)
        same("archive of today", today.read_bytes(), wanted_today)
        same("index", kept_index(self.room.archive), index_of(wanted))
        same("index of today", kept_index(today), index_of(wanted_today))

    def files(self) -> List[Tuple[int, int]]:
        """Which files the archive and that of today are, and when they were written."""
        return [(it.st_ino, it.st_mtime_ns) for it in map(os.stat, (self.room.archive, today_of(self.room.archive)))]

    def counting(self) -> Dict[str, str]:
        """A program that notes each call."""
        return self.room.program(f'echo "$1" >>{self.folder}/calls\nexec "$symarch" "$@"')

    def calls(self) -> List[str]:
        return (self.folder / "calls").read_text().split()


class Today(TodayCase):
    """What comes in goes into ARCHIVE.today, and ARCHIVE stays."""

    seconds = 12

    def test_what_is_new(self) -> None:
        """A second add touches no file, and calls no merge."""
        new = self.room.make_many(3)
        before = self.files()[0]
        said, errors = self.room.add("many", "old/0000")
        lines = [line("added", one, f"many/{number:04}") for number, one in enumerate(new)]
        same("lines", said, [*lines, line("known", self.made[0], "old/0000")])
        same("last line", errors, ["symarch-keep: 3 added, 1 known, 0 retired, 0 refused, passed over 0"])
        same("the archive", self.files()[0], before)
        self.both(archive(self.made), archive(new))
        files = self.files()
        said, _ = self.room.add("many", environment=self.counting())
        same("lines", said, [one.replace("added", "known") for one in lines])
        same("calls", self.calls(), ["--version"])
        same("files", self.files(), files)
        self.room.folded(archive(self.made + new))
        self.both(archive(self.made + new), EMPTY)

    def test_many_twice(self) -> None:
        """A second add of 200 files reads them, and copies nothing."""
        made = self.room.make_many(200, more=bytes(2000))
        self.room.add("many")
        before = self.files()
        said, errors = self.room.add("many")
        same("last line", errors, ["symarch-keep: 0 added, 200 known, 0 retired, 0 refused, passed over 0"])
        same("lines", said, [line("known", one, f"many/{number:04}") for number, one in enumerate(made)])
        same("files", self.files(), before)

    def test_grown(self) -> None:
        """An add that finds more than a tenth of ARCHIVE in ARCHIVE.today joins all into ARCHIVE."""
        made, new = list(self.made), []
        for number in range(12):
            is_grown = 10 * today_of(self.room.archive).stat().st_size >= self.room.archive.stat().st_size
            new.append(image(number, more=bytes(200)))
            self.room.file("one", new[-1])
            self.room.add("one")
            if is_grown:
                made, new = made + new, []
            self.both(archive(made), archive(new))
        same("whether it was folded", len(made) > 40, True)

    def test_retired(self) -> None:
        """A retirement withdraws the slice, and a fold takes the bytes out; also of a slice of ARCHIVE.today itself."""
        made, new = self.made, self.room.make_many(2)
        self.room.add("many")
        said, _ = self.room.call("retire", self.room.archive, *slice_words(made[0]))
        same("lines", said, [f"retired {words_of(made[0])}"])
        self.both(archive(made), archive(new, retired=made[:1]))
        self.room.call("retire", self.room.archive, *slice_words(new[0]))
        self.both(archive(made), archive(new[1:], retired=[made[0], new[0]]))
        said, errors = self.room.add("old/0000", "many/0000")
        same("lines", said, [line("retired", made[0], "old/0000"), line("retired", new[0], "many/0000")])
        same("last line", errors, ["symarch-keep: 0 added, 0 known, 2 retired, 0 refused, passed over 0"])
        said, _ = self.room.call("retire", self.room.archive, *slice_words(made[0]))
        same("again", said, [f"known {words_of(made[0])}"])
        self.room.folded(archive(made[1:] + new[1:], retired=[made[0], new[0]]))

    def test_status(self) -> None:
        """The numbers are those of what both have together, and of each file its bytes."""
        more = [image(1000, more=b"other"), image(7, kind=DSYM), image(8)]
        for number, one in enumerate(more):
            self.room.file(f"many/{number}", one)
        self.room.add("many")
        self.room.call("retire", self.room.archive, *slice_words(self.made[1]))
        today = today_of(self.room.archive).stat().st_size
        for is_folded in (False, True):
            counts = {"images": 41, "companions": 1, "retirements": 1, "conflicts": 1}
            counts.update({"bytes": self.room.archive.stat().st_size, "today": len(EMPTY) if is_folded else today})
            counts.update({} if is_folded else {"waiting": len(self.made[1])})
            lines = [f"{name} {count}" for name, count in counts.items()]
            lines.append(f"conflict {' '.join(slice_words(more[0])[:2])} 2")
            same("lines", self.room.call("status", self.room.archive)[0], lines)
            self.room.call("fold", self.room.archive)
        # The same slices in both, as where somebody copied them.
        today_of(self.room.archive).write_bytes(archive(more, retired=self.made[1:2]))
        said, _ = self.room.call("status", self.room.archive)
        same("lines", said[:4], ["images 41", "companions 1", "retirements 1", "conflicts 1"])

    def test_lost(self) -> None:
        """If somebody removed ARCHIVE.today, what it had is named; if somebody merged it by hand, nothing is lost."""
        made, new = self.made, self.room.make_many(2)
        self.room.add("many")
        self.room.archive.write_bytes(archive(made + new))
        today_of(self.room.archive).write_bytes(EMPTY)
        _, errors = self.room.call("check", self.room.archive)
        told = f"symarch-keep: {self.room.archive}: 42 slices, 0 retirements: everything that was known is there"
        same("check", errors, [told])
        more = self.room.make_many(1, first=9, folder="more")
        self.room.add("more")
        self.both(archive(made + new), archive(more))
        today_of(self.room.archive).unlink()
        said, _ = self.room.call("check", self.room.archive, status=2)
        same("lost", said, [f"lost {words_of(more[0])}"])
        self.room.add("more", status=2)
        self.both(archive(made + new), archive(more))
        today_of(self.room.archive).write_bytes(b"text that is none")
        _, errors = self.room.add("more", status=4)
        same("errors", errors, [f"symarch-keep: {self.room.archive}.today is no archive; the archive is as it was"])

    def test_changed(self) -> None:
        """`check` finds bytes that changed in both files, and `repair` mends them."""
        dice = random.Random(7)
        made, new = self.made, self.room.make_many(3, more=bytes(50))
        self.room.add("many")
        good = archive(made), archive(new)
        self.room.file("good.sym", archive(made + new))
        first = min(new, key=lambda one: one[40:56])
        for _ in range(10):
            places = dice.randrange(8 + 33, len(good[0]) - 9), dice.randrange(8 + 33 + 56, 8 + 33 + 56 + 50)
            change(self.room.archive, places[0])
            change(today_of(self.room.archive), places[1])
            said, _ = self.room.call("check", self.room.archive, status=2)
            same("of today", said[1:], [f"changed {words_of(first)} 8 {today_of(self.room.archive)}"])
            same("lines", len(said), 2)
            said, errors = self.room.call("repair", self.room.archive, "good.sym")
            same("last line", errors, [f"symarch-keep: {self.room.archive}: 2 repaired, 0 still changed"])
            self.both(*good)
        _, errors = self.room.call("check", self.room.archive)
        same("last check", errors, [f"symarch-keep: {self.room.archive}: 43 slices, 0 retirements: nothing changed"])


class Fold(TodayCase):
    """`fold` joins ARCHIVE.today into ARCHIVE."""

    seconds = 8

    def test_twice(self) -> None:
        """A second fold changes nothing, and says so; so does one where nothing came in."""
        made, new = self.made, self.room.make_many(3)
        counted = f"symarch-keep: {self.room.archive}: {{}} slices, {{}} retirements joined"
        self.room.add("many")
        self.room.call("retire", self.room.archive, *slice_words(made[0]))
        same("a fold", self.room.call("fold", self.room.archive), ([], [counted.format(3, 1)]))
        before = self.files()
        same("a second one", self.room.call("fold", self.room.archive), ([], [counted.format(0, 0)]))
        same("files", self.files(), before)
        self.both(archive(made[1:] + new, retired=made[:1]), EMPTY)
        _, errors = self.room.call("fold", self.folder / "none.sym", status=4)
        told = f"{self.folder}/none.sym: No such file; symarch-keep add makes an archive"
        same("errors", errors, [f"symarch-keep: {told}"])

    def test_left_before_its_last_step(self) -> None:
        """What a fold left that was killed then the next word empties, and no record is lost."""
        made, new = self.made, self.room.make_many(3)
        self.room.add("many")
        before = today_of(self.room.archive).read_bytes()
        self.room.call("fold", self.room.archive)
        kept = pathlib.Path(f"{today_of(self.room.archive)}.idx")
        for words in (["add", "many"], ["fold"], ["retire", *slice_words(new[0])]):
            today_of(self.room.archive).write_bytes(before)
            kept.unlink()
            self.room.call(words[0], self.room.archive, *words[1:])
            wanted = archive([], retired=new[:1]) if words[0] == "retire" else EMPTY
            self.both(archive(made + new), wanted)

    def test_at_once(self) -> None:
        """Several folds, adds and retirements at once each do theirs."""
        made, new = self.made, self.room.make_many(6)
        for _ in range(2):
            words: List[List[Any]] = [["fold", self.room.archive]] * 3
            words += [["add", self.room.archive, f"many/{number:04}"] for number in range(6)]
            words.append(["retire", self.room.archive, *slice_words(made[0])])
            running = [self.room.start(*it) for it in words]
            for process in running:
                errors = process.communicate()[1].decode()
                same(f"status: {errors}", process.returncode, 0)
        self.room.folded(archive(made[1:] + new, retired=made[:1]))
        self.both(archive(made[1:] + new, retired=made[:1]), EMPTY)

    def test_asked_meanwhile(self) -> None:
        """What the program is asked of both is answered as of their join, also while folds and adds go on."""
        made, new = self.made, self.room.make_many(3)
        self.room.add("many")
        lines = (f"{slice_words(one)[0]} x86_64 - 0x0\n" for one in made + new)
        frames = self.room.file("some.frames", "".join(lines).encode())
        words: List[Word] = [symarch, "frames", frames, today_of(self.room.archive), self.room.archive]
        wanted = (1, b"0x0000000000000000 -\n" * (len(made) + len(new)), b"")
        with self.room.start("fold", self.room.archive) as process:
            while process.poll() is None:
                same("answers", tuple(call(words)), wanted)
            process.communicate()
        same("answers after it", tuple(call(words)), wanted)

    def test_renamed_meanwhile(self) -> None:
        """Who reads an index that then takes its last name is answered as before."""
        self.room.make_many(3)
        self.room.add("many")
        wanted = self.room.call("list", self.room.archive)
        self.room.tool = changed_tool(self.folder, RENAMED)
        for file in (self.room.archive, today_of(self.room.archive)):
            os.replace(f"{file}.idx", f"{file}.idx.next")
        same("list", self.room.call("list", self.room.archive), wanted)
        same("left", list(self.folder.glob("*.idx.next")), [])

    def test_reported(self) -> None:
        """`symbolicate-report` asks ARCHIVE.today too, and prints what it prints after a fold."""
        crash = TOP / "examples" / "crash"
        self.room.file("spool", (crash / "spool-1.dSYM").read_bytes())
        words: List[Word] = [TOP / "tools" / "symbolicate-report", crash / "arm64.ips", self.room.archive]
        how = {"SYMARCH": symarch}
        same("status before it comes", call(words, environment=how).status, 1)
        self.room.add("spool")
        came = call(words, environment=how)
        same(f"status: {came.errors.decode()}", came.status, 0)
        self.room.call("fold", self.room.archive)
        same("report", call(words, environment=how), came)


class Killed(TodayCase):
    """`fold`, `add`, and an `add` that folds, killed before each of their steps: they leave one of some states, and the
    next call the last of them."""

    seconds = 15

    def tried(self, words: Sequence[str], states: Sequence[Tuple[bytes, bytes]]) -> None:
        with Left(self.room, words[0], self.room.archive, *words[1:]) as left:
            for step in left.each():
                came = self.room.archive.read_bytes(), today_of(self.room.archive).read_bytes()
                if came not in states:
                    raise Wrong(f"{words[0]} killed before step {step}: {[len(it) for it in came]} bytes")
                self.room.call(words[0], self.room.archive, *words[1:])
                self.both(*states[-1])
                same(f"left after step {step}", self.room.left(), [])

    def test_before_each_step(self) -> None:
        made, new = self.made, self.room.make_many(2)
        old = archive(made)
        self.tried(["add", "many"], [(old, EMPTY), (old, archive(new))])
        log = pathlib.Path(f"{self.room.archive}.log").read_text()
        same("lines of the log", log.count(f" {line('added', new[0], 'many/0000')}\n"), 1)
        joined = archive(made + new)
        self.tried(["fold"], [(old, archive(new)), (joined, archive(new)), (joined, EMPTY)])
        grown_by = self.room.make_many(20, folder="more", more=bytes(200), first=50)
        self.room.add("more")
        last = self.room.make_many(1, folder="last", first=90)
        after = archive(made + new + grown_by + last)
        states = [(joined, archive(grown_by)), (after, archive(grown_by)), (after, EMPTY)]
        self.tried(["add", "last"], states)

    def test_as_it_writes_the_log(self) -> None:
        """What one that was killed meanwhile wrote to the log is not written again, wherever it ended."""
        self.room.make_many(3)
        log, following = (pathlib.Path(f"{self.room.archive}.log{ending}") for ending in ("", ".next"))
        tried = 0
        with Left(self.room, "add", self.room.archive, "many") as left:
            for step in left.steps:
                left.bring(step)
                if following.exists() and today_of(self.room.archive).read_bytes() != EMPTY:
                    before, text = log.read_bytes(), following.read_bytes()
                    if not tried:
                        for size in range(0, len(text) + 1, 30):
                            left.bring(step)
                            log.write_bytes(before + text[:size])
                            self.room.index()
                            same(f"log of which {size} bytes were written", log.read_bytes(), before + text)
                            tried += 1
        self.assertGreater(tried, 5)

    def test_retire_and_repair(self) -> None:
        made = [image(number, more=bytes(200)) for number in range(3)]
        good = archive(made)
        self.room.file("good.sym", good)
        bad = good[:100] + b"x" + good[101:]
        for word, words, before, after in (
            ("retire", slice_words(made[0]), (good, good), archive(made[1:], retired=made[:1])),
            ("repair", ["good.sym"], (good, bad), good),
        ):
            self.room.begin_anew(before[0])
            self.room.index()
            self.room.archive.write_bytes(before[1])
            with Left(self.room, word, self.room.archive, *words) as left:
                for step in left.each():
                    self.is_a_state(f"{word} killed before step {step}", before[1], after)
                    self.room.call(word, self.room.archive, *words)
                    self.room.has(after)
                    same(f"left after step {step}", self.room.left(), [])
                    log = pathlib.Path(f"{self.room.archive}.log").read_text().split("\n")
                    kept = [one for one in log if one.split(" ")[1:2] in (["retired"], ["repaired"])]
                    same(f"lines of the log of {word} after step {step}", len(kept), 1)

    def is_a_state(self, what: str, before: bytes, after: bytes) -> None:
        """Both files together are as they were, or as they are to be."""
        text, today = self.room.archive.read_bytes(), today_of(self.room.archive)
        if (text, today.read_bytes() if today.exists() else EMPTY) != (before, EMPTY):
            self.room.has(after)


class KilledAtMoments(RoomCase):
    """Killed at twenty moments, a fold of 20 MB leaves what there was, in one file or in both, and the next one ends
    it."""

    seconds = 15

    def test_a_fold(self) -> None:
        made = self.room.make_many(100, folder="old", more=NOISE, first=1000)
        new = self.room.make_many(9, more=NOISE)
        before, after = archive(made), archive(made + new)
        for name in ("old", "many"):
            self.room.add(name)
        began = time.monotonic()
        self.room.folded(after)
        took = time.monotonic() - began
        today = today_of(self.room.archive)
        for moment in range(20):
            self.room.begin_anew(before)
            self.room.add("many")
            process = self.room.start(
                "fold", self.room.archive, start_new_session=True, stdout=subprocess.DEVNULL, stderr=subprocess.DEVNULL
            )
            time.sleep(took * (moment + 1) / 20)
            process.kill()
            process.wait()
            wait_for_session(process.pid)
            came = self.room.archive.read_bytes(), today.read_bytes()
            if came not in [(before, archive(new)), (after, archive(new)), (after, EMPTY)]:
                raise Wrong(f"killed at moment {moment}: {[len(it) for it in came]} bytes")
            if moment % 4 == 3:
                self.room.folded(after)
                same("today", today.read_bytes(), EMPTY)
                same("index", kept_index(self.room.archive), index_of(after))
                same(f"left after moment {moment}", self.room.left(), [])
