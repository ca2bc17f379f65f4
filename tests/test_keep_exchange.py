"""Sites that exchange over folders in any order, with kills, half-copied files, restored backups and foreign files,
until all have the same bytes. Expected archives are made by tests.support, from docs/FILES.md."""
import hashlib
import os
import pathlib
import random
import re
import subprocess
from typing import Dict, List

from .support.cases import Wrong, same
from .support.kills import Left, status_where_killed
from .support.made_images import EMPTY, archive, image, slice_words
from .support.program import Word, symarch
from .support.rooms import BESIDE, RoomCase, bytes_of, kept_index, today_of
from .support.signers import LATER
from .support.sites import Site, folded, until_same

Backup = Dict[pathlib.Path, bytes]


def words_of(made: bytes) -> str:
    return " ".join(slice_words(made))


def halve(dice: random.Random, folder: pathlib.Path) -> None:
    """Leaves half of a file of the folder, as one that is being copied."""
    names = sorted(name for name in os.listdir(folder) if not name.startswith("."))
    if names:
        path = folder / dice.choice(names)
        os.truncate(path, path.stat().st_size // 2)


class ThreeSites(RoomCase):
    """Sites come to have the same bytes."""

    seconds = 20

    def setUp(self) -> None:
        super().setUp()
        self.sites = [Site(self.room, name) for name in ("east", "west", "north")]

    def test_in_random_order_with_kills_and_halves_of_files(self) -> None:
        dice = random.Random(54)
        images: List[bytes] = []
        retired: List[bytes] = []
        for number in range(60):
            site, act = dice.choice(self.sites), dice.random()
            if act < 0.25:
                images.append(image(number, more=bytes([number]) * dice.randrange(3000)))
                site.add(images[-1])
            elif act < 0.35 and images and site.archive.exists():
                retired.append(dice.choice(images))
                site.retire(retired[-1])
            elif act < 0.5:
                halve(dice, site.folder)
            elif act < 0.75:
                status_where_killed(site.start, dice.randrange(1, 60))
            else:
                site.exchange()
        wanted = archive([made for made in images if made not in retired], retired=retired)
        until_same(self.sites, wanted)
        folded(self.sites, wanted)
        kinds = {name.split(".")[1] for name in os.listdir(self.sites[0].folder)}
        self.assertEqual(kinds, {"asks", "builds", "is"}, "kinds of files that stay")

    def test_all_at_once(self) -> None:
        made = [image(number, more=bytes(1000)) for number in range(3)]
        for site, one in zip(self.sites, made):
            site.add(one)
        for _ in range(4):
            running = [site.start() for site in self.sites for _ in range(2)]
            for process in running:
                errors = process.communicate()[1].decode()
                self.assertEqual(process.returncode, 0, errors)
        until_same(self.sites, archive(made))
        folded(self.sites, archive(made))


class CopiedFolders(RoomCase):
    """Each site has a folder of its own, between which files are copied, in part or half, and never removed."""

    seconds = 15

    def setUp(self) -> None:
        super().setUp()
        self.dice = random.Random(5)
        self.sites = [Site(self.room, name, folder=f"{name}-folder") for name in ("east", "west", "north")]

    def copy(self, chance: float = 1.0, half: float = 0.0) -> None:
        for source in self.sites:
            for target in self.sites:
                for name in os.listdir(source.folder):
                    if source is not target and self.dice.random() < chance and not name.startswith("."):
                        self.copy_file(source.folder / name, target.folder / name, half)

    def copy_file(self, path: pathlib.Path, target: pathlib.Path, half: float) -> None:
        data = path.read_bytes()
        if hashlib.sha256(data).hexdigest() in path.name:
            target.write_bytes(data[: len(data) // 2] if self.dice.random() < half else data)

    def test_all_come_to_have_the_same(self) -> None:
        images: List[bytes] = []
        for number in range(30):
            site, act = self.dice.choice(self.sites), self.dice.random()
            if act < 0.3:
                images.append(image(number, more=bytes([number]) * 500))
                site.add(images[-1])
            elif act < 0.6:
                self.copy(0.4, 0.3)
            else:
                site.exchange()
        self.copy()
        until_same(self.sites, archive(images), between=self.copy, most=5)
        folded(self.sites, archive(images))


class TwoSites(RoomCase):
    """Two sites, of which one has a file that the other one lacks."""

    seconds = 15

    def setUp(self) -> None:
        super().setUp()
        self.east, self.west = Site(self.room, "east"), Site(self.room, "west")
        self.both = [self.east, self.west]

    def test_killed_before_each_step(self) -> None:
        """The old archive is there, or the new one, and the next exchange goes on."""
        old, new, more = image(1), image(2), image(3)
        self.east.add(old)
        self.west.add(new)
        self.east.exchange()
        self.west.exchange()
        self.east.add(more)
        with Left(self.room, "exchange", self.east.archive, self.east.folder, "east") as left:
            for step in left.each():
                if self.east.has() not in (archive([old, more]), archive([old, new, more])):
                    raise Wrong(f"killed before step {step}: {len(self.east.has())} bytes")
                self.east.exchange()
                files = [path.name for path in self.folder.glob("east.sym.*") if path.name[9:] not in BESIDE]
                same(f"left after step {step}", files, [])
                log = pathlib.Path(f"{self.east.archive}.log").read_text()
                same(f"lines of the log after step {step}", log.count(f" added {words_of(new)} west\n"), 1)
                self.west.exchange()
                same(f"archive of west after step {step}", self.west.has(), archive([old, new, more]))

    def test_a_file_beside_the_archive_is_lost(self) -> None:
        """While an answer waits, the site asks anew if it has to, and gets all."""
        made = [image(number) for number in range(6)]
        self.east.add(made[0])
        until_same(self.both, archive(made[:1]))
        for number, ending in enumerate(("asked", "idx", "today.idx", "log", "lock"), 1):
            self.west.add(made[number])
            self.west.exchange()
            same("answers that wait", len(self.west.answers(self.east)), 1)
            pathlib.Path(f"{self.east.archive}.{ending}").unlink()
            until_same(self.both, archive(made[: number + 1]))
        folded(self.both, archive(made))

    def test_a_late_answer(self) -> None:
        """An answer is joined whatever the site asked since, also one to a question that it does not know."""
        made = [image(number) for number in range(4)]
        self.east.add(made[0])
        self.west.add(made[1])
        self.east.exchange()
        self.west.exchange()
        (late,) = self.west.answers(self.east)
        data = (self.west.folder / late).read_bytes()
        (self.west.folder / late).unlink()
        self.east.add(made[2])
        self.east.exchange()
        (self.west.folder / late).write_bytes(data)
        text = archive([made[3]])
        digest = hashlib.sha256(text).hexdigest()
        (self.west.folder / f"west.answers.east.{'0' * 16}.{'0' * 16}.{digest}.sym").write_bytes(text)
        said, _ = self.east.exchange()
        added = [f"added {words_of(one)} west" for one in sorted((made[1], made[3]), key=lambda it: it[40:56])]
        same("first lines", said[:2], added)
        same("archive", self.east.has(), archive(made))
        same("answers", self.west.answers(self.east), [])

    def test_a_byte_that_changes_as_an_answer_is_joined(self) -> None:
        """In the copy of the answer after it was read, before the program tests that or after it, or in the new file
        before that is read back: the archive is as it was, and the next exchange joins the answer."""
        old, new = image(1), image(2, more=bytes(100))
        at = archive([new]).index(new) + len(new) - 1
        for when, command in (("before", "find"), ("after", "find"), ("after", "merge")):
            name = f"{when}-{command}"
            east, west = (Site(self.room, f"{one}-{name}", f"shared-{name}") for one in ("east", "west"))
            east.add(old)
            west.add(new)
            east.exchange()
            west.exchange()
            (answer,) = west.answers(east)
            names = "answer-1" if command == "find" else "new grown"
            changing = f'printf x | dd of="$it" bs=1 seek={at} conv=notrunc status=none'
            change = f'[ "$1" != {command} ] || for it in {names}; do [ ! -e "$it" ] || {changing}; done'
            steps = ['"$symarch" "$@"\nstatus=$?', change]
            script = "\n".join([*(reversed(steps) if when == "before" else steps), "exit $status"])
            _, errors = east.exchange(status=4, environment=self.room.program(script))
            told = f"{east.folder}: {answer}: changed while it was read; the archive is as it was"
            same("errors", errors, [f"symarch-keep: {told}"])
            same("archive", east.has(), archive([old]))
            east.exchange()
            same("archive after the next exchange", east.has(), archive([old, new]))

    def test_half_an_answer_to_a_question_that_nobody_knows_is_removed(self) -> None:
        self.east.add(image(1))
        self.east.exchange()
        half = self.east.folder / f"west.answers.east.{'0' * 16}.{'0' * 16}.{'1' * 64}.sym"
        half.write_bytes(b"half")
        self.east.exchange()
        self.assertFalse(half.exists())

    def test_nothing_new(self) -> None:
        """The program is called for its version alone, and no file is touched."""
        self.east.add(image(1))
        until_same(self.both, archive([image(1)]))
        counting = self.room.program(f'echo "$*" >>{self.folder}/calls\nexec "$symarch" "$@"')
        files = sorted([*self.folder.glob("east*"), *self.east.folder.iterdir()])
        before = [path.stat().st_mtime_ns for path in files]
        came = self.east.exchange(environment=counting)
        same("lines", came, ([], ["symarch-keep: 0 added, 0 retired, 0 answered; 0 not whole, 0 refused"]))
        same("calls", (self.folder / "calls").read_text(), "--version\n")
        same("files", sorted([*self.folder.glob("east*"), *self.east.folder.iterdir()]), files)
        same("times", [path.stat().st_mtime_ns for path in files], before)

    def test_a_site_asks_over_both_of_its_files(self) -> None:
        """An exchange reads the archive only if the other site lacks something of it."""
        made = self.room.make_many(40, folder="old", more=bytes(200), first=1000)
        new = self.room.make_many(2)
        for site in self.both:
            self.room.call("add", site.archive, "old")
        self.room.call("add", self.east.archive, "many")
        self.west.exchange()
        counting = self.room.program(f'echo "$1" >>{self.folder}/calls\nexec "$symarch" "$@"')
        self.east.exchange(environment=counting)
        same("calls", (self.folder / "calls").read_text().split(), ["--version", "delta"])
        said, _ = self.west.exchange()
        added = [f"added {words_of(one)} east" for one in sorted(new, key=lambda it: it[40:56])]
        same("lines", said[:2], added)
        same("west", self.west.archive.read_bytes(), archive(made))
        same("west of today", bytes_of(self.west.archive), archive(made + new))
        same("east", [it.read_bytes() for it in (self.east.archive, today_of(self.east.archive))],
             [archive(made), archive(new)])


class Folder(RoomCase):
    """What a folder has that is no question and no answer, or a wrong one."""

    seconds = 5

    def setUp(self) -> None:
        super().setUp()
        self.east, self.west = Site(self.room, "east"), Site(self.room, "west")
        self.east.add(image(1))
        self.west.add(image(2))

    def question(self) -> str:
        (question,) = [name for name in os.listdir(self.east.folder) if name.startswith("east.asks.2")]
        return question.split(".")[3][:16]

    def test_other_files_are_left(self) -> None:
        others = {"notes.txt": b"text", "east.asks.sum": b"", "EAST.asks.x": b"", ".hidden": b"", "east.is.x.site": b""}
        for name, data in others.items():
            (self.east.folder / name).write_bytes(data)
        until_same([self.east, self.west], archive([image(1), image(2)]))
        same("others", {name: (self.east.folder / name).read_bytes() for name in others}, others)

    def test_a_question_that_is_none(self) -> None:
        digest = hashlib.sha256(b"no summary").hexdigest()
        path = self.east.folder / f"north.asks.20260101T000000Z.{digest}.sum"
        path.write_bytes(b"no summary")
        _, errors = self.east.exchange(status=2)
        same("errors", errors[0], f"symarch-keep: {path}: is no summary")

    def test_an_answer_that_is_none(self) -> None:
        self.east.exchange()
        digest = hashlib.sha256(b"no archive").hexdigest()
        path = self.east.folder / f"west.answers.east.{self.question()}.{'0' * 16}.{digest}.sym"
        path.write_bytes(b"no archive")
        _, errors = self.east.exchange(status=2)
        self.assertTrue(errors[0].startswith(f"symarch-keep: {path}: "), errors)

    def test_a_half_is_removed_after_a_day(self) -> None:
        self.east.exchange()
        half = self.east.folder / f"west.answers.east.{self.question()}.{'0' * 16}.{'1' * 64}.sym"
        half.write_bytes(b"half")
        _, errors = self.east.exchange()
        same("last line", errors[-1], "symarch-keep: 0 added, 0 retired, 0 answered; 1 not whole, 0 refused")
        self.assertTrue(half.exists())
        os.utime(half, (0, 0))
        self.east.exchange()
        self.assertFalse(half.exists())

    def test_half_a_question_is_removed_after_a_day(self) -> None:
        """So are half of the names of builds. The site asks again."""
        until_same([self.east, self.west], archive([image(1), image(2)]))
        halves = [path for path in self.east.folder.iterdir() if path.name.startswith("east.asks.")]
        halves.append(self.east.folder / f"east.builds.{LATER}.{'1' * 64}.txt")
        for half in halves:
            half.write_bytes(b"half")
        for is_there in (True, False):
            _, errors = self.west.exchange()
            same("last line", errors[-1], "symarch-keep: 0 added, 0 retired, 0 answered; 2 not whole, 0 refused")
            same("halves", [half.exists() for half in halves], [is_there] * 2)
            for half in halves if is_there else []:
                os.utime(half, (0, 0))
        self.west.add(image(3))
        until_same([self.east, self.west], archive([image(1), image(2), image(3)]))

    def test_names_and_folders(self) -> None:
        for name in ("East", "a.b", "", "-a", "a" * 33, "a/b"):
            self.room.call("exchange", "--", self.east.archive, self.east.folder, name, status=3)
        _, errors = self.room.call("exchange", self.east.archive, "nowhere", "east", status=4)
        same("errors", errors, ["symarch-keep: nowhere: No such file or directory; the archive is as it was"])


class Restored(RoomCase):
    """A site that is restored from a backup, with what stands beside the archive and without, gets all again."""

    seconds = 25

    def sites(self, *names: str) -> List[Site]:
        return [Site(self.room, name) for name in names]

    def test_while_an_answer_waits(self) -> None:
        east, west = self.sites("east", "west")
        made = [image(number) for number in range(6)]
        east.add(made[0])
        west.add(made[1])
        until_same([east, west], archive(made[:2]))
        for is_all, number in ((False, 2), (True, 4)):
            files = list(self.folder.glob("east.sym*") if is_all else [east.archive, today_of(east.archive)])
            backup = {path: path.read_bytes() for path in files}
            east.add(made[number])
            until_same([east, west], archive(made[: number + 1]))
            west.add(made[number + 1])
            # The answer to a later question than the backup has is there when the backup comes.
            west.exchange()
            same("answers that wait", len(west.answers(east)), 1)
            for path, data in backup.items():
                path.write_bytes(data)
            said, errors = east.exchange(status=2)
            same("lines that came", [one for one in said if one.startswith("added")],
                 [f"added {words_of(made[number + 1])} west"])
            lost = f"symarch-keep: {east.archive}: changed or lost: slices 1, retirements 0; its log names them"
            same("first error", errors[0], lost)
            log = pathlib.Path(f"{east.archive}.log").read_text()
            same("lost", log.count(f" lost {words_of(made[number])}\n"), 1)
            west.exchange()
            east.exchange()
            until_same([east, west], archive(made[: number + 2]))
        folded([east, west], archive(made))

    def joined(self, name: str, *texts: bytes) -> bytes:
        """The join of archives, by the program."""
        paths = [self.room.file(f"{name}-{number}", text) for number, text in enumerate(texts)]
        words: List[Word] = [symarch, "merge", paths[0], self.folder / name, *paths[1:]]
        subprocess.run(words, check=True, capture_output=True)
        return (self.folder / name).read_bytes()

    def test_at_any_time(self) -> None:
        """Sites come to have what all of them have together."""
        dice = random.Random(2)
        sites = self.sites("east", "west", "north")
        backups: List[Backup] = []
        for number, site in enumerate(sites):
            site.add(image(100 + number))
        for number in range(40):
            site, act = dice.choice(sites), dice.random()
            if act < 0.3:
                self.room.file("given", image(number, more=bytes([number]) * 1000))
                self.room.call("add", site.archive, "given", status=None)
            elif act < 0.4:
                backups.append({path: path.read_bytes() for path in self.folder.glob(f"{site.name}.sym*")})
            elif act < 0.55 and backups:
                backup, is_all = dice.choice(backups), dice.random() < 0.5
                for path, data in backup.items():
                    if is_all or path.name.endswith((".sym", ".today")):
                        path.write_bytes(data)
            else:
                site.exchange(status=None)
        together = self.joined("together", *(site.has() for site in sites))
        for _ in range(4):
            for site in sites:
                site.exchange(status=None)
        same("different archives", len({site.has() for site in sites}), 1)
        same("what is not there", self.joined("more", sites[0].has(), together), sites[0].has())
        for site in sites:
            self.room.call("status", "--accept", site.archive)
            self.assertNotEqual(kept_index(site.archive), EMPTY)
        folded(sites, sites[0].has())


class Dates(RoomCase):
    """`status` has the dates of the exchanges."""

    seconds = 3

    def test_of_a_site(self) -> None:
        east, west = Site(self.room, "east"), Site(self.room, "west")
        east.add(image(1))
        west.add(image(2))
        until_same([east, west], archive([image(1), image(2)]))
        (site,) = [one for one in self.room.call("status", east.archive)[0] if one.startswith("site ")]
        date = r"[0-9]{4}-[0-9]{2}-[0-9]{2}T[0-9]{2}:[0-9]{2}:[0-9]{2}Z"
        wanted = f"site west answered {date} asked {date} joined {date}"
        self.assertTrue(re.fullmatch(wanted, site), site)
