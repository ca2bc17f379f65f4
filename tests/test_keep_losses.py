"""Damaged and lost archives and indexes: no index with other digests replaces one, `check` reports and changes nothing,
losses are reported until they are back, and a name belongs to one site. Expected archives are made by tests.support,
from docs/FILES.md."""
import os
import pathlib
import re
import shutil
import signal
import subprocess
import time
from typing import Callable, Dict, List, Optional, Sequence, Tuple

from .model.indexes import entries_in
from .support.cases import Without, digest_of, is_done, pieces_in, powerless_over
from .support.kills import Left, interrupted
from .support.made_images import EMPTY, archive, image, index_of, retirement, slice_words
from .support.program import TOP, call, symarch
from .support.rooms import RoomCase, change, keep, kept_index, today_of
from .support.sites import Site, until_same

State = Dict[str, Tuple[int, int, bytes]]


def words_of(made: bytes) -> str:
    return " ".join(slice_words(made))


def state_of(folder: pathlib.Path) -> State:
    """Each file of a folder: which one it is, when it was written, and its bytes."""
    paths = [path for path in folder.rglob("*") if path.is_file()]
    return {str(it): (it.stat().st_ino, it.stat().st_mtime_ns, it.read_bytes()) for it in paths}


class Mounted:
    """A disk of memory at a folder, which is unmounted at the end."""

    def __init__(self, path: pathlib.Path, size: str) -> None:
        self.path = path
        path.mkdir()
        if not is_done(["mount", "-t", "tmpfs", "-o", f"size={size}", "none", path]):
            raise Without("a disk cannot be mounted")

    def __enter__(self) -> pathlib.Path:
        return self.path

    def __exit__(self, *_: object) -> None:
        subprocess.run(["umount", self.path], check=True)

    def make_read_only(self) -> None:
        subprocess.run(["mount", "-o", "remount,ro", self.path], check=True)


class LossCase(RoomCase):
    """A site of a few slices and a retirement, with its indexes."""

    seconds = 20

    def setUp(self) -> None:
        super().setUp()
        self.made = [image(number, more=b"%d" % number * 50) for number in range(5)]
        self.retired = [image(20), image(21)]
        self.begin()

    def begin(self) -> None:
        self.text = archive(self.made, retired=self.retired)
        self.room.begin_anew(self.text)
        self.word("fold")
        self.room.file("new", image(9))

    def word(self, word: str, *more: object, status: Optional[int] = 0, **how: object) -> Tuple[List[str], List[str]]:
        """What a word over the site prints on standard output and on standard error."""
        out, errors = self.room.call(word, self.room.archive, *more, status=status, **how)
        return out, errors

    def beside(self, ending: str) -> pathlib.Path:
        return pathlib.Path(f"{self.room.archive}.{ending}")

    def change_slice(self, made: bytes) -> None:
        """Changes the last byte of a slice on the disk."""
        change(self.room.archive, self.room.archive.read_bytes().index(made) + len(made) - 1)

    def index_by_hand(self) -> None:
        """Writes the index anew, as the program makes it of the archive as it stands."""
        self.beside("idx").unlink()
        subprocess.run([symarch, "index", self.room.archive, self.beside("idx")], check=True, capture_output=True)

    def change_entry(self, at: int = 40) -> None:
        """Changes a byte of the first entry of the index."""
        text = kept_index(self.room.archive)
        change(self.beside("idx"), len(text) - 57 - 122 * len(entries_in(text)) + at)

    def change_end(self) -> None:
        """Changes a byte of the end record of the index."""
        change(self.beside("idx"), len(kept_index(self.room.archive)) - 10)

    def change_magic(self) -> None:
        change(self.beside("idx"), 3)


class Vouched(LossCase):
    """No index takes the place of one with other digests, unless what is left of that says that it is the same."""

    RETIRE = ["retire", *slice_words(image(0, more=b"0" * 50))]
    WRITING = (["add", "new"], ["fold"], ["exchange", "shared", "east"], RETIRE)

    def refused(self, words: List[str], told: str) -> None:
        """A word ends with 4, says this, and leaves each file as it was."""
        before = state_of(self.folder)
        _, errors = self.word(words[0], *words[1:], status=4)
        self.assertEqual(errors[0], f"symarch-keep: {told}; the archive is as it was", words)
        after = state_of(self.folder)
        self.assertEqual(after, before, words)

    def test_a_damaged_index_of_an_archive_that_changed(self) -> None:
        self.change_slice(self.made[2])
        self.change_entry()
        index = self.beside("idx")
        out, errors = self.word("check", status=2)
        self.assertEqual(out, [f"damaged {index}", f"unknown {self.room.archive}"])
        how = f"to accept it as it is, remove {index}, and call `symarch-keep fold`"
        self.assertEqual(errors[0], f"symarch-keep: {self.room.archive}: {how}")
        index.unlink()
        self.word("fold")
        self.assertEqual(kept_index(self.room.archive), index_of(self.room.archive.read_bytes()))
        self.assertEqual(self.word("check")[0], [])

    def test_an_index_that_was_written_anew_after_a_change(self) -> None:
        """It takes the archive as it stands."""
        self.change_slice(self.made[2])
        self.index_by_hand()
        self.assertEqual(self.word("check")[0], [])

    def test_a_change_reaches_no_other_site(self) -> None:
        west = Site(self.room, "west")
        west.exchange()
        self.change_slice(self.made[2])
        self.change_entry()
        self.word("exchange", west.folder, "east", status=4)
        west.exchange()
        self.assertEqual(west.has(), EMPTY)

    def test_a_damaged_index_is_made_anew_if_the_archive_is_as_it_was(self) -> None:
        good = kept_index(self.room.archive)
        what = "is not as symarch-keep wrote it, and is made anew"
        damages: Sequence[Callable[[], None]] = self.change_entry, self.change_end, self.change_magic
        for damage in damages:
            for words in (["add", "--dry-run", "new"], ["add", "new"], ["fold"]):
                self.begin()
                damage()
                options = [it for it in words if it.startswith("--")]
                names = [it for it in words[1:] if it not in options]
                _, errors = self.room.call(words[0], *options, self.room.archive, *names)
                made = f"{self.beside('idx')} {what}: {self.room.archive} is as it was"
                self.assertEqual(errors[0], f"symarch-keep: {made}")
                if words == ["add", "new"]:
                    self.assertEqual(kept_index(self.room.archive), good)
                if not options:
                    self.assertEqual(self.word("check")[0], [])

    def test_an_index_that_is_lost(self) -> None:
        """The archive is taken as it stands."""
        self.change_slice(self.made[1])
        self.beside("idx").unlink()
        self.assertEqual(self.word("check", status=2)[0], [f"unknown {self.room.archive}"])
        self.word("fold")
        self.assertEqual(self.word("check")[0], [])

    def test_a_damaged_index_is_left_if_the_archive_changed_too(self) -> None:
        damages: List[Callable[[], None]] = [self.change_entry, self.change_end]
        for damage in damages:
            self.begin()
            (self.folder / "shared").mkdir(exist_ok=True)
            self.change_slice(self.made[1])
            damage()
            what = "is not as symarch-keep wrote it"
            told = f"{self.beside('idx')} {what}, and it is not known whether {self.room.archive} is as it was"
            for words in self.WRITING:
                self.refused(words, f"{told}; call `symarch-keep check`")

    def test_a_dry_run_says_so_too(self) -> None:
        self.change_slice(self.made[1])
        self.change_entry()
        before = state_of(self.folder)
        _, errors = self.room.call("add", "--dry-run", self.room.archive, "new", status=4)
        self.assertIn("it is not known whether", errors[0])
        self.assertEqual(state_of(self.folder), before)

    def test_a_retirement_that_changed_is_not_taken_for_another(self) -> None:
        (self.folder / "shared").mkdir()
        change(self.room.archive, self.text.index(retirement(self.retired[0])) + 40)
        for words in self.WRITING:
            self.refused(words, f"something in {self.room.archive} changed; `symarch-keep check` names it")
        self.assertEqual(len(self.word("check", status=2)[0]), 1)


class Check(LossCase):
    """`check` says what is wrong, ends with 2 then, and changes nothing."""

    def test_a_damaged_index(self) -> None:
        for ending in ("idx", "today.idx"):
            self.begin()
            change(self.beside(ending), self.beside(ending).stat().st_size - 12)
            before = state_of(self.folder)
            out, errors = self.word("check", status=2)
            self.assertEqual(out, [f"damaged {self.beside(ending)}"])
            counts = f"symarch-keep: {self.room.archive}: 5 slices, 2 retirements: 1 changed, lost, damaged or unknown"
            self.assertEqual(errors[-1], counts)
            self.assertEqual(state_of(self.folder), before)

    def test_a_damaged_list_of_what_is_lost(self) -> None:
        self.room.archive.write_bytes(archive(self.made[1:], retired=self.retired))
        self.word("fold", status=2)
        change(self.beside("lost"), 30)
        self.assertEqual(self.word("check", status=2)[0], [f"damaged {self.beside('lost')}"])

    def test_a_file_of_which_nothing_is_known(self) -> None:
        for path in self.folder.glob("site.sym.*"):
            path.unlink()
        before = state_of(self.folder)
        out, _ = self.word("check", status=2)
        self.assertEqual(out, [f"unknown {self.room.archive}"])
        self.assertEqual(state_of(self.folder), before)

    def test_an_archive_of_version_1(self) -> None:
        self.room.begin_anew(archive(self.made, retired=self.made[:1], magic=b"MSYMARC1"))
        before = state_of(self.folder)
        out, errors = self.word("check", status=2)
        self.assertEqual(out, [f"unknown {self.room.archive}"])
        self.assertIn(": 4 slices, 1 retirements: ", errors[-1])
        self.assertEqual(state_of(self.folder), before)

    def test_what_a_kill_left_stays(self) -> None:
        for name in ("making-1/new", "log.next", "idx.next"):
            self.room.file(f"site.sym.{name}", b"half")
        before = state_of(self.folder)
        self.assertEqual(self.word("check")[0], [])
        self.assertEqual(state_of(self.folder), before)

    def test_what_somebody_put_there_is_not_taken(self) -> None:
        more = image(30)
        self.room.archive.write_bytes(archive([*self.made, more], retired=self.retired))
        before = state_of(self.folder)
        out, errors = self.word("check")
        self.assertEqual((out, errors[-1].rpartition(": ")[2]), ([], "everything that was known is there"))
        self.assertEqual(state_of(self.folder), before)
        self.room.archive.write_bytes(archive(self.made[1:], retired=self.retired))
        for _ in range(2):
            self.assertEqual(self.word("check", status=2)[0], [f"lost {words_of(self.made[0])}"])

    def test_on_a_disk_that_is_read_only(self) -> None:
        disk = Mounted(self.folder / "disk", "1m")
        with disk as path:
            for name in os.listdir(self.folder):
                if name.startswith("site.sym"):
                    shutil.copy2(self.folder / name, path / name)
            self.room.archive = path / "site.sym"
            self.word("fold")
            self.change_slice(self.made[3])
            wanted, _ = self.word("check", status=2)
            self.assertEqual([line.split(" ")[0] for line in wanted], ["changed"])
            for has_lock in (True, False):
                if not has_lock:
                    os.unlink(f"{self.room.archive}.lock")
                disk.make_read_only()
                self.assertEqual(self.word("check", status=2)[0], wanted)
                subprocess.run(["mount", "-o", "remount,rw", path], check=True)

    def test_by_who_may_not_write_the_lock(self) -> None:
        os.chmod(self.beside("lock"), 0)
        before = powerless_over(self.beside("lock"))
        self.assertEqual(self.word("check", before=before)[0], [])


class Stated(LossCase):
    """`status` says what is lost or damaged, as far as no slice has to be read, and changes nothing."""

    def stated(self, lost: List[str], errors: Sequence[str] = (), status: int = 2) -> None:
        before = state_of(self.folder)
        out, said = self.word("status", status=status)
        self.assertEqual([line for line in out if line.startswith("lost")], [f"lost {words}" for words in lost])
        self.assertEqual(said, [f"symarch-keep: {line}" for line in errors])
        self.assertEqual(state_of(self.folder), before)

    def test_an_older_archive(self) -> None:
        self.room.archive.write_bytes(archive(self.made[2:], retired=self.retired[1:]))
        retired = f"retired {words_of(self.retired[0])}"
        lost = [*sorted(map(words_of, self.made[:2])), retired]
        self.stated(lost)
        # What came by hand is no fault, and what was retired is not lost.
        self.room.archive.write_bytes(archive([*self.made[1:], image(30)], retired=[*self.retired, self.made[0]]))
        self.stated([], status=0)

    def test_an_archive_of_today_that_vanished(self) -> None:
        self.word("add", "new")
        today_of(self.room.archive).unlink()
        self.stated([words_of(image(9))])
        self.word("fold", status=2)
        self.stated([words_of(image(9))])

    def test_several_slices_of_one_head(self) -> None:
        """The bytes of these are read."""
        both = [image(40, more=b"a"), image(40, more=b"b")]
        for there, lost in (both, both[::-1]):
            self.room.begin_anew(archive(both))
            self.word("fold")
            self.room.archive.write_bytes(archive([there]))
            self.stated([words_of(lost)])

    def test_what_the_site_asked_with(self) -> None:
        """As after a restore of an archive with its index."""
        (self.folder / "shared").mkdir()
        files = [self.room.archive, today_of(self.room.archive)]
        files += [self.beside(ending) for ending in ("idx", "today.idx")]
        backup = {path: path.read_bytes() for path in files}
        self.word("add", "new")
        self.word("exchange", "shared", "east")
        for path, data in backup.items():
            path.write_bytes(data)
        self.stated([words_of(image(9))])
        self.assertIn(f" accepted lost {words_of(image(9))}\n", self.accepted())
        self.stated([], status=0)
        self.word("exchange", "shared", "east")

    def accepted(self) -> str:
        self.word("status", "--accept")
        return self.beside("log").read_text()

    def test_an_index_that_is_damaged(self) -> None:
        index, more = self.beside("idx"), "call `symarch-keep check`"
        self.change_entry()
        self.stated([], [f"{index} is not as symarch-keep wrote it; {more}"])
        index.unlink()
        self.stated([], status=0)


class Lost(LossCase):
    """What a site had and lacks is noted, looked for, and said, until it is back or is taken as lost."""

    def setUp(self) -> None:
        super().setUp()
        self.east, self.west = Site(self.room, "east"), Site(self.room, "west")

    def backup(self, is_all: bool = False) -> Dict[pathlib.Path, bytes]:
        files = self.folder.glob("east.sym*") if is_all else [self.east.archive, today_of(self.east.archive)]
        return {path: path.read_bytes() for path in files}

    def restore(self, backup: Dict[pathlib.Path, bytes]) -> None:
        for path, data in backup.items():
            path.write_bytes(data)

    def told(self, slices: int) -> str:
        how = "`symarch-keep status` names them, and `status --accept` gives up those that no site has"
        return f"symarch-keep: {self.east.archive}: lost: slices {slices}, retirements 0; {how}"

    def lost_lines(self, status: int) -> List[str]:
        out, _ = self.room.call("status", self.east.archive, status=status)
        return [line for line in out if line.startswith("lost ")]

    def test_an_answer_is_taken_before_it_is_removed(self) -> None:
        for is_all in (False, True):
            with self.subTest(is_all=is_all):
                self.tearDown()
                self.setUp()
                self.east.add(image(1))
                until_same([self.east, self.west], archive([image(1)]))
                backup = self.backup(is_all)
                self.east.add(image(2))
                self.east.exchange()
                self.west.add(image(3))
                self.west.exchange()
                self.assertEqual(len(self.west.answers(self.east)), 1)
                # The only site that has the new slice may be away for long, or lose it.
                west = self.west.archive.read_bytes()
                self.restore(backup)
                out, errors = self.east.exchange(status=2)
                self.assertEqual(out[0], f"added {words_of(image(3))} west")
                self.assertIn(self.told(1), errors)
                self.assertEqual(self.west.archive.read_bytes(), west)

    def test_a_site_ends_with_2_until_nothing_is_lost(self) -> None:
        self.east.add(image(1))
        backup = self.backup()
        self.east.add(image(2))
        until_same([self.east, self.west], archive([image(1), image(2)]))
        self.restore(backup)
        for _ in range(3):
            _, errors = self.east.exchange(status=2)
            self.assertIn(self.told(1), errors)
            self.assertEqual(self.lost_lines(2), [f"lost {words_of(image(2))}"])
            checked, _ = self.room.call("check", self.east.archive, status=2)
            self.assertEqual(checked, [f"lost {words_of(image(2))}"])
        log = pathlib.Path(f"{self.east.archive}.log").read_text()
        self.assertEqual(log.count(f" lost {words_of(image(2))}\n"), 1)
        self.west.exchange()
        out, _ = self.east.exchange()
        self.assertEqual(out[0], f"added {words_of(image(2))} west")
        self.assertEqual(self.lost_lines(0), [])
        self.assertFalse(pathlib.Path(f"{self.east.archive}.lost").exists())
        self.room.call("check", self.east.archive)

    def test_what_no_site_has_is_taken_as_lost(self) -> None:
        self.east.add(image(1))
        backup = self.backup()
        self.east.add(image(2))
        self.east.exchange()
        (question,) = [path for path in self.east.folder.iterdir() if ".asks." in path.name]
        asked = question.read_bytes()
        self.restore(backup)
        self.east.exchange(status=2)
        out, errors = self.room.call("status", "--accept", self.east.archive)
        self.assertEqual(errors, [f"symarch-keep: {self.east.archive}: slices 1, retirements 0 are given up"])
        self.assertEqual([line for line in out if line.startswith("lost")], [])
        log = pathlib.Path(f"{self.east.archive}.log").read_text()
        self.assertEqual(log.count(f" accepted lost {words_of(image(2))}\n"), 1)
        self.room.call("check", self.east.archive)
        self.east.exchange()
        # As rsync brings back a question that asked with it.
        question.write_bytes(asked)
        pathlib.Path(f"{self.east.archive}.asked").unlink()
        self.east.exchange()
        # It is known again once it is back.
        self.east.add(image(2))
        self.east.exchange()
        self.restore(backup)
        self.east.exchange(status=2)

    def test_a_site_of_which_all_files_are_older_sees_it_by_its_question(self) -> None:
        self.east.add(image(1))
        self.east.exchange()
        backup = self.backup(is_all=True)
        self.east.add(image(2))
        self.east.exchange()
        self.restore(backup)
        _, errors = self.east.exchange(status=2)
        self.assertIn(self.told(1), errors)
        self.assertEqual(self.lost_lines(2), [f"lost {words_of(image(2))}"])

    def test_an_archive_that_vanished(self) -> None:
        self.east.add(image(1), image(2))
        until_same([self.east, self.west], archive([image(1), image(2)]))
        self.room.call("fold", self.east.archive)
        self.east.archive.unlink()
        _, errors = self.east.exchange(status=2)
        self.assertIn("changed or lost: slices 2, retirements 0; its log names them", errors[0])
        self.assertIn(self.told(2), errors)
        self.west.exchange()
        self.east.exchange()
        until_same([self.east, self.west], archive([image(1), image(2)]))

    def test_each_word_that_finds_a_loss_ends_with_2(self) -> None:
        for words in (["add", "new"], ["fold"], ["retire", *slice_words(self.made[3])]):
            self.begin()
            self.room.archive.write_bytes(archive(self.made[1:], retired=self.retired))
            self.word(words[0], *words[1:], status=2)
            # The next one does not, and `check` says it until the slice is back.
            self.word("fold")
            self.assertEqual(self.word("check", status=2)[0], [f"lost {words_of(self.made[0])}"])
            self.room.file("back", self.made[0])
            self.word("add", "back")
            self.assertEqual(self.word("check")[0], [])
            self.assertEqual(self.room.left(), [])

    def test_killed_as_it_notes_what_is_lost(self) -> None:
        """Whichever step a kill comes before, the loss is named after it."""
        self.room.archive.write_bytes(archive(self.made[1:], retired=self.retired))
        lost = [f"lost {words_of(self.made[0])}"]
        with Left(self.room, "fold", self.room.archive, status=2) as left:
            for step in left.each():
                self.assertEqual(self.word("check", status=2)[0], lost, step)
                self.word("fold", status=None)
                self.assertEqual(self.word("check", status=2)[0], lost, step)

    def test_another_retirement_in_the_place_of_one(self) -> None:
        """An archive of today that is restored is no changed one: what it lacks is lost, and what it has counts."""
        self.word("retire", "--before-it-comes", *slice_words(image(30)))
        older = today_of(self.room.archive).read_bytes()
        self.word("fold")
        self.word("retire", "--before-it-comes", *slice_words(image(31)))
        self.room.archive.write_bytes(self.text)
        today_of(self.room.archive).write_bytes(older)
        lost = [f"lost retired {words_of(image(31))}"]
        self.assertEqual(self.word("check", status=2)[0], lost)
        _, errors = self.word("fold", status=2)
        self.assertIn("changed or lost: slices 0, retirements 1; ", errors[0])
        self.room.has(archive(self.made, retired=[*self.retired, image(30)]))
        self.assertEqual(self.word("check", status=2)[0], lost)

    def test_a_slice_that_is_retired_is_not_lost(self) -> None:
        self.room.archive.write_bytes(archive(self.made[1:], retired=self.retired))
        self.word("fold", status=2)
        self.room.call("retire", "--before-it-comes", self.room.archive, *slice_words(self.made[0]))
        self.assertEqual(self.word("check")[0], [])


class Names(LossCase):
    """A name is one site's, by a mark in the folder."""

    def setUp(self) -> None:
        super().setUp()
        self.east, self.west = Site(self.room, "east"), Site(self.room, "west")
        self.other = Site(self.room, "east")
        self.other.archive = self.folder / "other.sym"
        for site, made in ((self.east, image(1)), (self.west, image(2)), (self.other, image(3))):
            site.add(made)

    def marks(self, folder: pathlib.Path) -> List[str]:
        return sorted(path.name for path in folder.iterdir() if path.name.startswith("east.is."))

    def take(self, site: Site) -> List[str]:
        out, _ = self.room.call("exchange", "--take-name", site.archive, site.folder, site.name)
        return list(out)

    def refused(self, site: Site) -> None:
        """Another site has the name: nothing is done, and the line names both."""
        before = state_of(self.folder)
        kept = "; the archive is as it was" * site.archive.exists()
        _, errors = site.exchange(status=4)
        (mark,) = self.marks(site.folder)[-1:]
        where = f"{site.folder}/{mark}: another site is called east since {mark.split('.')[2]}"
        how = "choose another NAME, or take this one by --take-name if the other is gone"
        self.assertEqual(errors, [f"symarch-keep: {where}; {how}{kept}"])
        after = {path: it for path, it in state_of(self.folder).items() if not path.endswith(".lock")}
        self.assertEqual(after, {path: it for path, it in before.items() if not path.endswith(".lock")})

    def test_two_sites_under_one_name(self) -> None:
        self.east.exchange()
        self.refused(self.other)
        until_same([self.east, self.west], archive([image(1), image(2)]))
        self.refused(self.other)
        self.assertEqual(len(self.marks(self.east.folder)), 1)

    def test_a_site_that_lost_its_disk_takes_its_name(self) -> None:
        until_same([self.east, self.west], archive([image(1), image(2)]))
        for path in self.folder.glob("east.sym*"):
            path.unlink()
        self.refused(self.east)
        _, errors = self.room.call("exchange", "--take-name", self.east.archive, self.east.folder, "east", status=2)
        self.assertIn("lost: slices 2, retirements 0; ", errors[-2])
        self.assertEqual(len(self.marks(self.east.folder)), 1)
        self.west.exchange()
        self.east.exchange()
        until_same([self.east, self.west], archive([image(1), image(2)]))

    def test_a_first_call_that_is_refused_makes_nothing(self) -> None:
        self.east.exchange()
        self.other.archive = self.folder / "first.sym"
        self.refused(self.other)
        self.room.call("exchange", self.other.archive, "nowhere", "north", status=4)
        self.assertEqual(list(self.folder.glob("first.sym*")), [])

    def test_the_other_one_is_refused_then(self) -> None:
        self.east.exchange()
        out, _ = self.room.call("exchange", "--take-name", self.other.archive, self.other.folder, "east", status=2)
        (mark,) = self.marks(self.east.folder)
        self.assertIn(f"took {mark}", out)
        self.refused(self.east)
        self.assertIn(f" took {mark}\n", pathlib.Path(f"{self.other.archive}.log").read_text())
        # To take what one has is nothing.
        self.room.call("exchange", "--take-name", self.other.archive, self.other.folder, "east", status=2)
        self.assertEqual(self.marks(self.east.folder), [mark])

    def test_folders_that_are_copied(self) -> None:
        self.other.folder = self.folder / "copy"
        self.other.folder.mkdir()
        self.east.exchange()
        time.sleep(1.1)
        self.other.exchange()
        for source, target in ((self.east.folder, self.other.folder), (self.other.folder, self.east.folder)):
            for path in source.iterdir():
                shutil.copy2(path, target / path.name)
        self.other.exchange(status=2)
        self.refused(self.east)

    def test_a_folder_that_was_emptied_gets_the_mark_again(self) -> None:
        self.east.exchange()
        for path in self.east.folder.iterdir():
            path.unlink()
        self.east.exchange()
        self.assertEqual(len(self.marks(self.east.folder)), 1)
        self.refused(self.other)


class Faults(LossCase):
    """Each fault names what is at fault."""

    def test_a_full_folder(self) -> None:
        west = Site(self.room, "west")
        with Mounted(self.folder / "disk", "64k") as disk:
            self.word("exchange", disk, "east")
            west.folder = disk
            west.exchange()
            self.room.file("large", image(50, more=bytes(100_000)))
            self.word("add", "large")
            _, errors = self.word("exchange", disk, "east", status=2)
            wanted = rf"symarch-keep: {disk}/east\.answers\.west\.[^/]*\.sym: No space left on device"
            self.assertTrue(re.fullmatch(wanted, errors[0]), errors)
            self.assertEqual(len(errors), 2)
            self.assertTrue(errors[-1].endswith("; 0 not whole, 0 refused"), errors)
            halves = [path.name for path in disk.iterdir() if digest_of(pieces_in(path)) not in path.name]
            self.assertEqual(halves, [])

    def test_a_full_disk_names_the_file(self) -> None:
        with Mounted(self.folder / "disk", "64k") as disk:
            self.room.archive = disk / "site.sym"
            self.room.archive.write_bytes(archive([image(1)]))
            self.word("fold")
            for pages in range(8):
                full = disk / "full"
                with open(full, "wb", buffering=0) as file:
                    try:
                        while True:
                            file.write(bytes(4096))
                    except OSError:
                        file.truncate(max(file.tell() - 4096 * pages, 0))
                with self.room.start("retire", self.room.archive, *slice_words(image(1))) as process:
                    said = process.communicate()[1].decode()
                full.unlink()
                self.assertIn(process.returncode, (0, 2, 4))
                for line in said.split("\n"):
                    if line.startswith("  output is "):
                        self.assertTrue(line.startswith(f"  output is {self.room.archive}.making-"), said)
                    elif "No space" in line:
                        self.assertTrue(line.startswith(f"symarch-keep: {disk}/"), said)
                if process.returncode == 0:
                    break

    def test_without_proc(self) -> None:
        script = f"umount -l /proc && exec {keep} fold {self.room.archive}"
        if not is_done(["unshare", "-m", "sh", "-c", "umount -l /proc"]):
            raise Without("/proc cannot be unmounted")
        came = call(["unshare", "-m", "sh", "-c", script], environment={"SYMARCH": symarch})
        told = "there is no /dev/fd, by which the program gets its files: /proc is not mounted"
        self.assertEqual((came.status, came.error_lines), (4, [f"symarch-keep: {told}; the archive is as it was"]))

    def test_a_signal_while_the_modules_are_read(self) -> None:
        came = call(interrupted("argparse", keep, "status", str(self.room.archive)), environment={"SYMARCH": symarch})
        self.assertEqual(came, (-signal.SIGINT, b"", b""))


class Reports(LossCase):
    """`symbolicate-report` asks ARCHIVE.today, or refuses it."""

    def setUp(self) -> None:
        super().setUp()
        crash = TOP / "examples" / "crash"
        self.room.begin_anew()
        self.room.file("spool", (crash / "spool-1.dSYM").read_bytes())
        self.word("add", "spool")
        self.words = [pathlib.Path(keep).parent / "symbolicate-report", crash / "arm64.ips", self.room.archive]

    def report(self, *before: str) -> Tuple[int, List[str]]:
        came = call([*before, *self.words], environment={"SYMARCH": symarch})
        return came.status, came.error_lines

    def refused(self, *before: str) -> None:
        """The report is refused with status 2, and the fault names the file."""
        status, errors = self.report(*before)
        self.assertEqual(status, 2, errors)
        self.assertIn(str(today_of(self.room.archive)), errors[-1] if len(errors) == 1 else " ".join(errors))

    def test_today_that_cannot_be_read(self) -> None:
        path = today_of(self.room.archive)
        path.unlink()
        self.assertEqual(self.report()[0], 0)
        makers: List[Callable[[], object]] = [path.mkdir, lambda: path.symlink_to("nowhere")]
        makers += [lambda: path.symlink_to(path.name), lambda: path.write_bytes(b"text"), lambda: path.write_bytes(b"")]
        for make in makers:
            make()
            self.refused()
            if path.is_dir():
                path.rmdir()
            else:
                path.unlink()

    def test_today_without_rights(self) -> None:
        os.chmod(today_of(self.room.archive), 0)
        self.refused(*powerless_over(today_of(self.room.archive)))
