"""`check` and `repair` by kept indexes, archives that were cut or replaced by hand, and the upgrade from sums. Expected
archives and indexes are made by tests.support, from docs/FILES.md."""
import hashlib
import os
import pathlib
import random
import re
from typing import Iterable, List, Optional, Sequence, Tuple

from .support.cases import same
from .support.kills import Left
from .support.made_images import EMPTY, admission, archive, image, index_of, retirement, slice_words
from .support.rooms import RoomCase, change, kept_index, today_of
from .support.sites import DATE, Site, until_same

DSYM = 10
# How many bytes of an admission stand before its slice.
HEAD = 33


def words_of(made: bytes) -> str:
    return " ".join(slice_words(made))


class Layout:
    """What a byte of an archive belongs to, in the words of `check`."""

    def __init__(self, path: pathlib.Path, images: Sequence[bytes], retired: Sequence[bytes]) -> None:
        text = archive(images, retired=retired)
        self.path = path
        self.places: List[Optional[str]] = [None] * len(text)
        for made in [*images, *retired]:
            is_retired = made in retired
            record = retirement(made) if is_retired else admission(made)
            at = text.index(record)
            words = " ".join(["retired"] * is_retired + slice_words(made) + [str(at), str(path)])
            self.places[at : at + len(record)] = [words] * len(record)

    def lines(self, word: str, places: Iterable[int]) -> List[str]:
        found = {self.places[at] for at in places}
        slices = sorted(one for one in found if one and not one.startswith("retired"))
        retired = sorted(one for one in found if one and one.startswith("retired"))
        return [f"{word} {one}" for one in slices + retired] + [f"{word} ends {self.path}"] * (None in found)


class IndexCase(RoomCase):
    """Cases over the index of an archive."""

    def is_indexed(self, text: bytes) -> None:
        """Fails where the archive is another one, or has not its index."""
        same("archive", self.room.archive.read_bytes(), text)
        same("index", kept_index(self.room.archive), index_of(text))

    def is_told(self, lost: List[str], errors: List[str]) -> None:
        """The first error says how much is lost, and the log names it."""
        told = f"changed or lost: slices {len(lost)}, retirements 0; its log names them"
        same("first error", errors[0], f"symarch-keep: {self.room.archive}: {told}")
        log = re.sub(f"(?m)^{DATE} ", "", pathlib.Path(f"{self.room.archive}.log").read_text()).split("\n")
        same("log", sorted(one for one in log if one.startswith("lost")), lost)

    def check(self, status: int = 0) -> Tuple[List[str], List[str]]:
        return self.room.call("check", self.room.archive, status=status)


class ChangedBytes(IndexCase):
    """`check` finds the bytes that changed at random places, and names what they are of, and where that stands;
    `repair` mends them."""

    seconds = 40

    def setUp(self) -> None:
        super().setUp()
        self.dice = random.Random(100)
        lengths = [self.dice.randrange(400) for _ in range(12)]
        images = [image(number, more=self.noise(length)) for number, length in enumerate(lengths)]
        images += [image(12, more=bytes([number]) * 50) for number in range(3)]
        retired = [image(number) for number in range(50, 56)]
        self.good, self.layout = archive(images, retired=retired), Layout(self.room.archive, images, retired)
        self.room.archive.write_bytes(self.good)
        self.room.file("good.sym", archive(images + [image(99)]))
        self.room.index()

    def noise(self, length: int) -> bytes:
        return bytes(self.dice.choices(range(256), k=length))

    def found_and_mended(self, count: int) -> None:
        """So many bytes, in one archive."""
        places = self.dice.sample(range(len(self.good)), count)
        text = bytearray(self.good)
        for at in places:
            text[at] ^= 1 << self.dice.randrange(8)
        self.room.archive.write_bytes(text)
        same(f"found of {places}", self.check(2)[0], self.layout.lines("changed", places))
        self.room.has(bytes(text))
        said, _ = self.room.call("repair", self.room.archive, "good.sym")
        same(f"repaired of {places}", said, self.layout.lines("repaired", places))
        self.is_indexed(self.good)

    def test_one_at_each_of_fifty_places(self) -> None:
        for _ in range(50):
            self.found_and_mended(1)
        told = f"symarch-keep: {self.room.archive}: 15 slices, 6 retirements: nothing changed"
        same("last check", self.check(), ([], [told]))


class ChangedBytesToo(ChangedBytes):
    """The same at other places, and of several bytes."""

    def test_one_at_each_of_fifty_places(self) -> None:
        self.dice.seed(101)
        super().test_one_at_each_of_fifty_places()

    def test_two_and_six(self) -> None:
        for count in [2] * 10 + [6] * 10:
            self.found_and_mended(count)


class Changed(IndexCase):
    """A slice that changed is found after other words too."""

    seconds = 6

    def test_it_is_not_sent_and_not_taken_for_new(self) -> None:
        """Archives that lack it mend nothing."""
        east, west = Site(self.room, "east"), Site(self.room, "west")
        made = [image(number, more=b"some bytes") for number in range(3)]
        east.add(*made[:2])
        change(east.archive, east.has().index(made[1]) + len(made[1]) - 1)
        east.add(made[2])

        def changed() -> str:
            place = east.archive.read_bytes().index(made[1][:-1]) - HEAD
            return f"changed {words_of(made[1])} {place} {east.archive}"

        same("check", self.room.call("check", east.archive, status=2)[0], [changed()])
        # In the index of a new archive what changed keeps its entry.
        self.room.call("fold", east.archive)
        same("check", self.room.call("check", east.archive, status=2)[0], [changed()])
        west.exchange()
        _, errors = east.exchange(status=2)
        same("errors", errors[0], f"symarch-keep: a slice of {east.archive} changed; `symarch-keep check` names it")
        same("answers", east.answers(west), [])
        self.room.file("other", made[0])
        self.room.call("add", "other.sym", "other")
        came = self.room.call("repair", east.archive, "other.sym", status=2)
        same("said", came, ([changed()], [f"symarch-keep: {east.archive}: 0 repaired, 1 still changed"]))
        self.room.file("other", made[1])
        self.room.call("add", "other.sym", "other")
        repaired = changed().replace("changed", "repaired")
        same("repair", self.room.call("repair", east.archive, "other.sym")[0], [repaired])
        until_same([east, west], archive(made))


class Cut(IndexCase):
    """An archive that was cut is mended, and one without ARCHIVE.idx, or with a damaged one, is not."""

    seconds = 8

    def setUp(self) -> None:
        super().setUp()
        self.good = archive([image(number, more=bytes(100)) for number in range(4)])
        for name in ("good.sym", "site.sym"):
            self.room.file(name, self.good)
        self.room.file("none.sym", EMPTY)
        self.room.index()

    def test_at_each_part(self) -> None:
        for length in (len(self.good) - 1, len(self.good) - 9, 300, 20, 8, 1, 0):
            self.room.archive.write_bytes(self.good[:length])
            self.check(2)
            if length < len(self.good) - 9:
                self.room.call("repair", self.room.archive, "none.sym", status=4)
                self.room.has(self.good[:length])
            self.room.call("repair", self.room.archive, "good.sym")
            self.room.has(self.good)

    def test_a_damaged_index_mends_nothing(self) -> None:
        kept = pathlib.Path(f"{self.room.archive}.idx")
        size = kept.stat().st_size
        entries = size - 41 - 4 * 122
        ends = size - 41, size - 33, size - 1
        for place in (0, 7, *(entries + it for it in (0, 40, 65, 73, 81, 89, 121, 310)), *ends):
            change(kept, place)
            _, errors = self.room.call("repair", self.room.archive, "good.sym", status=4)
            told = f"{kept} is not as symarch-keep wrote it, so the changed bytes are not known"
            told += "; the archive is as it was"
            same("errors", errors, [f"symarch-keep: {told}"])
            change(kept, place)
        self.room.call("repair", self.room.archive, "good.sym")
        kept.unlink()
        self.room.call("repair", self.room.archive, "good.sym", status=4)
        self.room.archive.write_bytes(self.good[:-1])
        self.check(4)


class PutByHand(IndexCase):
    """An archive that somebody replaced is taken as it is, and what it lacks is named."""

    seconds = 12

    def test_more_and_less(self) -> None:
        made = [image(number) for number in range(4)]
        self.room.archive.write_bytes(archive(made[:2]))
        self.room.index()
        self.room.archive.write_bytes(archive(made[:3]))
        told = f"symarch-keep: {self.room.archive}: 3 slices, 0 retirements: everything that was known is there"
        same("more", self.check(), ([], [told]))
        self.room.index()
        self.room.archive.write_bytes(archive([made[0], made[3]], retired=[made[1]]))
        same("lost", self.check(2)[0], [f"lost {words_of(made[2])}"])
        self.room.file("one", made[2])
        _, errors = self.room.add("one", status=2)
        same("errors", len(errors), 2)
        self.room.has(archive([made[0], made[2], made[3]], retired=[made[1]]))
        self.check()
        self.room.archive.write_bytes(archive(made, retired=made[1:2], magic=b"MSYMARC1"))
        same("check", self.check()[0], [])
        told = f"symarch-keep: {self.room.archive}: was of version 1, and is of version 2 now"
        same("errors", self.room.call("fold", self.room.archive)[1][0], told)
        self.room.file("good.sym", archive(made))
        _, errors = self.room.call("repair", self.room.archive, "good.sym")
        same("errors", errors, [f"symarch-keep: {self.room.archive}: nothing changed"])
        self.is_indexed(archive([made[0], *made[2:]], retired=made[1:2]))

    def test_with_a_slice_that_changed(self) -> None:
        """It keeps its entry, so that each later check names it, and it is not sent."""
        made = [image(number, more=b"some bytes") for number in range(3)]
        self.room.archive.write_bytes(archive(made[:2]))
        self.room.index()
        changed = made[1][:-1] + b"x"
        text = archive([made[0], changed, made[2]])
        self.room.archive.write_bytes(text)
        line = f"changed {words_of(made[1])} {text.index(changed) - HEAD} {self.room.archive}"
        same("check", self.check(2)[0], [line])
        _, errors = self.room.call("fold", self.room.archive, status=2)
        told = "changed or lost: slices 1, retirements 0; its log names them"
        same("first error", errors[0], f"symarch-keep: {self.room.archive}: {told}")
        same("check after it", self.check(2)[0], [line])
        self.room.file("good.sym", archive(made))
        said, _ = self.room.call("repair", self.room.archive, "good.sym")
        same("repair", said, [line.replace("changed", "repaired")])
        self.is_indexed(archive(made))

    def test_one_as_long_as_it_was(self) -> None:
        """Its index is not taken for the new one's: each word takes it as it is, and names what it lacks."""
        made = [image(number) for number in range(6)]
        before, after = archive(made[:3]), archive(made[2:5])
        lost = sorted(f"lost {words_of(one)}" for one in made[:2])
        self.room.file("given", made[0])
        self.room.file("other.sym", archive(made))
        (self.folder / "shared").mkdir()
        retired = archive([made[2], made[4]], retired=made[3:4])
        cases: Sequence[Tuple[str, List[str], bytes]] = (
            ("add", ["given"], archive([made[0], *made[2:5]])),
            ("fold", [], after),
            ("retire", slice_words(made[3]), retired),
            ("exchange", ["shared", "east"], after),
            ("repair", ["other.sym"], after),
        )
        for word, more, wanted in cases:
            self.room.begin_anew(before)
            self.room.index()
            self.is_indexed(before)
            if word in ("fold", "repair"):
                self.room.archive.write_bytes(after)
            else:
                # As by `cp -p` and `mv` of one that is older.
                os.utime(self.room.file("older.sym", after), (0, 0))
                os.replace(self.folder / "older.sym", self.room.archive)
            stated, _ = self.room.call("status", self.room.archive, status=2)
            same("status", (stated[0], sorted(stated[-2:])), ("images 3", lost))
            same("lines", sorted(self.check(2)[0]), lost)
            _, errors = self.room.call(word, self.room.archive, *more, status=2)
            self.is_told(lost, errors)
            self.room.folded(wanted)
            self.is_indexed(wanted)


def sums_of(images: Iterable[bytes], retired: Iterable[bytes] = (), note: str = "") -> bytes:
    """What symarch-keep kept of an archive before it kept its index."""
    lines = [f"retired {words_of(made)}\n" for made in retired]
    lines += [f"slice {words_of(made)} {len(made)}\n" for made in images]
    text = "symarch-keep 1\n" + note + "".join(lines)
    return f"{text}sha256 {hashlib.sha256(text.encode()).hexdigest()}\n".encode()


class Upgraded(IndexCase):
    """A site that has sums and no index. Two slices of its archive have one head, and one is a companion. The next word
    that writes makes the indexes, and removes the sums; `check` finds all by the sums too."""

    seconds = 10

    def setUp(self) -> None:
        super().setUp()
        self.made = [image(number, more=bytes([number]) * 90) for number in range(4)]
        self.made += [image(9, kind=DSYM, more=bytes(200)), *(image(1, more=bytes([it]) * 90) for it in (7, 8))]
        self.new, self.retired = [image(20)], [image(21), self.made[0]]
        self.texts = archive(self.made), archive(self.new, retired=self.retired)
        self.files = self.room.archive, today_of(self.room.archive)
        self.begin()

    def begin(self) -> None:
        self.room.begin_anew(self.texts[0])
        self.files[1].write_bytes(self.texts[1])
        self.room.file("site.sym.sum", sums_of(self.made))
        self.room.file("site.sym.today.sum", sums_of(self.new, self.retired))

    def is_upgraded(self, texts: Sequence[bytes]) -> None:
        same("archives", [path.read_bytes() for path in self.files], [*texts])
        same("indexes", [kept_index(path) for path in self.files], [index_of(text) for text in texts])
        same("left", self.room.left(), [])
        same("sums", sorted(path.name for path in self.folder.glob("site.sym*.sum")), [])

    def test_by_each_word(self) -> None:
        folded = archive(self.made[1:] + self.new, retired=self.retired), EMPTY
        counting = self.room.program(f'echo "$1" >>{self.folder}/calls\nexec "$symarch" "$@"')
        self.room.file("given", self.new[0])
        for words, texts in ((["add", "given"], self.texts), (["fold"], folded)):
            self.begin()
            self.room.call("status", self.room.archive)
            self.room.call(words[0], self.room.archive, *words[1:], environment=counting)
            self.is_upgraded(texts)
        calls = (self.folder / "calls").read_text().split()
        made = ["--version", "index", "index"]
        same("calls", calls, [*made, *made, "merge"])

    def test_check_leaves_the_sums(self) -> None:
        before = sorted(path.name for path in self.folder.iterdir())
        counting = self.room.program(f'echo "$1" >>{self.folder}/calls\nexec "$symarch" "$@"')
        out, errors = self.room.call("check", self.room.archive, environment=counting)
        told = f"symarch-keep: {self.room.archive}: 7 slices, 2 retirements: nothing changed"
        same("check", (out, errors), ([], [told]))
        same("calls", (self.folder / "calls").read_text(), "--version\n")
        after = sorted(path.name for path in self.folder.iterdir())
        same("files", after, sorted([*before, "calls", "program"]))

    def test_what_changed_before_is_found_and_mended(self) -> None:
        text, layout = self.texts[0], Layout(self.room.archive, self.made, [])
        self.room.file("good.sym", text)
        for at in (3, 60, text.index(self.made[4]) + 12, text.index(self.made[6]) + 100, len(text) - 1):
            self.begin()
            change(self.room.archive, at)
            same(f"found of {at}", self.check(2)[0], layout.lines("changed", [at]))
            self.room.call("repair", self.room.archive, "good.sym")
            self.is_upgraded(self.texts)

    def test_what_was_lost_before_is_named(self) -> None:
        self.room.archive.write_bytes(archive(self.made[1:3]))
        lost = sorted(f"lost {words_of(one)}" for one in self.made[3:])
        same("check", sorted(self.check(2)[0]), lost)
        self.is_told(lost, self.room.call("fold", self.room.archive, status=2)[1])

    def test_killed_before_each_step(self) -> None:
        with Left(self.room, "status", "--accept", self.room.archive) as left:
            for _ in left.each():
                self.room.index()
                self.is_upgraded(self.texts)

    def test_what_a_killed_word_left_that_kept_sums(self) -> None:
        """It is ended, if its archive was in place, and else removed."""
        made, line = [image(number) for number in range(3)], "2026-11-27T01:02:03Z added it\n"
        for is_in_place in (False, True):
            self.room.begin_anew(archive(made[:2]))
            number = self.room.archive.stat().st_ino if is_in_place else 1
            self.room.file("site.sym.sum", sums_of(made[: 1 if is_in_place else 2]))
            self.room.file("site.sym.sum.next", sums_of(made[:2], note=f"file {number}\n"))
            self.room.file("site.sym.log.next", line.encode())
            _, errors = self.room.call("fold", self.room.archive)
            same("errors", len(errors), 1)
            log = pathlib.Path(f"{self.room.archive}.log")
            same("log", log.read_text() if log.exists() else "", line if is_in_place else "")
            self.is_indexed(archive(made[:2]))
            same("left", self.room.left(), [])


class FirstVersion(IndexCase):
    """The next word that writes puts version 2 of an archive of version 1 in its place, with its index, and says so. It
    is held against the sums of it, if there are any."""

    seconds = 4

    def setUp(self) -> None:
        super().setUp()
        self.made = [image(number) for number in range(4)]
        self.old = archive(self.made[:2], retired=self.made[1:2], magic=b"MSYMARC1")
        self.new = archive(self.made[:1], retired=self.made[1:2])
        self.told = f"symarch-keep: {self.room.archive}: was of version 1, and is of version 2 now"

    def test_by_each_word(self) -> None:
        self.room.file("given", self.made[0])
        for words in (["add", "given"], ["fold"], ["retire", *slice_words(self.made[1])]):
            self.room.begin_anew(self.old)
            today_of(self.room.archive).write_bytes(archive(self.made[3:], magic=b"MSYMARC1"))
            _, errors = self.room.call(words[0], self.room.archive, *words[1:])
            same("errors", errors[:2], [self.told, self.told.replace(".sym", ".sym.today")])
            if words != ["fold"]:
                self.is_indexed(self.new)
                same("index of today", kept_index(today_of(self.room.archive)), index_of(archive(self.made[3:])))
            self.room.folded(archive([self.made[0], self.made[3]], retired=self.made[1:2]))

    def test_with_sums(self) -> None:
        self.room.archive.write_bytes(self.old)
        self.room.file("site.sym.sum", sums_of([self.made[0], self.made[2]], self.made[1:2]))
        lost = [f"lost {words_of(self.made[2])}"]
        same("lost", self.check(2)[0], lost)
        same("archive", self.room.archive.read_bytes(), self.old)
        _, errors = self.room.call("fold", self.room.archive, status=2)
        self.is_told(lost, errors)
        same("errors", errors[1], self.told)
        self.is_indexed(self.new)
        same("left", self.room.left(), [])
