"""Signed exchanges with an attacker, who writes to the folder and has no key."""
import contextlib
import hashlib
import os
import pathlib
import random
import re
import shutil
import sys
import time
from typing import Callable, Dict, List, NamedTuple, Tuple

from .support.kills import status_where_killed
from .support.cases import same
from .support.made_images import archive, image, slice_words, summary
from .support.signers import LATER, ThreeSites, answer_name, beside, builds_name, builds_of, evil, fields_of, folder_of
from .support.signers import mark_name, named, one_of, put_beside, question_name, signed, text_of
from .support.sites import Site, folded, until_same

DAY = 24 * 60 * 60

# Runs a tool for which a file is another one once it was opened.
SWAPPER = """
import os, runpy, shutil, sys

path, bad, opened = os.environ["SWAPPED"], os.environ["BAD"], []

def look(event, words):
    if event == "open" and isinstance(words[0], (bytes, str)) and os.fsdecode(words[0]) == path:
        opened.append(path)
        if len(opened) == 2:
            shutil.copyfile(bad, path)

sys.addaudithook(look)
sys.argv = sys.argv[1:]
sys.path[0] = os.path.dirname(sys.argv[0])
runpy.run_path(sys.argv[0], run_name="__main__")
"""


def words_of(made: bytes) -> str:
    return " ".join(slice_words(made))


class Attack(NamedTuple):
    """What one without a key did: the site that looks first, the file that is named, and why."""

    victim: Site
    path: pathlib.Path
    reason: str


class Month(ThreeSites):
    """A month of three sites, of which each day one is attacked. Nothing of the attacker is joined, each of his files
    is named, and the sites converge."""

    seconds = 60

    def test_each_day(self) -> None:
        dice = random.Random(77)
        sites = [self.east, self.west, self.north]
        self.begin(*sites)
        made = [image(number) for number in range(3)]
        retired: List[bytes] = []
        attacks: List[Callable[[int], Attack]] = [
            self.forged_answer, self.unsigned_answer, self.forged_retirement, self.forged_question, self.forged_builds,
            self.forged_mark, self.replayed_question, self.swapped_receiver, self.swapped_sender, self.cut,
            self.changed, self.huge, self.link, self.linked_signature,
        ]
        self.old = self.pair(one_of(self.west, "asks"))
        answers: Dict[pathlib.Path, bytes] = {}
        for day in range(30):
            site = dice.choice(sites)
            made.append(image(100 + day, more=bytes([day]) * dice.randrange(3000)))
            site.add(made[-1])
            if dice.random() < 0.2:
                retired.append(dice.choice(made))
                dice.choice(sites).retire(retired[-1])
            answers.update(self.pair(*(path for path in self.shared.iterdir() if path.suffix == ".sym")))
            self.refused(*attacks[day % len(attacks)](day), joins=True)
            if day % 3 == 0:
                # An answer that is put back does no harm.
                self.put_back({path: data for path, data in answers.items() if dice.random() < 0.3})
            if day % 4 == 0:
                status_where_killed(dice.choice(sites).start, dice.randrange(1, 60))
            for one in dice.sample(sites, 2):
                one.exchange(status=None)
            self.age()
        wanted = archive([one for one in made if one not in retired], retired=retired)
        until_same(sites, wanted)
        folded(sites, wanted)
        logs = "".join(pathlib.Path(f"{one.archive}.{it}").read_text() for one in sites for it in ("log", "builds"))
        self.assertNotIn("evil", logs)
        same("what is of the attacker", [day for day in range(30) if slice_words(evil(day))[2] in logs], [])

    @staticmethod
    def pair(*paths: pathlib.Path) -> Dict[pathlib.Path, bytes]:
        """Files with their signatures."""
        every = [it for path in paths for it in (path, beside(path))]
        return {path: path.read_bytes() for path in every if path.exists()}

    @staticmethod
    def put_back(state: Dict[pathlib.Path, bytes]) -> None:
        for path, data in state.items():
            path.write_bytes(data)

    def age(self) -> None:
        """A day passes."""
        for path in self.shared.iterdir():
            with contextlib.suppress(OSError):
                then = path.lstat().st_mtime - DAY
                os.utime(path, (then, then), follow_symlinks=False)

    def forged_answer(self, day: int) -> Attack:
        data = archive([evil(day)])
        return Attack(self.east, self.forge(answer_name("west", "east", data), data), self.unknown("west"))

    def unsigned_answer(self, day: int) -> Attack:
        data = archive([evil(day)])
        return Attack(self.north, self.forge(answer_name("west", "north", data), data, key=""), "has no signature")

    def forged_retirement(self, day: int) -> Attack:
        data = archive([evil(day)], retired=[image(0)])
        return Attack(self.west, self.forge(answer_name("east", "west", data), data), self.unknown("east"))

    def forged_question(self, day: int) -> Attack:
        data = summary([evil(day)])
        return Attack(self.north, self.forge(question_name("west", data, LATER), data), self.unknown("west"))

    def forged_builds(self, day: int) -> Attack:
        data = builds_of(evil(day), "evil")
        return Attack(self.north, self.forge(builds_name("east", data, LATER), data), self.unknown("east"))

    def forged_mark(self, day: int) -> Attack:
        data = b"evil %d\n" % day
        return Attack(self.east, self.forge(mark_name("east", data, LATER), data), self.unknown("east"))

    def question(self) -> pathlib.Path:
        """The last question of west, which it puts there again if it was taken away."""
        self.west.exchange(status=None)
        return one_of(self.west, "asks")

    def replayed_question(self, _: int) -> Attack:
        last = self.question()
        self.east.exchange(status=None)
        last.unlink()
        self.put_back(self.old)
        (path,) = [path for path in self.old if path.suffix == ".sum"]
        return Attack(self.east, path, "is older than the last question of west, of [0-9]{8}T[0-9]{6}Z")

    def real_answer(self, day: int) -> Tuple[pathlib.Path, bytes, bytes]:
        """An answer that west signed to east."""
        data = archive([evil(day)])
        name = answer_name("west", "east", data)
        return self.shared / name, data, signed(text_of(fields_of(name, data, self.shared_id)), self.keys / "west")

    def swapped_receiver(self, day: int) -> Attack:
        path, data, signature = self.real_answer(day)
        path = path.with_name(path.name.replace(".east.", ".north."))
        path.write_bytes(data)
        put_beside(path, signature)
        return Attack(self.north, path, "its signature has `receiver east`, and not `receiver north`")

    def swapped_sender(self, day: int) -> Attack:
        path, data, signature = self.real_answer(day)
        path = path.with_name(path.name.replace("west.", "north.", 1))
        path.write_bytes(data)
        put_beside(path, signature)
        return Attack(self.east, path, "its signature has `sender west`, and not `sender north`")

    def cut(self, _: int) -> Attack:
        path = self.question()
        size = path.stat().st_size
        os.truncate(path, size // 2)
        return Attack(self.north, path, f"has {size // 2} bytes, and {size} were signed")

    def changed(self, _: int) -> Attack:
        path = self.question()
        data = path.read_bytes()
        path.write_bytes(data[:20] + bytes([data[20] ^ 1]) + data[21:])
        return Attack(self.east, path, "does not have the digest in its name")

    def huge(self, day: int) -> Attack:
        path, data, signature = self.real_answer(day)
        path.write_bytes(data)
        put_beside(path, signature)
        os.truncate(path, 1 << 40)
        return Attack(self.east, path, f"has {1 << 40} bytes, and {len(data)} were signed")

    def link(self, day: int) -> Attack:
        data = archive([evil(day)])
        path = self.shared / answer_name("west", "east", data)
        (self.folder / "outside").write_bytes(data)
        path.symlink_to(self.folder / "outside")
        return Attack(self.east, path, "is a link")

    def linked_signature(self, day: int) -> Attack:
        path = self.forge(answer_name("west", "east", archive([evil(day)])), archive([evil(day)]))
        signature = beside(path)
        signature.rename(self.folder / "outside.sig")
        signature.symlink_to(self.folder / "outside.sig")
        return Attack(self.east, path, "its signature is a link")


class Rules(ThreeSites):
    """What has to be signed, of each kind of file."""

    seconds = 30

    @staticmethod
    def files(number: int = 0) -> List[Tuple[str, bytes]]:
        """A file of each kind, which west might have put into the folder, with what east would take of it."""
        made = image(50 + number)
        given = [archive([made]), summary([made]), builds_of(made, "given")]
        names = [answer_name("west", "east", given[0]), question_name("west", given[1], LATER)]
        return list(zip([*names, builds_name("west", given[2], LATER)], given))

    def test_what_is_signed_by_hand_counts(self) -> None:
        """As docs/FILES.md has it."""
        self.begin(self.east, self.west)
        for name, data in self.files():
            self.forge(name, data, "west")
        said, _ = self.east.exchange()
        same("joined", said[0], f"added {words_of(image(50))} west")
        same("names", [one for one in said if one.startswith("named")], ["named 1 west"])
        (answer,) = self.east.answers(self.west)
        same("answer", (self.shared / answer).read_bytes(), archive([image(0), image(1)]))

    def test_each_field_of_each_kind(self) -> None:
        self.begin(self.east, self.west)
        other = {"sender": "north", "receiver": "north", "kind": "is", "folder": "0" * 64, "file": "west.x"}
        other.update({"sha256": "0" * 64})
        for number, (field, value) in enumerate(other.items()):
            for name, data in self.files(number):
                right = fields_of(name, data, self.shared_id)[field]
                path = self.forge(name, data, "west", **{field: value})
                reason = f"its signature has `{field} {value}`, and not `{field} {re.escape(right)}`"
                self.refused(self.east, path, reason)
        for name, data in self.files():
            for length in ("0", "1" * 18):
                path = self.forge(name, data, "west", length=length)
                self.refused(self.east, path, f"has {len(data)} bytes, and {length} were signed")
            path = self.forge(name, data, "west", length="x")
            self.refused(self.east, path, f"its signature has `length x`, and not `length {len(data)}`")

    def test_each_kind_without_a_right_signature(self) -> None:
        self.begin(self.east, self.west)
        armor = "-----BEGIN SSH SIGNATURE-----\n"
        makers: List[Tuple[Callable[[bytes], bytes], str]] = [
            (lambda text: signed(text, self.keys / "mallory"), self.unknown("west")),
            (lambda text: signed(text, self.keys / "north"), self.unknown("west")),
            (lambda text: signed(text, self.keys / "east"), self.unknown("west")),
            (lambda text: signed(text, self.keys / "west", "file"), self.unknown("west")),
            (lambda text: text, self.unknown("west")),
            (lambda text: text + armor.encode(), self.unknown("west")),
            (lambda text: signed(text, self.keys / "west")[:-60], self.unknown("west")),
            (lambda text: b"", "its signature has ``, and not `symarch-keep exchange 1`"),
            (lambda text: b"\x1b[31m\n", r"its signature has `\\x1b\[31m`, and not `symarch-keep exchange 1`"),
            (lambda text: signed(text + b"more 1\n", self.keys / "west"), "its signature has `more 1`, and not ``"),
            (lambda text: signed(text, self.keys / "west") + bytes(1 << 16), "its signature has more than 65536 bytes"),
        ]
        for number, (make, reason) in enumerate(makers):
            for name, data in self.files(number):
                path = self.forge(name, data, key="")
                put_beside(path, make(text_of(fields_of(name, data, self.shared_id))))
                self.refused(self.east, path, reason)
        for name, data in self.files():
            self.refused(self.east, self.forge(name, data, key=""), "has no signature")
            path = self.forge(name, data, "west")
            beside(path).rename(path.with_suffix(f".{'0' * 16}.sig"))
            self.refused(self.east, path, "its signature does not have the digest in its name")

    def test_one_of_several_signatures(self) -> None:
        """As after a change of the key."""
        self.begin(self.east, self.west)
        for name, data in self.files():
            path = self.forge(name, data, "west")
            for key in ("mallory", "north"):
                put_beside(path, signed(text_of(fields_of(name, data, self.shared_id)), self.keys / key))
        said, _ = self.east.exchange()
        same("joined", (said[0], "named 1 west" in said), (f"added {words_of(image(50))} west", True))
        same("answers", len(self.east.answers(self.west)), 1)

    def test_marks(self) -> None:
        """One that another made neither refuses this site, nor takes the place of its own."""
        self.begin(self.east, self.west)
        for at in (LATER, "99991231T235959Z"):
            path = self.forge(mark_name("east", b"evil\n", at), b"evil\n")
            self.refused(self.east, path, self.unknown("east"))
            data = pathlib.Path(f"{self.east.archive}.site").read_bytes()
            path = self.forge(mark_name("east", data, at), data, key="")
            self.refused(self.east, path, "has no signature")
        # Who has the key is refused, as without one.
        self.forge(mark_name("east", b"other\n", LATER), b"other\n", "east")
        _, errors = self.east.exchange(status=4)
        self.assertIn("another site is called east since", errors[0])

    def test_questions_of_this_site(self) -> None:
        """One that another made is not taken for what the site asked with, and says nothing of times."""
        self.begin(self.east, self.west)
        last = one_of(self.east, "asks")
        for at, data in ((LATER, summary([evil(1)])), ("99991231T235959Z", last.read_bytes())):
            path = self.forge(question_name("east", data, at), data)
            self.refused(self.east, path, self.unknown("east"))
            same("last question", one_of(self.east, "asks"), last)
        until_same([self.east, self.west], archive([image(0), image(1)]))

    def test_an_answer_of_this_site(self) -> None:
        """A file in the place of an answer is not taken for it, nor signed."""
        self.begin(self.east, self.west)
        self.east.add(image(60))
        self.east.exchange()
        (right,) = self.east.answers(self.west)
        data = (self.shared / right).read_bytes()
        beside(self.shared / right).unlink()
        (self.shared / right).unlink()
        bad = archive([image(60, more=b"-")])[: len(data)].ljust(len(data), b"x")
        name = ".".join([*right.split(".")[:-2], hashlib.sha256(bad).hexdigest(), "sym"])
        _, errors = self.forge_answer_and_exchange(name, bad)
        same("named", len(named(errors, self.shared / name)), 1)
        same("answers", self.east.answers(self.west), [right])
        until_same([self.east, self.west], archive([image(0), image(1), image(60)]))

    def forge_answer_and_exchange(self, name: str, data: bytes) -> Tuple[List[str], List[str]]:
        self.forge(name, data)
        return self.east.exchange(status=2)

    def test_an_answer_to_another_site(self) -> None:
        self.begin(self.east, self.west)
        data = archive([image(50)])
        path = self.forge(answer_name("west", "north", data), data, "west")
        self.east.exchange()
        same("east", (self.east.has(), path.exists()), (archive([image(0), image(1)]), True))

    def test_builds_that_all_know(self) -> None:
        """A list that has what this site has counts no more than another one."""
        self.begin(self.east, self.west)
        known = one_of(self.east, "builds").read_bytes()
        self.west.add(image(60))
        self.west.exchange()
        path = self.forge(builds_name("west", known, LATER), known, key="")
        said, errors = self.east.exchange(status=2)
        same("named", (named(errors, path), "named 1 west" in said), (["has no signature"], True))

    def test_what_was_verified_is_verified_again_for_other_signers(self) -> None:
        self.begin(self.east, self.west)
        lines = self.signers.read_text().splitlines(True)
        self.signers.write_text("".join(one for one in lines if not one.startswith("west ")))
        _, errors = self.east.exchange(status=2)
        self.assertRegex(named(errors, one_of(self.west, "asks"))[0], self.unknown("west"))

    def test_each_file_is_named_once(self) -> None:
        """By the first call that sees it; the others count it, and end with 0."""
        self.begin(self.east, self.west)
        data = archive([evil(0)])
        path = self.forge(answer_name("west", "east", data), data)
        half = self.forge(builds_name("west", b"half", LATER), b"half", "west")
        half.write_bytes(b"ha")
        for is_first in (True, False, False):
            _, errors = self.east.exchange(status=2 if is_first else 0)
            same("named", [len(named(errors, it)) for it in (path, half)], [int(is_first)] * 2)
            same("last line", errors[-1].partition("; ")[2], "1 not whole, 1 refused")
        same("calls of ssh-keygen", self.calls_of(self.east), [])
        beside(path).unlink()
        self.refused(self.east, path, "has no signature")


class Replayed(ThreeSites):
    """What was right, and is put there again."""

    seconds = 20

    def test_an_answer_does_no_harm(self) -> None:
        self.begin(self.east, self.west)
        self.west.add(image(60))
        self.west.exchange()
        (answer,) = self.west.answers(self.east)
        path = self.shared / answer
        pair = {one: one.read_bytes() for one in (path, beside(path))}
        self.east.exchange()
        self.east.retire(image(60))
        until_same([self.east, self.west], archive([image(0), image(1)], retired=[image(60)]))
        for one, data in pair.items():
            one.write_bytes(data)
        self.east.exchange()
        same("left", [one for one in pair if one.exists()], [])
        until_same([self.east, self.west], archive([image(0), image(1)], retired=[image(60)]))

    def test_a_question(self) -> None:
        """No answer goes to one that is older than the last one; beside the last one it is passed over without a
        word."""
        self.begin(self.east, self.west)
        old = one_of(self.west, "asks")
        pair = {one: one.read_bytes() for one in (old, beside(old))}
        self.west.add(image(60))
        until_same([self.east, self.west], archive([image(0), image(1), image(60)]))
        last = one_of(self.west, "asks")
        self.east.add(image(61))
        for one, data in pair.items():
            one.write_bytes(data)
        said, _ = self.east.exchange()
        (answer,) = self.east.answers(self.west)
        same("answered", answer.split(".")[3], last.name.split(".")[3][:16])
        (self.shared / answer).unlink()
        last.unlink()
        reason = f"is older than the last question of west, of {last.name.split('.')[2]}"
        self.refused(self.east, old, reason)
        same("answers", self.east.answers(self.west), [])
        until_same([self.east, self.west], archive([image(0), image(1), image(60), image(61)]))

    def test_a_mark(self) -> None:
        """That of a disk that was lost."""
        self.begin(self.east, self.west)
        old = one_of(self.east, "is")
        pair = {one: one.read_bytes() for one in (old, beside(old))}
        time.sleep(1.1)
        for path in self.folder.glob("east.sym*"):
            path.unlink()
        self.room.call("exchange", "--take-name", *self.east.words()[1:], status=2)
        self.west.exchange()
        until_same([self.east, self.west], archive([image(0), image(1)]))
        new = one_of(self.east, "is")
        self.assertNotEqual(new, old)
        for one, data in pair.items():
            one.write_bytes(data)
        for one in (new, beside(new)):
            one.unlink()
        self.east.exchange()
        until_same([self.east, self.west], archive([image(0), image(1)]))

    def test_of_another_folder(self) -> None:
        """Of the same sites, with the same keys."""
        self.begin(self.east, self.west)
        others = [Site(self.room, site.name, "other", site.keys) for site in (self.east, self.west)]
        for site, made in zip(others, (evil(1), evil(2))):
            site.archive = self.folder / f"other-{site.name}.sym"
            site.add(made)
        for site in others:
            site.exchange()
        other = folder_of(others[0])
        self.assertNotEqual(other, self.shared_id)
        for path in others[0].folder.iterdir():
            shutil.copy2(path, self.shared / path.name)
        _, errors = self.east.exchange(status=2)
        for path in (one_of(others[1], "asks"), one_of(others[1], "answers", "east")):
            says = f"its signature has `folder {other}`, and not `folder {self.shared_id}`"
            same("named", named(errors, self.shared / path.name), [says])
        same("archive", self.east.has(), archive([image(0), image(1)]))


class CopiedFirst(ThreeSites):
    """What is verified is what is read: a folder that changes meanwhile is another one's."""

    seconds = 20

    def script(self, name: str, text: str) -> str:
        """A program of a name before others in PATH."""
        path = self.folder / "bin" / name
        path.parent.mkdir(exist_ok=True)
        path.write_text(f"#!/bin/sh\n{text}\n")
        path.chmod(0o755)
        return f"{path.parent}:{os.environ['PATH']}"

    def test_files_that_change_once_they_are_verified(self) -> None:
        """Of each kind, in place and by a rename."""
        self.begin(self.east, self.west)
        for number, how in enumerate(("cat bad >", "cp bad new && mv new")):
            good = image(50 + number, more=b"good")
            for name, data, bad in (
                (answer_name("west", "east", archive([good])), archive([good]), archive([evil(0)])),
                (question_name("west", summary([good]), LATER), summary([good]), summary([evil(0)])),
                (builds_name("west", builds_of(good, "good"), LATER), builds_of(good, "good"), builds_of(good, "evil")),
            ):
                self.assertEqual(len(data), len(bad), name)
                path = self.forge(name, data, "west")
                (self.folder / "bad").write_bytes(bad)
                does = f'if test "$2" = verify; then cd {self.folder} && {how} {path}; fi'
                script = f'{shutil.which("ssh-keygen")} "$@" || exit\n{does}'
                before = self.east.has()
                _, errors = self.east.exchange(status=2, environment={"PATH": self.script("ssh-keygen", script)})
                same("named", named(errors, path), ["does not have the digest in its name"])
                same("archive", self.east.has(), before)
                self.assertNotIn(" evil\n", pathlib.Path(f"{self.east.archive}.builds").read_text())
                for one in (path, beside(path)):
                    one.unlink(missing_ok=True)

    def test_no_file_is_read_twice(self) -> None:
        self.begin(self.east, self.west)
        good = image(50, more=b"good")
        for name, data, bad in (
            (answer_name("west", "east", archive([good])), archive([good]), archive([evil(0)])),
            (question_name("west", summary([good]), LATER), summary([good]), summary([image(0)])),
            (builds_name("west", builds_of(good, "good"), LATER), builds_of(good, "good"), builds_of(good, "evil")),
        ):
            path = self.forge(name, data, "west")
            swaps = {"SWAPPED": str(path), "BAD": os.fsdecode(self.room.file("bad", bad))}
            self.east.exchange(environment=swaps, before=[sys.executable, "-B", "-c", SWAPPER])
        same("east", self.east.has(), archive([image(0), image(1), good]))
        (answer,) = self.east.answers(self.west)
        same("answer", (self.shared / answer).read_bytes(), archive([image(0), image(1)]))
        self.assertNotIn(" evil\n", pathlib.Path(f"{self.east.archive}.builds").read_text())

    def test_an_answer_that_changes_once_it_is_copied(self) -> None:
        self.begin(self.east, self.west)
        data = archive([image(50)])
        path = self.forge(answer_name("west", "east", data), data, "west")
        (self.folder / "bad").write_bytes(archive([evil(0)]))
        swap = f'test "$1" = --version || test ! -e {path} || cat {self.folder}/bad >{path}'
        said, _ = self.east.exchange(environment=self.room.program(f'{swap}\nexec "$symarch" "$@"'))
        same("joined", said[0], f"added {words_of(image(50))} west")
        same("archive", self.east.has(), archive([image(0), image(1), image(50)]))
