"""The messages of symarch-keep: none with `--quiet` if nothing is wrong; which argument of a command line is wrong;
none about unread pipes."""
import os
import re
from typing import Any, List, Tuple

from .support.cases import same
from .support.made_images import archive, image, slice_words
from .support.program import TOP
from .support.rooms import RoomCase, change
from .support.sites import Site

OPERATING = TOP / "docs" / "OPERATING.md"


class Quiet(RoomCase):
    """Each word but those that ask takes `--quiet`."""

    seconds = 6

    def both(self, *words: Any, status: int = 0) -> Tuple[List[str], List[str]]:
        return self.room.call(words[0], "--quiet", *words[1:], status=status)

    def test_nothing_is_wrong(self) -> None:
        """Nothing is printed, and all is done."""
        archive_path = self.room.archive
        self.room.file("many/one", image(1))
        self.room.file("many/text", b"text")
        self.room.file("good.sym", archive([image(1), image(2)]))
        west = Site(self.room, "west")
        west.archive.write_bytes(archive([image(2)]))
        west.exchange()
        for words in (
            ("add", archive_path, "many", "many/text"),
            ("add", archive_path, "many"),
            ("exchange", archive_path, west.folder, "east"),
            ("retire", archive_path, *slice_words(image(1))),
            ("retire", archive_path, *slice_words(image(1))),
            ("fold", archive_path),
            ("status", archive_path),
            ("check", archive_path),
            ("repair", archive_path, "good.sym"),
        ):
            same(f"{words}", self.both(*words), ([], []))
        west.exchange()
        same("exchange", self.both("exchange", archive_path, west.folder, "east"), ([], []))
        self.room.folded(archive([image(2)], retired=[image(1)]))

    def test_something_is_wrong(self) -> None:
        """What is printed is that of the word without it."""
        self.room.file("one", image(1))
        self.room.file("bad", image(4)[:-1])
        self.room.file("none.sym", archive([]))
        said, errors = self.both("add", self.room.archive, "one", "bad", status=2)
        same("lines", (said[0][:6], len(errors), errors[-1][:22]), ("added ", 3, "symarch-keep: 1 added,"))
        change(self.room.archive, self.room.archive.stat().st_size - 20)
        for words in (("check", self.room.archive), ("repair", self.room.archive, "none.sym")):
            came = self.both(*words, status=2)
            same(f"{words}", came, self.room.call(*words, status=2))
            self.assertTrue(came[0] and came[1], came)
        self.room.archive.unlink()
        came = self.both("fold", self.room.archive, status=4)
        same("errors", came, self.room.call("fold", self.room.archive, status=4))
        same("number of errors", len(came[1]), 1)
        self.room.archive.write_bytes(archive([]))
        same("lost", len(self.both("add", self.room.archive, "bad", status=2)[1]), 3)
        came = self.both("status", self.room.archive, status=2)
        same("status", came, self.room.call("status", self.room.archive, status=2))

    def test_crontab(self) -> None:
        """What OPERATING lets cron call is quiet, and its mail is not sent elsewhere."""
        text = OPERATING.read_text(encoding="utf-8")
        lines = "".join(re.findall(r"^```crontab\n(.*?)^```", text, re.M | re.S)).splitlines()
        self.assertGreater(len(lines), 2)
        for one in lines:
            self.assertRegex(one, r"^\S+ \S+ \S+ \S+ \S+ symarch-keep [a-z]+ --quiet [a-z. ]+$")


class Words(RoomCase):
    """Words of another form end with 3, after the form of the word, and the one that is wrong is named."""

    seconds = 3

    def test_which_is_wrong(self) -> None:
        for words, usage, told in (
            (["remove", "a"], "[-h]", "`remove` is no command of symarch-keep: expected add, find, "),
            (["--no"], "[-h]", "`--no` is no option of `symarch-keep`; "),
            (["fold", "--no"], "fold", "`--no` is no option of `symarch-keep fold`; "),
            (["add", "--no", "a"], "add", "`--no` is no option of `symarch-keep add`; "),
            (["name", "a", "-[A b]"], "name", "`-[A b]` is no option of `symarch-keep name`; "),
            (["fold", "a", "b"], "fold", "`b` is one argument too many"),
            (["add"], "add", "the following arguments are required: ARCHIVE, PATH"),
            (["retire", "a", "b"], "retire", "the following arguments are required: ARCH, DIGEST"),
        ):
            _, errors = self.room.call(*words, status=3)
            same(f"{words}: lines", len(errors), 4 if usage == "retire" else 2)
            self.assertTrue(errors[0].startswith(f"usage: symarch-keep {usage}"), errors)
            self.assertTrue(errors[-1].startswith(f"symarch-keep: {told}"), errors)
        same("made", os.listdir(self.folder), [])

    def test_a_name_that_begins_with_a_hyphen(self) -> None:
        self.room.archive.write_bytes(archive([image(1)]))
        same("lines", self.room.call("name", self.room.archive, "--", "-[A b]", status=1), ([], []))


class Pipes(RoomCase):
    """Where nobody reads what is printed, nothing is said of that."""

    seconds = 3

    def unread(self, *words: Any) -> Tuple[int, str]:
        """The status of a word of which nobody reads what it prints, and its errors."""
        reader, writer = os.pipe()
        os.close(reader)
        with self.room.start(*words, stdout=writer) as process:
            os.close(writer)
            errors = process.communicate()[1].decode()
        return process.returncode, errors

    def test_unread(self) -> None:
        self.room.file("one", image(1))
        self.room.add("one")
        for words in (
            ("status", self.room.archive),
            ("find", self.room.archive, slice_words(image(1))[0]),
            ("--help",),
            ("add", "--help"),
        ):
            same(f"{words}", self.unread(*words), (2, ""))

    def test_full(self) -> None:
        for words in (("--help",), ("check", "--help")):
            with open("/dev/full", "wb") as full, self.room.start(*words, stdout=full) as process:
                errors = process.communicate()[1].decode()
            told = "symarch-keep: standard output: No space left on device\n"
            same(f"{words}", (process.returncode, errors), (2, told))
