"""`find`, `symbolicate` and `name` of symarch-keep, also during a fold: their output is that of the program for the
joined archive."""
import os
import pathlib
import re
import shutil
from typing import List, Sequence

from .support.cases import Without, is_done, same
from .support.made_images import EMPTY, archive, image, slice_words
from .support.program import TOP, Ended, call, symarch
from .support.rooms import Gate, RoomCase, bytes_of, change, today_of

CRASH = TOP / "examples" / "crash"
UUID = "4c4c4419-5555-3144-a1d2-4341c97782f0"
LOADED = ["--load", "0x104d38000"]
ADDRESSES = ["0x104d38410", "0x104d383f8"]
COPY_BODY = "0x0000000104d38410 _copy_body + 12 (__TEXT,__text)"
OF_ANOTHER = f"symarch-keep: {UUID} is in the archive under arm64, and not under arm64e\n".encode()


class AskCase(RoomCase):
    """A site whose dSYM came in after the last fold."""

    seconds = 4

    def setUp(self) -> None:
        super().setUp()
        self.room.add(CRASH / "spool-1", CRASH / "spool-2", CRASH / "spool-2.dSYM")
        self.room.add(CRASH / "spool-1.dSYM")
        self.words: List[List[str]] = [
            ["find", UUID],
            ["symbolicate", *LOADED, UUID, "arm64", *ADDRESSES],
            ["symbolicate", UUID, "arm64e", "0"],
            ["name", "_copy_body"],
            ["name", "_nowhere"],
            ["symbolicate", *LOADED, "--lines", UUID, "arm64", *ADDRESSES],
        ]

    def placed(self, words: Sequence[str], path: pathlib.Path) -> List[str]:
        """Words with an archive, which stands before those that are no options."""
        at = 3 if words[1] == "--load" else 1
        return [*words[:at], str(path), *words[at:]]

    def asked(self, words: Sequence[str]) -> Ended:
        with self.room.start(*self.placed(words, self.room.archive)) as process:
            out, errors = process.communicate()
        return Ended(process.returncode, out, errors)

    def wanted(self, words: Sequence[str]) -> Ended:
        """What the program prints of the archive that both have together."""
        joined = self.folder / "joined.sym"
        joined.write_bytes(bytes_of(self.room.archive))
        return self.printed(words, joined)

    def printed(self, words: Sequence[str], path: pathlib.Path) -> Ended:
        """What the program prints of an archive, and that a UUID is there under another architecture."""
        came = call([symarch, *self.placed(words, path)])
        return came._replace(errors=OF_ANOTHER) if "arm64e" in words else came


class Asks(AskCase):
    """What came in lately is seen, and what is printed is that of the program."""

    def test_before_and_after_a_fold(self) -> None:
        self.assertNotEqual(today_of(self.room.archive).read_bytes(), EMPTY)
        for _ in range(2):
            for words in self.words:
                came = self.asked(words)
                same(f"{words}: {came.errors.decode()}", tuple(came), tuple(self.wanted(words)))
            same("a name of the dSYM", self.asked(self.words[1]).lines[0], COPY_BODY)
            self.room.call("fold", self.room.archive)

    def test_the_program_opens_its_words_alone(self) -> None:
        """It is the tool that knows what stands beside an archive."""
        if not is_done(["strace", "-o", os.devnull, "true"]):
            raise Without("strace is not there, or may not trace")
        trace = self.folder / "trace"
        words = self.placed(self.words[0], self.room.archive)
        call(["strace", "-f", "-qq", "-o", trace, "-e", "trace=open,openat,stat,newfstatat,access", symarch, *words])
        named = re.findall(rf'"({re.escape(str(self.folder))}[^"]*)"', trace.read_text())
        same("paths", sorted(set(named) - {str(trace)}), [str(self.room.archive)])

    def test_without_an_index(self) -> None:
        """An archive that no word of symarch-keep has seen is asked as it stands, and nothing is made."""
        text = bytes_of(self.room.archive)
        self.room.begin_anew(text)
        before = sorted(os.listdir(self.folder))
        for words in self.words:
            came = self.asked(words)
            same("made", sorted(os.listdir(self.folder)), before)
            same(f"{words}", tuple(came), tuple(self.printed(words, self.room.archive)))

    def test_while_a_fold_goes_on(self) -> None:
        """Nobody waits, and each answer is that of both."""
        wanted = [tuple(self.wanted(words)) for words in self.words]
        gate = Gate(self.room, "merge")
        with self.room.start("fold", self.room.archive, environment=gate.environment) as process:
            gate.wait(process)
            same("answers", [tuple(self.asked(words)) for words in self.words], wanted)
            gate.open()
            while process.poll() is None:
                same("answers", [tuple(self.asked(words)) for words in self.words], wanted)
            process.communicate()

    def test_addresses_of_standard_input(self) -> None:
        with open(self.folder / "addresses", "w+b") as file:
            file.write("\n".join(ADDRESSES).encode())
            file.seek(0)
            words = self.placed([*self.words[1][:5], "-"], self.room.archive)
            came = self.room.call(*words, stdin=file)
        same("lines", came[0], self.asked(self.words[1]).lines)

    def test_a_slice_with_too_many_lines(self) -> None:
        """Its names are printed, and that it has no lines is said."""
        body = 'case "$*" in *--lines*) echo "symarch: index 0: NoLines at entry 0" >&2; exit 2;; esac'
        lacking = self.room.program(f'{body}\nexec "$symarch" "$@"')
        uuid, arch, _, digest = call([symarch, "list", today_of(self.room.archive)]).lines[0].split(" ")
        out, errors = self.room.call(*self.placed(self.words[5], self.room.archive), environment=lacking)
        same("names", out, self.asked(self.words[1]).lines)
        told = f"{uuid} {arch} {digest} has too many lines for its table, so none are printed"
        same("errors", errors, [f"symarch-keep: {told}"])

    def test_words_of_another_form(self) -> None:
        for words, told in (
            (["find", "4c4c"], "UUID is `4c4c`: expected 32 hex digits, with or without hyphens"),
            (["symbolicate", UUID, "arm", "0"], "ARCH is `arm`: expected x86_64, x86_64h, arm64, arm64e or cpu:"),
            (["symbolicate", UUID, "arm64", "_main"], "ADDRESS is `_main`: expected 1 to 16 hex digits"),
            (["symbolicate", "--load", "x", UUID, "arm64", "0"], "HEX is `x`: expected 1 to 16 hex digits"),
        ):
            came = self.asked(words)
            self.assertTrue(came.errors.decode().startswith(f"symarch-keep: {told}"), came.errors)
            same("status, lines", (came.status, came.lines), (3, []))


class Unvouched(AskCase):
    """What an index does not vouch for is not printed."""

    def refused(self, words: Sequence[str], told: str) -> None:
        came = self.asked(words)
        same(f"{words}", (came.status, came.out, came.errors.decode()), (2, b"", f"symarch-keep: {told}\n"))

    def test_a_slice_that_changed(self) -> None:
        """Where slices are read, its UUID and ARCH get no name and no digest, and the other slices their lines; a table
        answers as before."""
        today, by_tables = today_of(self.room.archive), [self.asked(self.words[at]).lines for at in (1, 5)]
        rows = [it.split(" ") for it in call([symarch, "list", today]).lines]
        digest, other = ([row[3] for row in rows if row[1] == arch][0] for arch in ("arm64", "x86_64"))
        change(today, today.read_bytes().index(b"_copy_body") + 1)
        told = f"changed since it was added: run symarch-keep check {self.room.archive}"
        self.refused(self.words[0], f"{UUID} arm64 {digest} {told}")
        same("names and lines by tables", [self.asked(self.words[at]).lines for at in (1, 5)], by_tables)
        came = self.asked(["name", "_start"])
        same("status, errors", (came.status, came.error_lines), (2, [f"symarch-keep: {UUID} arm64 {told}"]))
        digests = [it.split(" ")[2] for it in came.lines]
        same("digests", (other in digests, len(digests)), (True, len(self.wanted(["name", "_start"]).lines) - 1))

    def test_an_archive_that_was_written_since(self) -> None:
        other = self.folder / "other.sym"
        other.write_bytes(archive([image(1)]))
        size = self.room.archive.stat().st_size
        shutil.copy(other, self.room.archive)
        told = f"has {other.stat().st_size} bytes, and had {size} when its index was written: run symarch-keep check"
        for words in self.words[:4]:
            self.refused(words, f"{self.room.archive} {told} {self.room.archive}")

    def test_a_damaged_index(self) -> None:
        index = pathlib.Path(f"{self.room.archive}.idx")
        change(index, index.stat().st_size - 60)
        told = f"{index} is not as symarch-keep wrote it: run symarch-keep check {self.room.archive}"
        for words in self.words[:4]:
            self.refused(words, told)

    def test_no_archive(self) -> None:
        for words in (["find", UUID], ["symbolicate", *slice_words(image(1))[:2], "0"], ["name", "_a"]):
            _, errors = self.room.call(*self.placed(words, self.folder / "none.sym"), status=2)
            told = f"{self.folder}/none.sym: No such file; symarch-keep add makes an archive"
            same("errors", errors, [f"symarch-keep: {told}"])
