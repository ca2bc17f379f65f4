"""`retire`, `status` and dry runs of symarch-keep; each command that writes on a full disk, and with a limit on the
size of files; and the command lines of docs/OPERATING.md. Expected archives are made by tests.support, from
docs/FILES.md."""
import hashlib
import os
import pathlib
import plistlib
import re
import resource
import shutil
import signal
import subprocess
from typing import List, NamedTuple, Tuple

from .support.cases import Without, digest_of, is_done, pieces_in, same
from .support.made_images import EMPTY, archive, image, line, slice_text, slice_words, slices_in
from .support.program import TOP, call, symarch
from .support.rooms import RoomCase, keep, today_of
from .support.sites import DATE, Site, bring_back, state_of

DSYM = 10
TOOLS = pathlib.Path(keep).parent


def words_of(made: bytes) -> str:
    return " ".join(slice_words(made))


class Retire(RoomCase):
    """A slice that is there is withdrawn, one that is not only by an option, and one that was is known."""

    seconds = 4

    def setUp(self) -> None:
        super().setUp()
        self.made = [image(number) for number in range(3)]
        self.room.archive.write_bytes(archive(self.made[:2]))

    def test_one_that_is_there(self) -> None:
        came = self.room.call("retire", self.room.archive, *slice_words(self.made[0]))
        same("lines", came, ([f"retired {words_of(self.made[0])}"], []))
        self.room.has(archive(self.made[1:2], retired=self.made[:1]))
        before = self.room.archive.stat().st_ino
        said, _ = self.room.call("retire", "--before-it-comes", self.room.archive, *slice_words(self.made[0]))
        same("lines", said, [f"known {words_of(self.made[0])}"])
        same("file", self.room.archive.stat().st_ino, before)

    def test_one_that_is_not(self) -> None:
        came = self.room.call("retire", self.room.archive, *slice_words(self.made[2]), status=1)
        absent = f"{self.room.archive} does not have this slice; --before-it-comes retires it all the same"
        same("refusal", came, ([], [f"symarch-keep: {absent}"]))
        self.room.call("retire", "--before-it-comes", self.room.archive, *slice_words(self.made[2]))
        self.room.has(archive(self.made[:2], retired=self.made[2:]))

    def test_forms_of_words(self) -> None:
        name, arch, digest = slice_words(self.made[1])
        hyphens, high = "32 hex digits, with or without hyphens", "cpu:01000007/80000003"
        named = "x86_64, x86_64h, arm64, arm64e or cpu:CCCCCCCC/00SSSSSS"
        for words, which in (
            ((name[1:], arch, digest), f"UUID is `{name[1:]}`: expected {hyphens}"),
            ((digest, arch, name), f"UUID is `{digest}`: expected {hyphens}"),
            ((name, "i386", digest), f"ARCH is `i386`: expected {named}"),
            ((name, high, digest), f"ARCH is `{high}`: expected {named}"),
            ((name, arch, digest[1:]), f"DIGEST is `{digest[1:]}`: expected 64 hex digits"),
            ((name, arch, f"{digest[:-2]} x"), f"DIGEST is `{digest[:-2]} x`: expected 64 hex digits"),
        ):
            _, errors = self.room.call("retire", self.room.archive, *words, status=3)
            same("errors", errors, [f"symarch-keep: {which}"])
        self.room.call("retire", self.room.archive, "{%s}" % name.upper(), "cpu:01000007/00000003", digest.upper())
        self.room.has(archive(self.made[:1], retired=self.made[1:2]))

    def test_no_archive(self) -> None:
        _, errors = self.room.call("retire", self.folder / "none.sym", *slice_words(self.made[1]), status=4)
        self.assertTrue(errors[0].startswith(f"symarch-keep: {self.folder}/none.sym: No such file"), errors)


class Status(RoomCase):
    """The numbers are those of `symarch list`; what a kill left is there."""

    seconds = 2

    def setUp(self) -> None:
        super().setUp()
        more = [image(7, kind=DSYM), image(7, more=b"a"), image(7, more=b"b"), image(8, more=b"a"), image(8, more=b"b")]
        self.made, self.retired = [image(number) for number in range(3)] + more, [image(20), image(21)]

    def test_the_numbers(self) -> None:
        made, retired = self.made, self.retired
        for text in (archive(made, retired=retired), archive(made + retired, retired=retired, magic=b"MSYMARC1")):
            self.room.archive.write_bytes(text)
            listed = call([symarch, "list", self.room.archive]).out.decode()
            counts = [listed.count(f" {word} ") for word in ("image", "dsym", "retired", "conflict")]
            same("numbers of `symarch list`", counts, [7, 1, 2, 1])
            said, errors = self.room.call("status", self.room.archive)
            words = ("images", "companions", "retirements", "conflicts", "bytes")
            lines = [f"{word} {count}" for word, count in zip(words, [*counts, len(text)])]
            same("lines", said, [*lines, f"conflict {' '.join(slice_words(image(8))[:2])} 2"])
            same("made", (errors, sorted(os.listdir(self.folder))), ([], ["site.sym"]))

    def test_what_a_kill_left(self) -> None:
        self.room.archive.write_bytes(archive(self.made))
        for name in ("lock", "making-killed/new", "idx.next"):
            self.room.file(f"site.sym.{name}", b"half")
        left = [f"left {self.room.archive}.{name}" for name in ("idx.next", "making-killed")]
        same("left", self.room.call("status", self.room.archive)[0][6:], left)

    def test_an_archive_that_was_cut(self) -> None:
        self.room.archive.write_bytes(archive(self.made)[:-1])
        _, errors = self.room.call("status", self.room.archive, status=4)
        told = "is cut short: restore it from a backup or another site"
        same("errors", errors, [f"symarch-keep: {self.room.archive} {told}"])


class DryRun(RoomCase):
    """A dry run prints what an add would, and writes nothing."""

    seconds = 2

    def state(self) -> List[Tuple[str, int, int]]:
        return sorted((it.name, it.stat().st_ino, it.stat().st_mtime_ns) for it in self.folder.iterdir())

    def test_before_and_after_an_add(self) -> None:
        self.room.archive.write_bytes(archive([image(1)], retired=[image(3)]))
        for number in (1, 2, 3):
            self.room.file(f"many/{number}", image(number))
        self.room.file("many/bad", image(4)[:-1])
        said, errors = self.room.add("many", status=2, words=["--dry-run"])
        words = ("known", "added", "retired")
        lines = [line(word, image(number), f"many/{number}") for number, word in enumerate(words, 1)]
        same("lines", said, lines)
        same("errors", errors, [
            "symarch-keep: many/bad: Slice(0, Image(CommandsOutside)): its commands promise 56 bytes, and there are 55",
            "symarch-keep: 1 added, 1 known, 1 retired, 1 refused, passed over 0; nothing was written",
        ])
        same("made", sorted(os.listdir(self.folder)), ["many", "site.sym"])
        self.room.has(archive([image(1)], retired=[image(3)]))
        same("lines of the add", self.room.add("many", status=2)[0], lines)
        log = pathlib.Path(f"{self.room.archive}.log").read_text().split("\n")[:-1]
        same("lines of the log", [re.sub(f"^{DATE} ", "", one) for one in log], lines)
        # By the indexes, which are there now.
        before = self.state()
        said, _ = self.room.add("many", status=2, words=["--dry-run"])
        same("lines of the second dry run", said, [one.replace("added", "known") for one in lines])
        same("files", self.state(), before)

    def test_without_an_archive(self) -> None:
        self.room.file("one", image(1))
        self.room.add("one", words=["--dry-run"])
        same("made", os.listdir(self.folder), ["one"])


class FullWord(NamedTuple):
    """A word on a full disk: its words, what ARCHIVE and ARCHIVE.today are before it and after each of its steps, how
    many lines of the log say what it did, and what both were when they were indexed, if not the first."""

    words: List[str]
    states: List[Tuple[bytes, bytes]]
    lines: int = 0
    known: Tuple[bytes, ...] = ()


class FullDiskCase(RoomCase):
    """On a full disk each word leaves both archives as they were, or as one of its steps leaves them, and does the rest
    where there is room. One page more is free each time, until it is done at once: so the disk is full at each step."""

    seconds = 20

    def setUp(self) -> None:
        super().setUp()
        self.disk = self.folder / "disk"
        self.disk.mkdir()
        self.made = self.room.make_many(4, folder=".", more=bytes(3000)) + self.room.make_many(50, first=4)
        self.room.file("good.sym", archive(self.made))
        if not is_done(["mount", "-t", "tmpfs", "-o", "size=256k", "none", self.disk]):
            raise Without("a disk cannot be mounted")
        self.addCleanup(lambda: subprocess.run(["umount", self.disk], check=True))
        self.room.archive = self.disk / "site.sym"
        self.files = self.room.archive, today_of(self.room.archive)
        # A site of the first three images. The fourth one stands in a file, and the others in a folder.
        self.old, self.more, self.joined = archive(self.made[:3]), archive(self.made[3:4]), archive(self.made[:4])

    def words(self, word: FullWord) -> List[object]:
        command, *more = word.words
        options = [it for it in more if it.startswith("--")]
        return [command, *options, self.room.archive, *(it for it in more if it not in options)]

    def begin(self, word: FullWord) -> Site:
        """The site before a word; another one has answered what it asked, and asks for the first image."""
        bring_back(self.disk, {})
        west = Site(self.room, "west", folder="disk/shared")
        for texts in (word.known or word.states[0], word.states[0]):
            for path, text in zip(self.files, texts):
                path.write_bytes(text)
            if texts != word.states[0] or not word.known:
                self.room.index()
        if word.words[0] == "exchange":
            self.room.call("exchange", self.room.archive, west.folder, "east")
            west.archive.write_bytes(archive(self.made[1:4]))
            west.exchange()
        return west

    def on_full_disk(self, word: FullWord, pages: int) -> int:
        """A word where so many pages are free, and again where there is room. Somebody reads both archives, so that no
        page of the old ones comes free. Returns the first status."""
        words = self.words(word)
        fill(self.disk / "full", pages)
        with open(self.files[0], "rb"), open(self.files[1], "rb"), self.room.start(*words) as process:
            said = process.communicate()[1].decode()
        status, came = process.returncode, tuple(path.read_bytes() for path in self.files)
        what = f"{words[0]} with {pages} pages: {said}"
        self.assertIn(status, (0, 2, 4), what)
        same(f"{what}: whether both are as a step leaves them", came in word.states, True)
        same(f"{what}: status", status == 4, "; the archive is as it was\n" in said)
        if status == 4:
            same(f"{what}: whether both are as they were", came == word.states[0], True)
            same(f"{what}: whether names were kept", os.path.exists(f"{self.room.archive}.builds"), False)
        (self.disk / "full").unlink()
        if status:
            self.room.call(*words)
        same(f"{what}: both after it", tuple(path.read_bytes() for path in self.files), word.states[-1])
        self.is_whole(word, what)
        return int(status)

    def is_whole(self, word: FullWord, what: str) -> None:
        """Nothing is left, the log has the lines of the word, and the files of the folder are whole."""
        same("left", [name for name in os.listdir(self.disk) if re.search(r"next|making|part", name)], [])
        log = pathlib.Path(f"{self.room.archive}.log")
        lines = log.read_text().splitlines() if log.exists() else []
        same(f"{what}: lines of other forms", [one for one in lines if not re.match(f"{DATE} [a-z]+ ", one)], [])
        lines = [one for one in lines if one.split(" ")[1] in ("added", "retired", "repaired")]
        same(f"{what}: lines of the log", len(lines), word.lines)
        parts = [path.name for path in (self.disk / "shared").iterdir() if digest_of(pieces_in(path)) not in path.name]
        same("files of the folder that are not whole", parts, [])

    def tried(self, word: FullWord) -> Site:
        """A word with more and more room."""
        west = self.begin(word)
        state = state_of(self.disk)
        for pages in range(100):
            bring_back(self.disk, state)
            if self.on_full_disk(word, pages) == 0:
                break
        same(f"whether {word.words[0]} met a full disk, and room", 0 < pages < 99, True)
        return west


class FullDiskOfAdd(FullDiskCase):
    """`add` of one file, and of a folder of which the lines take more than a page of the log."""

    def test_of_a_file(self) -> None:
        self.tried(FullWord(["add", "0003"], [(self.old, EMPTY), (self.old, self.more)], 1))

    def test_of_a_folder(self) -> None:
        states = [(self.joined, EMPTY), (self.joined, archive(self.made[4:]))]
        self.tried(FullWord(["add", "many"], states, len(self.made) - 4))


class FullDiskOfFold(FullDiskCase):
    """`fold`, and an `add` that folds, since what came in before is more than a tenth."""

    def test_by_an_add(self) -> None:
        every = archive(self.made)
        states = [(self.old, self.more), (every, self.more), (every, EMPTY)]
        self.tried(FullWord(["add", "many"], states, len(self.made) - 4))

    def test_fold(self) -> None:
        self.tried(FullWord(["fold"], [(self.old, self.more), (self.joined, self.more), (self.joined, EMPTY)]))


class FullDiskOfRepair(FullDiskCase):
    """`repair` of both archives, and a word that makes the index of an archive that came by another way."""

    def test_repair(self) -> None:
        bad, bad_more = (text[:-40] + b"x" + text[-39:] for text in (self.old, self.more))
        states = [(bad, bad_more), (self.old, bad_more), (self.old, self.more)]
        self.tried(FullWord(["repair", "good.sym"], states, 2, (self.old, self.more)))

    def test_an_index(self) -> None:
        self.tried(FullWord(["status", "--accept"], [(self.joined, EMPTY)], 0, (self.old, EMPTY)))


class FullDiskOfExchange(FullDiskCase):
    """`retire`, and `exchange`, which brings a slice and a question to another site."""

    def test_retire(self) -> None:
        states = [(self.old, EMPTY), (self.old, archive([], retired=self.made[:1]))]
        self.tried(FullWord(["retire", *slice_words(self.made[0])], states, 1))

    def test_exchange(self) -> None:
        west = self.tried(FullWord(["exchange", "disk/shared", "east"], [(self.old, EMPTY), (self.old, self.more)], 1))
        west.exchange()
        same("archive of west", west.has(), archive(self.made[:4]))


def fill(path: pathlib.Path, pages: int) -> None:
    """Fills a disk but for so many pages."""
    with open(path, "wb", buffering=0) as file:
        try:
            while True:
                file.write(bytes(4096))
        except OSError:
            file.truncate(max(file.tell() - 4096 * pages, 0))


def limit_files() -> None:
    resource.setrlimit(resource.RLIMIT_FSIZE, (10, 10))
    signal.signal(signal.SIGXFSZ, signal.SIG_IGN)


class Limited(RoomCase):
    """Where files may have no more bytes, the archive stays as it was."""

    def test_retire_and_exchange(self) -> None:
        made = [image(number, more=bytes(9000)) for number in range(3)]
        self.room.archive.write_bytes(archive(made))
        self.room.index()
        for words in (
            ["retire", self.room.archive, *slice_words(made[0])],
            ["exchange", self.folder / "new.sym", ".", "east"],
        ):
            self.room.call(*words, status=4, preexec_fn=limit_files)
            self.room.has(archive(made))
            same("left", self.room.left(), [])


class Operating(RoomCase):
    """The command lines of docs/OPERATING.md."""

    seconds = 10

    def setUp(self) -> None:
        super().setUp()
        crash = TOP / "examples" / "crash"
        for name in ("bin", "shared"):
            (self.folder / name).mkdir()
        (self.folder / "bin/symarch").symlink_to(symarch)
        for name in ("symarch-keep", "symbolicate-report"):
            (self.folder / "bin" / name).symlink_to(TOOLS / name)
        inside = self.folder / "dSYMs/spool.app.dSYM/Contents/Resources/DWARF"
        inside.mkdir(parents=True)
        shutil.copy(crash / "spool-1.dSYM", inside / "spool")
        stated = {"CFBundleIdentifier": "com.apple.xcode.dsym.com.example.spool"}
        (inside.parents[1] / "Info.plist").write_bytes(plistlib.dumps(stated))
        # The dSYM came in long ago.
        lines = []
        for made in slices_in((crash / "spool-1.dSYM").read_bytes()):
            text = f"2025-06-01 {slice_text(made)} com.example.spool ? ? spool"
            lines.append(f"{hashlib.sha256(text.encode()).hexdigest()[:16]} {text}\n")
        names = f"symarch-keep 1\n{''.join(sorted(lines, key=lambda it: it[17:]))}"
        names += f"sha256 {hashlib.sha256(names.encode()).hexdigest()}\n"
        self.room.file("builds.sym.builds", names.encode())
        shutil.copy(crash / "spool-2", self.folder / "dSYMs/spool-2")
        shutil.make_archive(str(self.folder / "dSYMs"), "zip", self.folder, "dSYMs")
        shutil.copy(crash / "arm64.ips", self.folder / "report.ips")
        self.room.file("crash.frames", b"4c4c4419-5555-3144-a1d2-4341c97782f0 arm64 0x104d38000 0x104d38410\n")
        self.west = Site(self.room, "west")
        self.west.add(*((crash / name).read_bytes() for name in ("spool-2.dSYM", "spool-1", "spool-1.dSYM")))
        self.west.exchange()
        self.text = (TOP / "docs" / "OPERATING.md").read_text(encoding="utf-8")

    def lines(self) -> List[str]:
        lines = []
        for kind, block in re.findall(r"^```(sh|crontab)\n(.*?)^```", self.text, re.M | re.S):
            # What cron does stands after its five fields.
            lines += [one if kind == "sh" else one.split(None, 5)[5] for one in block.splitlines()]
        return lines

    def carry_out(self, one: str) -> str:
        """Carries out a line, which ends well, and returns what it prints."""
        environment = {"SYMARCH": symarch, "PATH": f"{self.folder / 'bin'}:{os.environ['PATH']}"}
        came = call(["sh", "-c", one], cwd=self.folder, environment=environment)
        self.assertEqual(came.status, 0, f"{one}: {came.out.decode()}{came.errors.decode()}")
        return came.out.decode()

    def test_one_after_another(self) -> None:
        """Each ends with 0, and all words are there."""
        lines = self.lines()
        for one in lines:
            self.carry_out(one)
            self.west.exchange()
        called = {word for one in lines for word in re.findall(r"symarch-keep ([a-z]+)", one)}
        shown = "\n".join(self.room.call("--help")[0])
        found = re.search(r"^positional arguments:\n((?:  .*\n)+)", shown, re.M)
        self.assertTrue(found, shown)
        listed = re.findall(r"^    ([a-z]+)", found[1], re.M) if found else []
        same("words", sorted(called), sorted(listed))

    def test_each_example_names_what_it_retires(self) -> None:
        """No line retires what happens to stand there: what is retired are the slices of the file that it says."""
        retiring = [one for one in self.lines() if " retire " in one and " --app " not in one]
        for one in retiring:
            self.assertRegex(one, " [0-9a-f-]{36} [a-z0-9_]+ [0-9a-f]{64}$")
        self.carry_out("symarch-keep add builds.sym dSYMs")
        known = self.carry_out("symarch-keep add builds.sym dSYMs/spool-2").splitlines()
        added = [one.split(" ")[1:4] for one in known]
        for one in retiring:
            self.carry_out(one)
        listed = self.carry_out("symarch list builds.sym.today").splitlines()
        retired = [[one.split(" ")[0], *one.split(" ")[1:4:2]] for one in listed if " retired " in one]
        wanted = [*added, *(one.split(" ")[-3:] for one in retiring if "--before-it-comes" in one)]
        same("retired", sorted(retired), sorted(wanted))
        self.assertEqual(len(added), 2)

    def test_old_builds_of_an_app(self) -> None:
        """The lines retire the dSYM of the app, and nothing else."""
        self.carry_out("symarch-keep add builds.sym dSYMs")
        known = self.carry_out("symarch-keep add builds.sym dSYMs/spool.app.dSYM").splitlines()
        first, second = [one for one in self.lines() if " retire " in one and " --app " in one]
        told = self.carry_out(first)
        self.assertEqual(self.carry_out(second), told)
        wanted = sorted(one.split(" ")[1:4] for one in known)
        self.assertEqual(sorted(one.split(" ")[1:4] for one in told.splitlines()), wanted)
        listed = self.carry_out("symarch list builds.sym.today").splitlines()
        same("retired", sorted([it[0], *it[1:4:2]] for it in map(str.split, listed) if "retired" in it), wanted)

    def test_a_backup_before_a_first_exchange(self) -> None:
        found = re.search(r"^## Backup and restore\n.*?```sh\n(.*?)```.*?```sh\n(.*?)```", self.text, re.M | re.S)
        assert found
        self.carry_out("symarch-keep add builds.sym dSYMs")
        before = (self.folder / "builds.sym").read_bytes()
        for one in found[1].splitlines():
            self.carry_out(one)
        names = (self.folder / "builds.sym.builds").read_bytes()
        self.assertEqual((self.folder / "backup/builds.sym.builds").read_bytes(), names)
        (self.folder / "builds.sym").write_bytes(EMPTY)
        for one in found[2].splitlines()[:1]:
            self.carry_out(one)
        self.assertEqual((self.folder / "builds.sym").read_bytes(), before)
        self.carry_out("symarch-keep check builds.sym")
