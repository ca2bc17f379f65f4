"""Which files at OUT are replaced, and which are left: links, modes, owners, mounts, devices. OUT is complete or as it
was, and no draft is left. Expected files are made from mach-o/loader.h and docs/FILES.md."""
import contextlib
import errno
import os
import stat
import subprocess
import tempfile
from pathlib import Path
from typing import List

from .support.cases import is_done, same
from .support.made_images import archive
from .support.outs import CANNOT_CREATE, CANNOT_REPLACE, COMMANDS, DAMAGED_FILES, INPUTS, KINDS, NOTHING
from .support.outs import OTHER_FILES, OTHER_USER, OUT, REPLACED, SLICES, VERSION_1, WITH_ANOTHER, OutCase, mounted
from .support.outs import need_root, replaced_by, state_of, stays_at
from .support.program import MOST_SECONDS, Word
from .support.second_lines import DAMAGED, FOREIGN, MACHO, OF_AN_INPUT, OTHER_SLICE, losing, path_in, said_by
from .support.second_lines import second_line


class WhatIsThere(OutCase):
    """What is at OUT before."""

    def test_absent(self) -> None:
        """If nothing is there OUT is made, with the rights that the user gives to new files."""
        self.before = lambda: os.umask(0o027)
        for name in COMMANDS:
            self.places(name)
            same(f"{name}: rights", oct(self.out.stat().st_mode), oct(stat.S_IFREG | 0o640))
            self.out.unlink()

    def test_own_files(self) -> None:
        """An empty file is replaced, and one of the kind that the command writes, also by the same command again."""
        for name in COMMANDS:
            for content in replaced_by(name):
                self.out.write_bytes(content)
                self.places(name)
            self.places(name)

    def test_other_kinds(self) -> None:
        """Another one of the program's own files stays, and a line says what it is; an operations file always."""
        archives = [*KINDS["an archive"], *WITH_ANOTHER, *DAMAGED_FILES]
        for name, (words, _) in COMMANDS.items():
            for kind, contents in {**KINDS, "an archive": archives}.items():
                for content in () if kind == REPLACED.get(name, "an archive") else contents:
                    self.out.write_bytes(content)
                    self.keeps(words, CANNOT_REPLACE, stays_at(name, f", there, and {kind}"))

    def test_other_files(self) -> None:
        """Each other file stays, also where it is one of several images."""
        for name, (words, _) in COMMANDS.items():
            for content in OTHER_FILES:
                self.out.write_bytes(content)
                self.keeps(words, CANNOT_REPLACE, stays_at(name))
        self.keeps(["admit", "one.sym", "one", "two"], CANNOT_REPLACE, FOREIGN, out="one")

    def test_slices(self) -> None:
        """A slice does not replace another one, nor a file with a byte more, one less, or another one."""
        for content in (SLICES[1] + b"\0", SLICES[1][:-1], SLICES[1][:-1] + b"\xff", SLICES[2]):
            self.out.write_bytes(content)
            self.keeps(COMMANDS["extract"][0], CANNOT_REPLACE, OTHER_SLICE)

    def test_archives_above(self) -> None:
        """An archive replaces those below it: the same one, one with less, one of which it retires a slice, and one of
        version 1 with a slice that is covered there."""
        both = archive(SLICES[1:3])
        for name, contents in {
            "merge": [archive(SLICES[1:2]), archive(SLICES[2:3]), both, VERSION_1 + both[8:]],
            "merge of two": [both, archive(SLICES[3:4])],
            "admit": [archive(SLICES[2:3])],
            "apply": [archive(SLICES[1:2])],
            "retire": [archive(SLICES[1:2]), archive([], retired=SLICES[1:2])],
            "migrate": [INPUTS["old.sym"], archive(SLICES[1:3]), archive([], retired=SLICES[2:3])],
        }.items():
            for content in contents:
                self.out.write_bytes(content)
                self.places(name)

    def test_archives_not_above(self) -> None:
        """An archive that has something which the new one neither has nor retires stays, and a line says how much."""
        for name, (words, _) in COMMANDS.items():
            for content in () if name in REPLACED else WITH_ANOTHER:
                self.out.write_bytes(content)
                self.keeps(words, CANNOT_REPLACE, losing(1))
        self.keeps(["merge", "one.sym", OUT, "three.sym"], CANNOT_REPLACE, losing(1), out="two.sym")
        self.keeps(["merge", "one.sym", OUT, "one.sym", "three.sym"], CANNOT_REPLACE, losing(1), out="two.sym")
        for content, words, lost in (
            (archive(SLICES), ["new", OUT], 4),
            (archive([], retired=SLICES[:1]), ["new", OUT], 1),
            (archive(SLICES[1:3]), COMMANDS["retire"][0], 1),
            (archive([], retired=SLICES[2:3]), COMMANDS["merge"][0], 1),
            (archive(SLICES), COMMANDS["merge"][0], 2),
            (archive(SLICES, retired=SLICES[2:3], magic=VERSION_1), COMMANDS["migrate"][0], 2),
        ):
            self.out.write_bytes(content)
            self.keeps(words, CANNOT_REPLACE, losing(lost))

    def test_damaged_archives(self) -> None:
        """What begins as an archive, and is none, stays."""
        for name, (words, _) in COMMANDS.items():
            for content in () if name in REPLACED else DAMAGED_FILES:
                self.out.write_bytes(content)
                self.keeps(words, CANNOT_REPLACE, DAMAGED)


class FaultyInputs(OutCase):
    """What stays at OUT if an input is refused, or is OUT."""

    def test_refused_inputs(self) -> None:
        """An input that is refused at its last byte, or is not there, leaves OUT as it was, whichever input it is."""
        for words, _ in COMMANDS.values():
            for at in [at for at, word in enumerate(words) if word in INPUTS]:
                whole = INPUTS[words[at]]
                faulty = [whole[:-1]]
                if words[at].endswith((".sym", ".sum")):
                    faulty.append(whole[:-1] + bytes([whole[-1] ^ 1]))
                for content in faulty:
                    self.put("input", content)
                    self.refused_input([*words[:at], "input", *words[at + 1 :]], "")
                (self.folder / "input").unlink()
                self.refused_input([*words[:at], "input", *words[at + 1 :]], said_by(errno.ENOENT))

    def refused_input(self, words: List[str], hint: str) -> None:
        for before in (None, replaced_by(words[0])[-1], OTHER_FILES[0]):
            self.out.unlink(missing_ok=True)
            if before:
                self.out.write_bytes(before)
            was = state_of(self.out)
            status, printed, told = self.run_program(words)
            line, _, second = told.partition("\n")
            # These write OUT as their first input comes, and `merge` with one FILE as both come.
            streamed = ("admit", "apply", "merge", "migrate", "retire", "delta", "index")
            is_first = words[0] in streamed and words[1] == "input"
            is_out = (is_first or words[0] == "merge" and len(words) == 4) and before == OTHER_FILES[0] and not hint
            same(f"{words}", (status, printed, line[:9], "output" in line), (2, b"", "symarch: ", is_out))
            more = FOREIGN if is_out else hint
            same(f"{words}: {line}", (path_in(words, line[9:]), second), (
                OUT if is_out else "input", second_line(words, line[9:], self.out, more)
            ))
            same(f"{words}: OUT and drafts", (state_of(self.out), self.drafts()), (was, []))

    def test_merge_order(self) -> None:
        """`merge` with one FILE reports a magic or what cannot be opened, OUT, what stops it, what would be lost."""
        self.put("cut.sym", INPUTS["two.sym"][:-1])
        self.out.write_bytes(OTHER_FILES[0])
        for words, line, hint in (
            (["merge", "one", OUT, "cut.sym"], "archive 0: BadMagic at 0", MACHO),
            (["merge", "one", OUT, "nowhere"], "archive 0: BadMagic at 0", MACHO),
            (["merge", "cut.sym", OUT, "nowhere"], "archive 1: cannot open", said_by(errno.ENOENT)),
            (["merge", "cut.sym", OUT, "one"], "archive 1: BadMagic at 0", MACHO),
            (["merge", "one.sym", OUT, "cut.sym"], CANNOT_REPLACE, FOREIGN),
            (["merge", "one.sym", OUT, "cut.sym", "cut.sym"], "archive 1: Truncated at 97", ""),
        ):
            self.keeps(words, line, hint)
        self.out.write_bytes(WITH_ANOTHER[0])
        self.keeps(["merge", "one.sym", OUT, "cut.sym"], "archive 1: Truncated at 97")

    def test_inputs_stay(self) -> None:
        """An input is no OUT, whatever path names it."""
        word = "invalid OUT 'one.sym': expected a path that is no input"
        for words in (["merge", "one.sym", OUT, "two.sym"], ["merge", "two.sym", OUT, "one.sym"]):
            self.keeps(words, word, out="one.sym", status=3)
        (self.folder / "link").symlink_to("one.sym")
        os.link(self.folder / "one.sym", self.folder / "hard")
        before = state_of(self.folder / "one.sym")
        for name in ("./one.sym", "link", "hard"):
            for words in (["merge", "one.sym", OUT, "two.sym"], ["merge", "two.sym", OUT, "two.sym", "one.sym"]):
                self.keeps(words, CANNOT_CREATE, OF_AN_INPUT, out=name)
        same("the input", state_of(self.folder / "one.sym"), before)


class WhereItIs(OutCase):
    """Paths of OUT: links, other names, and what can be no file."""

    def test_links(self) -> None:
        """A link stays, and what it leads to is replaced, by a draft beside that: the link's folder takes no file."""
        self.give_up_root()
        real = self.put("elsewhere/real.sym")
        (self.folder / "links").mkdir()
        (self.folder / "links/first").symlink_to("second")
        (self.folder / "links/second").symlink_to("../elsewhere/real.sym")
        (self.folder / "elsewhere").chmod(0o777)
        (self.folder / "links").chmod(0o555)
        for name in COMMANDS:
            self.put("elsewhere/real.sym", replaced_by(name)[-1], 0o666)
            self.places(name, out="links/first", at=real)
            left = [os.readlink(self.folder / "links" / link) for link in ("first", "second")]
            same(f"{name}: links", left, ["second", "../elsewhere/real.sym"])
        self.put("elsewhere/real.sym", OTHER_FILES[0], 0o666)
        before = state_of(real)
        self.keeps(COMMANDS["admit"][0], CANNOT_REPLACE, FOREIGN, out="links/first")
        same("a file that stays", state_of(real), before)

    def test_links_to_nothing(self) -> None:
        """A link that leads to nothing, or to itself, is refused, and nothing is made."""
        (self.folder / "nothing").symlink_to("nowhere")
        (self.folder / "loop").symlink_to("loop")
        for words, _ in COMMANDS.values():
            self.keeps(words, CANNOT_CREATE, said_by(errno.ENOENT), out="nothing")
            self.keeps(words, CANNOT_CREATE, said_by(errno.ELOOP), out="loop")
        same("whether it was made", os.path.lexists(self.folder / "nowhere"), False)

    def test_hard_links(self) -> None:
        """Other names of the file keep the old one."""
        other = self.folder / "other"
        for name in COMMANDS:
            before = replaced_by(name)[-1]
            self.out.write_bytes(before)
            os.link(self.out, other)
            self.places(name)
            same(f"{name}: other name", (other.read_bytes(), other.stat().st_nlink), (before, 1))
            other.unlink()

    def test_spellings(self) -> None:
        """OUT by a path without a folder and by others, and with the longest name that there is."""
        (self.folder / "folder").mkdir()
        for out in ("out.sym", "./out.sym", "folder/../out.sym", "folder//out.sym", "-", "a b\n", "n" * 255):
            for name in ("new", "merge"):
                self.places(name, out=out)
                (self.folder / out).unlink()

    def test_no_utf_8(self) -> None:
        """In a folder whose path is no text OUT is made, and replaced by the same command."""
        folder = self.folder / os.fsdecode(b"\xff")
        folder.mkdir()
        for _ in range(2):
            self.places("new", out="out.sym", at=folder / "out.sym", cwd=folder)

    def test_no_places(self) -> None:
        """What can be no file is refused."""
        (self.folder / "folder").mkdir()
        for words, _ in COMMANDS.values():
            self.keeps(words, CANNOT_CREATE, said_by(errno.EISDIR), out="folder")
            self.keeps(words, CANNOT_CREATE, said_by(errno.ENOENT), out="nowhere/out.sym")
            self.keeps(words, CANNOT_CREATE, said_by(errno.ENOTDIR), out="one/under")
            self.keeps(words, CANNOT_CREATE, said_by(errno.ENAMETOOLONG), out="n" * 256)
        same("left in the folder", os.listdir(self.folder / "folder"), [])


class Rights(OutCase):
    """The rights of OUT and of its folder."""

    def test_rights(self) -> None:
        """The new file has the mode of the old one, and its owner and group."""
        for mode in (0o600, 0o640, 0o664, 0o755):
            for name in COMMANDS:
                self.put("out.sym", replaced_by(name)[-1], mode)
                if os.getuid() == 0:
                    os.chown(self.out, OTHER_USER, OTHER_USER - 1)
                before = self.out.stat()
                self.places(name)
                after = self.out.stat()
                kept = [(it.st_uid, it.st_gid, oct(it.st_mode)) for it in (after, before)]
                same(f"{name}: owner, group and mode", *kept)
                same(f"{name}: whether it is a new file", after.st_ino != before.st_ino, True)
                self.out.unlink()

    def test_group(self) -> None:
        """Who may not give a file away keeps its group all the same."""
        need_root()
        self.give_up_root()

        def become_member() -> None:
            os.setgroups([OTHER_USER - 1])
            os.setgid(OTHER_USER)
            os.setuid(OTHER_USER)

        self.before = become_member
        self.put("out.sym", NOTHING, 0o660)
        os.chown(self.out, 0, OTHER_USER - 1)
        self.places("admit")
        after = self.out.stat()
        same("group and mode", (after.st_gid, oct(after.st_mode & 0o777)), (OTHER_USER - 1, oct(0o660)))

    def test_unwritable(self) -> None:
        """A file that may not be written stays, and so does one in a folder that takes no files."""
        self.give_up_root()
        for mode in (0o444, 0o222, 0o000):
            self.put("out.sym", NOTHING, mode)
            if os.getuid() == 0:
                os.chown(self.out, OTHER_USER, OTHER_USER)
            for words, _ in COMMANDS.values():
                self.keeps(words, CANNOT_CREATE, said_by(errno.EACCES))
        self.put("closed/out.sym", NOTHING, 0o666)
        (self.folder / "closed").chmod(0o555)
        for words, _ in COMMANDS.values():
            for out in ("closed/out.sym", "closed/none.sym"):
                self.keeps(words, CANNOT_CREATE, said_by(errno.EACCES), out=out)

    def test_not_renamed(self) -> None:
        """If the draft cannot be renamed it goes, and OUT is as it was: a file of root in a folder as /tmp is."""
        need_root()
        self.give_up_root()
        self.put("sticky/out.sym", NOTHING, 0o666)
        (self.folder / "sticky").chmod(0o1777)
        for words, _ in COMMANDS.values():
            self.keeps(words, CANNOT_REPLACE, said_by(errno.EPERM), out="sticky/out.sym")

    def test_mounted_at(self) -> None:
        """The same of a file at which another one is mounted."""
        self.out.write_bytes(NOTHING)
        with mounted(self.out, "--bind", self.put("other.sym", NOTHING)):
            for words, _ in COMMANDS.values():
                self.keeps(words, CANNOT_REPLACE, said_by(errno.EBUSY))


class NoRegularFile(OutCase):
    """What is no regular file is written to, and stays."""

    def test_devices(self) -> None:
        """Devices stay devices. As root only one of this case is tried, and not that of the system."""
        null = self.folder / "null"
        with contextlib.suppress(PermissionError):
            os.mknod(null, stat.S_IFCHR | 0o666, os.makedev(1, 3))
        self.put("said", b"")
        if os.path.exists(null) and is_done(["cp", self.folder / "said", null]):
            self.stay_devices(null)
        self.give_up_root()
        self.stay_devices(Path("/dev/null"))

    def stay_devices(self, path: Path) -> None:
        before = os.lstat(path).st_ino, os.lstat(path).st_rdev
        for name, (words, text) in COMMANDS.items():
            status, printed, told = self.run_program(words, out=path)
            same(f"{name}: {path}", (status, printed.endswith(b" %d bytes\n" % len(text)), told), (0, True, ""))
            same(f"{name}: {path}", (os.lstat(path).st_ino, os.lstat(path).st_rdev, self.drafts()), (*before, []))

    def test_pipes(self) -> None:
        """A pipe gets the text, and stays a pipe; of a `merge` with one FILE that is refused it may get first bytes."""
        pipe = self.folder / "pipe"
        os.mkfifo(pipe)
        before = pipe.stat().st_ino, pipe.stat().st_mode
        reading: List[Word] = ["timeout", str(MOST_SECONDS), "cat", pipe]
        for name, (words, text) in COMMANDS.items():
            with subprocess.Popen(reading, stdout=subprocess.PIPE) as reader:
                status, printed, told = self.run_program(words, out=pipe)
                same(name, (status, printed.endswith(b" %d bytes\n" % len(text)), told), (0, True, ""))
                same(f"{name}: text", reader.communicate()[0], text)
            same(f"{name}: pipe", (pipe.stat().st_ino, pipe.stat().st_mode, self.drafts()), (*before, []))
        self.put("cut.sym", INPUTS["two.sym"][:-1])
        with subprocess.Popen(reading, stdout=subprocess.PIPE) as reader:
            came = self.run_program(["merge", "one.sym", OUT, "cut.sym"], out=pipe)
            told = "symarch: archive 1: Truncated at 97\n  archive 1 is cut.sym\n"
            same("a merge that is refused", came, (2, b"", told))
            same("first bytes", COMMANDS["merge"][1].startswith(reader.communicate()[0]), True)

    def test_descriptors(self) -> None:
        """It is written to; if it is a regular file, that stays the one which is open."""
        for name, (words, text) in COMMANDS.items():
            status, printed, told = self.run_program(words, out="/dev/stdout")
            same(f"{name}: text and report", (status, printed[: len(text)], told), (0, text, ""))
            same(f"{name}: end of the report", printed.endswith(b" %d bytes\n" % len(text)), True)
            path = self.put("said", OTHER_FILES[2])
            before = path.stat().st_ino
            with open(path, "ab") as file:
                same(name, self.run_program(words, out="/dev/stdout", stdout=file)[0::2], (0, ""))
            same(f"{name}: /dev/stdout", (path.stat().st_ino, path.read_bytes()), (before, printed))
            with open(path, "r+b") as file:
                path_of_it = f"/proc/self/fd/{file.fileno()}"
                same(name, self.run_program(words, path_of_it, pass_fds=[file.fileno()])[0::2], (0, ""))
            same(f"{name}: /proc", (path.stat().st_ino, path.read_bytes(), self.drafts()), (before, text, []))

    def test_regular_files_by_devices(self) -> None:
        """A regular file stays what it is below /dev/shm, and by a path through /dev, as anywhere else."""
        with tempfile.TemporaryDirectory(dir="/dev/shm") as shared:
            there = str(self.put("there", OTHER_FILES[0]))[1:]
            for path in (Path(shared, "out"), Path("/dev/fd/..", *[".."] * 8, there)):
                path.write_bytes(SLICES[0])
                for name, (words, _) in COMMANDS.items():
                    self.keeps(words, CANNOT_REPLACE, stays_at(name), out=path)
