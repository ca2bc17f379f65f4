"""Properties of OUT that no contract states: set-id bits, access lists and attributes, paths of descriptors, failing
syncs, other spellings of inputs, indexes that are replaced meanwhile, and the memory of a comparison."""
import errno
import functools
import os
import resource
import signal
import stat
import struct
from typing import Any, Callable, Dict, Iterator, List, Optional, Sequence, Tuple

from .support import traces
from .support.cases import Without, same
from .support.made_images import archive, image, index, slice_words
from .support.outs import CANNOT_CREATE, CANNOT_REPLACE, COMMANDS, INPUTS, NOTHING, OUT, RETIRED, OutCase, replaced_by
from .support.outs import state_of
from .support.program import MOST_SECONDS, Word
from .support.second_lines import OF_AN_INPUT, OTHER_SLICE, losing, said_by, second_line
from .support.waits import wait_until
from .test_indexes import with_symbols
from .test_inputs import LIMIT, MEGABYTE

# An access list in the form of the system: the owner, one user, the group, what all of these may at most, and others.
USER, NOBODY = 0xFFFFFFFF, 65534
ACCESS_LIST = struct.pack("<I", 2) + b"".join(
    struct.pack("<HHI", *it) for it in ((1, 6, USER), (2, 4, NOBODY), (4, 4, USER), (16, 4, USER), (32, 0, USER))
)
ATTRIBUTES = {"system.posix_acl_access": ACCESS_LIST, "user.note": b"mine"}
# How each command has its inputs, also those of options.
BY_OPTIONS = {
    "summary by an index": ["summary", "one.sym", OUT, "--index", "one.idx"],
    "extract of two": ["extract", "one.sym", *RETIRED[:2], OUT, "--with", "two.sym"],
    "extract by an index": ["extract", "one.sym", *RETIRED[:2], OUT, "--index", "one.idx"],
}
WORDS = {**{name: words for name, (words, _) in COMMANDS.items()}, **BY_OPTIONS}


class Rights(OutCase):
    """What the new file has of the old one beside its mode and its owner."""

    def test_set_id_bits(self) -> None:
        """They are dropped, and what else the mode says stays."""
        for name in COMMANDS:
            for mode in (0o4755, 0o2755, 0o6711, 0o1644):
                self.put("out.sym", replaced_by(name)[-1], mode)
                same(f"{name}: before", oct(stat.S_IMODE(self.out.stat().st_mode)), oct(mode))
                self.places(name)
                same(f"{name}: {oct(mode)}", oct(stat.S_IMODE(self.out.stat().st_mode)), oct(mode & 0o777))

    def test_access_lists_and_attributes(self) -> None:
        """The new file has none."""
        for name in COMMANDS:
            for attribute, value in ATTRIBUTES.items():
                self.put("out.sym", replaced_by(name)[-1])
                try:
                    os.setxattr(self.out, attribute, value)
                except OSError as error:
                    raise Without(f"the file system keeps no {attribute}") from error
                self.assertIn(attribute, os.listxattr(self.out))
                self.places(name)
                same(f"{name}: {attribute}", attribute in os.listxattr(self.out), False)


class Descriptors(OutCase):
    """OUT by each path of a descriptor is written to directly."""

    def test_standard_error(self) -> None:
        """Also where it is a regular file, which stays the one that is open."""
        for name, (words, text) in COMMANDS.items():
            said = self.put("said", NOTHING)
            before = said.stat().st_ino
            with open(said, "r+b") as file:
                same(name, self.run_program(words, out="/dev/stderr", stderr=file)[0], 0)
            same(f"{name}: /dev/stderr", (said.stat().st_ino, said.read_bytes(), self.drafts()), (before, text, []))

    def test_numbers(self) -> None:
        """Of this process, of any thread of it, and of another one."""
        for name, (words, text) in COMMANDS.items():
            for path in ("/dev/fd/{}", "/proc/self/fd/{}", "/proc/thread-self/fd/{}", f"/proc/{os.getpid()}/fd/{{}}"):
                said = self.put("said", b"what stood here before")
                before = said.stat().st_ino
                with open(said, "r+b") as file:
                    number = file.fileno()
                    same(name, self.run_program(words, path.format(number), pass_fds=[number])[0::2], (0, ""))
                same(f"{name}: {path}", (said.stat().st_ino, said.read_bytes(), self.drafts()), (before, text, []))

    def test_no_draft(self) -> None:
        """No draft is made, and nothing is renamed."""
        traces.need_strace()
        trace = self.folder / "trace"
        for name, (words, _) in COMMANDS.items():
            for path in ("/dev/stdout", "/dev/stderr", "/dev/fd/1", "/proc/self/fd/2"):
                self.run_program(words, path, under=traces.words(trace))
                steps = traces.steps(trace.read_text(), self.folder)
                same(f"{name}: {path}", [it for it in steps if "DRAFT" in it or "rename" in it], [])


class Syncs(OutCase):
    """What cannot be synced."""

    def failing(self, at: int, error: str) -> List[Word]:
        return ["strace", "-qq", "-o", "/dev/null", "-e", "trace=fsync", "-e", f"inject=fsync:error={error}:when={at}"]

    def test_folder(self) -> None:
        """If it is the folder, the file is in place, and nothing is said."""
        traces.need_strace()
        for name in COMMANDS:
            for error in ("EIO", "EINVAL"):
                self.places(name, under=self.failing(2, error))
                self.out.unlink()

    def test_unreadable_folder(self) -> None:
        """The same of a folder that takes files, and may not be opened."""
        self.give_up_root()
        out = self.put("closed/out.sym")
        out.parent.chmod(0o333)
        for name in COMMANDS:
            for content in (None, replaced_by(name)[-1]):
                out.unlink(missing_ok=True)
                if content is not None:
                    out.write_bytes(content)
                    out.chmod(0o666)
                self.places(name, out="closed/out.sym")

    def test_draft(self) -> None:
        """If it is the draft, OUT is as it was, and the draft is gone."""
        traces.need_strace()
        for name, (words, _) in COMMANDS.items():
            self.put("out.sym", replaced_by(name)[-1])
            self.keeps(words, CANNOT_REPLACE, said_by(errno.EIO), under=self.failing(1, "EIO"))


class Spellings(OutCase):
    """No command writes to a file that it reads, however either is spelled."""

    def asked(self) -> Iterator[Tuple[Sequence[str], str]]:
        """The words of each command, with each of its inputs."""
        for words in WORDS.values():
            for name in sorted({word for word in words if word in INPUTS}):
                yield words, name

    def stays(self, words: Sequence[str], name: str, out: str, **more: Any) -> None:
        """An input stays, where OUT is this path of it, and where the input has this path, and OUT is the input."""
        before = state_of(self.folder / name)
        for given, path in ((words, out), ([out if word == name else word for word in words], name)):
            told = f"symarch: {CANNOT_CREATE}\n{second_line(given, CANNOT_CREATE, path, OF_AN_INPUT)}"
            same(f"{given} to {path}", self.run_program(given, path, **more), (2, b"", told))
            same(f"{given}: input and drafts", (state_of(self.folder / name), self.drafts()), (before, []))

    def test_one_text(self) -> None:
        """A path that is the same text is refused before anything is opened."""
        for words, name in self.asked():
            self.keeps([*words], f"invalid OUT '{name}': expected a path that is no input", out=name, status=3)

    def test_other_spellings(self) -> None:
        """Another path, a symbolic link, one to such a link, and a hard link."""
        (self.folder / "folder").mkdir()
        for words, name in self.asked():
            (self.folder / "link").symlink_to(name)
            (self.folder / "folder/second").symlink_to("../link")
            os.link(self.folder / name, self.folder / "hard")
            for out in (f"./{name}", f"folder/../{name}", str(self.folder / name), "link", "folder/second", "hard"):
                self.stays(words, name, out)
            for left in ("link", "folder/second", "hard"):
                (self.folder / left).unlink()

    def test_descriptors(self) -> None:
        """A descriptor on which the input is open, of this process and of another one."""
        for words, name in self.asked():
            with open(self.folder / name, "r+b") as file:
                number = file.fileno()
                for folder in ("/dev/fd", "/proc/self/fd", f"/proc/{os.getpid()}/fd"):
                    self.stays(words, name, f"{folder}/{number}", pass_fds=[number])


class Indexes(OutCase):
    """Each index is read, and stays open until the command ends, as its archive does."""

    IMAGES = {"one": with_symbols(3, {b"_a": 0x1000, b"_b": 0x1040}), "two": with_symbols(4, {b"_c": 0x1000})}
    # Other symbols of the same keys, with which each file is as long as before.
    OTHERS = {"one": with_symbols(3, {b"_x": 0x1000, b"_y": 0x1040}), "two": with_symbols(4, {b"_z": 0x1000})}

    def setUp(self) -> None:
        super().setUp()
        self.bring(self.IMAGES)
        uuids = [slice_words(made)[0] for made in self.IMAGES.values()]
        self.put("asked.frames", "".join(f"{it} x86_64 - 1044\n" for it in uuids).encode())

    def bring(self, images: Dict[str, bytes]) -> None:
        """Puts archives of these images and their indexes in the place of those that are there, as new files."""
        for name, made in images.items():
            for path, content in ((f"{name}.sym", archive([made])), (f"{name}.idx", index([made]))):
                os.replace(self.put(f"{path}.new", content), self.folder / path)

    def commands(self) -> Iterator[List[str]]:
        """Each command by indexes. The last archive that it opens stands there with its whole path."""
        uuid, arch, _ = slice_words(self.IMAGES["one"])
        one, two = str(self.folder / "one.sym"), str(self.folder / "two.sym")
        more = ["--with", two, "--index", "one.idx", "--index", "two.idx"]
        yield ["list", one, "--index", "one.idx"]
        yield ["summary", one, OUT, "--index", "one.idx"]
        yield ["find", "one.sym", uuid, *more]
        yield ["symbolicate", "one.sym", uuid, arch, "1000", "1044", "--lines", *more]
        yield ["frames", "asked.frames", "--slices", "--index", "one.idx", "--index", "two.idx", "one.sym", two]
        yield ["extract", "one.sym", uuid, arch, OUT, *more]

    def test_replaced_meanwhile(self) -> None:
        """Once the last archive is open, others that take the place of the indexes and the archives change no answer,
        and neither does their removal."""
        traces.need_strace()
        for words in self.commands():
            wanted = self.ends(words)
            last = next(it for it in words if it.startswith(str(self.folder)))
            for change in (lambda: self.bring(self.OTHERS), self.remove):
                self.bring(self.IMAGES)
                same(f"{words}", self.ends(words, last, change), wanted)
            self.bring(self.OTHERS)
            same(f"{words}: whether it answers as before", self.ends(words) == wanted, False)
            self.bring(self.IMAGES)

    def remove(self) -> None:
        for path in ("one.sym", "one.idx", "two.sym", "two.idx"):
            (self.folder / path).unlink()

    def ends(self, words: List[str], opened: str = "", change: Optional[Callable[[], None]] = None) -> List[object]:
        """The end of a run, its streams, and what is at OUT then. If something is to change, the run is stopped when it
        has opened a file, and goes on after that."""
        self.out.unlink(missing_ok=True)
        trace = self.put("trace", b"")
        stop = ["-e", "trace=open,openat", "-e", "inject=open,openat:signal=SIGSTOP:when=1"]
        under: List[Word] = ["strace", "-D", "-qq", "-o", trace, "-P", opened, *stop] if change else []
        with self.start(words, under=under) as process:
            if change:
                wait_until(lambda: b"stopped by" in trace.read_bytes(), process)
                change()
                process.send_signal(signal.SIGCONT)
            printed, told = process.communicate(timeout=MOST_SECONDS)
        return [process.returncode, printed, told, self.out.read_bytes() if self.out.exists() else None]


class Memory(OutCase):
    """What is at OUT is compared with the draft in less memory than it has bytes."""

    seconds = 10

    def setUp(self) -> None:
        super().setUp()
        self.before = functools.partial(resource.setrlimit, resource.RLIMIT_AS, (LIMIT, LIMIT))

    def replaces(self, words: List[str], before: bytes, after: bytes) -> None:
        self.out.write_bytes(before)
        number = self.out.stat().st_ino
        same(f"{words}", self.run_program(words)[0::2], (0, ""))
        same(f"{words}: OUT", (self.out.read_bytes() == after, self.out.stat().st_ino != number), (True, True))

    def test_archives(self) -> None:
        """Of 64 MB, in slices of a megabyte: the same, one below it, and one that has another slice."""
        made = [image(number, more=bytes([number]) * MEGABYTE) for number in range(64)]
        whole = archive(made)
        self.put("all.sym", whole)
        self.put("empty.sym")
        words = ["merge", "all.sym", OUT, "empty.sym"]
        for slices in (made, made[1::2]):
            self.replaces(words, archive(slices), whole)
        self.out.write_bytes(archive([*made, image(64)]))
        self.keeps(words, CANNOT_REPLACE, losing(1))

    def test_a_slice(self) -> None:
        """Of 64 MB: the same, and one with another last byte."""
        made = image(1, more=bytes(2 * LIMIT))
        self.put("one.sym", archive([made]))
        self.put("one.idx", index([made]))
        words = ["extract", "one.sym", *slice_words(made)[:2], OUT, "--index", "one.idx"]
        self.replaces(words, made, made)
        self.out.write_bytes(made[:-1] + b"\1")
        self.keeps(words, CANNOT_REPLACE, OTHER_SLICE)
