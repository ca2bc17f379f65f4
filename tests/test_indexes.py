"""Each command with an index that is a pipe, cannot be read, was cut, or has a changed byte."""
import contextlib
import errno
import os
import struct
import subprocess
from typing import Any, Dict, Iterator, List, NamedTuple, Optional, Sequence, Tuple

from .model.commands import Limits, run_plan
from .model.contents import Source
from .model.indexes import claim_in, entries_in
from .model.plans import Plan
from .support.cases import powerless_over, same
from .support.made_images import archive, image, index, number_uuid, slice_words
from .support.second_lines import said_by
from .test_inputs import LIMIT, MEGABYTE, InputsCase

ONE, TWO = image(1), image(2)
UUID, ARCH, DIGEST = slice_words(ONE)
NO_SYMBOL = "0x0000000000000000 -"


class Command(NamedTuple):
    """A command that takes an index: its words, its status, and the line that it prints."""

    words: List[str]
    status: int
    prints: str

    def and_more(self, *words: str) -> "Command":
        return self._replace(words=[*self.words, *words])


def alone(path: str) -> List[Command]:
    """Each command that takes an index, with this one of the first archive."""
    return [
        Command(["find", "one.sym", UUID, "--index", path], 0, f"{ARCH} image {DIGEST}"),
        Command(["list", "one.sym", "--index", path], 0, f"{UUID} {ARCH} image {DIGEST}"),
        Command(["summary", "one.sym", "out.sym", "--index", path], 0, "summary: 1 entries, 74 bytes"),
        Command(["symbolicate", "one.sym", UUID, ARCH, "--index", path, "0"], 1, NO_SYMBOL),
        Command(["frames", "one.frames", "--index", path, "one.sym"], 1, NO_SYMBOL),
    ]


def together(path: str) -> List[Command]:
    """Those that take several, with this one of the second archive."""
    find, _, _, symbolicate, frames = alone("one.idx")
    return [
        find.and_more("--index", path, "--with", "two.sym"),
        symbolicate.and_more("--index", path, "--with", "two.sym"),
        frames.and_more("--index", path, "two.sym"),
    ]


class Indexes(InputsCase):
    """Two archives of an image without symbols each, with their indexes, and frames of the first."""

    def setUp(self) -> None:
        super().setUp()
        for name, made in (("one", ONE), ("two", TWO)):
            self.put(f"{name}.sym", archive([made]))
            self.put(f"{name}.idx", index([made]))
        self.put("one.frames", f"{UUID} {ARCH} - 0\n".encode())

    def refuses_index(self, path: str, fault: str, hint: str, **more: Any) -> None:
        """An index that is refused, in each place."""
        for number, commands in enumerate((alone(path), together(path))):
            for command in commands:
                self.refuses(f"index {number}: {fault}", *command.words, hint=hint, **more)

    @contextlib.contextmanager
    def pipe_of(self, content: bytes) -> Iterator[None]:
        """A pipe that gives some bytes, once."""
        self.put("given", content)
        os.mkfifo(self.folder / "pipe")
        with subprocess.Popen(["sh", "-c", "exec cat given >pipe"], cwd=self.folder) as feeding:
            yield
            feeding.kill()
        (self.folder / "pipe").unlink()

    def test_in_a_pipe(self) -> None:
        """An index is read from its end, so it may not come through a pipe."""
        for number, commands, made in ((0, alone("pipe"), ONE), (1, together("pipe"), TWO)):
            for command in commands:
                with self.pipe_of(index([made])):
                    self.refuses(f"index {number}: Device at 0", *command.words, hint=said_by(errno.ESPIPE))

    def test_in_a_file(self) -> None:
        """It may stand at any path, as that of a standard stream."""
        for commands, made in ((alone("/dev/stdin"), "one.idx"), (together("/dev/stdin"), "two.idx")):
            for command in commands:
                with open(self.folder / made, "rb") as given:
                    self.expect(command.words, prints=command.prints, status=command.status, stdin=given)

    def test_that_is_none(self) -> None:
        """An index that is not there, is a folder, or is closed."""
        (self.folder / "folder").mkdir()
        (self.folder / "loop").symlink_to("loop")
        for path, number in (
            ("nowhere", errno.ENOENT),
            ("one.idx/under", errno.ENOTDIR),
            ("loop", errno.ELOOP),
            ("/dev/fd/99", errno.ENOENT),
        ):
            self.refuses_index(path, "cannot open", said_by(number))
        self.refuses_index("folder", "Device at 0", said_by(errno.EISDIR))
        # The program has /dev/null in the place of a standard stream that is closed.
        self.refuses_index("/dev/stdin", "Truncated at 0", "", preexec_fn=lambda: os.close(0))

    def test_an_archive_that_is_a_folder(self) -> None:
        """A folder has a length too, and no byte of it can be read."""
        (self.folder / "folder").mkdir()
        for command in alone("one.idx"):
            words = [word for word in command.words if word not in ("--index", "one.idx")]
            words = ["folder" if word == "one.sym" else word for word in words] + ["--index", "one.idx"]
            self.refuses("archive 0: Device at 0", *words, hint=said_by(errno.EISDIR))

    def test_that_is_secret(self) -> None:
        """An index that may not be read."""
        for name in ("one.idx", "two.idx"):
            self.put(f"secret-{name}", (self.folder / name).read_bytes())
            (self.folder / f"secret-{name}").chmod(0)
        before = powerless_over(self.folder / "secret-two.idx")
        self.folder.chmod(0o755)
        self.refuses_index("secret-two.idx", "cannot open", said_by(errno.EACCES), before=before)

    def test_in_its_turn(self) -> None:
        """The first input that is refused is reported: FRAMES, the first index, its archive, the second index."""
        for told, words in (
            ("index 0", "list gone.sym --index gone"),
            ("index 0", f"find gone.sym {UUID} --index gone"),
            ("index 0", "summary gone.sym out.sym --index gone"),
            ("index 0", f"symbolicate gone.sym {UUID} {ARCH} --index gone 0"),
            ("frames", "frames gone --index nowhere gone.sym"),
            ("index 0", "frames one.frames --index gone gone.sym"),
            ("archive 0", f"find gone.sym {UUID} --with two.sym --index one.idx --index gone"),
            ("archive 0", "frames one.frames --index one.idx --index gone gone.sym two.sym"),
            ("index 1", f"find one.sym {UUID} --with gone.sym --index one.idx --index gone"),
            ("index 1", "frames one.frames --index one.idx --index gone one.sym gone.sym"),
            ("archive 1", "frames one.frames --index one.idx --index two.idx one.sym gone.sym"),
        ):
            self.refuses(f"{told}: cannot open", *words.split(" "))

    def test_one_too_few_or_too_many(self) -> None:
        """Nothing is read where an archive has no index beside some that have one, or an index no archive."""
        for told, words in (
            ("archive 1: NoIndex", f"find gone.sym {UUID} --with gone.sym --index gone"),
            ("archive 1: NoIndex", f"symbolicate gone.sym {UUID} {ARCH} --with gone.sym --index gone 0"),
            ("archive 2: NoIndex", "frames gone --index gone --index gone gone.sym gone.sym gone.sym"),
            ("archive 1: NoIndex", f"extract gone.sym {UUID} {ARCH} out.sym --with gone.sym --index gone"),
            ("index 1: NoArchive", f"find gone.sym {UUID} --index gone --index gone"),
            ("index 1: NoArchive", f"symbolicate gone.sym {UUID} {ARCH} --index gone --index gone 0"),
            ("index 1: NoArchive", "frames gone --index gone --index gone gone.sym"),
            ("index 1: NoArchive", f"extract gone.sym {UUID} {ARCH} out.sym --index gone --index gone"),
        ):
            self.refuses(told, *words.split(" "), hint="" if told.startswith("index") else None)


def with_entries(number: int, entries: Sequence[Tuple[int, int]], strings: bytes, kind: int = 2) -> bytes:
    """An image with a section of 65,536 bytes from 0x1000 on, and external symbols there, by the places of their names
    and their values."""
    section = struct.pack("<16s16sQQ32x", b"__text", b"__TEXT", 0x1000, 0x10000)
    text = struct.pack("<II16sQ32xII", 0x19, 152, b"__TEXT", 0x1000, 1, 0) + section
    uuid = struct.pack("<II", 0x1B, 24) + number_uuid(number)
    at = 32 + len(text) + len(uuid) + 24
    symbols = b"".join(struct.pack("<IBBHQ", place, 0x0F, 1, 0, value) for place, value in entries)
    table = struct.pack("<6I", 2, 24, at, len(entries), at + len(symbols), len(strings))
    header = struct.pack("<8I", 0xFEEDFACF, 0x01000007, 3, kind, 3, at - 32, 0, 0)
    return header + text + uuid + table + symbols + strings


def with_symbols(number: int, symbols: Dict[bytes, int], kind: int = 2) -> bytes:
    """Such an image with symbols of these names."""
    strings, entries = b"\0", []
    for name, value in symbols.items():
        entries.append((len(strings), value))
        strings += name + b"\0"
    return with_entries(number, entries, strings, kind)


class LargerThanMemory(InputsCase):
    """Archives that are larger than the memory which a command gets."""

    def test_index(self) -> None:
        """64 MB in slices of a megabyte."""
        images = [image(number, more=bytes([number]) * MEGABYTE) for number in range(64)]
        self.put("in.sym", archive(images))
        self.writes(index(images), "index", "in.sym", "out.sym", limit=LIMIT)

    def test_find(self) -> None:
        """Of several archives by their indexes it holds the slices of UUID, and no others."""
        made, other = image(1, more=bytes(MEGABYTE)), image(2, more=os.urandom(2 * LIMIT))
        words = ["find", "0.sym", UUID, "--with", "1.sym"]
        for number, images in enumerate(([made, other], [made, image(3)])):
            self.put(f"{number}.sym", archive(images))
            self.put(f"{number}.idx", index(images))
            words += ["--index", f"{number}.idx"]
        came = self.run_program(*words, limit=LIMIT)
        same("find", (came.status, came.lines, came.errors), (0, [f"{ARCH} image {slice_words(made)[2]}"], b""))


class OverlappingNames(InputsCase):
    """The index of an image in which the names of many symbols are one in the other."""

    def test_pairs(self) -> None:
        """Of two at one address the shorter name is the least; its table says so, and is made in a moment."""
        count = 4000
        pairs = [(place, 0x1000 + 8 * number) for number in range(count) for place in (number + 1, 2 * count - number)]
        made = with_entries(5, pairs, b"\0" + b"a" * 2 * count)
        self.put("a.sym", archive([made]))
        self.assertEqual(self.call("index", "a.sym", "a.idx").status, 0)
        uuid, arch, _ = slice_words(made)
        for number in (0, 1, count // 2, count - 1):
            name = "a" * (2 * count + 1 - max(number + 1, 2 * count - number))
            line = f"{0x1001 + 8 * number:#018x} {name} + 1 (__TEXT,__text)"
            ways: Tuple[List[str], ...] = ([], ["--index", "a.idx"])
            for more in ways:
                self.expect(["symbolicate", "a.sym", uuid, arch, f"{0x1001 + 8 * number:x}", *more], prints=[line])


class ChangedIndexes(InputsCase):
    """The index of an image, and of two companions of one key, of which bytes change."""

    IMAGES = (
        with_symbols(3, {b"_a": 0x1000, b"_b": 0x1040}),
        with_symbols(4, {b"_c": 0x1000}, kind=10),
        with_symbols(4, {b"_d": 0x1010, b"_dd": 0x1010}, kind=10),
    )
    FRAMES, LINES = "frames a.frames a.sym --index a.idx", "frames --lines a.frames a.sym --index a.idx"
    COMMANDS = (FRAMES, LINES, "list a.sym --index a.idx")

    def setUp(self) -> None:
        super().setUp()
        uuids = (slice_words(made)[0] for made in self.IMAGES[:2])
        frames = "".join(f"{uuid} x86_64 - 1000\n{uuid} x86_64 1000 1050\n" for uuid in uuids)
        self.texts = {"a.sym": archive(self.IMAGES), "a.idx": index(self.IMAGES), "a.frames": frames.encode()}
        for name, text in self.texts.items():
            self.put(name, text)

    def told(self, words: str) -> Tuple[int, List[str], List[str]]:
        """What the program tells: its status, what it prints, and the fault."""
        came = self.call(*words.split(" "))
        return came.status, came.lines, came.error_lines[:1]

    def modelled(self, words: str, texts: Dict[str, bytes]) -> Tuple[int, List[str], List[str]]:
        """The same by the model."""

        def open_source(path: str) -> Optional[Source]:
            return Source(texts[path])

        left = run_plan(Plan(words.split(" ")), open_source, Limits())
        if left.end.kind == "refused":
            return 2, [], [f"symarch: {left.end.text}"]
        return left.end.status, left.report.decode().splitlines(), []

    def commands_at(self, place: int, command: str) -> Sequence[str]:
        """This command at each place, and the others at some."""
        return self.COMMANDS if place % 32 == 0 else (command,)

    def tell_alike(self, words: str, **changed: bytes) -> Tuple[int, List[str], List[str]]:
        """What the program tells, which is what the model does, of files of which these changed."""
        texts = {**self.texts, **{name.replace("_", "."): text for name, text in changed.items()}}
        for name, text in texts.items():
            self.put(name, text)
        came = self.told(words)
        same(words, came, self.modelled(words, texts))
        return came

    def test_each_byte(self) -> None:
        """Of each byte: the answer of before, a table that is damaged, or a fault."""
        before = {words: self.told(words) for words in self.COMMANDS}
        good = self.texts["a.idx"]
        claims = [claim_in(entry) for entry in entries_in(good)]
        begin, end = len(good) - 57 - 122 * len(claims), len(good) - 57
        for at in range(len(good)):
            changed = good[:at] + bytes([good[at] ^ (1 + 254 * (at % 2))]) + good[at + 1 :]
            for words in self.commands_at(at, self.FRAMES):
                came = self.tell_alike(words, a_idx=changed)
                if came == before[words]:
                    self.assertTrue(8 <= at < begin, f"byte {at} is not compared")
                    continue
                entry = next((number for number, it in enumerate(claims) if it.offset <= at < it.end), None)
                faults = {f"Damaged at entry {entry}", "BadMagic at 0"}
                if at >= begin:
                    faults = {f"BadDigest at {end - 122 * it}" for it in range(4)}
                if at >= end:
                    faults |= {f"Truncated at {end}", f"BadCount at {end}", "Stale"}
                    faults |= {f"BadPlace at {begin + 122 * it}" for it in range(len(claims) + 1)}
                self.assertEqual(came[:2], (2, []))
                self.assertIn(came[2][0], {f"symarch: index 0: {it}" for it in faults})

    def test_cut(self) -> None:
        """Cut at each byte, and with a byte more, an index is none."""
        good = self.texts["a.idx"]
        for changed in (*(good[:count] for count in range(len(good))), good + b"\0", good + b"\3"):
            for words in self.commands_at(len(changed), self.FRAMES):
                self.assertEqual(self.tell_alike(words, a_idx=changed)[0], 2)

    def test_each_byte_of_the_archive(self) -> None:
        """Tables answer as before, also with lines: no slice is read."""
        before = {words: self.told(words) for words in self.COMMANDS}
        good = self.texts["a.sym"]
        for at in range(len(good)):
            changed = good[:at] + bytes([good[at] ^ 0xFF]) + good[at + 1 :]
            for words in self.commands_at(at, self.LINES):
                self.assertEqual(self.tell_alike(words, a_sym=changed), before[words])

    def test_of_another_archive(self) -> None:
        """An index of another archive of this length answers for that one."""
        others = [self.IMAGES[0], self.IMAGES[1], self.IMAGES[2].replace(b"_dd", b"_de")]
        for words in self.COMMANDS:
            self.tell_alike(words, a_idx=index(others))
