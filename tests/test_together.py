"""Random archives of both versions, searched together: output and status are those of their `merge`. Slices,
companions, equal slices, retirements and conflicts come in any of the archives, which are of both versions."""
import itertools
import random
import struct
import uuid
from typing import Iterator, List, Sequence, Tuple

from .support.cases import ProgramCase, same
from .support.made_images import ARM64, WORDS, X86_64, archive, image, number_uuid, retirement
from .support.program import Ended

DSYM = 10
TEXT = 0x1000
NAMES = ("_a", "_b", "_main", "_none")
LC_SEGMENT_64, LC_SYMTAB, LC_UUID = 0x19, 2, 0x1B


def image_with(number: int, arch: Tuple[int, int], kind: int, symbols: Sequence[Tuple[int, str]]) -> bytes:
    """An image with a UUID of this number, a section __text, and these symbols: pairs of an offset and a name."""
    strings = b"\0" + b"".join(name.encode() + b"\0" for _, name in symbols)
    starts = itertools.accumulate((len(name) + 1 for _, name in symbols), initial=1)
    table = b"".join(
        struct.pack("<IBBHQ", start, 0x0F, 1, 0, TEXT + offset) for start, (offset, _) in zip(starts, symbols)
    )
    size = 32 + 24 + 72 + 80 + 24
    section = struct.pack("<16s16sQQ8I", b"__text", b"__TEXT", TEXT, 0x100, *[0] * 8)
    commands = (
        struct.pack("<II", LC_UUID, 24)
        + number_uuid(number)
        + struct.pack("<II16s4Q4I", LC_SEGMENT_64, 152, b"__TEXT", TEXT, 0x100, 0, 0, 5, 5, 1, 0)
        + section
        + struct.pack("<6I", LC_SYMTAB, 24, size, len(symbols), size + len(table), len(strings))
    )
    header = struct.pack("<8I", 0xFEEDFACF, *arch, kind, 3, len(commands), 0, 0)
    return header + commands + table + strings


def random_image(dice: random.Random) -> bytes:
    """One of few, so that archives share some, and keys have several."""
    choices: List[List[int]] = [[], [0], [0, 16], [8, 8, 32]]
    symbols = [(offset, dice.choice(NAMES[:3])) for offset in dice.choice(choices)]
    arch, kind = dice.choice((X86_64, X86_64, ARM64)), dice.choice((2, 2, 6, DSYM))
    return image_with(dice.randrange(4), arch, kind, symbols)


def key_of(number: int) -> str:
    return str(uuid.UUID(bytes=number_uuid(number)))


class TogetherCase(ProgramCase):
    """Cases over archives 0.sym, 1.sym and so on, of random slices and retirements, and merged.sym of them."""

    seconds = 4

    def make_archives(self, dice: random.Random, count: int) -> None:
        images = [random_image(dice) for _ in range(dice.randrange(1, 10))]
        for number in range(count):
            some = [one for one in images if dice.random() < 0.4]
            gone = [one for one in images if dice.random() < 0.15]
            old = dice.random() < 0.3
            kept = some if old else [one for one in some if one not in gone]
            self.file(f"{number}.sym", archive(kept, retired=gone, magic=b"MSYMARC1" if old else b"MSYMARC2"))

    def make_merged(self, count: int) -> None:
        self.file("empty.sym", archive([]))
        merged = self.folder / "merged.sym"
        if merged.exists():
            merged.unlink()
        words = ["merge", "empty.sym", "merged.sym", *(f"{number}.sym" for number in range(count))]
        self.assertEqual(self.call(*words).status, 0)

    @staticmethod
    def questions(dice: random.Random) -> Iterator[Tuple[str, List[str]]]:
        """Words of commands that take an archive after their name, and what stands after it."""
        for number in range(5):
            yield "find", [key_of(number)]
            load: List[str] = dice.choice([[], ["--load", "2000"]])
            base = 0x2000 if load else TEXT
            addresses = [f"{base + offset:x}" for offset in (0, 8, 20, 0x200)]
            yield "symbolicate", [key_of(number), dice.choice(list(WORDS.values())[:3]), *load, *addresses]
        for name in NAMES:
            yield "name", [name]

    def write_frames(self, dice: random.Random) -> None:
        """Frames of several images, absent ones among them."""
        keys = [(key_of(dice.randrange(5)), dice.choice(("x86_64", "arm64"))) for _ in range(dice.randrange(12))]
        self.file("frames", "".join(f"{key} {arch} - {TEXT + 8 * at:#x}\n" for at, (key, arch) in enumerate(keys)))

    def asked_alike(self, dice: random.Random, others: List[str]) -> None:
        """Each question to these archives together and to the merged one."""
        first, *further = others
        options = [word for path in further for word in ("--with", path)]
        for command, words in self.questions(dice):
            alone = self.call(command, "merged.sym", *words)
            same(f"{command} {words} of {others}", self.call(command, first, *words, *options), alone)
            same(f"{command} {options}", self.call(command, *options, first, *words), alone)
        self.write_frames(dice)
        alone = self.call("frames", "frames", "merged.sym")
        same(f"frames of {others}", self.call("frames", "frames", *others), alone)

    def random_archives(self, seed: int) -> int:
        """One to nine archives, in any order and with repeats; and how many rows the merged ones have."""
        dice, rows = random.Random(seed), 0
        for count in (1, 2, 2, 3, 3, 5, 9, 9):
            self.make_archives(dice, count)
            self.make_merged(count)
            others = [f"{number}.sym" for number in range(count)]
            self.asked_alike(dice, others)
            dice.shuffle(others)
            self.asked_alike(dice, [*others, dice.choice(others)])
            rows += len(self.call("list", "merged.sym").lines)
        return rows


class RandomArchives(TogetherCase):
    """They answer as their join, by two seeds; the next class has three more."""

    def test_by_two_seeds(self) -> None:
        self.assertGreater(sum(map(self.random_archives, (52, 53))), 40)


class RandomArchivesToo(TogetherCase):
    """They answer as their join, by three other seeds."""

    def test_by_three_seeds(self) -> None:
        self.assertGreater(sum(map(self.random_archives, (54, 55, 56))), 60)


class RetiredElsewhere(TogetherCase):
    """A slice that another archive retires is not told, whichever of the two comes first."""

    def test_in_both_orders(self) -> None:
        made = image(1)
        self.file("has.sym", archive([made]))
        self.file("retires.sym", b"MSYMARC2" + retirement(made) + b"\x03" + struct.pack(">Q", 1))
        for archives in (["has.sym", "retires.sym"], ["retires.sym", "has.sym"]):
            came: Ended = self.call("find", archives[0], key_of(1), "--with", archives[1])
            wanted = (0, ["x86_64", "retired"], b"")
            self.assertEqual((came.status, came.out.decode().split()[:2], came.errors), wanted)
