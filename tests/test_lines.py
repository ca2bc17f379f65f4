"""Source lines and inlined frames of DWARF 2 to 5, compared with LLVM's tools, by the model and by the program, with
and without an index: of the companions in tests/fixtures/lines, and of others that clang, lld and dsymutil build; these
are skipped without clang, lld and llvm. Companions with changed bytes, and the indexes of all, compared with the
model."""
import pathlib
import random
import re
import struct
import unittest
import uuid
from typing import Dict, List, Sequence, Tuple

from .model.contents import Source, archive_of
from .model.dwarf_frames import debug_of, frames_of
from .model.dwarf_lines import rows_of
from .model.dwarf_numbers import units_of
from .model.images import image_of
from .model.indexes import Placed, index_of
from .model.line_tables import NO_LINES, line_table_of
from .model.lines import answer_lines, frame_line
from .model.pages import claim_at, stored
from .model.tables import Table, table_of
from .support import kept_lines, llvm, made_dsyms
from .support.cases import ProgramCase, Without, same
from .support.made_images import EMPTY, WORDS, archive, index
from .support.program import TOP, call, symarch

AT_ONCE = 500
CHANGED, ASKED = 12, 25
LOAD = 0x7FFF_1234_5000
# What COMMANDS shows: the words, and what they print.
SHOWN = re.compile(r"^\$ symarch (symbolicate .* --lines .*)\n((?:.+\n)+?)```", re.M)


def rows_by_model(content: bytes) -> Dict[int, List[llvm.Row]]:
    """The rows of each program of a companion, by its offset."""
    section = debug_of(content).section("line")
    found: Dict[int, List[llvm.Row]] = {}
    for at, end in units_of(section).items():
        found[at] = [(it.address, it.file, it.line, it.column, it.is_end) for it in rows_of(section[at:end])]
    return found


def lines_by_model(content: bytes, address: int) -> List[str]:
    return [frame_line(it) for it in frames_of(content, address)]


def asked_of(said: kept_lines.Said) -> Tuple[List[int], List[List[str]]]:
    """All addresses of what was said, and the lines of each."""
    addresses = [it for first, last, _ in said.spans for it in range(first, last)]
    return addresses, [lines for first, last, lines in said.spans for _ in range(first, last)]


class Kept(unittest.TestCase):
    """The kept companions."""

    def test_rows(self) -> None:
        for one in kept_lines.kept():
            same(one.name, rows_by_model(one.content), one.said.rows)

    def test_frames(self) -> None:
        """At each byte of the code and beside it."""
        for one in kept_lines.kept():
            addresses, wanted = asked_of(one.said)
            self.assertGreater(len(addresses), 200, one.name)
            same(one.name, [lines_by_model(one.content, it) for it in addresses], wanted)

    def test_tables(self) -> None:
        """The same by their tables."""
        for one in kept_lines.kept():
            table = table_of(one.content)
            lines = Table(Placed(Source(stored(table))).take, claim_at(0, table)).lines()
            assert lines is not None
            addresses, wanted = asked_of(one.said)
            same(one.name, [[frame_line(it) for it in lines.frames(address)] for address in addresses], wanted)


def key_words(key: bytes) -> List[str]:
    """A UUID and an architecture."""
    return [str(uuid.UUID(bytes=key[:16])), WORDS[struct.unpack(">II", key[16:])]]


def changed(content: bytes) -> bytes:
    """A companion with other bytes at some places of its DWARF, and often at the first ones of a section."""
    made = bytearray(content)
    sections = [it for it in image_of(content).sections if it.segment == b"__DWARF" and it.size]
    for _ in range(random.randrange(1, 5)):
        section = random.choice(sections)
        size = min(section.size, random.choice((16, 64, section.size)))
        made[section.offset + random.randrange(size)] = random.choice((0, 1, 0x7F, 0x80, 0xFF, random.randrange(256)))
    return bytes(made)


class LinesCase(ProgramCase):
    """Cases over a program that has `--lines`."""

    def setUp(self) -> None:
        super().setUp()
        if b"--lines" not in call([symarch, "symbolicate", "--help"]).out:
            raise Without("the program has no --lines")
        self.file("empty.sym", EMPTY)

    def compare_program(self, name: str, content: bytes, addresses: Sequence[int], wanted: List[List[str]]) -> None:
        """What the program prints without an index and with the one that it makes, and the bytes of this."""
        key = " ".join(key_words(image_of(content).key))
        self.file("built.sym", archive([content]))
        self.file("built.frames", "".join(f"{key} - {address:#x}\n" for address in addresses))
        self.expect(["index", "built.sym", "built.idx"], prints=None)
        self.has_bytes("built.idx", index([content]))
        words = ["frames", "--lines", "built.frames", "built.sym"]
        same(name, kept_lines.frames_in(self.call(*words).lines), wanted)
        by_index = self.call(*words, "--index", "built.idx")
        same(f"{name}, by its index", kept_lines.frames_in(by_index.lines), wanted)


class Changed(LinesCase):
    """Companions whose DWARF has other bytes at some places: what the program prints is what the model says, with an
    index and without it."""

    is_side_by_side = True
    seconds = 10

    def compare(self, turn: int) -> None:
        random.seed(turn)
        for one in kept_lines.kept():
            images = [changed(one.content) for _ in range(CHANGED)]
            text = archive(images)
            self.file("changed.sym", text)
            key = image_of(one.content).key
            asked = random.sample(asked_of(one.said)[0], ASKED)
            answering = archive_of(text).answering(key)
            wanted = [line for it in asked for line in answer_lines(answering, it, None, True)[0]]
            words = ["symbolicate", "--lines", "changed.sym", *key_words(key), *map(hex, asked)]
            same(f"{one.name}, turn {turn}", self.call(*words).lines, wanted)
            self.expect(["index", "changed.sym", "changed.idx"], prints=None)
            self.has_bytes("changed.idx", index_of(text))
            came = self.call(*words, "--index", "changed.idx")
            if any(line_table_of(it) == NO_LINES for it in images):
                self.assertRegex(came.error_lines[0], r"\Asymarch: index 0: NoLines at entry [0-9]+\Z")
            else:
                same(f"{one.name}, turn {turn}, by its index", came.lines, wanted)

    def test_0_to_4(self) -> None:
        for turn in range(5):
            self.compare(turn)

    def test_5_to_9(self) -> None:
        for turn in range(5, 10):
            self.compare(turn)


class Overlapping(LinesCase):
    """Functions of many ranges in any order: some in others, some that begin where others end, some without an
    address."""

    SIZE = 60

    def functions(self) -> List[Tuple[int, List[Tuple[int, int]]]]:
        """Functions, each with its depth and its ranges."""
        found, depth = [], 0
        for _ in range(16):
            depth = random.randrange(1, depth + 2)
            count = random.choice((1, 2, 3, 8, 40))
            ends = [(random.randrange(1, self.SIZE), random.randrange(1, self.SIZE)) for _ in range(count)]
            found.append((depth, ends))
        return found

    def test_any_ranges(self) -> None:
        frames = 0
        for turn in range(12):
            random.seed(turn)
            content = made_dsyms.of_ranges(self.functions(), self.SIZE)
            addresses = range(made_dsyms.LOWEST - 1, made_dsyms.LOWEST + self.SIZE + 1)
            wanted = [lines_by_model(content, it) for it in addresses]
            frames += sum(map(len, wanted))
            self.compare_program(f"turn {turn}", content, addresses, wanted)
        self.assertGreater(frames, 600)


class Printed(LinesCase):
    """What `symarch` prints with `--lines`."""

    seconds = 20

    def key(self, one: kept_lines.Kept) -> List[str]:
        """Admits a companion as NAME.sym, and gives its UUID and architecture."""
        self.file(f"{one.name}.dsym", one.content)
        self.expect(["admit", "empty.sym", f"{one.name}.sym", f"{one.name}.dsym"], prints=None)
        return key_words(image_of(one.content).key)

    def answers(self, words: Sequence[str], addresses: Sequence[int], moved: int = 0) -> List[List[str]]:
        """The lines of frames of each address; the others have to be those without `--lines`."""
        found: List[List[str]] = []
        for place in range(0, len(addresses), AT_ONCE):
            asked = [*words, *(hex(it + moved) for it in addresses[place : place + AT_ONCE])]
            plain, came = self.call("symbolicate", *asked), self.call("symbolicate", "--lines", *asked)
            self.assertEqual((came.status, came.errors), (plain.status, plain.errors))
            self.assertEqual([it for it in came.lines if not it.startswith("    ")], plain.lines)
            found += kept_lines.frames_in(came.lines)
        return found

    def test_symbolicate(self) -> None:
        for one in kept_lines.kept():
            words = [f"{one.name}.sym", *self.key(one)]
            addresses, wanted = asked_of(one.said)
            same(one.name, self.answers(words, addresses), wanted)
            text = image_of(one.content).base
            assert text is not None
            loaded = self.answers([*words, "--load", hex(LOAD)], addresses, LOAD - text)
            same(f"{one.name}, loaded", loaded, wanted)

    def test_with_an_index(self) -> None:
        for one in kept_lines.kept():
            words = [f"{one.name}.sym", *self.key(one), "--index", f"{one.name}.idx"]
            self.file(f"{one.name}.idx", index([one.content]))
            addresses, wanted = asked_of(one.said)
            same(one.name, self.answers(words, addresses), wanted)

    def test_what_documents_show(self) -> None:
        """The lines of COMMANDS."""
        found = SHOWN.findall((TOP / "docs" / "COMMANDS.md").read_text(encoding="utf-8"))
        self.assertEqual(len(found), 1)
        for one in kept_lines.kept():
            self.key(one)
        self.expect(["merge", "empty.sym", "crash.sym", *(f"{it.name}.sym" for it in kept_lines.kept())], prints=None)
        for line, wanted in found:
            self.assertEqual(self.call(*line.split()).out.decode(), wanted)

    def test_frames(self) -> None:
        """Frames of all companions in turn, over their archives, and by their indexes."""
        asked: List[Tuple[str, List[str]]] = []
        archives = []
        for one in kept_lines.kept():
            key = " ".join(self.key(one))
            archives.append(f"{one.name}.sym")
            asked += [(f"{key} - {address:#x}\n", lines) for address, lines in zip(*asked_of(one.said))]
        asked.sort(key=lambda it: it[0][::-1])
        self.file("crash.frames", "".join(line for line, _ in asked))
        wanted = [lines for _, lines in asked]
        came = self.call("frames", "--lines", "crash.frames", *archives)
        same("frames", kept_lines.frames_in(came.lines), wanted)
        for one in kept_lines.kept():
            self.file(f"{one.name}.idx", index([one.content]))
        indexes = [word for one in kept_lines.kept() for word in ("--index", f"{one.name}.idx")]
        by_indexes = self.call("frames", "--lines", "crash.frames", *archives, *indexes)
        self.assertEqual((by_indexes.status, by_indexes.lines), (came.status, came.lines))


class Built(LinesCase):
    """Companions that are built here: at each byte of their code and beside it the model, the program without an index
    and with one, and LLVM say the same."""

    is_side_by_side = True
    seconds = 20

    def compare(self, path: pathlib.Path) -> None:
        content = path.read_bytes()
        said = kept_lines.said_by_llvm(path)
        same(str(path), rows_by_model(content), said.rows)
        addresses, wanted = asked_of(said)
        for address, lines in zip(addresses, wanted):
            same(f"{path} {address:#x}", lines_by_model(content, address), lines)
        self.assertGreater(sum(map(len, wanted)), 200, path)
        self.compare_program(str(path), content, addresses, wanted)

    def compare_all(self, arch: str, linker: str) -> None:
        for recipe in made_dsyms.all_recipes():
            if (recipe.arch, recipe.linker) == (arch, linker):
                self.compare(recipe.build(self.folder))

    def test_dsymutil_arm64(self) -> None:
        self.compare_all("arm64", "ld64.lld")

    def test_dsymutil_x86_64(self) -> None:
        self.compare_all("x86_64", "ld64.lld")

    def test_packed_arm64(self) -> None:
        self.compare_all("arm64", "ld.lld")

    def test_packed_x86_64(self) -> None:
        self.compare_all("x86_64", "ld.lld")

    def test_together_arm64(self) -> None:
        self.compare_all("arm64", "llvm-link")

    def test_together_x86_64(self) -> None:
        self.compare_all("x86_64", "llvm-link")
