"""The symbols that `symarch symbolicate` names, compared with the list of llvm-nm: at the addresses of each slice of
examples/crash, and at sampled ones of images of 20,000 functions that clang and ld64.lld build, also with half of their
symbols disturbed. Takes some minutes; skipped without clang, lld and llvm."""
import bisect
import pathlib
import random
import re
import subprocess
from typing import Dict, Iterator, List, Optional, Tuple

from .support.cases import ProgramCase
from .support.crash import CRASH
from .support.llvm import output, tool

FUNCTIONS = 20_000
SAMPLES = 4_000
AT_ONCE = 200
SECTIONS = ("__TEXT,__text,regular,pure_instructions", "__TEXT,__hot,regular,pure_instructions", "__DATA,__data")
ODD_ENDS = ("", "", "", " of two", "[a\\b]", "é")
ODD_TYPES = (0x02, 0x03, 0x0E, 0x0F, 0x1E, 0x1F, 0x2E, 0x4F, 0x8E, 0xEF)
LOAD = 0x7FFF_1234_5000


def one_in(form: str, text: str) -> str:
    """What a form has in parentheses, in a text that has it."""
    found = re.search(form, text)
    assert found is not None, form
    return found[1]


class Slice:
    """What llvm says of a slice: its UUID, where __TEXT begins, its sections, and the candidates of each by value."""

    def __init__(self, path: pathlib.Path) -> None:
        self.uuid, self.text = "", 0
        self.sections: List[Tuple[int, int, str]] = []
        self.read_headers(output(tool("llvm-objdump"), "--macho", "--private-headers", path).decode())
        self.symbols: List[Dict[int, Tuple[int, bytes]]] = [{} for _ in self.sections]
        for line in output(tool("llvm-nm"), "-n", "-a", "-x", "--format=darwin", "--no-dyldinfo", path).splitlines():
            self.add(line)
        self.values = [sorted(symbols) for symbols in self.symbols]

    def read_headers(self, text: str) -> None:
        for name, segment, addr, size in re.findall(
            r"sectname (\S+)\n +segname (\S+)\n +addr (\S+)\n +size (\S+)", text
        ):
            self.sections.append((int(addr, 16), int(size, 16), f"({segment},{name})"))
        self.uuid = one_in(r"uuid (\S+)", text)
        self.text = int(one_in(r"segname __TEXT\n +vmaddr (\S+)", text), 16)

    def add(self, line: bytes) -> None:
        """Keeps the symbol of a line if it is a candidate and none at its value comes before it."""
        *fields, name = line.split(b" ", 5)
        value, kind, sect = (int(it, 16) for it in fields[:3])
        if kind & 0xE0 or kind & 0x0E != 0x0E or not name or not 1 <= sect <= len(self.sections):
            return
        start, size, _ = self.sections[sect - 1]
        if start <= value < start + size:
            here = self.symbols[sect - 1]
            here[value] = min(here.get(value, (2, b"")), (1 - (kind & 1), name))

    def answer(self, address: int) -> str:
        """The nearest symbol of an address, as symarch prints it."""
        found = []
        for (start, size, section), symbols, values in zip(self.sections, self.symbols, self.values):
            place = bisect.bisect_right(values, address)
            if start <= address < start + size and place > 0:
                value = values[place - 1]
                found.append((address - value, *symbols[value], section))
        if not found:
            return "-"
        offset, _, name, section = min(found)
        return f"{escaped(name)} + {offset} {section}"

    def addresses(self) -> List[int]:
        """Addresses beside the ends of sections and the symbols, and within sections: all, or a sample of many."""
        ends = [end for start, size, _ in self.sections for end in (start, start + size)]
        beside = {edge + step for edge in [*ends, *sum(self.values, [])] for step in (-1, 0, 1)}
        within = [address for start, size, _ in self.sections for address in range(start, start + size)]
        some = (random.sample(it, min(len(it), SAMPLES)) for it in (sorted(beside), within))
        return [address for it in some for address in it]


def escaped(name: bytes) -> str:
    return "".join(chr(b) if 0x20 <= b <= 0x7E and b != 0x5C else f"\\x{b:02x}" for b in name)


def assembly() -> Iterator[str]:
    """Functions of up to 40 bytes in three sections, of which some share their address, some have odd names, and some
    are no candidates: they stand at the end of a section, or in none."""
    yield ".space 16\n.globl _start\n_start:\n.set _absolute, 0x100001000\n.globl _absolute"
    names = list(range(FUNCTIONS))
    random.shuffle(names)
    for place, number in enumerate(names):
        if place % 50 == 0:
            yield f".section {random.choice(SECTIONS)}"
        name = f'"_f{number}{random.choice(ODD_ENDS)}"'
        yield f".globl {name}" if random.random() < 0.5 else ""
        yield f"{name}:\n.space {random.choice((0, 1, 4, 17, 40))}"
    for number, section in enumerate(SECTIONS):
        yield f".section {section}\n.space 8\n_end{number}:"


def disturb(image: pathlib.Path) -> pathlib.Path:
    """The image with other types and sections of some symbols: stabs, absolute ones, and many outside their section."""
    text = output(tool("llvm-objdump"), "--macho", "--private-headers", image).decode()
    symoff, nsyms = (int(one_in(rf" {name} (\d+)", text)) for name in ("symoff", "nsyms"))
    image_bytes = bytearray(image.read_bytes())
    for place in random.sample(range(nsyms), nsyms // 2):
        entry = symoff + 16 * place
        image_bytes[entry + 4 : entry + 6] = random.choice(ODD_TYPES), random.randint(1, len(SECTIONS))
    disturbed = image.with_suffix(image.suffix + ".disturbed")
    disturbed.write_bytes(image_bytes)
    return disturbed


class Symbols(ProgramCase):
    """Each answer of the program is that of the list."""

    is_side_by_side = True

    def setUp(self) -> None:
        super().setUp()
        random.seed(1)
        self.expect("new empty.sym", prints=None)

    def slices(self, path: pathlib.Path) -> Iterator[Tuple[str, Slice]]:
        """The architectures of a file, with what llvm says of their slices."""
        archs = output(tool("llvm-lipo"), path, "-archs").decode().split()
        for arch in archs:
            part = path
            if len(archs) > 1:
                part = self.folder / f"part.{arch}"
                subprocess.run([tool("llvm-lipo"), path, "-thin", arch, "-output", part], check=True)
            yield arch, Slice(part)

    def compare(self, arch: str, part: Slice, addresses: List[int], load: Optional[int]) -> None:
        """Fails where an answer differs for addresses of the file, or of the image loaded at `load`."""
        moved = 0 if load is None else load - part.text
        option = [] if load is None else ["--load", hex(load)]
        words = ["symbolicate", "archive.sym", part.uuid, arch, *option, *(hex(it + moved) for it in addresses)]
        answers = [part.answer(address) for address in addresses]
        lines = [f"0x{address + moved:016x} {answer}" for address, answer in zip(addresses, answers)]
        self.expect(words, prints=lines, status=int("-" in answers))

    def compare_file(self, path: pathlib.Path) -> None:
        """Compares each slice of a file, in half of the calls as loaded."""
        self.expect(["admit", "empty.sym", "archive.sym", path], prints=None)
        for arch, part in self.slices(path):
            addresses = part.addresses()
            self.assertGreater(len(addresses), 0, path)
            for place in range(0, len(addresses), AT_ONCE):
                load = LOAD if place // AT_ONCE % 2 else None
                self.compare(arch, part, addresses[place : place + AT_ONCE], load)
        (self.folder / "archive.sym").unlink()

    def build(self, arch: str) -> pathlib.Path:
        """An image of generated functions."""
        source, image = self.folder / "functions.s", self.folder / f"functions.{arch}"
        source.write_text("\n".join(assembly()) + "\n", encoding="utf-8")
        target, made = f"{arch}-apple-macos11", self.folder / "functions.o"
        output(tool("clang"), "-target", target, "-c", source, "-o", made)
        version = ["-platform_version", "macos", "11.0", "11.0"]
        output(tool("ld64.lld"), "-arch", arch, *version, "-e", "_start", "-o", image, made)
        return image

    def test_examples(self) -> None:
        for path in sorted(CRASH.glob("spool-*")):
            self.compare_file(path)

    def test_generated_x86_64(self) -> None:
        built = self.build("x86_64")
        self.compare_file(built)
        self.compare_file(disturb(built))

    def test_generated_arm64(self) -> None:
        built = self.build("arm64")
        self.compare_file(built)
        self.compare_file(disturb(built))
