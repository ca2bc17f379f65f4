"""Companions with DWARF: packed from sections, and built of the sources of tests/fixtures/lines by clang and lld."""
import pathlib
import struct
import zlib
from typing import Dict, List, NamedTuple, Optional, Sequence, Tuple

from .llvm import output, tool, tool_from
from .made_images import ARM64, UUID_COMMAND, X86_64, number_uuid
from .program import TOP, Word

SOURCES = TOP / "tests" / "fixtures" / "lines"
DSYM, SYMTAB = 10, 2
# Flags of a section, the type of one with symbols, and the kind of a symbol, in ELF.
EXECUTED, SYMBOLS, FUNCTION = 4, 2, 2
LOWEST = 0x1_0000_0000
ARCHES = {"arm64": ARM64, "x86_64": X86_64}
C, CC = ("a.c", "b.c"), ("one.cc", "two.cc")
ALL = ("both.cc", *CC, "b.c")
# The first version of dsymutil that links DWARF 5 here; version 14 drops its lists of ranges.
LINKS_5 = 19
# What of the system the sources do without, and where they are said to stand.
PLAIN = ["-ffreestanding", "-nostdinc", "-fno-exceptions", "-fno-rtti", "-fno-stack-protector", "-w"]
PLACE = [f"-fdebug-prefix-map={SOURCES}=/src", "-fdebug-compilation-dir=/src"]
# An address and a size.
Code = Tuple[int, int]
# A name and an address.
Symbol = Tuple[bytes, int]
# A section of a segment: its name, address, size and offset.
Part = Tuple[bytes, int, int, int]


def segment(name: bytes, parts: Sequence[Part], offset: int = 0, size: int = 0) -> bytes:
    """A segment command, whose bytes have this offset and this size."""
    sections = b"".join(
        struct.pack("<16s16sQQI28x", section, name, address, length, at) for section, address, length, at in parts
    )
    first = min((address for _, address, _, _ in parts), default=0)
    last = max((address + length for _, address, length, _ in parts), default=0)
    front = struct.pack("<II16sQQQQIIII", 0x19, 72 + len(sections), name, first, last - first, offset, size, 7, 5,
                        len(parts), 0)
    return front + sections


def symbols_of(symbols: Sequence[Symbol], code: Sequence[Code]) -> Tuple[bytes, bytes]:
    """The entries of external symbols in sections of code, and their names."""
    entries, names = bytearray(), bytearray(1)
    for name, value in symbols:
        sections = (number for number, (first, size) in enumerate(code, 1) if first <= value < first + size)
        entries += struct.pack("<IBBHQ", len(names), 0x0F, next(sections, 0), 0, value)
        names += name + b"\0"
    return bytes(entries), bytes(names)


def companion(
    debug: Dict[str, bytes],
    code: Sequence[Code],
    arch: str = "x86_64",
    number: int = 0,
    symbols: Sequence[Symbol] = (),
) -> bytes:
    """A companion with these DWARF sections, by their names after `__debug_`, of an image with this code and these
    symbols."""
    text = segment(b"__TEXT", [(b"__text", address, size, 0) for address, size in code])
    entries, names = symbols_of(symbols, code)
    symtab = 24 if symbols else 0
    first = at = 32 + len(text) + 72 + 80 * len(debug) + 24 + symtab
    parts: List[Part] = []
    for name, content in debug.items():
        parts.append((b"__debug_" + name.encode(), 0x7_0000_0000 + at, len(content), at))
        at += len(content)
    commands = text + segment(b"__DWARF", parts, first, at - first)
    commands += struct.pack("<II", UUID_COMMAND, 24) + number_uuid(number)
    if symbols:
        commands += struct.pack("<6I", SYMTAB, 24, at, len(symbols), at + len(entries), len(names))
    count = 4 if symbols else 3
    head = struct.pack("<IIIIIIII", 0xFEEDFACF, *ARCHES[arch], DSYM, count, len(commands), 0, 0)
    return b"".join([head, commands, *debug.values(), *([entries, names] if symbols else [])])


# 1, a unit with low_pc and stmt_list; 2, a subprogram with ranges and name; 3, an inlined call with them. A program of
# lines up to its operations.
DECLARED = bytes.fromhex("01 1101 1101 1017 0000  02 2e01 5517 0308 0000  03 1d01 5517 0308 0000  00")
PROGRAM = bytes.fromhex("0400 19000000 010101fb0e0d 000101010100000001000001 00 6100 000000 00")


def with_length(body: bytes) -> bytes:
    return struct.pack("<I", len(body)) + body


def of_ranges(
    functions: Sequence[Tuple[int, Sequence[Code]]], size: int, number: int = 0, symbols: Sequence[Symbol] = ()
) -> bytes:
    """A companion of functions, each with its depth, from 1 on, and with where its ranges begin and end in code of this
    size. Those of depth 1 and some in others are subprograms, the others inlined calls. Each address has a line of its
    own."""
    low = struct.pack("<Q", LOWEST)
    entries, lists, before = b"", b"", 0
    for number, (depth, ranges) in enumerate(functions):
        kind = b"\x02" if depth == 1 or number % 7 == 0 else b"\x03"
        entries += bytes(before - depth + 1) + kind + struct.pack("<I", len(lists)) + b"f%d\0" % number
        lists += b"".join(struct.pack("<QQ", *it) for it in ranges) + bytes(16)
        before = depth
    rows = b"\0\x09\x02" + low + (b"\x01\x03\x01\x02\x01") * size + b"\0\x01\x01"
    debug = {
        "info": with_length(struct.pack("<HIB", 4, 0, 8) + b"\x01" + low + bytes(4) + entries + bytes(before + 1)),
        "abbrev": DECLARED,
        "aranges": with_length(struct.pack("<HIBB4xQQ16x", 2, 0, 8, 0, LOWEST, size)),
        "ranges": lists,
        "line": with_length(PROGRAM + rows),
    }
    return companion(debug, [(LOWEST, size)], "x86_64", number, symbols)


class Elf:
    """An ELF file of 64 bits: its code, its DWARF sections by the names that Mach-O cuts, and its functions."""

    def __init__(self, path: pathlib.Path) -> None:
        self.whole = path.read_bytes()
        table, size, count, names = struct.unpack_from("<Q10xHHH", self.whole, 40)
        headers = [struct.unpack_from("<IIQQQQI", self.whole, table + size * place) for place in range(count)]
        self.code: List[Code] = []
        self.debug: Dict[str, bytes] = {}
        self.functions: List[Symbol] = []
        for name, kind, flags, address, offset, length, link in headers:
            text = self.text(headers[names][4] + name)
            if flags & EXECUTED:
                self.code.append((address, length))
            if text.startswith(b".debug_"):
                self.debug[text[7:15].decode()] = self.whole[offset : offset + length]
            if kind == SYMBOLS:
                self.add_functions(offset, length, headers[link][4])

    def text(self, at: int) -> bytes:
        return self.whole[at : self.whole.index(b"\0", at)]

    def add_functions(self, offset: int, length: int, names: int) -> None:
        for at in range(offset, offset + length, 24):
            name, info, _, section, value = struct.unpack_from("<IBBHQ", self.whole, at)
            if info & 15 == FUNCTION and section:
                self.functions.append((b"_" + self.text(names + name), value))

    def companion(self, arch: str, number: int, with_symbols: bool = False) -> bytes:
        return companion(self.debug, self.code, arch, number, self.functions if with_symbols else ())


# ---- built ones


def dsymutil_of(version: int) -> Optional[str]:
    """The path of a dsymutil that links this version of DWARF, if there is one."""
    return tool("dsymutil") if version < 5 else tool_from("dsymutil", LINKS_5)


class Recipe(NamedTuple):
    """A companion that is built: its name, the linker of its image, the architecture, the version of DWARF, the
    sources, and what else clang is told."""

    name: str
    linker: str
    arch: str
    version: int
    sources: Sequence[str]
    flags: Sequence[str] = ()

    def compile(self, folder: pathlib.Path, target: str, *how: Word) -> List[pathlib.Path]:
        """What clang makes of each source."""
        made = []
        for source in self.sources:
            made.append(folder / f"{source}.o")
            words = ["-target", target, "-O2", "-g", f"-gdwarf-{self.version}", *PLAIN, *PLACE, *self.flags, *how]
            output(tool("clang"), *words, "-c", SOURCES / source, "-o", made[-1])
        return made

    def build(self, folder: pathlib.Path) -> pathlib.Path:
        """The companion, in a folder of its own."""
        inner = folder / self.name
        inner.mkdir()
        return self.by_ld64(inner) if self.linker == "ld64.lld" else self.by_ld(inner)

    def by_ld64(self, folder: pathlib.Path) -> pathlib.Path:
        """An image of Mach-O, of which dsymutil takes the DWARF of the objects together."""
        image, made = folder / "image", folder / "companion"
        objects = self.compile(folder, f"{self.arch}-apple-macos11")
        version = ["-platform_version", "macos", "11.0", "11.0"]
        output(tool("ld64.lld"), "-arch", self.arch, *version, "-e", "_start", "-o", image, *objects)
        output(dsymutil_of(self.version) or tool("dsymutil"), "-f", "-o", made, image)
        return made

    def by_ld(self, folder: pathlib.Path) -> pathlib.Path:
        """An ELF file, packed as a companion; with `llvm-link` its units are compiled together, so that entries of one
        name those of others."""
        image, made = folder / "image", folder / "companion"
        target = f"{self.arch.replace('arm64', 'aarch64')}-linux-gnu"
        if self.linker == "llvm-link":
            parts = self.compile(folder, target, "-Xclang", "-disable-llvm-passes", "-emit-llvm")
            output(tool("llvm-link"), *parts, "-o", folder / "whole.bc")
            objects = [folder / "whole.o"]
            output(tool("clang"), "-target", target, "-O2", "-c", folder / "whole.bc", "-o", objects[0])
        else:
            objects = self.compile(folder, target)
        output(tool("ld.lld"), f"--image-base={LOWEST:#x}", "-e", "start", "-o", image, *objects)
        made.write_bytes(Elf(image).companion(self.arch, zlib.crc32(self.name.encode())))
        return made


def recipe(linker: str, arch: str, version: int, kind: str, sources: Sequence[str], *flags: str) -> Recipe:
    return Recipe(f"{arch}-{version}-{kind}", linker, arch, version, sources, flags)


# Those that tests/fixtures/lines keeps. `plain` has no __debug_aranges, `blocks` has functions of many ranges.
KEPT = [
    recipe("ld64.lld", "arm64", 2, "dsymutil", C),
    recipe("ld64.lld", "x86_64", 4, "dsymutil", CC),
    recipe("ld.lld", "arm64", 5, "aranges", CC, "-gdwarf-aranges", "-ffunction-sections"),
    recipe("ld.lld", "x86_64", 3, "plain", C),
    recipe("ld.lld", "x86_64", 4, "blocks", CC, "-fbasic-block-sections=all"),
    recipe("ld.lld", "x86_64", 5, "blocks", CC, "-fbasic-block-sections=all"),
    recipe("llvm-link", "arm64", 5, "together", ALL),
]


def all_recipes() -> List[Recipe]:
    """What is built of each version and architecture; of version 5 by dsymutil where one links it."""
    found = []
    for arch in ARCHES:
        for version in (2, 3, 4, 5):
            if dsymutil_of(version):
                found += [recipe("ld64.lld", arch, version, kind, it) for kind, it in (("c", C), ("cc", CC))]
                found.append(recipe("ld64.lld", arch, version, "tables", CC, "-gline-tables-only"))
            found.append(recipe("ld.lld", arch, version, "plain", CC))
            found.append(recipe("ld.lld", arch, version, "least", C, "-O1", "-gdwarf-aranges"))
            found.append(recipe("llvm-link", arch, version, "together", ALL))
            if version > 3:
                found.append(recipe("ld.lld", arch, version, "types", CC, "-fdebug-types-section"))
            if arch == "x86_64":
                found.append(recipe("ld.lld", arch, version, "blocks", CC, "-fbasic-block-sections=all"))
    return found
