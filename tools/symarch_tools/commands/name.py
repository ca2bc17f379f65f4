"""`name`: prints where an archive has a symbol."""
import argparse
import os
from typing import Iterator, List, Tuple

from ..console.escapes import line_shown
from ..console.json_lines import line_of
from ..console.screen import Screen, screen_of
from ..formats.contents import digest_in, words_of
from ..formats.indexes import HEAD
from ..formats.mach_images import MachImage, NamedSymbol, Section
from ..store.asking import Asked, AskedCommand, HeldSlice, opened_archive, slices_held
from .arguments import define_archive, name_of, part_of

DESCRIPTION = """\
Prints a line UUID ARCH DIGEST ADDR (SEG,SECT) for each symbol of exactly this NAME; or, with --part, the same line and
the name for each symbol that has NAME in it.

  symarch-keep name builds.sym _copy_body
  symarch-keep name builds.sym -- '-[Spool copyBody:]'
  symarch-keep name --part builds.sym copy

If no symbol has NAME, but one has _NAME, standard error reports that. All slices are read; one that changed since it
was added is named, and gets no line."""
USAGE = "symarch-keep name [--json] [--part] ARCHIVE NAME"
ABOUT = "find a symbol by its name"
KEYS = ("symbols",)
# The key and the digest of a slice, a symbol of it, and its section.
Found = Tuple[bytes, NamedSymbol, Section]


def define(parser: argparse.ArgumentParser) -> None:
    parser.add_argument("--part", action="store_true", help="NAME is a part of the name, as the symbol table has it")
    define_archive(parser)
    parser.add_argument("name", metavar="NAME", help="put -- before one that begins with -")


def carry_out(arguments: argparse.Namespace) -> int:
    # A last argument that is -- the module takes for none.
    given, screen = "--" if arguments.name == [] else arguments.name, screen_of(arguments)
    name = part_of(given) if arguments.part else name_of(given)
    notes: List[str] = []
    with opened_archive(os.fsencode(arguments.archive)) as asked:
        if arguments.part:
            lines = with_part(asked, os.fsencode(name), screen)
            status = 0 if lines else 1
        else:
            printed, status = asked.answer(AskedCommand("name", [name], is_by_index=False))
            lines = [symbol_line(line, name) for line in printed]
            notes = asked.notes
        lines = asked.vouched(lines, screen)
    for note in notes:
        screen.line(line_shown(note))
    screen.show(lines)
    return screen.end(status, {"symbols": len(lines)})


def symbol_line(text: str, name: str, more: str = "") -> str:
    """A line of the program, with its object, and what is printed after it."""
    uuid, arch, digest, address, where = text.split(" ", 4)
    segment, _, section = where[1:-1].partition(",")
    members = {"address": address, "segment": segment, "section": section}
    return line_of(f"{text}{more}", "symbol", uuid=uuid, arch=arch, digest=digest, name=name, **members)


# ---- names by a part


def with_part(asked: Asked, part: bytes, screen: Screen) -> List[str]:
    """The lines of the symbols that have a part in their names, in the order of those of whole names."""
    held = slices_held(asked, screen)
    screen.begin(f"looking through: {{}} of {len(held)} slices")
    found: List[Found] = []
    for number, one in enumerate(held, 1):
        screen.progress(number)
        found += found_in(one, part)
    return list(dict.fromkeys(map(line_of_found, sorted(found))))


def found_in(one: HeldSlice, part: bytes) -> Iterator[Found]:
    """What a slice has, under the digest of its bytes as they are."""
    at, length = one.row.at + HEAD, one.row.length - HEAD
    made = MachImage(one.opened, at, length)
    symbols = list(made.symbols_with(part))
    entry = one.row.key() + digest_in(one.opened, at, length) if symbols else b""
    return ((entry, symbol, made.sections[symbol.number - 1]) for symbol in symbols)


def line_of_found(found: Found) -> str:
    entry, symbol, section = found
    segment, its = (name.decode(errors="backslashreplace") for name in (section.segment, section.name))
    name = line_shown(symbol.name.decode(errors="surrogateescape"))
    text = line_shown(f"{words_of(entry)} 0x{symbol.value:016x} ({segment},{its})")
    return symbol_line(text, name, f" {name}")
