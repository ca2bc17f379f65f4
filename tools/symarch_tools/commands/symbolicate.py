"""`symbolicate`: prints the symbols at addresses of an image."""
import argparse
import os
import sys
from dataclasses import dataclass, field
from typing import Dict, Iterable, Iterator, List, Optional

from ..console import demangler
from ..console.answer_lines import NO_SLICE, OF_FRAME, OF_SLICE, UNKNOWN, FrameSaid, SymbolSaid, count_in, frame_in
from ..console.answer_lines import symbol_in, two_words, unescaped
from ..console.escapes import line_shown
from ..console.faults import Failed
from ..console.json_lines import Members, line_of
from ..console.screen import Screen, screen_of
from ..formats.contents import arch_in
from ..store.asking import Asked, AskedCommand, NoLines, opened_archive
from .arguments import arch_of, define_archive, number_of, uuid_of

DESCRIPTION = """\
Prints a line for each ADDRESS in the image of UUID and ARCH: the address, and

  NAME + OFFSET (SEG,SECT)    the symbol nearest to it
  -     no symbol is nearest: it is in no section, or below the section's first symbol
  ?     no slice answers; standard error names other architectures of UUID
  !N    N slices answer, each with a line below

For example, of an image that was loaded at 0x104d38000, and by an offset of a report:

  symarch-keep symbolicate --load 0x104d38000 builds.sym 4c4c4419-5555-3144-a1d2-4341c97782f0 arm64 0x104d38410
  symarch-keep symbolicate --offset --demangle builds.sym 4c4c4419-5555-3144-a1d2-4341c97782f0 arm64 1040

Numbers are hexadecimal, unless an option changes that; without --load and --offset an ADDRESS is one of the file, as
`name` prints it. The ADDRESS - means those on standard input.
The status is 1 unless each address has one symbol."""
OPTIONS = "[--json] [--load HEX | --offset] [--decimal] [--lines] [--demangle]"
USAGE = f"symarch-keep symbolicate {OPTIONS} ARCHIVE UUID ARCH ADDRESS..."
ABOUT = "name the symbols at addresses"
KEYS = ("addresses", "named")


def define(parser: argparse.ArgumentParser) -> None:
    parser.add_argument("--load", metavar="HEX", help="where the image was loaded")
    offset = "each ADDRESS is an offset in the image, decimal unless it begins with 0x, as in reports"
    parser.add_argument("--offset", action="store_true", help=offset)
    decimal = "numbers are decimal unless they begin with 0x, as in MetricKit"
    parser.add_argument("--decimal", action="store_true", help=decimal)
    parser.add_argument("--lines", action="store_true", help="print source lines and inlined frames")
    readable = "print names as reports have them, without the underscore of C and demangled"
    parser.add_argument("--demangle", action="store_true", help=readable)
    define_archive(parser, "UUID", "ARCH")
    parser.add_argument("addresses", metavar="ADDRESS", nargs="+", help="- means those on standard input")


# ---- what the program prints


@dataclass
class SliceAnswer:
    """What a slice answers: its symbol, if it has one, and below that frames."""

    digest: Optional[str]
    symbol: Optional[SymbolSaid]
    frames: List[FrameSaid] = field(default_factory=list)

    def names(self) -> Iterator[str]:
        if self.symbol:
            yield symbol_name(self.symbol)
        yield from map(frame_name, self.frames)

    def said(self, readable: Dict[str, str]) -> str:
        if not self.symbol:
            return "-"
        name = readable[symbol_name(self.symbol)]
        return f"{line_shown(name)} + {self.symbol.offset} {self.symbol.section.decode()}"

    def frame_lines(self, readable: Dict[str, str]) -> Iterator[str]:
        for one in self.frames:
            name = line_shown(readable[frame_name(one)]).replace(" at ", r"\x20at ")
            yield f"{OF_FRAME.decode()}{name} at {one.path.decode()}:{one.line}:{one.column}"

    def members(self, readable: Dict[str, str]) -> Members:
        *inlined, own = self.frames or [FrameSaid(UNKNOWN, UNKNOWN, 0, 0)]
        segment, _, section = self.symbol.section[1:-1].decode().partition(",") if self.symbol else ("", "", "")
        return {
            "function": readable[symbol_name(self.symbol)] if self.symbol else None,
            "offset": self.symbol.offset if self.symbol else None,
            "segment": segment or None,
            "section": section or None,
            **source_members(own),
            "inlined": [{"function": known(readable[frame_name(it)]), **source_members(it)} for it in inlined],
        }


@dataclass
class AddressAnswer:
    """What is printed of an address: nothing if no slice answers, and else what each slice does."""

    address: str
    slices: List[SliceAnswer] = field(default_factory=list)
    count: Optional[int] = None

    def line(self, readable: Dict[str, str]) -> str:
        """Its lines, as one, with its object."""
        is_one = self.count is None and bool(self.slices)
        lines = [f"{self.address} {self.slices[0].said(readable) if is_one else '?'}"]
        if self.count is not None:
            lines = [f"{self.address} !{self.count}"]
        for one in self.slices:
            lines += [] if is_one else [f"{OF_SLICE.decode()}{one.digest} {one.said(readable)}"]
            lines += one.frame_lines(readable)
        own = self.slices[0] if is_one else SliceAnswer(None, None)
        several = [] if is_one else [{"digest": one.digest, **one.members(readable)} for one in self.slices]
        members = {"address": self.address, "held": bool(self.slices), **own.members(readable), "several": several}
        return line_of("\n".join(lines), "address", **members)


def answers_in(lines: Iterable[str]) -> List[AddressAnswer]:
    """What the lines of the program say."""
    found: List[AddressAnswer] = []
    for line in map(str.encode, lines):
        if line.startswith(OF_FRAME):
            found[-1].slices[-1].frames.append(frame_in(line))
        elif line.startswith(OF_SLICE):
            digest, said = two_words(line[len(OF_SLICE) :])
            found[-1].slices.append(SliceAnswer(digest.decode(), symbol_in(said)))
        else:
            address, said = two_words(line)
            found.append(AddressAnswer(address.decode(), [], count_in(said)))
            if said != NO_SLICE and found[-1].count is None:
                found[-1].slices.append(SliceAnswer(None, symbol_in(said)))
    return found


def symbol_name(symbol: SymbolSaid) -> str:
    return symbol.name.decode()


def frame_name(frame: FrameSaid) -> str:
    return unescaped(frame.name.decode())


def known(text: str) -> Optional[str]:
    return None if text == UNKNOWN.decode() else text


def source_members(frame: FrameSaid) -> Members:
    path = None if frame.path == UNKNOWN else unescaped(frame.path.decode())
    return {"file": path, "line": None if path is None else frame.line}


# ---- the whole


def readable_names(answers: Iterable[AddressAnswer], is_demangled: bool, screen: Screen) -> Dict[str, str]:
    """The names of answers as they are printed. Symbols alone have the underscore of C."""
    slices = [one for answer in answers for one in answer.slices]
    found = dict.fromkeys(name for one in slices for name in one.names())
    if not is_demangled:
        return {name: name for name in found}
    symbols = {symbol_name(one.symbol) for one in slices if one.symbol}
    plain = [demangler.without_underscores([name])[0] if name in symbols else name for name in found]
    demangler.say = screen.line
    made = demangler.demangled(plain, is_asked_for=True)
    if demangler.lacks_swift(made):
        screen.line(demangler.LEFT)
    return dict(zip(found, made))


def addresses_of(arguments: argparse.Namespace) -> List[str]:
    """The addresses that are named, and those of standard input in place of the argument -."""
    found: List[str] = []
    for one in arguments.addresses:
        found += os.fsdecode(sys.stdin.buffer.read()).split() if one == "-" and sys.stdin else [one]
    if not found:
        raise Failed("standard input has no ADDRESS", 3)
    is_decimal = arguments.decimal or arguments.offset
    return [number_of("ADDRESS", one, is_decimal) for one in found]


def options_of(arguments: argparse.Namespace) -> List[str]:
    """The options of the program. An offset is an address of an image that was loaded at 0."""
    if arguments.offset and arguments.load is not None:
        raise Failed("an --offset is the same wherever the image was loaded, so --load may not be used with it", 3)
    load = "0x0" if arguments.offset else arguments.load
    options = [] if load is None else [f"--load={number_of('HEX', load, arguments.decimal)}"]
    return options + ["--lines"] * arguments.lines


def carry_out(arguments: argparse.Namespace) -> int:
    key, options = [str(uuid_of(arguments.uuid)), arch_in(arch_of(arguments.arch))], options_of(arguments)
    command = AskedCommand("symbolicate", [*key, *addresses_of(arguments)], options)
    screen = screen_of(arguments)
    with opened_archive(os.fsencode(arguments.archive)) as asked:
        try:
            lines, status = asked.answer(command)
        except NoLines as fault:
            screen.line(f"{fault} has too many lines for its table, so none are printed")
            options.remove("--lines")
            lines, status = asked.answer(command)
        others = architectures(asked, key[0]) if any(line.endswith(" ?") for line in lines) else []
    if others and key[1] not in others:
        screen.line(f"{key[0]} is in the archive under {', '.join(others)}, and not under {key[1]}")
    if not arguments.demangle and not arguments.json:
        screen.show(lines)
        return screen.status(status)
    answers = answers_in(lines)
    readable = readable_names(answers, arguments.demangle, screen)
    screen.show(one.line(readable) for one in answers)
    named = sum(one.count is None and any(it.symbol for it in one.slices) for one in answers)
    return screen.end(status, dict(zip(KEYS, (len(answers), named))))


def architectures(asked: Asked, uuid: str) -> List[str]:
    """Those under which a slice of a UUID answers."""
    rows = [line.split(" ") for line in asked.answer(AskedCommand("find", [uuid]))[0]]
    return list(dict.fromkeys(arch for arch, kind, *_ in rows if kind in ("image", "dsym")))
