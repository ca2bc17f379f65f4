"""Source lines of DWARF that is made by hand, by the model and by the program, with an index and without: the lines are
those that the standard gives, and llvm-symbolizer of what it reads, but for the rules in which it differs."""
import struct
from typing import Dict, List

from .support.cases import same
from .support.kept_lines import frame_line
from .support.llvm import frames as frames_by_llvm
from .support.made_dsyms import LOWEST
from .support.made_units import WIDE, Function, Unit, of_units
from .support.other_rules import others
from .test_lines import LinesCase, lines_by_model

Wanted = Dict[int, List[str]]


class MadeCase(LinesCase):
    """Cases over companions that are made."""

    def compare(self, name: str, content: bytes, wanted: Wanted) -> None:
        """The frames of some addresses, from the lowest on."""
        asked = [LOWEST + it for it in wanted]
        same(f"{name}, by the model", [lines_by_model(content, it) for it in asked], list(wanted.values()))
        self.compare_program(name, content, asked, list(wanted.values()))


class Formats(MadeCase):
    """Units in the 64-bit format (DWARF 5, section 7.4)."""

    FIRST = Unit(LOWEST, 4, Function(b"first", LOWEST, 4).entry())
    SECOND = Unit(LOWEST + 4, 4, Function(b"second", LOWEST + 4, 4).entry(), is_wide=True)
    THIRD = Unit(LOWEST + 8, 4, Function(b"third", LOWEST + 8, 4).entry())
    IN_FIRST: Wanted = {0: ["    first at a:1:0"], 3: ["    first at a:4:0"]}
    AROUND: Wanted = {**IN_FIRST, 4: [], 8: ["    third at a:1:0"], 11: ["    third at a:4:0"]}

    def test_passed_over(self) -> None:
        for has_aranges in (False, True):
            content = of_units([self.FIRST, self.SECOND, self.THIRD], has_aranges)
            self.compare(f"aranges: {has_aranges}", content, self.AROUND)

    def test_only_such(self) -> None:
        self.compare("one", of_units([self.SECOND], False), {4: [], 8: []})

    def test_ends(self) -> None:
        """A reserved number, a length past the end, and the greatest length, end the units."""
        for number in (0xFFFFFFF0, 0xFFFFFFFE):
            front = struct.pack("<I", number) + bytes(8)
            self.compare(f"{number:#x}", of_units([self.FIRST], False, front), {0: [], 3: []})
        for length in (1 << 16, 1 << 63, (1 << 64) - 1, (1 << 64) - 12):
            front = WIDE + struct.pack("<Q", length)
            self.compare(f"length {length:#x}", of_units([self.FIRST], True, front), {0: [], 3: []})

    def test_without_bytes(self) -> None:
        """An empty unit in the 64-bit format is passed over, whatever its length looks like as a version."""
        for length in (0, 2, 5):
            front = WIDE + struct.pack("<Q", length) + bytes(length)
            content = of_units([self.FIRST], True, front)
            self.compare(f"length {length}", content, self.IN_FIRST)


class Nested(MadeCase):
    """Subprograms in others (DWARF 5, sections 3.3.1 and 3.3.8.2)."""

    CALLED = Function(b"called", LOWEST + 3, 1, line=9)

    def of(self, outer: Function) -> bytes:
        return of_units([Unit(LOWEST, 8, outer.entry())], False)

    def test_no_calls(self) -> None:
        inner = Function(b"inner", LOWEST + 2, 3, self.CALLED.entry())
        self.compare(
            "inner",
            self.of(Function(b"outer", LOWEST, 8, inner.entry())),
            {
                1: ["    outer at a:2:0"],
                2: ["    inner at a:3:0"],
                3: ["    called at a:4:0", "    inner at a:9:0"],
                4: ["    inner at a:5:0"],
                5: ["    outer at a:6:0"],
            },
        )

    def test_in_a_call(self) -> None:
        """A subprogram in an inlined call, and a call in that."""
        inner = Function(b"inner", LOWEST + 2, 3, self.CALLED.entry())
        call = Function(b"call", LOWEST + 1, 5, inner.entry(), line=7)
        self.compare(
            "in a call",
            self.of(Function(b"outer", LOWEST, 8, call.entry())),
            {
                0: ["    outer at a:1:0"],
                1: ["    call at a:2:0", "    outer at a:7:0"],
                2: ["    inner at a:3:0"],
                3: ["    called at a:4:0", "    inner at a:9:0"],
                5: ["    call at a:6:0", "    outer at a:7:0"],
            },
        )


class Others(MadeCase):
    """Rules in which llvm-symbolizer differs."""

    def test_here(self) -> None:
        for one in others():
            self.compare(one.rule, one.content, {one.address: one.here})

    def test_by_llvm(self) -> None:
        for one in others():
            found = frames_by_llvm(one.content, [LOWEST + one.address])
            same(one.rule, [frame_line(it) for it in found[0]], one.by_llvm)
