"""Images and universal files, told a second time by mach-o/loader.h, mach-o/nlist.h and mach-o/fat.h."""
import hashlib
import struct
from bisect import bisect_right
from functools import lru_cache
from typing import Dict, List, NamedTuple, Optional, Set, Tuple, Union

U32_MAX = 0xFFFFFFFF
MH_MAGIC_64, FAT_MAGIC, FAT_MAGIC_64 = b"\xcf\xfa\xed\xfe", b"\xca\xfe\xba\xbe", b"\xca\xfe\xba\xbf"
LC_SYMTAB, LC_SEGMENT_64, LC_UUID = 0x2, 0x19, 0x1B
MH_DSYM = 10
MOST_ARCHES = 32


@lru_cache(maxsize=400000)
def sha(b: bytes) -> bytes:
    return hashlib.sha256(b).digest()


def le(b: bytes, at: int, width: int) -> int:
    return int.from_bytes(b[at : at + width], "little")


class Section(NamedTuple):
    """A section: the names of its segment and of itself, its first address, its size, and where its bytes begin."""

    segment: bytes
    name: bytes
    addr: int
    size: int
    offset: int


class Candidate(NamedTuple):
    """A symbol that may answer: its value, whether it is external, its name, and the number of its section."""

    value: int
    external: bool
    name: bytes
    sect: int


# Of each section the values in their order, and the candidate of each; and the candidates of each name.
Tables = Tuple[Dict[int, Tuple[List[int], Dict[int, Candidate]]], Dict[bytes, Set[Candidate]]]


class Image:
    """An image: its key, whether it is a companion, the address of __TEXT, its sections, and LC_SYMTAB."""

    def __init__(
        self, b: bytes, uuid: bytes, base: Optional[int], sections: List[Section], symtab: Optional[Tuple[int, ...]]
    ) -> None:
        self.bytes, self.uuid, self.base, self.sections, self.symtab = b, uuid, base, sections, symtab
        self.key = uuid + struct.pack(">II", le(b, 4, 4), le(b, 8, 4) & 0xFFFFFF)
        self.is_dsym = le(b, 12, 4) == MH_DSYM
        self.made_tables: Optional[Tables] = None

    def strings(self) -> bytes:
        """The string table."""
        if not self.symtab:
            return b""
        _, _, stroff, strsize = self.symtab
        return self.bytes[stroff : stroff + strsize]

    def candidates(self) -> List[Candidate]:
        return [candidate for candidate, _ in self.placed_candidates()]

    def placed_candidates(self) -> List[Tuple[Candidate, int]]:
        """The entries that are candidates, each with the place of its name in the string table."""
        found: List[Tuple[Candidate, int]] = []
        if not self.symtab:
            return found
        symoff, nsyms, _, strsize = self.symtab
        strings = self.strings()
        for number in range(nsyms):
            at = symoff + 16 * number
            strx, typ, sect = le(self.bytes, at, 4), self.bytes[at + 4], self.bytes[at + 5]
            value = le(self.bytes, at + 8, 8)
            if typ & 0xE0 or typ & 0x0E != 0x0E or not 1 <= sect <= len(self.sections):
                continue
            section = self.sections[sect - 1]
            if not section.addr <= value < section.addr + section.size:
                continue
            if strx == 0 or strx >= strsize:
                continue
            end = strings.find(b"\0", strx)
            name = strings[strx:] if end < 0 else strings[strx:end]
            if name:
                found.append((Candidate(value, bool(typ & 1), name, sect), strx))
        return found

    def tables(self) -> Tables:
        if self.made_tables is None:
            by_sect: Dict[int, Dict[int, Tuple[Tuple[bool, bytes, int], Candidate]]] = {}
            names: Dict[bytes, Set[Candidate]] = {}
            for it in set(self.candidates()):
                best = by_sect.setdefault(it.sect, {})
                rank = (not it.external, it.name, it.sect)
                if it.value not in best or rank < best[it.value][0]:
                    best[it.value] = (rank, it)
                names.setdefault(it.name, set()).add(it)
            sorted_by = {
                sect: (sorted(best), {value: it for value, (_, it) in best.items()}) for sect, best in by_sect.items()
            }
            self.made_tables = sorted_by, names
        return self.made_tables

    def nearest(self, address: int) -> Optional[Candidate]:
        """The nearest candidate at or below an address, within its section."""
        found = []
        for sect, (values, candidates) in self.tables()[0].items():
            section = self.sections[sect - 1]
            if section.addr <= address < section.addr + section.size:
                place = bisect_right(values, address)
                if place:
                    it = candidates[values[place - 1]]
                    found.append((-it.value, not it.external, it.name, it.sect, it))
        return min(found)[-1] if found else None


@lru_cache(maxsize=200000)
def slice_of(b: bytes) -> Union[str, Image]:
    """The image that a slice is, or its fault."""
    if len(b) > U32_MAX:
        return "Image(TooLarge)"
    if b[:4] != MH_MAGIC_64:
        return "Image(NotMachO64)"
    if len(b) < 32:
        return "Image(HeaderTruncated)"
    ncmds, left = le(b, 16, 4), le(b, 20, 4)
    if 32 + left > len(b):
        return "Image(CommandsOutside)"
    at = 32
    uuid: Optional[bytes] = None
    symtab: Optional[Tuple[int, ...]] = None
    base: Optional[int] = None
    sections: List[Section] = []
    for number in range(ncmds):
        size = le(b, at + 4, 4) if left >= 8 else 0
        if left < 8 or size < 8 or size > left:
            return f"Image(BadCommand({number}))"
        command = le(b, at, 4)
        if command == LC_SEGMENT_64:
            if size < 72 or size < 72 + 80 * le(b, at + 64, 4):
                return f"Image(BadSegment({number}))"
            if text_in(b, at + 8) == b"__TEXT" and base is None:
                base = le(b, at + 24, 8)
            sections += [section_at(b, at + 72 + 80 * it) for it in range(le(b, at + 64, 4))]
        elif command == LC_UUID:
            if size < 24:
                return f"Image(BadUuid({number}))"
            if uuid is not None:
                return f"Image(SecondUuid({number}))"
            uuid = b[at + 8 : at + 24]
        elif command == LC_SYMTAB:
            if size < 24:
                return f"Image(BadSymtab({number}))"
            if symtab is not None:
                return f"Image(SecondSymtab({number}))"
            symtab = tuple(le(b, at + 8 + 4 * it, 4) for it in range(4))
        at, left = at + size, left - size
    if uuid is None:
        return "Image(NoUuid)"
    return fault_of_symtab(b, symtab) or Image(b, uuid, base, sections, symtab)


def text_in(b: bytes, at: int) -> bytes:
    """A name of 16 bytes, up to its first NUL."""
    return b[at : at + 16].split(b"\0")[0]


def section_at(b: bytes, at: int) -> Section:
    return Section(text_in(b, at + 16), text_in(b, at), le(b, at + 32, 8), le(b, at + 40, 8), le(b, at + 48, 4))


def fault_of_symtab(b: bytes, symtab: Optional[Tuple[int, ...]]) -> Optional[str]:
    if symtab:
        symoff, nsyms, stroff, strsize = symtab
        if nsyms > 0 and symoff + 16 * nsyms > len(b):
            return "Symbols(SymbolsOutside)"
        if strsize > 0 and stroff + strsize > len(b):
            return "Symbols(StringsOutside)"
    return None


def image_of(b: bytes) -> Image:
    """The image that a slice is, which has no fault."""
    found = slice_of(b)
    assert isinstance(found, Image), found
    return found


# ---- universal files


class Refused(Exception):
    """A fault of a call, as it is told."""

    def __init__(self, text: str) -> None:
        super().__init__(text)
        self.text = text


def fat_kind(b: bytes) -> str:
    return {FAT_MAGIC: "Universal", FAT_MAGIC_64: "Universal64", MH_MAGIC_64: "Thin"}.get(b[:4], "Other")


def fat_slices(b: bytes) -> List[bytes]:
    """The parts of a universal file."""
    if fat_kind(b) not in ("Universal", "Universal64"):
        raise Refused("NotUniversal")
    if len(b) < 8:
        raise Refused("HeaderTruncated")
    count = int.from_bytes(b[4:8], "big")
    if count > MOST_ARCHES:
        raise Refused(f"TooManyArches({count})")
    step, width = (32, 8) if fat_kind(b) == "Universal64" else (20, 4)
    if len(b) < 8 + step * count:
        raise Refused("TableTruncated")
    spans = []
    for number in range(count):
        at = 16 + step * number
        offset, size = b[at : at + width], b[at + width : at + 2 * width]
        spans.append((int.from_bytes(offset, "big"), int.from_bytes(size, "big")))
    for number, (start, length) in enumerate(spans):
        if start + length > len(b):
            raise Refused(f"SliceOutside({number})")
    for number, (_, length) in enumerate(spans):
        if length > U32_MAX:
            raise Refused(f"TooLarge({number})")
    return [b[start : start + length] for start, length in spans]


@lru_cache(maxsize=20000)
def parts_of_file(b: bytes) -> Union[str, Tuple[Optional[bytes], ...]]:
    """The parts of a FILE, each as the bytes of a slice, or None where it is skipped; or the fault."""
    kind = fat_kind(b)
    if kind == "Other":
        return "Unrecognised"
    try:
        parts = [b] if kind == "Thin" else fat_slices(b)
    except Refused as refused:
        return f"Fat({refused.text})"
    rows: List[Optional[bytes]] = []
    for number, part in enumerate(parts):
        if part[:4] != MH_MAGIC_64:
            rows.append(None)
            continue
        fault = slice_of(part)
        if isinstance(fault, str):
            return f"Slice({number}, {fault})"
        rows.append(part)
    return tuple(rows) if any(it is not None for it in rows) else "NothingToAdmit"
