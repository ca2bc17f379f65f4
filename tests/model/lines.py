"""The lines that commands print, and the words that they take, told a second time by docs/COMMANDS.md."""
import itertools
import re
import struct
from typing import List, Optional, Sequence, Set, Tuple

from .contents import RETIREMENT, Content
from .dwarf_frames import SourceFrame, frames_of
from .images import Image, image_of, sha
from .line_tables import LineTable
from .tables import Table

ARCHS = {(0x01000007, 3): "x86_64", (0x01000007, 8): "x86_64h", (0x0100000C, 0): "arm64", (0x0100000C, 2): "arm64e"}
HEX = set("0123456789abcdefABCDEF")
AT = re.compile(" (?=at( |$))")

# A key, what stands under it, and its digest.
Row = Tuple[bytes, str, bytes]
# The lines of an answer, and whether it is one symbol.
Answer = Tuple[List[str], bool]
# The digest of a slice, what it tells of an address, and its source lines.
Told = Tuple[bytes, str, List[str]]


def uuid_text(b: bytes) -> str:
    digits = b.hex()
    return "-".join((digits[:8], digits[8:12], digits[12:16], digits[16:20], digits[20:]))


def arch_text(b: bytes) -> str:
    cputype, cpusubtype = struct.unpack(">II", b)
    return ARCHS.get((cputype, cpusubtype)) or f"cpu:{cputype:08x}/{cpusubtype:08x}"


def key_text(key: bytes) -> str:
    return f"{uuid_text(key[:16])} {arch_text(key[16:24])}"


def escaped(b: bytes) -> str:
    return "".join(chr(c) if 0x20 <= c <= 0x7E and c != 0x5C else f"\\x{c:02x}" for c in b)


def address_text(address: int) -> str:
    return f"0x{address:016x}"


def names_text(segment: bytes, section: bytes) -> str:
    return f"({escaped(segment)},{escaped(section)})"


def section_text(image: Image, sect: int) -> str:
    section = image.sections[sect - 1]
    return names_text(section.segment, section.name)


# ---- what is in an archive


def row_of(record: bytes) -> Row:
    if record[0] == RETIREMENT:
        return record[1:25], "retired", record[25:57]
    return record[1:25], "dsym" if image_of(record[33:]).is_dsym else "image", sha(record[33:])


def find_rows(content: Content, uuid: Optional[bytes] = None) -> List[Row]:
    records = [it for it in [*content.rets, *content.live()] if uuid is None or it[1:17] == uuid]
    return [row_of(it) for it in sorted(records, key=lambda it: (it[1:25], it))]


def index_rows(entries: Sequence[bytes], uuid: bytes = b"") -> List[Row]:
    those = sorted((it for it in entries if it[1:17].startswith(uuid)), key=lambda it: (it[1:25], it[58:66]))
    states = {RETIREMENT: "retired"}
    return [(it[1:25], states.get(it[0], "dsym" if it[57] else "image"), it[25:57]) for it in those]


def find_lines(rows: Sequence[Row], whole: bool) -> List[str]:
    """The lines of rows, and after those of a key how many answer for it, if several do."""
    lines: List[str] = []
    for key, its in itertools.groupby(rows, key=lambda row: row[0]):
        name = key_text(key) if whole else arch_text(key[16:])
        states = []
        for _, state, digest in its:
            lines.append(f"{name} {state} {digest.hex()}")
            states.append(state)
        count = states.count("dsym") or states.count("image")
        if count >= 2:
            lines.append(f"{name} conflict {count}")
    return lines


# ---- answers


def moved(base: Optional[int], address: int, load: Optional[int]) -> Optional[int]:
    """The address of a file that an address of memory stands for, by the address of __TEXT; None if there is none."""
    if load is None:
        return address
    place = None if base is None else address - load + base
    return place if place is not None and 0 <= place < 1 << 64 else None


def symbol_text(name: bytes, offset: int, section: str) -> str:
    return f"{escaped(name)} + {offset} {section}"


def answer_text(image: Image, address: int, load: Optional[int]) -> str:
    place = moved(image.base, address, load)
    found = None if place is None else image.nearest(place)
    if place is None or found is None:
        return "-"
    return symbol_text(found.name, place - found.value, section_text(image, found.sect))


def table_text(table: Table, address: int, load: Optional[int]) -> str:
    """The same by a table. One that no slice has may name a symbol above the address."""
    place = moved(table.base, address, load)
    found = None if place is None else table.nearest(place)
    if place is None or found is None:
        return "-"
    return symbol_text(found.name, max(0, place - found.value), names_text(found.segment, found.section))


def frame_line(frame: SourceFrame) -> str:
    """The line of a frame. A space of the name that could be taken for that before `at ` is escaped."""
    name = "?" if frame.name is None else AT.sub(r"\\x20", escaped(frame.name))
    path = "?" if frame.path is None else escaped(frame.path)
    return f"    {name} at {path}:{frame.line}:{frame.column}"


def frame_lines(image: Image, address: int, load: Optional[int]) -> List[str]:
    place = moved(image.base, address, load)
    return [] if place is None else [frame_line(it) for it in frames_of(image.bytes, place)]


def table_frame_lines(base: Optional[int], lines: LineTable, address: int, load: Optional[int]) -> List[str]:
    """The same by a line table, beside the address of __TEXT."""
    place = moved(base, address, load)
    return [] if place is None else [frame_line(it) for it in lines.frames(place)]


def answer_lines(
    images: Sequence[Image], address: int, load: Optional[int] = None, with_frames: bool = False
) -> Answer:
    """The lines of an address, with those of its frames after each slice's if they are asked for."""
    frames = [frame_lines(it, address, load) if with_frames else [] for it in images]
    own = [(sha(it.bytes), answer_text(it, address, load), those) for it, those in zip(images, frames)]
    return told_lines(address, own)


def told_lines(address: int, own: Sequence[Told]) -> Answer:
    """The same of what each slice tells: its digest, the text of its symbol, and the lines of frames."""
    shown = address_text(address)
    if not own:
        return [f"{shown} ?"], False
    if len(own) == 1:
        _, text, frames = own[0]
        return [f"{shown} {text}", *frames], text != "-"
    lines = [line for digest, text, frames in own for line in (f"  {digest.hex()} {text}", *frames)]
    return [f"{shown} !{len(own)}", *lines], False


def name_lines(content: Content, name: bytes) -> List[str]:
    rows: Set[Tuple[bytes, bytes, int, int, str]] = set()
    for record in content.live():
        image = image_of(record[33:])
        for it in image.tables()[1].get(name, ()):
            rows.add((record[1:25], sha(record[33:]), it.value, it.sect, section_text(image, it.sect)))
    return [
        f"{key_text(key)} {digest.hex()} {address_text(value)} {section}"
        for key, digest, value, _, section in sorted(rows)
    ]


# ---- words


def is_hex(text: str) -> bool:
    return all(it in HEX for it in text)


def hyphened_uuid(text: str) -> Optional[bytes]:
    parts = text.split("-")
    is_one = [len(it) for it in parts] == [8, 4, 4, 4, 12] and is_hex("".join(parts))
    return bytes.fromhex("".join(parts)) if is_one else None


def uuid_word(text: str) -> Optional[bytes]:
    if len(text) == 32 and is_hex(text):
        return bytes.fromhex(text)
    if len(text) == 36:
        return hyphened_uuid(text)
    if len(text) == 38 and text[0] == "{" and text[-1] == "}":
        return hyphened_uuid(text[1:-1])
    if len(text) == 45 and text[:9].lower() == "urn:uuid:":
        return hyphened_uuid(text[9:])
    return None


def arch_word(text: str) -> Optional[bytes]:
    for numbers, name in ARCHS.items():
        if text == name:
            return struct.pack(">II", *numbers)
    digits = text[4:12] + text[13:]
    if len(text) == 21 and text[:4] == "cpu:" and text[12] == "/" and is_hex(digits) and text[13:15] == "00":
        return bytes.fromhex(digits)
    return None


def digest_word(text: str) -> Optional[bytes]:
    return bytes.fromhex(text) if len(text) == 64 and is_hex(text) else None


def address_word(text: str) -> Optional[int]:
    digits = text[2:] if text.startswith("0x") else text
    return int(digits, 16) if 1 <= len(digits) <= 16 and is_hex(digits) else None


def decimal(text: str) -> Optional[int]:
    is_one = bool(text) and text.isascii() and text.isdigit() and (text == "0" or text[0] != "0")
    return int(text) if is_one and len(text) <= 10 and int(text) <= 4294967295 else None
