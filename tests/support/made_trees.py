"""Trees of files of every kind, and the lines that `symarch-keep add` has to print of each."""
import struct
from typing import Dict, List, Optional, Tuple

from .made_images import ARM64, ARM64_32, ARM64E, DYLIB, EXECUTE, OBJECT, UUID_COMMAND, X86_64, X86_64H
from .made_images import image, line, symbols_outside, thirty_two_bit, universal, without_uuid
from .rooms import Room


def promised(count: int, there: int) -> str:
    """What is said of an image that was cut."""
    return f": its commands promise {count} bytes, and there are {there}"


def part(number: int, begin: int, end: int, size: int) -> str:
    """What is said of a universal file that was cut."""
    return f": part {number} is bytes {begin} to {end} by the table, and the file has {size}"


HEADER = "its header needs 32 bytes, and"
TABLE = ": its table needs 48 bytes, and the file has 47"
OUTSIDE = f"Symbols(SymbolsOutside)){promised(4112, 80)}"


def taken_files(room: Room) -> Tuple[List[bytes], List[str], List[str], List[str]]:
    """Files that have slices which go in: these, their lines, and the lines of the parts that stay out."""
    made = [image(number, more=b"%d" % number) for number in range(7)]
    made += [image(20, ARM64), image(21, ARM64_32), image(22, X86_64H), image(23, ARM64E), image(24, kind=OBJECT)]
    application, kit = "Shop.xcarchive/Products/Applications/Shop.app", "Frameworks/Kit.framework"
    places: Dict[str, Tuple[Optional[bytes], List[int]]] = {
        "App.dSYM/Contents/Resources/DWARF/App": (made[0], [0]),
        f"{application}/{kit}/Versions/A/Kit": (made[3], []),
        f"{application}/{kit}/Kit": (None, [3]),
        f"{application}/Shop": (universal([made[2], made[7]]), [2, 7]),
        "Shop.xcarchive/dSYMs/Shop.app.dSYM/Contents/Resources/DWARF/Shop": (made[1], [1]),
        "lib/broken.dylib": (universal([made[5], symbols_outside(30), made[6]]), [5, 6]),
        "lib/one.dylib": (universal([thirty_two_bit(), made[4], thirty_two_bit(">")]), [4]),
        "lib/two.dylib": (universal([made[8], made[9]], wide=True), [8, 9]),
        "lib/with-uuid.o": (made[11], [11]),
        "lib/without.dylib": (universal([without_uuid(DYLIB), made[10]]), [10]),
    }
    for name, (content, _) in places.items():
        if content:
            room.file(f"tree/{name}", content)
    (room.path / f"tree/{application}/{kit}/Versions/Current").symlink_to("A")
    (room.path / f"tree/{application}/{kit}/Kit").symlink_to("Versions/Current/Kit")
    over = [f"tree/{application}/{kit}/Versions/Current: passed over: links to folders"]
    over += [f"tree/lib/one.dylib: passed over: part {part}, 32-bit images" for part in (0, 2)]
    over += ["tree/lib/without.dylib: passed over: part 0, images without a UUID"]
    lines = [line("added", made[number], f"tree/{name}") for name, (_, numbers) in places.items() for number in numbers]
    return made, lines, over, [f"tree/lib/broken.dylib: Slice(1, {OUTSIDE}"]


def passed_over(room: Room) -> List[str]:
    """Files that are passed over, and the lines that say so."""
    library, bitcode = b"!<arch>\n" + bytes(100), b"BC\xc0\xde"
    objects = "object files without a UUID"
    places = {
        "one.o": (without_uuid(OBJECT), [objects]),
        "fat.o": (universal([without_uuid(OBJECT), bitcode]), [f"part 0, {objects}", "part 1, other parts"]),
        "plain": (without_uuid(EXECUTE), ["images without a UUID"]),
        "one.a": (library, ["static libraries"]),
        "thin.a": (b"!<thin>\n", ["static libraries"]),
        "fat.a": (universal([library, library]), ["part 0, static libraries", "part 1, static libraries"]),
        "old": (thirty_two_bit(), ["32-bit images"]),
        "old.dSYM/Contents/Resources/DWARF/old": (universal([thirty_two_bit()]), ["part 0, 32-bit images"]),
        "powerpc": (thirty_two_bit(">"), ["32-bit images"]),
        "big": (struct.pack(">8I", 0xFEEDFACF, *X86_64, 2, 0, 0, 0, 0), ["big-endian images"]),
        "none": (universal([]), ["universal files without a part"]),
        "Java.class": (bytes.fromhex("cafebabe0000003d"), ["other files"]),
        "elf": (b"\x7fELF" + bytes(60), ["other files"]),
        "empty": (b"", ["other files"]),
        "short": (b"\xcf\xfa\xed", ["other files"]),
        "text": (b"!<hello\n", ["other files"]),
    }
    for name, (content, _) in places.items():
        room.file(f"tree/over/{name}", content)
    kinds = [(name, kind) for name, (_, kinds) in places.items() for kind in kinds]
    kinds.append(("../refused/part", "part 0, 32-bit images"))
    return [f"tree/over/{name}: passed over: {kind}".replace("over/../", "") for name, kind in kinds]


def refused_files(room: Room) -> List[str]:
    """Files that `admit` refuses, and the lines that say so, by the tables of docs/FILES.md."""
    whole = image(40)
    with_two = struct.pack("<8I", 0xFEEDFACF, *X86_64, EXECUTE, 2, 48, 0, 0) + image(41)[32:] * 2
    places = {
        "head": (whole[:20], f"Slice(0, Image(HeaderTruncated)): {HEADER} there are 20"),
        "magic": (whole[:4], f"Slice(0, Image(HeaderTruncated)): {HEADER} there are 4"),
        "cut": (whole[:-1], f"Slice(0, Image(CommandsOutside)){promised(56, 55)}"),
        "small": (image(0, commands=struct.pack("<II", 5, 4)), "Slice(0, Image(BadCommand(0)))"),
        "long": (image(0, commands=struct.pack("<II", 5, 16)), "Slice(0, Image(BadCommand(0)))"),
        "uuid": (image(0, commands=struct.pack("<II8x", UUID_COMMAND, 16)), "Slice(0, Image(BadUuid(0)))"),
        "second": (with_two, "Slice(0, Image(SecondUuid(1)))"),
        "symbols": (symbols_outside(42), f"Slice(0, {OUTSIDE}"),
        "part": (universal([thirty_two_bit(), whole[:50]]), f"Slice(1, Image(CommandsOutside)){promised(56, 50)}"),
        "fat-head": (
            bytes.fromhex("cafebabe0000"), "Fat(HeaderTruncated): its header needs 8 bytes, and the file has 6"
        ),
        "fat-count": (struct.pack(">II", 0xCAFEBABE, 33) + bytes(33 * 20), "Fat(TooManyArches(33))"),
        "fat-table": (struct.pack(">II", 0xCAFEBABE, 2) + bytes(39), f"Fat(TableTruncated){TABLE}"),
        "fat-cut": (universal([thirty_two_bit(), whole])[:-1], f"Fat(SliceOutside(1)){part(1, 128, 184, 183)}"),
        "fat-large": (
            struct.pack(">IIIIQQII", 0xCAFEBABF, 1, 7, 3, 1 << 63, 1 << 63, 0, 0),
            f"Fat(SliceOutside(0)){part(0, 1 << 63, 1 << 64, 40)}",
        ),
    }
    for name, (content, _) in places.items():
        room.file(f"tree/refused/{name}", content)
    return [f"tree/refused/{name}: {fault}" for name, (_, fault) in places.items()]
