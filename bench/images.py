"""Large images with many symbols, and archives of them, for the benchmarks that ask for addresses."""
import hashlib
import io
import pathlib
import random
import struct
from typing import Iterable, List, Tuple

from measure import HEADER, LC_UUID, MEGABYTE, write_image
from tests.support.made_images import pieces_of_archive

X86_64 = struct.pack(">II", 0x01000007, 3)
IMAGE_SIZE = 5 * MEGABYTE
SYMBOLS = 30_000
TEXT = 0x1_0000_0000
FUNCTION = 64
IN_EACH = b"_symbol_in_each"


def with_symbols(number: int, symbols: Iterable[Tuple[int, int]], names: bytes) -> bytes:
    """An image that ends with its names, and has one section. Each symbol is the place of its name, and that of its
    function among all."""
    entry = struct.Struct("<IBBHQ")
    entries = b"".join(entry.pack(name, 0x0E, 1, 0, TEXT + FUNCTION * place) for name, place in symbols)
    count = len(entries) // entry.size
    size = count * FUNCTION
    front = 32 + 152 + 24 + 24
    code = front + len(entries) + len(names)
    section = struct.pack("<16s16sQQI28x", b"__text", b"__TEXT", TEXT, size, code)
    segment = struct.pack("<II16sQQQQ8xI4x", 0x19, 152, b"__TEXT", TEXT, size, code, size, 1) + section
    symtab = struct.pack("<6I", 2, 24, front, count, front + len(entries), len(names))
    uuid = LC_UUID + number.to_bytes(16, "big")
    header = HEADER[:16] + struct.pack("<II", 3, front - 32) + HEADER[24:]
    return header + segment + uuid + symtab + entries + names


def image(number: int, length: int = IMAGE_SIZE) -> bytes:
    """An image of 30,000 functions that follow one another in one section, and bytes behind them up to its length. The
    name of the first is in each image, and each other one in this image alone."""
    own = (b"_symbol%02d_%05d" % (number, place) for place in range(1, SYMBOLS))
    names = b"\0" + b"".join(name + b"\0" for name in (IN_EACH, *own))
    order = list(range(SYMBOLS))
    random.seed(number)
    random.shuffle(order)
    made = with_symbols(number, ((1 + 16 * place, place) for place in order), names)
    return made + random.randbytes(length - len(made))


def random_image(number: int, size: int) -> bytes:
    """The bytes of an image that is the same each time, under a UUID that rises with the number."""
    random.seed(number)
    file = io.BytesIO()
    write_image(file, size, number.to_bytes(16, "big"))
    return file.getvalue()


def admission_front(number: int, length: int) -> bytes:
    """What stands before a slice in its record, whose UUID is this number."""
    return b"\x02" + number.to_bytes(16, "big") + X86_64 + struct.pack(">Q", length)


def admission(number: int, slice_bytes: bytes) -> bytes:
    """The record of a slice whose UUID is this number."""
    return admission_front(number, len(slice_bytes)) + slice_bytes


def retirement(number: int, digest: bytes = bytes(32)) -> bytes:
    """The record that retires the slice of a UUID with this digest."""
    return b"\x01" + number.to_bytes(16, "big") + X86_64 + digest


def retirement_of(number: int, slice_bytes: bytes) -> bytes:
    """The record that retires a slice whose UUID is this number."""
    return retirement(number, hashlib.sha256(slice_bytes).digest())


def write_archive(path: pathlib.Path, records: Iterable[bytes], version: int = 2) -> None:
    """Writes records, which ascend, as an archive."""
    with path.open("wb") as file:
        file.writelines(pieces_of_archive(records, b"MSYMARC%d" % version))


def addresses(count: int) -> List[str]:
    return [hex(TEXT + random.randrange(SYMBOLS * FUNCTION)) for _ in range(count)]
