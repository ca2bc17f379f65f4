"""Images whose header, commands or symbol table say what is not so."""
import struct

UUID_COMMAND = struct.pack("<II", 0x1B, 24) + bytes.fromhex("00112233445566778899aabbccddeeff")
MOST = 0xFFFFFFFF


def image(commands: int, size: int, text: bytes) -> bytes:
    """An x86_64 executable with so many commands of so many bytes, both as they stand in its header."""
    return struct.pack("<8I", 0xFEEDFACF, 0x01000007, 3, 2, commands, size, 0, 0) + text


def symtab(symoff: int, nsyms: int, stroff: int, strsize: int) -> bytes:
    """An image with a UUID and a symbol table."""
    return image(2, 48, UUID_COMMAND + struct.pack("<6I", 2, 24, symoff, nsyms, stroff, strsize))


def segment(sections: int) -> bytes:
    """An image with a UUID and a segment of so many sections, which are not there."""
    return image(2, 96, struct.pack("<II56xII", 0x19, 72, sections, 0) + UUID_COMMAND)


def with_two_symbols_at_the_last_address() -> bytes:
    """An image with a section from 2^64-1 on with 2^64-1 bytes, and two symbols there: a name, and one whose name is
    2^32-1 bytes from the start."""
    last = 2**64 - 1
    section = struct.pack("<16s16sQQ32x", b"__text", b"__TEXT", last, last)
    one = struct.pack("<II16sQ32xII", 0x19, 152, b"__TEXT", last, 1, 0) + section
    symbols = struct.pack("<IBBHQ", 1, 0x0F, 1, 0, last) + struct.pack("<IBBHQ", MOST, 0x0F, 1, 0, last)
    commands = one + UUID_COMMAND + struct.pack("<6I", 2, 24, 232, 2, 264, 4)
    return image(3, len(commands), commands) + symbols + b"\0_a\0"
