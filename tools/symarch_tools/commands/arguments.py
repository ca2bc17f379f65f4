"""Arguments of a command line that are no paths: what each means. One of another form ends the call, and is named."""
import argparse
import os
import re
from typing import TYPE_CHECKING

from ..console.escapes import shown
from ..console.faults import Failed
from ..formats.contents import MOST_OF_FIELD, numbers_of

if TYPE_CHECKING:
    import uuid

ARCHITECTURES = "x86_64, x86_64h, arm64, arm64e or cpu:CCCCCCCC/00SSSSSS"
# The help of arguments, of which those after a colon are completed.
HELP = {"ARCH": f"the architecture: {ARCHITECTURES}"}
DIGEST, SIZE = re.compile("[0-9a-fA-F]{64}"), re.compile("([0-9]{1,15})([kMGT]?)")
DECIMAL = re.compile("[0-9]{1,20}")
HEX = re.compile("(0x)?[0-9a-fA-F]{1,16}")
SECONDS = re.compile(r"[0-9]{1,9}(\.[0-9]{1,9})?")
# Where the high byte of the cpusubtype stands in what an ARCH means. No slice has a bit in it.
HIGH_BYTE = 4


def define_archive(parser: argparse.ArgumentParser, *more: str) -> None:
    """ARCHIVE, and the arguments after it."""
    for name in ("ARCHIVE", *more):
        parser.add_argument(name.lower(), metavar=name, help=HELP.get(name))


def other_form(name: str, argument: str, form: str) -> Failed:
    return Failed(f"{name} is `{shown(argument)}`: expected {form}", 3)


def uuid_of(argument: str) -> "uuid.UUID":
    import uuid

    try:
        return uuid.UUID(argument)
    except ValueError:
        raise other_form("UUID", argument, "32 hex digits, with or without hyphens") from None


def arch_of(argument: str) -> bytes:
    try:
        numbers = numbers_of(argument)
    except ValueError:
        numbers = b""
    if numbers[HIGH_BYTE : HIGH_BYTE + 1] != b"\0":
        raise other_form("ARCH", argument, ARCHITECTURES)
    return numbers


def digest_of(argument: str) -> bytes:
    if not DIGEST.fullmatch(argument):
        raise other_form("DIGEST", argument, "64 hex digits")
    return bytes.fromhex(argument)


def size_in(argument: str) -> int:
    """A number of bytes."""
    found = SIZE.fullmatch(argument)
    if not found:
        raise other_form("BYTES", argument, "a number of bytes, which may end in k, M, G or T")
    power: int = 1000 ** " kMGT".index(found[2] or " ")
    return int(found[1]) * power


def seconds_in(argument: str) -> float:
    """A number of seconds."""
    if not SECONDS.fullmatch(argument):
        raise other_form("SECONDS", argument, "a number of seconds")
    return float(argument)


def hex_of(name: str, argument: str) -> str:
    """A number in hex digits, as the program takes it."""
    if not HEX.fullmatch(argument):
        raise other_form(name, argument, "1 to 16 hex digits, with or without 0x")
    return argument


def number_of(name: str, argument: str, is_decimal: bool) -> str:
    """A number as the program takes it, which may be decimal unless it begins with 0x."""
    if not is_decimal or argument.startswith("0x"):
        return hex_of(name, argument)
    if not DECIMAL.fullmatch(argument) or int(argument) >= 1 << 64:
        raise other_form(name, argument, "a decimal number below 2^64, or hex digits after 0x")
    return hex(int(argument))


def name_of(argument: str) -> str:
    """The name of a symbol, as the program takes it."""
    try:
        argument.encode()
    except UnicodeEncodeError:
        raise other_form("NAME", argument, "UTF-8 text") from None
    return argument


def part_of(argument: str) -> str:
    """A part of the name of a symbol."""
    if not argument or "\0" in argument:
        raise other_form("NAME", argument, "a part of a name")
    return argument


def app_of(argument: str) -> str:
    """An identifier of a bundle, as it stands in a line of ARCHIVE.builds."""
    from ..formats.builds import field

    text = os.fsencode(argument)
    if not 0 < len(text) <= MOST_OF_FIELD:
        raise other_form("ID", argument, f"1 to {MOST_OF_FIELD} bytes")
    return field(text)


def day_of(argument: str) -> str:
    """A day of UTC, as it is kept."""
    from ..formats.build_lines import is_day

    if not is_day(os.fsencode(argument)):
        raise other_form("DATE", argument, "a day as YYYY-MM-DD")
    return argument
