"""Texts in a line of a terminal, in which nothing is printed that moves it or ends the line."""
import os
import re
from typing import Optional, Union

ESCAPED = re.compile(rb"\\x([0-9a-f]{2})")
# What JSON has no escape for need not be, but a terminal obeys some of it.
OF_TERMINAL = re.compile("[\x7f-\x9f\u061c\u200e\u200f\u2028-\u202e\u2066-\u2069]")


def shown(path: Union[bytes, str]) -> str:
    """The text of a path in a line, which keeps its bytes."""
    text = os.fsencode(path).decode(errors="surrogateescape")
    return text if text.isprintable() and "\\" not in text else "".join(map(shown_character, text))


def shown_character(character: str) -> str:
    if character.isprintable() and character != "\\":
        return character
    return "".join(f"\\x{byte:02x}" for byte in character.encode(errors="surrogateescape"))


def unshown(text: str) -> str:
    """What a text was before it was shown."""
    return os.fsdecode(ESCAPED.sub(lambda found: bytes([int(found[1], 16)]), os.fsencode(text)))


def one_line(text: Optional[str]) -> str:
    """A text with one space in place of each end of a line, and of several spaces."""
    return " ".join((text or "").split())


def line_shown(text: str) -> str:
    """A line of names and values as it is printed. Backslashes and tabs stay, since nobody reads paths out of it."""
    if text.replace("\t", "").isprintable():
        return text
    return "".join(one if one in "\t\\" or is_kept(one) else shown_character(one) for one in text)


def is_kept(character: str) -> bool:
    """Whether a character moves no terminal that is not printable, or may not be: spaces of other widths, and what is
    no character."""
    is_space = character.isspace() and character > "\x9f" and not OF_TERMINAL.match(character)
    is_byte = "\udc80" <= character <= "\udcff"
    return character.isprintable() or is_space or ("\ud800" <= character <= "\udfff" and not is_byte)


def json_shown(text: str) -> str:
    """JSON of which a terminal obeys nothing. Its value is the same."""
    return OF_TERMINAL.sub(lambda found: f"\\u{ord(found[0]):04x}", text)
