"""The second line of a fault, for people, by docs/COMMANDS.md: which input it is of, or OUT, its path, and what is
known of it: what the system said, or what is there."""
import os
import re
from typing import Sequence

from .program import Word

OF_AN_INPUT = ", the file of an input"
MACHO = ", a Mach-O file, which `admit` takes"
ARCHIVE = ", an archive, which `merge` takes"
# What is at OUT that a command does not replace.
FOREIGN = ", there, and neither empty nor one of symarch's files"
DAMAGED = ", there, and an archive that is damaged"
OTHER_SLICE = ", there, and neither empty nor the same slice"
# Which word an input is that is not the first one, and OUT that is not the second one. FILEs begin after OUT, and an
# INDEX stands after its option.
PLACES = {"frames": {"archive": 2}, "delta": {"summary": 2}, "apply": {"ops": 3}}
OUT_PLACES = {"new": 1, "delta": 3, "extract": 4}


def said_by(number: int) -> str:
    """What the system says, by the number of its error."""
    return f": {os.strerror(number)} (os error {number})"


def losing(number: int) -> str:
    """What is known of an archive at OUT with so many records that the new one neither has nor retires."""
    records = "record" if number == 1 else "records"
    return f", there, and has {number} {records} that the new archive neither has nor retires"


def path_in(words: Sequence[Word], line: str) -> Word:
    """The word of the file that a fault is of."""
    found = re.match(r"([a-z]+)(?: ([0-9]+))?: ", line)
    assert found is not None, line
    place, number, command = found[1], found[2], str(words[0])
    if place == "output":
        return words[OUT_PLACES.get(command, 2)]
    if place == "index":
        return [word for option, word in zip(words, words[1:]) if option == "--index"][int(number)]
    if place == "file" or (place == "archive" and int(number) > 0):
        return words[3 + int(number) - (place == "archive")]
    return words[PLACES.get(command, {}).get(place, 1)]


def second_line(words: Sequence[Word], line: str, out: Word, hint: str) -> str:
    """The line after the fault of a line, if OUT is this path."""
    path = path_in(words, line)
    return f"  {line.partition(': ')[0]} is {os.fsdecode(out if path == 'OUT' else path)}{hint}\n"
