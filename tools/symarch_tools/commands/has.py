"""`has`: says of each UUID whether its dSYM is there."""
import argparse
import collections
import os
import uuid
from typing import Dict, List

from ..console.json_lines import line_of
from ..console.screen import screen_of
from ..formats.indexes import HEAD
from ..formats.mach_images import MachImage
from ..store.asking import HeldSlice, opened_archive, slices_held
from .arguments import define_archive, uuid_of

DESCRIPTION = """\
Prints a line for each UUID:

  dsym UUID        its dSYM is there, and has DWARF, the source lines
  no-dwarf UUID    its dSYM is there, but without DWARF: it has only names
  image UUID       an image is there, and no dSYM
  absent UUID      nothing is there

For example, before a release is shipped, by llvm-dwarfdump, which prints UUIDs as dwarfdump does on a Mac:

  symarch-keep has builds.sym $(llvm-dwarfdump --uuid Spool.app.dSYM | cut -d ' ' -f 2)

If several slices of a UUID answer, the worst counts. The status is 0 if each UUID has its dSYM with DWARF, and
otherwise 1."""
USAGE = "symarch-keep has [--json] ARCHIVE UUID..."
ABOUT = "print whether dSYMs are there"
# From the best to the least.
DSYM, NO_DWARF, IMAGE, ABSENT = WORDS = ("dsym", "no-dwarf", "image", "absent")
KEYS = tuple(word.replace("-", "_") for word in WORDS)


def define(parser: argparse.ArgumentParser) -> None:
    define_archive(parser)
    parser.add_argument("uuids", metavar="UUID", nargs="+")


def word_of(slices: List[HeldSlice]) -> str:
    """What there is of a UUID and an architecture, by all slices of these. A dSYM answers before an image does."""
    companions = [one for one in slices if one.row.is_companion]
    images = (MachImage(one.opened, one.row.at + HEAD, one.row.length - HEAD) for one in companions)
    return IMAGE if not companions else DSYM if all(one.has_dwarf() for one in images) else NO_DWARF


def carry_out(arguments: argparse.Namespace) -> int:
    uuids, screen = [uuid_of(one) for one in arguments.uuids], screen_of(arguments)
    of_keys: Dict[uuid.UUID, Dict[bytes, List[HeldSlice]]] = {one: {} for one in uuids}
    with opened_archive(os.fsencode(arguments.archive)) as asked:
        for one in slices_held(asked, screen):
            number = uuid.UUID(bytes=one.row.key()[:16])
            if number in of_keys:
                of_keys[number].setdefault(one.row.key(), []).append(one)
        words = {one: max(map(word_of, its.values()), key=WORDS.index, default=ABSENT) for one, its in of_keys.items()}
    told = [line_of(f"{words[one]} {one}", "has", uuid=str(one), held=words[one]) for one in uuids]
    screen.show(told)
    count = collections.Counter(words[one] for one in uuids)
    status = 0 if count[DSYM] == len(uuids) else 1
    return screen.end(status, {key: count[word] for key, word in zip(KEYS, WORDS)})
