"""`get`: makes dSYM bundles of UUIDs in a folder."""
import argparse
import collections
import contextlib
import functools
import os
from dataclasses import dataclass, field
from typing import Dict, Iterator, List, Optional

from ..console.escapes import shown
from ..console.faults import Failed
from ..console.json_lines import NO_PATH, line_of, path_members
from ..console.screen import Screen, screen_of
from ..formats.contents import uuid_text
from ..formats.files import size_of
from ..formats.indexes import IndexRow
from ..store.asking import Asked, AskedCommand, held_by, opened_archive
from ..store.bundles.folder import Target, part_of, remove_left, room_in
from ..store.bundles.plan import Undecided, Wishes, near
from ..store.losses import record_members
from .arguments import define_archive, digest_of, uuid_of

DESCRIPTION = """\
Makes dSYM bundles of UUIDs in FOLDER, with the bytes that were added: NAME.dSYM of the slices of dSYMs, and next to it
NAME of those of images. NAME is the first name under which the slice itself was added; or the UUID, if there is no such
name, or one with a / or more than 250 bytes, which no file can have.

  symarch-keep get builds.sym 4c4c4419-5555-3144-a1d2-4341c97782f0 --to debug
  (lldb) target symbols add debug/spool.dSYM

Slices with one day, app, version, build and name become one universal file, if each architecture has one UUID. If a
dSYM has several images, none of these is written. FOLDER needs room for each file, and for twice the largest slice, in
a folder .symarch-keep-*.making. Each slice gets a line:

  got UUID ARCH DIGEST PATH
  known UUID ARCH DIGEST PATH    the file is there with these bytes
  conflict UUID ARCH DIGEST      others of this UUID and ARCH answer too, so none is written: choose by --digest

A file at PATH with other bytes stays, and is reported."""
USAGE = "symarch-keep get [--json] [--digest DIGEST]... ARCHIVE UUID... --to FOLDER"
ABOUT = "make dSYM bundles for a debugger"
KEYS = ("got", "known", "conflict", "absent")


def define(parser: argparse.ArgumentParser) -> None:
    parser.add_argument("--to", metavar="FOLDER", required=True, help="the folder in which they are made")
    parser.add_argument("--digest", metavar="DIGEST", action="append", default=[], help="which one of several slices")
    define_archive(parser)
    parser.add_argument("uuids", metavar="UUID", nargs="+")


@dataclass(eq=False)
class Getting:
    """What is got of an archive that is asked, into a folder."""

    asked: Asked
    folder: bytes
    screen: Screen
    # What came of each, and how many bytes were written.
    outcomes: Dict[Target, str] = field(default_factory=dict)
    done: int = 0

    def get(self, wishes: Wishes) -> None:
        targets = [Target(self.folder, wanted) for wanted in wishes.files()]
        remove_left(self.folder)
        self.screen.begin("reading")
        for target in targets:
            with self.going_on(target):
                self.outcomes[target] = "known" if target.is_there() else "got"
        absent = [target for target in targets if self.outcomes.get(target) == "got"]
        self.screen.begin("writing", sum(target.layout.size for target in absent))
        if absent:
            with room_in(self.folder) as room:
                for target in absent:
                    self.make(target, room)

    @contextlib.contextmanager
    def going_on(self, target: Target) -> Iterator[None]:
        """Says what keeps a file from being there, and goes on with the others."""
        try:
            yield
            return
        except Failed as failed:
            self.screen.fail(failed.text, failed.more)
        except OSError as error:
            self.screen.fail(f"{shown(target.path)}: {error.strerror}")
        self.outcomes.pop(target, None)

    def make(self, target: Target, room: bytes) -> None:
        with self.going_on(target), part_of(room) as part:
            target.make(part, functools.partial(self.extract, target))
        self.done += target.layout.size

    def lines(self) -> List[str]:
        return [
            got_line(outcome, row, target.file)
            for target, outcome in self.outcomes.items()
            for row in target.wanted.rows
        ]

    def extract(self, target: Target, row: IndexRow, path: bytes) -> None:
        """Has the program write a slice as a file of a room."""
        room, out = os.path.split(path)
        name, arch, digest = row.words().split(" ")
        arguments, options = [name, arch, os.fsdecode(out)], ["--digest", digest]

        def written() -> int:
            return self.done + sum(size_of(os.path.join(room, one)) for one in os.listdir(room))

        def moved(_: int) -> None:
            self.screen.progress(0, written)

        try:
            status = self.asked.answer(AskedCommand("extract", arguments, options, folder=room, moved=moved))[1]
        except Failed as failed:
            failed.more = failed.more.replace(shown(path), shown(target.file))
            raise
        if status:
            raise self.asked.changed(row.words())


def got_line(outcome: str, row: IndexRow, path: Optional[bytes] = None) -> str:
    """What came of a slice, and the file that has it, if one has."""
    members = {**record_members(row.entry[1:]), **(NO_PATH if path is None else path_members(path))}
    return line_of(f"{outcome} {row.words()}{'' if path is None else f' {shown(path)}'}", outcome, **members)


def say_rest(wishes: Wishes, screen: Screen) -> List[str]:
    """Says what is not got, and returns the lines of conflicts."""
    for one in wishes.absent():
        screen.fault(f"the archive has no {uuid_text(one)}")
    for one in wishes.without_dsym():
        screen.line(f"{uuid_text(one)} has no dSYM")
    for digest in sorted(wishes.unused()):
        screen.fault(f"no slice of these UUIDs has the DIGEST {digest.hex()}")
    for undecided in wishes.undecided:
        told = "none of them is put next to its dSYM" if undecided.has_companion else "none of them is written"
        screen.fault(f"{key_words(undecided)}: {len(undecided.rows)} slices answer, and {told}; choose by --digest")
    conflicts = [it for it in wishes.undecided if not it.has_companion]
    return [got_line("conflict", row) for it in conflicts for row in it.rows]


def key_words(undecided: Undecided) -> str:
    return undecided.rows[0].words().rpartition(" ")[0]


def carry_out(arguments: argparse.Namespace) -> int:
    uuids, digests = [uuid_of(one).bytes for one in arguments.uuids], map(digest_of, arguments.digest)
    screen, folder = screen_of(arguments), os.fsencode(arguments.to)
    with opened_archive(os.fsencode(arguments.archive)) as asked:
        asked.archive.say_damaged_builds(screen)
        held, lines = near(uuids, held_by(asked, screen), asked.archive.folder.builds)
        wishes = Wishes(uuids, held, lines, digests, folder)
        getting = Getting(asked, folder, screen)
        getting.get(wishes)
    conflicts = say_rest(wishes, screen)
    told = [*getting.lines(), *conflicts]
    screen.show(told)
    count = collections.Counter(line.partition(" ")[0] for line in told)
    counts = {**{word: count[word] for word in KEYS[:-1]}, "absent": len(wishes.absent())}
    return screen.end(1 if conflicts or wishes.absent() or wishes.unused() else 0, counts)
