"""`fold`: joins what came in lately with the files of an archive."""
import argparse
import os

from ..console.escapes import shown
from ..console.screen import screen_of
from ..store.archive import Archive
from ..store.draft import Draft
from ..store.program import Program

DESCRIPTION = """\
Joins ARCHIVE.today with the files of ARCHIVE of similar size. Their content together stays the same.

  symarch-keep fold --quiet builds.sym
  symarch-keep fold --all builds.sym

From ARCHIVE.today on, the next older file is joined if it is less than twice as large as the join so far; so ARCHIVE
is written anew only once the additions are half as large. Files of less than 64 MiB are always joined. The bytes of a
retired slice are removed with the next join of its file, or by the first fold after 30 days. The disk needs room for
the join.

If it is never called, a command that writes does the same once ARCHIVE.today has a tenth of the whole."""
USAGE = "symarch-keep fold [--quiet] [--wait SECONDS] [--all] [--purge] ARCHIVE"
ABOUT = "join recent additions into an archive"


def define(parser: argparse.ArgumentParser) -> None:
    parser.add_argument("--all", action="store_true", help="join all levels into ARCHIVE")
    parser.add_argument("--purge", action="store_true", help="remove the bytes of all retired slices")
    parser.add_argument("archive", metavar="ARCHIVE")


def carry_out(arguments: argparse.Namespace) -> int:
    screen = screen_of(arguments)
    program = Program()
    archive = Archive(os.fsencode(arguments.archive))
    archive.take_lock(screen, arguments.wait)
    archive.content(program, screen)
    came, waited = archive.files.today.content, archive.files.bytes_waiting()
    with archive.folder.room() as room:
        Draft(archive, room, program, screen).fold(arguments.all, arguments.purge)
    told = f"{len(came.held)} slices, {len(came.retired)} retirements joined"
    gone = f"; {waited - archive.files.bytes_waiting()} bytes of retired slices were removed" if arguments.purge else ""
    screen.line(f"{shown(archive.path)}: {told}{gone}")
    return screen.status()
