"""`check`: finds each byte that changed."""
import argparse
import contextlib
import os
from typing import List, Tuple

from ..console.escapes import shown
from ..console.faults import Failed
from ..console.screen import Screen, screen_of
from ..exchange.signatures import SIGNERS, Remembered
from ..formats.contents import MAGICS, Content
from ..formats.indexes import held_against
from ..store.archive import Archive
from ..store.archive_file import ArchiveFile
from ..store.changes import Examined, index_read, keep_changed, line_of_file, line_of_row, told_apart
from ..store.file_names import INDEX, strangers_beside
from ..store.losses import changed_line, file_line, lost_lines
from ..store.program import Program

DESCRIPTION = """\
Reads all of ARCHIVE, and compares each record and each table with the SHA-256 that its index has. It changes no
archive, and works on a disk that is read-only.

  changed UUID ARCH DIGEST OFFSET FILE            the slice no longer has this SHA-256, or its head has other bytes
  changed retired UUID ARCH DIGEST OFFSET FILE    the retirement has other bytes
  changed table UUID ARCH DIGEST OFFSET FILE      the table of the slice in the index FILE has other bytes,
                                                  or there is none
  changed ends FILE                               the first 8 or the last 9 bytes changed
  lost UUID ARCH DIGEST                           the slice was there, and neither it nor its retirement is
  lost retired UUID ARCH DIGEST                   the retirement was there, and is not
  damaged FILE                                    a file next to ARCHIVE is not as symarch-keep wrote it
  unknown FILE                                    it is not known whether the file is as it was

OFFSET is where in FILE the record or the table begins. `repair` restores changed bytes, and `exchange` brings back lost
records. The status is 2 if there is such a line."""
USAGE = "symarch-keep check [--quiet] [--wait SECONDS] [--json] ARCHIVE"
ABOUT = "find each byte that changed"
KEYS = ("slices", "retirements", "wrong")


def define(parser: argparse.ArgumentParser) -> None:
    parser.add_argument("archive", metavar="ARCHIVE")


def held(archive: Archive, file: ArchiveFile, program: Program, screen: Screen) -> Tuple[List[str], Content]:
    """Holds a file that is not the one of its index against what is known of it, and takes what it has. Returns the
    lines, and what is lost."""
    made, is_unknown = index_read(file, program, screen), not file.is_known
    if file.doubt:
        is_unknown = not file.says(archive.made_elsewhere(file, program, screen))
    file.index, changed, lost = held_against(file.content, made)
    file.content = file.index.content()
    lines = [changed_line(row, file.path) for row in changed]
    return lines + [file_line("unknown", file.path)] * is_unknown, lost


def damaged_lines(archive: Archive) -> List[str]:
    """The lines of what is kept next to an archive and is damaged."""
    paths = [file.beside(INDEX) for file in archive.files if file.doubt]
    builds = archive.folder.builds
    paths += [archive.lost.path] * bool(archive.lost.fault) + [builds.path] * bool(builds.fault())
    paths += [archive.folder.beside(SIGNERS)] * are_damaged_signers(archive)
    return [file_line("damaged", path) for path in paths]


def are_damaged_signers(archive: Archive) -> bool:
    try:
        Remembered(archive.folder)
        return False
    except Failed:
        return True


def strangers_of(archive: Archive) -> List[bytes]:
    """Archives that are called as levels and are none."""
    paths = map(archive.folder.beside, strangers_beside(archive.path))
    return [path for path in paths if ArchiveFile(path, b"").magic() in MAGICS]


def look_through(archive: Archive, files: List[ArchiveFile], screen: Screen) -> List[str]:
    """The lines of what changed in files, by their indexes. Other commands may write meanwhile."""
    lines: List[str] = []
    with contextlib.ExitStack() as ends:
        found = [Examined.of(file, file.index, ends) for file in files if file.index]
        kept = [line_of_file(one.file, one.made, one.opened) for one in found]
        archive.release_lock()
        screen.begin("reading", sum(one.size() for one in found))
        for one in found:
            findings = one.findings(screen.moved)
            lines += findings.lines()
            kept += [line_of_row("changed", one.file, row) for row in findings.changed]
            kept += [line_of_row("table", one.file, row) for row in findings.tables]
    keep_changed(archive.path, kept)
    return lines


def carry_out(arguments: argparse.Namespace) -> int:
    screen = screen_of(arguments)
    program = Program()
    archive = Archive(os.fsencode(arguments.archive), writes=False, may_be_damaged=True)
    archive.take_lock(screen, arguments.wait)
    same, others = told_apart(archive.files, program, screen)
    more, lost = damaged_lines(archive), archive.lost.content
    for file in others:
        lines, its_lost = held(archive, file, program, screen)
        more, lost = more + lines, lost.joined(its_lost)
    content, strangers = archive.files.joined(), strangers_of(archive)
    more += [file_line("unknown", path) for path in strangers]
    lines = [*look_through(archive, same, screen), *more, *lost_lines(lost.beyond(content))]
    screen.show(lines)
    for file in archive.files:
        if f"unknown {shown(file.path)}" in lines:
            screen.line(advice(archive, file))
    for path in map(shown, strangers):
        screen.line(f"{path}: give it another name; or, if it is a level, call `symarch index {path} {path}.idx`")
    told = "everything that was known is there" if others else "nothing changed"
    counts = f"{len(content.held)} slices, {len(content.retired)} retirements"
    wrong = f"{len(lines)} changed, lost, damaged or unknown"
    if lines:
        screen.faults.append(wrong)
    screen.line(f"{shown(archive.path)}: {counts}: {wrong if lines else told}")
    numbers = (len(content.held), len(content.retired), len(lines))
    return screen.end(2 if lines else 0, dict(zip(KEYS, numbers)))


def advice(archive: Archive, file: ArchiveFile) -> str:
    """What takes a file of which nothing is known as it stands."""
    if not file.doubt:
        return f"{shown(file.path)}: nothing is known of it; the next command that writes accepts it as it is"
    path, index = shown(file.path), shown(file.beside(INDEX))
    call = f"symarch index {path} {index}" if file in archive.files.levels else "symarch-keep fold"
    return f"{path}: to accept it as it is, remove {index}, and call `{call}`"
