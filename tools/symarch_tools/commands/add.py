"""`add`: puts the images and dSYMs of files and folders into an archive."""
import argparse
import collections
import contextlib
import functools
import os
import shutil
import sys
import tempfile
from typing import Dict, Iterator, List, Sequence, Set, Tuple, Union

from ..console.escapes import shown
from ..console.faults import SliceRefused
from ..console.screen import Screen, screen_of
from ..formats.builds import Builds, Sight, days_of
from ..formats.contents import Content
from ..formats.files import DESCRIPTORS
from ..store.archive import Archive
from ..store.draft import Draft, News
from ..store.program import Program
from ..store.refusals import promised, read_records, refusals, refuse_faulty
from ..store.slices import Finder, Slice, compared

DESCRIPTION = """\
Adds the Mach-O images and dSYMs of files and folders to ARCHIVE, and makes ARCHIVE if there is something to add.

  symarch-keep add builds.sym dSYMs
  symarch-keep add --dsyms-only builds.sym dSYMs.zip
  symarch-keep add builds.sym - < spool.app.dSYM/Contents/Resources/DWARF/spool

It finds each slice, an image or dSYM of one architecture, 64-bit and little-endian, with a UUID, by its first bytes, at
any depth of a PATH. It follows links to files, and adds a file of several names once. It passes over other files, links
to folders and broken links: it counts them, and names them with --verbose. The status is 1 only if no PATH has an
image. A file that cannot be read, that changes meanwhile or that symarch refuses is reported, and the others are added.

A PATH `-` is standard input. A zip file or a gzipped tar file is read as a folder, at most three levels deep, if it is
a PATH or its name ends in .zip, .ipa, .tar.gz or .tgz. It may unpack to a hundred times its length plus 64 MiB; the
rest is not added. In a zip file a member that has more than 4294967295 bytes, or is encrypted, cut or damaged, is
refused alone; a tar file is read up to such a member. Packed files in others need temporary files, and so do packed
images that are not in the order of their UUIDs.

Each slice gets a line, in the order in which they were found:

  added UUID ARCH DIGEST PATH
  known UUID ARCH DIGEST PATH      the archive had it, or it was found before
  retired UUID ARCH DIGEST PATH    it is withdrawn, so it is not added

DIGEST is the SHA-256 of the slice. In PATH the backslash, and each byte that is no UTF-8 or does not print, is \\x and
two hex digits. ARCHIVE.builds keeps the name of the file, the day, and the app, version and build in Info.plist."""
USAGE = "symarch-keep add [--quiet] [--wait SECONDS] [--json] [--verbose] [--dry-run] [--dsyms-only] ARCHIVE PATH..."
ABOUT = "add images and dSYMs to an archive"
STANDARD_INPUT = b"-"
WORDS = ("added", "known", "retired")
KEYS = (*WORDS, "refused", "passed_over", "made", "dry_run")


def define(parser: argparse.ArgumentParser) -> None:
    parser.add_argument("--verbose", action="store_true", help="name the files that are passed over")
    parser.add_argument("--dry-run", action="store_true", help="print the result, but write nothing")
    only = "of folders, zip and tar files add only the files below NAME.dSYM/Contents/Resources/DWARF"
    parser.add_argument("--dsyms-only", action="store_true", help=only)
    parser.add_argument("archive", metavar="ARCHIVE")
    parser.add_argument("paths", metavar="PATH", nargs="+", help="put -- before one that begins with -")


def read_all(slices: Sequence[Slice], screen: Screen) -> List[Slice]:
    """The slices that can be read, whose digests are known then."""
    files = len({one.path for one in slices})
    screen.begin(f"reading: {{}} of {files} files", sum(one.length for one in slices))
    done, kept = 0, []
    paths: Set[bytes] = set()
    for one in slices:
        paths.add(one.path)
        try:
            for chunk in one.chunks():
                done += len(chunk)
                screen.progress(len(paths), done)
            kept.append(one)
        except SliceRefused as refused:
            screen.refuse(one.name, refused)
    return kept


def mark(slices: Sequence[Slice], content: Content) -> None:
    """Says of each slice whether it is retired, known or added."""
    held = set(content.held)
    for one in slices:
        one.was_held = one.entry() in content.held
        one.word = "retired" if one.entry() in content.retired else "known" if one.entry() in held else "added"
        held.add(one.entry())


def put(
    archive: Archive, program: Program, slices: Sequence[Slice], screen: Screen, is_dry_run: bool
) -> Sequence[Slice]:
    """Puts slices into the archive, and returns those that are in it or retired there."""
    content = archive.content(program, screen)
    while True:
        mark(slices, content)
        refused = put_new(archive, program, slices, screen, is_dry_run)
        if not refused:
            return slices
        # What is wrong with the bytes of a slice is wrong with the same bytes in other files.
        reasons: Dict[Union[bytes, Slice], SliceRefused] = {
            each.one.entry() if each.is_of_bytes else each.one: each for each in refused
        }
        kept = []
        for one in slices:
            reason = reasons.get(one) or reasons.get(one.entry())
            if reason:
                told = f"Slice({one.part or 0}, {reason}){promised(one)}" if reason.is_of_bytes else reason
                screen.refuse(one.name, told)
            else:
                kept.append(one)
        slices = kept


def sights_of(slices: Sequence[Slice], builds: Builds) -> Iterator[Tuple[bytes, Sight, bool]]:
    """What is known of each slice, and whether it was there before, and nothing says in which apps."""
    outer = builds.outer_of_slices()
    for one in slices:
        if one.word != "retired":
            yield one.entry(), one.sight, one.was_held and one.entry() not in outer


def put_new(
    archive: Archive, program: Program, slices: Sequence[Slice], screen: Screen, is_dry_run: bool
) -> List[SliceRefused]:
    """Puts those that are new into the archive, or returns why some of them are refused."""
    new: List[Slice] = []
    try:
        new = sorted((one for one in slices if one.word == "added"), key=functools.cmp_to_key(compared))
        if is_dry_run:
            read_records(program, new)
            return []
        lines = [one.line() for one in slices]
        archive.folder.builds.news = days_of(sights_of(slices, archive.folder.builds))
        if not new:
            if archive.files.main.exists():
                archive.folder.log.note(lines, screen)
                archive.folder.keep_builds(screen)
            return []
        news = Content(held={one.entry(): one.length for one in new})
        with archive.folder.room() as room:
            Draft(archive, room, program, screen, lines).put(News(news, new))
        return []
    except SliceRefused as first:
        return [first, *refusals(program, [one for one in new if one is not first.one])]


def standard_input(ends: contextlib.ExitStack) -> bytes:
    """A path of what standard input has, since each slice is read more than once."""
    copy = ends.enter_context(tempfile.TemporaryFile())
    with contextlib.suppress(AttributeError):
        shutil.copyfileobj(sys.stdin.buffer, copy)
    copy.flush()
    return os.fsencode(f"{DESCRIPTORS}/{copy.fileno()}")


def carry_out(arguments: argparse.Namespace) -> int:
    screen = screen_of(arguments)
    program = Program()
    archive = Archive(os.fsencode(arguments.archive), is_made=True, writes=False)
    os.stat(archive.folder.parent)
    finder, paths = Finder(screen, arguments.dsyms_only), [os.fsencode(path) for path in arguments.paths]
    with contextlib.ExitStack() as ends:
        if STANDARD_INPUT in paths:
            finder.places[STANDARD_INPUT] = standard_input(ends)
        finder.find(paths)
        refuse_faulty(program, finder.faulty, screen)
        readable = read_all(finder.slices, screen)
        finder.name_builds()
        # Where nothing was found nothing is made next to an archive that is not there.
        is_writing = not arguments.dry_run and (archive.files.main.exists() or bool(readable))
        archive = Archive(os.fsencode(arguments.archive), is_made=True, writes=is_writing)
        archive.take_lock(screen, arguments.wait)
        is_there = archive.files.main.exists()
        slices = put(archive, program, readable, screen, arguments.dry_run)
    screen.show([one.line() for one in slices])
    is_made = archive.files.main.exists() and not is_there
    if is_made:
        screen.line(f"made {shown(archive.path)}")
    count = collections.Counter(one.word for one in slices)
    counts = {**{word: count[word] for word in WORDS}, "refused": screen.refused}
    say_counts(counts, screen, arguments.dry_run)
    flags = {"passed_over": dict(sorted(screen.passed_over.items())), "made": is_made, "dry_run": arguments.dry_run}
    status = screen.end(0 if slices else 1, {**counts, **flags})
    screen.insist([one.line() for one in slices if one.word == "retired"])
    return status


def say_counts(counts: Dict[str, int], screen: Screen, is_dry_run: bool) -> None:
    kinds = ", ".join(f"{kind} {number}" for kind, number in sorted(screen.passed_over.items()))
    told = ", ".join(f"{number} {word}" for word, number in counts.items())
    told += f", passed over {sum(screen.passed_over.values())}{f' ({kinds})' if kinds else ''}"
    screen.line(f"{told}; nothing was written" if is_dry_run else told)
