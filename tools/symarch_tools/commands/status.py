"""`status`: prints what an archive has, in numbers."""
import argparse
import collections
import contextlib
import os
from dataclasses import dataclass, field
from typing import Counter, Dict, List, NamedTuple, Sequence, Tuple

from ..console.escapes import shown
from ..console.json_lines import Line, Members, path_members
from ..console.screen import Screen, screen_of
from ..exchange.memory import Exchanged
from ..formats.builds import NEXT_BUILDS
from ..formats.contents import DIGEST, KEY, RETIREMENT, Content, digest_in, head_of, record_size, records_in, words_of
from ..formats.indexes import HEAD, is_companion
from ..store.archive import Archive
from ..store.archive_file import ArchiveFile
from ..store.file_names import NEXT_INDEX
from ..store.lock import looks
from ..store.log import NEXT_LOG
from ..store.losses import counted, lost_lines

DESCRIPTION = """\
Prints the content of ARCHIVE in numbers, and the sites with which it exchanges. It reads the indexes; `check` reads
the whole archive.

  images N            slices of images
  companions N        slices of dSYMs
  retirements N       slices that were withdrawn
  conflicts N         UUIDs and architectures for which several slices answer
  bytes N             of ARCHIVE
  today N             bytes of ARCHIVE.today
  levels N            bytes of ARCHIVE.1, ARCHIVE.2 and so on together
  waiting N           bytes of retired slices that are still in a file
  site NAME ...       when that site was last `answered`, last `asked`, and its answer was last `joined`
  conflict ...        UUID and ARCH of each conflict, and how many slices answer
  lost ...            UUID, ARCH and DIGEST of a slice that was there and is not, or the same after `retired`
  left PATH           a file that a kill left, which the next command that writes removes

`today`, `levels` and `waiting` are omitted if they are 0. `exchange` brings back a lost record if another site has it;
--accept gives up the others. The status is 2 if something is lost or damaged."""
USAGE = "symarch-keep status [--quiet] [--wait SECONDS] [--json] [--accept] ARCHIVE"
ABOUT = "print the content of an archive in numbers"
NUMBERS = ("images", "companions", "retirements", "conflicts", "bytes", "today", "levels", "waiting")
KEYS = (*NUMBERS, "sites", "conflicting", "lost", "left")
DATES = ("asked", "answered", "joined")


def define(parser: argparse.ArgumentParser) -> None:
    parser.add_argument("--accept", action="store_true", help="give up the lost records")
    parser.add_argument("archive", metavar="ARCHIVE")


def carry_out(arguments: argparse.Namespace) -> int:
    screen = screen_of(arguments)
    archive = Archive(os.fsencode(arguments.archive), writes=arguments.accept)
    if arguments.accept:
        archive.take_lock(screen, arguments.wait)
        from ..store.program import Program

        accept(archive, archive.content(Program(), screen), screen)
    else:
        archive.say_damaged_builds(screen)
        if archive.lost.fault:
            screen.fail(f"{shown(archive.lost.path)}: {archive.lost.fault}, so lost records are not known")
    # A command that writes meanwhile has what was asked before, and ARCHIVE and levels have what ARCHIVE.today had
    # before.
    asked = Exchanged(archive)
    seen = [see(archive.files.today, screen)]
    archive.files.find_levels()
    seen += [see(file, screen) for file in (*reversed(archive.files.levels), archive.files.main)]
    counts = Counts.of([record for one in seen for record in one.records])
    numbers, conflicts = counts.numbers(), counts.conflicts()
    files = archive.files
    today, *levels, main = (one.size for one in seen)
    numbers.update({"bytes": main, "today": today, "levels": sum(levels), "waiting": files.bytes_waiting()})
    lost, sites, left = lost_lines(lost_of(archive, asked, seen)), sites_of(asked), left_of(archive)
    if screen.is_json:
        found = list(map(members_of_site, asked.sites.items())), conflicts, [members_of_lost(line) for line in lost]
        lists = [*found, [path_members(path) for path in left]]
        screen.faults += [str(line) for line in lost]
        return screen.end(2 if lost else 0, {**numbers, **dict(zip(KEYS[len(numbers):], lists))})
    may_lack = "today", "levels", "waiting"
    lines = [f"{name} {number}" for name, number in numbers.items() if number or name not in may_lack]
    lines += [*sites, *("conflict {uuid} {arch} {answering}".format(**it) for it in conflicts), *lost]
    screen.show([*lines, *(f"left {shown(path)}" for path in left)])
    return screen.status(2 if lost else 0)


def members_of_site(site: Tuple[str, Dict[str, str]]) -> Members:
    """A site and its dates. One of what never was is null."""
    name, dates = site
    return {"name": name, **{key: dates.get(key) for key in DATES}}


def members_of_lost(line: Line) -> Members:
    return {name: line.members[name] for name in ("record", "uuid", "arch", "digest")}


def accept(archive: Archive, content: Content, screen: Screen) -> None:
    """Takes as lost what an archive of a content lacks. Its lines are kept in the log."""
    archive.lost.add(Exchanged(archive).lacking_in(content))
    lines = archive.lost.accept()
    archive.keep_lost()
    archive.folder.log.note([f"accepted {line}" for line in lines], screen)
    screen.line(f"{shown(archive.path)}: {counted(lines)} are given up")


class Record(NamedTuple):
    """A record: its head, whether its slice is a companion, in which file it stands where, and its digest, if that is
    known."""

    head: bytes
    is_companion: bool
    path: bytes
    at: int
    digest: bytes = b""

    def key(self) -> bytes:
        return self.head[1 : 1 + KEY]

    def entry(self) -> bytes:
        """The key and the digest of a slice, which is read if it has to be."""
        if self.digest:
            return self.key() + self.digest
        with open(self.path, "rb") as file:
            return self.key() + digest_in(file, self.at + HEAD, record_size(self.head) - HEAD)


class Seen(NamedTuple):
    """An archive file: its records, whether it has what the last command left, and how many bytes it has."""

    file: ArchiveFile
    records: List[Record]
    is_same: bool
    size: int

    def content(self, had: Content) -> Content:
        """What it has of what the archive had."""
        return self.file.content if self.is_same else found_in(self.records, had)


def see(file: ArchiveFile, screen: Screen) -> Seen:
    """The records of an archive file: those of its index, if that is of it. Says what is damaged next to it."""
    is_same = any(file.recall() for _ in looks(file.state, quiet=0))
    index = file.index
    if file.doubt:
        screen.fail(f"{file.doubt}; call `symarch-keep check`")
    file.say_other_index(screen)
    lacking = len(index.without_table()) if index and file.has_index() else 0
    if index and lacking:
        screen.fail(f"{shown(index.path)}: slices without a table: {lacking}; call `symarch-keep check`")
    if not index or not is_same:
        return Seen(file, read(file), is_same, file.size())
    rows = ((row.head(), bool(row.is_companion), file.path, row.at, row.entry[-DIGEST:]) for row in index.rows())
    return Seen(file, [Record(*row) for row in rows], is_same, index.size())


def found_in(records: Sequence[Record], had: Content) -> Content:
    """What records have of a content, by their heads. Those that may be several slices are read, and so are those of
    one whose length nobody kept."""
    entries: Dict[bytes, List[bytes]] = {}
    for entry, length in had.held.items():
        entries.setdefault(head_of(entry[:KEY], length), []).append(entry)
    found = Content({one.head[1:] for one in records if one.head[:1] == RETIREMENT})
    for one in records:
        its, others = entries.get(one.head, []), entries.get(head_of(one.key(), 0), [])
        if one.head[:1] != RETIREMENT and (its or others):
            found.held[one.entry() if others or len(its) > 1 else its[0]] = record_size(one.head) - HEAD
    return found


def lost_of(archive: Archive, asked: Exchanged, seen: Sequence[Seen]) -> Content:
    """What the archive had and lacks, except for what is taken as lost."""
    if all(one.is_same for one in seen):
        content = archive.files.joined()
        had = archive.lost.content.joined(asked.lacking_in(content))
    else:
        had = archive.lost.content.joined(asked.content()).joined(archive.files.joined())
        content = Content()
        for one in seen:
            content = content.joined(one.content(had))
    return had.beyond(content).beyond(archive.lost.accepted)


def read(archive_file: ArchiveFile) -> List[Record]:
    """The records that an archive file has by its bytes; none if it is not there."""
    records = []
    with contextlib.suppress(FileNotFoundError), archive_file.opened() as file:
        for head, after in records_in(file):
            at = after - len(head)
            is_slice = head[:1] != RETIREMENT
            records.append(Record(head, is_slice and bool(is_companion(file, at)), archive_file.path, at))
    return records


@dataclass
class Counts:
    """How many slices of each kind records have by their keys, and retirements."""

    retirements: int
    images: Counter[bytes] = field(default_factory=collections.Counter)
    companions: Counter[bytes] = field(default_factory=collections.Counter)

    @classmethod
    def of(cls, records: Sequence[Record]) -> "Counts":
        """Of slices that may be retired, or may be one, the bytes are read."""
        retired = {one.head[1:] for one in records if one.head[:1] == RETIREMENT}
        slices = [one for one in records if one.head[:1] != RETIREMENT]
        retired_keys, heads = {entry[:KEY] for entry in retired}, collections.Counter(one.head for one in slices)
        counts, seen = cls(len(retired)), set(retired)
        for one in slices:
            if one.key() in retired_keys or heads[one.head] > 1:
                entry = one.entry()
                if entry in seen:
                    continue
                seen.add(entry)
            (counts.companions if one.is_companion else counts.images)[one.key()] += 1
        return counts

    def conflicts(self) -> List[Members]:
        """The keys for which several slices answer, and how many."""
        answering = {**self.images, **self.companions}
        found = [(words_of(key).split(" "), count) for key, count in sorted(answering.items()) if count > 1]
        return [{"uuid": uuid, "arch": arch, "answering": count} for (uuid, arch, _), count in found]

    def numbers(self) -> Dict[str, int]:
        kinds = {"images": sum(self.images.values()), "companions": sum(self.companions.values())}
        return {**kinds, "retirements": self.retirements, "conflicts": len(self.conflicts())}


def sites_of(asked: Exchanged) -> List[str]:
    """What `exchange` noted of each site."""
    return [note for note in asked.kept.notes if note.startswith("site ")] if asked.kept else []


def left_of(archive: Archive) -> List[bytes]:
    """What a kill left. What belongs to one that works now is not."""
    if archive.writes or not archive.lock.is_free():
        return []
    paths = [file.beside(NEXT_INDEX) for file in archive.files]
    paths += [archive.folder.beside(ending) for ending in (NEXT_LOG, NEXT_BUILDS)]
    paths += [os.path.join(archive.folder.parent, name) for name in archive.folder.rooms()]
    return [path for path in paths if os.path.exists(path)]
