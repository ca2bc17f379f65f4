"""What `get` makes of UUIDs: which slices go into which file, and what that is called."""
import os
import uuid
from typing import Dict, Iterable, List, Mapping, NamedTuple, Optional, Sequence, Set, Tuple

from ...formats.builds import UNKNOWN, UUID_SIZE, Build, BuildLines, Builds, Named, bytes_of, with_app
from ...formats.contents import DIGEST, KEY, uuid_text
from ...formats.indexes import IndexRow
from ..file_names import is_archive

UUID = 16
BUNDLE = b".dSYM"
# How long the name of a file may be.
MOST_OF_NAME = 255
# The slices of a UUID and architecture that are of a dSYM, or are not.
COMPANION, IMAGE = 1, 0


class PlannedFile(NamedTuple):
    """A file that is made: a dSYM bundle, or an image next to it; its slices, one for each architecture; its name; and
    the build of which it is."""

    is_bundle: bool
    rows: Tuple[IndexRow, ...]
    name: bytes
    build: Build


class Undecided(NamedTuple):
    """Slices of one UUID and architecture of which none is chosen, and whether a dSYM answers for them."""

    rows: List[IndexRow]
    has_companion: bool


def near(
    uuids: Iterable[bytes], held: Mapping[bytes, IndexRow], builds: Builds
) -> Tuple[Dict[bytes, IndexRow], BuildLines]:
    """Of what is held the slices of UUIDs and of their builds, with their lines."""
    days = builds.near(uuid_text(one).encode() for one in uuids)
    found = {uuid.UUID(rest[:UUID_SIZE].decode()).bytes for rest in days}.union(uuids)
    rows = {entry: row for entry, row in held.items() if entry[:UUID] in found}
    return rows, BuildLines(builds.of_slices(days), rows)


class Wishes:
    """What is made of UUIDs in a folder, of the slices that an archive has, whose lines of builds these are. Digests
    choose among several slices."""

    def __init__(
        self,
        uuids: Iterable[bytes],
        held: Mapping[bytes, IndexRow],
        lines: BuildLines,
        digests: Iterable[bytes] = (),
        folder: bytes = b"",
    ) -> None:
        self.uuids, self.lines, self.digests = dict.fromkeys(uuids), lines, set(digests)
        self.folder = folder
        self.of_keys: Dict[bytes, List[IndexRow]] = {}
        for entry, row in sorted(held.items()):
            self.of_keys.setdefault(entry[:KEY], []).append(row)
        # The keys of each UUID, and of each build.
        self.of_uuids: Dict[bytes, List[bytes]] = {}
        self.of_builds: Dict[Named, List[bytes]] = {}
        for key in self.of_keys:
            self.of_uuids.setdefault(key[:UUID], []).append(key)
            for named in lines.of_keys[key]:
                self.of_builds.setdefault(named, []).append(key)
        self.undecided: List[Undecided] = []

    def absent(self) -> List[bytes]:
        """The UUIDs of which nothing is there."""
        return [one for one in self.uuids if one not in self.of_uuids]

    def without_dsym(self) -> List[bytes]:
        """The UUIDs of which images alone are there."""
        held = [one for one in self.uuids if one in self.of_uuids]
        return [one for one in held if not any(self.slices(key, COMPANION) for key in self.of_uuids[one])]

    def unused(self) -> Set[bytes]:
        """The digests that no slice of the UUIDs has."""
        keys = (key for one in self.uuids for key in self.of_uuids.get(one, []))
        return self.digests - {row.entry[-DIGEST:] for key in keys for row in self.of_keys[key]}

    # ---- which slices

    def files(self) -> List[PlannedFile]:
        """The files, in the order of the UUIDs, each bundle before the image next to it."""
        groups = dict.fromkeys(tuple(self.keys_of(one)) for one in self.uuids)
        found = (self.file(keys, kind) for keys in groups for kind in (COMPANION, IMAGE))
        return [one for one in found if one]

    def keys_of(self, one: bytes) -> List[bytes]:
        """The keys of a UUID, and those of its build for other architectures, if the build has one of each."""
        own = self.of_uuids.get(one, [])
        named = next((it for key in own for it in self.lines.of_keys[key] if self.has_name(it)), None)
        every = sorted({*own, *(self.of_builds[named] if named else [])})
        return every if len({key[UUID:] for key in every}) == len(every) else own

    def file(self, keys: Sequence[bytes], kind: int) -> Optional[PlannedFile]:
        """The file that has the slices of a kind; None if none of them is asked for, or one that is asked for is
        undecided. Another one is left out then."""
        rows: List[IndexRow] = []
        is_asked, are_decided = False, True
        for key in keys:
            found = self.slices(key, kind)
            is_wanted = bool(found) and key[:UUID] in self.uuids
            is_asked |= is_wanted
            if len(found) == 1:
                rows += found
            elif is_wanted:
                are_decided = False
                self.undecided.append(Undecided(found, kind == IMAGE and bool(self.slices(key, COMPANION))))
        return self.named(kind, rows) if is_asked and are_decided else None

    def slices(self, key: bytes, kind: int) -> List[IndexRow]:
        found = [row for row in self.of_keys[key] if row.is_companion == kind]
        return [row for row in found if row.entry[-DIGEST:] in self.digests] or found

    # ---- what it is called

    def named(self, kind: int, rows: Sequence[IndexRow]) -> PlannedFile:
        """A file by the first name that something says of a slice of it, or else by its UUID."""
        rows = sorted(rows, key=lambda row: row.entry[1:][UUID:KEY])
        asked = sorted(rows, key=lambda row: row.entry[1:][:UUID] not in self.uuids)
        lines = [it for row in asked for it in self.lines_of(row)]
        build = next((it.build for it in lines if self.has_name(it)), Build())
        name = bytes_of(build.name) if build != Build() else uuid_text(asked[0].entry[1:][:UUID]).encode()
        return PlannedFile(kind == COMPANION, tuple(rows), name, build)

    def lines_of(self, row: IndexRow) -> List[Named]:
        """What is known of a slice, and then of its UUID and architecture; first that which names an app."""
        own = sorted(self.lines.every.get(row.entry[1:], []))
        return [*with_app(own), *own, *self.lines.of_keys[row.entry[1:][:KEY]]]

    def has_name(self, named: Named) -> bool:
        name = bytes_of(named.build.name)
        return named.build.name != UNKNOWN and is_name(name) and not is_beside_archive(self.folder, name)


def is_name(name: bytes) -> bool:
    """Whether a file, and a bundle, may be called so, and stands in its folder then."""
    is_of_folder = b"/" not in name and b"\0" not in name and name not in (b".", b"..")
    return is_of_folder and len(name + BUNDLE) <= MOST_OF_NAME


def is_beside_archive(folder: bytes, name: bytes) -> bool:
    """Whether a file of this name may be taken for one that symarch-keep keeps next to an archive in a folder."""
    parts = name.split(b".")
    names = (b".".join(parts[:count]) for count in range(1, len(parts)))
    return any(is_archive(os.fsdecode(os.path.join(folder, one))) for one in names)
