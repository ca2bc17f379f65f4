"""The answers of symarch-keep, and what an archive has of a UUID, as workers make them. A job is an object with its
name and its room, the folder in which it is carried out."""
from __future__ import annotations

import math
import os
import tarfile
import time
import uuid
from dataclasses import dataclass
from typing import Any, Dict, Iterator, List, NamedTuple, Optional, Sequence, Tuple

from symarch_tools import keep as tool
from symarch_tools.commands.list import Listed, fits, listed
from symarch_tools.console.escapes import shown
from symarch_tools.console.faults import Failed
from symarch_tools.console.json_lines import encoded
from symarch_tools.console.screen import Screen
from symarch_tools.formats.builds import BuildLines, Named, field, field_shown
from symarch_tools.formats.contents import digest_in
from symarch_tools.formats.files import DESCRIPTORS
from symarch_tools.reports.archives import with_levels
from symarch_tools.store import lock
from symarch_tools.store.archive import Archive
from symarch_tools.store.asking import Asked, opened_archive
from symarch_tools.store.lookup import KeptSlice, KeptSlices, digest_of, key_in

from .control import OUT, Members

DSYM, IMAGE = "debuginfo", "executable"
# When slices were compared with their digests, by the state of their file; and for how many seconds that counts.
compared: Dict[Tuple[object, ...], float] = {}
REMEMBERED = 60.0
# How files that `get` made stand in a tar.
BUNDLES = "got"


def words_of_keep(words: Sequence[str]) -> int:
    """Carries out words of symarch-keep, and returns its status. What it prints is in `out` and `err`."""
    try:
        return tool.carry_out(tool.parse(words))
    except SystemExit as ended:
        return ended.code if isinstance(ended.code, int) else 3
    finally:
        lock.close_all()


def keep(job: Members, _: List[int]) -> Members:
    """What comes of words. A process that wrote is not asked again: it keeps what a word has until it ends."""
    return {"status": words_of_keep(job["words"]), "is_last": job["words"][0] == "add"}


# ---- builds


def builds(job: Members, _: List[int]) -> Members:
    """The builds of an app from one day to another. As `list --json` has them they are in `out`; the last ones are
    rows."""
    screen = Screen()
    since, until = job["since"] or "", job["until"] or "9"
    app = field_shown(field(job["app"].encode())) if job["app"] else None
    with opened_archive(os.fsencode(job["archive"])) as asked:
        asked.archive.say_damaged_builds(screen)
        every = listed(asked, asked.archive.folder.builds, screen)
    fitting = (one for one in every if fits(one, [app], since))
    found = [one for one in fitting if not job["until"] or one.day != "?" and one.day <= until]
    if job["is_written"]:
        write_builds(found, screen)
    last = sorted(found, key=lambda one: (one.day == "?", one.day), reverse=True)[: job["most"]]
    return {"status": 0, "count": len(found), "rows": [one.members() for one in last], "faults": screen.faults}


def write_builds(found: Sequence[Listed], screen: Screen) -> None:
    """The objects of `list --json`, as an array."""
    end = {"builds": len(found), "faults": screen.faults, "status": screen.status(0 if found else 1)}
    with open(OUT, "w", encoding="utf-8") as file:
        file.write("[")
        file.writelines(f"{encoded({'type': 'build', **one.members()})},\n" for one in found)
        file.write(f"{encoded({'type': 'end', **end})}]\n")


# ---- what an archive has of a UUID


def kept_slices(numbers: Sequence[uuid.UUID], path: str) -> KeptSlices:
    """What an archive has under some UUIDs, with its levels and what came in lately."""
    kept = KeptSlices(set())
    for _ in lock.looks(lambda: [one.file.state() for one in with_levels([path])], quiet=0):
        kept = KeptSlices.under(numbers)
        for one in with_levels([path]):
            kept.take(one.path, one.index)
    return kept


@dataclass(frozen=True)
class OfUuid:
    """What the files of an archive that are open have of a UUID, as they stand now."""

    number: uuid.UUID
    archive: Archive
    kept: KeptSlices

    @classmethod
    def read(cls, asked: Asked, number: uuid.UUID) -> OfUuid:
        made = cls(number, asked.archive, KeptSlices.under([number]))
        for one in asked.files:
            index = f"{DESCRIPTORS}/{one.index_file.fileno()}" if one.index_file else ""
            made.kept.take(f"{DESCRIPTORS}/{one.opened.fileno()}", index)
        if not made.kept.is_known:
            raise Failed(f"{shown(made.archive.path)} could not be read: run symarch-keep check on it", 2)
        made.refuse_changed(asked)
        return made

    def refuse_changed(self, asked: Asked) -> None:
        """Refuses slices that have no digest of their own here, and another one than all indexes have."""
        lacking = [(key, one) for key, its in self.kept.slices.items() for one in its if not one.digest]
        if lacking and all(one.its_index for one in asked.files):
            known = {entry for one in asked.files if one.its_index for entry in one.its_index.content().held}
            for key, one in lacking:
                if key + digest_of(one) not in known:
                    raise asked.changed(f"{self.number} {key_in(key)[1]}")

    def is_there(self) -> bool:
        return any(self.kept.slices.values()) or any(self.kept.retired.values())

    def answering(self) -> Iterator[Tuple[bytes, KeptSlice, bytes]]:
        """The key of each slice that is not retired, the slice, and its digest, each of them once."""
        found: Dict[Tuple[bytes, bytes], KeptSlice] = {}
        for key, one in [(key, one) for key, slices in sorted(self.kept.slices.items()) for one in slices]:
            digest = one.digest or digest_of(one)
            if digest not in self.kept.retired.get(key, ()):
                found.setdefault((key, digest), one)
        return ((key, one, digest) for (key, digest), one in found.items())

    def lines(self) -> BuildLines:
        """What is known of the builds of its slices."""
        entries = [key + digest for key, _, digest in self.answering()]
        mine = str(self.number).encode()
        known = self.archive.folder.builds.known
        days = {rest: day for rest, day in known.items() if rest.startswith(mine)}
        return BuildLines(self.archive.folder.builds.of_slices(days), entries)


def held(job: Members, _: List[int]) -> Members:
    """What an archive has of a UUID, by architecture."""
    with opened_archive(os.fsencode(job["archive"])) as asked:
        found = OfUuid.read(asked, uuid.UUID(job["uuid"]))
        lines = found.lines()
        keys: Dict[bytes, List[Members]] = {key: [] for key in sorted({*found.kept.slices, *found.kept.retired})}
        for key, one, digest in found.answering():
            keys[key].append(slice_members(one, digest, lines.of_slice(key + digest) or lines.of_keys.get(key, [])))
        retired = {key: sorted(it.hex() for it in its) for key, its in found.kept.retired.items()}
        answers = [architecture(key_in(key)[1], its, retired.get(key, [])) for key, its in keys.items()]
        return {"status": 0, "is_there": found.is_there(), "architectures": answers}


def slice_members(one: KeptSlice, digest: bytes, lines: Sequence[Named]) -> Members:
    names = [{"day": it.day or None, **it.build.members()} for it in lines]
    kind = "dsym" if one.is_companion else "image"
    return {"kind": kind, "digest": digest.hex(), "bytes": one.length, "builds": names}


def architecture(arch: str, slices: List[Members], retired: List[str]) -> Members:
    dsyms = [one for one in slices if one["kind"] == "dsym"]
    return {"arch": arch, "slices": slices, "retired": retired, "conflict": len(dsyms or slices) > 1}


class Wanted(NamedTuple):
    """A slice that is asked for: of which UUID, whether it is that of a dSYM, and what chooses among several."""

    number: uuid.UUID
    is_companion: bool
    arch: Optional[str]
    digest: Optional[str]

    def has(self, key: bytes, one: KeptSlice, digest: bytes) -> bool:
        is_its = one.is_companion == self.is_companion and self.arch in (None, key_in(key)[1])
        return is_its and self.digest in (None, digest.hex())


def slice_of(job: Members, descriptors: List[int]) -> Members:
    """One slice of a UUID, whose file is opened, after its bytes were compared with its SHA-256; or why it is none."""
    wanted = Wanted(uuid.UUID(job["uuid"]), job["kind"] == DSYM, job["arch"], job["digest"])
    with opened_archive(os.fsencode(job["archive"])) as asked:
        every = list(OfUuid.read(asked, wanted.number).answering())
        found = [it for it in every if wanted.has(*it)]
        if len(found) != 1:
            return {"status": 0, "candidates": [candidate(*it) for it in found], "has_others": bool(every)}
        key, one, digest = found[0]
        descriptor = os.open(one.path, os.O_RDONLY | os.O_CLOEXEC)
        descriptors.append(descriptor)
        if not is_as_it_came(descriptor, one, digest):
            raise asked.changed(f"{wanted.number} {key_in(key)[1]} {digest.hex()}")
    return {"status": 0, "at": one.at, "bytes": one.length, **candidate(key, one, digest)}


def is_as_it_came(descriptor: int, one: KeptSlice, digest: bytes) -> bool:
    """Whether the bytes of a slice in an open file have its digest. They are not read again within a minute, as for the
    ranges of one download, unless somebody wrote to the file."""
    state = (*lock.state_in(os.fstat(descriptor)), one.at, one.length, digest)
    now = time.monotonic()
    if now - compared.get(state, -math.inf) < REMEMBERED:
        return True
    with open(descriptor, "rb", closefd=False) as file:
        is_same = digest_in(file, one.at, one.length) == digest
    if is_same:
        for other in [it for it, then in compared.items() if now - then >= REMEMBERED]:
            del compared[other]
        compared[state] = now
    return is_same


def candidate(key: bytes, _: KeptSlice, digest: bytes) -> Members:
    return {"arch": key_in(key)[1], "digest": digest.hex()}


def dsyms(job: Members, _: List[int]) -> Members:
    """Of some UUIDs those of which the archive has a dSYM."""
    numbers = [uuid.UUID(one) for one in job["uuids"]]
    kept = kept_slices(numbers, job["archive"])
    keys = [key_in(key) for key in list(kept.slices)]
    return {"status": 0, "uuids": sorted({str(key[0]) for key in keys if kept.has_companion(key)})}


# ---- dSYM bundles


def bundle(job: Members, _: List[int]) -> Members:
    """What `get` makes of a UUID, in a folder of the room; and the pieces of a tar of it, each a head, a file and how
    many bytes that has, and how many zeros follow."""
    digests = [word for one in job["digests"] for word in ("--digest", one)]
    status = words_of_keep(["get", *digests, "--to", BUNDLES, "--", job["archive"], job["uuid"]])
    pieces = [piece_of(path) for path in sorted(paths_below(BUNDLES))] if os.path.isdir(BUNDLES) else []
    has_dsym = any(path.endswith(".dSYM") for path in (os.listdir(BUNDLES) if pieces else []))
    return {"status": status, "pieces": pieces, "has_dsym": has_dsym}


def paths_below(folder: str) -> Iterator[str]:
    for at, folders, files in os.walk(folder):
        yield from (os.path.join(at, name) for name in [*folders, *files])


def piece_of(path: str) -> Dict[str, Any]:
    found = os.stat(path)
    made = tarfile.TarInfo(os.path.relpath(path, BUNDLES))
    is_folder = os.path.isdir(path)
    made.type, made.mode = (tarfile.DIRTYPE, 0o755) if is_folder else (tarfile.REGTYPE, 0o644)
    made.size, made.mtime = 0 if is_folder else found.st_size, int(found.st_mtime)
    head = made.tobuf(tarfile.GNU_FORMAT, "utf-8", "surrogateescape")
    return {"head": head.hex(), "path": None if is_folder else path, "bytes": made.size}
