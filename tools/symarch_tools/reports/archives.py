"""The archives of a call, as the program reads them: as their join. What it answers by an index the index vouches for,
by the SHA-256 that each slice came in with.

A key whose table is damaged, or whose slice changed, refuses no other, since `frames --slices` answers those; one with
too many lines is looked up without. An archive of another length, or with a damaged index, is refused whole: it may
have retired slices that another has. Of an image whose architecture no archive can have, one offset is looked up under
another."""
from __future__ import annotations

import functools
import operator
import os
import shutil
import stat
import tempfile
import time
from array import array
from dataclasses import dataclass, field
from typing import Dict, Iterable, List, Mapping, Optional, Sequence, Set, Tuple

from ..console.escapes import shown
from ..console.program_faults import InputFault
from ..console.streams import note
from ..store import file_names
from ..store.archive_file import ArchiveFile
from ..store.file_names import INDEX, NEXT_INDEX
from ..store.levels import ArchiveFiles
from ..store.lock import MOST_OF_CHANGES, State, looks
from .answers import Answers, Key, KeyLines, Origin
from .faults import Failure, Status
from .images import ARCHITECTURES, Image, unique
from .names import Names
from .questions import FramesProgram, cut_short
from .source_lines import Chains

# What `symarch-keep` has next to an archive: what came in lately.
TODAY = os.fsdecode(file_names.TODAY)
# Which files stand at paths.
Places = List[Tuple[bytes, Optional[int]]]
# What is said of an index that is another one's, or is not there any more, and of a slice whose table has no lines.
OF_ANOTHER, NO_LINES = ("Stale", "cannot open"), "NoLines"


def files_of(path: str) -> ArchiveFiles:
    """An archive, its levels and what came in lately, which need not be there. Where a link leads these stand."""
    return ArchiveFiles(os.fsencode(os.path.realpath(path) if os.path.islink(path) else path))


@dataclass(eq=False)
class NamedArchive:
    """An archive file, and the index next to it, if there is one. `kept` is the archive that `symarch-keep` has it
    for."""

    file: ArchiveFile
    path: str
    kept: str
    # The indexes that were taken in place of others, and until when more are.
    tried: Set[Tuple[bytes, Tuple[State, ...]]] = field(default_factory=set)
    end: float = field(default_factory=lambda: time.monotonic() + MOST_OF_CHANGES)

    def __post_init__(self) -> None:
        for one in (self.beside(INDEX), self.beside(NEXT_INDEX), *[self.path] * (self.path != self.kept)):
            if file_names.is_no_file(os.fsencode(one)):
                raise Failure(f"{shown(one)} is {file_names.NO_FILE}: remove it", Status.REFUSED)
        # That of a new file may have no other name yet.
        is_next = not os.path.lexists(self.beside(INDEX)) and self.file.has_length_of(NEXT_INDEX)
        has_own = os.path.lexists(self.beside(INDEX)) and not self.file.has_earlier_index()
        last = self.beside(INDEX) if has_own else ""
        self.index = self.beside(NEXT_INDEX) if is_next else last

    def beside(self, ending: bytes) -> str:
        return os.fsdecode(self.file.beside(ending))

    def refuse(self, why: str, more: str = "") -> None:
        raise Failure(f"{why}: run symarch-keep check {shown(self.kept)}{more}", Status.REFUSED)

    def take_other_index(self) -> None:
        """Takes another index, since the archive has not the length that this one says, or it is gone. A command of
        symarch-keep that ends just now has put a new archive in place, and then puts the index of that."""
        for _ in looks(self.file.state):
            for ending in (NEXT_INDEX, INDEX):
                one = ending, self.file.state()
                if one not in self.tried and time.monotonic() < self.end and self.file.has_length_of(ending):
                    self.tried.add(one)
                    self.index = self.beside(ending)
                    return
        if self.file.is_cut():
            raise cut_short(self.path)
        why = f"{shown(self.path)} was written after {shown(self.beside(INDEX))}, which is stale"
        self.refuse(why, f", and if that ends with 0 symarch-keep fold {shown(self.kept)}, which indexes it anew")

    def make_index(self, program: FramesProgram, folder: str) -> None:
        """Has the program make an index in a folder. What can be read once alone, or is of version 1, is copied."""
        made, named = tempfile.mkdtemp(dir=folder), self.path
        if not stat.S_ISREG(os.stat(self.path).st_mode):
            copy = os.path.join(made, "copy")
            with open(self.path, "rb") as file, open(copy, "wb") as written:
                shutil.copyfileobj(file, written)
            self.path = copy
        if files_of(self.path).main.is_of_version_1():
            program.make("migrate", self.path, os.path.join(made, "archive"), named)
            self.path = os.path.join(made, "archive")
        self.index = os.path.join(made, "index")
        program.make("index", self.path, self.index, named)


def with_levels(paths: Iterable[str]) -> List[NamedArchive]:
    """The archives, each after what `symarch-keep` has next to it: what came in lately, unless that has no record, and
    the levels, the last one first. A fold removes a file once one that follows here has all of it."""
    found = []
    for path in paths:
        files = files_of(path)
        others = [files.today] * (os.path.lexists(files.today.path) and not files.today.is_empty())
        others += filter(ArchiveFile.exists, reversed(files.levels))
        found += [NamedArchive(one, os.fsdecode(one.path), path) for one in others]
        found.append(NamedArchive(files.main, path, path[: -len(TODAY)] if path.endswith(TODAY) else path))
    return found


def refuse_missing(path: str) -> None:
    """Refuses an archive that is not there, and next to which nothing is."""
    try:
        os.stat(path)
    except FileNotFoundError:
        files = files_of(path)
        if not any(os.path.lexists(one.path) for one in (*files.levels, files.today)):
            why = f"{shown(path)}: No such file; symarch-keep add makes an archive"
            raise Failure(why, Status.REFUSED) from None
    except OSError:
        pass


def place_of(path: bytes) -> Tuple[bytes, Optional[int]]:
    """Which file stands under a path."""
    try:
        return path, os.stat(path).st_ino
    except OSError:
        return path, None


def places_of(paths: Iterable[str]) -> Places:
    """Which files archives and their levels are. A fold makes others; what comes in lately does not."""
    files = map(files_of, paths)
    return [place_of(file.path) for its in files for file in (its.main, *filter(ArchiveFile.exists, its.levels))]


@dataclass(eq=False)
class Attempt:
    """An attempt to ask archives, which counts if no others took their places meanwhile: the answers by their keys,
    what answers under each key, and the archives in which slices of some changed."""

    paths: Sequence[str]
    places: Optional[Places]
    answers: Mapping[Key, Answers]
    keys: KeyLines = field(default_factory=KeyLines)
    changed: Dict[Key, str] = field(default_factory=dict)
    program: FramesProgram = field(default_factory=FramesProgram)
    # Where indexes are made.
    folder: str = ""

    def __post_init__(self) -> None:
        self.files = with_levels(self.paths)

    def states(self) -> List[Tuple[State, ...]]:
        return [named.file.state() for named in self.files]

    def ask(self, answers: Sequence[Answers], has_lines: bool) -> bool:
        """Asks the archives, by the index of each if one of them has one, and by another index if one is not of its
        archive. Returns False if others stand in these places meanwhile."""
        while True:
            self.make_indexes()
            reply = self.program.reply([(file.path, file.index) for file in self.files], answers, has_lines)
            if self.places not in (None, places_of(self.paths)):
                return False
            fault = reply.fault()
            if fault is None or fault.kind == "file" or fault.number >= len(self.files):
                break
            file = self.files[fault.number]
            if fault.is_cut_short():
                raise cut_short(file.path)
            if fault.kind == "archive":
                break
            if fault.reason not in OF_ANOTHER:
                file.refuse(f"{shown(file.index)} is not read: {fault.text}")
            file.take_other_index()
        self.program.judge(reply)
        self.keys.add(reply.keys)
        return self.take_refused(answers, has_lines, reply.keys.refused)

    def make_indexes(self) -> None:
        """Makes the indexes of files that have none, where others have: the program takes as many as archives."""
        if any(file.index for file in self.files):
            for file in self.files:
                if not file.index:
                    file.make_index(self.program, self.folder)

    def take_refused(
        self, answers: Sequence[Answers], has_lines: bool, refused: Mapping[Key, InputFault]
    ) -> bool:
        """Takes why keys are refused: a slice has too many lines, without which it is asked for again, or changed."""
        lacking = []
        for one in answers:
            fault = refused.get(one.key)
            if fault and has_lines and fault.reason == NO_LINES:
                one.has_too_many_lines = True
                lacking.append(one)
            elif fault:
                one.origin = Origin.CHANGED
                self.changed[one.key] = self.files[fault.number].kept
        return not lacking or self.ask(lacking, has_lines=False)


@dataclass(eq=False)
class Archives:
    """The archives of a call, by their paths. `refused` are the keys of slices that changed, each of which is said
    once."""

    paths: Sequence[str]
    has_lines: bool
    has_paths: bool
    names: Names = field(default_factory=Names)
    refused: Set[Key] = field(default_factory=set)

    def __post_init__(self) -> None:
        self.chains = Chains(self.has_paths)
        # Whether each is a file, and no pipe.
        self.can_be_read_again = not any(file_names.is_no_file(os.fsencode(path)) for path in self.paths)

    def look_up(self, images: Sequence[Image]) -> None:
        """Asks for all offsets of all images; and of those whose UUID is there under one other architecture alone for
        this one."""
        for path in self.paths:
            refuse_missing(path)
        self.ask_for(images)
        others = [image for image in images if image.answers is None and image.is_under_one_other()]
        if others and self.can_be_read_again:
            self.ask_for(others)

    def ask_for(self, images: Sequence[Image]) -> None:
        """Asks for the offsets of images at once, for each of them once."""
        wanted: Dict[Key, List[Image]] = {}
        for image in images:
            for arch in image.architectures():
                wanted.setdefault((image.uuid, arch), []).append(image)
        once: Dict[Tuple[int, ...], array[int]] = {}
        offsets = {key: offsets_of(some, once) for key, some in wanted.items()}
        for image in images:
            image.put_aside(next((offsets[image.uuid, arch] for arch in image.architectures()), image.asked))
            if not image.architectures():
                # The program says under which others its UUID is there.
                offsets.setdefault((image.uuid, ARCHITECTURES[0]), array("Q", [0]))
        attempt = self.answers(offsets)
        for key in wanted:
            if key in attempt.changed and key not in self.refused:
                told = f"run symarch-keep check {shown(attempt.changed[key])}"
                note(f"{key[0]} {key[1]} changed since it was added: {told}")
                self.refused.add(key)
        others = attempt.keys.architectures()
        for image in images:
            found = {arch: attempt.answers[image.uuid, arch] for arch in image.architectures()}
            image.take({arch: one for arch, one in found.items() if one.origin is not Origin.ABSENT})
            if image.origin() is Origin.ABSENT:
                image.others = others.get(image.uuid, [])

    def answers(self, offsets: Mapping[Key, array[int]]) -> Attempt:
        """What the archives answer: again where a fold made others of them, which may have moved what was asked."""
        end = time.monotonic() + MOST_OF_CHANGES
        while True:
            made = {key: Answers(key, its, self.names, self.chains) for key, its in offsets.items()}
            places = places_of(self.paths) if time.monotonic() < end else None
            attempt = Attempt(self.paths, places, made)
            states = attempt.states()
            try:
                with tempfile.TemporaryDirectory(prefix="symbolicate-report.") as attempt.folder:
                    if attempt.ask(list(made.values()), self.has_lines):
                        return attempt
            except FileNotFoundError:
                if places is None or states == attempt.states():
                    raise


def offsets_of(images: Sequence[Image], once: Dict[Tuple[int, ...], array[int]]) -> array[int]:
    """The offsets that images of one UUID ask for, or the first one if they ask for none."""
    key = tuple(map(id, images))
    if key not in once:
        parts = [part for image in images for part in (image.asked, image.was_asked) if part]
        once[key] = unique(functools.reduce(operator.add, parts) if parts else array("Q", [0]))
    return once[key]
