"""Why the program refuses slices, and files whose tables it finds faulty: it is asked of many at once.

The program names the faults of universal files: after all paths were searched it gets, in one call, the header and the
table of each that cannot be followed, with a hole up to the file's length. One that is too large for its memory is
refused for that."""
import contextlib
import os
import re
import struct
import tempfile
from typing import Iterable, Iterator, List, Sequence, TypeVar

from ..console.faults import Failed, SliceRefused
from ..console.screen import Screen
from ..formats.mach_images import HEADER, LC_SYMTAB, NLIST, SYMTAB, commands_in
from ..formats.packed_files import Damaged
from ..formats.universal_files import FAT_HEADER, end_of_table, part_at
from .archive_file import NO_UUID
from .program import Program, Run
from .slices import MOST_OF_COMMANDS, FaultyFile, Slice

# A call that reads slices as files has so many bytes and files of them.
MOST_OF_CALL, MOST_FILES = 256 << 20, 10_000
# How the fault of a table begins, and that of a part which it places outside of the file.
OF_TABLE, OUTSIDE = "Fat(", re.compile(r"Fat\(SliceOutside\(([0-9]+)\)\)")
NO_FAULT = "its table cannot be followed, but symarch reports no fault"
Asked = TypeVar("Asked", Slice, FaultyFile)


def refusals(program: Program, slices: Iterable[Slice]) -> List[SliceRefused]:
    """Why some of the slices are refused: those that cannot be read, and those of which the program says it."""
    found: List[SliceRefused] = []
    for some in calls_for(slices):
        if len(some) > 1:
            found += refused_files(program, some)
            continue
        try:
            read_records(program, some)
        except SliceRefused as refused:
            found.append(refused)
    return found


def read_records(program: Program, slices: Sequence[Slice]) -> None:
    """Has the program read slices as records of an archive, so that it holds one of them. Raises the first refusal."""
    program.run(Run(["find", "/dev/stdin", NO_UUID], slices))


def refuse_faulty(program: Program, files: Sequence[FaultyFile], screen: Screen) -> None:
    """Refuses universal files whose tables cannot be followed, each for the fault that the program reports."""
    for some in calls_for(files):
        reasons = {each.one: each.reason for each in faults_of(program, some)}
        for one in some:
            reason = reasons.get(one, NO_FAULT)
            screen.refuse(one.name, reason + promised_by_table(reason, one))


def faults_of(program: Program, files: Sequence[FaultyFile]) -> List[SliceRefused]:
    """Why universal files are refused, of which the program may lack the memory to read all, or one."""
    try:
        return refused_files(program, files)
    except Failed as failed:
        if len(files) == 1:
            return [SliceRefused(str(failed), files[0])]
    return [each for one in files for each in faults_of(program, [one])]


def refused_files(program: Program, files: Sequence[Asked]) -> List[SliceRefused]:
    """Why some are refused, which the program reads as files, and holds together."""
    found: List[SliceRefused] = []
    written: List[Asked] = []
    with tempfile.TemporaryDirectory(prefix="symarch-keep.") as room:
        for one in files:
            try:
                with open(os.path.join(room, str(len(written))), "wb") as file:
                    one.write_to(file)
                written.append(one)
            except SliceRefused as refused:
                found.append(refused)
        return found + program.refused(written, os.fsencode(room))


def calls_for(files: Iterable[Asked]) -> Iterator[List[Asked]]:
    """Slices or files in parts, for each of which the program is called once: a long one alone."""
    some: List[Asked] = []
    size = 0
    for one in files:
        if some and (size + one.length > MOST_OF_CALL or len(some) == MOST_FILES):
            yield some
            some, size = [], 0
        some.append(one)
        size += one.length
    if some:
        yield some


# ---- the bytes that are promised, of a file that was cut


def promised(one: Slice) -> str:
    """What the commands of an image promise, and what is there, if its bytes end before that."""
    with contextlib.suppress(OSError, struct.error, Damaged), one.open() as file:
        file.seek(one.offset)
        front = file.read(min(one.length, HEADER.size))
        if len(front) < HEADER.size:
            return f": its header needs {HEADER.size} bytes, and there are {len(front)}"
        *_, count, size = HEADER.unpack(front)
        end, commands = HEADER.size + size, file.read(min(size, one.length - len(front), MOST_OF_COMMANDS))
        for command, at, _ in commands_in(commands, count):
            if command == LC_SYMTAB:
                symbols, number, strings, more = SYMTAB.unpack_from(commands, at)
                end = max(end, symbols + NLIST.size * number, strings + more)
        if end > one.length:
            return f": its commands promise {end} bytes, and there are {one.length}"
    return ""


def promised_by_table(reason: str, one: FaultyFile) -> str:
    """What the header or the table of a universal file promises, and what is there, by the fault that was found."""
    if not reason.startswith(OF_TABLE):
        return ""
    there = f", and the file has {one.length}"
    outside = OUTSIDE.fullmatch(reason)
    if outside:
        offset, length = part_at(one.front, int(outside[1]))
        return f": part {outside[1]} is bytes {offset} to {offset + length} by the table{there}"
    is_table = len(one.front) >= FAT_HEADER.size
    end = end_of_table(one.front) if is_table else FAT_HEADER.size
    return f": its {'table' if is_table else 'header'} needs {end} bytes{there}" if one.length < end else ""
