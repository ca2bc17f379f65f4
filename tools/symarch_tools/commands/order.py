"""What to type if ARCHIVE does not stand first among the arguments of a call."""
import os
from typing import List, NoReturn, Optional, Sequence

from ..console.escapes import shown
from ..console.faults import Failed
from ..formats.files import beginning
from ..store.file_names import is_archive

# In a call standard input; and in place of ARCHIVE, if no argument may be that.
STANDARD_INPUT, ARCHIVE = "-", "ARCHIVE"


def is_input(path: str) -> bool:
    """Whether an argument names what `add` puts into an archive."""
    from ..formats.packed_files import ZIP
    from ..formats.universal_files import UNIVERSAL
    from ..store.slices import THIN

    return path == STANDARD_INPUT or os.path.isdir(path) or beginning(path, len(THIN)) in (THIN, ZIP, *UNIVERSAL)


def archive_in(command: str, names: Sequence[str]) -> Optional[str]:
    """Which of the names after the first is the archive."""
    found = next(filter(is_archive, names[1:]), None)
    if command == "exchange" and os.path.isdir(names[0]) and not os.path.isdir(names[1]):
        return names[1]
    if command != "add" or found or not is_input(names[0]):
        return found
    # One that is still to be made, if it stands last.
    is_new = names[-1] != STANDARD_INPUT and not os.path.exists(names[-1])
    return names[-1] if is_new else ARCHIVE if names[0] == STANDARD_INPUT or os.path.isdir(names[0]) else None


def refuse_order(command: str, options: Sequence[str], names: Sequence[str]) -> None:
    """Fails if the first of the names of a call, which are its arguments except for the options, is not ARCHIVE, and
    another one is."""
    first = names[0]
    if command == "exchange" and not os.path.isdir(names[1]) and os.path.isdir(names[2]) and is_archive(first):
        refuse(f"{shown(names[1])} is no folder, and FOLDER precedes NAME", command, options, names, first)
    if is_archive(first):
        return
    from ..store.slices import is_dsym

    archive = archive_in(command, names) if command != "repair" and len(names) > 1 else None
    is_standard_input = first == STANDARD_INPUT and not os.path.exists(first)
    if archive is not None and (command != "add" or is_input(first) or os.path.exists(first)):
        kind = "a dSYM" if is_dsym(os.fsencode(first)) else "a folder" if os.path.isdir(first) else "no archive"
        kind = "standard input" if is_standard_input else kind
        refuse(f"{shown(first)} is {kind}, and ARCHIVE is first", command, options, names, archive)
    if is_standard_input:
        raise Failed("- is standard input, and ARCHIVE is a file", 3)


def refuse(why: str, command: str, options: Sequence[str], names: Sequence[str], archive: str) -> NoReturn:
    import shlex

    typed = " ".join(shown(shlex.quote(one)) for one in ordered(command, options, names, archive))
    raise Failed(f"{why}: symarch-keep {command} {typed}", 3)


def ordered(command: str, options: Sequence[str], names: Sequence[str], archive: str) -> List[str]:
    """The arguments with the options first, and the archive before the other names."""
    left = list(names)
    if archive in left:
        left.remove(archive)
    if command == "exchange":
        left.sort(key=lambda name: not os.path.isdir(name))
    return [*options, archive, *left]
