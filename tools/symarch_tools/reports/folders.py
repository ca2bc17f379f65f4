"""The files below a folder that is named in place of a report."""
from __future__ import annotations

import os
from typing import Dict, List, Tuple

from .arguments import POINT, begins_as_report

# What reports are called, and what else a report may be called that was pasted, or what has some.
NAMES, OTHER_NAMES = (".ips", ".crash"), (".txt", ".zip")
# Where Xcode keeps the reports that it named.
COPIES = "LocallySymbolicated"


def is_named_as_report(path: str) -> bool:
    return path.lower().endswith(NAMES)


def may_be_report(path: str) -> bool:
    """Whether a file is read: by its name, or by its first bytes. An archive of some gigabytes is not."""
    return path.lower().endswith(NAMES + OTHER_NAMES) or begins_as_report(path)


def files_below(folder: str) -> Tuple[List[str], List[OSError]]:
    """The files that may be reports, in order of their paths, and why folders cannot be searched. Links are not
    followed."""
    found, errors, left = [], [], [folder]
    while left:
        try:
            with os.scandir(left.pop()) as entries:
                for entry in entries:
                    if entry.is_dir(follow_symlinks=False):
                        left.append(entry.path)
                    elif entry.is_file(follow_symlinks=False) and may_be_report(entry.path):
                        found.append(entry.path)
        except OSError as error:
            errors.append(error)
    return once(sorted(found, key=os.fsencode)), errors


def once(paths: List[str]) -> List[str]:
    """The files except for the copies that Xcode's Organizer has: in the folder of a crash point a report stands below
    each filter that has it, and again with names where Xcode looked these up."""
    found: Dict[Tuple[str, str], str] = {}
    for path in paths:
        point = point_above(os.path.abspath(path))
        key = (point, os.path.basename(path)) if point else (path, "")
        if key not in found or is_copy(found[key]) and not is_copy(path):
            found[key] = path
    return sorted(found.values(), key=os.fsencode)


def point_above(path: str) -> str:
    """The folder of a crash point that has a file, if one has."""
    before, ending, after = path.rpartition(POINT + os.sep)
    return before + ending if after else ""


def is_copy(path: str) -> bool:
    return os.path.basename(os.path.dirname(path)) == COPIES
