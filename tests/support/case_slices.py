"""The slices that the files of the cases have, as the model makes these files."""
import contextlib
from typing import Dict, List, Set

from ..model import cases, checking
from ..model.images import Image, parts_of_file, slice_of

# Files of more bytes are left out.
MOST = 1 << 20


def files_of(subject: str) -> List[bytes]:
    """The files that the lines of a subject make, but for those that commands write."""
    bench = cases.Bench()
    for lines in cases.cases_of(cases.text_of(checking.DATA, subject)).values():
        for line, _ in lines:
            if line.startswith(("file ", "line ")):
                # One that is made of what a command writes is none here.
                with contextlib.suppress(KeyError, cases.Bad):
                    bench.line(line, [])
    return [text for text in bench.store.values() if len(text) <= MOST]


def slices_of_cases() -> Dict[bytes, List[bytes]]:
    """The slices of all files, by key and kind, from the shortest to the longest."""
    found: Dict[bytes, Set[bytes]] = {}
    for text in {text for subject in checking.subjects() for text in files_of(subject)}:
        parts = parts_of_file(text)
        for part in () if isinstance(parts, str) else parts:
            made = slice_of(part or b"")
            if isinstance(made, Image):
                found.setdefault(made.key + bytes([made.is_dsym]), set()).add(made.bytes)
    return {key: sorted(slices, key=lambda made: (len(made), made)) for key, slices in found.items()}
