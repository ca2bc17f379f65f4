"""Where the program symarch is: one rule for both tools. None is built here."""
from __future__ import annotations

import os
import shutil
from typing import List, Optional

BUILT = os.path.join("crates", "symarch", "out", "symarch")
# What stands next to the script ./symarch, which would begin a build.
BUILDER = os.path.join("packaging", "build-program")
# What a program begins with that runs by itself.
ELF = b"\x7fELF"


def named() -> Optional[str]:
    """What SYMARCH says, if it names a program."""
    return os.environ.get("SYMARCH") or None


def candidates() -> List[str]:
    """Where the program may be, by paths: the one that SYMARCH names; else the one that ./symarch built in this
    repository, the one that was installed with this tool, and `symarch` in PATH. The program that ./symarch built
    stands in place of this script."""
    path = named()
    if path:
        return [not_the_script(shutil.which(path) or path)]
    top = os.path.realpath(__file__)
    for _ in range(4):
        top = os.path.dirname(top)
    found = [os.path.join(top, BUILT), os.path.join(os.path.dirname(top), "bin", "symarch")]
    in_path = shutil.which("symarch")
    return [*found, not_the_script(in_path)] if in_path else found


def not_the_script(path: str) -> str:
    """The path of a program, or of the one that was built by the script of this path."""
    beside = os.path.dirname(os.path.realpath(path))
    is_script = os.path.exists(os.path.join(beside, BUILDER))
    return os.path.join(beside, BUILT) if is_script else os.path.abspath(path)


def found_program() -> str:
    """The first of them that is a program, or else the first one."""
    paths = candidates()
    return next((path for path in paths if named() or runs_by_itself(path)), paths[0])


def runs_by_itself(path: str) -> bool:
    """Whether a file is no script."""
    try:
        with open(path, "rb") as file:
            return file.read(len(ELF)) == ELF and os.access(path, os.X_OK)
    except OSError:
        return False
