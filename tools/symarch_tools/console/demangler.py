"""Names as people write them: without the underscore that C puts before them, and demangled."""
from __future__ import annotations

import itertools
import os
import re
import shutil
import subprocess
from typing import Callable, Dict, Iterable, Iterator, List, Match, Sequence

from .streams import note

# What demangles C++: GNU's starts in a tenth of the time of LLVM's, whose name may end with a number.
GNU, LLVM = "c++filt", "llvm-cxxfilt"
NUMBERED = re.compile(re.escape(LLVM) + r"-([0-9]+)")
# What names begin with that these demangle.
OF_SWIFT, OF_CXX = re.compile(r"_*\$[sSe]|_+T"), re.compile("_+[ZR]")
# What names of Swift begin with since version 4, and no others; and what makes them readable.
NEEDS_SWIFT, SWIFT = re.compile(r"_*\$[sSe]|_+T0"), "swift"
LEFT = "names of Swift stay as they are: install Swift, whose `swift demangle` makes them readable"
# The function of a block, which GNU does not know, by that which has the block.
BLOCK = re.compile(r"__(_Z[\w$]+?)_block_invoke(?:_?[0-9]+)?(?:\..*)?")
BLOCK_WORDS = "invocation function for block in "
# What GNU spells otherwise than LLVM: types without a name, copies of a function, crates of Rust.
UNNAMED = re.compile(r"\{(?:lambda(\([^{}]*\))|unnamed type)#([0-9]{1,9})\}")
COPY, END_OF_COPY = " [clone ", "]"
# So many types without a name are spelled that stand within another one.
MOST_WITHIN = 20
CRATE = re.compile(r"(?<=\w)\[[0-9a-f]+\]")
WORDS = (("decltype(nullptr)", "std::nullptr_t"), ("operator<< <", "operator<<<"))
# Where templates end. LLVM writes the space up to version 14.
ENDS = re.compile(r"> (?=>)")


def without_underscores(names: Sequence[str]) -> List[str]:
    """The names as Apple's reports have them: without one leading underscore, which Mach-O puts before those of C."""
    return [name[1:] if name.startswith("_") else name for name in names]


def demangled(names: Sequence[str], is_asked_for: bool) -> List[str]:
    """The names, by each demangler that is there, which is called once for all of them if one may be mangled. If none
    is there, this is said where demangling was asked for."""
    shown = list(names)
    swift = shutil.which(SWIFT)
    if is_asked_for and not swift and next(cxx_demanglers(), None) is None:
        say(f"neither {SWIFT} nor {GNU} nor {LLVM} is there: names are not demangled")
    if swift and any(map(OF_SWIFT.match, shown)):
        shown = ask([SWIFT, "demangle"], shown)
    if any(map(OF_CXX.match, shown)):
        for command in cxx_demanglers():
            shown = cxx_demangled(command, shown)
            if not any(map(OF_CXX.match, shown)):
                break
    return shown


def lacks_swift(names: Iterable[str]) -> bool:
    """Whether a name stays as it is that the command of Swift would make readable, since that is not there."""
    return any(map(NEEDS_SWIFT.match, names)) and not shutil.which(SWIFT)


def cxx_demanglers() -> Iterator[str]:
    """The commands for C++ that are there: that of GNU, and for the names that it leaves the one of LLVM, or else that
    of its greatest version."""
    if shutil.which(GNU):
        yield GNU
    if shutil.which(LLVM):
        yield LLVM
        return
    versions: Dict[int, str] = {}
    for folder in os.get_exec_path():
        try:
            found = map(NUMBERED.fullmatch, os.listdir(folder or os.curdir))
        except OSError:
            continue
        versions.update((int(match[1]), match[0]) for match in found if match)
    commands = filter(shutil.which, (versions[number] for number in sorted(versions, reverse=True)))
    yield from itertools.islice(commands, 1)


def cxx_demangled(command: str, names: List[str]) -> List[str]:
    """The names by a command for C++, which is asked for those that may be mangled. It would else drop underscores on a
    Mac."""
    blocks = {name: BLOCK.fullmatch(name) for name in names if OF_CXX.match(name)}
    asked = {name: block[1] if block else name for name, block in blocks.items()}
    made = dict(zip(asked, ask([command, "-n"], list(asked.values()))))
    return [name if made.get(name, name) == asked.get(name, name) else readable(name, asked[name], made[name])
            for name in names]  # fmt: skip


def readable(name: str, asked: str, made: str) -> str:
    """What stands for a name of which a command made this, where it was asked for all of it or for a part."""
    return ("" if asked == name else BLOCK_WORDS) + spelled(asked, made)


def spelled(name: str, made: str) -> str:
    """What a command made of a name, as LLVM spells it."""
    count, within = 1, 0
    # One may stand within another one.
    while count and within < MOST_WITHIN:
        made, count = UNNAMED.subn(unnamed, made)
        within += 1
    made = with_copies(made)
    for gnu, llvm in WORDS:
        made = made.replace(gnu, llvm)
    return CRATE.sub("", made) if name.startswith("_R") else ENDS.sub(">", made)


def with_copies(made: str) -> str:
    """A name whose copies, of which each ends it, are in parentheses together."""
    copies: List[str] = []
    end = len(made)
    while made.endswith(END_OF_COPY, 0, end):
        begin = made.rfind(COPY, 0, end)
        copy = made[begin + len(COPY) : end - 1]
        if begin < 0 or END_OF_COPY in copy:
            break
        copies.append(copy)
        end = begin
    return f"{made[:end]} ({''.join(reversed(copies))})" if copies else made


def unnamed(found: Match[str]) -> str:
    number = "" if found[2] == "1" else str(int(found[2]) - 2)
    return f"'unnamed{number}'" if found[1] is None else f"'lambda{number}'{found[1]}"


def changed(command: Sequence[str], names: List[str]) -> List[str]:
    """What a demangler makes of the names; the names, where it fails."""
    text = "".join(name + "\n" for name in names).encode(errors="surrogateescape")
    try:
        done = subprocess.run(command, input=text, stdout=subprocess.PIPE, stderr=subprocess.DEVNULL, check=False)
    except OSError as error:
        say(f"{command[0]}: {error.strerror}: it demangles no names")
        return names
    made = done.stdout.decode(errors="surrogateescape").split("\n")
    if done.returncode or len(made) != len(names) + 1:
        say(f"{' '.join(command)} failed: it demangles no names")
        return names
    return made[:-1]


# How a demangler is asked for names. A process that answers again and again may ask those that stay.
ask: Callable[[Sequence[str], List[str]], List[str]] = changed
# How what is wrong with one is said.
say: Callable[[str], None] = note
