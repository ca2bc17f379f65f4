"""What LLVM's tools say of companions: the frames of addresses, and the rows of line number programs."""
import json
import os
import pathlib
import re
import shutil
import struct
import subprocess
import tempfile
from typing import Dict, Iterable, List, NamedTuple, Optional, Tuple

from ..model.images import LC_SYMTAB, image_of
from .cases import Without
from .program import Word

# A line of the table that llvm-dwarfdump prints: address, line, column, file, and the flags.
ROW = re.compile(r"^0x([0-9a-f]{16}) +(\d+) +(\d+) +(\d+) .*$", re.M)
PROGRAM = re.compile(r"^debug_line\[0x([0-9a-f]+)\]", re.M)

# Address, file, line, column, and whether it ends a sequence.
Row = Tuple[int, int, int, int, bool]


VERSION = re.compile(rb"\bversion (\d+)\.")


def output(*words: Word, stdin: bytes = b"") -> bytes:
    return subprocess.run(words, input=stdin, stdout=subprocess.PIPE, check=True).stdout


def tools(name: str) -> List[str]:
    """The paths of a tool: by its plain name, then those with a version, the highest first."""
    versions = [path for folder in os.get_exec_path() for path in pathlib.Path(folder).glob(name + "-[0-9]*")]
    versions.sort(key=lambda path: int(path.name.rsplit("-", 1)[1]), reverse=True)
    plain = shutil.which(name)
    return [*([plain] if plain else []), *map(str, versions)]


def tool(name: str) -> str:
    """The path of a tool: by its plain name, or the highest version of it."""
    found = tools(name)
    if not found:
        raise Without(f"no {name}: apt-get install clang lld lldb llvm")
    return found[0]


def tool_from(name: str, least: int) -> Optional[str]:
    """The path of a tool of this version of LLVM or a later one."""
    for path in tools(name):
        version = VERSION.search(output(path, "--version"))
        if version and int(version[1]) >= least:
            return path
    return None


class Place(NamedTuple):
    """A frame; None stands for what is not known."""

    name: Optional[bytes]
    path: Optional[bytes]
    line: int
    column: int


UNKNOWN = Place(None, None, 0, 0)


def place_of(symbol: Dict[str, object]) -> Place:
    name, path = (str(symbol[it]).encode() or None for it in ("FunctionName", "FileName"))
    line, column = (int(str(symbol[it])) for it in ("Line", "Column"))
    return Place(name, path, line, column)


def without_symbols(content: bytes) -> bytes:
    """An image whose LC_SYMTAB, if it has one, names no symbols."""
    symtab = image_of(content).symtab
    if not symtab:
        return content
    return content.replace(struct.pack("<6I", LC_SYMTAB, 24, *symtab), struct.pack("<6I", LC_SYMTAB, 24, *[0] * 4), 1)


def frames(content: bytes, addresses: Iterable[int]) -> List[List[Place]]:
    """The frames of each address by the DWARF of a companion, the innermost first, with the names as they are linked:
    llvm-symbolizer is asked without the symbols, by which it would call the outermost function."""
    asked = "".join(f"{it:#x}\n" for it in addresses).encode()
    with tempfile.NamedTemporaryFile() as file:
        file.write(without_symbols(content))
        file.flush()
        words = [tool("llvm-symbolizer"), f"--obj={file.name}", "--inlines", "--no-demangle", "--output-style=JSON"]
        lines = output(*words, stdin=asked).splitlines()
    found = [[place_of(it) for it in json.loads(line)["Symbol"]] for line in lines]
    return [[] if it == [UNKNOWN] else it for it in found]


def rows(path: pathlib.Path) -> Dict[int, List[Row]]:
    """The rows of each program, by its offset in __debug_line."""
    text = output(tool("llvm-dwarfdump"), "--debug-line", path).decode()
    found: Dict[int, List[Row]] = {}
    parts = PROGRAM.split(text)
    for offset, part in zip(parts[1::2], parts[2::2]):
        table: List[Row] = []
        for row in ROW.finditer(part):
            line, column, file = (int(row[it]) for it in (2, 3, 4))
            table.append((int(row[1], 16), file, line, column, "end_sequence" in row[0]))
        found[int(offset, 16)] = table
    return found
