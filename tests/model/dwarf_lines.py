"""Line number programs, told a second time by DWARF 5, section 6.2: their headers, rows and names."""
from functools import lru_cache
from typing import Callable, Dict, List, NamedTuple, Optional, Tuple

from .dwarf_numbers import MASK, WIDE, Reader, Texts, Unread, Value, number_of, value_at

LNCT_PATH, LNCT_DIRECTORY_INDEX = 1, 2
# The forms of a name and of an index of a directory: string, line_strp, strp, udata, data1 to data16, block.
NAME_FORMS = (0x08, 0x1F, 0x0E, 0x0F, 0x0B, 0x05, 0x06, 0x07, 0x1E, 0x09)


class Row(NamedTuple):
    """A row of the line number table."""

    address: int
    file: int
    line: int
    column: int
    is_end: bool


class Header(NamedTuple):
    """What a header says: its version, where its names begin and its program, and what the machine takes from it."""

    version: int
    names: int
    program: int
    minimum_instruction_length: int
    line_base: int
    line_range: int
    opcode_base: int
    opcode_lengths: bytes


def header_of(unit: bytes) -> Optional[Header]:
    """The header of a unit of __debug_line, with its initial length, in the 32-bit format."""
    r = Reader(unit)
    try:
        if r.number(4) == WIDE:
            return None
        version = r.number(2)
        if not 2 <= version <= 5:
            return None
        r.take(2 if version == 5 else 0)
        program = r.number(4)
        program += r.at
        minimum = r.number(1)
        operations = r.number(1) if version >= 4 else 1
        r.number(1)
        base, line_range, opcode_base = r.number(1), r.number(1), r.number(1)
        lengths = r.take(max(opcode_base - 1, 0))
    except Unread:
        return None
    if not r.at <= program <= len(unit) or line_range == 0 or operations != 1:
        return None
    line_base = base - 256 if base >= 128 else base
    return Header(version, r.at, program, minimum, line_base, line_range, opcode_base, lengths)


# ---- rows


class Machine:
    """The state machine of section 6.2.2, whose registers have 64 bits, and the rows that it appended."""

    def __init__(self, header: Header) -> None:
        self.header = header
        self.rows: List[Row] = []
        self.begin()

    def begin(self) -> None:
        self.address, self.file, self.line, self.column = 0, 1, 1, 0

    def append(self, is_end: bool = False) -> None:
        self.rows.append(Row(self.address, self.file, self.line, self.column, is_end))

    def advance(self, operations: int) -> None:
        self.address = (self.address + self.header.minimum_instruction_length * operations) & MASK

    def special(self, opcode: int) -> None:
        adjusted = opcode - self.header.opcode_base
        self.advance(adjusted // self.header.line_range)
        self.line = (self.line + self.header.line_base + adjusted % self.header.line_range) & MASK
        self.append()

    def extended(self, r: Reader) -> None:
        content = r.take(r.unsigned())
        if not content or (content[0] == 2 and len(content) != 9):
            raise Unread
        if content[0] == 1:
            self.append(True)
            self.begin()
        elif content[0] == 2:
            self.address = int.from_bytes(content[1:], "little")

    def standard(self, opcode: int, r: Reader) -> None:
        if opcode == 1:
            self.append()
        elif opcode == 2:
            self.advance(r.unsigned())
        elif opcode == 3:
            self.line = (self.line + r.signed()) & MASK
        elif opcode == 4:
            self.file = r.unsigned()
        elif opcode == 5:
            self.column = r.unsigned()
        elif opcode == 8:
            self.advance(max(255 - self.header.opcode_base, 0) // self.header.line_range)
        elif opcode == 9:
            self.address = (self.address + r.number(2)) & MASK
        elif opcode not in (6, 7, 10, 11):
            for _ in range(1 if opcode == 12 else self.header.opcode_lengths[opcode - 1]):
                r.unsigned()

    def step(self, r: Reader) -> None:
        opcode = r.number(1)
        if opcode == 0:
            self.extended(r)
        elif opcode >= self.header.opcode_base:
            self.special(opcode)
        else:
            self.standard(opcode, r)


@lru_cache(maxsize=200)
def rows_of(unit: bytes) -> List[Row]:
    """The rows of the program of a unit, up to the first instruction that cannot be read."""
    header = header_of(unit)
    if header is None:
        return []
    machine = Machine(header)
    Reader(unit, header.program).each(machine.step)
    return machine.rows


@lru_cache(maxsize=200)
def spans_of(unit: bytes) -> List[Tuple[int, int, Row]]:
    """The rows that cover addresses, each with the first of them and their end."""
    rows = rows_of(unit)
    spans = ((row.address, after.address, row) for row, after in zip(rows, rows[1:]) if not row.is_end)
    return [it for it in spans if it[0] < it[1]]


def row_of(unit: bytes, address: int) -> Optional[Row]:
    """The first row that covers an address: it covers those from its own on that are below the next row's."""
    return next((row for first, end, row in spans_of(unit) if first <= address < end), None)


# ---- names


class Name(NamedTuple):
    """A directory or a file, and the index of the directory of a file."""

    name: Value
    directory: int = 0


class Names(NamedTuple):
    """The directories and the files of a header, by their indexes."""

    version: int
    directories: Dict[int, Name]
    files: Dict[int, Name]


def directory_at(r: Reader) -> Optional[Name]:
    text = r.text()
    return Name(Value("string", text)) if text else None


def file_at(r: Reader) -> Optional[Name]:
    text = r.text()
    if not text:
        return None
    directory, _, _ = r.unsigned(), r.unsigned(), r.unsigned()
    return Name(Value("string", text), directory)


def entry_reader(formats: List[Tuple[int, int]]) -> Callable[[Reader], Name]:
    """What reads an entry of the tables of version 5."""

    def read(r: Reader) -> Name:
        found: Dict[int, Value] = {}
        for content_type, form in formats:
            if form not in NAME_FORMS:
                raise Unread
            found.setdefault(content_type, value_at(5, form, r))
        index = number_of(found.get(LNCT_DIRECTORY_INDEX), "constant")
        return Name(found.get(LNCT_PATH, Value("other")), index or 0)

    return read


def entries_at(r: Reader) -> List[Name]:
    formats = [(r.unsigned(), r.unsigned()) for _ in range(r.number(1))]
    count = r.unsigned()
    # Without a format no entry can be read.
    if count and not formats:
        raise Unread
    read = entry_reader(formats)
    found: List[Name] = []
    for _ in range(count):
        found.append(read(r))
    return found


@lru_cache(maxsize=200)
def names_of(unit: bytes) -> Optional[Names]:
    """The names of a unit that has a header; None if they cannot be read."""
    header = header_of(unit)
    if header is None:
        return None
    r = Reader(unit, header.names, header.program)
    try:
        if header.version == 5:
            directories, files = entries_at(r), entries_at(r)
        else:
            directories, files = r.until(directory_at), r.until(file_at)
    except Unread:
        return None
    first = 0 if header.version == 5 else 1
    return Names(header.version, dict(enumerate(directories, first)), dict(enumerate(files, first)))


def onto(folder: bytes, name: bytes) -> bytes:
    """A name in a folder."""
    if name.startswith(b"/") or not folder:
        return name
    if not name:
        return folder
    return folder + (b"" if folder.endswith(b"/") else b"/") + name


class PathParts(NamedTuple):
    """The directory of the compilation, the directory, which may be relative to it, and the name of a file."""

    base: bytes
    directory: bytes
    name: bytes

    def path(self) -> bytes:
        return onto(onto(self.base, self.directory), self.name)


def parts_of(names: Names, texts: Texts, comp_dir: bytes, index: int) -> Optional[PathParts]:
    """The parts of the path of the file of an index, if there is one and it has a name."""
    file = names.files.get(index)
    text = texts.of(file.name) if file else None
    if file is None or text is None:
        return None

    def directory(number: int) -> bytes:
        found = names.directories.get(number)
        return b"" if found is None else texts.of(found.name) or b""

    base = directory(0) if names.version == 5 else comp_dir
    return PathParts(base, directory(file.directory) if file.directory else b"", text)
