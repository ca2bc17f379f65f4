"""What changed or is lost: the lines of it, with their objects of JSON; and ARCHIVE.lost, which has what an archive
had and lacks, as after a restore, until it is back or is taken as lost. ARCHIVE.lost is written before the index
with the lost entries is removed. Accepted losses stay there, since a copied folder may bring back a question that
names them."""
from dataclasses import dataclass, field
from typing import Iterable, List, Optional

from ..console.escapes import shown
from ..console.json_lines import NO_PATH, Line, Members, line_of, path_members
from ..formats.contents import KEY, Content, KeptFile, Malformed, arch_in, kept_text, uuid_text, words_of
from ..formats.indexes import IndexRow

LOST = b".lost"
# How the lines begin of what is taken as lost: a question that this site asked long ago may still name it.
ACCEPTED = "accepted "


@dataclass(eq=False)
class Lost:
    """What the file of a path has: what is lost, and what is taken as lost."""

    path: bytes
    content: Content = field(default_factory=Content)
    accepted: Content = field(default_factory=Content)
    fault: str = ""

    def __post_init__(self) -> None:
        kept = self.kept()
        if kept:
            self.content, self.accepted = kept.content(), kept.content(ACCEPTED)
        self.written = self.text()

    def kept(self) -> Optional[KeptFile]:
        try:
            with open(self.path, "rb") as file:
                return KeptFile(file.read())
        except FileNotFoundError:
            return None
        except Malformed as malformed:
            self.fault = str(malformed)
            return None

    def text(self) -> bytes:
        """What the file has to have; nothing if it need not be there."""
        notes = [f"{ACCEPTED}retired {words_of(entry)}" for entry in sorted(self.accepted.retired)]
        notes += [f"{ACCEPTED}slice {words_of(entry)} {it}" for entry, it in sorted(self.accepted.held.items())]
        return kept_text(self.content, notes) if notes or len(self.content) else b""

    def is_changed(self) -> bool:
        return self.text() != self.written

    def add(self, lacking: Content) -> Content:
        """Notes what an archive had and lacks, and returns what of that is not noted yet."""
        new = lacking.beyond(self.content).beyond(self.accepted)
        self.content = self.content.joined(new)
        return new

    def settle(self, content: Content) -> None:
        """Drops what is back."""
        self.content, self.accepted = self.content.beyond(content), self.accepted.beyond(content)

    def accept(self) -> List[Line]:
        """Takes all as lost, and returns the lines of it."""
        lines = lost_lines(self.content)
        self.content, self.accepted = Content(), self.accepted.joined(self.content)
        return lines


# ---- lines


def record_members(entry: Optional[bytes], is_retirement: bool = False) -> Members:
    """A slice or a retirement, by its key and digest."""
    if entry is None:
        return {"record": None, "uuid": None, "arch": None, "digest": None}
    record = "retirement" if is_retirement else "slice"
    name, arch, digest = uuid_text(entry[:16]), arch_in(entry[16:KEY]), entry[KEY:].hex()
    return {"record": record, "uuid": name, "arch": arch, "digest": digest}


def changed_line(row: IndexRow, path: bytes, word: str = "changed") -> str:
    """The line of a record that changed: what it was, and where in which file it stands."""
    members = {**record_members(row.entry[1:], not row.is_slice()), "at": row.at, **path_members(path)}
    return line_of(f"{word} {row.words()} {row.at} {shown(path)}", word, **members)


def table_line(row: IndexRow, path: bytes, word: str = "changed") -> str:
    """The line of a table that changed: of which slice it is, and where in which index it stands."""
    members = {**record_members(row.entry[1:]), "record": "table", "at": row.table, **path_members(path)}
    return line_of(f"{word} table {row.words()} {row.table} {shown(path)}", word, **members)


def file_line(word: str, path: bytes, is_of_ends: bool = False) -> str:
    """The line of a file, or of its first and last bytes."""
    members = {**record_members(None), "at": None, **path_members(path)}
    return line_of(f"{word} {'ends ' if is_of_ends else ''}{shown(path)}", word, **members)


def lost_lines(lost: Content) -> List[Line]:
    return [*map(lost_line, sorted(lost.held)), *(lost_line(entry, True) for entry in sorted(lost.retired))]


def lost_line(entry: bytes, is_retirement: bool = False) -> Line:
    members = {**record_members(entry, is_retirement), "at": None, **NO_PATH}
    return line_of(f"lost {'retired ' if is_retirement else ''}{words_of(entry)}", "lost", **members)


def counted(lines: Iterable[str]) -> str:
    """How many slices and retirements lines name, each of which begins with a word."""
    kinds = [line.split(" ", 2)[1] == "retired" for line in lines]
    return f"slices {kinds.count(False)}, retirements {kinds.count(True)}"
