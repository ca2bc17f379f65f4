"""The words of cases that spell bytes: digits, texts, files by their names, parts of them, and changed copies."""
import re
from typing import Dict, List, Sequence, Tuple

from .images import sha

Store = Dict[str, bytes]
Changes = List[Sequence[str]]
COUNTER = re.compile(r"(\d+)([+-])(\d+)")


class Bad(Exception):
    """A line that is none of the language."""

    def __init__(self, why: str) -> None:
        super().__init__(why)
        self.why = why


def named(store: Store, name: str) -> bytes:
    if name not in store:
        raise Bad(f"no file {name}")
    return store[name]


def changes_in(text: str) -> Changes:
    return [it.split("=", 1) for it in text.split("@")]


def part_bytes(store: Store, part: str) -> bytes:
    if part.startswith("0x"):
        return bytes.fromhex(part[2:])
    if part.startswith("'"):
        return part[1:-1].encode()
    if "*" in part:
        times, text = part.split("*", 1)
        if "@" not in text:
            return bytes.fromhex(text) * int(times)
        name, changes = text.split("@", 1)
        base = named(store, name)
        return b"".join(changed(base, changes_in(changes), it) for it in range(int(times)))
    if "@" in part:
        name, changes = part.split("@", 1)
        return changed(named(store, name), changes_in(changes), 0)
    if "[" in part:
        return range_bytes(store, part)
    return named(store, part)


def range_bytes(store: Store, part: str) -> bytes:
    name, span = part.split("[", 1)
    first, last = span[:-1].split("..")
    base = named(store, name)
    begin, end = int(first) if first else 0, int(last) if last else len(base)
    if not begin <= end <= len(base):
        raise Bad(f"range {part}")
    return base[begin:end]


def counted(counter: str, form: str, turn: int) -> bytes:
    """The bytes of a number that grows or falls with each turn."""
    found = COUNTER.fullmatch(counter)
    if found is None:
        raise Bad(f"counter {counter}")
    far = int(found[3]) * turn
    number = int(found[1]) + far if found[2] == "+" else max(0, int(found[1]) - far)
    width = int(form.lstrip("belcd"))
    if form.startswith("be"):
        return number.to_bytes(16, "big")[-width:]
    if form.startswith("le"):
        return number.to_bytes(16, "little")[:width]
    return f"{number:040d}"[-width:].encode()


def changed(base: bytes, changes: Changes, turn: int) -> bytes:
    """A copy with other bytes at some places."""
    made = bytearray(base)
    for place, value in changes:
        at = int(place)
        counter, colon, form = value.partition(":")
        new = counted(counter, form, turn) if colon else bytes.fromhex(value)
        if at + len(new) > len(made):
            raise Bad("change")
        made[at : at + len(new)] = new
    return bytes(made)


def parts_bytes(store: Store, parts: str) -> bytes:
    return b"".join(part_bytes(store, it) for it in parts.split(" "))


def first_word(line: str) -> Tuple[str, str]:
    """The first word, which may stand in quotes, and the rest."""
    if line.startswith('"'):
        word, _, rest = line[1:].partition('"')
        return word, rest[1:] if rest.startswith(" ") else rest
    word, _, rest = line.partition(" ")
    return word, rest


def words_of(line: str) -> List[str]:
    if '"' not in line:
        return line.split(" ")
    words: List[str] = []
    for number, piece in enumerate(line.split('"')):
        words += [piece] if number % 2 else [it for it in piece.split(" ") if it]
    return words


def text_line(b: bytes) -> str:
    return f"{len(b)} bytes {sha(b).hex()}"
