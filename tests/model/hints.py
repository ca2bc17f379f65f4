"""The second line of a fault, told a second time: which file it was, what the system says of it, and what it looks
like."""
from typing import Callable, Dict, List, Optional, Protocol, Sequence, Tuple

from .contents import ARCHIVES, OPS, SUM
from .indexes import EARLIER_IDX, IDX
from .lines import address_word, arch_word, digest_word, is_hex, uuid_word
from .plans import Plan

NO_FILE = ": No such file or directory (os error 2)"
NO_SPACE = ": No space left on device (os error 28)"
# What files of others begin with, that stand in cases.
MACH_O = (b"\xcf\xfa\xed\xfe", b"\xce\xfa\xed\xfe", b"\xfe\xed\xfa\xcf", b"\xfe\xed\xfa\xce")
UNIVERSAL = (b"\xca\xfe\xba\xbe", b"\xca\xfe\xba\xbf")


class Files(Protocol):
    """The files of a folder, by their names."""

    def read(self, name: str) -> Optional[bytes]:
        """The bytes of a file; None where it is not there."""


def look_of(there: bytes) -> Optional[str]:
    """What a file with these bytes looks like, if that is known."""
    kinds = {
        **dict.fromkeys(ARCHIVES, "an archive, which `merge` takes"),
        OPS: "an operations file, which `apply` takes",
        SUM: "a summary, which `delta` takes",
        IDX: "an index, which `index` writes",
        EARLIER_IDX: "an index of an earlier release, which `index` makes anew, "
        "or `symarch-keep` if it keeps the archive",
    }
    if there[:8] in kinds:
        return kinds[there[:8]]
    if there[:4] in MACH_O:
        return "a Mach-O file, which `admit` takes"
    if there[:4] == UNIVERSAL[0] and int.from_bytes(there[4:8].ljust(4, b"\0"), "big") >= 43:
        return "a Java class file, which no command takes"
    return "a universal file, which `admit` takes" if there[:4] in UNIVERSAL else None


# ---- faulty lines

# Of each number of a script the greatest that it may be.
MOST = {"N": 64, "SITE": 4294967295, "MESSAGE": 4294967295}


def number_flaw(field: str, most: int) -> Optional[str]:
    """What is wrong with a number, if something is."""
    if not field.isascii() or not field.isdigit():
        return f"expected a decimal number, at most {most}"
    if field != "0" and field[0] == "0":
        return "expected no leading zeros"
    if len(field) > 10 or int(field) > most:
        return f"too large, expected at most {most}"
    return None


def is_bytes(field: str) -> bool:
    return is_hex(field) and len(field) % 2 == 0 and field != ""


# Of each field the form that it has, and whether it has it.
FORMS: Dict[str, Tuple[str, Callable[[str], bool]]] = {
    "UUID": ("32 hex digits, with or without hyphens", lambda it: uuid_word(it) is not None),
    "DIGEST": ("64 hex digits", lambda it: digest_word(it) is not None),
    "BYTES": ("pairs of hex digits", is_bytes),
    "ARCH": ("x86_64, x86_64h, arm64, arm64e or cpu:CCCCCCCC/00SSSSSS", lambda it: arch_word(it) is not None),
    "ADDRESS": ("1 to 16 hex digits, with or without 0x", lambda it: address_word(it) is not None),
    "LOAD": ("- or 1 to 16 hex digits, with or without 0x", lambda it: it == "-" or address_word(it) is not None),
}
FRAME = "UUID ARCH LOAD ADDRESS"
EVENTS = {
    **{"full": "SITE", "ask": "SITE", "save": "SITE", "stop": "SITE", "take": "SITE BYTES"},
    **{"reply": "SITE MESSAGE", "deliver": "SITE MESSAGE", "retire": "SITE UUID ARCH DIGEST"},
}


def invalid_field(names: str, fields: Sequence[str]) -> Optional[str]:
    """The first of these fields that has not its form."""
    for name, field in zip(names.split(" "), fields):
        if name in MOST:
            flaw = number_flaw(field, MOST[name])
        else:
            form, has_it = FORMS[name]
            flaw = None if has_it(field) else f"expected {form}"
        if flaw:
            return f"has an invalid {name}: {flaw}"
    return None


def flaw_of_fields(fault: str, fields: Sequence[str]) -> Optional[str]:
    if fault == "BadFrame":
        return invalid_field(FRAME, fields) if len(fields) == 4 else f"has not the four fields {FRAME}"
    if fault == "NoSites":
        flaw = invalid_field("N", fields[1:]) if fields[0] == "sites" and len(fields) == 2 else None
        return flaw or "is not `sites N`, N from 1 to 64"
    if fields[0] not in EVENTS:
        return "begins with no word of an event"
    names = EVENTS[fields[0]]
    if len(fields) - 1 != len(names.split(" ")):
        return "has fewer or more fields than its event"
    return invalid_field(names, fields[1:])


def flaw_of_line(fault: str, line: bytes) -> Optional[str]:
    if line.startswith(b"\xef\xbb\xbf"):
        return "begins with a byte-order mark"
    if b"\t" in line:
        return "has a tab"
    if b"\r" in line:
        return "has a carriage return"
    try:
        text = line.decode()
    except UnicodeDecodeError:
        return "is not UTF-8"
    if text != text.strip(" ") or "  " in text:
        return "has two spaces together, or one at an end"
    return flaw_of_fields(fault, text.split(" "))


def faulty_line(text: str, there: bytes) -> str:
    """Which line of FRAMES or SCRIPT is faulty, and how, if more is known than the fault tells."""
    fault, at, number = text.partition(" at line ")
    lines = there.split(b"\n")
    if not at or fault == "TooManyEvents" or int(number) > len(lines) or lines[int(number) - 1] == b"":
        return ""
    return f", whose line {number} {flaw_of_line(fault, lines[int(number) - 1])}"


# ---- the line


def word_at(plan: Plan, place: str) -> str:
    """The word of a plan that names the file of this place."""
    kind, _, digits = place.partition(" ")
    number = int(digits or 0)
    if kind == "output":
        return plan.one["out"]
    if kind == "file":
        return plan.files[number]
    if kind == "archive":
        firsts = [plan.one[it] for it in ("in", "archive") if it in plan.one]
        return [*firsts, *plan.archives, *plan.more, *plan.files][number]
    if kind == "index":
        return plan.indexes[number]
    return plan.one[kind]


def what_is_wrong(place: str, text: str, there: Optional[bytes], obstacle: Optional[str]) -> str:
    """What stands after the path of a file, which has these bytes if it is there."""
    if text == "cannot replace":
        return f", there, and {obstacle}"
    if text.startswith("failed after"):
        return NO_SPACE
    if text == "cannot create" and there is not None:
        return ", the file of an input"
    if text in ("NoArchive", "NoIndex"):
        return ""
    if there is None or text in ("cannot create", "cannot open"):
        return NO_FILE
    if text == "OldArchive":
        return ", an archive of version 1, which `migrate` takes"
    if text == "Stale":
        return ", not of this archive, of which `index` writes a new one"
    if text.startswith("Stale at entry"):
        return ", of an archive in which a slice changed since it came in: run `symarch-keep check` first"
    if text.startswith("Damaged at entry"):
        return ", changed since it was written: run `symarch-keep check` if it keeps the archive, else `index`"
    if text.startswith("NoLines at entry"):
        return ", without the lines of that slice, which are too many for it: ask without `--index`"
    if place in ("frames", "script"):
        return faulty_line(text, there)
    look = look_of(there)
    if look is None:
        return ""
    is_of_kind = "admit" not in look if place.startswith("file") else text.endswith(" at 0")
    return f", {look}" if is_of_kind else ""


def second_line(plan: Plan, fault: str, folder: Files, obstacle: Optional[str] = None) -> List[str]:
    """The line after `symarch: FAULT`, if there is one, with @ for the folder; why what is at OUT is not replaced."""
    place, colon, text = fault.partition(": ")
    if not colon or place == "report":
        return []
    word = word_at(plan, place)
    is_file = word.startswith("@")
    there = folder.read(word[1:]) if is_file else None
    return [f"    {place} is {'@/' + word[1:] if is_file else word}{what_is_wrong(place, text, there, obstacle)}"]
