"""What a file looks like of which nothing goes in, by its first bytes, in the words of `symarch admit`."""
import re
from typing import Optional, Tuple

from ..console.packed_kinds import PACKED

UNPACKED, NO_WORD = "which has to be unpacked first", "which no command takes"
# How much of a file is looked at: the magic of a tar file stands in its first header.
MOST_LOOKED_AT, TAR_MAGIC = 512, 257
BEGINNINGS: Tuple[Tuple[bytes, str], ...] = (
    (b"MSYMARC1", "an archive, which `symarch merge` takes"),
    (b"MSYMARC2", "an archive, which `symarch merge` takes"),
    (b"MSYMOPS1", "an operations file, which `symarch apply` takes"),
    (b"MSYMSUM1", "a summary, which `symarch delta` takes"),
    (b"MSYMIDX2", "an index, which `symarch index` writes"),
    (
        b"MSYMIDX1",
        "an index of an earlier release, which `symarch index` makes anew, or `symarch-keep` if it keeps the archive",
    ),
    *((begins, f"{what}, {UNPACKED}") for begins, what in PACKED),
    (b"PK\5\6", "an empty zip file"),
    (b"xar!", f"a xar file, {UNPACKED}"),
    (b"\x7fELF", f"an ELF file, {NO_WORD}"),
    (b"Microsoft C/C++ ", f"a PDB file, {NO_WORD}"),
    (b"BSJB", f"a PDB file, {NO_WORD}"),
    (b"MZ", f"a PE file, {NO_WORD}"),
    (b"\xca\xfe\xba\xbe", f"a Java class file, {NO_WORD}"),
    (b"%PDF-", f"a PDF file, {NO_WORD}"),
    (b"bplist", f"a property list, {NO_WORD}"),
    (b"<?xml", f"a file of XML, {NO_WORD}"),
)
# What one is of the kinds that are counted.
ONE = {
    "32-bit images": "a 32-bit image",
    "big-endian images": "a big-endian image",
    "static libraries": "a static library",
    "images without a UUID": "an image without a UUID",
    "object files without a UUID": "an object file without a UUID",
    "universal files without a part": "a universal file without a part",
    "other files": "neither a Mach-O file nor a universal one",
    "other parts": "no image",
}
HTML, SPACE = re.compile(rb"<(!doctype html|html|head|body)\b", re.I), re.compile(rb"\s*")
MARK, COMMENT, END_OF_COMMENT = b"\xef\xbb\xbf", b"<!--", b"-->"
REPORT = re.compile(rb"(\xef\xbb\xbf)?\s*(\{|Incident Identifier:|Process:|Analysis of sampling|Date/Time:)")


def look_of(front: bytes) -> Optional[str]:
    """What a file with these first bytes looks like, if that is known."""
    if not front:
        return "an empty file"
    if front[TAR_MAGIC : TAR_MAGIC + 5] == b"ustar":
        return f"a tar file, {UNPACKED}"
    if is_html(front):
        return f"a page of HTML, {NO_WORD}"
    if REPORT.match(front):
        return "a text that begins as a report, which `symbolicate-report` reads"
    return next((look for begins, look in BEGINNINGS if front.startswith(begins)), None)


def is_html(front: bytes) -> bool:
    """Whether these bytes begin as a page, after comments."""
    end = len(MARK) if front.startswith(MARK) else 0
    begin = after_space(front, end)
    while end >= 0 and front.startswith(COMMENT, begin):
        end = front.find(END_OF_COMMENT, begin + len(COMMENT))
        begin = after_space(front, end + len(END_OF_COMMENT))
    return end >= 0 and bool(HTML.match(front, begin))


def after_space(front: bytes, at: int) -> int:
    found = SPACE.match(front, at)
    return found.end() if found else at
