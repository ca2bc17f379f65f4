"""What a line of ARCHIVE.builds has to be, of a file that other sites wrote or that changed. Most calls look at no such
file, and need no pattern for it."""
import contextlib
import datetime
import functools
import re
from typing import Optional, Tuple

from .contents import MOST_OF_FIELD, arch_in, numbers_of, sum_of

FIELD = rb"(?:[!-\[\]-~]|\\x(?:[0189a-f][0-9a-f]|20|5c|7f)){1,%d}" % MOST_OF_FIELD
UUID, ARCH, DIGEST = rb"[0-9a-f]{8}(?:-[0-9a-f]{4}){3}-[0-9a-f]{12}", rb"[a-z0-9_:/]{1,21}", rb"[0-9a-f]{64}"
LINE = re.compile(rb"([0-9a-f]{16}) (([0-9-]{10}) (%b (%b) %b(?: %b){4}))" % (UUID, ARCH, DIGEST, FIELD))


@functools.lru_cache(maxsize=4096)
def is_day(text: bytes) -> bool:
    with contextlib.suppress(ValueError):
        return datetime.date.fromisoformat(text.decode()).isoformat() == text.decode()
    return False


@functools.lru_cache(maxsize=4096)
def is_arch(text: bytes) -> bool:
    """Whether it is an architecture as it is printed, and of a slice."""
    with contextlib.suppress(ValueError):
        numbers = numbers_of(text.decode())
        return arch_in(numbers) == text.decode() and not numbers[4]
    return False


def line_in(line: bytes) -> Optional[Tuple[bytes, bytes]]:
    """What follows the day in a line, and the day; None if it is no line, or a byte of it changed."""
    found = LINE.fullmatch(line)
    if not found or sum_of(found[2]) != found[1] or not is_day(found[3]) or not is_arch(found[5]):
        return None
    return found[4], found[3]
