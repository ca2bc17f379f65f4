"""What --json prints: an object a line. A path is text, in which U+FFFD stands in place of each byte that is no
UTF-8; then `path_hex` has its bytes."""
import functools
import os
import re
from typing import Any, Callable, Dict, Union

from .escapes import json_shown

Members = Dict[str, Any]
# What is no character, as what Python decodes a byte to that is no UTF-8.
SURROGATE = re.compile("[\ud800-\udfff]")


class Line(str):
    """A line that is printed, and the members of the object that is printed in its place."""

    members: Members


def line_of(text: str, kind: str, /, **members: Any) -> Line:
    """A line whose object is of a type."""
    line = Line(text)
    line.members = {"type": kind, **members}
    return line


def path_members(path: Union[bytes, str], name: str = "path") -> Members:
    data = os.fsencode(path)
    try:
        return {name: data.decode(), f"{name}_hex": None}
    except UnicodeDecodeError:
        return {name: os.fsdecode(data), f"{name}_hex": data.hex()}


NO_PATH: Members = {"path": None, "path_hex": None}


@functools.lru_cache(maxsize=None)
def encoder() -> Callable[[Members], str]:
    import json

    return json.JSONEncoder(ensure_ascii=False).encode


def encoded(members: Members) -> str:
    return json_shown(SURROGATE.sub("\ufffd", encoder()(members)))
