"""The words of a request: what each means, and which are taken."""
from __future__ import annotations

import re
import uuid
from typing import Dict, Iterable, List, Optional

from flask import request

from symarch_tools.commands import arguments
from symarch_tools.console.escapes import shown
from symarch_tools.console.faults import Failed
from symarch_tools.formats.contents import arch_in

from .refusals import Refusal

# What the file of an upload or of a report may be called, since that stands in lines and names of builds.
PLAIN = re.compile(r"[^\w.+ -]", re.ASCII)
MOST_OF_NAME = 128
HEX = re.compile("[0-9a-fA-F]{32}")


def refuse_others(known: Iterable[str]) -> None:
    """Refuses parameters that mean nothing, so that none that is misspelled is passed over."""
    others = [name for name in request.args if name not in known]
    if others:
        raise Refusal(400, f"there is no parameter `{shown(others[0])}` here: expected {', '.join(known) or 'none'}")


def flags_of(names: Iterable[str], others: Iterable[str] = ()) -> List[str]:
    """The parameters that are given without a value, as options of a tool. Others may stand besides them."""
    refuse_others([*names, *others])
    given = [name for name in names if name in request.args]
    valued = [name for name in given if not {"", "1"}.issuperset(request.args.getlist(name))]
    if valued:
        raise Refusal(400, f"`{shown(valued[0])}` has no value here")
    return [f"--{name}" for name in given]


def uuid_of(word: str) -> str:
    try:
        return str(arguments.uuid_of(word))
    except Failed as failed:
        raise Refusal(400, failed.text) from None


def hex_uuid_of(word: str) -> str:
    """A UUID of 32 hex digits, as debuginfod has it."""
    if not HEX.fullmatch(word):
        raise Refusal(400, f"a build id is `{shown(word)}`: expected 32 hex digits")
    return str(uuid.UUID(word))


def argument(name: str) -> Optional[str]:
    return request.args.get(name) or None


def checked_words(words: Dict[str, Optional[str]]) -> Dict[str, Optional[str]]:
    """Words that are given in their forms, by their names."""
    day_of = arguments.day_of
    check = {"digest": arguments.digest_of, "since": day_of, "until": day_of, "app": arguments.app_of}
    try:
        for name, word in words.items():
            if word is not None and name in check:
                check[name](word)
    except (Failed, UnicodeError) as failed:
        raise Refusal(400, str(failed)) from None
    return words


def arch_of(word: Optional[str]) -> Optional[str]:
    """An architecture, as it is printed."""
    try:
        return word and arch_in(arguments.arch_of(word))
    except Failed as failed:
        raise Refusal(400, failed.text) from None


def file_name(word: Optional[str], otherwise: str) -> str:
    """A name that a file of a room may have, and that is no option: of a path its last part."""
    last = (word or "").replace("\\", "/").rstrip("/").rpartition("/")[2]
    plain = PLAIN.sub("_", last)[-MOST_OF_NAME:].lstrip(".-")
    return plain.strip() or otherwise
