"""Links of documents that are packed without what they stood among."""
from __future__ import annotations

import posixpath
import re
from typing import Collection, Iterator, NamedTuple

# A block of code between lines of backquotes, and code within a line: neither has links. Then a link, whose words may
# be code.
CODE_BLOCK = r"^```.*?^```"
CODE = r"`[^`\n]*`"
WORDS = rf"\[(?P<words>(?:{CODE}|[^\[\]])*)\]"
LINK = re.compile(rf"{CODE_BLOCK}|{WORDS}\((?P<target>[^()\s]+)\)|{CODE}", re.MULTILINE | re.DOTALL)


class Link(NamedTuple):
    """A link of a document: its words, and the path and the heading that it leads to; each of these may be empty."""

    words: str
    path: str
    heading: str

    def is_local(self) -> bool:
        return ":" not in self.path

    def target(self, document: str) -> str:
        """The path below the folder that the document's path is below, which is the document's own without a path."""
        return posixpath.normpath(posixpath.join(posixpath.dirname(document), self.path)) if self.path else document


def link_of(found: re.Match[str]) -> Link:
    path, _, heading = found["target"].partition("#")
    return Link(found["words"], path, heading)


def links_in(text: str) -> Iterator[Link]:
    return (link_of(found) for found in LINK.finditer(text) if found["target"])


def among(document: str, text: str, paths: Collection[str]) -> str:
    """A document whose links lead to these paths alone: of others the words are left."""

    def kept(found: re.Match[str]) -> str:
        if not found["target"]:
            return found[0]
        link = link_of(found)
        return link.words if link.is_local() and link.target(document) not in paths else found[0]

    return LINK.sub(kept, text)
