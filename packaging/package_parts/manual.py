"""Manual pages, made of Markdown as the documents of this repository have it, and of what the tools print as help."""
from __future__ import annotations

import re
import textwrap
from typing import Callable, List, NamedTuple, Optional, Sequence, Tuple

from .programs import Program

WIDTH = 100
PIECE = re.compile(r"`(?P<code>[^`]+)`|\*\*(?P<strong>[^*]+)\*\*|\[(?P<shown>[^\]]+)\]\([^)]*\)")
SPECIAL = {"\\": r"\e", "-": r"\-", "'": r"\(aq", "^": r"\(ha", "~": r"\(ti", "`": r"\(ga"}
RULE = re.compile(r"\|[-| ]+\|")
# An option, and what it does.
OPTION = re.compile(r"--?\w[\w-]*(?: [A-Z]+)? {2,}\S")
# What ends a paragraph.
BEGINS = ("|", "#", "- ", "```", "  ")
# Words, and after two spaces or more what they mean.
COLUMNS = re.compile(r"(\S.*?) {2,}(\S.*)")
# The examples of a help, which stand further in.
EXAMPLES = re.compile(r"^Examples:\n\n((?:  .*\n|\n(?=  ))+)", re.M)
ITEM = re.compile(r"(-|[0-9]+\.) +")


class Edition(NamedTuple):
    """What a page says of its package: the date, the version, and the names of all pages."""

    date: str
    version: str
    names: List[str]


def escaped(text: str) -> str:
    return "".join(SPECIAL.get(it, it) for it in text)


def inline(text: str) -> str:
    """A text with its code and what it stresses in bold. Of a link its words are left."""
    made, begin = [], 0
    for found in PIECE.finditer(text):
        made.append(escaped(text[begin : found.start()]))
        bold = found["code"] or (found["strong"] or "").replace("`", "")
        made.append(rf"\fB{escaped(bold)}\fR" if bold else inline(found["shown"]))
        begin = found.end()
    return "".join(made) + escaped(text[begin:])


def guarded(line: str) -> str:
    """A line of text that roff would take for a request is none."""
    return rf"\&{line}" if line.startswith((".", "'")) else line


def filled(lines: Sequence[str]) -> List[str]:
    """A paragraph of these lines."""
    text = inline(" ".join(it.strip() for it in lines))
    made = textwrap.wrap(text, WIDTH, break_long_words=False, break_on_hyphens=False)
    return [guarded(it) for it in made]


def heading(level: int, text: str) -> List[str]:
    """Headings of the second level are sections of the page, those of the third parts of them."""
    shown = inline(text).replace(r"\fB", "").replace(r"\fR", "")
    if level > 3:
        return [".PP", rf"\fB{shown}\fR", ".br"]
    return [f'.{"SH" if level < 3 else "SS"} "{shown.upper() if level < 3 else shown}"']


def listing(lines: Sequence[str]) -> List[str]:
    return [".PP", ".RS 4", ".nf", *(guarded(escaped(it)) for it in lines), ".fi", ".RE"]


def cells(row: str) -> List[str]:
    return [it.strip() for it in row.strip().strip("|").split(" | ")]


def table(rows: Sequence[str]) -> List[str]:
    """Each row is a paragraph with its first cell as the tag. From the third cell on its column is named."""
    names = cells(rows[0])
    made: List[str] = []
    for row in rows[1:]:
        if RULE.fullmatch(row.strip()):
            continue
        first, second, *more = cells(row) + [""]
        made += [".TP", guarded(inline(first)), *filled([second])]
        for name, cell in zip(names[2:], more):
            made += [".br", *filled([f"{name}: {cell}"])]
    return made


def columns(lines: Sequence[str]) -> List[str]:
    """Lines of words and what they mean, which may go on in lines further in."""
    rows: List[Tuple[str, List[str]]] = []
    for line in lines:
        if line.startswith(" ") and rows:
            rows[-1][1].append(line)
        else:
            found = COLUMNS.fullmatch(line)
            rows.append((found[1], [found[2]]) if found else (line, []))
    return [it for word, meaning in rows for it in tagged(word, meaning)]


def tagged(word: str, meaning: Sequence[str]) -> List[str]:
    return [".TP", guarded(rf"\fB{escaped(word)}\fR"), *(filled(meaning) or [r"\&"])]


class Reader:
    """Lines of Markdown, block by block."""

    def __init__(self, text: str) -> None:
        self.lines, self.place = text.split("\n"), 0

    def line(self) -> Optional[str]:
        return self.lines[self.place] if self.place < len(self.lines) else None

    def take_while(self, is_part: Callable[[str], object]) -> List[str]:
        """Takes one line, and those after it of which this is true."""
        begin = self.place
        self.place += 1
        while (line := self.line()) is not None and is_part(line):
            self.place += 1
        return self.lines[begin : self.place]

    def block(self, line: str) -> List[str]:
        """The block that begins with this line."""
        if line.startswith("#"):
            self.place += 1
            marks, _, text = line.partition(" ")
            return heading(len(marks), text)
        if line.startswith("```"):
            lines = self.take_while(lambda it: not it.startswith("```"))
            self.place += 1
            return listing(lines[1:])
        if line.startswith("  "):
            lines = textwrap.dedent("\n".join(self.take_while(lambda it: it.startswith("  ")))).split("\n")
            return columns(lines) if any(map(COLUMNS.fullmatch, lines)) else listing(lines)
        if OPTION.match(line):
            return columns(self.take_while(lambda it: it.startswith(" ") or OPTION.match(it)))
        if line.startswith("|"):
            return table(self.take_while(lambda it: it.startswith("|")))
        item = ITEM.match(line)
        if item:
            first, *more = self.take_while(lambda it: it.startswith("  ") and it.strip())
            mark = r"\(bu 2" if item[1] == "-" else f"{item[1]} 3"
            return [f".IP {mark}", *filled([first[item.end() :], *more])]
        return [".PP", *filled(self.take_while(lambda it: it.strip() and not it.startswith(BEGINS)))]


def body(text: str) -> List[str]:
    """The blocks of a text of Markdown."""
    reader = Reader(text)
    made: List[str] = []
    while (line := reader.line()) is not None:
        if line.strip():
            made += reader.block(line)
        else:
            reader.place += 1
    return made


def page(name: str, about: str, usages: Sequence[str], made: Sequence[str], edition: Edition) -> str:
    """A page of the first section of the manual."""
    others = ", ".join(rf"\fB{escaped(it)}\fR(1)" for it in edition.names if it != name)
    used = [rf"\fB{escaped(name)}\fR {escaped(it)}" for it in usages]
    lines = [
        f'.TH "{name.upper()}" 1 "{edition.date}" "symarch {edition.version}" "User Commands"',
        ".SH NAME",
        rf"{escaped(name)} \- {escaped(about[:1].lower() + about[1:].rstrip('.'))}",
        ".SH SYNOPSIS",
        *"\n.br\n".join(used).split("\n"),
        *made,
        ".SH SEE ALSO",
        others + r"; README.md, CHANGELOG.md, and COMMANDS.md, FILES.md, GLOSSARY.md and OPERATING.md below docs, in"
        r" \fBshare/doc/symarch\fR",
    ]
    # A heading begins a paragraph.
    kept = [it for it, before in zip(lines, ["", *lines]) if it != ".PP" or not before.startswith((".SH", ".SS"))]
    return "\n".join(kept) + "\n"


def of_document(program: Program, document: str, edition: Edition) -> str:
    """The page of a program, whose words are those of a document: its headings of the third level are the commands."""
    text = document.partition("\n")[2]
    usages = re.findall(r"^### `([^`]+)`$", document, re.M)
    return page(program.name, program.about, usages, [".SH DESCRIPTION", *body(text)], edition)


def of_tool(program: Program, edition: Edition) -> str:
    """The page of a tool, whose words are its help: what it does and its examples come first."""
    usages = [it.usage for it in program.forms]
    found = EXAMPLES.search(program.text)
    examples = [".SH EXAMPLES", *body(found[1]), ".SH DETAILS"] if found else []
    rest = EXAMPLES.sub("", program.text)
    made = [".SH DESCRIPTION", *body(f"{program.about.rstrip('.')}."), *examples, *body(rest)]
    return page(program.name, program.about, usages, made, edition)
