"""What a program takes, by what it says as `--help`: its commands, their arguments and options."""
from __future__ import annotations

import os
import pathlib
import re
import subprocess
from typing import Dict, Iterable, List, Mapping, NamedTuple, Sequence, Set, Tuple, Union

# As `  admit        Add Mach-O images to an archive`.
COMMAND = re.compile(r" +([a-z][\w-]*)(?:  +(.*))?")
# As `  <FILE>...  The Mach-O files to take`.
ARGUMENT = re.compile(r"  <(\w+)>(\.\.\.)?(?:  +(.*))?")
# As `  ARCH         the architecture: arm64 or arm64e`.
PLACED = re.compile(r"  ([A-Z]+)  +(.*)")
# As `      --load <HEX>  Where the image was loaded`, and `  --out FOLDER  print into a folder`.
OPTION = re.compile(r" +(?:(-\w)(?: [A-Z]+)?, )?(--[\w-]+)(?: <?([A-Z][A-Z=@/]*)>?)?(?:  +(.*))?")
# An option in a form of a tool, and the word after it, which is its value unless it is an argument.
IN_FORM = re.compile(r"(--[a-z][a-z-]*)(?: ([A-Z][A-Z=@/]*))?")
IN_BRACKETS = re.compile(r"\[[^]]*\]")
# The sections of a help that list words.
LISTS = ("Commands", "Arguments", "Options", "positional arguments", "options", "optional arguments")
# One of the words that the help of an argument lists.
LISTED = re.compile(r"[a-z][a-z0-9_]+")
# The arguments and the values of options that are paths.
PATHS = set("IN OUT FROM FILE OPS ARCHIVE OTHER INDEX SUMMARY FRAMES SCRIPT REPORT PATH FOLDER".split())
# Help is laid out for a screen that no line is too long for.
WIDE = {**os.environ, "COLUMNS": "1000", "LC_ALL": "C.UTF-8"}


class Option(NamedTuple):
    """An option by its flags, the name of its value, if it has one, and its help."""

    flags: List[str]
    value: str
    about: str

    def is_path(self) -> bool:
        return self.value in PATHS


class Argument(NamedTuple):
    """An argument by its name, whether several words may stand there, and its help."""

    name: str
    is_last: bool
    about: str

    def words(self) -> List[str]:
        """The words that its help lists after a colon, but for the forms of others."""
        return [it for it in re.split(r" or |, ", self.about.partition(": ")[2]) if LISTED.fullmatch(it)]

    def is_path(self) -> bool:
        return self.name in PATHS


class Form(NamedTuple):
    """The words of a command, or those of a program without commands; the name is then empty."""

    name: str
    about: str
    usage: str
    arguments: List[Argument]
    options: List[Option]

    def placed(self) -> List[Argument]:
        """The arguments up to one of which several words may stand there."""
        several = [place for place, it in enumerate(self.arguments) if it.is_last]
        return self.arguments[: several[0] + 1] if several else self.arguments


class Program(NamedTuple):
    """A program: what it does, all that it says, its forms of words, and what may stand in each of them."""

    name: str
    about: str
    text: str
    forms: List[Form]
    options: List[Option]

    @property
    def commands(self) -> List[Form]:
        return [it for it in self.forms if it.name]

    def longest(self) -> List[Form]:
        """Of the forms of each name the one with the most arguments."""
        by_length = sorted(self.forms, key=lambda it: len(it.arguments))
        last = {it.name: it for it in by_length}
        return [last[it] for it in dict.fromkeys(form.name for form in self.forms)]

    def has_help_command(self) -> bool:
        return "\n  help " in self.text


def said(words: Sequence[Union[str, pathlib.Path]]) -> str:
    """What a program prints for these words."""
    nothing, printed = subprocess.DEVNULL, subprocess.PIPE
    return subprocess.run(words, env=WIDE, check=True, stdin=nothing, stdout=printed).stdout.decode()


def section(text: str, *names: str) -> List[str]:
    """The lines below a heading, each with its help, which may stand in a line of its own."""
    joined: List[str] = []
    for name in names:
        for line in text.partition(f"\n{name}:\n")[2].partition("\n\n")[0].rstrip("\n").split("\n"):
            if line.startswith(" " * 10) and not line.lstrip().startswith("-") and joined:
                joined[-1] += f"  {line.strip()}"
            elif line:
                joined.append(line)
    return joined


def options_in(text: str) -> List[Option]:
    found = [OPTION.fullmatch(it) for it in section(text, "Options", "options", "optional arguments")]
    return [Option([it for it in one.group(1, 2) if it], one[3] or "", one[4] or "") for one in found if one]


# ---- programs whose help is made by `clap`


def arguments_in(text: str) -> List[Argument]:
    found = [ARGUMENT.fullmatch(it) for it in section(text, "Arguments")]
    return [Argument(one[1], bool(one[2]), one[3] or "") for one in found if one]


def form_in(name: str, about: str, text: str) -> Form:
    usage = re.search(r"^Usage: \S+ (.*)$", text, re.M)
    return Form(name, about, usage[1] if usage else "", arguments_in(text), options_in(text))


def program_of(path: pathlib.Path, name: str) -> Program:
    text = said([path, "--help"])
    found = [COMMAND.fullmatch(it) for it in section(text, "Commands")]
    commands = {one[1]: one[2] for one in found if one}
    forms = [form_in(it, about, said([path, it, "--help"])) for it, about in commands.items() if it != "help"]
    return Program(name, text.partition("\n")[0], text, forms, options_in(text))


# ---- tools, whose help says what they do, with each form of words in a line that begins with their name


def names_in(usages: Sequence[str]) -> Set[str]:
    """The arguments that the first form has."""
    return {it.rstrip(".") for it in IN_BRACKETS.sub("", usages[0]).split() if it.rstrip(".").isupper()}


def helps_in(text: str) -> Dict[str, str]:
    """The help of each argument that has one."""
    found = [PLACED.fullmatch(it) for it in section(text, "positional arguments")]
    return {one[1]: one[2] for one in found if one}


def form_of(usage: str, names: Set[str], about: str, options: List[Option], helps: Mapping[str, str] = {}) -> Form:
    """A form of a tool. A command is a word in lower case that stands first."""
    words = IN_FORM.sub(lambda it: it[2] if it[2] in names else "", IN_BRACKETS.sub("", usage)).split()
    name = words[0] if words and words[0].islower() else ""
    placed = [(it.rstrip("."), it.endswith(".")) for it in words if it.rstrip(".").isupper()]
    arguments = [Argument(it, is_last, helps.get(it, "")) for it, is_last in placed]
    return Form(name, about, usage, arguments, options)


def usages_in(text: str, name: str) -> List[str]:
    return re.findall(rf"^(?:usage: |    ){name} (.*)$", text, re.M)


def prose_in(text: str, name: str) -> str:
    """What a help says beside its forms and lists."""
    text = re.sub(rf"^(?:usage: |    ){name} .*\n", "", text, flags=re.M)
    listed = "|".join(LISTS)
    return re.sub(rf"^(?:{listed}):\n(?:[ \t].*\n|\n(?=[ \t]))*", "", text, flags=re.M).strip("\n")


def listed_options(options: Iterable[Option]) -> str:
    """The options of a help, each with what it does."""
    lines = [f"{one.flags[-1]}{f' {one.value}' if one.value else ''}  {one.about}" for one in options]
    return "\n".join(["## Options", "", *lines])


def commands_of_tool(path: pathlib.Path, name: str, text: str) -> Tuple[List[Form], List[str]]:
    """The commands of a tool, and the help of each below its form."""
    found = [COMMAND.fullmatch(it) for it in section(text, "positional arguments")]
    every = [(one, said([path, one[1], "--help"])) for one in found if one]
    # An argument has one help, whichever command shows it.
    arguments = {argument: help for _, its in every for argument, help in helps_in(its).items()}
    forms, helps = [], []
    for one, its in every:
        usages = usages_in(its, name)
        names, options = names_in(usages), options_in(its)
        forms += [form_of(usage, names, one[2] or "", options, arguments) for usage in usages]
        helps.append("".join(f"### `{usage}`\n\n" for usage in usages) + prose_in(its, name))
    return forms, helps


def tool_of(path: pathlib.Path, name: str) -> Program:
    text = said([path, "--help"])
    options, usages = options_in(text), usages_in(text, name)
    forms, helps = commands_of_tool(path, name, text)
    forms = forms or [form_of(it, names_in(usages), "", []) for it in usages]
    helps.append(listed_options(options))
    first, _, rest = prose_in(text, name).partition("\n\n")
    about, _, more = " ".join(first.split()).partition(". ")
    prose = "\n\n".join(filter(None, [more, rest, *helps]))
    return Program(name, about.replace("`", ""), prose, forms, options)
