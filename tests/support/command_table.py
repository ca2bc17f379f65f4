"""The commands of the program and their arguments, as its table has them."""
import re
from dataclasses import dataclass
from typing import Callable, Dict, List, Optional

from .program import TOP

# The table: an argument, which may be as another one in what it leaves out, what it has, and a command with the names
# of its own.
TABLE = "crates/cli_arguments/src/commands.rt"
ARGUMENT = re.compile(r"^const (\w+): Argument = Argument \{\n(.*?)^\};", re.M | re.S)
FIELD = re.compile(r'^ +(name|count|role): (?:\w+::)?"?(\w+)(?:\("([\w-]+)"\))?', re.M)
SIGNATURE = re.compile(r'^ +Signature \{\n +name: "(\w+)",\n.*?^ +arguments: &\[(.*?)\]', re.M | re.S)
# What the names of files end in that stand for an argument.
ENDINGS = {"IN": ".sym", "ARCHIVE": ".sym", "SUMMARY": ".sum"}


@dataclass(frozen=True)
class Argument:
    """An argument of a command: the word of the manual, how often it stands, after which option, and what it is. A flag
    is an option without a word."""

    name: str
    count: str
    option: str
    role: str

    def usage(self) -> str:
        """As docs/COMMANDS.md has it."""
        option = f"[--{self.option} {self.name}]"
        flag = f"[--{self.option}]"
        usages = {"Several": f"{self.name}...", "Perhaps": option, "Often": f"{option}...", "Flag": flag}
        return usages.get(self.count, self.name)

    def usage_in_help(self) -> str:
        """As `clap` has it, which puts options before it."""
        return "" if self.option else f"<{self.name}>..." if self.count == "Several" else f"<{self.name}>"


Commands = Dict[str, List[Argument]]


def text_of(path: str) -> str:
    return (TOP / path).read_text(encoding="utf-8")


def program_commands() -> Commands:
    """The arguments of each command of the program, in the order of its table."""
    text = text_of(TABLE)
    bodies = dict(ARGUMENT.findall(text))
    return {
        name: [Argument(**fields_of(bodies, it)) for it in re.findall(r"\w+", constants)]
        for name, constants in SIGNATURE.findall(text)
    }


def fields_of(bodies: Dict[str, str], constant: str) -> Dict[str, str]:
    """What an argument has itself, and what it has of the one that it is like."""
    other = re.search(r"^ +\.\.(\w+)$", bodies[constant], re.M)
    fields = fields_of(bodies, other[1]) if other else {}
    for field, value, option in FIELD.findall(bodies[constant]):
        fields.update({"count": value, "option": option} if field == "count" else {field: value})
    return fields


def those(commands: Commands, is_so: Callable[[Argument], bool]) -> List[str]:
    """The commands of which an argument is so."""
    return [name for name, arguments in commands.items() if any(map(is_so, arguments))]


def fault_of_words(commands: Commands, name: str, *words: str) -> Optional[str]:
    """What is wrong with the words of a command line without options, if anything is."""
    if name not in commands:
        return "is no command"
    arguments = [it for it in commands[name] if not it.option]
    usage = " ".join(it.usage() for it in commands[name])
    is_open = bool(arguments) and arguments[-1].count == "Several"
    if len(words) < len(arguments) or (len(words) > len(arguments) and not is_open):
        return f"has other words than {usage}"
    for word, argument in zip(words, arguments):
        if not word.endswith(ENDINGS.get(argument.name, "")):
            return f"has {word} in the place of {argument.name}"
    return None
