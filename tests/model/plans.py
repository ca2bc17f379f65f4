"""The words of commands, told a second time by docs/COMMANDS.md."""
from typing import Callable, Dict, List, NamedTuple, Optional, Sequence, Tuple, TypeVar

from .lines import address_word, arch_word, digest_word, uuid_word

# The words that name one input, in the order of a plan's inputs.
INPUTS = ("in", "frames", "archive", "summary", "ops", "script")
ANY_NUMBER = 1 << 62


class Taken(NamedTuple):
    """What a command takes: its words by their names, in their order, of which the last may be there several times,
    with a star after it; whether it asks several archives by `--with`; how often `--index` may be there; its flags."""

    words: Sequence[str]
    is_asking: bool
    indexes: int
    flags: Sequence[str]


# What each command takes, by its name; `takes` notes it.
TAKEN: Dict[str, Taken] = {}
Method = TypeVar("Method", bound=Callable[..., int])


def takes(
    words: str, is_asking: bool = False, indexes: int = 0, flags: str = ""
) -> Callable[[Method], Method]:
    """Notes what the command takes that a method `run_` and its name carries out."""

    def note(method: Method) -> Method:
        TAKEN[method.__name__[len("run_") :]] = Taken(words.split(), is_asking, indexes, flags.split())
        return method

    return note


class Copy(Exception):
    """What the model does not tell: the lines of the text are left as they are."""


Value = TypeVar("Value")


def told(value: Optional[Value]) -> Value:
    """A value that has its form. Refused words are not told here."""
    if value is None:
        raise Copy
    return value


class Plan:
    """What words ask for: a command, its single words by their names, and those that may stand several times."""

    def __init__(self, words: Sequence[str]) -> None:
        if not words or words[0] not in TAKEN:
            raise Copy
        self.command = words[0]
        self.taken = TAKEN[self.command]
        self.load: Optional[int] = None
        self.wanted: Optional[bytes] = None
        self.flags: List[str] = []
        self.more: List[str] = []
        self.indexes: List[str] = []
        self.one: Dict[str, str] = {}
        self.several: Dict[str, List[str]] = {}
        self.name(self.positional(words[1:]))
        self.uuid = told(uuid_word(self.one["uuid"])) if "uuid" in self.one else b""
        self.arch = told(arch_word(self.one["arch"])) if "arch" in self.one else b""
        self.digest = told(digest_word(self.one["digest"])) if "digest" in self.one else b""
        self.addresses = [told(address_word(it)) for it in self.several.get("address", [])]
        self.files, self.archives = self.several.get("file", []), self.several.get("archives", [])
        inputs = [self.one[it] for it in ("in", "archive", "summary", "ops") if it in self.one]
        if self.one.get("out") in [*inputs, *self.files, *self.more, *self.indexes]:
            raise Copy

    @property
    def lines(self) -> bool:
        return "--lines" in self.flags

    @property
    def slices(self) -> bool:
        return "--slices" in self.flags

    @property
    def keep_going(self) -> bool:
        return "--keep-going" in self.flags

    @property
    def key(self) -> bytes:
        return self.uuid + self.arch

    def positional(self, words: Sequence[str]) -> List[str]:
        """The words that are no options, which are taken."""
        found: List[str] = []
        left = list(words)
        while left:
            word = left.pop(0)
            if not word.startswith("-") or word == "-":
                found.append(word)
            elif word == "--":
                return found + left
            elif word in self.taken.flags and word not in self.flags:
                self.flags.append(word)
            else:
                self.take_option(*self.option(word, left))
        return found

    @staticmethod
    def option(word: str, left: List[str]) -> Tuple[str, str]:
        """An option and its value, which may be the next word."""
        name, equals, value = word.partition("=")
        if not equals and not left:
            raise Copy
        return name, value if equals else left.pop(0)

    def take_option(self, name: str, value: str) -> None:
        if name == "--load" and self.command == "symbolicate" and self.load is None:
            self.load = told(address_word(value))
        elif name == "--digest" and self.command == "extract" and self.wanted is None:
            self.wanted = told(digest_word(value))
        elif name == "--with" and self.taken.is_asking:
            self.more.append(value)
        elif name == "--index" and len(self.indexes) < self.taken.indexes:
            self.indexes.append(value)
        else:
            raise Copy

    def name(self, found: List[str]) -> None:
        """Takes the words by their names."""
        names = self.taken.words
        for place, name in enumerate(names):
            if name.endswith("*"):
                self.several[name[:-1]] = found[place:]
            if place >= len(found):
                raise Copy
            if not name.endswith("*"):
                self.one[name] = found[place]
        if not names[-1].endswith("*") and len(found) != len(names):
            raise Copy

    def inputs(self) -> List[str]:
        """The paths of the inputs, in the order of the words."""
        first = [self.one[it] for it in INPUTS if it in self.one]
        if self.archives:
            return [*first, *self.indexes, *self.archives, *self.more, *self.files]
        return [*first, *self.more, *self.indexes, *self.files]
