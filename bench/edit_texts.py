"""Edits, wrong bodies of the crates: their texts, where they stand, and the sources that they are tried on."""
import functools
import hashlib
import pathlib
import re
import subprocess
import sys
from dataclasses import dataclass
from typing import Dict, Iterable, List, NamedTuple, Optional, Tuple

TOP = pathlib.Path(__file__).resolve().parents[1]
sys.path.insert(0, str(TOP / "packaging"))
from crate_list import CrateList  # noqa: E402

# What a crate is proved of.
FOLDERS = ("src", "specs", "proofs")
NAMED = re.compile(r"^# (\w+)\n", re.M)
FUNCTION = re.compile(r"( *)(?:pub(?:\([a-z]+\))? )?((?:const |unsafe )*)fn (\w+)")
OWNER = re.compile(r"(?:unsafe )?impl(?:<.*?>)? (?:(?:\w+::)*(\w+)(?:<.*>)? for )?(\w+)")
TRAIT = re.compile(r"(?:pub )?trait (\w+)")


class Change(NamedTuple):
    """A text of a file of a crate, which stands there once, and what takes its place."""

    path: str
    old: str
    new: str


class BadEdit(Exception):
    """Why an edit cannot be applied."""


@dataclass(frozen=True)
class Edit:
    """A wrong body of a crate, by its name."""

    crate: str
    name: str
    text: str

    @property
    def key(self) -> str:
        return f"{self.crate}/{self.name}"

    def digest(self) -> str:
        return hashlib.sha256(self.text.strip().encode()).hexdigest()[:8]

    def changes(self) -> List[Change]:
        found = []
        path = old = ""
        for line in self.text.splitlines():
            word, _, text = line.partition(" ")
            if word == "file:":
                path = text.strip()
            elif word == "old:":
                old = text
            elif word == "new:":
                found.append(Change(path, old, text))
        return found

    def applied(self) -> Dict[str, str]:
        """The texts of the files that it changes, as it leaves them."""
        texts: Dict[str, str] = {}
        for path, old, new in self.changes():
            text = texts.get(path, source(self.crate, path))
            if text.count(old) != 1:
                raise BadEdit(f"{path} has {text.count(old)} times `{old.strip()}`")
            texts[path] = text.replace(old, new)
        return texts

    def stands(self) -> bool:
        try:
            return bool(self.applied())
        except BadEdit:
            return False

    def functions(self) -> Optional[List["Function"]]:
        """The functions whose bodies or contracts it changes; none if it changes something else."""
        found = [function_at(source(self.crate, path), path, old) for path, old, _ in self.changes()]
        return sorted({it for it in found if it}) if all(found) else None

    def body(self) -> Optional["Function"]:
        """The one function of which it changes nothing but lines of the body, if there is one."""
        found = self.functions() or []
        if len(found) != 1 or not self.stands():
            return None
        (text,) = self.applied().values()
        before, lines = source(self.crate, found[0].path).splitlines(), text.splitlines()
        changed = [at for at, (old, new) in enumerate(zip(before, lines)) if old != new]
        inside = all(found[0].body < at < found[0].end for at in changed)
        return found[0] if inside and len(before) == len(lines) else None


@functools.lru_cache(maxsize=None)
def source(crate: str, path: str) -> str:
    file = TOP / "crates" / crate / path
    return file.read_text(encoding="utf-8") if file.is_file() else ""


class Function(NamedTuple):
    """A function of a source of a crate."""

    path: str
    modules: Tuple[str, ...]
    # The type that it is of, and the trait, if it is a method.
    owner: str
    trait: str
    name: str
    # Its lines, counted from 0: the first, of its attributes, that with the bracket before its body, and that after it.
    first: int
    body: int
    end: int

    def among(self, names: Iterable[str]) -> List[str]:
        """Which of the names that a check of a crate prints may be its own: `crate::module::OwnerTrait::name`."""
        found = []
        for name in names:
            crate, *others = name.split("::")
            owner = "::".join(others[len(self.modules) : -1])
            if others[-1:] == [self.name] and (*others[: len(self.modules)],) == self.modules:
                more = owner[len(self.owner) :] if owner.startswith(self.owner) else None
                if more is not None and (more.startswith(self.trait) if self.trait else more[:1] in ("", "+")):
                    found.append(name)
        return found

    def has(self, path: str, line: int) -> bool:
        """Whether a line of a file, counted from 1, is its own."""
        return path == self.path and self.first < line <= self.end + 1


def function_at(text: str, path: str, old: str) -> Optional[Function]:
    """The function that has a text of a source."""
    module = pathlib.PurePath(path)
    before = text[: text.find(old) + len(old) - len(old.lstrip())]
    lines, at = text.splitlines(), len(before.splitlines()) - 1
    starts = [(number, found) for number in range(at, -1, -1) if (found := FUNCTION.match(lines[number]))]
    if module.parts[:1] != ("src",) or not starts:
        return None
    number, found = starts[0]
    ends = (it for it in range(number, len(lines)) if lines[it].startswith(found[1] + "}"))
    end = number if lines[number].endswith("}") else next(ends, number)
    if end < at:
        return None
    trait, owner = next(filter(None, map(of_block, reversed(lines[:number]))), ("", "")) if found[1] else ("", "")
    modules = () if module.stem in ("lib", "main") else (*module.parts[1:-1], module.stem)
    # What a constant is computed by has no body that only its clauses show.
    body = end if "const" in found[2] else body_of(lines, number, found[1], end)
    return Function(path, modules, owner, trait, found[3], with_attributes(lines, number), body, end)


def with_attributes(lines: List[str], number: int) -> int:
    """The line from which on attributes stand above a function, or its own."""
    above = 0
    while number > above and (line := lines[number - above - 1].strip()) and not line.startswith(("//", "}")):
        if line.endswith("{"):
            break
        above += 1
    return number - above


def body_of(lines: List[str], first: int, margin: str, end: int) -> int:
    """The line whose bracket begins the body of the function that begins at a line."""
    for at in range(first, end):
        is_of_signature = at == first or lines[at].startswith(margin + ")")
        if lines[at] == margin + "{" or (is_of_signature and lines[at].endswith(" {")):
            return at
    return end


def of_block(line: str) -> Optional[Tuple[str, str]]:
    """The trait, if there is one, and the type whose functions stand below a line."""
    found = OWNER.match(line)
    if found:
        return found[1] or "", found[2]
    named = TRAIT.match(line)
    return ("", named[1]) if named else None


def crates() -> List[str]:
    return sorted(it.name for it in (TOP / "crates").iterdir() if it.is_dir())


def edits_in(crate: str, file: str = "edits") -> Dict[str, Edit]:
    """The edits that a file of a crate has, by their names."""
    path = TOP / "crates" / crate / file
    parts = NAMED.split(path.read_text(encoding="utf-8")) if path.is_file() else [""]
    edits = {name: Edit(crate, name, text) for name, text in zip(parts[1::2], parts[2::2])}
    if len(edits) < len(parts) // 2:
        sys.exit(f"{path}: two edits have one name")
    return edits


def in_gate(crate: str) -> Dict[str, Edit]:
    """The edits of a crate in the gate, by their names."""
    paths = (TOP / "crates" / crate / "must-fail").glob("*.edit")
    return {it.stem: Edit(crate, it.stem, it.read_text(encoding="utf-8")) for it in paths}


def chosen(words: Iterable[str], file: str = "edits") -> Dict[str, Dict[str, Edit]]:
    """The edits beside the gate that the words ask for, by their crates; without words all."""
    asked: Dict[str, Dict[str, Edit]] = {}
    for word in [*words] or crates():
        crate, _, name = word.partition("/")
        if crate not in crates():
            sys.exit(f"there is no crate {crate}")
        edits = edits_in(crate, file)
        if name and name not in edits:
            sys.exit(f"{crate} has no edit {name}")
        asked.setdefault(crate, {}).update({name: edits[name]} if name else edits)
    return {crate: edits for crate, edits in asked.items() if edits}


# ---- what an edit is tried on


@functools.lru_cache(maxsize=None)
def kit() -> str:
    """The logic of the kit, in which crates are proved."""
    try:
        said = subprocess.run(["rt", "version"], stdout=subprocess.PIPE, check=True, text=True).stdout
    except (OSError, subprocess.CalledProcessError):
        return "none"
    return said.partition("logic ")[2].strip()


def blob(data: bytes) -> str:
    """The name of some bytes in a repository of git."""
    return hashlib.sha1(b"blob %d\0%b" % (len(data), data)).hexdigest()


@functools.lru_cache(maxsize=None)
def files_of(crate: str) -> str:
    """The files that a crate is proved of, a line each."""
    top = TOP / "crates" / crate
    paths = sorted(it for folder in FOLDERS for it in (top / folder).rglob("*") if it.is_file())
    return "".join(f"{crate}/{it.relative_to(top)} {blob(it.read_bytes())}\n" for it in paths)


def own_sources(crate: str) -> str:
    """A digest of the sources of a crate alone."""
    return digest_of(files_of(crate))


@functools.lru_cache(maxsize=None)
def sources(crate: str) -> str:
    """A digest of the sources of a crate, of those below it, and of the kit's logic."""
    found = CrateList(TOP)
    names = found.with_below([crate])
    return digest_of(kit(), found.text_of(names), *map(files_of, names))


def digest_of(*texts: str) -> str:
    return hashlib.sha256("\n".join(texts).encode()).hexdigest()[:8]
