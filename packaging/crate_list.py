"""The crates of crates.txt, and what each of them stands on."""
import pathlib
from typing import Dict, Iterable, List

TOP = pathlib.Path(__file__).resolve().parents[1]


class CrateList:
    """The crates that the crates.txt of a repository has, in its order: each stands below those that use it."""

    def __init__(self, top: pathlib.Path = TOP) -> None:
        self.file = top / "crates.txt"
        # What the line of each crate names: crates, and libraries of the kit.
        self.lines: Dict[str, List[str]] = {}
        for line in self.file.read_text(encoding="utf-8").splitlines():
            name, colon, used = line.partition("#")[0].partition(":")
            if colon:
                self.lines[name.strip()] = used.split()
        # Those of them that are crates.
        self.uses = {name: [it for it in used if it in self.lines] for name, used in self.lines.items()}

    def with_below(self, names: Iterable[str]) -> List[str]:
        """These crates, and those that they stand on, the lowest first."""
        needed = {*names}
        for name in reversed([*self.uses]):
            if name in needed:
                needed.update(self.uses[name])
        return [name for name in self.uses if name in needed]

    def text_of(self, names: Iterable[str]) -> str:
        """A crates.txt with the lines of these crates alone."""
        return "".join(f"{name}: {' '.join(self.lines[name])}\n" for name in names)
