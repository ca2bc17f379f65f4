"""Sites that exchange over folders, and what is in a folder."""
import os
import pathlib
from typing import Any, Callable, Dict, List, Sequence, Tuple

from .cases import same
from .made_images import EMPTY, index_of, slice_words
from .rooms import Room, bytes_of, kept_index, today_of

DATE = r"[0-9]{4}-[0-9]{2}-[0-9]{2}T[0-9]{2}:[0-9]{2}:[0-9]{2}Z"


class Site:
    """A site: its archive, the folder over which it exchanges, and the words for its key, if it signs."""

    def __init__(self, room: Room, name: str, folder: str = "shared", keys: Sequence[Any] = ()) -> None:
        self.room, self.name, self.folder, self.keys = room, name, room.path / folder, keys
        self.archive = room.path / f"{name}.sym"
        self.folder.mkdir(exist_ok=True)

    def add(self, *images: bytes) -> None:
        for made in images:
            self.room.file("given", made)
            self.room.call("add", self.archive, "given")

    def retire(self, made: bytes) -> None:
        self.room.call("retire", "--before-it-comes", self.archive, *slice_words(made))

    def exchange(self, **more: Any) -> Tuple[List[str], List[str]]:
        return self.room.call(*self.words(), **more)

    def start(self, **more: Any) -> Any:
        return self.room.start(*self.words(), **more)

    def words(self) -> List[Any]:
        """Those of its exchange."""
        return ["exchange", self.archive, self.folder, self.name, *self.keys]

    def has(self) -> bytes:
        """The archive of what the site has."""
        return bytes_of(self.archive) if self.archive.exists() else EMPTY

    def answers(self, to: "Site") -> List[str]:
        begins = f"{self.name}.answers.{to.name}."
        return sorted(it for it in os.listdir(self.folder) if it.startswith(begins) and it.endswith(".sym"))


def until_same(
    sites: Sequence[Site], wanted: bytes, between: Callable[[], None] = lambda: None, most: int = 4
) -> None:
    """Exchanges of all sites, until all have the same bytes. Then another one changes nothing."""
    for _ in range(most):
        for site in sites:
            site.exchange()
        between()
        if all(site.has() == wanted for site in sites):
            break
    for site in sites:
        same(f"archive of {site.name}", site.has(), wanted)
    files = [path for site in sites for path in (site.archive, today_of(site.archive)) if path.exists()]
    before = [path.stat().st_ino for path in files]
    for site in sites:
        site.exchange()
    same("archives that were written again", [path.stat().st_ino for path in files], before)


def folded(sites: Sequence[Site], wanted: bytes) -> None:
    """After a fold the archive of each site alone has all, with its index."""
    for site in sites:
        site.room.call("fold", site.archive)
        same(f"archive of {site.name} after a fold", site.archive.read_bytes(), wanted)
        same(f"archive of today of {site.name}", today_of(site.archive).read_bytes(), EMPTY)
        same(f"index of {site.name}", kept_index(site.archive), index_of(wanted))


def state_of(folder: pathlib.Path) -> Dict[pathlib.Path, bytes]:
    """The files of a folder, at any depth, by their bytes."""
    return {path: path.read_bytes() for path in folder.rglob("*") if path.is_file()}


def bring_back(folder: pathlib.Path, state: Dict[pathlib.Path, bytes]) -> None:
    """Makes a folder what it was."""
    for path in state_of(folder):
        if path not in state:
            path.unlink()
    for path, data in state.items():
        path.write_bytes(data)
