"""Names of builds: the lines of ARCHIVE.builds, made here from docs/FILES.md, and cases over them."""
import hashlib
import io
import pathlib
import plistlib
import re
import tarfile
import time
import zipfile
from typing import Any, Dict, Iterable, List, Optional, Sequence, Tuple

from .cases import same
from .made_images import slice_text
from .rooms import RoomCase

DSYM = 10
DAY_SECONDS, SOON = 24 * 60 * 60, 300
FIRST = "symarch-keep 1\n"
DAY = re.compile(r"[0-9]{4}-[0-9]{2}-[0-9]{2}")
SHOP = {"CFBundleIdentifier": "com.example.shop", "CFBundleShortVersionString": "2.1", "CFBundleVersion": "210"}
BINARY = plistlib.FMT_BINARY
# What stands below dSYMs.
DWARF = "Contents/Resources/DWARF"


def sha(text: str) -> str:
    return hashlib.sha256(text.encode()).hexdigest()


def today() -> str:
    return time.strftime("%Y-%m-%d", time.gmtime())


def known(made: bytes, name: str, app: str = "?", version: str = "?", build: str = "?", day: str = "") -> str:
    """What a line has after its sum."""
    return f"{day or today()} {slice_text(made)} {app} {version} {build} {name}"


def within(made: bytes, app: str, version: str = "?", build: str = "?", day: str = "") -> str:
    """What a line has after its sum that says in which app a slice came in: its digest has each bit inverted."""
    uuid, arch, digest = slice_text(made).split(" ")
    inverted = bytes(255 - byte for byte in bytes.fromhex(digest)).hex()
    return f"{day or today()} {uuid} {arch} {inverted} {app} {version} {build} \\x00within"


def builds(*lines: str) -> bytes:
    """ARCHIVE.builds of these lines."""
    text = FIRST + "".join(f"{sha(one)[:16]} {one}\n" for one in sorted(lines))
    return f"{text}sha256 {sha(text)}\n".encode() if lines else b""


def union(*files: Iterable[str]) -> List[str]:
    """The lines of files together: of those that differ in the day alone the earliest."""
    days: Dict[str, str] = {}
    for line in (line for file in files for line in file):
        days[line[11:]] = min(line[:10], days.get(line[11:], line[:10]))
    return sorted(f"{day} {rest}" for rest, day in days.items())


def zipped(members: Sequence[Tuple[str, bytes]]) -> bytes:
    made = io.BytesIO()
    with zipfile.ZipFile(made, "w", zipfile.ZIP_DEFLATED) as packed:
        for name, content in members:
            packed.writestr(name, content)
    return made.getvalue()


def tarred(members: Sequence[Tuple[str, bytes]]) -> bytes:
    made = io.BytesIO()
    with tarfile.open(fileobj=made, mode="w:gz") as packed:
        for name, content in members:
            entry = tarfile.TarInfo(f"./{name}")
            entry.size = len(content)
            packed.addfile(entry, io.BytesIO(content))
    return made.getvalue()


class BuildsCase(RoomCase):
    """Cases over ARCHIVE.builds, each of which begins and ends on one day."""

    def setUp(self) -> None:
        super().setUp()
        left = DAY_SECONDS - time.time() % DAY_SECONDS
        if left < SOON:
            time.sleep(left + 1)

    def beside(self, archive_path: Optional[pathlib.Path] = None) -> pathlib.Path:
        return pathlib.Path(f"{archive_path or self.room.archive}.builds")

    def write(self, *lines: str) -> None:
        self.beside().write_bytes(builds(*lines))

    def names(self, *lines: str) -> None:
        """Fails where ARCHIVE.builds has others."""
        came = self.beside().read_bytes() if self.beside().exists() else b""
        same("names", came.decode().splitlines(), builds(*lines).decode().splitlines())

    def bundle(self, folder: str, made: bytes, version: str = "2.1", app: str = "com.example.shop") -> None:
        """A dSYM bundle of an image."""
        stated = {**SHOP, "CFBundleIdentifier": f"com.apple.xcode.dsym.{app}", "CFBundleShortVersionString": version}
        self.room.file(f"{folder}/Shop.app.dSYM/{DWARF}/Shop", made)
        self.room.file(f"{folder}/Shop.app.dSYM/Contents/Info.plist", plistlib.dumps(stated))

    def listed(self, *words: Any, status: int = 0) -> List[str]:
        return self.room.call("list", *words, self.room.archive, status=status)[0]
