"""Keys of sites, and signatures as docs/FILES.md has them, which are made here by `ssh-keygen` and nothing of the
tools."""
import hashlib
import os
import pathlib
import re
import shutil
import subprocess
import time
from typing import Dict, List, Optional, Sequence

from .cases import Without, same
from .made_images import archive, image, slice_words
from .program import is_done
from .rooms import Room, RoomCase
from .sites import Site, until_same

# A time after that of any question, and not more than a day ahead.
LATER = time.strftime("%Y%m%dT%H%M%SZ", time.gmtime(time.time() + 12 * 60 * 60))
FIELDS = ("sender", "receiver", "kind", "folder", "file", "length", "sha256")


def ssh_keygen() -> str:
    """The program, which root may install."""
    install = "apt-get update && apt-get install -y openssh-client"
    if not shutil.which("ssh-keygen") and os.getuid() == 0:
        is_done(["timeout", "300", "sh", "-c", install])
    found = shutil.which("ssh-keygen")
    if not found:
        raise Without("there is no ssh-keygen")
    return found


def make_key(path: pathlib.Path, *words: str) -> str:
    """Makes a key without a passphrase, and returns its public half."""
    subprocess.run([ssh_keygen(), "-q", "-t", "ed25519", "-N", "", "-f", path, *words], check=True)
    return pathlib.Path(f"{path}.pub").read_text().strip()


def signed(text: bytes, key: pathlib.Path, namespace: str = "symarch") -> bytes:
    """A text, and after it its signature."""
    words = [ssh_keygen(), "-Y", "sign", "-f", str(key), "-n", namespace]
    return text + subprocess.run(words, input=text, check=True, capture_output=True).stdout


def fields_of(name: str, data: bytes, folder: str) -> Dict[str, str]:
    """What is signed of a file of a folder."""
    words = name.split(".")
    receiver = words[2] if words[1] == "answers" else "*"
    values = (words[0], receiver, words[1], folder, name, str(len(data)), hashlib.sha256(data).hexdigest())
    return dict(zip(FIELDS, values))


def text_of(fields: Dict[str, str]) -> bytes:
    return "".join(["symarch-keep exchange 1\n", *(f"{name} {fields[name]}\n" for name in fields)]).encode()


def beside(path: pathlib.Path) -> pathlib.Path:
    """The signature of a file, of which it has one; a path where there is none, if it has none."""
    found = sorted(path.parent.glob(f"{path.stem}.{'[0-9a-f]' * 16}.sig"))
    return found[-1] if found else path.with_suffix(f".{'0' * 16}.sig")


def put_beside(path: pathlib.Path, signature: bytes) -> pathlib.Path:
    """Puts a signature of a file beside it."""
    at = path.with_suffix(f".{hashlib.sha256(signature).hexdigest()[:16]}.sig")
    at.write_bytes(signature)
    return at


class SignersCase(RoomCase):
    """Sites with keys."""

    def setUp(self) -> None:
        super().setUp()
        ssh_keygen()
        self.keys = self.folder / "keys"
        self.keys.mkdir()
        self.signers = self.keys / "signers"
        self.sites: List[Site] = []

    def site(self, name: str, folder: str = "shared", room: Optional[Room] = None) -> Site:
        """One more site, whose key all know."""
        self.add_signer(name, make_key(self.keys / name))
        self.sites.append(Site(room or self.room, name, folder, self.words_of(name)))
        return self.sites[-1]

    def words_of(self, key: str) -> List[object]:
        return ["--key", self.keys / key, "--signers", self.signers]

    def add_signer(self, name: str, public: str) -> None:
        with self.signers.open("a") as file:
            file.write(f"{name} {public}\n")

    def put(
        self, shared: pathlib.Path, name: str, data: bytes, key: str = "", over: str = "", **other: str
    ) -> pathlib.Path:
        """Puts a file into a folder, signed by a key, if one is named, for the folder of this ID, with other fields
        than are right."""
        path = shared / name
        if key:
            text = text_of({**fields_of(name, data, over), **other})
            put_beside(path, signed(text, self.keys / key))
        path.write_bytes(data)
        return path


def folder_of(site: Site) -> str:
    """The ID of the folder, as a site remembers it."""
    lines = pathlib.Path(f"{site.archive}.signers").read_text().splitlines()
    return next(line.split(" ")[1] for line in lines if line.startswith("folder "))


def question_name(site: str, data: bytes, at: str = "20260101T000000Z") -> str:
    return f"{site}.asks.{at}.{hashlib.sha256(data).hexdigest()}.sum"


def answer_name(site: str, to: str, data: bytes, question: str = "0" * 16) -> str:
    return f"{site}.answers.{to}.{question}.{'0' * 16}.{hashlib.sha256(data).hexdigest()}.sym"


def mark_name(site: str, data: bytes, at: str = "20260101T000000Z") -> str:
    return f"{site}.is.{at}.{hashlib.sha256(data).hexdigest()}.site"


def builds_name(site: str, data: bytes, at: str = "20260101T000000Z") -> str:
    return f"{site}.builds.{at}.{hashlib.sha256(data).hexdigest()}.txt"


def one_of(site: Site, kind: str, to: str = "") -> pathlib.Path:
    """The file of a site in its folder of a kind, with the digest that is its last one."""
    paths = [path for path in site.folder.iterdir() if path.suffix != ".sig"]
    return max(path for path in paths if path.name.startswith(f"{site.name}.{kind}.{to}"))


def named(errors: Sequence[str], path: pathlib.Path) -> List[str]:
    """What lines say of a file."""
    begins = f"symarch-keep: {path}: "
    return [line[len(begins):] for line in errors if line.startswith(begins)]


def evil(number: int) -> bytes:
    """A slice that no site added."""
    return image(900 + number, more=b"evil")


def builds_of(made: bytes, name: str) -> bytes:
    """A list of builds with one name."""
    line = f"2020-01-01 {' '.join(slice_words(made))} ? ? ? {name}"
    text = f"symarch-keep 1\n{hashlib.sha256(line.encode()).hexdigest()[:16]} {line}\n"
    return f"{text}sha256 {hashlib.sha256(text.encode()).hexdigest()}\n".encode()


class ThreeSites(SignersCase):
    """East, west and north, with a slice each, and a key that nobody knows."""

    def setUp(self) -> None:
        super().setUp()
        self.east, self.west, self.north = (self.site(name) for name in ("east", "west", "north"))
        make_key(self.keys / "mallory")
        self.shared = self.east.folder

    def begin(self, *sites: Site) -> None:
        """Sites have what each added."""
        made = [image(number) for number, _ in enumerate(sites)]
        for site, one in zip(sites, made):
            site.add(one)
        until_same(sites, archive(made))
        self.shared_id = folder_of(sites[0])

    def forge(self, name: str, data: bytes, key: str = "mallory", **other: str) -> pathlib.Path:
        return self.put(self.shared, name, data, key, self.shared_id, **other)

    def refused(self, site: Site, path: pathlib.Path, reason: str, joins: bool = False) -> None:
        """An exchange names a file once, with this reason, and ends with 2; nothing is joined, unless others are there
        too. Then the file is taken away."""
        before = site.has()
        _, errors = site.exchange(status=2)
        said = named(errors, path)
        self.assertEqual(len(said), 1, (path, errors))
        self.assertRegex(said[0], f"^{reason}$")
        if not joins:
            same(f"archive of {site.name}", site.has(), before)
        for one in (path, beside(path)):
            if one.is_dir() and not one.is_symlink():
                one.rmdir()
            elif os.path.lexists(one):
                one.unlink()

    def calls_of(self, site: Site) -> List[str]:
        """How an exchange of a site calls ssh-keygen."""
        calls, path = self.folder / "calls", self.folder / "bin" / "ssh-keygen"
        path.parent.mkdir(exist_ok=True)
        path.write_text(f'#!/bin/sh\necho "$2" >>{calls}\nexec {shutil.which("ssh-keygen")} "$@"\n')
        path.chmod(0o755)
        calls.write_text("")
        site.exchange(environment={"PATH": f"{path.parent}:{os.environ['PATH']}"})
        return calls.read_text().split()

    def unknown(self, site: str) -> str:
        return f"no key that {re.escape(str(self.signers))} has of {site} signed it"
