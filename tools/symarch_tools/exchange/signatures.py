"""Who may send: each file of a shared folder has a signature, by OpenSSH's `ssh-keygen -Y sign`, and counts only if
`ssh-keygen -Y verify` says that a key of its site made it.

What is signed is a text, which stands before the signature: who sends to whom, which kind of file to which folder under
which name, and its length and SHA-256. So a file counts for no other site, in no other folder and under no other name.

ARCHIVE.signers has what a site remembers:

    folder ID         of the folder: random digits of the site that began there first
    last SITE TIME    the last question of SITE
    own NAME KEY      the file that this site put into the folder last under this name, and with which key
    good DIGEST       a signature that was verified on this day, by the same signers, and need not be again
    bad DIGEST        one that no key of its site made
    named DIGEST      what was said of a file

A file is copied before it is verified, and the copy is read."""
import hashlib
import os
import re
import shutil
import subprocess
import time
from dataclasses import dataclass, field
from typing import Dict, Iterable, List, NamedTuple, Sequence, Set, Tuple

from ..console.escapes import shown
from ..console.faults import Failed
from ..console.signals import signals
from ..formats.contents import Content, KeptFile, Malformed, kept_text
from ..store.folder import ArchiveFolder
from ..store.program import Argument
from .times import fault_of_time

SIGNERS = b".signers"
NAMESPACE = "symarch"
FIRST = "symarch-keep exchange 1"
ARMOR = b"-----BEGIN SSH SIGNATURE-----\n"
MOST_OF_SIGNATURE = 1 << 16
LENGTH = re.compile(rb"^length ([0-9]{1,19})$", re.M)
FOLDER = re.compile(rb"^folder ([0-9a-f]{64})$", re.M)
# So much of a line that another one wrote is shown; and so many files are known that were named, and may come again.
MOST_SHOWN, MOST_NAMED = 100, 10_000


@dataclass(eq=False)
class Unfit(Exception):
    """Why a file of the folder does not count, and whether it may come to be whole."""

    reason: str
    is_half: bool = False


class Older(Unfit):
    """A question that is older than the last one of its site."""


class Statement(NamedTuple):
    """What is signed of a file."""

    sender: str
    receiver: str
    kind: str
    folder: str
    file: str
    length: int
    sha256: str

    def text(self) -> bytes:
        lines = [f"{name} {value}" for name, value in self._asdict().items()]
        return "".join(f"{line}\n" for line in (FIRST, *lines)).encode()

    def fault_of(self, text: bytes) -> str:
        """Where a text differs from this one."""
        lines, wanted = text.split(b"\n"), self.text().split(b"\n")
        for line, its in zip(lines, wanted):
            if line != its:
                return f"its signature has `{shown(line[:MOST_SHOWN])}`, and not `{its.decode()}`"
        return "its signature is malformed"


def folder_in(signature: bytes) -> str:
    """The folder that a signature names, whether or not it is a right one."""
    found = FOLDER.search(signature)
    return found[1].decode() if found else ""


@dataclass(eq=False)
class Keys:
    """The key by which this site signs, which may be in an agent, and the file of those who may."""

    key: bytes
    signers: bytes

    def __post_init__(self) -> None:
        command = shutil.which("ssh-keygen")
        if not command:
            raise Failed("there is no ssh-keygen, which signs and verifies: install OpenSSH", 126)
        self.command = command
        with open(self.signers, "rb") as file:
            self.signers_digest = hashlib.sha256(file.read()).hexdigest()
        with open(self.key, "rb") as file:
            status = os.fstat(file.fileno())
        # By which a change of the key is seen.
        self.note = f"{status.st_ino}.{status.st_size}.{status.st_mtime_ns}"

    def run(self, arguments: Sequence[Argument], text: bytes, *files: int) -> "subprocess.CompletedProcess[bytes]":
        command: List[Argument] = [self.command, "-Y", *arguments, "-n", NAMESPACE]
        with signals.later():
            return subprocess.run(command, input=text, pass_fds=files, capture_output=True, check=False)

    def sign(self, text: bytes) -> bytes:
        came = self.run(["sign", "-f", self.key], text)
        if came.returncode or not came.stdout.startswith(ARMOR):
            said = came.stderr.decode(errors="replace").strip().rpartition("\n")[2]
            raise Failed(f"{shown(self.key)}: ssh-keygen does not sign: {shown(said)}")
        return came.stdout

    def verdict(self, sender: str, text: bytes, signature: bytes) -> str:
        """Whether a key of a site signed a text: `good` or `bad`; nothing if that could not be said."""
        import tempfile

        with tempfile.TemporaryFile() as file:
            file.write(signature)
            file.flush()
            arguments: List[Argument] = ["verify", "-f", self.signers, "-I", sender, "-s", f"/dev/fd/{file.fileno()}"]
            came = self.run(arguments, text, file.fileno())
        return "good" if came.returncode == 0 else "bad" if came.stdout.startswith(b"Could not verify") else ""


@dataclass(eq=False)
class Remembered:
    """What ARCHIVE.signers has, by which this site signs, and requires signatures."""

    beside: ArchiveFolder

    def __post_init__(self) -> None:
        self.path = self.beside.beside(SIGNERS)
        self.folder, self.written = "", b""
        self.last: Dict[str, str] = {}
        self.own: Dict[str, str] = {}
        # Digests, by what stands before them.
        self.digests: Set[str] = set()
        try:
            with open(self.path, "rb") as file:
                self.written = file.read()
            for note in KeptFile(self.written).notes:
                self.take(note, *note.split(" "))
        except FileNotFoundError:
            pass
        except (Malformed, TypeError):
            how = "bring it back from a backup, or remove it to meet the other sites anew"
            raise Failed(f"{shown(self.path)} is damaged: {how}") from None

    def take(self, note: str, kind: str, first: str, second: str = "") -> None:
        if kind == "folder":
            self.folder = first
        elif kind == "last":
            self.last[first] = second
        elif kind == "own":
            self.own[first] = second
        else:
            self.digests.add(note)

    def keep(self, room: bytes, own: Iterable[Tuple[str, str]], digests: Iterable[str]) -> None:
        notes = [f"folder {self.folder}", *(f"last {site} {at}" for site, at in sorted(self.last.items()))]
        notes += [f"own {name} {key}" for name, key in sorted(own)] + sorted(digests)
        text = kept_text(Content(), notes)
        if text != self.written:
            self.beside.lay(room, self.path, text)
            self.written = text


@dataclass(eq=False)
class Senders(Remembered):
    """Who may send to a folder, by the keys of a call and by what this site remembers."""

    keys: Keys
    # The digests that count after this call.
    seen: Set[str] = field(default_factory=set)

    def go_to(self, folder: str) -> None:
        """Takes the ID of a folder. What was signed for another one is signed again."""
        if folder != self.folder:
            self.folder, self.own = folder, {}

    # ---- what comes

    def check(self, wanted: Statement, signature: bytes) -> None:
        """Raises Unfit unless a signature says that its sender sent a file here."""
        text, begin, rest = signature.partition(ARMOR)
        found = LENGTH.search(text)
        signed = wanted._replace(length=int(found[1])) if found else wanted
        if signed.text() != text:
            raise Unfit(signed.fault_of(text))
        if not self.is_signed(wanted.sender, text, begin + rest):
            raise Unfit(f"no key that {shown(self.keys.signers)} has of {wanted.sender} signed it")
        if signed.length != wanted.length:
            raise Unfit(f"has {wanted.length} bytes, and {signed.length} were signed", is_half=True)

    def is_signed(self, sender: str, text: bytes, signature: bytes) -> bool:
        """Whether a key of a site signed a text, which is not asked twice a day: the text has the folder and the name,
        and a key may have a last day."""
        asked = time.strftime(f"%Y-%m-%d {self.keys.signers_digest} ", time.gmtime()).encode() + text + signature
        digest = hashlib.sha256(asked).hexdigest()
        known = [verdict for verdict in ("good", "bad") if f"{verdict} {digest}" in self.digests]
        verdict = known[0] if known else self.keys.verdict(sender, text, signature)
        if verdict:
            self.digests.add(f"{verdict} {digest}")
            self.seen.add(f"{verdict} {digest}")
        return verdict == "good"

    def was_named(self, name: str, reason: str) -> bool:
        """Whether a call before said this of a file."""
        note = f"named {hashlib.sha256(f'{name} {reason}'.encode(errors='surrogateescape')).hexdigest()}"
        self.seen.add(note)
        return note in self.digests

    def refuse_older(self, site: str, at: str) -> None:
        """Raises Older if a question is older than the last one of its site, whose clock was right then."""
        last = self.last.get(site, "")
        if at < last and not fault_of_time(last):
            raise Older(f"is older than the last question of {site}, of {last}")
        self.last[site] = at

    # ---- what goes

    def is_own(self, name: str) -> bool:
        return self.own.get(name) == self.keys.note

    def signature(self, statement: Statement) -> bytes:
        """The signature of a file of this site. One that its own signers do not know would count nowhere."""
        text = statement.text()
        signature = text + self.keys.sign(text)
        try:
            self.check(statement, signature)
        except Unfit:
            told = f"{shown(self.keys.signers)} has no line for {statement.sender} with the key {shown(self.keys.key)}"
            raise Failed(told) from None
        self.own[statement.file] = self.keys.note
        return signature

    def begin(self, room: bytes, site: str) -> None:
        """Remembers the folder before anything is sent there. A key that did not sign yet is tried."""
        if self.keys.note not in self.own.values():
            self.signature(Statement(site, "*", "nothing", self.folder, "", 0, ""))
            del self.own[""]
        self.keep(room, self.own.items(), self.digests)

    def end(self, room: bytes, kept: Set[str]) -> None:
        """Remembers what was sent and stays, what was verified, and what was named."""
        named = sorted(one for one in self.digests if one.startswith("named "))[:MOST_NAMED]
        self.keep(room, (one for one in self.own.items() if one[0] in kept), {*self.seen, *named})
