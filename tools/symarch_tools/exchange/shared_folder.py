"""The folder by which sites exchange: the questions and the answers in it.

    SITE.asks.TIME.DIGEST.sum                     a question: the summary of what SITE has
    SITE.answers.OTHER.QUESTION.HAS.DIGEST.sym    an answer to OTHER: what SITE has and OTHER had not
    SITE.is.TIME.DIGEST.site                      the mark of SITE: what ARCHIVE.site of the one has that has this name
    SITE.builds.TIME.DIGEST.txt                   the names of builds: what ARCHIVE.builds of SITE has

DIGEST is the SHA-256 of the file's bytes, so its name shows whether a file is whole. QUESTION begins the digest
of the question, and HAS that of the answer's summary. No file is rewritten, and a new one is renamed into place. Of the
marks of a name the last one counts, and of names of builds the last file of a site that is whole. A file whose TIME is
no date, or more than a day ahead of the clock, does not count.

    SITE.KIND. .. .DIGEST.SUM.sig                 a signature of a file, of which SUM begins the SHA-256

Who signs puts a signature before its file, so that it also comes first where files are copied in the order of their
names. A file may have several, as when a key is changed, of which one has to be right. Others may write to the folder:
nothing is read but a copy, and no link is followed."""
import contextlib
import hashlib
import itertools
import os
import re
import stat
import time
from dataclasses import dataclass
from typing import BinaryIO, Dict, Iterable, Iterator, List, NamedTuple, Optional, Pattern, Set, Tuple, Union

from ..console.escapes import shown
from ..console.faults import about, system_text
from ..console.screen import Screen
from ..formats.contents import CHUNK, Moved, unmoved
from ..formats.files import remove, sync_folder, write_to_disk
from .signatures import MOST_OF_SIGNATURE, Senders, Statement, Unfit, folder_in
from .times import DAY, fault_of_time

SITE = "[a-z0-9][a-z0-9_-]{0,31}"
NAME_OF_SITE = re.compile(SITE)
# The kinds of files that have a time, and their endings.
ENDINGS = {"asks": "sum", "is": "site", "builds": "txt"}


def form_of(kind: str) -> str:
    return rf"(?P<site>{SITE})\.{kind}\.(?P<time>[0-9]{{8}}T[0-9]{{6}}Z)\.(?P<digest>[0-9a-f]{{64}})\.{ENDINGS[kind]}"


QUESTION, MARK, BUILDS = (re.compile(form_of(kind)) for kind in ENDINGS)
ANSWER = re.compile(
    rf"(?P<site>{SITE})\.answers\.(?P<to>{SITE})\.(?P<question>[0-9a-f]{{16}})"
    r"\.(?P<has>[0-9a-f]{16})\.(?P<digest>[0-9a-f]{64})\.sym"
)
SIGNATURE = re.compile(
    rf"(?P<of>(?P<site>{SITE})\.(?:asks|answers|is|builds)\.[a-zA-Z0-9._-]*)\.(?P<digest>[0-9a-f]{{16}})\.sig"
)
SHORT = 16


class TimedFile(NamedTuple):
    """A question, a mark, or names of builds."""

    name: str
    site: str
    time: str
    digest: str


class Answer(NamedTuple):
    name: str
    site: str
    to: str
    question: str
    has: str
    digest: str


Sent = Union[TimedFile, Answer]


class Gone(Unfit):
    """A file that is not there any more, since its site or another one removed it."""


def digest_of(data: bytes) -> str:
    return hashlib.sha256(data).hexdigest()


def timed_name(site: str, kind: str, at: str, digest: str) -> str:
    return f"{site}.{kind}.{at}.{digest}.{ENDINGS[kind]}"


def answer_name(site: str, question: TimedFile, has: str, digest: str) -> str:
    return f"{site}.answers.{question.site}.{question.digest[:SHORT]}.{has}.{digest}.sym"


def without_ending(name: str) -> str:
    return name.rpartition(".")[0]


def signature_name(name: str, signature: bytes) -> str:
    return f"{without_ending(name)}.{digest_of(signature)[:SHORT]}.sig"


def latest_first(files: Iterable[TimedFile]) -> Iterator[Tuple[str, List[TimedFile]]]:
    """The files of each site, of which the last one comes first."""
    ordered = sorted(files, key=lambda it: (it.site, it.time, it.digest), reverse=True)
    for site, its in itertools.groupby(ordered, lambda it: it.site):
        yield site, list(its)


@dataclass(eq=False)
class SharedFolder:
    """The folder, as one site sees it when it begins; who may send there, if files are signed; and how long a file may
    be, if that is said."""

    path: bytes
    site: str
    senders: Optional[Senders] = None
    most: Optional[int] = None

    def __post_init__(self) -> None:
        names = sorted(os.listdir(os.fsdecode(self.path)))
        # Files whose times do not count, and why.
        self.untimely: List[Tuple[Sent, str]] = []
        self.questions, self.every_mark, self.builds = (self.timely(names, form) for form in (QUESTION, MARK, BUILDS))
        self.answers = [Answer(name, **found.groupdict()) for name in names if (found := ANSWER.fullmatch(name))]
        # The signatures of each file, by its name without the ending; those of this site; and the right one of a file.
        self.signatures: Dict[str, List[str]] = {}
        self.own_signatures: Set[str] = set()
        self.right: Dict[str, str] = {}
        for found in filter(None, map(SIGNATURE.fullmatch, names)):
            self.signatures.setdefault(found["of"], []).append(found[0])
            self.own_signatures.update([found[0]] * (found["site"] == self.site))
        # How many files are not whole, and how many were named before; which are done with, and which were seen now.
        self.not_whole = self.named_before = 0
        self.done: Set[str] = set()
        self.unfit: Set[str] = set()
        if self.senders and not self.senders.last:
            self.senders.go_to(self.first_folder(self.senders))

    def timely(self, names: Iterable[str], form: Pattern[str]) -> List[TimedFile]:
        """The files of a form whose times count. The others are noted."""
        files = [TimedFile(found[0], **found.groupdict()) for found in map(form.fullmatch, names) if found]
        faults = {one: fault_of_time(one.time) for one in files}
        self.untimely += [(one, fault) for one, fault in faults.items() if fault]
        return [one for one in files if not faults[one]]

    def at(self, name: str) -> bytes:
        return os.path.join(self.path, os.fsencode(name))

    def size(self, name: str) -> Optional[int]:
        with contextlib.suppress(OSError):
            return os.lstat(self.at(name)).st_size
        return None

    def is_old(self, name: str) -> bool:
        """Whether nobody wrote to a file for a day."""
        with contextlib.suppress(OSError):
            return os.lstat(self.at(name)).st_mtime < time.time() - DAY
        return False

    def first_folder(self, senders: Senders) -> str:
        """The ID of the folder, until a question of another site came with it: that of the earliest mark that its site
        signed. Those of this site count with the ID that it began with; if it has none, only where there are no
        others."""
        import secrets

        before = senders.folder
        others: List[Tuple[str, str]] = []
        own: List[Tuple[str, str]] = []
        for mark in self.every_mark:
            for name in self.signatures_of(mark.name):
                with contextlib.suppress(Unfit):
                    signature = self.signature(name)
                    senders.folder = folder_in(signature)
                    senders.check(self.statement(mark.name, regular_size(self.at(mark.name))), signature)
                    (own if mark.site == self.site else others).append((mark.time, senders.folder))
        senders.folder = before
        own = [one for one in own if one[1] == before] if before else own if not others else []
        return min(others + own)[1] if others or own else before or secrets.token_hex(32)

    # ---- what comes

    def check(self, one: Sent) -> int:
        """Raises Unfit unless a file is one that its site sent here, as its signature states. Returns its length."""
        size = regular_size(self.at(one.name))
        if self.senders:
            self.right[one.name] = self.right_signature(one.name, self.statement(one.name, size), self.senders)
        return size

    def right_signature(self, name: str, wanted: Statement, senders: Senders) -> str:
        """Which of the signatures of a file is right. One that is not there is not waited for: it comes before the
        file."""
        unfit = Unfit("has no signature")
        for signature in self.signatures_of(name):
            try:
                senders.check(wanted, self.signature(signature))
                return signature
            except Unfit as fault:
                unfit = unfit if unfit.is_half else fault
        # Its site may have removed both.
        regular_size(self.at(name))
        raise unfit

    def check_size(self, one: Sent, most: Optional[int] = None) -> int:
        """Raises Unfit unless a file is one that its site sent here, and not too long. Returns its length."""
        others = self.most if one.site != self.site else None
        limit = min((it for it in (most, others) if it is not None), default=None)
        if limit is not None and regular_size(self.at(one.name)) > limit:
            raise Unfit(f"has more than {limit} bytes")
        return self.check(one)

    def fetch(self, one: Sent, path: bytes, moved: Moved = unmoved, most: Optional[int] = None) -> None:
        """Copies a file that its site sent. Raises Unfit if it is another one, is not whole, or is too long."""
        size = self.check_size(one, most)
        with regular_file(self.at(one.name)) as source, about(path), open(path, "wb") as file:
            digest = copied(source, file, size, moved)
        if digest != one.digest:
            raise Unfit("does not have the digest in its name", is_half=True)

    def read(self, one: Sent, room: bytes, most: int) -> bytes:
        """The bytes of a copy of a file."""
        path = os.path.join(room, b"came")
        self.fetch(one, path, most=most)
        with open(path, "rb") as file:
            return file.read()

    def statement(self, name: str, size: int) -> Statement:
        """What is signed of a file."""
        parts = name.split(".")
        sender, kind, receiver, digest = parts[0], parts[1], parts[2] if parts[1] == "answers" else "*", parts[-2]
        return Statement(sender, receiver, kind, self.senders.folder if self.senders else "", name, size, digest)

    def signatures_of(self, name: str) -> List[str]:
        return self.signatures.get(without_ending(name), [])

    def signature(self, name: str) -> bytes:
        """The bytes of a signature."""
        try:
            with regular_file(self.at(name)) as file:
                data = file.read(MOST_OF_SIGNATURE + 1)
        except Unfit as unfit:
            raise Unfit(f"its signature {unfit.reason}") from None
        if len(data) > MOST_OF_SIGNATURE:
            raise Unfit(f"its signature has more than {MOST_OF_SIGNATURE} bytes")
        if signature_name(f"{name[:-SHORT - len('..sig')]}.", data) != name:
            raise Unfit("its signature does not have the digest in its name")
        return data

    def pass_over(self, one: Sent, unfit: Unfit, screen: Screen, is_done: bool = False) -> None:
        """Says of a file that it does not count. One that is not whole may come to be so, for a day. Where files are
        signed each is named, by the first call that sees it."""
        if one.name in self.unfit:
            return
        self.unfit.add(one.name)
        if unfit.is_half:
            self.not_whole += not is_done
            self.done.update([one.name] * (is_done or self.is_old(one.name)))
        if self.senders and not isinstance(unfit, Gone) and self.senders.was_named(one.name, unfit.reason):
            self.named_before += not unfit.is_half
        elif not unfit.is_half:
            screen.refuse(self.at(one.name), unfit.reason)
        elif self.senders and not isinstance(unfit, Gone):
            screen.fail(f"{shown(self.at(one.name))}: {unfit.reason}")

    def pass_over_untimely(self, screen: Screen) -> None:
        """Names the files whose times do not count, or, where files are signed, what else is wrong with them."""
        for one, fault in self.untimely:
            unfit = Unfit(fault)
            try:
                self.check(one)
            except Unfit as other:
                unfit = other
            self.pass_over(one, unfit, screen)

    def look_at(self, files: Iterable[Sent], screen: Screen) -> None:
        """Names those of some files that their sites did not send. Of the others nothing is read."""
        for one in files if self.senders else ():
            try:
                self.check(one)
            except Unfit as unfit:
                self.pass_over(one, unfit, screen)

    # ---- what this site puts there

    def has_own(self, one: Sent) -> bool:
        """Whether a file of this site is as it put it there, with the key that it has."""
        with contextlib.suppress(Unfit):
            self.check(one)
            return not self.senders or self.senders.is_own(one.name)
        return False

    def put(self, chunks: Iterable[bytes], name: str, size: int) -> None:
        """Puts a file of this size into the folder under a name, after its signature."""
        if self.senders:
            signature = self.senders.signature(self.statement(name, size))
            self.right[name] = signature_name(name, signature)
            self.place([signature], self.right[name])
        self.place(chunks, name)

    def place(self, chunks: Iterable[bytes], name: str) -> None:
        """Only this site makes the file that it renames. What another one put in its place is removed, and no link
        there is followed."""
        part = self.at(f".{self.site}.part")
        try:
            self.remove_part()
            with open(os.open(part, os.O_WRONLY | os.O_CREAT | os.O_EXCL, 0o666), "wb", buffering=0) as file:
                write_to_disk(file.fileno(), chunks)
            os.replace(part, self.at(name))
        except OSError as error:
            # A full folder is this one's fault, and the name says which file did not go in.
            raise OSError(error.errno, error.strerror, self.at(name)) from None
        finally:
            self.remove_part()
        sync_folder(self.path)

    def remove_part(self) -> None:
        remove(self.at(f".{self.site}.part"))

    def remove(self, name: str, screen: Screen) -> None:
        """Removes a file, and then its signatures. What is no file stays, and is named."""
        for one in (name, *self.signatures_of(name)):
            try:
                remove(self.at(one))
            except OSError as error:
                if one not in self.unfit:
                    screen.fail(system_text(error, self.at(one)))

    def signatures_that_stay(self, names: Iterable[str]) -> Set[str]:
        """Of each file that stays the right signature; all of them, if it was not looked at."""
        stay: Set[str] = set()
        for name in names:
            stay.update([self.right[name]] if name in self.right else self.signatures_of(name))
        return stay


@contextlib.contextmanager
def reaching() -> Iterator[None]:
    """Raises Unfit for what the system says of a file."""
    try:
        yield
    except FileNotFoundError:
        raise Gone("is gone", is_half=True) from None
    except OSError as error:
        raise Unfit(f"{error.strerror}", is_half=True) from None


def regular_size(path: bytes) -> int:
    """The length of a file. Raises Unfit if it is a link, or none."""
    with reaching():
        status = os.lstat(path)
    if not stat.S_ISREG(status.st_mode):
        raise Unfit("is a link" if stat.S_ISLNK(status.st_mode) else "is no file")
    return status.st_size


@contextlib.contextmanager
def regular_file(path: bytes) -> Iterator[BinaryIO]:
    """Opens a file to which others may write, without waiting for it. Raises Unfit if it is a link, or none."""
    regular_size(path)
    with reaching():
        descriptor = os.open(path, os.O_RDONLY | os.O_NOFOLLOW | os.O_NONBLOCK)
    with open(descriptor, "rb") as file:
        if not stat.S_ISREG(os.fstat(descriptor).st_mode):
            raise Unfit("is no file")
        yield file


def copied(source: BinaryIO, file: BinaryIO, size: int, moved: Moved) -> str:
    """Copies so many bytes at most, and returns their SHA-256."""
    digest = hashlib.sha256()
    while size > 0 and (chunk := chunk_of(source, min(size, CHUNK))):
        digest.update(chunk)
        file.write(chunk)
        size -= len(chunk)
        moved(len(chunk))
    return digest.hexdigest()


def chunk_of(source: BinaryIO, size: int) -> bytes:
    try:
        return source.read(size)
    except OSError as error:
        raise Unfit(f"{error.strerror}", is_half=True) from None
