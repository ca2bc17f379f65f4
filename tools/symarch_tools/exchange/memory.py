"""What a site remembers of its exchanges, in ARCHIVE.asked:

    asked TIME DIGEST            a question of this site
    gave TIME                    the last time that it gave a file
    site SITE ...                the dates of what was done with SITE
    ours DIGEST                  the summary of what this site had in the call before
    lacks DIGEST N HAS M         what a question of N bytes lacked of that: an archive of M bytes, and how the digest of
                                 its summary begins; - and 0 if it lacked nothing
    builds DIGEST                ARCHIVE.builds after the call before
    joined DIGEST N              names of builds of N bytes that are all in it

So a question, or names of builds, that were read once need not be read again, whichever site sent them. A site keeps
only its last question, which has everything that the earlier ones had. Entries of it, or of a question of the site's
own in the folder, that the archive lacks are lost."""
import time
from dataclasses import dataclass
from typing import Dict, Iterable, List, NamedTuple, Optional, Tuple

from ..formats.contents import Content, kept_text
from ..store.archive import ASKED, Archive
from ..store.archive_file import kept_at
from ..store.log import DATE
from .times import fault_of_time, time_after

# So many questions of this site may be answered late.
MOST_ASKED = 1000


# In place of HAS, if nothing is lacking.
NOTHING = "-"


class Lacks(NamedTuple):
    """What a question of so many bytes lacks: how the digest of the summary of that begins, and how long its archive
    is."""

    size: int
    has: str = NOTHING
    length: int = 0


@dataclass(eq=False)
class Exchanged:
    """What this site asked: the times and digests of its questions, of which the last one has this content and all of
    the others; the dates of what was done with each other site; and what it read."""

    archive: Archive

    def __post_init__(self) -> None:
        self.kept = kept_at(self.archive.folder.beside(ASKED))
        self.last: Optional[Content] = None
        self.questions: List[Tuple[str, str]] = []
        self.sites: Dict[str, Dict[str, str]] = {}
        self.gave, self.ours, self.builds = "", "", ""
        # By digests: what questions lacked, and how long names of builds are; of the call before, and of this one.
        self.lacks_before: Dict[str, Lacks] = {}
        self.lacks: Dict[str, Lacks] = {}
        self.joined_before: Dict[str, int] = {}
        self.joined: Dict[str, int] = {}
        for note in self.kept.notes if self.kept else []:
            self.take(*note.split(" "))
        self.written = self.kept.notes if self.kept else []

    def take(self, kind: str, first: str, *more: str) -> None:
        if kind == "asked":
            self.questions.append((first, more[0]))
        elif kind == "gave":
            self.gave = first
        elif kind == "site":
            self.sites[first] = dict(zip(more[::2], more[1::2]))
        elif kind == "ours":
            self.ours = first
        elif kind == "lacks":
            self.lacks_before[first] = Lacks(int(more[0]), more[1], int(more[2]))
        elif kind == "builds":
            self.builds = first
        elif kind == "joined":
            self.joined_before[first] = int(more[0])

    # ---- what it asked

    def content(self) -> Content:
        """What the last question had."""
        if self.last is None:
            self.last = self.kept.content() if self.kept else Content()
        return self.last

    def lacking_in(self, content: Content) -> Content:
        """What was asked with and a content lacks."""
        from .shared_folder import digest_of

        if self.questions and self.questions[-1][1] == digest_of(content.summary()):
            self.last = content
        return self.content().beyond(content)

    def ask(self, question: Tuple[str, str], content: Content) -> None:
        """Notes a question. A time of a clock that was wrong is forgotten, which would count a day before it comes."""
        in_time = ((question[0] if fault_of_time(at) else at, digest) for at, digest in self.questions)
        self.questions = [*in_time, question]
        self.last = content

    def asked_in_time(self) -> List[Tuple[str, str]]:
        """The questions whose times count: a clock may have been wrong."""
        return [one for one in self.questions if not fault_of_time(one[0])]

    def next_time(self, others: Iterable[str] = ()) -> str:
        """The time of a file that this site makes: now, or a second after the last one that it gave and some others."""
        self.gave = time_after([*(at for at, _ in self.questions), self.gave, *others])
        return self.gave

    # ---- what it read

    def has_content(self, digest: str) -> None:
        """What is known of questions counts as long as this site has the content of the call before."""
        if digest != self.ours:
            self.lacks_before, self.ours = {}, digest

    def has_builds(self, digest: str) -> None:
        """What is known of names of builds counts as long as ARCHIVE.builds is that of the call before."""
        if digest != self.builds:
            self.joined_before, self.builds = {}, digest

    def forget_others(self) -> None:
        """Forgets what was read of files that are not in the folder any more."""
        self.lacks_before, self.joined_before = {}, {}

    # ---- what is kept

    def notes(self) -> List[str]:
        notes = [f"asked {at} {digest}" for at, digest in self.questions[-MOST_ASKED:]]
        notes += [f"gave {self.gave}"] * bool(self.gave)
        for site, dates in sorted(self.sites.items()):
            notes.append(" ".join(["site", site, *(it for one in sorted(dates.items()) for it in one)]))
        notes += [f"ours {self.ours}"] * bool(self.ours)
        lacks, joined = {**self.lacks_before, **self.lacks}, {**self.joined_before, **self.joined}
        notes += [f"lacks {digest} {it.size} {it.has} {it.length}" for digest, it in sorted(lacks.items())]
        notes += [f"builds {self.builds}"] * bool(self.builds)
        return notes + [f"joined {digest} {size}" for digest, size in sorted(joined.items())]

    def note(self, site: str, what: str, date: time.struct_time) -> None:
        self.sites.setdefault(site, {})[what] = time.strftime(DATE, date)

    def save(self, room: bytes) -> None:
        if self.notes() != self.written:
            self.written = self.notes()
            self.archive.folder.lay(room, self.archive.folder.beside(ASKED), kept_text(self.content(), self.written))
