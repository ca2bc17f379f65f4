"""How answers that came go into an archive: all by one run of the program, whatever their number. Each is copied, read
for what it has, and tested by the program if some of that is new. A copy of which nothing is new goes at once, so a
site that was answered by many holds each slice once."""
import functools
import os
from dataclasses import dataclass, field
from typing import Callable, Dict, Iterator, List, NamedTuple, Sequence

from ..console.escapes import shown
from ..console.faults import Failed, SliceRefused
from ..console.json_lines import line_of
from ..console.screen import Screen
from ..formats.contents import KEY, RETIREMENT, Content, Malformed, content_in, head_of, words_of
from ..store.archive import Archive
from ..store.archive_file import NO_UUID
from ..store.draft import Draft, News
from ..store.losses import record_members
from ..store.program import Program, Run
from ..store.slices import Slice, compared
from .shared_folder import Answer, SharedFolder
from .signatures import Unfit


class Retirement(Slice):
    """The record of a retirement, which has no bytes after its head."""

    @classmethod
    def of(cls, entry: bytes) -> "Retirement":
        return cls(b"", None, 0, 0, 0, RETIREMENT + entry, b"")

    def sent(self, descriptor: int) -> Iterator[int]:
        return iter(())


class Came(NamedTuple):
    """An answer that came: its copy, its length, what of it is new, and where each slice of that begins."""

    answer: Answer
    path: bytes
    size: int
    news: Content
    places: Dict[bytes, int]

    def slice(self, entry: bytes) -> Slice:
        place, length = self.places[entry], self.news.held[entry]
        head, name = head_of(entry[:KEY], length), os.fsencode(self.answer.name)
        return Slice(self.path, None, place, length, self.size, head, name, digest=entry[KEY:])


@dataclass(eq=False)
class Joining:
    """The answers that came to a site which had a content."""

    archive: Archive
    folder: SharedFolder
    program: Program
    screen: Screen
    room: bytes
    had: Content
    came: List[Came] = field(default_factory=list)
    # The answers that are done with once the archive has all.
    done: List[Answer] = field(default_factory=list)

    def __post_init__(self) -> None:
        # What the site has with all that came until now.
        self.content = Content(set(self.had.retired), dict(self.had.held))

    def fetch(self, answers: Sequence[Answer], may_be_wanted: Callable[[Answer], bool]) -> None:
        """Copies the answers that their sites sent. Half of one may be waited for if it may be wanted."""
        for number, answer in enumerate(answers, 1):
            path = os.path.join(self.room, b"answer-%d" % number)
            # It is copied, and read for what it has.
            stage = f"fetching: {number} of {len(answers)} answers"
            self.screen.begin(stage, 2 * (self.folder.size(answer.name) or 0))
            try:
                self.folder.fetch(answer, path, self.screen.moved)
                self.take(answer, path)
            except Unfit as unfit:
                self.folder.pass_over(answer, unfit, self.screen, unfit.is_half and not may_be_wanted(answer))
            except (Failed, Malformed) as fault:
                self.screen.refuse(self.folder.at(answer.name), fault)

    def take(self, answer: Answer, path: bytes) -> None:
        """Takes what is new of a copy, after the program had no fault to find in it."""
        places: Dict[bytes, int] = {}
        with open(path, "rb") as file:
            came, size = content_in(file, self.screen.moved, places), os.fstat(file.fileno()).st_size
        news = came.beyond(self.content)
        if len(news):
            self.screen.begin("testing an answer", size)
            name = os.fsdecode(os.path.basename(path))
            names = {name: shown(self.folder.at(answer.name))}
            self.program.run(Run(["find", name, NO_UUID], folder=self.room, names=names))
            self.came.append(Came(answer, path, size, news, {entry: places[entry] for entry in news.held}))
            self.content.take(news)
        else:
            os.unlink(path)
        self.done.append(answer)

    def put(self) -> List[str]:
        """Puts what is new into the archive, and returns the lines of it. Makes the archive if there is none."""
        news, given, lines = self.content.beyond(self.had), self.records(), self.lines()
        if given or not self.archive.files.main.exists():
            try:
                Draft(self.archive, self.room, self.program, self.screen, lines).put(News(news, given))
            except SliceRefused as refused:
                raise Failed(f"{shown(self.folder.path)}: {shown(refused.one.name)}: {refused}") from None
        return lines

    def records(self) -> List[Slice]:
        """What the program is given: the retirements, and then the slices that none of them withdraws."""
        retired = {entry for came in self.came for entry in came.news.retired}
        slices = [came.slice(entry) for came in self.came for entry in came.news.held if entry not in retired]
        return [*map(Retirement.of, sorted(retired)), *sorted(slices, key=functools.cmp_to_key(compared))]

    def lines(self) -> List[str]:
        """What came, and from where first."""
        retired, held = {}, {}
        for came in self.came:
            retired.update({entry: came.answer.site for entry in came.news.retired})
            held.update({entry: came.answer.site for entry in came.news.held})
        lines = [came_line("added", entry, held[entry]) for entry in sorted(held) if entry not in retired]
        return lines + [came_line("retired", entry, retired[entry]) for entry in sorted(retired)]


def came_line(kind: str, entry: bytes, site: str) -> str:
    members = record_members(entry, is_retirement=kind == "retired")
    return line_of(f"{kind} {words_of(entry)} {site}", kind, **members, site=site)
