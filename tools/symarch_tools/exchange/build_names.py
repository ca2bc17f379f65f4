"""How sites exchange the names of builds: each puts its ARCHIVE.builds into the shared folder, and joins those
of the others. A file is read only if it has other bytes than ARCHIVE.builds, and than those that were joined before."""
from dataclasses import dataclass, field
from typing import List

from ..console.json_lines import line_of
from ..console.screen import Screen
from ..formats.build_lines import line_in
from ..formats.builds import MOST_OF_LINE, Days, add_line, earliest, is_framed, lines_of
from ..store.archive import Archive
from .memory import Exchanged
from .shared_folder import SharedFolder, TimedFile, digest_of, latest_first, timed_name
from .signatures import Unfit

# Longer files are refused. One of a million slices is as long.
MOST = 1 << 28


@dataclass(eq=False)
class Telling:
    """What one call joins and puts into the folder."""

    archive: Archive
    folder: SharedFolder
    screen: Screen
    room: bytes
    asked: Exchanged
    # The lines that are printed.
    lines: List[str] = field(default_factory=list)

    def __post_init__(self) -> None:
        # The files of this site that are there, and those that stay.
        self.own = {one.name for one in self.folder.builds if one.site == self.folder.site}
        self.kept = set(self.own)

    def join(self) -> None:
        """Joins the last names of each site: also of this one, which may have lost its file since."""
        builds, digest = self.archive.folder.builds, digest_of(self.archive.folder.builds.text)
        self.asked.has_builds(digest)
        came: Days = {}
        for site, its in latest_first(self.folder.builds):
            more = self.names_in(its, digest)
            self.folder.look_at(its, self.screen)
            new = [rest for rest, day in more.items() if day < min(builds.known.get(rest, b"~"), came.get(rest, b"~"))]
            self.lines += [line_of(f"named {len(new)} {site}", "named", site=site, names=len(new))] * bool(new)
            came = earliest(came, more)
        builds.news = came
        self.archive.folder.keep_builds(self.screen)
        self.asked.builds = digest_of(self.archive.folder.builds.text)
        if self.archive.folder.builds.is_changed():
            # They could not be kept.
            self.asked.joined = {}

    def names_in(self, files: List[TimedFile], digest: str) -> Days:
        """The lines of the last file of a site that is whole, if that has another digest than ARCHIVE.builds."""
        for one in files:
            try:
                if one.digest != digest and not self.is_joined(one):
                    return self.lines_in(one, self.folder.read(one, self.room, MOST))
                if one.site != self.folder.site:
                    self.folder.check(one)
                break
            except Unfit as unfit:
                self.folder.pass_over(one, unfit, self.screen)
        return {}

    def is_joined(self, one: TimedFile) -> bool:
        """Whether a call before joined a file of these bytes, by its digest and its length."""
        size = self.asked.joined_before.get(one.digest)
        if size is None or size != self.folder.size(one.name):
            return False
        self.asked.joined[one.digest] = size
        return True

    def lines_in(self, one: TimedFile, text: bytes) -> Days:
        """The lines of a file that are not known, of which those that are none are refused."""
        if not is_framed(text):
            self.screen.refuse(self.folder.at(one.name), "has no names of builds")
            return {}
        known = {line for _, line in lines_of(self.archive.folder.builds.text)}
        found: Days = {}
        first, count = "", 0
        for number, line in lines_of(text):
            if line in known:
                continue
            its = line_in(line)
            if its:
                add_line(found, its)
            else:
                first, count = first or fault_of(number, line), count + 1
        if count:
            others = f", and {count - 1} others are none" * (count > 1)
            self.screen.refuse(self.folder.at(one.name), f"{first}{others}; the rest is read")
        else:
            self.asked.joined[one.digest] = len(text)
        return found

    def tell(self) -> None:
        """Puts what this site knows into the folder, unless that is there."""
        text = self.archive.folder.builds.text
        digest, folder = digest_of(text), self.folder
        own = [one for one in folder.builds if one.site == folder.site and folder.has_own(one)]
        there = [it.name for it in own if it.digest == digest and folder.size(it.name) == len(text)]
        if text and not there:
            there = [timed_name(self.folder.site, "builds", self.asked.next_time(), digest)]
            self.folder.put([text], there[0], len(text))
            self.lines.append(line_of(f"told {there[0]}", "told", file=there[0]))
        self.kept = set(there[:1])


def fault_of(number: int, line: bytes) -> str:
    """Why a line is none."""
    if len(line) >= MOST_OF_LINE:
        return f"line {number} is of {len(line) + 1} bytes, and none has more than {MOST_OF_LINE}"
    return f"line {number} is of no build"
