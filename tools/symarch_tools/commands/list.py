"""`list`: prints the builds of an archive by their names."""
import argparse
import difflib
import os
from typing import Dict, List, NamedTuple, Optional, Sequence, Set, Tuple

from ..console.escapes import unshown
from ..console.json_lines import Members, line_of
from ..console.screen import Screen, screen_of
from ..formats.builds import UNKNOWN, Build, Builds, Named, field, field_shown
from ..formats.contents import KEY, words_of
from ..formats.indexes import HEAD, IndexRow
from ..store.asking import Asked, held_by, opened_archive
from .arguments import app_of, day_of

DESCRIPTION = """\
Prints the builds of which ARCHIVE has slices, in the order of the days: a line for each UUID, architecture and version
of an app.

  DAY APP VERSION BUILD UUID ARCH BYTES dsym NAME     its dSYM is there
  DAY APP VERSION BUILD UUID ARCH BYTES image NAME    its image is there, and no dSYM

For example:

  symarch-keep list --app com.example.spool --since 2026-11-01 builds.sym

DAY is that on which the Xcode archive was made, or else the first one on which a site added it, in UTC; BYTES counts
its slices together. APP, VERSION and BUILD are those of Info.plist in the innermost bundle with an identifier, or else
those of another slice of the UUID and architecture; an Info.plist that is damaged or above 65536 bytes is ignored. NAME
is that of the file; ? means unknown. `dsym!N` and `image!N` mean that N slices answer, a conflict. A space in
APP, VERSION or BUILD is \\x20."""
USAGE = "symarch-keep list [--json] [--app ID] [--version VERSION] [--build BUILD] [--since DATE] ARCHIVE"
ABOUT = "print the builds of an archive by name"
KEYS = ("builds",)
# What stands in place of a day that nobody knows. It is before all others.
NO_DAY = ""


class Listed(NamedTuple):
    """A build of an app for one architecture: the first day on which it came in, what Info.plist and the path say, how
    many bytes its slices take together, whether one is of a dSYM, and how many answer. Texts are as they are printed; ?
    is none."""

    day: str
    app: str
    version: str
    build: str
    name: str
    uuid: str
    arch: str
    size: int
    has_dsym: bool
    answering: int

    def line(self) -> str:
        """The line that is printed. In it a name alone has spaces."""
        app, version, build = (text.replace(" ", r"\x20") for text in (self.app, self.version, self.build))
        kind = ("dsym" if self.has_dsym else "image") + f"!{self.answering}" * (self.answering > 1)
        text = f"{self.day} {app} {version} {build} {self.uuid} {self.arch} {self.size} {kind} {self.name}"
        return line_of(text, "build", **self.members())

    def members(self) -> Members:
        """What it is as JSON: texts as they were, and null for what nothing says."""
        said = {name: None if text == "?" else unshown(text) for name, text in zip(self._fields, self[:5])}
        slices = {"bytes": self.size, "dsym": self.has_dsym, "answering": self.answering}
        return {**said, "uuid": self.uuid, "arch": self.arch, **slices}


def define(parser: argparse.ArgumentParser) -> None:
    parser.add_argument("--app", metavar="ID", help="only those of this bundle identifier")
    parser.add_argument("--version", metavar="VERSION", help="only those of this version in Info.plist")
    parser.add_argument("--build", metavar="BUILD", help="only those of this build in Info.plist")
    parser.add_argument("--since", metavar="DATE", help="only those of this day or later, as YYYY-MM-DD")
    parser.add_argument("archive", metavar="ARCHIVE")


def listed(asked: Asked, builds: Builds, screen: Screen) -> List[Listed]:
    """The builds of which the archives have slices, in the order of their lines."""
    held = held_by(asked, screen)
    of_keys: Dict[bytes, List[IndexRow]] = {}
    for entry, row in held.items():
        of_keys.setdefault(entry[:KEY], []).append(row)
    lines, found = builds.of(held), []
    for key, rows in of_keys.items():
        uuid, arch, _ = words_of(key).split(" ")
        size, companions = sum(row.length - HEAD for row in rows), sum(row.is_companion for row in rows)
        for day, build in first_of(lines.of_keys[key]):
            app, version, number, name = map(field_shown, build)
            answering = companions or len(rows)
            found.append(Listed(day, app, version, number, name, uuid, arch, size, companions > 0, answering))
    return [one if one.day else one._replace(day="?") for one in sorted(found)]


def first_of(lines: List[Named]) -> List[Named]:
    """The first line of each version of an app. Others of it differ in the name of the file."""
    first: Dict[Tuple[str, ...], Named] = {}
    for one in lines:
        first.setdefault(one.build[:3], one)
    return list(first.values()) or [Named(NO_DAY, Build())]


def fits(one: Listed, asked: Sequence[Optional[str]], since: str) -> bool:
    """Whether a build is of the app, the version and the build that are asked for, and since a day."""
    is_asked = all(word in (None, its) for word, its in zip(asked, (one.app, one.version, one.build)))
    return is_asked and (not since or one.day != "?" and one.day >= since)


def say_app(app: Optional[str], apps: Set[str], screen: Screen) -> None:
    """Says of an app that has no build, if one was named, which ones are called alike."""
    if app is None or app in apps:
        return
    alike = alike_of(app, apps)
    screen.fault(f"no app {app}{f'; did you mean {alike}?' if alike else ''}")


def alike_of(app: str, apps: Set[str]) -> str:
    """Which app is called most like a name, by all of its identifier or by the last part of that; none if none is."""
    names = {part: one for one in sorted(apps - {UNKNOWN}) for part in (one.rpartition(".")[2].lower(), one.lower())}
    found = difflib.get_close_matches(app.lower(), names, 1)
    return names[found[0]] if found else ""


def carry_out(arguments: argparse.Namespace) -> int:
    since, screen = day_of(arguments.since) if arguments.since is not None else "", screen_of(arguments)
    app = None if arguments.app is None else field_shown(app_of(arguments.app))
    with opened_archive(os.fsencode(arguments.archive)) as asked:
        asked.archive.say_damaged_builds(screen)
        every = listed(asked, asked.archive.folder.builds, screen)
        said = [word and field_shown(field(os.fsencode(word))) for word in (arguments.version, arguments.build)]
        lines = [one.line() for one in every if fits(one, [app, *said], since)]
    say_app(app, {one.app for one in every}, screen)
    screen.show(lines)
    return screen.end(0 if lines else 1, {"builds": len(lines)})
