"""`retire`: withdraws a slice, or builds of an app, for good."""
import argparse
import os
from dataclasses import dataclass
from typing import Dict, Iterable, List, NamedTuple, Optional, Sequence, Tuple

from ..console.escapes import shown
from ..console.faults import Failed
from ..console.json_lines import line_of
from ..console.screen import Screen, screen_of
from ..exchange.memory import Exchanged
from ..formats.builds import UNKNOWN, BuildLines, Builds, Named, field, field_shown
from ..formats.contents import KEY, Content, archive_of_retirements, words_of
from ..formats.files import write_synced
from ..store.archive import Archive
from ..store.draft import Draft, News
from ..store.losses import record_members
from ..store.program import Program
from .arguments import app_of, arch_of, day_of, digest_of, other_form, uuid_of

DESCRIPTION = """\
Withdraws a slice for good, as `find` prints it; or all slices of an app from before a day, or of a version or build.

  symarch-keep retire builds.sym 4c4c4419-5555-3144-a1d2-4341c97782f0 arm64 DIGEST
  symarch-keep retire --dry-run --app com.example.spool --before 2026-01-01 builds.sym

No lookup finds the slice any more. The retirement reaches each site by `exchange`, and a `fold` removes the bytes. If
the slice is not there, nothing is retired, and the status is 1, unless --before-it-comes is given.

The line is `retired UUID ARCH DIGEST`, or `known UUID ARCH DIGEST` if it was retired before. With --app each slice gets
a line before anything is written:

  retiring UUID ARCH DIGEST DAY APP VERSION BUILD NAME
  staying UUID ARCH DIGEST DAY APP VERSION BUILD NAME     another app or build has it too

--with-inner also retires frameworks and extensions that were added with archives of these builds and with no other app.
This is not known of slices that were added before 2.4.0, and they stay."""
CALL = "symarch-keep retire [--quiet] [--wait SECONDS] [--json] [--dry-run]"
USAGE = f"""{CALL} [--before-it-comes] ARCHIVE UUID ARCH DIGEST
    {CALL} --app ID [--with-inner]
        [--before DATE] [--version VERSION] [--build BUILD] ARCHIVE"""
KEYS = ("retired", "staying", "dry_run")
OF_SLICE = ("UUID", "ARCH", "DIGEST")
ABOUT = "withdraw a slice, or builds of an app, for good"


def define(parser: argparse.ArgumentParser) -> None:
    parser.add_argument("--before-it-comes", action="store_true", help="retire the slice even if it is not there")
    parser.add_argument("--dry-run", action="store_true", help="print the result, but write nothing")
    parser.add_argument("--app", metavar="ID", help="the bundle identifier of an app, as `list` prints it")
    parser.add_argument("--before", metavar="DATE", help="its builds from before this day of UTC, as YYYY-MM-DD")
    parser.add_argument("--version", metavar="VERSION", help="those of this version, as `list` prints it")
    parser.add_argument("--build", metavar="BUILD", help="those of this build, as `list` prints it")
    parser.add_argument("--with-inner", action="store_true", help="also slices in that app alone, as its frameworks")
    parser.add_argument("archive", metavar="ARCHIVE")
    parser.add_argument("more", metavar=" ".join(OF_SLICE), nargs="*")
    parser.set_defaults(refuse=parser.error)


def entry_in(arguments: argparse.Namespace) -> bytes:
    """The key and the digest that the arguments mean."""
    uuid, arch, digest = arguments.more
    return uuid_of(uuid).bytes + arch_of(arch) + digest_of(digest)


def refuse_arguments(arguments: argparse.Namespace) -> None:
    """Refuses arguments that do not say what is retired."""
    names = ("app", "before", "version", "build")
    of_app = {f"--{name}": getattr(arguments, name) for name in names}
    is_of_app = arguments.with_inner or any(value is not None for value in of_app.values())
    is_one = arguments.version is not None or arguments.build is not None
    needed = {name: of_app[name] for name in ("--app", "--before")[: 1 if is_one else 2]}
    wanted = needed if is_of_app else dict.fromkeys(OF_SLICE)
    missing = [name for name, value in wanted.items() if value is None][0 if is_of_app else len(arguments.more) :]
    others = arguments.more if is_of_app else arguments.more[len(OF_SLICE) :]
    if missing:
        arguments.refuse(f"the following arguments are required: {', '.join(missing)}")
    elif others or is_of_app and arguments.before_it_comes:
        arguments.refuse(f"`{shown([*others, '--before-it-comes'][0])}` is one argument too many")
    elif arguments.app == UNKNOWN:
        raise other_form("ID", arguments.app, "the identifier of an app")


def carry_out(arguments: argparse.Namespace) -> int:
    refuse_arguments(arguments)
    screen, is_of_app = screen_of(arguments), arguments.app is not None
    entry = b"" if is_of_app else entry_in(arguments)
    app = app_in(arguments) if is_of_app else None
    program = Program()
    archive = Archive(os.fsencode(arguments.archive), writes=not arguments.dry_run)
    archive.take_lock(screen, arguments.wait)
    content = archive.content(program, screen)
    retiring = Retiring(archive, program, screen, content, arguments.dry_run)
    if app:
        return retiring.builds(app, arguments.with_inner)
    if entry not in content.held and entry not in content.retired and not arguments.before_it_comes:
        raise Failed(f"{shown(archive.path)} does not have this slice; --before-it-comes retires it all the same", 1)
    return retiring.end(retiring.slice(entry), 0, 0)


class App(NamedTuple):
    """The builds of an app, as it stands in a line of ARCHIVE.builds: before a day, and of a version and a build, if
    these are named."""

    name: str
    before: str
    version: Optional[str] = None
    build: Optional[str] = None

    def has(self, one: Named) -> bool:
        is_one = self.version in (None, one.build.version) and self.build in (None, one.build.build)
        return is_one and one.build.app == self.name and (not self.before or one.day < self.before)

    def text(self) -> str:
        """What its builds are called where there is none."""
        version = f" of version {field_shown(self.version)}" if self.version is not None else ""
        build = f" of build {field_shown(self.build)}" if self.build is not None else ""
        before = f" from before {self.before}" if self.before else ""
        return f"build of {field_shown(self.name)}{version}{build}{before}"

    def found_in(self, lines: Sequence[Named]) -> Tuple[Optional[Named], Optional[Named]]:
        """The first line of a slice that is of the app, and the first one that is not."""
        its, others = filter(self.has, lines), (one for one in lines if not self.has(one))
        return next(its, None), next(others, None)


def app_in(arguments: argparse.Namespace) -> App:
    """The app and the builds that the words name."""
    said = [None if it is None else field(os.fsencode(it)) for it in (arguments.version, arguments.build)]
    return App(app_of(arguments.app), day_of(arguments.before) if arguments.before is not None else "", *said)


def take_inner(
    going: Dict[bytes, Named], staying: Dict[bytes, Named], held: Iterable[bytes], builds: Builds, app: App
) -> None:
    """Adds the slices that came in with archives of an app, and have another one themselves: those go that came in with
    no other app or build."""
    every, lines = builds.outer_of_slices(), builds.of(held)
    for entry, its in ((it, every[it]) for it in held if it in every):
        one, other = app.found_in(sorted(its))
        if one and entry not in going and entry not in staying:
            own = next(iter(lines.of_slice(entry)), one)
            (staying if other else going)[entry] = other or own


def of_app(held: Iterable[bytes], lines: BuildLines, app: App) -> Tuple[Dict[bytes, Named], Dict[bytes, Named]]:
    """The slices of an app that go, each with its first line; and those that stay, with a line for which they do."""
    going: Dict[bytes, Named] = {}
    staying: Dict[bytes, Named] = {}
    of_keys = {key: app.found_in(its) for key, its in lines.of_keys.items()}
    for entry in held:
        own = lines.of_slice(entry)
        # A slice without an app is of those of its UUID and architecture.
        one, other = app.found_in(own) if own else of_keys[entry[:KEY]]
        if one and other:
            staying[entry] = other
        elif one:
            going[entry] = one
    return going, staying


def told(kind: str, found: Dict[bytes, Named]) -> List[str]:
    """The lines of slices, in the order of their days."""
    return [told_line(kind, entry, one) for entry, one in sorted(found.items(), key=lambda it: (it[1], it[0]))]


def told_line(kind: str, entry: bytes, one: Named) -> str:
    text = f"{kind} {words_of(entry)} {one.day} {' '.join(map(field_shown, one.build))}"
    return line_of(text, kind, **record_members(entry), day=one.day, **one.build.members())


def record_line(kind: str, entry: bytes) -> str:
    return line_of(f"{kind} {words_of(entry)}", kind, **record_members(entry))


@dataclass(eq=False)
class Retiring:
    """What one call withdraws from an archive that has a content."""

    archive: Archive
    program: Program
    screen: Screen
    content: Content
    is_dry_run: bool

    def put(self, entries: Sequence[bytes], lines: Sequence[str]) -> None:
        """The retirements come in by an archive of their own, all or none of them."""
        with self.archive.folder.room() as room:
            path = os.path.join(room, b"retirements")
            write_synced(path, archive_of_retirements(entries))
            Draft(self.archive, room, self.program, self.screen, lines).put(News(Content(set(entries)), (), path))

    def slice(self, entry: bytes) -> int:
        """Withdraws a slice, by its key and digest, and returns how many that are."""
        is_new = entry not in self.content.retired
        lines = [record_line("retired" if is_new else "known", entry)]
        if is_new and not self.is_dry_run:
            self.put([entry], lines)
        self.screen.show(lines)
        return int(is_new)

    def builds(self, app: App, with_inner: bool) -> int:
        """Withdraws the builds of an app, also what came in with them alone, and returns the status of the command."""
        archive, held, screen = self.archive, self.content.held, self.screen
        if archive.had_damaged_builds and not self.is_dry_run:
            raise Failed("slices of other apps may be among the damaged names; call `exchange`, and then this again")
        going, staying = of_app(held, archive.folder.builds.of(held), app)
        if with_inner:
            count = len(going)
            take_inner(going, staying, held, archive.folder.builds, app)
            self.say_sites(len(going) - count)
        if not going and not staying:
            raise Failed(f"{shown(archive.path)} has no {app.text()}", 1)
        if not screen.show([*told("retiring", going), *told("staying", staying)]):
            raise Failed("the slices to retire could not be printed")
        if going and not self.is_dry_run:
            self.put(sorted(going), [record_line("retired", it) for it in sorted(going)])
        counts = f"{len(going)} retired of {sum(held[it] for it in going)} bytes, {len(staying)} stay"
        screen.line(f"{shown(archive.path)}: {counts}{'; nothing was written' if self.is_dry_run else ''}")
        return self.end(len(going), len(staying), 0 if going else 1)

    def say_sites(self, count: int) -> None:
        """Names the sites that may have some slices in other apps, which programs before 2.4.0 do not say."""
        sites = sorted(Exchanged(self.archive).sites)
        if count and sites:
            told = f"{count} of the slices to retire may be in other apps of {', '.join(sites)}"
            self.screen.line(f"{told}, which programs before 2.4.0 do not report")

    def end(self, retired: int, staying: int, status: int) -> int:
        return self.screen.end(status, dict(zip(KEYS, (retired, staying, self.is_dry_run))))
