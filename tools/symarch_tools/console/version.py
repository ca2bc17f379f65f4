"""The version of the packages, which the tools print too. CHANGELOG.md has the number of each release, and above the
last one that of the next: between releases a package is `NEXT~gitDATE.COMMIT`, which comes before NEXT."""
from __future__ import annotations

import argparse
import os
import re
import sys
from typing import TYPE_CHECKING, NamedTuple, Optional

if TYPE_CHECKING:
    import pathlib

# What a package has in place of a repository, in the folder of `symarch_tools`.
PACKED = "VERSION"
RELEASE = re.compile(r"^### ([0-9]+\.[0-9]+\.[0-9]+), ([0-9]{4}-[0-9]{2}-[0-9]{2})$", re.MULTILINE)
NEXT = re.compile(r"^### ([0-9]+\.[0-9]+\.[0-9]+), not released$", re.MULTILINE)


class Edition(NamedTuple):
    """What a repository is of: its version, its date, and the number of its last release."""

    version: str
    date: str
    release: str


class Unversioned(Exception):
    """A folder without a number: CHANGELOG.md names no release."""


def edition_of(top: pathlib.Path) -> Edition:
    """The edition of a repository. One without commits has the date of its last release."""
    changes = (top / "CHANGELOG.md").read_text(encoding="utf-8")
    release, following = RELEASE.search(changes), NEXT.search(changes)
    if not release:
        raise Unversioned(f"{top / 'CHANGELOG.md'} has no line `### NUMBER, DATE`")
    number, date = release.groups()
    if not following or following.start() > release.start():
        return Edition(number, date, number)
    commit = commit_of(top)
    if commit is None:
        return Edition(f"{following[1]}~unreleased", date, number)
    return Edition(f"{following[1]}~git{commit.date.replace('-', '')}.{commit.name}", commit.date, number)


class Commit(NamedTuple):
    """A commit by the beginning of its digest, with `.changed` after it if files were changed since; and its day."""

    name: str
    date: str


def commit_of(top: pathlib.Path) -> Optional[Commit]:
    """The commit of a repository; None where there is none, or no git."""
    if not (top / ".git").exists():
        return None
    said = git(top, "log", "-1", "--abbrev=8", "--format=%h %cd", "--date=format-local:%Y-%m-%d")
    if said is None:
        return None
    name, _, date = said.strip().partition(" ")
    changed = git(top, "status", "--porcelain", "--untracked-files=no")
    return Commit(f"{name}.changed" if changed else name, date)


def git(top: pathlib.Path, *arguments: str) -> Optional[str]:
    """What git prints of a repository; None where it fails."""
    import subprocess

    command = ["git", "-C", str(top), *arguments]
    try:
        done = subprocess.run(command, env={**os.environ, "TZ": "UTC"}, capture_output=True, check=False)
    except OSError:
        return None
    return done.stdout.decode(errors="replace") if done.returncode == 0 else None


def version() -> str:
    """The version of the package that this stands in, or else that of the repository."""
    import pathlib

    here = pathlib.Path(__file__).resolve()
    packed = here.parents[1] / PACKED
    if packed.exists():
        return packed.read_text(encoding="utf-8").strip()
    try:
        return edition_of(here.parents[3]).version
    except (OSError, Unversioned):
        return "of no release"


class PrintVersion(argparse.Action):
    """Prints the name of a tool and the version, in place of all else."""

    def __call__(self, parser: argparse.ArgumentParser, *_: object) -> None:
        try:
            os.write(sys.stdout.fileno(), f"{parser.prog} {version()}\n".encode())
        except BrokenPipeError:
            parser.exit(2)
        except (AttributeError, OSError) as error:
            why = error.strerror if isinstance(error, OSError) else "closed"
            parser.exit(2, f"{parser.prog}: standard output: {why}\n")
        parser.exit()
