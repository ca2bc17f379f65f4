"""`find`: prints what an archive has of a UUID."""
import argparse
import os

from ..console.json_lines import line_of
from ..console.screen import screen_of
from ..store.asking import AskedCommand, opened_archive
from .arguments import define_archive, uuid_of

DESCRIPTION = """\
Prints the slices and retirements of UUID:

  ARCH image DIGEST      a slice of an image
  ARCH dsym DIGEST       a slice of a dSYM
  ARCH retired DIGEST    a retirement
  ARCH conflict N        N slices answer for this UUID and ARCH

For example:

  symarch-keep find builds.sym 4c4c4419-5555-3144-a1d2-4341c97782f0

If it has to read a slice, and that changed since it was added, it prints only this fault, and the status is 2."""
USAGE = "symarch-keep find [--json] ARCHIVE UUID"
ABOUT = "print the slices of a UUID"
KEYS = ("found",)


def define(parser: argparse.ArgumentParser) -> None:
    define_archive(parser, "UUID")


def carry_out(arguments: argparse.Namespace) -> int:
    uuid, screen = str(uuid_of(arguments.uuid)), screen_of(arguments)
    with opened_archive(os.fsencode(arguments.archive)) as asked:
        lines, status = asked.answer(AskedCommand("find", [uuid]))
    if status == 1:
        screen.line(f"the archive has no {uuid}")
    screen.show([found_line(uuid, line) for line in lines])
    return screen.end(status, {"found": len(lines)})


def found_line(uuid: str, text: str) -> str:
    """A line of the program, with its object."""
    arch, kind, said = text.split(" ")
    is_conflict = kind == "conflict"
    digest, answering = (None, int(said)) if is_conflict else (said, None)
    return line_of(text, "found", kind=kind, uuid=uuid, arch=arch, digest=digest, answering=answering)
