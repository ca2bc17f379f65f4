"""symarch-keep: its commands, and how each is carried out."""
import argparse
import importlib
import os
import sys
from typing import Any, List, NoReturn, Optional, Sequence, Set

from .commands.order import refuse_order
from .console.escapes import shown
from .console.faults import CutShort, Failed, system_text
from .console.progress import progress
from .console.screen import Screen
from .console.signals import Stopped, signals
from .console.streams import help_form
from .console.unforeseen_faults import DEBUG, HELP, debugging, guarded, unforeseen
from .store.file_names import is_archive

DESCRIPTION = """\
Keeps an archive of symarch: adds images and dSYMs, exchanges with other sites, checks and repairs.

Examples:

  symarch-keep add builds.sym dSYMs             adds the images and dSYMs of a folder
  symarch-keep get builds.sym UUID --to debug   makes the dSYM bundle of a UUID
  symarch-keep fold builds.sym                  joins recent additions into the archive, or its levels

`symarch-keep COMMAND --help` describes a command, and docs/OPERATING.md how to run a site.

Additions are written to ARCHIVE.today, a small archive next to ARCHIVE. `fold` joins it with ARCHIVE or with archives
between the two, its levels ARCHIVE.1, ARCHIVE.2 and so on. All commands, and `symbolicate-report`, search them
together. Keep all files that begin with the name of ARCHIVE with it.

A command that writes makes a new file, and renames it once all of it is on the disk. If the command is killed, the old
file or the new one is there, and the next command removes the rest. A lock on ARCHIVE.lock lets one such command work
at a time. Lookups take no lock, and use the indexes next to the files. An archive of version 1, or without an index, is
read whole, until the next command that writes makes version 2 of it, and its index.

With --quiet a command that exits with 0 prints nothing, except slices that `add` finds retired. With --json a command
prints an object of JSON for each line; docs/FILES.md has the keys.

The program `symarch` is the one that SYMARCH names; otherwise the one that ./symarch built, or that was installed with
this tool; otherwise `symarch` in PATH. The tool builds none.

Status:
  0    all was done, and nothing is wrong
  1    nothing was found, or there was nothing to act on
  2    something was not done, or has changed, is lost or damaged; the rest was done
  3    the command line is wrong
  4    the command failed, and ARCHIVE is as it was; lookups exit with 2 instead
  126  there is no program, or no ssh-keygen to sign with"""
# Each is a module of `commands`, which is imported if it is called or explained.
COMMANDS = (
    "add", "find", "symbolicate", "name", "list", "has", "get", "fold", "retire", "exchange", "status", "check",
    "repair",
)  # fmt: skip
VERSION = "--version"
# Commands that ask print what they find; the others may be quiet.
ASKING = ("find", "symbolicate", "name", "list", "has", "get")
# Commands that print no JSON. Each other one has the keys of its last object, whose values are null if it fails.
WITHOUT_JSON = ("fold", "repair")
QUIET = "print nothing if nothing is wrong, since cron mails the output"
WAIT = "wait at most this long for another command that writes, by default without limit"
JSON = "print an object of JSON for each line, as docs/FILES.md describes them"


class CommandParser(argparse.ArgumentParser):
    """The parser of a command line. One that is wrong ends with status 3, as with the program."""

    def __init__(self, *arguments: Any, **more: Any) -> None:
        self.options: Set[str] = set()
        self.names: List[str] = []
        self.valued: Set[str] = set()
        super().__init__(*arguments, **more)

    def add_argument(self, *arguments: Any, **more: Any) -> argparse.Action:
        action = super().add_argument(*arguments, **more)
        self.options.update(action.option_strings)
        self.names += [] if action.option_strings else [action.dest]
        self.valued.update(action.option_strings if action.nargs != 0 else [])
        return action

    def names_in(self, arguments: argparse.Namespace) -> List[str]:
        """The arguments of a call that are no options, in their order."""
        found = [vars(arguments)[name] for name in self.names]
        return [name for one in found for name in (one if isinstance(one, list) else [one]) if name is not None]

    def options_in(self, arguments: Sequence[str]) -> List[str]:
        """The options of a call, with their values, and -- if it stands there."""
        found: List[str] = []
        rest = iter(arguments)
        for one in rest:
            if one.startswith("-") and one != "-":
                found.append(one)
                found += [next(rest, "")] if one in self.valued else []
            if one == "--":
                break
        return found

    def refuse_options(self, arguments: Sequence[str]) -> None:
        """Refuses an argument that is no option, though it begins as one."""
        for one in arguments[: arguments.index("--") if "--" in arguments else len(arguments)]:
            if one.startswith("-") and one != "-" and one.partition("=")[0] not in self.options:
                what = "put -- before an argument that begins with -"
                self.error(f"`{shown(one)}` is no option of `{self.prog}`; {what}")

    def error(self, message: str) -> NoReturn:
        Screen().write(f"{self.format_usage()}symarch-keep: {message}\n")
        sys.exit(3)

    def print_help(self, file: object = None) -> None:
        screen = Screen()
        screen.print(self.format_help())
        if screen.status():
            sys.exit(screen.status())


def whole_parser(arguments: Sequence[str]) -> CommandParser:
    """The parser of calls that begin with no command, so that all commands are listed; or else only the version is
    printed."""
    from .console.version import PrintVersion

    parser = CommandParser("symarch-keep", description=DESCRIPTION, formatter_class=help_form, allow_abbrev=False)
    parser.add_argument(VERSION, action=PrintVersion, nargs=0, help="print the version and exit")
    # It is taken out before, since it may be anywhere.
    parser.add_argument(DEBUG, action="store_true", help=HELP)
    commands = parser.add_subparsers(metavar="COMMAND", required=True)
    for name in () if arguments[:1] == [VERSION] else COMMANDS:
        commands.add_parser(name, help=module_of(name).ABOUT)
    return parser


def module_of(name: str) -> Any:
    return importlib.import_module(f".commands.{name}", __package__)


def parser_of(name: str) -> CommandParser:
    """The parser of a command."""
    module = module_of(name)
    more = {"usage": module.USAGE, "description": module.DESCRIPTION, "formatter_class": help_form}
    parser = CommandParser(f"symarch-keep {name}", allow_abbrev=False, **more)
    if name not in ASKING:
        parser.add_argument("--quiet", action="store_true", help=QUIET)
        parser.add_argument("--wait", metavar="SECONDS", help=WAIT)
    if name not in WITHOUT_JSON:
        parser.add_argument("--json", action="store_true", help=JSON)
    module.define(parser)
    parser.set_defaults(carry_out=module.carry_out, keys=getattr(module, "KEYS", ()))
    return parser


def parse(arguments: Sequence[str]) -> argparse.Namespace:
    """What a call asks for. Only the module of its command is imported."""
    name, more = (arguments[0], arguments[1:]) if arguments else ("", [])
    if name not in COMMANDS:
        refuse_command(arguments)
    parser = parser_of(name)
    parser.refuse_options(more)
    found, others = parser.parse_known_args(more)
    if "more" in found:
        # Arguments that follow an option, which the module takes for others.
        found.more += others
    elif others:
        parser.error(f"`{shown(others[0])}` is one argument too many")
    options = parser.options_in(more)
    found.refuse_order = lambda: refuse_order(name, options, parser.names_in(found))
    return found


def refuse_command(arguments: Sequence[str]) -> NoReturn:
    """Prints what a call asks for that begins with no command, or else that it does not."""
    parser = whole_parser(arguments)
    if arguments[:1] and arguments[0].startswith("-"):
        parser.refuse_options(arguments)
    if arguments[:1] and (arguments[0] == "--" or not arguments[0].startswith("-")):
        parser.error(f"`{shown(arguments[0])}` is no command of symarch-keep: expected {', '.join(COMMANDS)}")
    parser.parse_args(arguments)
    parser.error("COMMAND is missing")


def open_standard_streams() -> None:
    """Keeps a file that is opened from standing in place of a standard stream that is closed."""
    for descriptor in range(3):
        try:
            os.fstat(descriptor)
        except OSError:
            os.open(os.devnull, os.O_RDONLY)


def carry_out(arguments: argparse.Namespace) -> int:
    """Carries out a command, and says why it failed."""
    failed = Failed("out of memory")
    try:
        wait = vars(arguments).get("wait")
        if wait is not None:
            from .commands.arguments import seconds_in

            wait = seconds_in(wait)
        arguments.wait = wait
        arguments.refuse_order()
        status: int = arguments.carry_out(arguments)
        return status
    except CutShort as fault:
        fault.name_as(arguments.archive)
        failed = fault
    except Failed as fault:
        failed = fault
    except OSError as error:
        failed = Failed(system_text(error))
    except MemoryError:
        pass
    except Exception as error:
        failed = unforeseen(error)
    screen: Screen = vars(arguments).get("screen") or Screen()
    screen.release()
    is_kept = failed.status == 4 and failed.leaves_archive and is_archive(arguments.archive)
    screen.fault(f"{failed.text}; the archive is as it was" if is_kept else failed.text, failed.more)
    if screen.is_json and failed.status != 3:
        screen.refused, screen.has_failed = 0, False
        screen.end(failed.status, dict.fromkeys(arguments.keys))
    return failed.status


def main(given: Optional[Sequence[str]] = None) -> int:
    open_standard_streams()
    arguments = debugging.taken_from(sys.argv[1:] if given is None else given)
    if arguments[:1] == ["help"]:
        arguments = [*arguments[1:], "--help"]
    return guarded("symarch-keep", lambda: ended(parse(arguments)))


def ended(arguments: argparse.Namespace) -> int:
    """The status of a command, which a signal may end."""
    status = 4
    try:
        signals.answer()
        status = carry_out(arguments)
        signals.ignore()
    except Stopped:
        # The exception is gone after this, and with it what it met.
        progress.wipe()
    signals.end()
    return status
