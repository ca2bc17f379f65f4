"""The arguments of symbolicate-report: which are reports and which archives, and what to type where they stand
otherwise."""
from __future__ import annotations

import argparse
import os
import re
from dataclasses import dataclass
from typing import Any, Dict, List, NoReturn, Optional, Sequence, Tuple

from ..console.escapes import line_shown, shown
from ..console.streams import help_form, printing, say
from ..console.unforeseen_faults import DEBUG, HELP
from ..console.version import PrintVersion
from ..store.file_names import beginning, is_archive, is_zip_file
from .encodings import decoded
from .faults import Failure, Status
from .images import GivenImage
from .report import BEGINNING, DOCUMENT, STANDARD_INPUT
from .text.pasted import MOST_OF_BEGINNING

NAME = "symbolicate-report"
NAMES = "[--demangle | --no-demangle | --raw]"
IMAGES = "[--image NAME=UUID@LOAD | --build ID/VERSION/BUILD]..."
MISSING_FORM, JSON_FORM = "--missing [--counts | --json]", "[--json [--frames]]"
PRINTED = f"{JSON_FORM} [--text] [--no-lines | --paths] {NAMES} [--out FOLDER]"
OPTIONS = f"{IMAGES} [{MISSING_FORM} | {PRINTED} | --group {NAMES}]"
USAGE = f"{NAME} {OPTIONS} REPORT... ARCHIVE..."
DESCRIPTION = """\
Prints reports of crashes and hangs with the names that an archive has for their frames.

Examples:

  symbolicate-report report.ips builds.sym            prints the report with names
  symbolicate-report --text report.ips builds.sym     as people read a crash
  symbolicate-report --missing *.ips builds.sym       the images without a dSYM, once each
  symbolicate-report --out named *.crash builds.sym   writes each report into the folder named
  symbolicate-report --group crashes builds.sym       how many reports in a folder crashed alike

A REPORT is an .ips, a text (.crash), a call tree of `sample`, of `spindump` or of a hang, a payload of MetricKit, or a
folder or zip file of these. A frame with one answer gets its name and offset, its file and line, and the functions
inlined there; the rest is printed as it is. The last line on standard error counts the frames, and prints for each
image whether its dSYM, the image or nothing answered. docs/OPERATING.md describes the details.

An ARCHIVE is searched with the files that `symarch-keep` has next to it, and several archives as their join. A name
from an index is printed only if its bytes have the SHA-256 that the index states.

The program `symarch` is the one that SYMARCH names; otherwise the one that ./symarch built, or that was installed with
this tool; otherwise `symarch` in PATH. The tool builds none.

Status:
  0    at least one frame got exactly one name, or --missing was given
  1    no frame got exactly one name
  2    a REPORT cannot be read or is no report, a folder has no report, a slice changed, an archive is not there or is
       cut short, or a file cannot be written
  3    the command line is wrong
  126  there is no program, or it does not answer as `symarch`
If `symarch` refuses the archive, the status is that of `symarch`, and its line is on standard error."""
# An image that is named. A load address is hexadecimal, as for `atos`.
DIGITS = "[0-9a-fA-F]"
IMAGE_ARGUMENT = re.compile(
    rf"(?P<name>.+)=(?P<uuid>{DIGITS}{{8}}-?(?:{DIGITS}{{4}}-?){{3}}{DIGITS}{{12}})"
    rf"(?:@(?:0[xX])?(?P<load>{DIGITS}{{1,16}}))?",
    re.DOTALL,
)
EXAMPLE = "4c4c4419-5555-3144-a1d2-4341c97782f0"
# What is said of a report that is printed.
OF_REPORTS = ("--text", "--json", "--no-lines", "--paths")
OF_MISSING = {"--missing", "--counts", "--json"}
# What the folder of a crash point of Xcode's Organizer is called.
POINT = ".xccrashpoint"
# What a dSYM is called, and where its debug information is.
DSYM, INSIDE_DSYM = ".dSYM", ("Contents", "Resources", "DWARF")
# The commands of the program that a report might be given to.
ANSWERING = ("frames", "symbolicate")


class ReportParser(argparse.ArgumentParser):
    """The parser of a command line. One that is wrong ends with status 3, as with the program."""

    def error(self, message: str) -> NoReturn:
        say(f"{self.format_usage()}{NAME}: {message}\n")
        raise Failure("", Status.BAD_ARGUMENTS)

    def print_help(self, file: object = None) -> None:
        with printing() as stream:
            stream.write(self.format_help().encode())


class Once(argparse.Action):
    """An option that stands once at most."""

    def __call__(self, parser: argparse.ArgumentParser, namespace: argparse.Namespace, value: Any,
                 option: Optional[str] = None) -> None:
        if getattr(namespace, self.dest) not in (None, False):
            parser.error(f"{option} is repeated")
        setattr(namespace, self.dest, True if self.nargs == 0 else value)


def parser_of_options() -> ReportParser:
    parser = ReportParser(NAME, usage=USAGE, description=DESCRIPTION, formatter_class=help_form, allow_abbrev=False)
    parser.add_argument("names", nargs="*", metavar="REPORT... ARCHIVE...", help=REPORTS)
    for option, (field, help) in FLAGS.items():
        parser.add_argument(option, dest=field, action=Once, nargs=0, default=False, help=help)
    every: Dict[str, Any] = {"action": "append", "default": []}
    parser.add_argument("--image", metavar="NAME=UUID@LOAD", type=image_in, help=IMAGE, **every)
    parser.add_argument("--build", metavar="ID/VERSION/BUILD", type=build_in, help=BUILD, **every)
    parser.add_argument("--out", metavar="FOLDER", action=Once, help=OUT)
    parser.add_argument("--version", action=PrintVersion, nargs=0, help="print the version and exit")
    # It is taken out before, since it may be anywhere.
    parser.add_argument(DEBUG, action="store_true", help=HELP)
    return parser


REPORTS = """the reports, of which `-` is standard input, or folders of reports, and after them archives"""
MISSING = """print only the UUID and the name of each image that has frames without names in the report, and no dSYM
in the archive, even if the archive has the image: a line each, once for all reports"""
COUNTS = """with --missing, print those of most reports first: the number of reports, the UUID, the architecture, the
version and the name, between tabs, where `?` means unknown"""
GROUP = """print in place of the reports a line for each group of them, those of most reports first: their number, the
top three frames of the crashed thread, and the path of the first report, between tabs"""
JSON = """print in place of the report its counts and its images, as on standard error, in an object a line; with --out
the reports are written too"""
FRAMES = """with --json, print an object for each frame too, before that of its report"""
TEXT = """print a JSON report as people read a crash: its header, the reason of its end, the threads and other
backtraces with names and offsets, the registers, the images. It omits a `Full Report` that repeats the text above it"""
NO_LINES = """print only names, without files, lines and inlined functions, as for an archive without dSYMs"""
PATHS = """print the whole paths of source files, as the compilers wrote them"""
NO_DEMANGLE = """leave names of C++, Rust and Swift as they are. By default those that are installed make them readable:
`swift demangle` the names of Swift, `c++filt` the others, and `llvm-cxxfilt`, or the `llvm-cxxfilt-N` of the greatest
N, those that `c++filt` leaves"""
DEMANGLE = """make them readable, which is the default, and report if no demangler is installed"""
RAW = """keep the underscore that a symbol table puts before each name, and leave names as they are"""
OUT = """write each report to FOLDER under the name of its own file, in the folders that a REPORT folder has, whole or
not at all, and make FOLDER if it does not exist. It replaces a file there, but never one that this call reads. Several
reports need it, and so does a folder; two that would be one file are refused"""
IMAGE = """an image of a text that lists none, and where it was loaded, as for `atos -o -l`; without @LOAD the lines
have to state that, as `0x104d38000 + 1040` or `NAME + 1040`"""
BUILD = """the same for all images of a build, as `symarch-keep list` prints it"""
# Each option without a value: the field of `Options` that it sets, and its help.
FLAGS = {
    "--missing": ("is_missing", MISSING),
    "--counts": ("has_counts", COUNTS),
    "--group": ("is_group", GROUP),
    "--json": ("is_json", JSON),
    "--frames": ("has_frames", FRAMES),
    "--text": ("is_text", TEXT),
    "--no-lines": ("has_no_lines", NO_LINES),
    "--paths": ("has_paths", PATHS),
    "--no-demangle": ("is_mangled", NO_DEMANGLE),
    "--demangle": ("is_demangled", DEMANGLE),
    "--raw": ("is_raw", RAW),
}


@dataclass(frozen=True)
class Options:
    """What the command line asks for."""

    reports: Sequence[str]
    archives: Sequence[str]
    out: Optional[str]
    # The images, and the builds that have images, of text that lists none.
    images: Sequence[GivenImage]
    builds: Sequence[Tuple[str, ...]]
    is_missing: bool
    has_counts: bool
    is_group: bool
    is_json: bool
    has_frames: bool
    is_text: bool
    has_no_lines: bool
    has_paths: bool
    is_mangled: bool
    is_demangled: bool
    is_raw: bool

    def has_lines(self) -> bool:
        """Whether a report is printed that has lines of the source, or counted by inlined functions."""
        is_counted = self.is_missing or (self.is_json and not self.has_frames and self.out is None)
        return not (is_counted or self.has_no_lines)

    def given(self) -> List[str]:
        """The options without a value that are given. One that keeps names as they are is --raw or --no-demangle."""
        given = [option for option, (field, _) in FLAGS.items() if getattr(self, field)]
        return [option for option in given if not (self.is_raw and option == "--no-demangle")]

    def fault_of_options(self) -> Optional[str]:
        """Why the options do not stand together, if they do not."""
        given = self.given()
        others = [option for option in OF_REPORTS if option in given] + ["--out"] * (self.out is not None)
        if self.is_missing and (self.out is not None or set(given) - OF_MISSING):
            return "--missing allows only --counts or --json"
        if self.has_counts and (self.is_json or not self.is_missing):
            return "--counts needs --missing, without --json"
        if self.has_frames and not self.is_json:
            return "--frames needs --json"
        if self.is_group and others:
            return f"--group prints no report, so {others[0]} may not be used with it"
        if self.is_raw and self.is_demangled:
            return "--raw keeps names that --demangle changes: use one"
        if self.has_no_lines and self.has_paths:
            return "--no-lines prints no paths, so --paths may not be used with it"
        if self.is_mangled and self.is_demangled:
            return "--demangle and --no-demangle: use one"
        folder = next((path for path in self.reports if is_folder(path) and not is_point(path)), None)
        if folder and self.need_out(self.reports):
            return f"{shown(folder)} may hold several reports: add --out NEWFOLDER, or --group"
        if self.need_out(self.reports):
            return "several reports are written by --out FOLDER"
        if STANDARD_INPUT in self.reports and self.out is not None:
            return "--out writes each report under the name of its file, and standard input has none"
        return None

    def need_out(self, reports: Sequence[str], count: int = 1) -> bool:
        """Whether these are several reports, as a folder is whatever stands in it, and are printed. A zip file may have
        several, and so may a crash point."""
        are_several = max(len(reports), count) > 1 or any(is_folder(path) and not is_point(path) for path in reports)
        return are_several and self.out is None and not (self.is_missing or self.is_group or self.is_json)

    def fault_of_names(self, names: Sequence[str]) -> Optional[str]:
        """What is wrong with the reports and archives, and what to type, if something is."""
        if names and is_dsym(names[-1]):
            import shlex

            path = names[-1].rstrip("/")
            typed = line_shown(shlex.quote(path))
            return f"{shown(path)} is a dSYM: run symarch-keep add builds.sym {typed}, then name builds.sym"
        if len(names) < 2:
            if names and not is_archive(names[0]):
                return f"there is no archive after {shown(names[0])}"
            return "there is no report before the archive"
        command, rest = names[0], names[1:]
        if command in ANSWERING and not os.path.lexists(command):
            last = [name for name in rest if is_archive(name)]
            return f"{command} is a command of symarch: {self.line([it for it in rest if it not in last] + last)}"
        archives = {name: None for name in names if is_archive(name)}
        others = [name for name in names if name not in archives]
        if not others:
            return "there is no report before the archive"
        is_report_last = is_folder(names[-1]) or begins_as_report(names[-1])
        if is_report_last and not archives:
            return f"there is no archive after {shown(names[-1])}"
        if is_report_last or any(name in archives for name in self.reports):
            line = self.line([*others, *archives], ["--out", "FOLDER"] if self.need_out(others) else [])
            return f"{shown(next(iter(archives)))} is an archive, and belongs after the reports: {line}"
        if names[-1] == STANDARD_INPUT:
            return "standard input is a report, not an archive"
        if names.count(STANDARD_INPUT) > 1:
            return "standard input is read once"
        return None

    def line(self, names: Sequence[str], more: Sequence[str] = ()) -> str:
        """The line to type for these reports and archives, with more options."""
        import shlex

        options = [word for one in self.images for word in ("--image", image_word(one))]
        options += [word for one in self.builds for word in ("--build", "/".join(one))]
        options += [*self.given(), *(["--out", self.out] if self.out is not None else []), *more]
        has_hyphen = any(name.startswith("-") and name != STANDARD_INPUT for name in names)
        return line_shown(" ".join(map(shlex.quote, [NAME, *options, *(["--"] if has_hyphen else []), *names])))


def options_of(arguments: Sequence[str]) -> Options:
    """What a command line asks for, which is refused if it asks for nothing."""
    parser = parser_of_options()
    # What stands after the argument `--` is no option.
    end = arguments.index("--") if "--" in arguments else len(arguments)
    asked, unknown = parser.parse_known_intermixed_args(arguments[:end])
    if unknown:
        parser.error(f"there is no option {unknown[0]}")
    names = [*asked.names, *arguments[end + 1 :]]
    reports, archives = reports_and_archives(names)
    fields = {field: getattr(asked, field) for field, _ in FLAGS.values()}
    named = {"images": asked.image, "builds": asked.build}
    fields["is_mangled"] |= asked.is_raw
    options = Options(reports, archives, asked.out, **named, **fields)
    fault = options.fault_of_names(names) or options.fault_of_options()
    if fault:
        parser.error(fault)
    return options


def image_in(text: str) -> GivenImage:
    """The image that an argument names."""
    found = IMAGE_ARGUMENT.fullmatch(text)
    if not found:
        raise argparse.ArgumentTypeError(f"{shown(text)} is no NAME=UUID@LOAD, as spool={EXAMPLE}@0x104d38000")
    return GivenImage(found["name"], found["uuid"], None, int(found["load"], 16) if found["load"] else None)


def image_word(image: GivenImage) -> str:
    return f"{image.name}={image.uuid}" + (f"@{image.load:#x}" if image.load is not None else "")


def build_in(text: str) -> Tuple[str, ...]:
    """The identifier, the version and the build that an argument names."""
    parts = tuple(text.split("/"))
    if len(parts) != 3 or not all(parts):
        raise argparse.ArgumentTypeError(f"{shown(text)} is no ID/VERSION/BUILD, as com.example.spool/2.1/210")
    return parts


def is_folder(path: str) -> bool:
    return path != STANDARD_INPUT and os.path.isdir(path)


def is_point(path: str) -> bool:
    """Whether a folder is a crash point."""
    return os.path.abspath(path).endswith(POINT)


def is_zip(path: str) -> bool:
    return path != STANDARD_INPUT and is_zip_file(path)


def is_dsym(path: str) -> bool:
    """Whether a bundle of debug information is named, or a file that is called as one and is no archive."""
    if is_folder(path):
        return path.rstrip("/").endswith(DSYM) or os.path.isdir(os.path.join(path, *INSIDE_DSYM))
    return path.endswith(DSYM) and os.path.isfile(path) and not is_archive(path)


def begins_as_report(path: str) -> bool:
    data, _ = decoded(beginning(path, MOST_OF_BEGINNING))
    return bool(DOCUMENT.match(data) or BEGINNING.search(data))


def reports_and_archives(names: Sequence[str]) -> Tuple[List[str], List[str]]:
    """The last name is an archive, and so are those right before it that begin as one; the others are reports, of which
    there is one at least."""
    first = max(len(names) - 1, 0)
    while first > 1 and is_archive(names[first - 1]):
        first -= 1
    return list(names[:first]), list(names[first:])
