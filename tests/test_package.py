"""packaging/package: sums, owners and times, versions, manual pages, completion, and links."""
import hashlib
import os
import pty
import re
import select
import shutil
import stat
import subprocess
import sys
import tempfile
import time
from pathlib import Path
from typing import ClassVar, Dict, List, Set

from .support.cases import FolderCase, Without
from .support.packages import CRASHES, DOC, KIT, NAMES, PACKAGE, TOOLS, ZSH, PackageCase, Packages
from .support.packages import ar_members, needs, ran, said, sha256
from .support.program import TOP, symarch

from package_parts import archives, links, manual
from symarch_tools.console.version import edition_of

# Marks of Markdown that a manual page has no use for.
MARKS = ("](", "**", "```", "|---")
COMPLETED = """
compopt() {{ COMPREPLY+=("paths"); }}
. "$1"
shift
COMP_WORDS=("$@") COMP_CWORD=$(($# - 1))
{function}
printf '%s\\n' "${{COMPREPLY[@]}}"
"""
# What bash does for a key, by what a script registered for a command.
TRIED = """
. "$1"
shift
registered=$(complete -p "$1")
function=${registered##*-F }
function=${function%% *}
COMP_WORDS=("$@") COMP_CWORD=$(($# - 1)) COMP_LINE="$*"
COMP_POINT=${#COMP_LINE}
word=${COMP_WORDS[COMP_CWORD]} before=${COMP_WORDS[COMP_CWORD - 1]}
"$function" "$1" "$word" "$before"
compgen -W "${COMPREPLY[*]}" -- "$word" || true
"""
# The scripts of each shell, by their paths.
SCRIPTS = {"bash": "share/bash-completion/", "zsh": "share/zsh/", "sh": "bin/.*-"}
LIBRARIES = {"libc.so.6", "libm.so.6", "libpthread.so.0", "libdl.so.2", "ld-linux-x86-64.so.2"}
# Each form of text that a manual page is made of, and what it is there.
TEXT = r"""
## A section
It's [a `link`](else.md#where), **strong `code`** and
.words \.
#### `a` part
- an item
  goes on
1. a first one

| A | B | C |
|---|---|---|
| `a b` | b | c |

    as it -stands

  0    nothing
       was wrong
--to WHERE  goes there
            at once
"""
ROFF = r"""
.SH "A SECTION"
.PP
It\(aqs a \fBlink\fR, \fBstrong code\fR and .words \e.
.PP
\fBa part\fR
.br
.IP \(bu 2
an item goes on
.IP 1. 3
a first one
.TP
\fBa b\fR
b
.br
C: c
.PP
.RS 4
.nf
as it \-stands
.fi
.RE
.TP
\fB0\fR
nothing was wrong
.TP
\fB\-\-to WHERE\fR
goes there at once
"""


def help_of(name: str, *words: str) -> str:
    path = [symarch] if name == "symarch" else [sys.executable, "-B", str(TOP / "tools" / name)]
    return said(*path, *words, "--help", env={**os.environ, "COLUMNS": "1000"})


def commands_in(text: str) -> List[str]:
    """The commands that a help lists."""
    listed = re.search(r"^(?:Commands|positional arguments):\n((?:  .*\n)+)", text, re.M)
    return re.findall(r"^ +([a-z][\w-]*)(?:  |$)", listed[1], re.M) if listed else []


def options_in(text: str) -> List[str]:
    """The options that a help lists at its end."""
    listed = re.split(r"^[Oo]ptions:\n", text, flags=re.M)[-1]
    return sorted(set(re.findall(r"^ +(?:-\w, )?(--[a-z][a-z-]*)", listed, re.M)))


def command(folder: Path, environment: Dict[str, str], name: str, does: str) -> Path:
    """Makes a command that stands first in PATH."""
    path = folder / "commands" / name
    path.parent.mkdir(exist_ok=True)
    path.write_text(f"#!/bin/sh\n{does}\n")
    path.chmod(0o755)
    if not environment["PATH"].startswith(str(path.parent)):
        environment["PATH"] = f"{path.parent}:{environment['PATH']}"
    return path


class Contents(PackageCase):
    """What is made, and what is in it."""

    seconds = 8

    def test_names(self) -> None:
        packages = sorted([*self.made.names.values(), self.made.server])
        wanted = [*packages, "SHA256SUMS"]
        self.assertEqual(sorted(self.made.files), sorted(wanted))
        self.assertEqual(sorted(self.made.done.stdout.split()), sorted(str(self.made.folder / it) for it in wanted))
        sums = "".join(f"{sha256(self.made.files[it])}  {it}\n" for it in packages)
        self.assertEqual(self.made.files["SHA256SUMS"].decode(), sums)
        for it in self.made.files:
            self.assertEqual(stat.S_IMODE((self.made.folder / it).stat().st_mode), 0o644, it)

    def test_the_same_bytes_whoever_makes_them(self) -> None:
        """Wherever too; and without --kit the line is what `rt --version` prints first, and rt is asked no more."""
        elsewhere = {**os.environ, "TZ": "Asia/Tokyo", "LC_ALL": "C", "COLUMNS": "40", "HOME": "/nowhere"}
        command(self.room, elsewhere, "rt", f"echo $* >>'{self.room}/asked'; echo '{KIT}'; echo more")
        again = Packages(self.room / "again", cwd="/", env=elsewhere, preexec_fn=lambda: os.umask(0o077))
        self.assertEqual(sorted(again.files), sorted(self.made.files))
        self.assertEqual([it for it, data in again.files.items() if data != self.made.files[it]], [], "other bytes")
        self.assertEqual((self.room / "asked").read_text(), "--version\n")

    def test_owners_times_and_rights(self) -> None:
        """And each folder before what it has."""
        date = edition_of(TOP).date
        for kind in self.made.members:
            seen: Set[str] = set()
            for it, _ in self.made.members[kind]:
                self.assertEqual((it.uid, it.gid, it.uname, it.gname), (0, 0, "root", "root"), it.name)
                self.assertEqual(time.strftime("%Y-%m-%d %H:%M:%S", time.gmtime(it.mtime)), f"{date} 00:00:00", it.name)
                self.assertTrue(it.isdir() or it.isfile(), it.name)
                is_program = "/bin/" in it.name or it.name.endswith(tuple(f"lib/symarch/{tool}" for tool in TOOLS))
                self.assertEqual(it.mode, 0o755 if it.isdir() or is_program else 0o644, it.name)
                folder = it.name.rpartition("/")[0]
                self.assertTrue(not folder or folder in seen, f"{it.name} comes before its folder")
                self.assertTrue(it.name not in seen and ".." not in it.name, f"{it.name} comes twice or leads out")
                seen.add(it.name)

    def test_both_have_the_same_files(self) -> None:
        """But for the folder of zsh."""
        trees = {}
        for kind, folder in ZSH.items():
            tree = self.made.tree(kind)
            self.assertIn(f"{folder}/_symarch", tree)
            tree.pop(f"{DOC}/SHA256SUMS")
            trees[kind] = {it.replace(folder, ZSH["tar"]): sha256(data) for it, data in tree.items()}
        self.assertEqual(trees["tar"], trees["deb"])

    def test_files(self) -> None:
        tree = self.made.tree()
        self.assertEqual(sha256(tree["bin/symarch"]), sha256(Path(symarch).read_bytes()))
        self.assertEqual(tree[f"{DOC}/KIT"].decode(), f"{KIT}\n")
        for it in TOOLS:
            tool = (TOP / "tools" / it).read_bytes().replace(b"python3 -IS", b"python3 -BIS", 1)
            self.assertEqual(tree[f"lib/symarch/{it}"], tool, it)
        modules = {f"lib/symarch/{it.relative_to(TOP / 'tools')}": it for it in TOP.glob("tools/symarch_tools/**/*.py")}
        self.assertEqual({it for it in tree if it.endswith(".py")}, set(modules))
        for it, module in modules.items():
            self.assertEqual(tree[it], module.read_bytes(), it)
        places = ("bin/{}", "share/man/man1/{}.1", "share/bash-completion/completions/{}", f"{ZSH['tar']}/_{{}}")
        for name in NAMES:
            for place in places:
                self.assertIn(place.format(name), tree)

    def test_documents(self) -> None:
        """Each has the words that it has in the repository, but for links to what is not packed."""
        tree = self.made.tree()
        below = ("COMMANDS", "FILES", "GLOSSARY", "OPERATING")
        for it in ("README.md", "CHANGELOG.md", *(f"docs/{name}.md" for name in below)):
            packed, text = tree[f"{DOC}/{it}"].decode(), (TOP / it).read_text(encoding="utf-8")
            unlinked = re.compile(r"\[([^]]*)\]\([^)]*\)")
            self.assertEqual(unlinked.sub(r"\1", packed), unlinked.sub(r"\1", text), it)

    def test_links_of_documents(self) -> None:
        """Each leads to a file of the package, and to a heading of it."""
        tree = {it[len(DOC) + 1 :]: data.decode() for it, data in self.made.tree().items() if it.startswith(f"{DOC}/")}
        documents, found = [it for it in tree if it.endswith(".md")], []
        for it in documents:
            for link in filter(links.Link.is_local, links.links_in(tree[it])):
                found.append(link)
                self.assertIn(link.target(it), tree, f"{it}: {link}")
                if link.heading:
                    self.assertIn(link.heading, anchors_in(tree[link.target(it)]), f"{it}: {link}")
        self.assertGreater(len(found), 20)

    def test_sums_inside(self) -> None:
        for kind in ZSH:
            tree = self.made.tree(kind)
            lines = tree.pop(f"{DOC}/SHA256SUMS").decode().splitlines()
            self.assertEqual(lines, [f"{sha256(tree[it])}  {it}" for it in sorted(tree)], kind)

    def test_sums_by_sha256sum(self) -> None:
        needs("sha256sum", "tar")
        with tempfile.TemporaryDirectory() as folder:
            said("tar", "-xzf", self.made.folder / self.made.names["tar"], "-C", folder)
            said("sha256sum", "--quiet", "--strict", "-c", f"{DOC}/SHA256SUMS", cwd=f"{folder}/{self.made.top}")
            said("sha256sum", "--quiet", "--strict", "-c", "SHA256SUMS", cwd=self.made.folder)

    def test_control(self) -> None:
        self.assertEqual(list(self.made.parts), ["debian-binary", "control.tar.gz", "data.tar.gz"])
        self.assertEqual(self.made.parts["debian-binary"], b"2.0\n")
        about = self.made.about()
        fields = dict(re.findall(r"^([A-Z][\w-]+): (.*)$", about["./control"], re.M))
        wanted = {"Package": "symarch", "Version": self.made.version, "Architecture": "amd64"}
        self.assertEqual({it: fields[it] for it in wanted}, wanted)
        self.assertIn(KIT, about["./control"])
        self.assertRegex(fields["Depends"], r"^libc6 \(>= 2\.[0-9]+\), python3 \(>= 3\.8\)$")
        files = sorted(self.made.tree("deb").items())
        sums = [f"{hashlib.md5(data).hexdigest()}  usr/{it}" for it, data in files]
        self.assertEqual(about["./md5sums"].splitlines(), sums)

    def test_control_by_dpkg(self) -> None:
        needs("dpkg-deb")
        deb = self.made.folder / self.made.names["deb"]
        self.assertEqual(said("dpkg-deb", "-f", deb, "Version").strip(), self.made.version)
        listed = re.findall(r" \./(usr/\S*[^/\s])$", said("dpkg-deb", "-c", deb), re.M)
        self.assertEqual(sorted(listed), sorted(f"usr/{it}" for it in self.made.tree("deb")))

    def test_libraries(self) -> None:
        """The program needs the C library alone, of the version that control names."""
        needs("readelf")
        found = set(re.findall(r"\(NEEDED\).*\[(.*)\]", said("readelf", "-d", symarch)))
        self.assertLessEqual(found, LIBRARIES)
        versions = re.findall(r"Name: GLIBC_([0-9]+)\.([0-9]+) ", said("readelf", "-V", symarch))
        least = ".".join(map(str, max((int(major), int(minor)) for major, minor in versions)))
        self.assertIn(f"libc6 (>= {least}),", self.made.about()["./control"])

    def test_parts_of_odd_length(self) -> None:
        """Parts of the .deb begin at even offsets, whatever their lengths are."""
        parts = {"odd": b"x", "even": b"yy", "last": b"z"}
        packed = archives.ar(list(parts.items()), 0)
        self.assertEqual((ar_members(packed), len(packed)), (parts, 8 + 3 * 60 + 2 + 2 + 2))


class Unpacked(PackageCase):
    """The tools of a package that is unpacked anywhere."""

    seconds = 6

    @classmethod
    def setUpClass(cls) -> None:
        super().setUpClass()
        cls.home = cls.made.unpack(cls.room / "with a space")
        other = command(cls.room, {"PATH": ""}, "symarch", "exit 9")
        # Another program in PATH is not called.
        cls.alone = {"PATH": f"{other.parent}:{os.environ['PATH']}"}

    home: ClassVar[Path]
    alone: ClassVar[Dict[str, str]]

    def test_a_tool_through_a_link(self) -> None:
        link, wrong = self.room / "report", self.room / "wrong"
        link.symlink_to(self.home / "bin/symbolicate-report")
        wrong.write_text("no archive")
        done = ran(link, CRASHES / "arm64.crash", wrong, env=self.alone)
        self.assertEqual((done.returncode, done.stdout), (2, ""))
        self.assertIn("archive 0: BadMagic at 0", done.stderr)

    def test_the_program_beside_a_tool(self) -> None:
        done = ran(self.home / "bin/symarch-keep", "add", self.room / "kept", CRASHES / "spool-1.dSYM", env=self.alone)
        self.assertEqual((done.returncode, "added" in done.stdout), (0, True), done.stderr)

    def test_the_program_that_symarch_names(self) -> None:
        named = {**self.alone, "SYMARCH": str(self.room / "gone")}
        other = self.room / "x"
        other.write_text("no archive")
        done = ran(self.home / "bin/symbolicate-report", CRASHES / "arm64.crash", other, env=named)
        self.assertEqual((done.returncode, "gone" in done.stderr), (126, True), done.stderr)

    def test_compiled_modules(self) -> None:
        """A clone keeps them, a package writes none: postinst makes those of the `.deb`."""
        clone = self.room / "clone"
        shutil.copytree(TOP / "tools", clone, ignore=shutil.ignore_patterns("__pycache__"))
        for folder, is_kept in ((clone, True), (self.home / "lib/symarch", False)):
            for name in TOOLS:
                self.assertEqual(ran(folder / name, "--version").returncode, 0)
            self.assertEqual(any(folder.rglob("*.pyc")), is_kept, folder)

    def test_version(self) -> None:
        """The tools print the version of their package, also without a repository around them."""
        for name in TOOLS:
            done = ran(self.home / "bin" / name, "--version", env=self.alone, cwd="/")
            self.assertEqual((done.returncode, done.stdout, done.stderr), (0, f"{name} {self.made.version}\n", ""))

    def test_ctrl_c_at_any_moment(self) -> None:
        """A tool that is ended as it begins says nothing of where it was. An older env cannot make the signal wait."""
        if ran("env", "--block-signal=INT", "true").returncode:
            raise Without("env has no option --block-signal")
        words = [self.home / "bin/symbolicate-report", CRASHES / "arm64.crash", TOP / "examples/first/empty.sym"]
        for milliseconds in range(0, 60, 2):
            with subprocess.Popen(words, env=self.alone, stdout=subprocess.PIPE, stderr=subprocess.PIPE) as run:
                time.sleep(milliseconds / 1000)
                run.send_signal(2)
                _, told = run.communicate()
            self.assertNotIn(b"Traceback", told, f"after {milliseconds} ms")
            self.assertIn(run.returncode, (-2, 1), f"after {milliseconds} ms: {told!r}")


class Versions(FolderCase):
    """The version of a repository, by its commit and CHANGELOG.md."""

    def repository(self, changes: str, is_committed: bool = True) -> None:
        self.file("CHANGELOG.md", f"# Changes\n\n## The program\n\n{changes}")
        if is_committed:
            for words in (["init", "-q"], ["add", "."], ["commit", "-qm", "changes"]):
                self.git(*words)

    def git(self, *words: str) -> str:
        dates = {"GIT_COMMITTER_DATE": "2026-11-27T23:30:00-0300", "HOME": str(self.folder)}
        names = {f"GIT_{who}_{what}": "a" for who in ("AUTHOR", "COMMITTER") for what in ("NAME", "EMAIL")}
        return said("git", "-C", self.folder, *words, env={**os.environ, **dates, **names}).strip()

    def test_a_release(self) -> None:
        self.repository("### 2.2.3, 2026-11-26\n\n- mended\n\n### 2.2.2, 2026-11-01\n")
        self.assertEqual(edition_of(self.folder), ("2.2.3", "2026-11-26", "2.2.3"))

    def test_between_releases(self) -> None:
        """The next number, the day of the commit in UTC, and the commit."""
        needs("git")
        self.repository("### 2.3.0, not released\n\n- new\n\n### 2.2.3, 2026-11-26\n")
        commit = self.git("rev-parse", "--short=8", "HEAD")
        self.assertEqual(edition_of(self.folder), (f"2.3.0~git20261128.{commit}", "2026-11-28", "2.2.3"))
        self.file("CHANGELOG.md", (self.folder / "CHANGELOG.md").read_bytes() + b"more\n")
        self.assertEqual(edition_of(self.folder).version, f"2.3.0~git20261128.{commit}.changed")

    def test_without_a_commit(self) -> None:
        self.repository("### 2.3.0, not released\n\n### 2.2.3, 2026-11-26\n", is_committed=False)
        self.assertEqual(edition_of(self.folder), ("2.3.0~unreleased", "2026-11-26", "2.2.3"))

    def test_order_by_dpkg(self) -> None:
        needs("dpkg")
        rising = ["2.2.3", "2.3.0~git20261127.44862899", "2.3.0~git20261128.00000000", "2.3.0"]
        for lower, higher in zip(rising, rising[1:]):
            self.assertEqual(ran("dpkg", "--compare-versions", lower, "lt", higher).returncode, 0, (lower, higher))

    def test_of_the_tools_here(self) -> None:
        for name in TOOLS:
            done = ran(sys.executable, "-B", TOP / "tools" / name, "--version")
            self.assertEqual((done.stdout, done.stderr), (f"{name} {edition_of(TOP).version}\n", ""))


def anchors_in(text: str) -> Set[str]:
    """The anchors of the headings of a document, as they are made where Markdown is shown."""
    found = re.findall(r"^#+ +(.*)$", re.sub(r"^```.*?^```", "", text, flags=re.M | re.S), re.M)
    return {re.sub(r"[^\w\- ]", "", it.lower()).replace(" ", "-") for it in found}


class Words(PackageCase):
    """Manual pages and completion."""

    seconds = 6

    def test_forms_of_text(self) -> None:
        self.assertEqual(manual.body(TEXT), ROFF.strip("\n").split("\n"))
        self.assertEqual(manual.body(".a"), [".PP", r"\&.a"], "a line that is no request")

    def test_manual_pages(self) -> None:
        known = r"\\(?:f[BRI]|e|-|&|\(bu|\(aq|\(ha|\(ti|\(ga)"
        for name in NAMES:
            with self.subTest(name):
                text = self.made.tree()[f"share/man/man1/{name}.1"].decode()
                sections = re.findall(r'^\.SH "?([A-Z ]+)"?$', text, re.M)
                self.assertEqual(sections[:2] + sections[-1:], ["NAME", "SYNOPSIS", "SEE ALSO"])
                self.assertIn(f'"symarch {self.made.version}"', text)
                self.assertEqual([it for it in MARKS if it in text], [], "marks of Markdown are left")
                self.assertEqual(re.findall(r"\\.{0,9}", re.sub(known, "", text)), [], "escapes of no meaning")
                self.assertEqual(text.count(r"\fB"), text.count(r"\fR"), "bold that ends")
                requests = [it for it in text.split("\n") if it.startswith("'") or re.match(r"\.[^A-Zbnf]", it)]
                self.assertEqual(requests, [])

    def test_manual_pages_begin_with_examples(self) -> None:
        """What a program does and its examples come first. The forms of arguments, and which of them is refused first,
        come last."""
        for name, last in (("symarch", "ARGUMENTS"), ("symarch-keep", "OPTIONS"), ("symbolicate-report", "OPTIONS")):
            with self.subTest(name):
                text = self.made.tree()[f"share/man/man1/{name}.1"].decode()
                sections = re.findall(r'^\.SH "?([A-Z ]+)"?$', text, re.M)
                self.assertEqual(sections[2:4] + sections[-2:-1], ["DESCRIPTION", "EXAMPLES", last])
                described, examples = re.split(r"^\.SH .*\n", text, flags=re.M)[3:5]
                self.assertRegex(described, r"^(\\fBsymarch\\fR keeps|Keeps|Prints) ")
                self.assertIn(f"{name} ".replace("-", r"\-"), examples)

    def test_manual_pages_as_shown(self) -> None:
        needs("man", "groff")
        for name in NAMES:
            with self.subTest(name):
                text = self.shown(name)
                for word in commands_in(help_of(name)):
                    self.assertTrue(word == "help" or f"{name} {word}" in text, f"{word} is not shown")
                for option in options_in(help_of(name)):
                    self.assertTrue(name == "symarch" or option in text, f"{option} is not shown")

    def test_manual_page_has_the_document(self) -> None:
        """Each heading and each row of a table of docs/COMMANDS.md is shown."""
        needs("man", "groff")
        squeezed = re.sub(r"\s+", "", self.shown("symarch").replace("‐\n", "")).upper()
        document = (TOP / "docs/COMMANDS.md").read_text(encoding="utf-8")
        document = re.sub(r"^\|.*\n\|[-|]+\n", "", document, flags=re.M)
        for line in re.findall(r"^##+ (.*)$", document, re.M) + re.findall(r"^\| *([^|]+?) *\|", document, re.M):
            plain = re.sub(r"\[([^\]]+)\]\([^)]*\)", r"\1", line).replace("`", "")
            self.assertIn(re.sub(r"\s+", "", plain).upper(), squeezed)

    def shown(self, name: str) -> str:
        """A manual page as `man` shows it, which warns of nothing."""
        file = self.room / f"{name}.1"
        file.write_bytes(self.made.tree()[f"share/man/man1/{name}.1"])
        plain = {**os.environ, "MANWIDTH": "200", "LC_ALL": "C.UTF-8", "MANROFFOPT": "-ww", "GROFF_NO_SGR": "1"}
        return re.sub(".\b", "", said("man", "--warnings", "-l", file, env=plain))

    def completed(self, name: str, *words: str) -> List[str]:
        """What bash completes after these words; a path is `paths`."""
        needs("bash")
        file = self.room / f"{name}.bash"
        if not file.exists():
            file.write_bytes(self.made.tree()[f"share/bash-completion/completions/{name}"])
        function = "_" + name.replace("-", "_")
        return said("bash", "-uc", COMPLETED.format(function=function), "bash", file, name, *words).split()

    def test_completion_of_commands(self) -> None:
        for name in ("symarch", "symarch-keep"):
            commands = commands_in(help_of(name))
            self.assertEqual(self.completed(name, ""), commands)
            for word in [it for it in commands if it != "help"]:
                with self.subTest(f"{name} {word}"):
                    begun = [it for it in commands if it.startswith(word[:-1])]
                    self.assertEqual(self.completed(name, word[:-1]), begun)
                    found = options_in(help_of(name, word))
                    self.assertEqual(sorted(self.completed(name, word, "--")), found)
                    self.assertEqual(self.completed(name, word, found[0][:-1]), found[:1])

    def test_completion_of_options(self) -> None:
        for name in NAMES:
            with self.subTest(name):
                options = self.completed(name, "--")
                self.assertIn("--help", options)
                self.assertEqual(sorted(options), options_in(help_of(name)))

    def test_completion_of_places(self) -> None:
        """Paths, architectures, commands to be helped with, and else nothing."""
        architectures = ["x86_64", "x86_64h", "arm64", "arm64e"]
        commands = commands_in(help_of("symarch"))
        for words, wanted in (
            (("new", ""), ["paths"]),
            (("admit", "a", "b", "c", "d", ""), ["paths"]),
            (("find", "a", ""), []),
            (("retire", "a", "b", "u", "a"), ["arm64", "arm64e"]),
            (("symbolicate", "a", "u", ""), architectures),
            (("symbolicate", "--load", "0", "a", "u", ""), architectures),
            (("symbolicate", "a", "u", "--load", ""), []),
            (("symbolicate", "--lines", "a", "u", ""), architectures),
            (("symbolicate", "a", "u", "arm64", "1", ""), []),
            (("frames", "f", ""), ["paths"]),
            (("frames", "f", "a", ""), ["paths"]),
            (("frames", "--lines", "f", "--li"), ["--lines"]),
            (("find", "a", "--with", ""), ["paths"]),
            (("index", "a", ""), ["paths"]),
            (("help", ""), commands[:-1]),
        ):
            self.assertEqual(self.completed("symarch", *words), wanted, words)

    def test_completion_after_an_index(self) -> None:
        """A path, for each command that takes one; and after it the next word of the command."""
        for word in ("find", "list", "summary", "symbolicate", "frames", "extract"):
            self.assertEqual(self.completed("symarch", word, "--index", ""), ["paths"], word)
        architectures = ["x86_64", "x86_64h", "arm64", "arm64e"]
        self.assertEqual(self.completed("symarch", "symbolicate", "--index", "i", "a", "u", ""), architectures)

    def test_completion_of_architectures_of_a_tool(self) -> None:
        """Where `symarch-keep` takes one, and nowhere else."""
        architectures = ["x86_64", "x86_64h", "arm64", "arm64e"]
        for words, wanted in (
            (("symbolicate", "a", "u", ""), architectures),
            (("symbolicate", "--load", "0", "a", "u", "x"), architectures[:2]),
            (("symbolicate", "a", "u", "arm64", ""), []),
            (("retire", "a", "u", ""), architectures),
            (("retire", "--before-it-comes", "a", "u", "arm"), architectures[2:]),
            (("retire", "a", "u", "arm64", ""), []),
            (("find", "a", ""), []),
        ):
            self.assertEqual(self.completed("symarch-keep", *words), wanted, words)
        text = self.made.tree()[f"{ZSH['tar']}/_symarch-keep"].decode()
        self.assertEqual(text.count(f":ARCH:({' '.join(architectures)})'"), 2)
        zsh = self.made.tree()[f"{ZSH['tar']}/_symarch"].decode()
        self.assertEqual(re.findall(r"--index\[[^]]*\]:INDEX:(\S+?)'", zsh), ["_files"] * 6)

    def test_completion_of_places_of_tools(self) -> None:
        for words in (["add", "a", "b"], ["repair", "a"], ["exchange", "a"], ["check"], ["fold"]):
            self.assertEqual(self.completed("symarch-keep", *words, ""), ["paths"], words)
        self.assertEqual(self.completed("symarch-keep", "exchange", "a", "b", ""), [])
        for words in (["get"], ["get", "--to"], ["get", "a", "u", "--to"], ["get", "--to", "f"]):
            self.assertEqual(self.completed("symarch-keep", *words, ""), ["paths"], words)
        for words in (["get", "a"], ["get", "a", "u"], ["get", "--digest"]):
            self.assertEqual(self.completed("symarch-keep", *words, ""), [], words)
        for words in (["--key"], ["a", "b", "c", "--key", "k", "--signers"]):
            self.assertEqual(self.completed("symarch-keep", "exchange", *words, ""), ["paths"], words)
        self.assertEqual(self.completed("symarch-keep", "exchange", "--most", ""), [])
        for words in ([""], ["--missing", "r", ""], ["--out", ""]):
            self.assertEqual(self.completed("symbolicate-report", *words), ["paths"], words)

    def test_completion_by_zsh(self) -> None:
        """Each command has its own words, and begins the file with what zsh looks for."""
        for name in NAMES:
            text = self.made.tree()[f"{ZSH['tar']}/_{name}"].decode()
            self.assertTrue(text.startswith(f"#compdef {name}\n"), name)
            self.assertEqual(text.count("'") % 2, 0, f"{name}: quotes")
            for word in commands_in(help_of(name)):
                self.assertIn(f'{word}\\:"', text)
                self.assertIn(f"        words:{word}) ", text)

    def test_syntax_of_scripts(self) -> None:
        home = self.made.unpack(self.room / "scripts")
        for shell, places in SCRIPTS.items():
            if not shutil.which(shell):
                continue
            found = [it for it in self.made.tree() if re.match(places, it)]
            self.assertGreaterEqual(len(found), len(TOOLS), shell)
            for path in found:
                self.assertEqual(said(shell, "-n", home / path), "", path)


class Tried(PackageCase):
    """Tab in a shell: what the scripts of the packages register is called as bash calls it."""

    seconds = 3

    def tried(self, *words: str) -> List[str]:
        needs("bash")
        file = self.room / f"{words[0]}.bash"
        file.write_bytes(self.made.tree()[f"share/bash-completion/completions/{words[0]}"])
        return said("bash", "-uc", TRIED, "bash", file, *words).split()

    def test_by_compgen(self) -> None:
        for words, wanted in (
            (["symarch", "sym"], ["symbolicate"]),
            (["symarch-keep", "ha"], ["has"]),
            (["symarch-keep", "symbolicate", "--de"], ["--decimal", "--demangle"]),
            (["symarch-keep", "symbolicate", "--demangle", "--of"], ["--offset"]),
            (["symarch-keep", "name", "--p"], ["--part"]),
            (["symarch-keep", "exchange", "--js"], ["--json"]),
            (["symbolicate-report", "--missing", "--c"], ["--counts"]),
            (["symbolicate-report", "--json", "--fr"], ["--frames"]),
            (["symarch-keep", "nothing", "--x"], []),
        ):
            with self.subTest(" ".join(words)):
                self.assertEqual(self.tried(*words), wanted)

    def test_by_a_key(self) -> None:
        """In a shell that is typed to, a path too."""
        needs("bash")
        file = self.room / "typed.bash"
        file.write_bytes(self.made.tree()["share/bash-completion/completions/symarch-keep"])
        (self.room / "builds.sym").touch()
        for line, wanted in (("symarch-keep sta\t", "tus"), ("symarch-keep status buil\t", "ds.sym")):
            with self.subTest(line):
                self.assertIn(wanted, typed(f". {file.name}\n", line, cwd=self.room))


def typed(first: str, line: str, cwd: Path) -> str:
    """What an interactive bash shows after a line is typed to it, after a first one."""
    reader, writer = pty.openpty()
    words = ["bash", "--norc", "--noprofile", "-i"]
    environment = {"PATH": os.environ["PATH"], "PS1": "ready>", "TERM": "dumb", "HOME": str(cwd)}
    with subprocess.Popen(words, stdin=writer, stdout=writer, stderr=writer, cwd=cwd, env=environment,
                          start_new_session=True) as shell:  # fmt: skip
        os.close(writer)
        try:
            shown_until(reader, "ready>")
            os.write(reader, first.encode())
            shown_until(reader, "ready>")
            # What stands after the key comes once the completion is there.
            os.write(reader, f"{line}#end".encode())
            return shown_until(reader, "#end")
        finally:
            shell.kill()
            os.close(reader)


def shown_until(reader: int, wanted: str) -> str:
    shown = ""
    while wanted not in shown:
        if not select.select([reader], [], [], 60)[0]:
            raise AssertionError(f"{shown!r} has no {wanted}")
        shown += os.read(reader, 4096).decode(errors="replace")
    return shown


class Refusals(FolderCase):
    """Words with which nothing is made, and the beginning of what is said."""

    seconds = 5

    def setUp(self) -> None:
        super().setUp()
        if not os.access(symarch, os.X_OK):
            raise AssertionError(f"there is no program {symarch}")
        self.environment = {**os.environ, "SYMARCH": symarch}
        (self.folder / "made").mkdir()

    def refuses(self, words: List[str], status: int, begin: str) -> None:
        done = ran(sys.executable, "-B", PACKAGE, *words, cwd=self.folder / "made", env=self.environment)
        self.assertEqual((done.returncode, done.stdout), (status, ""), done.stderr)
        self.assertRegex(done.stderr.splitlines()[-1], begin)
        self.assertEqual(os.listdir(self.folder / "made"), [], "what was made")
        self.is_absent("asked")

    def test_no_program(self) -> None:
        self.environment["SYMARCH"] = str(self.folder / "gone")
        command(self.folder, self.environment, "rt", f"echo $* >>'{self.folder}/asked'")
        self.refuses([], 126, r"^package: there is no program .*gone: run ./symarch --version")

    def test_another_version(self) -> None:
        other = command(self.folder, self.environment, "other", "echo symarch 0.0.1")
        self.environment["SYMARCH"] = str(other)
        self.refuses([], 2, r"^package: .*other is symarch 0.0.1, and CHANGELOG.md says [0-9.]+: ")

    def test_a_program_of_another_machine(self) -> None:
        script = command(self.folder, self.environment, "script", f"exec '{symarch}' \"$@\"")
        self.environment["SYMARCH"] = str(script)
        self.refuses(["--kit", KIT], 2, f"^package: {script} is no program for Linux on x86-64$")

    def test_which_path_is_none(self) -> None:
        """A name is looked for in PATH, and one that is not there is a path."""
        script = command(self.folder, self.environment, "named", "exit 7")
        for text, status, told in (
            ("named", 2, f"{script}, which SYMARCH means by named does not run: --version ends with status 7$"),
            (str(script), 2, f"{script} does not run: --version ends with status 7$"),
            ("nothing", 126, f"there is no program {self.folder}/made/nothing, which SYMARCH means by nothing: run "),
            ("/", 126, "there is no program /: run "),
        ):
            with self.subTest(text):
                self.environment["SYMARCH"] = text
                self.refuses(["--kit", KIT], status, f"^package: {told}")

    def test_no_kit(self) -> None:
        command(self.folder, self.environment, "rt", "exit 1")
        self.refuses([], 2, "^package: no command rt says .*--kit")

    def test_words(self) -> None:
        for words in (["--what"], [".", "."], ["--kit", " "], ["--kit"]):
            with self.subTest(words):
                self.refuses(words, 3, "^package: ")

    def test_a_folder_that_is_not_there(self) -> None:
        self.refuses(["--kit", KIT, f"{self.folder}/gone"], 2, "^package: .*gone")
