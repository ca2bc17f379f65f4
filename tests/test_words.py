"""The part of `main`: help, statuses, refused arguments, and closed, full and unread streams. A fault is one line on
standard error, with one for people after it, and if a standard stream is closed no file takes its place."""
import errno
import os
import re
import resource
import subprocess
from typing import Callable, List

from .support import crash
from .support.cases import Words, text_lines, words_of
from .support.made_images import EMPTY
from .support.places import COMMANDS, ENOENT, FRAMES, IMAGE, KEY, ONE, RETIRED, ROW, UUID, Command, PlacesCase, said
from .support.program import TOP, Ended, Word, call, symarch

OUT_OF_MEMORY = "symarch: out of memory"


class Help(PlacesCase):
    """Help and the version. The cases of `test_acceptance` show the lines between the first and the last."""

    def prints_help(self, words: str, usage: str, last: str) -> None:
        came = self.call(*words.split(" "))
        self.assertEqual((came.status, came.error_lines), (0, []), words)
        self.assertEqual(came.lines.count(f"Usage: {usage}"), 1, words)
        self.assertEqual((came.lines[1], came.lines[-1]), ("", last), words)
        self.assertGreaterEqual(len(came.lines), 10, words)

    def test_help(self) -> None:
        for words in ("--help", "-h", "help"):
            self.prints_help(words, "symarch <COMMAND>", "  -V, --version  Print version")

    def test_help_of_a_command(self) -> None:
        for words in ("help admit", "admit --help", "admit -h"):
            self.prints_help(words, "symarch admit [OPTIONS] <IN> <OUT> <FILE>...", "  -h, --help        Print help")

    def test_version(self) -> None:
        """The number is that of the last release of CHANGELOG.md, or of the next one above it."""
        changes = (TOP / "CHANGELOG.md").read_text(encoding="utf-8")
        found = re.findall(r"^### ([0-9.]+), (not released|[0-9-]+)$", changes, re.M)
        numbers = [it[0] for it in found[: 2 if found[0][1] == "not released" else 1]]
        for words in ("--version", "-V"):
            came = self.call(words)
            self.assertEqual((came.status, came.error_lines), (0, []))
            self.assertIn(came.lines, [[f"symarch {it}"] for it in numbers])

    def test_unheard(self) -> None:
        """Nothing tells that what is asked for could not be printed."""
        for words in ("--help", "--version", "help find"):
            with open("/dev/full", "wb") as full:
                self.expect(words, stdout=full)
            came = without_streams(self, "1", words)
            self.assertEqual((came.status, came.errors), (0, b""), words)


class Status(PlacesCase):
    """Each status once, and how its fault is said."""

    def test_0(self) -> None:
        self.expect("new out", prints="archive: 0 records, 17 bytes")
        self.has_bytes("out", EMPTY)

    def test_1(self) -> None:
        self.expect(f"find empty.sym {UUID}", status=1)
        self.expect(f"symbolicate one.sym {KEY} 0", prints="0x0000000000000000 -", status=1)

    def test_2(self) -> None:
        self.expect_refusal(f"find nowhere {UUID}", "archive 0", "cannot open", f"nowhere: {ENOENT}")

    def test_3(self) -> None:
        self.expect(
            "find one.sym x",
            tells="symarch: invalid UUID 'x': expected 32 hex digits, with or without hyphens",
            status=3,
        )

    def test_4_for_an_input_without_an_end(self) -> None:
        limit = limited(resource.RLIMIT_AS, 64 << 20)
        self.expect("admit empty.sym out /dev/zero", tells=OUT_OF_MEMORY, status=4, preexec_fn=limit)

    def test_4_for_60000_words(self) -> None:
        """They are refused where there is enough memory."""
        words = ["new", "out", *map(str, range(1, 60001))]
        self.expect(words, tells=OUT_OF_MEMORY, status=4, preexec_fn=limited(resource.RLIMIT_AS, 12 << 20))
        refuses_words(self, words)
        self.is_absent("out")


class Reports(PlacesCase):
    """Each command prints its report alone, also if a standard stream is closed or full."""

    def test_alone(self) -> None:
        for it in COMMANDS:
            self.put_out()
            self.expect(it.words, prints=it.prints, status=it.status)
            self.leaves(it)

    def leaves(self, command: Command) -> None:
        if command.out is None:
            self.is_absent("out")
        else:
            self.has_bytes("out", command.out)

    def test_unprinted(self) -> None:
        """OUT is written all the same. What prints nothing does not fail."""
        tells = unprinted(errno.ENOSPC)
        for it in COMMANDS:
            self.put_out()
            with open("/dev/full", "wb") as full:
                status, lines = (2, tells) if it.prints else (it.status, [])
                self.expect(it.words, tells=lines, status=status, stdout=full)
            self.leaves(it)

    def test_unread(self) -> None:
        """The reader of a pipe went away."""
        tells = unprinted(errno.EPIPE)
        for it in COMMANDS:
            self.put_out()
            reader, writer = os.pipe()
            os.close(reader)
            with open(writer, "wb") as unread:
                status, lines = (2, tells) if it.prints else (it.status, [])
                self.expect(it.words, tells=lines, status=status, stdout=unread)
            self.leaves(it)

    def test_closed_streams(self) -> None:
        for closed in ("0", "1", "2", "01", "02", "12", "012"):
            for it in COMMANDS:
                self.without(closed, it)

    def without(self, closed: str, command: Command) -> None:
        """A report that has no standard output fails, and OUT is written all the same; nothing else is otherwise."""
        self.put_out()
        came = without_streams(self, closed, command.words)
        is_unheard = "1" in closed and command.prints != ""
        tells = unprinted(errno.EBADF)
        wanted = (
            2 if is_unheard else command.status,
            [] if "1" in closed else text_lines(command.prints),
            tells if is_unheard and "2" not in closed else [],
        )
        self.assertEqual((came.status, came.lines, came.error_lines), wanted, f"{command.words}, without {closed}")
        self.leaves(command)

    def test_closed_streams_and_a_fault(self) -> None:
        """A fault is told nowhere: not in OUT, of which a beginning was written, nor in an input."""
        for closed in ("2", "02", "12", "012"):
            came = without_streams(self, closed, "merge empty.sym out cut.sym")
            self.assertEqual(came, Ended(2, b"", b""), closed)
            self.is_absent("out")
            self.has_bytes("cut.sym", ONE[:105])

    def test_an_unheard_fault(self) -> None:
        for words, status in ((f"find nowhere {UUID}", 2), ("find one.sym x", 3)):
            with open("/dev/full", "wb") as full:
                self.expect(words, status=status, stderr=full)
            self.assertEqual(without_streams(self, "2", words), Ended(status, b"", b""))

    def test_standard_input(self) -> None:
        self.expect(
            "admit empty.sym out /dev/stdin",
            prints=f"file 0 slice 0 added {ROW}\narchive: 1 records, 106 bytes",
            stdin=(self.folder / "image").open("rb"),
        )
        self.has_bytes("out", ONE)
        lines = ["0x0000000000000000 -"] * 2
        self.expect("frames /dev/stdin one.sym", prints=lines, status=1, stdin=(FRAMES * 2).encode())


class Refused(PlacesCase):
    """Words that are no command's."""

    def test_no_word(self) -> None:
        refuses_words(self, [])

    def test_wrong_words(self) -> None:
        for words in (
            "erase",
            "help erase",
            "new",
            "new out more",
            "admit empty.sym out",
            "find one.sym",
            f"find one.sym {UUID} more",
            "list one.sym --load 0",
            f"symbolicate one.sym {KEY} --load",
            f"symbolicate one.sym {KEY} --load 0",
            "--erase list one.sym",
        ):
            refuses_words(self, words)

    def test_invalid_values(self) -> None:
        hex_digits = "1 to 16 hex digits, with or without 0x"
        for words, invalid in {
            "find one.sym version-2": "UUID 'version-2': expected 32 hex digits, with or without hyphens",
            f"symbolicate one.sym {UUID} x86 0": "ARCH 'x86': expected x86_64, x86_64h, arm64, arm64e or "
            "cpu:CCCCCCCC/00SSSSSS",
            f"retire one.sym out {KEY} 4b49": "DIGEST '4b49': expected 64 hex digits",
            f"symbolicate one.sym {KEY} 0 00000000000000000": f"ADDRESS '00000000000000000': expected {hex_digits}",
            f"symbolicate one.sym {KEY} --load x 0": f"HEX 'x': expected {hex_digits}",
            "merge one.sym one.sym empty.sym": "OUT 'one.sym': expected a path that is no input",
        }.items():
            self.expect(words, tells=f"symarch: invalid {invalid}", status=3)
        self.has_bytes("one.sym", ONE)
        self.is_absent("out")

    def test_no_word_makes_a_line(self) -> None:
        """A line feed in a refused word is printed as its hex digits."""
        word = "x\nsymarch: y"
        refused: List[List[Word]] = [["find", "one.sym", word], ["new", "out", word], [word]]
        for words in refused:
            came = self.call(*words)
            self.assertEqual((came.status, came.out, len(came.error_lines)), (3, b"", 1), words)
            self.assertTrue(came.error_lines[0].startswith("symarch: "), words)
        uuid = "expected 32 hex digits, with or without hyphens"
        for word, shown in (
            ("x\nsymarch: y", "x\\x0asymarch: y"),
            ("\033[31m\x7f", "\\x1b[31m\\x7f"),
            ("\x85é\\", "\\x85é\\"),
        ):
            self.expect(["find", "one.sym", word], tells=f"symarch: invalid UUID '{shown}': {uuid}", status=3)

    def test_words_that_are_no_text(self) -> None:
        """A byte that no text has, a half of a character, one of two bytes too many, and a half of a pair, also if such
        a file is there."""
        for word in (b"\377", b"\303", b"\300\200", b"\355\240\200"):
            (self.folder / word.decode(errors="surrogateescape")).write_bytes(ONE)
            many = [str(it) for it in range(1, 101)]
            refused: List[List[Word]] = [
                [word],
                ["list", word],
                [word, "list", "one.sym"],
                ["find", "one.sym", word],
                ["new", b"out" + word],
                ["symbolicate", "one.sym", *KEY.split(), *many, word],
            ]
            for words in refused:
                self.expect(words, tells="symarch: invalid word: expected UTF-8 text", status=3)
        self.assertEqual([it for it in self.folder.iterdir() if it.name.startswith("out")], [])


class EachWord(PlacesCase):
    """Each word stands for itself, and comes in its order."""

    def test_five_words(self) -> None:
        self.expect(f"retire one.sym out {ROW}", prints=f"retired {ROW}\narchive: 1 records, 74 bytes")
        self.has_bytes("out", RETIRED)

    def test_hundreds_of_words(self) -> None:
        numbers = range(100, 600)
        self.expect(
            ["symbolicate", "one.sym", *KEY.split(), "--load", "0x10", *map(str, numbers)],
            prints=[f"0x{it:0>16} -" for it in map(str, numbers)],
            status=1,
        )
        known = [f"file {it} slice 0 known {ROW}" for it in range(1, 300)]
        self.expect(
            ["admit", "empty.sym", "out", *["image"] * 300],
            prints=[f"file 0 slice 0 added {ROW}", *known, "archive: 1 records, 106 bytes"],
        )
        self.has_bytes("out", ONE)

    def test_the_order_of_addresses_and_the_option(self) -> None:
        self.expect(["admit", "empty.sym", "spool.sym", crash.CRASH / "spool-1.dSYM"], prints=None)
        copy_body, file_message, spool_one, _ = text_lines(crash.ARM64_NAMES)
        at = "0x104d38410", "0x104d383f8", "0x104d38484"
        key = "4c4c441955553144a1d24341c97782f0 arm64"
        words = f"symbolicate spool.sym {key} --load 0x104d38000 {' '.join(at)}"
        self.expect(words, prints=[copy_body, file_message, spool_one])
        self.expect(
            f"symbolicate spool.sym {key} {at[2]} {at[0]} --load 0x104d38000 {at[0]}",
            prints=[spool_one, copy_body, copy_body],
        )

    def test_lines_stand_anywhere(self) -> None:
        """After the name of a command that takes the option, and once."""
        for words in (f"--lines one.sym {KEY} 0", f"one.sym --lines {KEY} 0", f"one.sym {KEY} 0 --lines"):
            self.expect(f"symbolicate {words}", prints="0x0000000000000000 -", status=1)
        self.expect("frames one.frames --lines one.sym", prints="0x0000000000000000 -", status=1)
        refused = [
            f"symbolicate --lines one.sym {KEY} 0 --lines",
            "frames --lines=1 one.frames one.sym",
            "list --lines one.sym",
            "name one.sym _a --lines",
            f"find one.sym {UUID} --lines",
        ]
        for words in refused:
            refuses_words(self, words)

    def test_the_order_of_archives(self) -> None:
        self.expect(["admit", "empty.sym", "spool.sym", crash.CRASH / "spool-1.dSYM"], prints=None)
        self.expect("merge empty.sym out one.sym empty.sym spool.sym empty.sym", prints=None)
        self.expect("merge spool.sym out.2 one.sym", prints=None)
        self.has_bytes("out.2", (self.folder / "out").read_bytes())

    def test_words_with_spaces(self) -> None:
        for word in ("a b", " ", "tab\t", "line\nline", "*", "it's", "é", "$HOME", '"', "\\n", "./-x"):
            self.file(word, IMAGE)
            self.expect(
                ["admit", "empty.sym", f"{word}.sym", word],
                prints=f"file 0 slice 0 added {ROW}\narchive: 1 records, 106 bytes",
            )
            self.has_bytes(f"{word}.sym", ONE)
            self.expect(["name", "one.sym", "--", word], status=1)

    def test_an_empty_word(self) -> None:
        self.expect_refusal(["list", ""], "archive 0", "cannot open", f": {ENOENT}")


def unprinted(number: int) -> List[str]:
    """What is told if a report cannot be printed, by the number of the system's error."""
    return ["symarch: report: failed after 0 bytes", f"  report is standard output: {said(number)}"]


def limited(what: int, most: int) -> Callable[[], None]:
    """What limits a program before it runs."""
    return lambda: resource.setrlimit(what, (most, most))


def refuses_words(case: PlacesCase, words: Words) -> None:
    """Nothing is printed, and what stands on standard error begins as each fault does."""
    came = case.call(*words_of(words)) if words else case.call()
    case.assertEqual((came.status, came.out), (3, b""), words)
    case.assertRegex(came.errors.decode(), "^symarch:.", words)


def without_streams(case: PlacesCase, closed: str, words: str) -> Ended:
    """What comes of the program without the standard streams of these numbers."""
    ways = "".join({"0": " <&-", "1": " >&-", "2": " 2>&-"}[it] for it in closed)
    shell = ["sh", "-c", f'exec "$0" "$@"{ways}', symarch, *words.split(" ")]
    return call(shell, cwd=case.folder, stdin=subprocess.DEVNULL)
