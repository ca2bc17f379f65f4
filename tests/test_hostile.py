"""Each command with little memory, a full disk or a failing device, and inputs that are pipes, cut or with the greatest
numbers."""
import errno
import glob
import os
import re
import resource
import signal
import struct
import subprocess
from typing import Any, Callable, Dict, Iterable, List, Optional

from .support import hostile_images as hostile
from .support.cases import Without, is_done
from .support.hostile_images import MOST
from .support.made_images import EMPTY, admission, archive, image, index, operations, summary
from .support.places import AN_OLD_ARCHIVE, ENDS, FRAMES, IMAGE, KEY, MERGED, ONE, ONE_OPS, ONE_SUM, READING, RETIRED
from .support.places import ROW, UUID, WRITING, PlacesCase, said
from .support.program import TOP

OLD = (TOP / "tests" / "fixtures" / "version-1" / "retired.sym").read_bytes()
OUT_OF_MEMORY = "symarch: out of memory"
# The commands that read an archive of version 1.
OLD_READING = [it for it in READING if it != "index"]
# The commands that take addresses, which have words of their own.
AT_ADDRESSES = ("symbolicate", "frames")


def limited(what: int, most: int) -> Callable[[], None]:
    """What limits a program before it runs. A file that becomes too long is an error of the system, and no signal."""

    def limit() -> None:
        signal.signal(signal.SIGXFSZ, signal.SIG_IGN)
        resource.setrlimit(what, (most, most))

    return limit


WITH_64_MIB = limited(resource.RLIMIT_AS, 64 << 20)


class HostileCase(PlacesCase):
    """Cases where a file is at OUT, which a refused command leaves as it was."""

    out_before = b""

    def does(
        self, words: str, printed: int, out: Optional[bytes] = None, status: int = 0, tells: str = "", **how: Any
    ) -> None:
        """Fails where a command does not end so: with so many printed lines, and with these bytes at OUT, or with what
        was there."""
        came = self.call(*words.split(" "), **how)
        self.assertEqual((came.status, came.errors.decode(), len(came.lines)), (status, tells, printed), words)
        if out is None:
            self.keeps_out()
        else:
            self.has_bytes("out", out)
            self.put_out()


class Limits(HostileCase):
    """Bytes without an end, few files that may be open, and pipes."""

    def test_bytes_without_an_end(self) -> None:
        self.refuses(f"find {{}} {UUID}", "archive 0", "/dev/zero", "BadMagic at 0", preexec_fn=WITH_64_MIB)
        for words in ("admit empty.sym out /dev/zero", "rehearse /dev/zero", "frames /dev/zero empty.sym"):
            self.expect(words, tells=OUT_OF_MEMORY, status=4, preexec_fn=WITH_64_MIB)
            self.keeps_out()

    def test_few_open_files(self) -> None:
        """The program has three, and three of its own."""
        hint = f": {said(errno.EMFILE)}"

        def few(number: int) -> Dict[str, Any]:
            return {"preexec_fn": limited(resource.RLIMIT_NOFILE, number)}

        for words in (f"find {{}} {UUID}", "merge {} out empty.sym"):
            self.refuses(words, "archive 0", "one.sym", "cannot open", hint, **few(6))
        self.does(f"find one.sym {UUID}", 1, **few(7))
        self.refuses("merge one.sym out {}", "archive 1", "empty.sym", "cannot open", hint, **few(7))
        self.expect_refusal("merge one.sym out empty.sym", "output", "cannot create", f"out{hint}", **few(8))
        self.keeps_out()
        self.does("merge one.sym out empty.sym", 1, ONE, **few(10))

    def fed(self, content: bytes, count: int) -> None:
        """Writes the first bytes of a content into the pipe when somebody reads it."""
        path = self.folder / "pipe"
        if not path.exists():
            os.mkfifo(path)
        feeder = subprocess.Popen(["sh", "-c", "cat >pipe"], cwd=self.folder, stdin=subprocess.PIPE)
        assert feeder.stdin is not None
        feeder.stdin.write(content[:count])
        feeder.stdin.close()
        self.addCleanup(feeder.wait)
        self.addCleanup(feeder.kill)

    def test_a_pipe_that_gives_a_part(self) -> None:
        self.fed(ONE, 50)
        self.refuses(f"find {{}} {UUID}", "archive 0", "pipe", "Truncated at 8")
        self.fed(ONE, 50)
        self.refuses("merge {} out empty.sym", "archive 0", "pipe", "Truncated at 8")
        self.fed(ONE, 50)
        self.refuses("merge empty.sym out {}", "archive 1", "pipe", "Truncated at 8")
        self.fed(IMAGE, 50)
        self.refuses("admit empty.sym out {}", "file 0", "pipe", "Slice(0, Image(CommandsOutside))")

    def test_a_pipe_that_gives_all(self) -> None:
        self.fed(ONE, len(ONE))
        self.does(f"find pipe {UUID}", 1)
        for words in ("merge pipe out empty.sym", "merge empty.sym out pipe"):
            self.fed(ONE, len(ONE))
            self.does(words, 1, ONE)
        self.fed(IMAGE, len(IMAGE))
        self.does("admit empty.sym out pipe", 2, ONE)


class Cuts(HostileCase):
    """Every beginning of a file, in each place that takes the whole of it."""

    seconds = 20

    def beginnings(self, content: bytes) -> Iterable[int]:
        for count in range(len(content)):
            self.file("cut", content[:count])
            yield count

    def test_an_archive(self) -> None:
        for count in self.beginnings(ONE):
            place = 0 if count < 8 else 8 if count < 97 else 97
            self.refuses_archives("cut", f"Truncated at {place}")

    def test_an_archive_of_version_1(self) -> None:
        """It has a slice beside its retirement."""
        for count in self.beginnings(OLD):
            place = 0 if count < 8 else 8 if count < 65 else 65 if count < 154 else 154
            self.refuses_archives("cut", f"Truncated at {place}", commands=OLD_READING)
            if count < 8:
                self.refuses_archive("cut", "Truncated at 0", commands=["index"])
            else:
                self.refuses_archive("cut", "OldArchive", f", {AN_OLD_ARCHIVE}", ["index"])

    def test_operations(self) -> None:
        for count in self.beginnings(ONE_OPS):
            if count == 8:
                self.does("apply empty.sym out cut", 2, EMPTY)
            else:
                self.refuses("apply empty.sym out {}", "ops", "cut", f"Truncated at {0 if count < 8 else 8}")

    def test_a_summary(self) -> None:
        for count in self.beginnings(ONE_SUM):
            place = 0 if count < 8 else 8 if count < 65 else 65
            self.refuses("delta one.sym {} out", "summary", "cut", f"Truncated at {place}")

    def test_an_image(self) -> None:
        for count in self.beginnings(IMAGE):
            part = "HeaderTruncated" if count < 32 else "CommandsOutside"
            fault = "Unrecognised" if count < 4 else f"Slice(0, Image({part}))"
            self.refuses("admit empty.sym out {}", "file 0", "cut", fault)

    def test_a_universal_file(self) -> None:
        content = struct.pack(">7I", 0xCAFEBABE, 1, 0x01000007, 3, 28, 56, 0) + IMAGE
        for count in self.beginnings(content):
            part = "HeaderTruncated" if count < 8 else "TableTruncated" if count < 28 else "SliceOutside(0)"
            self.refuses("admit empty.sym out {}", "file 0", "cut", "Unrecognised" if count < 4 else f"Fat({part})")

    def test_frames(self) -> None:
        for count in self.beginnings(FRAMES.encode()):
            text = FRAMES[:count]
            if count == 0:
                self.does("frames cut one.sym", 0)
            elif count == len(FRAMES) - 1:
                self.does("frames cut one.sym", 1, status=1)
            else:
                what = "not the four fields UUID ARCH LOAD ADDRESS"
                if text.endswith(" "):
                    what = "two spaces together, or one at an end"
                hint = f", whose line 1 has {what}"
                self.refuses("frames {} one.sym", "frames", "cut", "BadFrame at line 1", hint)


class Numbers(HostileCase):
    """Numbers of archives that are as great as they can be."""

    def test_long_records(self) -> None:
        """A record of 2^64-1 bytes, of 2^32, and of 2^32-1 of which 56 are there, in 64 MiB of memory."""
        for length, fault in ((2**64 - 1, "TooLarge"), (2**32, "TooLarge"), (2**32 - 1, "Truncated")):
            number = struct.pack(">Q", length)
            self.file("long.sym", ONE[:33] + number + ONE[41:])
            self.file("long.ops", ONE_OPS[:33] + number + ONE_OPS[41:])
            self.refuses_archives("long.sym", f"{fault} at 8", preexec_fn=WITH_64_MIB)
            self.refuses("apply empty.sym out {}", "ops", "long.ops", f"{fault} at 8", preexec_fn=WITH_64_MIB)

    def test_more_images_than_memory(self) -> None:
        """20 images of 8 MiB each, in 64 MiB of memory."""
        numbers = range(20)
        text = archive([image(number, more=bytes(8 << 20)) for number in numbers])
        self.file("large.sym", text)
        keys = [admission(image(number))[1:17].hex() for number in numbers]
        self.file("large.frames", "".join(f"{it} x86_64 - 0\n" for it in keys))
        self.does("frames large.frames large.sym", 20, status=1, preexec_fn=WITH_64_MIB)
        self.does("migrate large.sym out", 1, text, preexec_fn=WITH_64_MIB)

    def test_a_count_of_most_records_and_of_none(self) -> None:
        for count in (2**64 - 1, 0):
            number = struct.pack(">Q", count)
            self.file("count.sym", ONE[:98] + number)
            self.file("count.sum", ONE_SUM[:66] + number)
            self.refuses_archive("count.sym", "BadCount at 97")
            self.refuses("delta empty.sym {} out", "summary", "count.sum", "BadCount at 65")


class Covered(HostileCase):
    """A slice beside its retirement: in version 2, in version 1, there with the number of what is kept, and in no
    version."""

    def test_version_2(self) -> None:
        self.file("covered.sym", b"MSYMARC2" + OLD[8:])
        self.refuses_archives("covered.sym", "Covered at 65")

    def test_version_1(self) -> None:
        self.file("old.sym", OLD)
        stays_out = f"note: {ROW} is retired in IN, and does not come in\n"
        self.does("admit old.sym out image", 2, RETIRED, tells=stays_out)
        self.does(f"retire old.sym out {ROW}", 2, RETIRED, tells=f"note: IN has no slice {ROW}\n")
        self.does("apply old.sym out empty.ops", 2, RETIRED)
        for words in (
            "merge old.sym out empty.sym",
            "merge old.sym out empty.sym empty.sym",
            "migrate old.sym out",
            "delta old.sym empty.sum out",
            *(it.format("old.sym") for it in MERGED.values()),
        ):
            self.does(words, 1, RETIRED)
        summary_text = b"MSYMSUM1" + RETIRED[8:]
        self.does("summary old.sym out", 1, summary_text)
        self.does(f"find old.sym {UUID}", 1)
        self.does("list old.sym", 1)
        self.does(f"symbolicate old.sym {KEY} 0", 1, status=1)
        self.does("frames one.frames old.sym", 1, status=1)
        self.does("name old.sym _a", 0, status=1)
        self.refuses_archive("old.sym", "OldArchive", f", {AN_OLD_ARCHIVE}", ["index"])

    def test_the_number_of_what_is_kept(self) -> None:
        self.file("counted.sym", OLD[:-1] + b"\x01")
        self.refuses_archives("counted.sym", "BadCount at 154", commands=OLD_READING)
        self.refuses_archive("counted.sym", "OldArchive", f", {AN_OLD_ARCHIVE}", ["index"])

    def test_no_version(self) -> None:
        self.file("third.sym", b"MSYMARC3" + OLD[8:])
        self.refuses_archives("third.sym", "BadMagic at 0")


class Slices(HostileCase):
    """Images whose numbers are as great as they can be, or wrap to small ones where 32 bits are added or multiplied, in
    each place of a slice."""

    def put(self, slice_bytes: bytes) -> None:
        """Writes a slice as it is, as a part of a universal file, in an archive and in operations."""
        record = b"\x02" + bytes.fromhex("00112233445566778899aabbccddeeff0100000700000003")
        record += struct.pack(">Q", len(slice_bytes)) + slice_bytes
        self.file("slice", slice_bytes)
        self.file("slice.fat", struct.pack(">7I", 0xCAFEBABE, 1, 0x01000007, 3, 28, len(slice_bytes), 0) + slice_bytes)
        self.file("slice.sym", b"MSYMARC2" + record + b"\x03" + struct.pack(">Q", 1))
        self.file("slice.ops", b"MSYMOPS1" + record)
        self.file("slice.script", f"sites 2\ntake 0 {slice_bytes.hex()}\n")

    def refuses_slice(self, slice_bytes: bytes, fault: str) -> None:
        self.put(slice_bytes)
        for path in ("slice", "slice.fat"):
            self.refuses("admit empty.sym out {}", "file 0", path, f"Slice(0, {fault})")
        self.refuses_archive("slice.sym", f"BadSlice({fault}) at 8")
        self.refuses(MERGED["archive 1"], "archive 1", "slice.sym", f"BadSlice({fault}) at 8")
        self.refuses("apply empty.sym out {}", "ops", "slice.ops", f"BadSlice({fault}) at 8")
        self.takes("slice", f"0 refused File(Slice(0, {fault}))")

    def takes(self, path: str, line: str) -> None:
        """Fails where the event of a script that takes a slice has another outcome."""
        self.assertEqual(self.call("rehearse", f"{path}.script").lines[0], line)

    def accepts_slice(self, made: bytes) -> None:
        self.put(made)
        text = archive([made])
        for words in ("admit empty.sym out slice", "admit empty.sym out slice.fat", "apply empty.sym out slice.ops"):
            self.does(words, 2, text)
        self.does("apply slice.sym out empty.ops", 2, text)
        self.does("admit slice.sym out image", 2, archive([made, IMAGE]))
        not_there = f"note: IN has no slice {ROW}\n"
        self.does(f"retire slice.sym out {ROW}", 2, archive([made], [IMAGE]), tells=not_there)
        for words in (
            "merge slice.sym out empty.sym",
            "merge slice.sym out empty.sym empty.sym",
            "merge empty.sym out slice.sym",
            "migrate slice.sym out",
            "delta slice.sym empty.sum out",
        ):
            self.does(words, 1, text)
        self.does(f"find slice.sym {UUID}", 1)
        self.does("list slice.sym", 1)
        self.does(f"symbolicate slice.sym {KEY} 0", 1, status=1)
        self.does("frames one.frames slice.sym", 1, status=1)
        self.does("name slice.sym _a", 0, status=1)
        for command, wanted in (("summary", summary([made])), ("index", index([made]))):
            self.assertEqual(self.call(command, "slice.sym", "out").status, 0)
            self.has_bytes("out", wanted)
            self.put_out()
        self.takes("slice", "0 took 1 0 0")

    def test_the_commands_of_a_header(self) -> None:
        self.refuses_slice(hostile.image(MOST, 24, hostile.UUID_COMMAND), "Image(BadCommand(1))")
        self.refuses_slice(hostile.image(1, MOST, hostile.UUID_COMMAND), "Image(CommandsOutside)")

    def test_the_size_of_a_command(self) -> None:
        command = struct.pack("<II", 0x1B, MOST) + hostile.UUID_COMMAND[8:]
        self.refuses_slice(hostile.image(1, 24, command), "Image(BadCommand(0))")

    def test_the_sections_of_a_segment(self) -> None:
        """2^28 sections have 5 * 2^32 bytes."""
        for sections in (MOST, 1 << 28):
            self.refuses_slice(hostile.segment(sections), "Image(BadSegment(0))")

    def test_the_symbols_of_a_table(self) -> None:
        """2^28 symbols have 2^32 bytes; a symbol 2^32-1 bytes from the start; one whose last byte is one too far."""
        for symoff, nsyms in ((0, MOST), (0, 1 << 28), (MOST, 1), (65, 1)):
            self.refuses_slice(hostile.symtab(symoff, nsyms, 0, 0), "Symbols(SymbolsOutside)")

    def test_the_names_of_a_table(self) -> None:
        for stroff, strsize in ((0, MOST), (1, MOST), (MOST, 1)):
            self.refuses_slice(hostile.symtab(0, 0, stroff, strsize), "Symbols(StringsOutside)")

    def test_a_symbol_that_ends_with_the_image_and_no_names(self) -> None:
        self.accepts_slice(hostile.symtab(64, 1, 80, 0))

    def test_no_symbols_and_no_names_far_from_the_start(self) -> None:
        self.accepts_slice(hostile.symtab(MOST, 0, MOST, 0))


class Universals(HostileCase):
    """Universal files whose table says what is not so."""

    def refuses_file(self, content: bytes, fault: str, hint: str = "") -> None:
        self.file("fat", content)
        self.refuses("admit empty.sym out {}", "file 0", "fat", fault, hint)

    @staticmethod
    def one_part(offset: int, size: int, part: bytes = IMAGE) -> bytes:
        return struct.pack(">7I", 0xCAFEBABE, 1, 0x01000007, 3, offset, size, 0) + part

    def test_numbers_of_entries(self) -> None:
        most = struct.pack(">II", 0xCAFEBABE, MOST)
        self.refuses_file(most, f"Fat(TooManyArches({MOST}))", ", a Java class file, which no command takes")
        self.refuses_file(struct.pack(">II", 0xCAFEBABE, 33), "Fat(TooManyArches(33))")
        self.refuses_file(struct.pack(">II", 0xCAFEBABE, 1), "Fat(TableTruncated)")

    def test_parts_after_the_end_and_such_that_wrap(self) -> None:
        self.refuses_file(self.one_part(MOST, MOST), "Fat(SliceOutside(0))")
        self.refuses_file(self.one_part(MOST, 1), "Fat(SliceOutside(0))")
        for size in (2**64 - 1, 1):
            wide = struct.pack(">4IQQII", 0xCAFEBABF, 1, 0x01000007, 3, 2**64 - 1, size, 0, 0)
            self.refuses_file(wide, "Fat(SliceOutside(0))")

    def test_itself_as_its_part(self) -> None:
        self.refuses_file(self.one_part(0, 28, b""), "NothingToAdmit")

    def test_itself_beside_an_image(self) -> None:
        entries = struct.pack(">10I", 0x01000007, 3, 0, 48, 0, 0x01000007, 3, 48, 56, 0)
        self.file("fat", struct.pack(">II", 0xCAFEBABE, 2) + entries + IMAGE)
        self.does("admit empty.sym out fat", 3, ONE)

    def test_an_empty_part(self) -> None:
        content = self.one_part(28, 0, b"")
        self.refuses_file(content, "NothingToAdmit")
        self.file("fat.script", f"sites 2\ntake 0 {content.hex()}\n")
        self.assertEqual(self.call("rehearse", "fat.script").lines[0], "0 refused File(NothingToAdmit)")


class Addresses(HostileCase):
    """The last address, a loaded one that stands for it, and ones that stand for none."""

    def answers(self, words: str, *lines: str, status: int = 0) -> None:
        self.expect(f"symbolicate ends.sym {KEY} {words}", prints=lines, status=status)

    def test_the_last_address(self) -> None:
        last = "ffffffffffffffff"
        self.answers(last, f"0x{last} _a + 0 (__TEXT,__text)")
        self.answers(f"--load {last} {last}", f"0x{last} _a + 0 (__TEXT,__text)")

    def test_a_loaded_address(self) -> None:
        none, zero = "0x0000000000000001 -", "0x0000000000000000 _a + 0 (__TEXT,__text)"
        self.answers("--load 0 1 0", none, zero, status=1)
        self.answers("--load 1 0", "0x0000000000000000 -", status=1)

    def test_its_name(self) -> None:
        digest = "96e9fe3e853f9227851ecd10e3e8cdfe00c6e14a342836dd193cdd89806d9c94"
        self.expect("name ends.sym _a", prints=f"{KEY} {digest} 0xffffffffffffffff (__TEXT,__text)")


# Images of 1 MB, and archives and operations of them.
FIRST = IMAGE + bytes(1_000_000)
SECOND = IMAGE[:40] + bytes.fromhex("8899aabbccddeeff0011223344556677") + bytes(1_000_000)
LARGE = {
    "admit": "admit some.sym {} second",
    "retire": f"retire some.sym {{}} {ROW}",
    "merge": "merge some.sym {} more.sym",
    "merge of two": "merge some.sym {} more.sym empty.sym",
    "migrate": "migrate some.sym {}",
    "apply": "apply some.sym {} more.ops",
    "delta": "delta some.sym empty.sum {}",
}


class LargeCase(HostileCase):
    """Cases with images of 1 MB."""

    def setUp(self) -> None:
        super().setUp()
        self.file("first", FIRST)
        self.file("second", SECOND)
        self.file("some.sym", archive([ENDS, FIRST]))
        self.file("more.sym", archive([SECOND]))
        self.file("more.ops", operations([SECOND]))
        self.file("memory.frames", f"{KEY} - ffffffffffffffff\n{KEY} 1 0\n")
        script = f"sites 2\ntake 0 {ENDS.hex()}\nfull 0\ndeliver 1 0\nask 1\nreply 0 1\nstop 1\n"
        self.file("memory.script", script)


class LadderCase(LargeCase):
    """A command at each limit of a ladder of memory ends as with ample memory, or with status 4, nothing printed, and
    nothing left; each of the two at some limit."""

    seconds = 60

    def limits(self) -> List[int]:
        """Limits in KiB, from the least at which the program is loaded with the longest words; by pages at first, where
        the stack has no room either."""
        least = 1024
        while self.at(least, f"retire some.sym least.sym {ROW}").status not in (0, 4):
            least += 4
            self.assertLess(least, 65536, "the program is not loaded in 64 MiB")
        return [*range(least, least + 512, 4), *range(least + 512, least + 8193, 64)]

    def at(self, limit: int, words: str) -> Any:
        return self.call(*words.split(" "), before=["prlimit", f"--as={limit << 10}", "--"])

    def climb(self, *commands: str) -> None:
        limits = self.limits()
        for words in commands:
            self.put_nothing()
            ample = self.call(*words.split(" "))
            whole = self.at_out()
            wanting = enough = 0
            for limit in limits:
                self.put_nothing()
                came = self.at(limit, words)
                if came == ample and self.at_out() == whole:
                    enough += 1
                else:
                    self.assertEqual((came.status, came.lines, came.error_lines), (4, [], [OUT_OF_MEMORY]), words)
                    self.assertEqual((self.at_out(), glob.glob(f"{self.folder}/.symarch-*")), (None, []), words)
                    wanting += 1
            self.assertGreater(wanting, 0, f"{words}: memory is never wanted")
            self.assertGreater(enough, 0, f"{words}: memory is always wanted")

    def put_nothing(self) -> None:
        if (self.folder / "out").exists():
            (self.folder / "out").unlink()

    def at_out(self) -> Optional[bytes]:
        out = self.folder / "out"
        return out.read_bytes() if out.exists() else None

    def climb_with_out(self, *commands: str) -> None:
        self.climb(*(LARGE[it].format("out") for it in commands))


class LadderOfChanges(LadderCase):
    """Commands that change an archive."""

    def test_admit_and_apply(self) -> None:
        self.climb_with_out("admit", "apply")

    def test_migrate_and_retire(self) -> None:
        self.climb_with_out("migrate", "retire")


class LadderOfJoins(LadderCase):
    """Commands that join or compare archives."""

    def test_merge(self) -> None:
        self.climb_with_out("merge", "merge of two")

    def test_delta_summary_and_index(self) -> None:
        self.climb(LARGE["delta"].format("out"), "summary some.sym out", "index some.sym out")


class LadderOfQueries(LadderCase):
    """Commands that only print."""

    def test_images_and_names(self) -> None:
        asking = [it for it in READING if it not in WRITING and it not in AT_ADDRESSES]
        self.climb(*(READING[it].format("some.sym") for it in asking))

    def test_addresses(self) -> None:
        self.climb(f"symbolicate some.sym {KEY} ffffffffffffffff", "frames memory.frames some.sym")

    def test_a_script(self) -> None:
        self.climb("rehearse memory.script")


class BrokenOff(LargeCase):
    """A write that fails after some bytes of the text leaves nothing."""

    def break_off(self, out: str, why: str, **how: Any) -> None:
        for words in LARGE.values():
            self.assertEqual(self.call(*words.format("whole").split(" ")).status, 0)
            whole = (self.folder / "whole").stat().st_size
            (self.folder / "whole").unlink()
            came = self.call(*words.format(out).split(" "), **how)
            fault, *hint = came.error_lines
            self.assertEqual((came.status, came.out, hint), (2, b"", [f"  output is {out}: {why}"]), words)
            written = re.fullmatch(r"symarch: output: failed after ([0-9]+) bytes", fault)
            assert written is not None
            self.assertTrue(0 < int(written[1]) < whole, fault)
            self.is_absent(out)
            self.assertEqual(list((self.folder / out).parent.glob(".symarch-*")), [])

    def test_files_of_512_bytes(self) -> None:
        (self.folder / "out").unlink()
        self.break_off("out", said(errno.EFBIG), preexec_fn=limited(resource.RLIMIT_FSIZE, 512))

    def test_a_disk_of_64_kib_and_a_full_one(self) -> None:
        disk = self.folder / "disk"
        disk.mkdir()
        if not is_done(["mount", "-t", "tmpfs", "-o", "size=64k", "none", disk]):
            raise Without("no disk can be mounted")
        self.addCleanup(is_done, ["umount", disk])
        self.break_off("disk/out", said(errno.ENOSPC))
        try:
            (disk / "full").write_bytes(bytes(1 << 16))
        except OSError as error:
            self.assertEqual(error.errno, errno.ENOSPC)
        self.refuses_out("disk/new", "failed after 0 bytes", f": {said(errno.ENOSPC)}")
