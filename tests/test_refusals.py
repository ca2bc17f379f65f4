"""Each fault, for each input of each command and for OUT, and its second line: the path, and the reason."""
import errno
import os

from .support.cases import powerless_over
from .support.places import A_FOLDER, AN_ARCHIVE, EISDIR, ENOENT, ENOTDIR, FOREIGN, IMAGE, KEY, OF_AN_INPUT, ONE, UUID
from .support.places import DIGEST, FRAMES, OTHER_SLICE, SCRIPT, WRITING, PlacesCase, said

# The first bytes of files that `admit` takes in another place, or in no place.
MACHO = ("cffaedfe", "cefaedfe", "feedfacf", "feedface")
A_MACHO_FILE = "a Mach-O file, which `admit` takes"
OTHER_FILES = {
    "7f454c46": "an ELF file, which no command takes",
    "504b0304": "a zip file, which has to be unpacked first",
    "1f8b0800": "a gzip file, which has to be unpacked first",
    "504b0506": "",
}
FORM_UUID = "32 hex digits, with or without hyphens"
FORM_ARCH = "x86_64, x86_64h, arm64, arm64e or cpu:CCCCCCCC/00SSSSSS"
FORM_DIGEST = "64 hex digits"
FORM_ADDRESS = "1 to 16 hex digits, with or without 0x"
TOO_LARGE = "too large, expected at most 4294967295"
ZEROS = "expected no leading zeros"


class Inputs(PlacesCase):
    """An input that cannot be read, at each place, where nothing is at OUT."""

    def test_absent(self) -> None:
        self.refuses_input("nowhere", "cannot open", f": {ENOENT}")

    def test_below_a_file(self) -> None:
        self.refuses_input("image/under", "cannot open", f": {ENOTDIR}")

    def test_a_link_to_itself(self) -> None:
        (self.folder / "loop").symlink_to("loop")
        self.refuses_input("loop", "cannot open", f": {said(errno.ELOOP)}")

    def test_not_readable(self) -> None:
        path = self.file("secret", ONE)
        path.chmod(0)
        self.refuses_input("secret", "cannot open", f": {said(errno.EACCES)}", before=powerless_over(path))

    def test_a_folder(self) -> None:
        (self.folder / "App.dSYM").mkdir()
        self.refuses_records("App.dSYM", "Device at 0", f": {EISDIR}")
        self.refuses_image("App.dSYM", "Device", f": {A_FOLDER}")
        self.refuses_text("App.dSYM", "Device", f": {EISDIR}")

    def test_the_first_of_several(self) -> None:
        self.refuses("admit empty.sym out image {} nowhere", "file 1", "gone", "cannot open", f": {ENOENT}")
        self.refuses("merge empty.sym out {} nowhere", "archive 1", "gone", "cannot open", f": {ENOENT}")
        self.refuses("frames {} nowhere", "frames", "gone", "cannot open", f": {ENOENT}")
        self.refuses("delta {} nowhere out", "archive 0", "gone", "cannot open", f": {ENOENT}")
        self.refuses("index {} nowhere/out", "archive 0", "gone", "cannot open", f": {ENOENT}")


class InputsOverAnOut(Inputs):
    """The same where a file is at OUT, which stays as it was."""

    out_before = b""


class Beginnings(PlacesCase):
    """What a file looks like that is refused by its first bytes, and which command takes it. No more than its path is
    said of one that is taken there, of no known form, or refused by what comes later."""

    def looks_like(self, path: str, hint: str) -> None:
        """Fails where an archive in the place of operations and so on does not look so, but for where it is taken."""
        look = f", {hint}" if hint else ""
        if path not in ("one.sym", "old.sym"):
            self.refuses_archives(path, "BadMagic at 0", look)
        if path != "one.ops":
            self.refuses("apply empty.sym out {}", "ops", path, "BadMagic at 0", look)
        if path != "empty.sum":
            self.refuses("delta one.sym {} out", "summary", path, "BadMagic at 0", look)

    def is_no_image(self, path: str, hint: str) -> None:
        look = f", {hint}" if hint else ""
        self.refuses("admit empty.sym out image {} image", "file 1", path, "Unrecognised", look)

    def begin(self, digits: str) -> str:
        """The path of a file that begins so, with zeros after that."""
        self.file(digits, bytes.fromhex(digits) + bytes(8))
        return digits

    def test_an_archive(self) -> None:
        self.file("old.sym", b"MSYMARC1" + ONE[8:])
        for path in ("one.sym", "old.sym"):
            self.looks_like(path, AN_ARCHIVE)
            self.is_no_image(path, AN_ARCHIVE)

    def test_operations(self) -> None:
        self.looks_like("one.ops", "an operations file, which `apply` takes")
        self.is_no_image("one.ops", "an operations file, which `apply` takes")

    def test_a_summary(self) -> None:
        self.looks_like("empty.sum", "a summary, which `delta` takes")
        self.is_no_image("empty.sum", "a summary, which `delta` takes")

    def test_an_image(self) -> None:
        for digits in MACHO:
            self.looks_like(self.begin(digits), A_MACHO_FILE)
        for digits in MACHO[1:]:
            self.is_no_image(digits, "")

    def test_a_universal_file(self) -> None:
        for digits in ("cafebabe", "cafebabf"):
            self.looks_like(self.begin(digits), "a universal file, which `admit` takes")

    def test_a_class_file(self) -> None:
        self.looks_like(self.begin("cafebabe00000034"), "a Java class file, which no command takes")

    def test_other_files(self) -> None:
        for digits, hint in OTHER_FILES.items():
            self.looks_like(self.begin(digits), hint)
            self.is_no_image(digits, hint)

    def test_a_short_file(self) -> None:
        self.file("short", bytes.fromhex("cffaedfe"))
        self.refuses("list {}", "archive 0", "short", "BadMagic at 0", f", {A_MACHO_FILE}")
        self.refuses("admit empty.sym out {}", "file 0", "short", "Slice(0, Image(HeaderTruncated))")
        self.file("begun", ONE[:7])
        self.refuses("list {}", "archive 0", "begun", "Truncated at 0")
        self.refuses("merge one.sym out {}", "archive 1", "cut.sym", "Truncated at 97")

    def test_each_place_names_its_own(self) -> None:
        self.refuses("list {}", "archive 0", "image", "BadMagic at 0", f", {A_MACHO_FILE}")
        self.refuses("merge empty.sym out empty.sym {}", "archive 2", "cut.sym", "Truncated at 97")
        self.refuses("admit empty.sym out image {}", "file 1", "one.sym", "Unrecognised", f", {AN_ARCHIVE}")
        self.refuses("apply empty.sym out {}", "ops", "one.sym", "BadMagic at 0", f", {AN_ARCHIVE}")
        self.refuses("delta one.sym {} out", "summary", "one.sym", "BadMagic at 0", f", {AN_ARCHIVE}")


class Lines(PlacesCase):
    """What is wrong with the faulty line of frames or of a script: the whole of it, or one of its fields."""

    def bad_frame(self, line: str, hint: str) -> None:
        self.file("lines", f"{FRAMES}{line}\n")
        self.refuses("frames {} one.sym", "frames", "lines", "BadFrame at line 2", f", whose line 2 has {hint}")

    def bad_event(self, line: str, hint: str) -> None:
        self.file("lines", f"sites 1\n{line}\n")
        self.refuses("rehearse {}", "script", "lines", "BadEvent at line 2", f", whose line 2 {hint}")

    def bad_sites(self, number: str, hint: str) -> None:
        self.file("lines", f"sites {number}\n")
        self.refuses("rehearse {}", "script", "lines", "NoSites at line 1", f", whose line 1 {hint}")

    def test_frames(self) -> None:
        self.bad_frame(f"{UUID}\tx86_64 - 0", "a tab")
        self.bad_frame(f"{KEY} - 0\r", "a carriage return")
        self.bad_frame(f"{UUID}  x86_64 - 0", "two spaces together, or one at an end")
        self.bad_frame(f"{KEY} 0", "not the four fields UUID ARCH LOAD ADDRESS")
        self.bad_frame(f"{UUID}0 x86_64 - 0", f"an invalid UUID: expected {FORM_UUID}")
        self.bad_frame(f"{UUID} x86 - 0", f"an invalid ARCH: expected {FORM_ARCH}")
        self.bad_frame(f"{KEY} + 0", f"an invalid LOAD: expected - or {FORM_ADDRESS}")
        self.bad_frame(f"{KEY} - -", f"an invalid ADDRESS: expected {FORM_ADDRESS}")

    def test_events(self) -> None:
        self.bad_event("save\t0", "has a tab")
        self.bad_event("store 0", "begins with no word of an event")
        self.bad_event("save 0 0", "has fewer or more fields than its event")
        self.bad_event("save 00", f"has an invalid SITE: {ZEROS}")
        self.bad_event("take 0 0", "has an invalid BYTES: expected pairs of hex digits")
        self.bad_event("reply 0 x", "has an invalid MESSAGE: expected a decimal number, at most 4294967295")
        self.bad_event(f"retire 0 x x86_64 {DIGEST}", f"has an invalid UUID: expected {FORM_UUID}")
        self.bad_event(f"retire 0 {UUID} x86 {DIGEST}", f"has an invalid ARCH: expected {FORM_ARCH}")
        self.bad_event(f"retire 0 {KEY} {DIGEST}0", f"has an invalid DIGEST: expected {FORM_DIGEST}")

    def test_numbers_of_sites_and_messages(self) -> None:
        large = dict.fromkeys(("65", "4294967296", "18446744073709551617"), "too large, expected at most 64")
        zeros = dict.fromkeys(("01", "018446744073709551617"), ZEROS)
        for sites, flaw in {**large, **zeros, "-1": "expected a decimal number, at most 64"}.items():
            self.bad_sites(sites, f"has an invalid N: {flaw}")
        self.bad_sites("0", "is not `sites N`, N from 1 to 64")
        for number in ("4294967296", "18446744073709551616", "9" * 5000):
            self.bad_event(f"save {number}", f"has an invalid SITE: {TOO_LARGE}")
            self.bad_event(f"deliver 0 {number}", f"has an invalid MESSAGE: {TOO_LARGE}")
            self.bad_event(f"reply 0 0{number}", f"has an invalid MESSAGE: {ZEROS}")
        self.bad_event("take 0 ", "has two spaces together, or one at an end")

    def test_too_many_events(self) -> None:
        self.file("lines", "sites 1\n" + "save 0\n" * 10001)
        self.refuses("rehearse {}", "script", "lines", "TooManyEvents at line 10002")

    def test_events_that_a_site_refuses(self) -> None:
        events = {"save 4294967295": "NoSite", "deliver 0 4294967295": "NoMessage", "reply 1 0": "NoMessage"}
        for event, why in events.items():
            self.file("lines", f"sites 2\n{event}\n")
            came = self.call("rehearse", "lines")
            self.assertEqual((came.status, came.lines[0]), (0, f"0 refused {why}"), event)

    def test_no_line_of_the_form(self) -> None:
        hint = ", whose line 1 has not the four fields UUID ARCH LOAD ADDRESS"
        self.refuses("frames {} one.sym", "frames", "one.script", "BadFrame at line 1", hint)
        hint = ", whose line 1 is not `sites N`, N from 1 to 64"
        self.refuses("rehearse {}", "script", "one.frames", "NoSites at line 1", hint)

    def test_no_text(self) -> None:
        hint = ", whose line 1 is not UTF-8"
        self.refuses("frames {} one.sym", "frames", "one.sym", "BadFrame at line 1", hint)
        self.refuses("rehearse {}", "script", "image", "NoSites at line 1", hint)

    def test_a_byte_order_mark(self) -> None:
        self.file("bom", f"\ufeff{SCRIPT}")
        hint = ", whose line 1 begins with a byte-order mark"
        self.refuses("frames {} one.sym", "frames", "bom", "BadFrame at line 1", hint)
        self.refuses("rehearse {}", "script", "bom", "NoSites at line 1", hint)


class Outputs(PlacesCase):
    """An OUT that cannot be written, by each command that writes."""

    def test_no_folder(self) -> None:
        self.refuses_out("nowhere/deep", "cannot create", f": {ENOENT}")

    def test_below_a_file(self) -> None:
        self.refuses_out("image/under", "cannot create", f": {ENOTDIR}")
        self.has_bytes("image", IMAGE)

    def test_a_folder(self) -> None:
        (self.folder / "kept").mkdir()
        self.refuses_out("kept", "cannot create", f": {EISDIR}")
        self.assertEqual(list((self.folder / "kept").iterdir()), [])

    def test_a_link_to_itself(self) -> None:
        (self.folder / "loop").symlink_to("loop")
        self.refuses_out("loop", "cannot create", f": {said(errno.ELOOP)}")

    def test_a_long_name(self) -> None:
        self.refuses_out("0" * 256, "cannot create", f": {said(errno.ENAMETOOLONG)}")

    def test_a_full_device(self) -> None:
        self.refuses_out("/dev/full", "failed after 0 bytes", f": {said(errno.ENOSPC)}")

    def test_not_writable(self) -> None:
        kept = self.file("kept", b"MSYMOPS1as it was")
        kept.chmod(0o444)
        (self.folder / "closed").mkdir()
        (self.folder / "closed").chmod(0o555)
        secret = self.file("secret", b"")
        secret.chmod(0)
        for path in ("kept", "closed/out"):
            self.refuses_out(path, "cannot create", f": {said(errno.EACCES)}", before=powerless_over(secret))
        self.has_bytes("kept", b"MSYMOPS1as it was")

    def test_another_file(self) -> None:
        self.file("picture", IMAGE)
        others = [it for it in WRITING if it not in ("new", "extract")]
        self.refuses_out("picture", "cannot replace", f", {FOREIGN}", others)
        self.has_bytes("picture", IMAGE)

    def test_another_slice(self) -> None:
        """A slice replaces nothing but itself, symarch's own files neither."""
        for content in (IMAGE + b"\0", IMAGE[:-1], IMAGE[:-1] + b"\1", ONE, b"\0"):
            self.file("there", content)
            self.refuses_out("there", "cannot replace", f", {OTHER_SLICE}", ["extract"])
            self.has_bytes("there", content)

    def test_an_archive_that_would_be_lost(self) -> None:
        self.file("kept.sym", ONE)
        hint = ", there, and has 1 record that the new archive neither has nor retires"
        self.refuses_out("kept.sym", "cannot replace", hint, ["new"])
        self.expect_refusal("merge empty.sym kept.sym empty.sym", "output", "cannot replace", f"kept.sym{hint}")
        self.has_bytes("kept.sym", ONE)

    def test_a_damaged_archive(self) -> None:
        self.file("short.sym", ONE[:40])
        self.refuses_out("short.sym", "cannot replace", ", there, and an archive that is damaged", ["new"])
        self.has_bytes("short.sym", ONE[:40])

    def test_the_file_of_an_input(self) -> None:
        (self.folder / "folder").mkdir()
        (self.folder / "link.sym").symlink_to("one.sym")
        os.link(self.folder / "one.sym", self.folder / "second.sym")
        for path in ("./one.sym", "link.sym", "second.sym", "folder/../one.sym"):
            for words in (
                f"migrate one.sym {path}",
                f"merge empty.sym {path} one.sym",
                f"merge empty.sym {path} empty.sym one.sym",
                f"delta one.sym empty.sum {path}",
            ):
                self.expect_refusal(words, "output", "cannot create", f"{path}, {OF_AN_INPUT}")
        self.has_bytes("one.sym", ONE)


class Shown(PlacesCase):
    """A character of a path that a terminal obeys is printed as an escape, so the path takes one line. Each other one
    stands as it is."""

    def shows(self, path: str, shown: str) -> None:
        self.expect_refusal(["list", path], "archive 0", "cannot open", f"{shown}: {ENOENT}")
        self.expect_refusal(["admit", "empty.sym", "out", path], "file 0", "cannot open", f"{shown}: {ENOENT}")
        (self.folder / path).mkdir()
        self.expect_refusal(["rehearse", path], "script", "Device", f"{shown}: {EISDIR}")
        (self.folder / path).rmdir()
        self.file(path, IMAGE)
        words = ["merge", "empty.sym", "out", path]
        self.expect_refusal(words, "archive 1", "BadMagic at 0", f"{shown}, {A_MACHO_FILE}")
        self.expect_refusal(["migrate", "one.sym", path], "output", "cannot replace", f"{shown}, {FOREIGN}")

    def test_obeyed(self) -> None:
        self.shows("two\nlines", "two\\x0alines")
        self.shows('a\t"tab" \\', 'a\\x09"tab" \\')
        self.shows("\033[31mred", "\\x1b[31mred")
        self.shows("over\rwritten", "over\\x0dwritten")
        self.shows("\x7f", "\\x7f")
        self.shows("\x85é", "\\x85é")

    def test_not_obeyed(self) -> None:
        self.shows('a "b" \\ é', 'a "b" \\ é')
        self.shows("  two spaces", "  two spaces")
