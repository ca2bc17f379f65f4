"""A month of packed files, as build servers and TestFlight send them: apps for devices, zip files within others, and
the feedback of testers with a crash in each."""
import io
import zipfile
from typing import Any, Dict, List

from .support.cases import same
from .support.made_images import archive, image, line
from .support.packed_files import tarred, zipped
from .support.reports import ReportCase, named, source
from .support.rooms import RoomCase

APP, DSYM = "Payload/Spool.app/Spool", "Spool.app.dSYM/Contents/Resources/DWARF/Spool"
FEEDBACK = {"feedback.json": b"{}", "screenshot.jpg": b"\xff\xd8", "crashlog.crash": source("crash"),
            "__MACOSX/._crashlog.crash": b"\0\5\x16\7"}  # fmt: skip
COUNTS = "0 known, 0 retired, 0 refused, passed over"


class Builds(RoomCase):
    """The first week: what a build server keeps."""

    def test_an_app_for_devices_in_a_folder(self) -> None:
        self.room.file("ci/4/Spool.ipa", zipped({APP: image(1), "Payload/Spool.app/Assets.car": b"x"}))
        said, errors = self.room.add("ci")
        same("lines", said, [line("added", image(1), f"ci/4/Spool.ipa: {APP}")])
        same("errors", errors, [f"symarch-keep: 1 added, {COUNTS} 1 (other files 1)"])

    def test_a_zip_in_a_zip(self) -> None:
        """To three levels, whatever packed them; a fourth is another file. Each is read again as it is asked for."""
        fourth = zipped({"d": image(4)})
        third = tarred({"c": image(3), "d.zip": fourth, "e": image(5)})
        made = zipped({"b.zip": zipped({DSYM: image(2), "c.tar.gz": third}), "a": image(1)})
        self.room.file("ci.zip", made)
        said, errors = self.room.add("ci.zip")
        places = [(2, f"b.zip: {DSYM}"), (3, "b.zip: c.tar.gz: c"), (5, "b.zip: c.tar.gz: e"), (1, "a")]
        same("lines", said, [line("added", image(number), f"ci.zip: {path}") for number, path in places])
        same("errors", errors, [f"symarch-keep: 4 added, {COUNTS} 1 (other files 1)"])
        self.room.has(archive([image(number) for number in (1, 2, 3, 5)]))
        self.room.begin_anew()
        said, errors = self.room.add("ci.zip", words=["--dsyms-only"])
        same("lines", said, [line("added", image(2), f"ci.zip: b.zip: {DSYM}")])

    def test_one_that_is_damaged(self) -> None:
        """The others go in, also of a tar file."""
        inner = zipped({"a": image(1)})
        for name, made in (("ci.zip", zipped({"x.zip": inner[:-30], "b": image(2)})),
                           ("ci.tgz", tarred({"x.zip": inner[:-30], "b": image(2)}))):  # fmt: skip
            self.room.begin_anew()
            self.room.file(name, made)
            said, errors = self.room.add(name, status=2)
            same("lines", said, [line("added", image(2), f"{name}: b")])
            same("errors", errors[0], f"symarch-keep: {name}: x.zip: a zip file that is cut or damaged")

    def test_an_inner_tar_file_that_is_damaged(self) -> None:
        """Its end is none of the file that has it."""
        inner = tarred({"a": image(1), "c": image(3)})
        for cut, told in ((20, "a gzip file that is cut or damaged"), (len(inner) - 30, "a gzipped tar file that is")):
            members = {"x.tgz": inner[:cut], "b": image(2)}
            for name, made in (("ci.zip", zipped(members)), ("ci.tgz", tarred(members))):
                self.room.begin_anew()
                self.room.file(name, made)
                said, errors = self.room.add(name, status=2)
                same("last line", said[-1], line("added", image(2), f"{name}: b"))
                self.assertIn(f"symarch-keep: {name}: x.tgz: ", errors[0])
                self.assertIn(told, errors[0])

    def test_one_limit_for_all(self) -> None:
        """A hundred times the length of the outermost, and 64 MiB, whatever is within what."""
        big = {f"{number}": image(number, more=bytes(30_000_000)) for number in (1, 2, 3)}
        made = zipped({"a.zip": zipped({"b.zip": zipped(big)}), "c": image(4), "d.zip": zipped({"e": image(5)})})
        self.room.file("ci.zip", made)
        most = 100 * len(made) + (64 << 20)
        said, errors = self.room.add("ci.zip", status=2)
        same("lines", said, [line("added", big[number], f"ci.zip: a.zip: b.zip: {number}") for number in ("1", "2")])
        told = f"unpacks, with the members before it, to more than {most} bytes; the members after it were not read"
        same("errors", errors, [f"symarch-keep: ci.zip: a.zip: b.zip: 3: {told}",
                                "symarch-keep: 2 added, 0 known, 0 retired, 1 refused, passed over 0"])  # fmt: skip

    def test_what_an_inner_tar_file_passes_over(self) -> None:
        """It is counted too, since a file of a few bytes may hold one of a gigabyte."""
        made = zipped({"a.tgz": tarred({"zeros": bytes(80 << 20), "b": image(1)}), "c": image(2)})
        self.room.file("ci.zip", made)
        most = 100 * len(made) + (64 << 20)
        said, errors = self.room.add("ci.zip", status=2)
        told = f"unpacks, with the members before it, to more than {most} bytes; the members after it were not read"
        same("lines", said, [])
        counts = "symarch-keep: 0 added, 0 known, 0 retired, 1 refused, passed over 1 (other files 1)"
        same("errors", errors, [f"symarch-keep: ci.zip: a.tgz: {told}", counts])


class Feedback(ReportCase):
    """The second week: what testers send."""

    def packed(self, name: str, members: Dict[str, bytes]) -> Any:
        made = io.BytesIO()
        with zipfile.ZipFile(made, "w", zipfile.ZIP_DEFLATED) as file:
            for member, content in members.items():
                file.writestr(member, content)
        return self.file(name, made.getvalue())

    def test_one(self) -> None:
        path = self.packed("feedback.zip", FEEDBACK)
        came = self.report(path, "shipped")
        self.assertEqual((came.status, came.out), (0, named("crash")), came.errors)

    def test_all_of_a_folder(self) -> None:
        """Each has a crash of one name; one without a crash is passed over."""
        for number in (1, 2):
            self.packed(f"in/{number}/feedback.zip", FEEDBACK)
        self.packed("in/words.zip", {"feedback.json": b"{}"})
        self.file("in/2/a.crash", source("crash"))
        made, came = self.written([self.folder / "in"], "shipped")
        wanted = ["1/feedback.zip/crashlog.crash", "2/a.crash", "2/feedback.zip/crashlog.crash"]
        self.assertEqual((came.status, made), (0, dict.fromkeys(wanted, named("crash"))), came.errors)
        self.assertEqual([one.partition(": ")[::2][0] for one in self.shortened(came)][:1], ["in/1/feedback.zip"])
        lines = self.report("--group", "in", "shipped").lines
        self.assertEqual([one.split("\t")[0::2] for one in lines], [["3", "in/1/feedback.zip: crashlog.crash"]])

    def test_names_that_lead_elsewhere(self) -> None:
        """The name of a member is no path, and moves no terminal."""
        path = self.packed("a.zip", {"../../up.crash": source("crash"), "/etc/x\x1b.ips": source("ips")})
        made, came = self.written([path], "shipped")
        self.assertEqual(sorted(made), ["a.zip/up.crash", "a.zip/x\x1b.ips"], came.errors)
        self.assertIn("a.zip: /etc/x\\x1b.ips: ", came.errors.decode())
        self.assertNotIn(b"\x1b", came.errors)
        self.assertFalse((self.folder / "up.crash").exists())

    def test_refusals(self) -> None:
        several = self.packed("two.zip", {"a/1.crash": source("crash"), "b/1.crash": source("crash")})
        said = "symbolicate-report: two.zip has several reports: add --out NEWFOLDER, or --group"
        self.is_refused([several, "shipped"], said, status=3)
        out: List[Any] = ["--out", "new", several, "shipped"]
        said = "two.zip: a/1.crash and two.zip: b/1.crash would both be written to new/two.zip/1.crash"
        self.is_refused(out, f"symbolicate-report: {said}", status=3)
        same_names = self.packed("same.zip", {"a.crash": source("crash"), "b.crash": source("crash")})
        same_names.write_bytes(same_names.read_bytes().replace(b"b.crash", b"a.crash"))
        out = ["--out", "new", same_names, "shipped"]
        said = "same.zip: a.crash and same.zip: a.crash would both be written to new/same.zip/a.crash"
        self.is_refused(out, f"symbolicate-report: {said}", status=3)
        none = self.packed("none.zip", {"feedback.json": b"{}"})
        self.is_refused([none, "shipped"], "symbolicate-report: none.zip: a zip file that holds no report")
        cut = self.file("cut.zip", several.read_bytes()[:-30])
        self.is_refused([cut, "shipped"], "symbolicate-report: cut.zip: a zip file that is cut or damaged")
        self.assertFalse((self.folder / "new").exists())
        bad = self.packed("bad.zip", {"1.crash": b"none\n"})
        said = "symbolicate-report: bad.zip: 1.crash: no report of a known kind: no stack frames"
        self.is_refused([bad, "shipped"], said)

    def test_a_member_that_is_damaged(self) -> None:
        """What is wrong with one is not wrong with the others."""
        path = self.packed("a.zip", {"1.crash": source("crash"), "2.crash": source("crash")})
        data = bytearray(path.read_bytes())
        data[data.index(b"1.crash") + 7 + 40] ^= 0xFF
        path.write_bytes(data)
        came = self.report(path, "shipped")
        self.assertEqual((came.status, came.out), (2, named("crash")), came.errors)
        self.assertEqual(self.shortened(came)[0], "symbolicate-report: a.zip: 1.crash: cut or damaged")
        path = self.packed("b.zip", {"1.crash": b" " * 64_000_001, "2.crash": source("crash")})
        came = self.report(path, "shipped")
        self.assertEqual((came.status, came.out), (2, named("crash")), came.errors)
        said = "symbolicate-report: b.zip: 1.crash: unpacks to more than 64000000 bytes"
        self.assertEqual(self.shortened(came)[0], said)

    def test_what_is_read_is_not_written_over(self) -> None:
        """Neither a zip file, nor by a report what has to be a folder."""
        path = self.packed("in/b.crash", FEEDBACK)
        before = path.read_bytes()
        self.file("other/b.crash", source("crash"))
        came = self.report("--out", "in", "in/b.crash", "other/b.crash", "shipped")
        said = "other/b.crash would be written over in/b.crash, which is read"
        self.assertEqual((came.status, came.error_lines[-1]), (3, f"symbolicate-report: {said}"))
        self.assertEqual(path.read_bytes(), before)
        came = self.report("--out", "new", "in/b.crash", "other/b.crash", "shipped")
        said = "other/b.crash would be written where in/b.crash: crashlog.crash needs a folder, new/b.crash"
        self.assertEqual((came.status, came.error_lines[-1]), (3, f"symbolicate-report: {said}"))
        self.assertFalse((self.folder / "new").exists())
