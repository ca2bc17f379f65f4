"""Archives of version 1, fixtures/version-1: read, migrated, merged with new ones, refused."""
from .support import crash
from .support.cases import ProgramCase
from .support.made_images import EMPTY, archive, digest_of, records_in, retirement, slice_text, summary
from .support.program import TOP

FIXTURES = TOP / "tests" / "fixtures" / "version-1"
KEY = "00112233-4455-6677-8899-aabbccddeeff x86_64"
UUID = KEY.split()[0]
OLD, OLD_TWO = (FIXTURES / "retired.sym").read_bytes(), (FIXTURES / "two.sym").read_bytes()
# The slices of the second, of which one is retired in the first.
SLICE, SIGNED_AGAIN = (record[33:] for record in records_in(OLD_TWO))
WITHDRAW = f"{KEY} {digest_of(SLICE)}"
# Their contents in version 2: the retirement, the two slices, and their join.
RETIRED, TWO, JOIN = archive([], [SLICE]), archive([SLICE, SIGNED_AGAIN]), archive([SIGNED_AGAIN], [SLICE])
SHIPPED = archive(crash.SHIPPED)
SHIPPED_1 = archive(crash.SHIPPED, magic=b"MSYMARC1")


class VersionCase(ProgramCase):
    """Cases with archives of both versions."""

    def setUp(self) -> None:
        super().setUp()
        (self.folder / "crash").symlink_to(crash.CRASH)
        archives = {"old.sym": OLD, "old-two.sym": OLD_TWO, "retired.sym": RETIRED, "two.sym": TWO, "empty.sym": EMPTY}
        for name, text in {**archives, "shipped.sym": SHIPPED, "shipped-1.sym": SHIPPED_1}.items():
            self.file(name, text)


class Read(VersionCase):
    """A slice that stands beside its retirement is not told."""

    def test_find(self) -> None:
        self.expect(f"find old.sym {UUID}", prints=f"x86_64 retired {digest_of(SLICE)}")

    def test_find_a_conflict(self) -> None:
        self.expect(
            f"find old-two.sym {UUID}",
            prints=f"""
                x86_64 image {digest_of(SLICE)}
                x86_64 image {digest_of(SIGNED_AGAIN)}
                x86_64 conflict 2
                """,
        )

    def test_symbolicate(self) -> None:
        self.expect(f"symbolicate old.sym {KEY} 0", prints="0x0000000000000000 ?", status=1)

    def test_a_crash(self) -> None:
        self.expect(f"symbolicate shipped-1.sym {crash.ARM64} {crash.ARM64_CRASH}", prints=crash.ARM64_NAMES)


class Migrate(VersionCase):
    """What is in an old archive is written as version 2. A retired slice is not kept."""

    def test_a_retired_slice(self) -> None:
        self.assertEqual((len(OLD), len(RETIRED)), (163, 74))
        self.expect("migrate old.sym out", prints="archive: 1 records, 74 bytes")
        self.has_bytes("out", RETIRED)
        self.expect(f"find out {UUID}", prints=f"x86_64 retired {digest_of(SLICE)}")

    def test_two_slices(self) -> None:
        self.expect("migrate old-two.sym out", prints="archive: 2 records, 196 bytes")
        self.has_bytes("out", TWO)

    def test_a_crash(self) -> None:
        self.expect("migrate shipped-1.sym out", prints="archive: 4 records, 43857 bytes")
        self.has_bytes("out", SHIPPED)

    def test_an_archive_of_version_2(self) -> None:
        self.expect("migrate retired.sym out", prints="archive: 1 records, 74 bytes")
        self.has_bytes("out", RETIRED)

    def test_by_a_merge_with_an_empty_archive(self) -> None:
        self.expect("merge old.sym out empty.sym", prints="archive: 1 records, 74 bytes")
        self.has_bytes("out", RETIRED)


class Join(VersionCase):
    """Old archives are joined with new ones, and each command that writes writes version 2."""

    def test_old_and_new(self) -> None:
        for words in (
            "old-two.sym out retired.sym",
            "retired.sym out old-two.sym",
            "old-two.sym out old.sym",
            "two.sym out retired.sym",
        ):
            self.expect(f"merge {words}", prints="archive: 2 records, 164 bytes")
            self.has_bytes("out", JOIN)
            (self.folder / "out").unlink()

    def test_what_the_join_answers(self) -> None:
        self.file("join.sym", JOIN)
        self.expect(
            f"find join.sym {UUID}",
            prints=[f"x86_64 retired {digest_of(SLICE)}", f"x86_64 image {digest_of(SIGNED_AGAIN)}"],
        )

    def test_summaries_are_the_same(self) -> None:
        for name in ("shipped", "shipped-1"):
            self.expect(f"summary {name}.sym out", prints="summary: 4 entries, 245 bytes")
            self.has_bytes("out", summary(crash.SHIPPED))

    def test_a_delta(self) -> None:
        self.expect("summary empty.sym empty.sum", prints="summary: 0 entries, 17 bytes")
        self.expect("delta shipped-1.sym empty.sum out", prints="archive: 4 records, 43857 bytes")
        self.has_bytes("out", SHIPPED)

    def test_retire(self) -> None:
        self.expect(
            f"retire old-two.sym out {WITHDRAW}",
            prints=[f"retired {slice_text(SLICE)}", "archive: 2 records, 164 bytes"],
        )
        self.has_bytes("out", JOIN)

    def test_admit(self) -> None:
        self.file("again", SIGNED_AGAIN)
        self.expect(
            "admit old.sym out again",
            prints=[f"file 0 slice 0 added {slice_text(SIGNED_AGAIN)}", "archive: 2 records, 164 bytes"],
        )
        self.has_bytes("out", JOIN)


class Refused(VersionCase):
    """An old archive is tested as a new one is."""

    def test_a_count_without_the_retired_slices(self) -> None:
        self.file("counted.sym", OLD[:-1] + b"\x01")
        self.expect_refusal("migrate counted.sym out", "archive 0", "BadCount at 154", "counted.sym")
        self.is_absent("out")
        self.expect_refusal("migrate counted.sym two.sym", "archive 0", "BadCount at 154", "counted.sym")
        self.has_bytes("two.sym", TWO)

    def test_a_cut_archive(self) -> None:
        self.file("cut.sym", OLD[:100])
        self.expect_refusal("migrate cut.sym out", "archive 0", "Truncated at 65", "cut.sym")
        self.is_absent("out")

    def test_a_retired_slice_in_version_2(self) -> None:
        self.assertEqual(records_in(OLD)[0], retirement(SLICE))
        self.file("covered.sym", b"MSYMARC2" + OLD[8:])
        self.expect_refusal("migrate covered.sym out", "archive 0", "Covered at 65", "covered.sym")
        self.is_absent("out")

    def test_a_version_that_is_none(self) -> None:
        self.file("third.sym", b"MSYMARC3" + OLD[8:])
        self.expect_refusal("migrate third.sym out", "archive 0", "BadMagic at 0", "third.sym")
        self.is_absent("out")
