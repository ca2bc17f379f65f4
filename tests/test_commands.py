"""The commands on a small program in two builds, examples/crash: output, conflicts, statuses. The names and offsets
were written from `llvm-nm`."""
import os
import resource
import signal

from .support import crash
from .support.cases import ProgramCase
from .support.crash import ARM64, ARM64_CRASH, ARM64_NAMES, SECOND_X86_64, X86_64, X86_64_CRASH
from .support.made_images import EMPTY, archive, digest_of, operations, slice_text
from .support.made_images import EXECUTE, image, thirty_two_bit, universal, without_uuid

SHIPPED, LINKED = archive(crash.SHIPPED), archive(crash.LINKED)
BOTH = archive([*crash.SHIPPED, *crash.LINKED])
# Both without the dSYM of the first build for arm64, which is retired.
RETIRED = archive([*crash.SHIPPED[:3], *crash.LINKED], retired=[crash.DSYM_ARM64])
WITHDRAW_DSYM = f"{ARM64} {digest_of(crash.DSYM_ARM64)}"


class CrashCase(ProgramCase):
    """Cases with the files of examples/crash and these archives."""

    def setUp(self) -> None:
        super().setUp()
        (self.folder / "crash").symlink_to(crash.CRASH)
        archives = {"empty": EMPTY, "shipped": SHIPPED, "linked": LINKED, "both": BOTH, "retired": RETIRED}
        for name, text in archives.items():
            self.file(f"{name}.sym", text)


class Admit(CrashCase):
    """Images come into an archive."""

    def test_a_new_archive(self) -> None:
        self.expect("new out", prints="archive: 0 records, 17 bytes")
        self.has_bytes("out", EMPTY)

    def test_a_shipped_file_and_its_dsym(self) -> None:
        self.expect(
            "admit empty.sym out crash/spool-1 crash/spool-1.dSYM",
            prints=f"""
                file 0 slice 0 added {slice_text(crash.SHIPPED_X86_64)}
                file 0 slice 1 added {slice_text(crash.SHIPPED_ARM64)}
                file 1 slice 0 added {slice_text(crash.DSYM_X86_64)}
                file 1 slice 1 added {slice_text(crash.DSYM_ARM64)}
                archive: 4 records, 43857 bytes
                """,
        )
        self.has_bytes("out", SHIPPED)

    def test_thin_files_and_a_dsym(self) -> None:
        self.expect(
            "admit empty.sym out crash/spool-1.arm64 crash/spool-2.x86_64 crash/spool-2.dSYM",
            prints=f"""
                file 0 slice 0 added {slice_text(crash.LINKED_ARM64)}
                file 1 slice 0 added {slice_text(crash.SECOND_LINKED_X86_64)}
                file 2 slice 0 added {slice_text(crash.SECOND_DSYM_X86_64)}
                file 2 slice 1 added {slice_text(crash.SECOND_DSYM_ARM64)}
                archive: 4 records, 45288 bytes
                """,
        )
        self.has_bytes("out", LINKED)

    def test_an_image_that_is_there(self) -> None:
        self.expect(
            "admit shipped.sym out crash/spool-1",
            prints=f"""
                file 0 slice 0 known {slice_text(crash.SHIPPED_X86_64)}
                file 0 slice 1 known {slice_text(crash.SHIPPED_ARM64)}
                archive: 4 records, 43857 bytes
                """,
        )
        self.has_bytes("out", SHIPPED)

    def test_a_retired_dsym_stays_out(self) -> None:
        self.expect(
            "admit retired.sym out crash/spool-1.dSYM",
            prints=f"""
                file 0 slice 0 known {slice_text(crash.DSYM_X86_64)}
                file 0 slice 1 known {slice_text(crash.DSYM_ARM64)}
                archive: 8 records, 78082 bytes
                """,
            tells=f"note: {slice_text(crash.DSYM_ARM64)} is retired in IN, and does not come in",
        )
        self.has_bytes("out", RETIRED)

    def test_a_source_file(self) -> None:
        self.expect_refusal(
            "admit shipped.sym out crash/spool-1 crash/spool.c", "file 1", "Unrecognised", "crash/spool.c"
        )
        self.is_absent("out")

    def test_a_static_library(self) -> None:
        self.file("library.a", b"!<arch>\n")
        self.expect_refusal("admit empty.sym out library.a", "file 0", "Unrecognised", "library.a")
        self.is_absent("out")

    def test_a_32_bit_image(self) -> None:
        self.file("thin", thirty_two_bit())
        self.expect_refusal("admit empty.sym out thin", "file 0", "Unrecognised", "thin")
        self.is_absent("out")

    def test_an_image_without_a_uuid(self) -> None:
        self.file("no-uuid", without_uuid(EXECUTE))
        self.expect_refusal("admit empty.sym out no-uuid", "file 0", "Slice(0, Image(NoUuid))", "no-uuid")
        self.is_absent("out")

    def test_a_file_of_which_one_slice_is_none(self) -> None:
        self.file("half", universal([image(1), without_uuid(EXECUTE)]))
        self.expect_refusal("admit empty.sym out half", "file 0", "Slice(1, Image(NoUuid))", "half")
        self.is_absent("out")

    def test_a_32_bit_slice_is_skipped(self) -> None:
        self.file("with-32", universal([thirty_two_bit(), image(1)]))
        self.expect(
            "admit empty.sym out with-32",
            prints=f"""
                file 0 slice 0 skipped
                file 0 slice 1 added {slice_text(image(1))}
                archive: 1 records, 106 bytes
                """,
        )
        self.has_bytes("out", archive([image(1)]))


class Find(CrashCase):
    """What an archive has, by UUID and in all."""

    def test_an_image_and_its_dsym(self) -> None:
        self.expect(
            "find shipped.sym 4c4c441955553144a1d24341c97782f0",
            prints=f"""
                arm64 dsym {digest_of(crash.DSYM_ARM64)}
                arm64 image {digest_of(crash.SHIPPED_ARM64)}
                """,
        )

    def test_two_images_beside_their_dsym(self) -> None:
        self.expect(
            "find both.sym 4c4c441955553144a1d24341c97782f0",
            prints=f"""
                arm64 dsym {digest_of(crash.DSYM_ARM64)}
                arm64 image {digest_of(crash.SHIPPED_ARM64)}
                arm64 image {digest_of(crash.LINKED_ARM64)}
                """,
        )

    def test_a_conflict(self) -> None:
        self.expect(
            "find retired.sym 4c4c441955553144a1d24341c97782f0",
            prints=f"""
                arm64 retired {digest_of(crash.DSYM_ARM64)}
                arm64 image {digest_of(crash.SHIPPED_ARM64)}
                arm64 image {digest_of(crash.LINKED_ARM64)}
                arm64 conflict 2
                """,
        )

    def test_a_uuid_that_no_slice_has(self) -> None:
        self.expect("find shipped.sym 4c4c4492-5555-3144-a19f-dc793c8d1050", status=1)

    def test_list(self) -> None:
        self.expect(
            "list shipped.sym",
            prints=f"""
                {ARM64} dsym {digest_of(crash.DSYM_ARM64)}
                {ARM64} image {digest_of(crash.SHIPPED_ARM64)}
                {X86_64} image {digest_of(crash.SHIPPED_X86_64)}
                {X86_64} dsym {digest_of(crash.DSYM_X86_64)}
                """,
        )

    def test_list_a_retirement_and_a_conflict(self) -> None:
        self.expect(
            "list retired.sym",
            prints=f"""
                {ARM64} retired {digest_of(crash.DSYM_ARM64)}
                {ARM64} image {digest_of(crash.SHIPPED_ARM64)}
                {ARM64} image {digest_of(crash.LINKED_ARM64)}
                {ARM64} conflict 2
                4c4c4435-5555-3144-a1b5-8515a36e45e9 arm64 dsym {digest_of(crash.SECOND_DSYM_ARM64)}
                {SECOND_X86_64} image {digest_of(crash.SECOND_LINKED_X86_64)}
                {SECOND_X86_64} dsym {digest_of(crash.SECOND_DSYM_X86_64)}
                {X86_64} image {digest_of(crash.SHIPPED_X86_64)}
                {X86_64} dsym {digest_of(crash.DSYM_X86_64)}
                """,
        )

    def test_list_nothing(self) -> None:
        self.expect("list empty.sym", status=1)


class Names(CrashCase):
    """The names of addresses, and the places of names."""

    def test_the_crashes(self) -> None:
        self.expect(f"symbolicate shipped.sym {ARM64} {ARM64_CRASH}", prints=ARM64_NAMES)
        self.expect(
            f"symbolicate shipped.sym {X86_64} {X86_64_CRASH}",
            prints="""
                0x000000010a5c4410 _copy_body + 16 (__TEXT,__text)
                0x000000010a5c43ed _file_message + 29 (__TEXT,__text)
                0x000000010a5c4489 _spool_one + 25 (__TEXT,__text)
                0x000000010a5c445a _start + 42 (__TEXT,__text)
                """,
        )

    def test_the_neighbour_in_a_stripped_image(self) -> None:
        self.file("alone.sym", archive([crash.SHIPPED_X86_64, crash.SHIPPED_ARM64]))
        self.expect(
            f"symbolicate alone.sym {ARM64} --load 0x104d38000 0x104d38410",
            prints="0x0000000104d38410 _file_message + 56 (__TEXT,__text)",
        )

    def test_code_a_constant_a_variable_and_the_header(self) -> None:
        self.expect(
            f"symbolicate shipped.sym {X86_64} 100000410 1000004f6 0x100001077 100001078 100000000",
            prints="""
                0x0000000100000410 _copy_body + 16 (__TEXT,__text)
                0x00000001000004f6 _shelf_letters + 1 (__TEXT,__const)
                0x0000000100001077 _shelves + 119 (__DATA,__bss)
                0x0000000100001078 -
                0x0000000100000000 -
                """,
            status=1,
        )

    def test_an_image_whose_dsym_answers(self) -> None:
        self.expect(
            f"symbolicate both.sym {SECOND_X86_64} 0x100000431",
            prints="0x0000000100000431 _file_message + 17 (__TEXT,__text)",
        )

    def test_two_images_that_differ(self) -> None:
        image, linked = digest_of(crash.SHIPPED_ARM64), digest_of(crash.LINKED_ARM64)
        self.expect(
            f"symbolicate retired.sym {ARM64} {ARM64_CRASH}",
            prints=f"""
                0x0000000104d38410 !2
                  {image} _file_message + 56 (__TEXT,__text)
                  {linked} _copy_body + 12 (__TEXT,__text)
                0x0000000104d383f8 !2
                  {image} _file_message + 32 (__TEXT,__text)
                  {linked} _file_message + 32 (__TEXT,__text)
                0x0000000104d38484 !2
                  {image} _start + 76 (__TEXT,__text)
                  {linked} _spool_one + 24 (__TEXT,__text)
                0x0000000104d38468 !2
                  {image} _start + 48 (__TEXT,__text)
                  {linked} _start + 48 (__TEXT,__text)
                """,
            status=1,
        )

    def test_a_key_that_no_slice_has(self) -> None:
        self.expect(f"symbolicate shipped.sym {SECOND_X86_64} 0x100000431", prints="0x0000000100000431 ?", status=1)
        words = f"symbolicate shipped.sym {ARM64.split()[0]} x86_64 0x100000410"
        self.expect(words, prints="0x0000000100000410 ?", status=1)

    def test_where_a_name_stands(self) -> None:
        self.expect(
            "name both.sym _copy_body",
            prints=f"""
                {slice_text(crash.LINKED_ARM64)} 0x0000000100000404 (__TEXT,__text)
                {slice_text(crash.DSYM_ARM64)} 0x0000000100000404 (__TEXT,__text)
                {slice_text(crash.SECOND_DSYM_ARM64)} 0x000000010000046c (__TEXT,__text)
                {slice_text(crash.SECOND_LINKED_X86_64)} 0x0000000100000460 (__TEXT,__text)
                {slice_text(crash.SECOND_DSYM_X86_64)} 0x0000000100000460 (__TEXT,__text)
                {slice_text(crash.DSYM_X86_64)} 0x0000000100000400 (__TEXT,__text)
                """,
        )

    def test_the_beginning_of_a_name(self) -> None:
        self.expect("name both.sym _copy", status=1)
        self.expect("name both.sym copy", status=1)

    def test_a_name_without_its_underscore(self) -> None:
        note = "note: there is no symbol copy_body, but there is _copy_body"
        for words in ("both.sym copy_body", "empty.sym copy_body --with linked.sym", "retired.sym copy_body"):
            self.expect(f"name {words}", status=1, tells=note)
        retired = archive([], retired=[*crash.SHIPPED, *crash.LINKED])
        self.file("gone.sym", retired)
        for words in ("both.sym --with gone.sym copy_body", "gone.sym copy_body --with both.sym", "gone.sym copy_body"):
            self.expect(f"name {words}", status=1)


class Frames(CrashCase):
    """All frames of a crash of three images, in the order of their lines."""

    def test_a_site_that_has_all(self) -> None:
        self.expect(
            "frames crash/three.frames both.sym",
            prints="""
                0x0000000104d38410 _copy_body + 12 (__TEXT,__text)
                0x00000001051c0448 _file_message + 32 (__TEXT,__text)
                0x0000000104d383f8 _file_message + 32 (__TEXT,__text)
                0x0000000100000431 _file_message + 17 (__TEXT,__text)
                """,
        )

    def test_a_site_that_has_some(self) -> None:
        self.expect(
            "frames crash/three.frames shipped.sym",
            prints="""
                0x0000000104d38410 _copy_body + 12 (__TEXT,__text)
                0x00000001051c0448 ?
                0x0000000104d383f8 _file_message + 32 (__TEXT,__text)
                0x0000000100000431 ?
                """,
            status=1,
        )

    def test_a_site_with_a_conflict(self) -> None:
        image, linked = digest_of(crash.SHIPPED_ARM64), digest_of(crash.LINKED_ARM64)
        self.expect(
            "frames crash/three.frames retired.sym",
            prints=f"""
                0x0000000104d38410 !2
                  {image} _file_message + 56 (__TEXT,__text)
                  {linked} _copy_body + 12 (__TEXT,__text)
                0x00000001051c0448 _file_message + 32 (__TEXT,__text)
                0x0000000104d383f8 !2
                  {image} _file_message + 32 (__TEXT,__text)
                  {linked} _file_message + 32 (__TEXT,__text)
                0x0000000100000431 _file_message + 17 (__TEXT,__text)
                """,
            status=1,
        )

    def test_a_report_in_the_place_of_frames(self) -> None:
        self.expect_refusal(
            "frames crash/arm64.crash both.sym",
            "frames",
            "BadFrame at line 1",
            "crash/arm64.crash, whose line 1 has two spaces together, or one at an end",
        )


class Merge(CrashCase):
    """Archives are joined, in any order, as often as one likes."""

    def test_two_archives_in_both_orders(self) -> None:
        for words in ("shipped.sym out linked.sym", "linked.sym out shipped.sym shipped.sym"):
            self.expect(f"merge {words}", prints="archive: 8 records, 89128 bytes")
            self.has_bytes("out", BOTH)

    def test_two_into_an_empty_one(self) -> None:
        self.expect("merge empty.sym out shipped.sym linked.sym", prints="archive: 8 records, 89128 bytes")
        self.has_bytes("out", BOTH)

    def test_a_retired_dsym_does_not_come_back(self) -> None:
        self.expect("merge retired.sym out shipped.sym", prints="archive: 8 records, 78082 bytes")
        self.has_bytes("out", RETIRED)

    def test_operations(self) -> None:
        self.file("linked.ops", operations(crash.LINKED))
        self.expect(
            "apply shipped.sym out linked.ops", prints=["applied: 4 new, 0 known", "archive: 8 records, 89128 bytes"]
        )
        self.has_bytes("out", BOTH)

    def test_a_source_file(self) -> None:
        self.file("out", SHIPPED)
        self.expect_refusal("merge shipped.sym out crash/spool.c", "archive 1", "BadMagic at 0", "crash/spool.c")
        self.has_bytes("out", SHIPPED)

    def test_an_archive_that_turns_out_to_be_cut(self) -> None:
        self.file("cut.sym", LINKED[:-1])
        self.expect_refusal("merge shipped.sym out cut.sym", "archive 1", "Truncated at 45279", "cut.sym")
        self.is_absent("out")
        self.assertEqual(list(self.folder.glob(".symarch-*")), [])


class Retire(CrashCase):
    """A slice is withdrawn, and its bytes are gone."""

    def test_a_dsym(self) -> None:
        self.expect(
            f"retire both.sym out {WITHDRAW_DSYM}",
            prints=[f"retired {slice_text(crash.DSYM_ARM64)}", "archive: 8 records, 78082 bytes"],
        )
        self.has_bytes("out", RETIRED)

    def test_one_of_two_that_differ(self) -> None:
        self.expect(
            f"retire retired.sym out {ARM64} {digest_of(crash.SHIPPED_ARM64)}",
            prints=[f"retired {slice_text(crash.SHIPPED_ARM64)}", "archive: 8 records, 61162 bytes"],
        )
        self.expect(f"symbolicate out {ARM64} {ARM64_CRASH}", prints=ARM64_NAMES)


class Out(CrashCase):
    """What is at OUT is replaced if nothing of it is lost, and stays as it was if the command is refused."""

    def test_an_archive_that_the_new_one_has(self) -> None:
        self.file("out", SHIPPED)
        self.expect("migrate both.sym out", prints="archive: 8 records, 89128 bytes")
        self.has_bytes("out", BOTH)

    def test_an_archive_of_which_something_would_be_lost(self) -> None:
        self.file("out", BOTH)
        for words, lost in (("migrate shipped.sym out", 4), ("new out", 8)):
            hint = f"out, there, and has {lost} records that the new archive neither has nor retires"
            self.expect_refusal(words, "output", "cannot replace", hint)
        self.has_bytes("out", BOTH)

    def test_an_image(self) -> None:
        image = (crash.CRASH / "spool-1").read_bytes()
        self.file("out", image)
        hint = "out, there, and neither empty nor one of symarch's files"
        self.expect_refusal("admit empty.sym out crash/spool-1.dSYM", "output", "cannot replace", hint)
        self.has_bytes("out", image)

    def test_a_limit_on_the_size_of_files(self) -> None:
        def limit() -> None:
            signal.signal(signal.SIGXFSZ, signal.SIG_IGN)
            resource.setrlimit(resource.RLIMIT_FSIZE, (4096, 4096))

        ended = self.call(*"merge shipped.sym out linked.sym".split(), preexec_fn=limit)
        self.assertEqual((ended.status, ended.lines), (2, []))
        self.assertRegex(ended.error_lines[0], r"^symarch: output: failed after [0-9]+ bytes$")
        self.assertEqual(ended.error_lines[1:], ["  output is out: File too large (os error 27)"])
        self.is_absent("out")
        self.assertEqual(list(self.folder.glob(".symarch-*")), [])

    def test_an_input_by_whatever_path(self) -> None:
        self.file("input.sym", SHIPPED)
        self.file("linked.ops", operations(crash.LINKED))
        (self.folder / "link.sym").symlink_to("input.sym")
        os.link(self.folder / "input.sym", self.folder / "second.sym")
        for words in (
            "merge linked.sym ./input.sym linked.sym input.sym",
            "merge input.sym link.sym linked.sym",
            "apply input.sym second.sym linked.ops",
        ):
            self.expect_refusal(words, "output", "cannot create", f"{words.split()[2]}, the file of an input")
        self.has_bytes("input.sym", SHIPPED)
