"""The files of `symarch-keep get`: the bytes that were added, under their names, universal files, conflicts, kills at
each step. Existing files stay. Expected files are made here and by tests.support, from mach-o/fat.h and
docs/FILES.md."""
import hashlib
import itertools
import os
import pathlib
import plistlib
import shutil
import stat
import struct
import subprocess
import sys
from typing import Any, Callable, Dict, Iterable, List, Optional, Sequence, Tuple

from .support.case_slices import slices_of_cases
from .support.cases import Without, is_done, powerless_over, same
from .support.kills import status_where_killed
from .support.made_dsyms import KEPT, SOURCES
from .support.made_images import ARM64, ARM64E, X86_64, Arch, archive, image, key_of, line, slice_text, slice_words
from .support.made_images import slices_in
from .support.program import TOP
from .support.rooms import RoomCase, change, keep, levelled, levels_of, today_of

sys.path.insert(0, str(TOP / "tools"))
from symarch_tools.formats import universal_files  # noqa: E402
from symarch_tools.formats.indexes import IndexRow  # noqa: E402

CRASH = TOP / "examples" / "crash"
DSYM = 10
DWARF = "Contents/Resources/DWARF"
SHOP = {"CFBundleIdentifier": "com.example.shop", "CFBundleShortVersionString": "2.1", "CFBundleVersion": "210"}
PAGE = 1 << 14
# What begins and ends the name of a folder in which a call works.
ROOM = ".symarch-keep-*.making"


def companion(number: int, arch: Arch = X86_64, more: bytes = b"") -> bytes:
    return image(number, arch, DSYM, more)


def uuid_word(made: bytes) -> str:
    return slice_words(made)[0]


def universal_of(slices: Sequence[bytes], entry: str = ">5I", magic: int = 0xCAFEBABE) -> bytes:
    """The universal file of these slices, in the order of their architectures, each at a multiple of 4096, or of 16384
    for arm64."""
    slices = sorted(slices, key=lambda made: key_of(made)[16:])
    table, whole = struct.pack(">II", magic, len(slices)), bytes(8 + struct.calcsize(entry) * len(slices))
    for made in slices:
        cpu = struct.unpack_from("<II", made, 4)
        power = 14 if cpu[0] & 0xFF == 12 else 12
        whole += bytes(-len(whole) % (1 << power))
        table += struct.pack(entry, *cpu, len(whole), len(made), power, *([] if entry == ">5I" else [0]))
        whole += made
    return table + whole[len(table) :]


def in_bundle(name: str) -> str:
    return f"{name}.dSYM/{DWARF}/{name}"


def names_of(lines: Iterable[str]) -> bytes:
    """ARCHIVE.builds of these lines, from the day on."""
    sums = (f"{hashlib.sha256(one.encode()).hexdigest()[:16]} {one}\n" for one in sorted(lines))
    text = f"symarch-keep 1\n{''.join(sums)}"
    return f"{text}sha256 {hashlib.sha256(text.encode()).hexdigest()}\n".encode()


class GetCase(RoomCase):
    """Cases over `get` into the folder `out`."""

    out: pathlib.Path

    def setUp(self) -> None:
        super().setUp()
        self.out = self.folder / "out"

    def get(
        self, *made: bytes, words: Sequence[Any] = (), status: int = 0, **more: Any
    ) -> Tuple[List[str], List[str]]:
        """Gets the UUIDs of these images."""
        names = map(uuid_word, made)
        return self.room.call("get", *words, self.room.archive, *names, "--to", "out", status=status, **more)

    def got(self, made: bytes, name: str, word: str = "got") -> str:
        return line(word, made, f"out/{name}")

    @staticmethod
    def no_dsym(made: bytes) -> str:
        return f"symarch-keep: {uuid_word(made)} has no dSYM"

    def has(self, files: Dict[str, bytes]) -> None:
        """Fails where the folder has other files, but for lists of bundles."""
        found = (path for path in self.out.rglob("*") if not path.is_dir() and path.name != "Info.plist")
        same("files", {str(path.relative_to(self.out)): path.read_bytes() for path in found}, files)

    def add(self, name: str, *slices: bytes, stated: Optional[Dict[str, str]] = None) -> None:
        """Adds a file of these slices, in a bundle if something is stated of it."""
        text = slices[0] if len(slices) == 1 else universal_of(slices)
        if stated is None:
            self.room.file(name, text)
            self.room.add(name)
            return
        folder = f"{name}.{'dSYM' if slices[0][12] == DSYM else 'app'}"
        self.room.file(f"{folder}/{DWARF}/{name}", text)
        self.room.file(f"{folder}/Contents/Info.plist", plistlib.dumps(stated))
        self.room.add(folder)


class Bytes(GetCase):
    """Bytes that came in are those that come out, whatever they are."""

    seconds = 20

    def test_each_slice_by_its_digest(self) -> None:
        files = [*CRASH.glob("spool-*"), *(SOURCES / f"{it.name}.dsym" for it in KEPT), TOP / "examples/first/image"]
        self.room.add(*files)
        made = sorted({one for path in files for one in slices_in(path.read_bytes())})
        self.assertGreater(len(made), 15)
        for number, one in enumerate(made):
            words = ["--digest", slice_words(one)[2], "--to", f"out/{number}", self.room.archive, uuid_word(one)]
            said, _ = self.room.call("get", *words)
            (path,) = [it.split(" ", 4)[4] for it in said if it.startswith(f"got {slice_text(one)} ")]
            self.assertIn(one, slices_in((self.folder / path).read_bytes()), path)

    def test_slices_of_the_cases(self) -> None:
        """Of each UUID, architecture and kind some, from the shortest to the longest."""
        every = slices_of_cases()
        chosen = {key: made[:: -(-len(made) // 6)][:5] + made[-1:] for key, made in every.items()}
        for number, one in enumerate(sorted({one for made in chosen.values() for one in made})):
            self.room.file(f"in/{number}", one)
        self.room.add("in")
        self.assertGreater(len(every), 15)
        for turn in range(6):
            made = [slices[min(turn, len(slices) - 1)] for slices in chosen.values()]
            words = [it for one in made for it in ("--digest", slice_words(one)[2])]
            names = sorted({uuid_word(one) for one in made})
            said, _ = self.room.call("get", *words, self.room.archive, *names, "--to", f"out/{turn}")
            paths = {it.rpartition(" ")[0]: it.rpartition(" ")[2] for it in said}
            for one in made:
                path = self.folder / paths[f"got {slice_text(one)}"]
                self.assertIn(one, slices_in(path.read_bytes()))

    def test_a_dsym_and_its_image(self) -> None:
        """The dSYM is in a bundle, and the image beside it."""
        made = companion(1, more=b"dwarf"), image(1, more=b"code")
        self.add("Shop", made[0], stated=SHOP)
        self.add("Shop", made[1])
        said, errors = self.get(made[0])
        same("lines", (said, errors), ([self.got(made[0], in_bundle("Shop")), self.got(made[1], "Shop")], []))
        self.has({in_bundle("Shop"): made[0], "Shop": made[1]})

    def test_an_image_alone(self) -> None:
        self.add("spool", image(1))
        same("lines", self.get(image(1)), ([self.got(image(1), "spool")], [self.no_dsym(image(1))]))
        self.has({"spool": image(1)})

    def test_universal_files(self) -> None:
        """What `lipo` made comes out byte for byte."""
        names = [f"spool-{number}{ending}" for number in (1, 2) for ending in ("", ".dSYM")]
        self.room.add(*(CRASH / name for name in names))
        wanted = {}
        for name in names:
            wanted[in_bundle(name) if name.endswith("M") else name] = (CRASH / name).read_bytes()
        self.get(*(slices_in((CRASH / name).read_bytes())[0] for name in names))
        self.has(wanted)

    def test_large_and_small(self) -> None:
        made = [companion(1), companion(2, more=os.urandom(5 << 20))]
        self.add("small", made[0])
        self.add("large", made[1])
        self.get(*made)
        self.has({in_bundle("small"): made[0], in_bundle("large"): made[1]})

    def test_rights(self) -> None:
        """Those that the creation of files gives."""
        self.add("Shop", companion(1), companion(1, ARM64))
        self.add("Shop", image(1))
        self.get(image(1), preexec_fn=lambda: os.umask(0o027))
        modes = {stat.S_IMODE(path.stat().st_mode) for path in self.out.rglob("*") if path.is_dir()}
        files = {stat.S_IMODE(path.stat().st_mode) for path in self.out.rglob("*") if path.is_file()}
        same("rights", (modes, files), ({0o750}, {0o640}))


class Universal(GetCase):
    """The slices of a build are in one file."""

    seconds = 12

    def test_architectures_of_a_uuid(self) -> None:
        made = [companion(1, ARM64E, b"arm"), companion(1, X86_64, b"x86"), companion(1, ARM64, b"a")]
        self.add("Shop", *made)
        said, _ = self.get(made[0])
        same("lines", said, [self.got(one, in_bundle("Shop")) for one in sorted(made, key=key_of)])
        self.has({in_bundle("Shop"): universal_of(made)})

    def test_uuids_of_a_build(self) -> None:
        """Whichever of them is asked for, or both."""
        made = [companion(1, ARM64, b"arm"), companion(2, X86_64, b"x86")]
        for stated, asked in ((None, made[:1]), (SHOP, made[1:]), (SHOP, made), (SHOP, [*made[::-1], *made])):
            self.room.begin_anew()
            self.add("Shop", *made, stated=stated)
            self.get(*asked)
            self.has({in_bundle("Shop"): universal_of(made)})
            shutil.rmtree(self.out)

    def test_builds_of_one_version(self) -> None:
        """Nothing says which belong together, so each is alone."""
        made = [companion(1, ARM64, b"arm"), companion(2, X86_64, b"x86"), companion(3, ARM64, b"new")]
        self.add("Shop", *made[:2], stated=SHOP)
        self.add("Shop", made[2], stated=SHOP)
        self.get(made[0])
        self.has({in_bundle("Shop"): made[0]})

    def test_builds_of_other_versions(self) -> None:
        made = [companion(1, ARM64, b"arm"), companion(2, X86_64, b"x86")]
        self.add("Shop", made[0], stated=SHOP)
        self.add("Shop", made[1], stated={**SHOP, "CFBundleVersion": "211"})
        self.get(made[0])
        self.has({in_bundle("Shop"): made[0]})
        # Both are called alike.
        _, errors = self.get(*made, status=2)
        told = f"symarch-keep: out/Shop.dSYM: is there, and has other bytes than {slice_text(made[1])}"
        same("errors", errors, [told])
        self.has({in_bundle("Shop"): made[0]})

    def test_builds_of_other_days(self) -> None:
        made = [companion(1, ARM64), companion(2, X86_64)]
        self.room.archive.write_bytes(archive(made))
        days = zip(("2026-01-01", "2026-01-02"), made)
        self.room.file("site.sym.builds", names_of(f"{day} {slice_text(one)} a 1 1 Shop" for day, one in days))
        self.get(made[0])
        self.has({in_bundle("Shop"): made[0]})

    def test_images_of_a_build(self) -> None:
        """An image is put there if its UUID is asked for."""
        made = [companion(1, ARM64, b"arm"), companion(2, X86_64, b"x86")]
        self.add("Shop", *made, stated=SHOP)
        self.add("Shop", image(2), stated=SHOP)
        self.get(made[0])
        self.has({in_bundle("Shop"): universal_of(made)})
        self.get(made[1])
        self.has({in_bundle("Shop"): universal_of(made), "Shop": image(2)})

    def test_above_four_gibibytes(self) -> None:
        """An offset that takes more than 32 bits has a table of the other kind."""
        sizes = [(1 << 32) - 2 * PAGE, PAGE - 1, 5]
        entries = [b"\2" + key_of(image(1, (12, at))) + bytes(32) for at in range(len(sizes))]
        rows = [IndexRow(entry, 1, 0, 33 + size) for entry, size in zip(entries, sizes)]
        narrow, wide = (universal_files.Layout(rows[:count]) for count in (2, 3))
        same("kinds", (narrow.is_wide, wide.is_wide), (False, True))
        same("places", [place.at for place in wide.places], [PAGE, (1 << 32) - PAGE, 1 << 32])
        same("size", wide.size, (1 << 32) + 5)


class Wide(GetCase):
    """A universal file with entries of 64 bits, where 10000 bytes are too many for others."""

    def test_its_bytes(self) -> None:
        tool = self.folder / "wide-keep"
        tools = os.path.dirname(os.path.realpath(keep))
        lines = f"import sys\nsys.path.insert(0, {tools!r})\nfrom symarch_tools.formats import universal_files\n"
        lines += "universal_files.MOST_NARROW = 10000\nfrom symarch_tools.keep import main\nsys.exit(main())\n"
        tool.write_text(f"#!/usr/bin/env -S python3 -BIS\n{lines}")
        tool.chmod(0o755)
        made = [companion(1, X86_64, bytes(9000)), companion(1, ARM64, b"arm")]
        self.add("Shop", *made)
        self.room.tool = str(tool)
        self.get(made[0])
        self.has({in_bundle("Shop"): universal_of(made, ">IIQQII", 0xCAFEBABF)})
        same("again", self.get(made[0])[0], [self.got(one, in_bundle("Shop"), "known") for one in made])
        said, _ = self.room.call("add", self.folder / "other.sym", "out")
        same("lines of add", said, [line("added", one, f"out/{in_bundle('Shop')}") for one in made])


class Names(GetCase):
    """A file is called as it was, if a file in FOLDER may be called so."""

    seconds = 20

    def test_of_no_name(self) -> None:
        self.room.archive.write_bytes(archive([companion(1), image(2)]))
        self.get(image(1), image(2))
        names = [uuid_word(image(number)) for number in (1, 2)]
        self.has({in_bundle(names[0]): companion(1), names[1]: image(2)})

    def test_names_that_lead_elsewhere(self) -> None:
        """They are not taken, whatever ARCHIVE.builds says, and no file is made that is not in FOLDER."""
        before = sorted(os.listdir(self.folder))
        bad = ["..", ".", "../up", "a/b", "/root/up", "a\\x00b", "n" * 251, "..\\x2fup", "\\x2f"]
        made = [companion(number) for number in range(len(bad))]
        self.room.archive.write_bytes(archive([*made, *(image(number) for number in range(len(bad)))]))
        lines = [f"2026-01-01 {slice_text(one)} a 1 1 {name}" for one, name in zip(made, bad)]
        self.room.file("site.sym.builds", names_of(lines))
        self.get(*made)
        names = [uuid_word(one) for one in made]
        bundles = {in_bundle(name): one for name, one in zip(names, made)}
        self.has({**bundles, **{name: image(number) for number, name in enumerate(names)}})
        same("made", sorted(os.listdir(self.folder)), sorted([*before, "out", "site.sym", "site.sym.builds"]))

    def test_names_of_files_beside_an_archive(self) -> None:
        """In its folder none of them is made."""
        endings = ("today", "1", "lock", "lost", "idx.next", "making-it", "log")
        made = [image(number) for number in range(len(endings))]
        self.room.archive.write_bytes(archive([*made, image(20)]))
        lines = [f"2026-01-01 {slice_text(one)} ? ? ? site.sym.{it}" for one, it in zip(made, endings)]
        self.room.file("site.sym.builds", names_of([*lines, f"2026-01-01 {slice_text(image(20))} ? ? ? site.2"]))
        self.room.call("get", self.room.archive, *map(uuid_word, [*made, image(20)]), "--to", ".")
        wanted = ["site.sym", "site.sym.builds", "site.2", *map(uuid_word, made)]
        same("files", sorted(os.listdir(self.folder)), sorted(wanted))

    def test_names_of_all_characters(self) -> None:
        """Bytes that are no UTF-8, line ends, quotes and the longest one are those of a file."""
        names = [b"\xff\xfe x", b"a\nb", b"--to", b"'$(x)\"&<", "sch\u00f6n".encode(), b"n" * 250]
        for number, name in enumerate(names):
            self.room.file(b"in/%d/" % number + name, companion(number))
        self.room.add("in")
        said, _ = self.get(*(companion(number) for number in range(6)))
        same("lines", len(said), 6)
        found = sorted(os.listdir(os.fsencode(self.out)))
        same("bundles", found, sorted(name + b".dSYM" for name in names))
        for path in self.out.glob("*.dSYM/Contents/Info.plist"):
            stated = plistlib.loads(path.read_bytes())["CFBundleIdentifier"]
            self.assertTrue(stated.startswith("com.apple.xcode.dsym."), stated)

    def test_the_list_of_a_bundle(self) -> None:
        """It states what was stated, so names are kept as they were if the bundle is added."""
        self.add("Shop", companion(1), companion(2, ARM64), stated=SHOP)
        self.get(companion(1))
        stated = plistlib.loads((self.out / "Shop.dSYM/Contents/Info.plist").read_bytes())
        same("identifier", stated.pop("CFBundleIdentifier"), "com.apple.xcode.dsym.com.example.shop")
        same("others", {key: stated[key] for key in SHOP if key in stated}, dict(list(SHOP.items())[1:]))
        same("kind", stated["CFBundlePackageType"], "dSYM")
        self.room.call("add", self.folder / "other.sym", "out")
        listed = [self.room.call("list", self.folder / name)[0] for name in ("site.sym", "other.sym")]
        same("lines of list", listed[0], listed[1])

    def test_damaged_names(self) -> None:
        """Those that are not damaged count, and the rest is said."""
        self.add("Shop", companion(1))
        self.add("Stop", companion(2))
        names = pathlib.Path(f"{self.room.archive}.builds")
        change(names, names.read_bytes().index(b" Stop") + 2)
        _, errors = self.get(companion(1), companion(2), status=2)
        same("errors", [it.partition(": ")[2][:21] for it in errors], [f"{names}: line"[:21]])
        self.has({in_bundle("Shop"): companion(1), in_bundle(uuid_word(companion(2))): companion(2)})


class Several(GetCase):
    """Of several slices that answer none is chosen, but by --digest."""

    seconds = 12

    def refused(self, *rows: bytes, told: str) -> None:
        said, errors = self.get(rows[0], status=1)
        errors = [it for it in errors if it != self.no_dsym(rows[0])]
        same("lines", said, sorted(f"conflict {slice_text(one)}" for one in rows))
        words = " ".join(slice_words(rows[0])[:2])
        same("errors", errors, [f"symarch-keep: {words}: {len(rows)} slices answer, and {told}; choose by --digest"])

    def test_dsyms(self) -> None:
        made = [companion(1, more=more) for more in (b"a", b"b", b"c")]
        self.room.make_many(3, folder="others", first=5)
        for number, one in enumerate(made):
            self.add(f"dSYM-{number}", one)
        self.refused(*made, told="none of them is written")
        self.has({})
        self.get(made[0], words=["--digest", slice_words(made[1])[2].upper()])
        self.has({in_bundle("dSYM-1"): made[1]})

    def test_images(self) -> None:
        self.add("spool", image(1, more=b"a"))
        self.add("spool", image(1, more=b"b"))
        self.refused(image(1, more=b"a"), image(1, more=b"b"), told="none of them is written")
        self.has({})

    def test_images_beside_a_dsym(self) -> None:
        """The dSYM answers, so this is no conflict."""
        self.add("spool", companion(1))
        self.add("spool", image(1, more=b"a"))
        self.add("spool", image(1, more=b"b"))
        said, errors = self.get(companion(1))
        same("lines", said, [self.got(companion(1), in_bundle("spool"))])
        words = " ".join(slice_words(image(1))[:2])
        told = f"{words}: 2 slices answer, and none of them is put next to its dSYM; choose by --digest"
        same("errors", errors, [f"symarch-keep: {told}"])
        self.has({in_bundle("spool"): companion(1)})
        self.get(companion(1), words=["--digest", slice_words(image(1, more=b"b"))[2]])
        self.has({in_bundle("spool"): companion(1), "spool": image(1, more=b"b")})

    def test_of_another_architecture_of_the_build(self) -> None:
        """It was not asked for, and is left out."""
        made = [companion(1, ARM64), companion(2, X86_64)]
        self.add("Shop", *made, stated=SHOP)
        self.add("Shop", companion(2, X86_64, b"b"), stated=SHOP)
        self.get(made[0])
        self.has({in_bundle("Shop"): made[0]})
        shutil.rmtree(self.out)
        self.refused(made[1], companion(2, X86_64, b"b"), told="none of them is written")

    def test_the_rest_is_got(self) -> None:
        self.add("Shop", companion(1, more=b"a"))
        self.add("Shop", companion(1, more=b"b"))
        self.add("Stop", companion(2))
        self.get(companion(1), companion(2), status=1)
        self.has({in_bundle("Stop"): companion(2)})


class Absent(GetCase):
    """What is not held is said, and the rest is got."""

    seconds = 8

    def test_uuids_and_digests(self) -> None:
        self.add("Shop", companion(1))
        digest = slice_words(image(3))[2]
        said, errors = self.get(image(2), companion(1), words=["--digest", digest], status=1)
        same("lines", said, [self.got(companion(1), in_bundle("Shop"))])
        wanted = [f"the archive has no {uuid_word(image(2))}", f"no slice of these UUIDs has the DIGEST {digest}"]
        same("errors", errors, [f"symarch-keep: {it}" for it in wanted])

    def test_nothing_is_made_of_nothing(self) -> None:
        self.add("Shop", companion(1))
        self.get(image(2), status=1)
        same("folder", self.out.exists(), False)

    def test_what_is_retired(self) -> None:
        """In whichever file."""
        self.add("Shop", companion(1), image(1, ARM64))
        self.room.call("fold", self.room.archive)
        self.room.call("retire", self.room.archive, *slice_words(companion(1)))
        said, _ = self.get(companion(1))
        same("lines", said, [self.got(image(1, ARM64), "Shop")])
        self.room.call("retire", self.room.archive, *slice_words(image(1, ARM64)))
        _, errors = self.get(companion(1), status=1)
        same("errors", errors, [f"symarch-keep: the archive has no {uuid_word(image(1))}"])

    def test_words_of_another_form(self) -> None:
        self.add("Shop", companion(1))
        name = uuid_word(companion(1))
        for words, told in (
            (["get", "site.sym", "4c4c", "--to", "out"], "UUID is `4c4c`: expected 32 hex digits"),
            (["get", "--digest", "4c", "site.sym", name, "--to", "out"], "DIGEST is `4c`: expected 64 hex digits"),
            (["get", name, "site.sym", "--to", "out"], f"{name} is no archive, and ARCHIVE is first: "
                                                       f"symarch-keep get --to out site.sym {name}"),
        ):
            _, errors = self.room.call(*words, status=3)
            self.assertTrue(errors[0].startswith(f"symarch-keep: {told}"), errors)
        _, errors = self.room.call("get", "site.sym", name, status=3)
        self.assertIn("--to", errors[-1])
        _, errors = self.room.call("get", "none.sym", name, "--to", "out", status=2)
        told = "none.sym: No such file; symarch-keep add makes an archive"
        same("errors", errors, [f"symarch-keep: {told}"])
        same("folder", self.out.exists(), False)


class Files(GetCase):
    """An archive of several files is got from as one."""

    seconds = 12

    def test_levels(self) -> None:
        self.room.tool = levelled(self.folder)
        made = [companion(number, more=bytes(size)) for number, size in enumerate((60000, 4000, 1000, 10))]
        for number, one in enumerate(made):
            self.add(f"it-{number}", one)
            if number < 3:
                self.room.call("fold", self.room.archive)
        self.add("it-0", image(0))
        self.assertGreater(len(levels_of(self.room.archive)), 1)
        self.assertGreater(today_of(self.room.archive).stat().st_size, 17)
        self.get(*made)
        bundles = {in_bundle(f"it-{number}"): one for number, one in enumerate(made)}
        self.has({**bundles, "it-0": image(0)})

    def test_one_build_in_several(self) -> None:
        """A slice that stands in two of them is one."""
        made = [companion(1, ARM64), companion(1, X86_64)]
        self.room.make_many(3, more=bytes(900), first=10)
        self.room.add("many")
        self.add("Shop", made[0])
        self.room.call("fold", self.room.archive)
        self.add("Shop", made[1])
        self.get(made[0])
        self.has({in_bundle("Shop"): universal_of(made)})
        shutil.rmtree(self.out)
        self.room.file("today", archive([*made]))
        self.room.begin_anew(archive([made[0], image(5)]))
        shutil.copy(self.folder / "today", today_of(self.room.archive))
        self.get(made[0])
        self.has({in_bundle(uuid_word(made[0])): universal_of(made)})

    def test_without_an_index(self) -> None:
        """Nothing is made beside the archive."""
        self.room.archive.write_bytes(archive([companion(1), companion(1, ARM64), image(2)]))
        before = sorted(os.listdir(self.folder))
        self.get(companion(1))
        self.has({in_bundle(uuid_word(image(1))): universal_of([companion(1), companion(1, ARM64)])})
        same("made", sorted(os.listdir(self.folder)), sorted([*before, "out"]))

    def test_of_version_1(self) -> None:
        """It has slices that are retired, which are not got."""
        self.room.archive.write_bytes(archive([companion(1), image(2)], [image(2)], b"MSYMARC1"))
        _, errors = self.get(companion(1), image(2), status=1)
        same("errors", errors, [f"symarch-keep: the archive has no {uuid_word(image(2))}"])
        self.has({in_bundle(uuid_word(image(1))): companion(1)})


class Changed(GetCase):
    """What an index does not vouch for is not got."""

    seconds = 12

    def setUp(self) -> None:
        super().setUp()
        self.made = [companion(number, more=b"%d" % number * 100) for number in range(3)]
        for number, one in enumerate(self.made):
            self.add(f"it-{number}", one)
        self.room.call("fold", self.room.archive)

    def test_a_slice(self) -> None:
        """The others are got."""
        change(self.room.archive, self.room.archive.read_bytes().index(b"1" * 100) + 50)
        said, errors = self.get(*self.made, status=2)
        told = f"{slice_text(self.made[1])} changed since it was added: run symarch-keep check {self.room.archive}"
        same("errors", errors, [f"symarch-keep: {told}"])
        same("lines", said, [self.got(self.made[number], in_bundle(f"it-{number}")) for number in (0, 2)])
        self.has({in_bundle(f"it-{number}"): self.made[number] for number in (0, 2)})

    def test_another_slice(self) -> None:
        """What is not asked for is not read."""
        change(self.room.archive, self.room.archive.read_bytes().index(self.made[1]))
        for _ in range(2):
            self.get(self.made[0], self.made[2])
            self.has({in_bundle(f"it-{number}"): self.made[number] for number in (0, 2)})
            self.add("lately", image(7))

    def test_an_index(self) -> None:
        index = pathlib.Path(f"{self.room.archive}.idx")
        change(index, index.stat().st_size - 20)
        _, errors = self.get(*self.made, status=2)
        self.assertIn("site.sym.idx is not as symarch-keep wrote it: run symarch-keep check", errors[0])
        same("folder", self.out.exists(), False)

    def test_an_archive_that_was_written_since(self) -> None:
        with open(self.room.archive, "ab") as file:
            file.write(b"x")
        _, errors = self.get(*self.made, status=2)
        self.assertIn("when its index was written: run symarch-keep check", errors[0])
        same("folder", self.out.exists(), False)


class There(GetCase):
    """What is there stays as it is."""

    seconds = 16

    def setUp(self) -> None:
        super().setUp()
        self.made = [companion(1, more=b"dwarf"), companion(1, ARM64), image(1)]
        self.add("Shop", *self.made[:2])
        self.add("Shop", self.made[2])
        self.bundle = self.out / "Shop.dSYM"

    def state(self) -> List[Tuple[str, int, int, bytes]]:
        """Each file and folder of `out`, and which one it is."""
        found = []
        for path in sorted(self.out.rglob("*")):
            seen = path.lstat()
            text = path.read_bytes() if stat.S_ISREG(seen.st_mode) else b""
            found.append((str(path), seen.st_ino, seen.st_mtime_ns, text))
        return found

    def test_the_same_bytes(self) -> None:
        """Also in a bundle of another Info.plist, with other files."""
        self.get(image(1))
        (self.bundle / "Contents/Info.plist").write_bytes(b"mine")
        (self.bundle / "Contents/Resources/notes").write_bytes(b"mine")
        before = self.state()
        said, errors = self.get(image(1))
        ordered = [self.got(one, in_bundle("Shop"), "known") for one in (self.made[0], self.made[1])]
        same("lines", (said, errors), ([*ordered, self.got(image(1), "Shop", "known")], []))
        same("files", self.state(), before)

    def test_other_bytes(self) -> None:
        """At each place of a universal file, a byte more, or less."""
        self.get(image(1))
        path = self.out / in_bundle("Shop")
        whole = path.read_bytes()
        places = (0, 7, 9, 20, 30, 60, PAGE - 1, PAGE, len(whole) - 1)
        others = (whole[:at] + b"\x55" + whole[at + 1 :] for at in places)
        for text in [*others, whole[:-1], whole + b"\0", b"", whole[PAGE:]]:
            path.write_bytes(text)
            before = self.state()
            said, errors = self.get(image(1), status=2)
            told = f"symarch-keep: out/Shop.dSYM: is there, and has other bytes than {slice_text(self.made[0])}"
            same("errors", errors, [told])
            same("lines", said, [self.got(image(1), "Shop", "known")])
            same("files", self.state(), before)

    def test_other_kinds_of_files(self) -> None:
        """A folder, a pipe, a link that leads nowhere, and an empty file, in the place of a bundle, and in one."""
        makers: List[Callable[[pathlib.Path], object]] = [
            lambda path: path.mkdir(),
            lambda path: os.mkfifo(path),
            lambda path: path.symlink_to("nowhere"),
            lambda path: path.write_bytes(b""),
        ]
        for make, path in itertools.product(makers, (self.bundle, self.out / in_bundle("Shop"))):
            path.parent.mkdir(parents=True)
            make(path)
            (self.out / "Shop").write_bytes(b"mine")
            before = self.state()
            said, errors = self.get(image(1), status=2)
            same("lines, errors", (said, len(errors)), ([], 2))
            same("files", self.state(), before)
            shutil.rmtree(self.out)

    def test_a_link_to_the_same(self) -> None:
        self.get(image(1))
        self.bundle.rename(self.folder / "elsewhere")
        self.bundle.symlink_to(self.folder / "elsewhere")
        said, _ = self.get(image(1))
        same("words", [it.split(" ")[0] for it in said], ["known"] * 3)


class Folder(GetCase):
    """FOLDER is made; and where nothing can be written there, that is said."""

    seconds = 12

    def setUp(self) -> None:
        super().setUp()
        self.add("Shop", companion(1), companion(1, ARM64))

    def test_folders_that_are_made(self) -> None:
        name = uuid_word(image(1))
        self.room.call("get", self.room.archive, name, "--to", os.fsencode(self.folder) + b"/a/\xff b/")
        found = [os.fsencode(path) for path in (self.folder / "a").rglob("Shop")]
        same("files", found, [os.fsencode(self.folder) + b"/a/\xff b/" + in_bundle("Shop").encode()])

    def test_a_file(self) -> None:
        self.out.write_bytes(b"mine")
        _, errors = self.get(companion(1), status=2)
        same("errors", errors, ["symarch-keep: out is no folder"])
        same("file", self.out.read_bytes(), b"mine")

    def test_without_rights(self) -> None:
        before = self.rights()
        _, errors = self.get(companion(1), status=2, before=before)
        same("errors", errors, ["symarch-keep: out: Permission denied"])
        self.out.chmod(0o755)
        self.get(companion(1))
        self.out.chmod(0o555)
        said, _ = self.get(companion(1), before=before)
        same("words", [it.split(" ")[0] for it in said], ["known", "known"])

    def rights(self) -> List[str]:
        self.out.mkdir()
        (self.out / "closed").write_bytes(b"")
        (self.out / "closed").chmod(0)
        before = powerless_over(self.out / "closed")
        (self.out / "closed").unlink()
        self.out.chmod(0o555)
        return before

    def test_a_full_disk(self) -> None:
        """Nothing is left, and once there is room all is got; the first file that fits too."""
        self.add("Stop", companion(2))
        self.add("Large", companion(3, more=os.urandom(200 << 10)), companion(3, ARM64, os.urandom(90 << 10)))
        self.out.mkdir()
        if not is_done(["mount", "-t", "tmpfs", "-o", "size=256k", "none", self.out]):
            raise Without("a disk cannot be mounted")
        self.addCleanup(lambda: subprocess.run(["umount", self.out], check=True))
        said, errors = self.get(companion(3), companion(2), status=2)
        same("lines", said, [self.got(companion(2), in_bundle("Stop"))])
        told = "\n".join(errors)
        self.assertIn("No space left on device", told)
        self.assertNotIn(".making", told)
        same("left", os.listdir(self.out), ["Stop.dSYM"])


class Killed(GetCase):
    """A kill leaves a file whole or not there, and the next call goes on."""

    seconds = 30

    def setUp(self) -> None:
        super().setUp()
        self.made = companion(1), companion(1, ARM64)
        self.add("Shop", *self.made)
        self.add("Shop", image(1))
        self.files = {in_bundle("Shop"): universal_of(self.made), "Shop": image(1)}

    def test_before_each_step(self) -> None:
        words = ["get", self.room.archive, uuid_word(image(1)), "--to", "out"]
        steps, status, states = 0, -9, set()
        while status:
            steps += 1
            status = status_where_killed(self.room.start, steps, *words)
            self.assertIn(status, (0, -9))
            left = [path for path in self.out.glob("*") if not path.name.startswith(".symarch-keep-")]
            states.add(tuple(sorted(path.name for path in left)))
            for path in left:
                name = in_bundle("Shop") if path.is_dir() else "Shop"
                same(f"bytes after {steps} steps", (self.out / name).read_bytes(), self.files[name])
            self.get(image(1))
            self.has(self.files)
            same("left", list(self.out.glob(ROOM)), [])
            shutil.rmtree(self.out)
        self.assertGreater(steps, 15)
        same("states", states, {(), ("Shop.dSYM",), ("Shop", "Shop.dSYM")})

    def test_signals(self) -> None:
        """What was begun is removed."""
        for number in (2, 15):
            slow = self.room.program(f'[ "$1" != extract ] || kill -{number} $PPID\nexec "$symarch" "$@"')
            self.get(image(1), status=-number, environment=slow)
            same("left", os.listdir(self.out), [])

    def test_two_at_once(self) -> None:
        """Each of them has all in the end, and none removes what the other one works in."""
        slow = self.room.program('[ "$1" != extract ] || sleep 0.5\nexec "$symarch" "$@"')
        words = ["get", self.room.archive, uuid_word(image(1)), "--to", "out"]
        with self.room.start(*words, environment=slow) as one, self.room.start(*words, environment=slow) as other:
            told = [it.communicate() for it in (one, other)]
        same(f"statuses: {told}", (one.returncode, other.returncode), (0, 0))
        self.has(self.files)
        same("left", sorted(os.listdir(self.out)), ["Shop", "Shop.dSYM"])

    def test_what_has_such_a_name(self) -> None:
        """A file or a bundle that is called as what a kill leaves is none."""
        self.out.mkdir()
        (self.out / ".symarch-keep-it.making").write_bytes(b"mine")
        (self.out / ".symarch-keep-it.dSYM").mkdir()
        self.get(image(1))
        self.has({**self.files, ".symarch-keep-it.making": b"mine"})
        same("folder", (self.out / ".symarch-keep-it.dSYM").exists(), True)
