"""The names of builds in ARCHIVE.builds, and their exchange: hostile Info.plist files and lines, damage, kills.
Expected files are made by `support/builds.py`, from docs/FILES.md."""
import hashlib
import io
import os
import pathlib
import plistlib
import random
import re
import subprocess
import zipfile
from typing import Any, Dict, List, Optional, Sequence, Tuple

from .support.builds import BINARY, DAY, DSYM, DWARF, FIRST, SHOP, BuildsCase, builds, known, sha, tarred, today, union
from .support.builds import within, zipped
from .support.cases import Wrong, same
from .support.kills import Left, status_where_killed
from .support.made_images import EMPTY, archive, image, slice_words
from .support.rooms import bytes_of, today_of
from .support.sites import Site, bring_back, state_of


class Added(BuildsCase):
    """What `add` keeps: by the Info.plist of the innermost bundle that says something, and by the path."""

    seconds = 12

    def tree(self) -> Tuple[List[Tuple[str, bytes]], List[str]]:
        """The files of an Xcode archive and of others, by their names, and their lines."""
        made = [image(number) for number in range(9)]
        app, kit, phone = (f"Shop.xcarchive/{it}" for it in ("Shop.app/Contents", "Kit.framework", "Phone.app"))
        dsym, stated = "com.apple.xcode.dsym.", {"ApplicationProperties": {**SHOP, "CFBundleVersion": "9"}, "Name": "S"}
        phones = {"CFBundleIdentifier": "com.example.phone", "CFBundleVersion": "7", "CFBundleShortVersionString": 2.1}
        lists: List[Tuple[str, Dict[str, Any], Any]] = [
            (f"{app}/Info.plist", SHOP, plistlib.FMT_XML),
            (f"{kit}/Versions/A/Resources/Info.plist", {"CFBundleIdentifier": "com.example.kit"}, BINARY),
            (f"{phone}/Info.plist", phones, BINARY),
            ("Shop.xcarchive/Info.plist", stated, BINARY),
            ("a.dSYM/Contents/Info.plist", {**SHOP, "CFBundleIdentifier": f"{dsym}com.example.a"}, plistlib.FMT_XML),
            # Of no bundle.
            ("source/Info.plist", SHOP, plistlib.FMT_XML),
        ]
        files = [
            (f"{app}/MacOS/Shop", made[0], ("com.example.shop", "2.1", "210")),
            (f"{app}/Frameworks/lib.dylib", made[1], ("com.example.shop", "2.1", "210")),
            (f"{kit}/Versions/A/Kit", made[2], ("com.example.kit", "?", "?")),
            (f"{phone}/Phone", made[3], ("com.example.phone", "?", "7")),
            (f"Shop.xcarchive/dSYMs/Bare.dSYM/{DWARF}/Bare", made[4], ("com.example.shop", "2.1", "9")),
            (f"a.dSYM/{DWARF}/a b", made[5], ("com.example.a", "2.1", "210")),
            ("source/tool", made[6], ("?", "?", "?")),
        ]
        lines = [known(it, name.rpartition("/")[2].replace(" ", "\\x20"), *build) for name, it, build in files]
        # What is in an archive of another app.
        lines += [within(made[number], "com.example.shop", "2.1", "9") for number in (2, 3)]
        packed = [(name, plistlib.dumps(content, fmt=form)) for name, content, form in lists]
        # An image may stand before the Info.plist of its bundle, and after it.
        found = [(name, it) for name, it, _ in files]
        return found[:3] + packed + found[3:], lines

    def test_of_folders(self) -> None:
        found, lines = self.tree()
        for name, content in found:
            self.room.file(f"tree/{name}", content)
        self.room.add("tree")
        self.names(*lines)

    def test_of_packed_files(self) -> None:
        """They say what they would say unpacked, also where only dSYMs are taken of them."""
        found, lines = self.tree()
        for name, made in (("a.zip", zipped(found)), ("a.tgz", tarred(found)), ("b.zip", zipped(found[::-1]))):
            self.room.begin_anew()
            self.room.file(name, made)
            self.room.add(name)
            self.names(*lines)
            self.room.begin_anew()
            self.room.add(name, words=["--dsyms-only"])
            self.names(*(one for one in lines if one.endswith(("Bare", "a\\x20b"))))

    def test_of_one_path(self) -> None:
        """A path into a bundle is named by it, also through a link; standard input has no name."""
        self.bundle("x", image(1))
        self.bundle("y", image(3), "3.0")
        (self.folder / "latest").symlink_to(self.folder / "y/Shop.app.dSYM")
        self.room.add("latest")
        self.room.add(f"x/Shop.app.dSYM/{DWARF}/../DWARF/Shop")
        with self.room.start("add", self.room.archive, "-", stdin=subprocess.PIPE) as process:
            process.communicate(image(2))
        named = known(image(1), "Shop", "com.example.shop", "2.1", "210")
        self.names(named, known(image(2), "?"), known(image(3), "Shop", "com.example.shop", "3.0", "210"))

    def test_names_of_other_letters(self) -> None:
        """Each byte that is no ASCII letter stands as \\x and two digits; one that is too long is not known."""
        odd = {b"a b": "a\\x20b", b"\xff": "\\xff", "ä".encode(): "\\xc3\\xa4", b"\\x": "\\x5cx", b"\n": "\\x0a"}
        lines = []
        for number, (name, wanted) in enumerate(odd.items()):
            self.room.file(b"odd/" + name, image(number))
            lines.append(known(image(number), wanted))
        self.room.file("odd/a.app/Info.plist", plistlib.dumps({**SHOP, "CFBundleVersion": "x" * 256}))
        self.room.file("odd/a.app/a", image(9))
        self.room.add("odd")
        self.names(*lines, known(image(9), "a", "com.example.shop", "2.1", "?"))
        shown = {it.partition(" image ")[2] for it in self.listed()}
        same("names that are printed", shown, {"a b", "\\xff", "ä", "\\x5cx", "\\x0a", "a"})

    def test_what_is_known_gets_its_name(self) -> None:
        """A slice of before has no name until it is added again. Nothing else is touched, and after that nothing."""
        self.bundle("x", image(1, kind=DSYM))
        self.room.archive.write_bytes(archive([image(1, kind=DSYM)]))
        self.room.index()
        unknown = f"? ? ? ? {' '.join(slice_words(image(1, kind=DSYM))[:2])} 56 dsym ?"
        same("lines", self.listed(), [unknown])
        before = self.room.archive.stat().st_ino
        said, _ = self.room.add("x")
        same("word", said[0].split(" ")[0], "known")
        line = known(image(1, kind=DSYM), "Shop", "com.example.shop", "2.1", "210")
        self.names(line)
        same("archive", (self.room.archive.stat().st_ino, today_of(self.room.archive).exists()), (before, False))
        before = self.beside().stat().st_ino
        self.room.add("x")
        same("file", self.beside().stat().st_ino, before)

    def test_the_first_day_stays(self) -> None:
        self.bundle("x", image(1))
        build = ("Shop", "com.example.shop", "2.1", "210")
        self.room.add("x")
        for day, wanted in (("2020-02-29", "2020-02-29"), ("2999-01-01", today())):
            self.write(known(image(1), *build, day=day))
            self.room.add("x")
            self.names(known(image(1), *build, day=wanted))

    def test_what_does_not_go_in(self) -> None:
        """A slice that is refused or retired, and a dry run, leave no name."""
        self.room.archive.write_bytes(archive([], retired=[image(1)]))
        for number, made in enumerate((image(1), image(2)[:-1], image(3))):
            self.bundle(f"x/{number}", made)
        self.room.add("x", status=2, words=["--dry-run"])
        self.names()
        self.room.add("x", status=2)
        self.names(known(image(3), "Shop", "com.example.shop", "2.1", "210"))


class Hostile(BuildsCase):
    """An Info.plist that is damaged or hostile keeps nothing out, and says nothing."""

    seconds = 6

    def lists(self) -> Dict[str, bytes]:
        deep = b"<array>" * 5000 + b"</array>" * 5000
        xml = plistlib.dumps(SHOP)
        # A binary list whose only object is an array with itself in it, at any depth.
        numbers = (number.to_bytes(8, "big") for number in (1, 0, 10))
        itself = b"bplist00\xa1\0\x08" + bytes(6) + b"\1\1" + b"".join(numbers)
        entities = b'<?xml version="1.0"?><!DOCTYPE x [<!ENTITY a "aaaaaaaaaa"><!ENTITY b "&a;&a;&a;">]>'
        bomb = entities + xml[xml.index(b"<plist") :]
        many = plistlib.dumps(SHOP, fmt=BINARY)
        return {
            "empty": b"",
            "text": b"text",
            "cut": xml[:-40],
            "cut binary": plistlib.dumps(SHOP, fmt=BINARY)[:-10],
            "huge": plistlib.dumps({**SHOP, "more": "x" * (1 << 16)}),
            "deep": b"<plist>" + deep + b"</plist>",
            "deep binary": self.deep(),
            "itself": itself,
            "bomb": bomb.replace(b"com.example.shop", b"&b;"),
            "many objects": many[:-24] + (1 << 40).to_bytes(8, "big") + many[-16:],
            "array": plistlib.dumps(["CFBundleIdentifier"]),
            "number": plistlib.dumps({**SHOP, "CFBundleIdentifier": 7}),
            "list": plistlib.dumps({**SHOP, "CFBundleIdentifier": ["com.example.shop"]}, fmt=BINARY),
            "nothing": plistlib.dumps({**SHOP, "CFBundleIdentifier": ""}),
            "long": plistlib.dumps({**SHOP, "CFBundleIdentifier": "x" * 256}),
            "wide": xml.decode().encode("utf-16"),
            "properties": plistlib.dumps({"ApplicationProperties": "com.example.shop"}),
        }

    @staticmethod
    def deep() -> bytes:
        """A binary list of arrays in arrays."""
        count = 3000
        objects = b"".join(b"\xa1" + (number + 1).to_bytes(2, "big") for number in range(count)) + b"\x08"
        table = b"".join((8 + 3 * number).to_bytes(2, "big") for number in range(count + 1))
        trailer = bytes(6) + b"\2\2" + (count + 1).to_bytes(8, "big") + bytes(8) + (8 + len(objects)).to_bytes(8, "big")
        return b"bplist00" + objects + table + trailer

    def test_each(self) -> None:
        lists, lines, members = self.lists(), [], []
        for number, (name, text) in enumerate(lists.items()):
            members += [(f"{name}.app/tool", image(number)), (f"{name}.app/Info.plist", text)]
            lines.append(known(image(number), "tool"))
        for name, content in members:
            self.room.file(f"tree/{name}", content)
        os.makedirs(self.folder / "tree/folder.app/Info.plist")
        os.makedirs(self.folder / "tree/pipe.app")
        os.mkfifo(self.folder / "tree/pipe.app/Info.plist")
        for number, name in enumerate(("folder", "pipe"), len(lists)):
            self.room.file(f"tree/{name}.app/tool", image(number))
            lines.append(known(image(number), "tool"))
        self.room.add("tree")
        self.names(*lines)
        self.room.begin_anew()
        self.room.file("a.zip", zipped(members))
        self.room.file("a.tgz", tarred(members))
        self.room.add("a.zip")
        self.names(*lines[: len(lists)])
        self.room.add("a.tgz")
        self.names(*lines[: len(lists)])

    def test_a_damaged_member(self) -> None:
        """An Info.plist of a zip file whose sum is wrong keeps no other member out."""
        text = plistlib.dumps(SHOP)
        made = io.BytesIO()
        with zipfile.ZipFile(made, "w", zipfile.ZIP_STORED) as packed:
            packed.writestr("a.app/Info.plist", text)
            packed.writestr("a.app/tool", image(1))
        self.room.file("a.zip", made.getvalue().replace(text, text.replace(b"2.1", b"2.2")))
        self.room.add("a.zip")
        self.names(known(image(1), "tool"))


class Killed(BuildsCase):
    """Words that are killed before each of their steps leave whole files, and the next word what was to come."""

    seconds = 25

    def setUp(self) -> None:
        super().setUp()
        self.old, self.new = image(1, more=bytes(3000)), image(2)
        self.bundle("old", self.old)
        self.room.add("old")
        self.bundle("new", self.new, "3.0")
        self.before = [known(self.old, "Shop", "com.example.shop", "2.1", "210")]
        self.after = [*self.before, known(self.new, "Shop", "com.example.shop", "3.0", "210")]

    def is_before(self, step: str) -> bool:
        """Whether ARCHIVE.builds is as it was. It is that, or what it has to become."""
        came = self.beside().read_bytes()
        if came not in (builds(*self.before), builds(*self.after)):
            raise Wrong(f"killed before step {step}: {came!r}")
        return came == builds(*self.before)

    def test_an_addition(self) -> None:
        """If the slice is there, the next word, whichever it is, has its name."""
        seen = set()
        with Left(self.room, "add", self.room.archive, "new") as left:
            for step in left.each():
                has_slice = today_of(self.room.archive).read_bytes() != EMPTY
                seen.add((has_slice, self.is_before(step)))
                self.room.index()
                self.names(*(self.after if has_slice else self.before))
                same(f"left after step {step}", self.room.left(), [])
                self.room.add("new")
                self.names(*self.after)
        same("states", seen, {(False, True), (True, True), (True, False)})

    def test_what_status_says_is_left(self) -> None:
        following = pathlib.Path(f"{self.beside()}.next")
        following.write_bytes(builds(*self.after))
        same("left", self.room.call("status", self.room.archive)[0][-1], f"left {following}")
        self.room.index()
        same("left after a word", (self.room.left(), self.is_before("the first")), ([], True))

    def test_an_addition_of_what_is_known(self) -> None:
        self.room.file("again/Shop", self.old)
        self.after = [*self.before, known(self.old, "Shop")]
        with Left(self.room, "add", self.room.archive, "again") as left:
            for step in left.each():
                self.is_before(step)
                self.room.add("again")
                self.names(*self.after)
                same(f"left after step {step}", self.room.left(), [])

    def test_an_exchange(self) -> None:
        east, west = Site(self.room, "site"), Site(self.room, "west")
        self.room.call("add", west.archive, "new")
        west.exchange()
        with Left(self.room, "exchange", east.archive, east.folder, "site") as left:
            for step in left.each():
                self.is_before(step)
                east.exchange()
                self.names(*self.after)
                west.exchange()
                same(f"west after step {step}", self.beside(west.archive).read_bytes(), builds(*self.after))
                same(f"left after step {step}", self.room.left(), [])

    def test_a_retirement(self) -> None:
        """All are retired, or none."""
        self.room.add("new")
        words = ["--app", "com.example.shop", "--before", "2999-01-01"]
        with Left(self.room, "retire", *words, self.room.archive) as left:
            for step in left.each():
                states = archive([self.old, self.new]), archive([], retired=[self.old, self.new])
                came = bytes_of(self.room.archive)
                same(f"whether it is before or after it at step {step}", came in states, True)
                self.room.call("retire", *words, self.room.archive, status=states.index(came))
                self.room.has(states[1])
                same(f"left after step {step}", self.room.left(), [])


class Damaged(BuildsCase):
    """A line that is damaged or cut is named and passed over; the rest counts, and the next word that writes mends
    it."""

    seconds = 15

    def setUp(self) -> None:
        super().setUp()
        self.made = self.room.make_many(5)
        self.room.add("many")
        self.lines = sorted(known(it, f"{number:04}") for number, it in enumerate(self.made))
        self.names(*self.lines)
        self.whole = self.beside().read_bytes()
        self.ends = [it.end() for it in re.finditer(b"\n", self.whole)]

    def told(self, what: str) -> str:
        return f"symarch-keep: {self.beside()}: {what}"

    def mended(self, text: bytes, lines: List[str], what: str) -> None:
        self.beside().write_bytes(text)
        said, errors = self.room.call("list", self.room.archive, status=2)
        same("what is said", errors, [self.told(what)])
        same("names that count", sum(DAY.match(it) is not None for it in said), len(lines))
        out, errors = self.room.call("check", self.room.archive, status=2)
        same("check", (out, errors[0]), ([f"damaged {self.beside()}"], self.told(what)))
        same("check changes nothing", self.beside().read_bytes(), text)
        same("status", self.room.call("status", self.room.archive, status=2)[1], [self.told(what)])
        same("fold", self.room.call("fold", self.room.archive, status=2)[1][0], self.told(what))
        self.names(*lines)
        self.room.call("check", self.room.archive)

    def test_cut(self) -> None:
        """In a line, after one, and before the last one."""
        for number, at in ((2, 5), (4, self.ends[3] - self.ends[2] - 2)):
            text = self.whole[: self.ends[number - 2] + at]
            self.mended(text, self.lines[: number - 2], f"line {number} is damaged, and passed over")
        self.mended(self.whole[: self.ends[2]], self.lines[:2], "lines of it are lost")
        self.mended(self.whole[: self.ends[-2]], self.lines, "lines of it are lost")
        self.mended(self.whole[:3], [], "line 1 is damaged, and passed over")

    def test_changed(self) -> None:
        """A byte of each part of a line, of the first line and of the last one."""
        for at in (0, 16, 20, 30, 66, 80, 136, self.ends[1] - self.ends[0] - 2):
            changed = bytearray(self.whole)
            changed[self.ends[0] + at] ^= 1
            self.mended(bytes(changed), self.lines[1:], "line 2 is damaged, and passed over")
        text = self.whole.replace(b" ? ? ? 000", b" ? ? ! 000")
        self.mended(text, [], "line 2 and 4 others are damaged, and passed over")
        self.mended(b"S" + self.whole[1:], self.lines, "line 1 is damaged, and passed over")
        begin, last = self.whole[: self.ends[-2]], self.whole[self.ends[-2] :]
        self.mended(begin + b"S" + last[1:], self.lines, "line 7 is damaged, and passed over")
        less = self.whole[: self.ends[1]] + self.whole[self.ends[2] :]
        self.mended(less, [self.lines[0], *self.lines[2:]], "lines of it are lost")

    def test_lost(self) -> None:
        """Nothing is wrong, and the names are gone until the files are added again."""
        self.beside().unlink()
        same("days", {it.split(" ")[0] for it in self.listed()}, {"?"})
        self.room.call("check", self.room.archive)
        self.room.add("many")
        self.names(*self.lines)

    def test_by_an_addition(self) -> None:
        """Which ends with 2, and takes what is new."""
        self.beside().write_bytes(self.whole[: self.ends[2] + 9])
        self.room.file("more", image(9))
        self.room.add("more", status=2)
        self.names(*self.lines[:2], known(image(9), "more"))


class Exchanged(BuildsCase):
    """Sites that know the same have the same bytes, whatever the order was in which it came."""

    seconds = 30

    def setUp(self) -> None:
        super().setUp()
        self.sites = [Site(self.room, name) for name in ("east", "west", "north")]

    def of(self, site: Site) -> bytes:
        path = self.beside(site.archive)
        return path.read_bytes() if path.exists() else b""

    def until_same(self, wanted: List[str], sites: Optional[Sequence[Site]] = None) -> None:
        for _ in range(3):
            for site in sites or self.sites:
                site.exchange()
        for site in sites or self.sites:
            same(f"names of {site.name}", self.of(site).decode().splitlines(), builds(*wanted).decode().splitlines())

    def test_in_random_order(self) -> None:
        """With kills, and with lines of an earlier day."""
        dice = random.Random(3)
        wanted: List[str] = []
        for number in range(25):
            site, act = dice.choice(self.sites), dice.random()
            if act < 0.4:
                made, version = image(dice.randrange(6)), f"{dice.randrange(3)}.0"
                self.bundle("given", made, version)
                self.room.call("add", site.archive, "given")
                wanted = union(wanted, [known(made, "Shop", "com.example.shop", version, "210")])
            elif act < 0.55:
                made, day = image(dice.randrange(6)), f"20{10 + number}-01-01"
                line = known(made, "Shop", "com.example.shop", "1.0", "210", day)
                had = [it[17:] for it in self.of(site).decode().splitlines()[1:-1]]
                self.beside(site.archive).write_bytes(builds(*union(had, [line])))
                wanted = union(wanted, [line])
            elif act < 0.75:
                status_where_killed(site.start, dice.randrange(1, 60))
            else:
                site.exchange()
        self.until_same(wanted)
        names = [name for name in os.listdir(self.sites[0].folder) if ".builds." in name]
        same("files of the folder", sorted(it.split(".")[0] for it in names), ["east", "north", "west"])

    def test_each_order_of_three(self) -> None:
        """The join is associative, commutative and idempotent."""
        made = [image(number) for number in range(4)]
        lines = [known(it, "a", day=f"2020-01-0{number + 1}") for number, it in enumerate(made)]
        had = [lines[:2], [*lines[1:3], lines[0].replace("2020-01-01", "2019-12-31")], [lines[3]]]
        for order in ([0, 1, 2], [2, 1, 0], [1, 2, 0], [1, 0, 2], [0, 0, 2, 1, 1]):
            bring_back(self.folder, {})
            for site, its in zip(self.sites, had):
                self.beside(site.archive).write_bytes(builds(*its))
            for number in order:
                self.sites[number].exchange()
            self.until_same(union(*had))

    def test_a_site_that_lost_its_file_gets_it_back(self) -> None:
        """From the others, or from what it put into the folder itself."""
        east, west, _ = self.sites
        self.bundle("given", image(1))
        self.room.call("add", east.archive, "given")
        line = known(image(1), "Shop", "com.example.shop", "2.1", "210")
        east.exchange()
        self.beside(east.archive).unlink()
        said, _ = east.exchange()
        self.assertIn("named 1 east", said)
        self.until_same([line], [east, west])
        self.beside(east.archive).write_bytes(self.of(west)[:-20])
        east.exchange(status=2)
        self.until_same([line], [east, west])

    def test_nothing_new(self) -> None:
        """No file is touched, and of the others none is read."""
        self.bundle("given", image(1))
        self.room.call("add", self.sites[0].archive, "given")
        self.until_same([known(image(1), "Shop", "com.example.shop", "2.1", "210")])
        before = {path: path.stat().st_mtime_ns for path in state_of(self.folder)}
        for site in self.sites:
            same("lines", site.exchange()[0], [])
        same("files", {path: path.stat().st_mtime_ns for path in state_of(self.folder)}, before)
        names = [name for name in os.listdir(self.sites[0].folder) if ".builds." in name]
        same("files of the folder", sorted(it.split(".")[0] for it in names), ["east", "north", "west"])

    def put(self, text: bytes, site: str = "south", whole: bool = True, at: str = "20260101T000000Z") -> pathlib.Path:
        digest = hashlib.sha256(text).hexdigest()
        path = self.sites[0].folder / f"{site}.builds.{at}.{digest}.txt"
        path.write_bytes(text if whole else text[: len(text) // 2])
        return path

    def test_half_a_file(self) -> None:
        """It is passed over until it is whole; one of before counts meanwhile."""
        east, lines = self.sites[0], [known(image(number), "a", day="2020-01-01") for number in range(3)]
        self.put(builds(lines[0]))
        half = self.put(builds(*lines), whole=False, at="20260102T000000Z")
        _, errors = east.exchange()
        same("last line", errors[-1].endswith("; 1 not whole, 0 refused"), True)
        same("names", self.of(east), builds(lines[0]))
        half.write_bytes(builds(*lines))
        east.exchange()
        same("names", self.of(east), builds(*lines))

    def test_hostile_lines(self) -> None:
        """Each is refused by its number, and the others are taken."""
        east, good = self.sites[0], known(image(1), "a", day="2020-01-01")
        name, arch, digest = slice_words(image(2))
        of_slice, most = f"{name} {arch} {digest}", f"x{'y' * 254}"
        longest = f"2020-01-01 {of_slice} {most} {most} {most} " + "\\xff" * 255
        bad = [
            f"2020-01-01 {of_slice} ? ? ? {most}z",
            f"2020-01-01 {of_slice} ? ? ? a\x1b[31m",
            f"2020-01-01 {of_slice} ? ? ? a\\x1B",
            f"2020-01-01 {of_slice} ? ? ? \\x41",
            f"2020-01-01 {of_slice} ? ? ? ä",
            f"2020-01-01 {of_slice} ? ? ?  a",
            f"2020-01-01 {of_slice} ? ? a",
            f"2020-02-30 {of_slice} ? ? ? a",
            f"20200-1-01 {of_slice} ? ? ? a",
            f"2020-01-01 {name.upper()} {arch} {digest} ? ? ? a",
            f"2020-01-01 {name} cpu:01000007/00000003 {digest} ? ? ? a",
            f"2020-01-01 {name} cpu:01000007/80000003 {digest} ? ? ? a",
            f"2020-01-01 {name} i386 {digest} ? ? ? a",
            f"2020-01-01 {name} {arch} {digest[1:]} ? ? ? a",
            "",
        ]
        for one in bad:
            path = self.put(builds(*sorted([good, longest, one])))
            number = sorted([good, longest, one]).index(one) + 2
            _, errors = east.exchange(status=2)
            same(f"of {one!r}", errors[0], f"symarch-keep: {path}: line {number} is of no build; the rest is read")
            same("names", self.of(east), builds(good, longest))
            path.unlink()
        text = FIRST + f"{sha('x')[:16]} {good}\n" + "z" * 5000 + "\n" + "\n" * 9
        path = self.put(f"{text}sha256 {sha(text)}\n".encode())
        _, errors = east.exchange(status=2)
        told = "line 2 is of no build, and 10 others are none; the rest is read"
        same("a wrong sum", errors[0], f"symarch-keep: {path}: {told}")
        path.unlink()
        text = FIRST + "z" * 5000 + "\n"
        path = self.put(f"{text}sha256 {sha(text)}\n".encode())
        _, errors = east.exchange(status=2)
        told = "line 2 is of 5001 bytes, and none has more than 4236; the rest is read"
        same("a long line", errors[0], f"symarch-keep: {path}: {told}")
        path.unlink()
        same("names", self.of(east), builds(good, longest))

    def test_hostile_files(self) -> None:
        east = self.sites[0]
        path = self.put(b"text")
        same("no names", east.exchange(status=2)[1][0], f"symarch-keep: {path}: has no names of builds")
        path.unlink()
        with open(self.put(b"x"), "wb") as file:
            file.truncate((1 << 28) + 1)
        told = f"symarch-keep: {file.name}: has more than {1 << 28} bytes"
        same("a long one", east.exchange(status=2)[1][0], told)
        os.unlink(file.name)
        east.exchange()
        same("names", self.of(east), b"")

    def test_older_and_later_tools(self) -> None:
        """An older tool knows files of three kinds, and none of them is one with names; what a later one puts there is
        left."""
        self.bundle("given", image(1))
        self.room.call("add", self.sites[0].archive, "given")
        self.sites[0].exchange()
        folder = self.sites[0].folder
        (name,) = [name for name in os.listdir(folder) if ".builds." in name]
        for kind in ("asks", "answers", "is"):
            self.assertNotIn(f".{kind}.", name)
        for ending in (".sum", ".sym", ".site"):
            self.assertFalse(name.endswith(ending))
        later = {f"south.later.20260101T000000Z.{'0' * 64}.txt": b"x", "east.builds.none.txt": b"y"}
        for it, data in later.items():
            (folder / it).write_bytes(data)
        self.until_same([known(image(1), "Shop", "com.example.shop", "2.1", "210")])
        same("files of a later tool", {it: (folder / it).read_bytes() for it in later}, later)
