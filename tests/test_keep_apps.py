"""The names of builds in `list`, and `retire --app`."""
import hashlib
import os
import pathlib
import re

from .support.builds import DSYM, BuildsCase, known
from .support.cases import same
from .support.growth import LONGER, MOST_RATIO, ratio
from .support.made_images import ARM64, archive, image, slice_text, slice_words
from .support.rooms import today_of
from .support.sites import DATE, Site, state_of


class Listed(BuildsCase):
    """What `list` prints."""

    seconds = 8

    def row(self, made: bytes, day: str, size: int, kind: str, name: str, *build: str) -> str:
        return f"{day} {' '.join(build)} {' '.join(slice_words(made)[:2])} {size} {kind} {name}"

    def setUp(self) -> None:
        super().setUp()
        self.app, self.dsym, self.again = image(1), image(1, kind=DSYM, more=b"x"), image(1, more=b"signed")
        # So long that no word folds.
        self.bare, self.old = image(2, ARM64, more=bytes(20_000)), image(3)
        self.room.archive.write_bytes(archive([self.app, self.bare]))
        today_of(self.room.archive).write_bytes(archive([self.dsym, self.old, self.again]))
        self.room.index()
        shop, kit = ("com.example.shop", "2.1\\x20b", "210"), ("com.example.kit", "?", "7")
        self.write(
            known(self.dsym, "Shop\\x20\\xff", *shop, day="2026-02-01"),
            known(self.app, "Shop", *shop, day="2026-03-01"),
            known(self.app, "Shop", *kit, day="2026-01-01"),
            known(self.again, "signed", day="2025-01-01"),
            known(self.bare, "tool", day="2026-02-02"),
            # Of a slice that is not there.
            known(image(9), "Gone", *shop, day="2026-01-01"),
        )
        size = len(self.app) + len(self.dsym) + len(self.again)
        self.rows = [
            self.row(self.old, "?", len(self.old), "image", "?", "?", "?", "?"),
            self.row(self.app, "2026-01-01", size, "dsym", "Shop", *kit),
            self.row(self.app, "2026-02-01", size, "dsym", "Shop", *shop),
            self.row(self.bare, "2026-02-02", len(self.bare), "image", "tool", "?", "?", "?"),
        ]

    def test_each_row(self) -> None:
        same("rows", self.listed(), self.rows)
        self.room.call("fold", self.room.archive)
        same("rows after a fold", self.listed(), self.rows)
        for ending in ("idx", "today.idx"):
            os.unlink(f"{self.room.archive}.{ending}")
        before = state_of(self.folder)
        same("rows without an index", self.listed(), self.rows)
        same("files", state_of(self.folder), before)

    def test_of_an_app_and_since_a_day(self) -> None:
        for words, rows in (
            (["--app", "com.example.shop"], self.rows[2:3]),
            (["--app", "com.example"], []),
            (["--app", "?"], [self.rows[0], self.rows[3]]),
            (["--since", "2026-02-01"], self.rows[2:]),
            (["--since", "2026-02-02"], self.rows[3:]),
            (["--app=com.example.kit", "--since=2026-01-01"], self.rows[1:2]),
            (["--app=com.example.kit", "--since=2026-01-02"], []),
        ):
            same(f"rows of {words}", self.listed(*words, status=0 if rows else 1), rows)

    def test_days_that_are_none(self) -> None:
        for day in ("2026-02-30", "2026-2-3", "20260203", "2026-02-03T00:00", "", "today", "２０２６-02-03"):
            _, errors = self.room.call("list", "--since", day, self.room.archive, status=3)
            same("errors", errors, [f"symarch-keep: DATE is `{day}`: expected a day as YYYY-MM-DD"])

    def test_what_is_retired(self) -> None:
        self.room.call("retire", self.room.archive, *slice_words(self.dsym))
        build, size = self.rows[2].split(" ")[1:4], len(self.app) + len(self.again)
        row = self.row(self.app, "2026-03-01", size, "image!2", "Shop", *build)
        same("rows", self.listed("--app", "com.example.shop"), [row])
        for made in (self.app, self.again):
            self.room.call("retire", self.room.archive, *slice_words(made))
        # The archive has its bytes until a fold.
        self.assertIn(self.app, self.room.archive.read_bytes())
        for _ in range(2):
            same("rows", self.listed(), [self.rows[0], self.rows[3]])
            self.room.call("fold", self.room.archive)

    def test_a_slice_that_changed_since(self) -> None:
        """An archive that somebody wrote since its index was is refused."""
        with open(self.room.archive, "ab") as file:
            file.write(b"x")
        _, errors = self.room.call("list", self.room.archive, status=2)
        self.assertTrue(errors[-1].endswith(f": run symarch-keep check {self.room.archive}"), errors)


class Retired(BuildsCase):
    """`retire --app --before` takes what `list` prints of it, and nothing that another app or a later build has."""

    seconds = 12

    def setUp(self) -> None:
        super().setUp()
        self.made = [image(number) for number in range(7)]
        self.more = image(0, more=b"signed")
        self.room.archive.write_bytes(archive([*self.made, self.more]))
        self.room.index()
        shop, late, kit = ("com.example.shop", "1", "1"), ("com.example.shop", "2", "2"), ("com.example.kit", "1", "1")
        self.lines = [
            known(self.made[0], "goes", *shop, day="2025-12-31"),
            # Of the same build as the one before, though it came in later.
            known(self.more, "goes", *shop, day="2026-05-01"),
            known(self.made[1], "shared", *shop, day="2025-01-01"),
            known(self.made[1], "shared", *kit, day="2025-02-01"),
            known(self.made[2], "again", *shop, day="2025-01-01"),
            known(self.made[2], "again", *late, day="2026-02-01"),
            known(self.made[3], "late", *late, day="2026-02-01"),
            known(self.made[4], "kit", *kit, day="2025-01-01"),
            known(self.made[5], "none", day="2025-01-01"),
        ]
        self.write(*self.lines)
        self.gone = sorted([self.made[0], self.more], key=lambda it: hashlib.sha256(it).digest())
        self.words = ["--app", "com.example.shop", "--before", "2026-01-01"]
        self.told = [
            *(f"retiring {slice_text(it)} 2025-12-31 com.example.shop 1 1 goes" for it in self.gone),
            f"staying {slice_text(self.made[1])} 2025-02-01 com.example.kit 1 1 shared",
            f"staying {slice_text(self.made[2])} 2026-02-01 com.example.shop 2 2 again",
        ]
        self.held = [self.more, *self.made]

    def test_a_dry_run(self) -> None:
        before = state_of(self.folder)
        out, errors = self.room.call("retire", "--dry-run", *self.words, self.room.archive)
        same("lines", out, self.told)
        told = f"2 retired of {len(self.made[0]) + len(self.more)} bytes, 2 stay; nothing was written"
        same("errors", errors, [f"symarch-keep: {self.room.archive}: {told}"])
        same("files", state_of(self.folder), before)
        out, _ = self.room.call("retire", "--dry-run", self.room.archive, *slice_words(self.made[4]))
        same("of one", (out, state_of(self.folder)), ([f"retired {slice_text(self.made[4])}"], before))

    def test_at_each_site(self) -> None:
        """What is told is done at once, is in the log once, and comes back at no site."""
        out, _ = self.room.call("retire", *self.words, self.room.archive)
        same("lines", out, self.told)
        kept = [it for it in self.held if it not in self.gone]
        self.room.has(archive(kept, retired=self.gone))
        log = re.sub(f"(?m)^{DATE} ", "", pathlib.Path(f"{self.room.archive}.log").read_text()).splitlines()
        same("lines of the log", log, [f"retired {slice_text(it)}" for it in self.gone])
        site, west = Site(self.room, "site"), Site(self.room, "west")
        west.archive.write_bytes(archive(self.held))
        for one in (site, west, site, west):
            one.exchange()
        same("archive of west", west.has(), archive(kept, retired=self.gone))
        self.room.file("again", self.made[0])
        said, _ = self.room.add("again")
        same("an addition", said[0].split(" ")[0], "retired")
        same("again", self.room.call("retire", *self.words, self.room.archive, status=1)[0], self.told[2:])
        self.room.folded(archive(kept, retired=self.gone))
        self.names(*self.lines)

    def test_what_has_no_app(self) -> None:
        """A slice without an app is of those of its UUID and architecture; one of a UUID without any never goes."""
        self.write(self.lines[0], self.lines[8])
        out, _ = self.room.call("retire", *self.words, self.room.archive)
        same("lines", out, self.told[:2])
        self.write(known(self.more, "goes", "com.example.kit", day="2020-01-01"), self.lines[0])
        self.room.archive.write_bytes(archive([*self.made, self.more, image(0, kind=DSYM)]))
        today_of(self.room.archive).unlink()
        self.room.call("status", "--accept", self.room.archive, status=None)
        out, _ = self.room.call("retire", *self.words, self.room.archive)
        stays = f"staying {slice_text(image(0, kind=DSYM))} 2020-01-01 com.example.kit ? ? goes"
        goes = f"retiring {slice_text(self.made[0])} 2025-12-31 com.example.shop 1 1 goes"
        same("lines of two apps", out, [goes, stays])

    def test_nothing_fits(self) -> None:
        before = state_of(self.folder)
        for app, day in (("com.example.shop", "2025-01-01"), ("com.example", "2999-01-01")):
            out, errors = self.room.call("retire", "--app", app, "--before", day, self.room.archive, status=1)
            told = f"symarch-keep: {self.room.archive} has no build of {app} from before {day}"
            same("what is said", (out, errors), ([], [told]))
        same("files", state_of(self.folder), before)

    def test_words(self) -> None:
        slice_of, name = slice_words(self.made[0]), self.room.archive
        for words, told in (
            (["--app", "a", name], "the following arguments are required: --before"),
            (["--before", "2026-01-01", name], "the following arguments are required: --app"),
            ([*self.words, name, slice_of[0]], f"`{slice_of[0]}` is one argument too many"),
            ([*self.words, "--before-it-comes", name], "`--before-it-comes` is one argument too many"),
            ([name, *slice_of, "x"], "`x` is one argument too many"),
            ([name, *slice_of[:2]], "the following arguments are required: DIGEST"),
            (["--app", "a", "--before", "2026-1-1", name], "DATE is `2026-1-1`: expected a day as YYYY-MM-DD"),
            (["--app", "?", "--before", "2026-01-01", name], "ID is `?`: expected the identifier of an app"),
            (["--app", "", "--before", "2026-01-01", name], "ID is ``: expected 1 to 255 bytes"),
        ):
            _, errors = self.room.call("retire", *words, status=3)
            same("errors", errors[-1], f"symarch-keep: {told}")
        self.room.has(archive([*self.made, self.more]))
        for words in ([name, "--before-it-comes", *slice_of], [name, slice_of[0], "--quiet", *slice_of[1:]]):
            self.room.call("retire", *words)

    def test_damaged_names(self) -> None:
        """What was damaged may have said that another app has a slice, so nothing goes until that is mended."""
        text = self.beside().read_bytes()
        self.beside().write_bytes(text.replace(b" none\n", b" none!\n"))
        _, errors = self.room.call("retire", *self.words, self.room.archive, status=4)
        told = "slices of other apps may be among the damaged names; call `exchange`, and then this again"
        same("errors", errors[1:], [f"symarch-keep: {told}; the archive is as it was"])
        self.room.has(archive([*self.made, self.more]))
        self.room.call("retire", *self.words, self.room.archive)

    def test_what_cannot_be_told(self) -> None:
        """If nobody reads the lines, nothing is retired."""
        reader, writer = os.pipe()
        os.close(reader)
        with self.room.start("retire", *self.words, self.room.archive, stdout=writer) as process:
            os.close(writer)
            errors = process.communicate()[1].decode()
        told = "symarch-keep: the slices to retire could not be printed; the archive is as it was\n"
        same("status, errors", (process.returncode, errors), (4, told))
        self.room.has(archive([*self.made, self.more]))


class Large(BuildsCase):
    """The time that `list` and `add` take grows with the lines, and not faster."""

    seconds = 15

    def cost(self, count: int) -> float:
        """The processor time of both with so many lines, all of one slice."""
        made = image(0)
        lines = [known(made, f"n{it}", "com.example.shop", str(it), day="2020-01-01") for it in range(count)]
        self.room.begin_anew(archive([made]))
        self.room.index()
        self.write(*lines)
        self.room.file("one", image(1))
        before = os.times()
        same("rows", len(self.listed()), count)
        self.room.add("one")
        self.room.call("retire", "--dry-run", "--app", "com.example.shop", "--before", "2020-01-02", self.room.archive)
        after = os.times()
        self.names(*lines, known(image(1), "one"))
        return after.children_user + after.children_system - before.children_user - before.children_system

    def test_many_lines(self) -> None:
        self.assertLessEqual(ratio(lambda: self.cost(8_000), lambda: self.cost(LONGER * 8_000)), MOST_RATIO)
