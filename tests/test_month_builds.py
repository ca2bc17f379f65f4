"""A month of builds: the days of Xcode archives, versions, slices of one app."""
import datetime
import plistlib
import re
from typing import Any, Dict, List, Optional

from .support.builds import SHOP, BuildsCase, known, today, within
from .support.cases import same
from .support.made_images import image, slice_text
from .support.sites import Site

MADE = datetime.datetime(2025, 3, 4, 23, 59)
DAY, LATER = "2025-03-04", "2025-06-01"
KIT = {"CFBundleIdentifier": "com.example.kit", "CFBundleShortVersionString": "1.0", "CFBundleVersion": "1"}
OF_SHOP = ("com.example.shop", "2.1", "210")
# The line of a name as 2.3.1 takes it from the shared folder.
FIELD = r"(?:[!-\[\]-~]|\\x(?:[0189a-f][0-9a-f]|20|5c|7f)){1,255}"
LINE_OF_BEFORE = re.compile(
    r"[0-9a-f]{16} [0-9-]{10} [0-9a-f]{8}(?:-[0-9a-f]{4}){3}-[0-9a-f]{12} [a-z0-9_:/]{1,21} [0-9a-f]{64}"
    rf"(?: {FIELD}){{4}}"
)


class MonthOfBuilds(BuildsCase):
    """Archives of Xcode, each with an app that has a framework."""

    def xcarchive(self, folder: str, app: bytes, kit: Optional[bytes] = None, made: Any = MADE, **stated: Any) -> None:
        """An archive of Xcode. Its dates are written as Xcode does."""
        its = {**SHOP, **stated}
        whole: Dict[str, Any] = {"ApplicationProperties": its, "Name": "Shop"}
        whole.update({"CreationDate": made} if made else {})
        inside = f"{folder}/Shop.xcarchive/Products/Applications/Shop.app"
        self.room.file(f"{folder}/Shop.xcarchive/Info.plist", plistlib.dumps(whole))
        self.room.file(f"{inside}/Info.plist", plistlib.dumps(its))
        self.room.file(f"{inside}/Shop", app)
        if kit is not None:
            self.room.file(f"{inside}/Frameworks/Kit.framework/Info.plist", plistlib.dumps(KIT))
            self.room.file(f"{inside}/Frameworks/Kit.framework/Kit", kit)

    def retired(self, *words: Any, status: int = 0) -> List[str]:
        """The lines of a retirement, without UUIDs and digests."""
        said, _ = self.room.call("retire", *words, self.room.archive, status=status)
        return [re.sub(r" \S+ \S+ [0-9a-f]{64}", "", one) for one in said]

    def test_the_day_is_that_of_the_archive(self) -> None:
        """One of before stays until the archive is added again."""
        made = image(1)
        self.room.file("plain/Shop", made)
        self.xcarchive("ci", made)
        self.room.add("plain")
        self.write(known(made, "Shop", *OF_SHOP))
        same("before", self.listed()[0][:10], today())
        self.room.add("ci")
        self.names(known(made, "Shop", *OF_SHOP, day=DAY))
        same("after", self.listed("--since", "2025-03-04")[0][:10], DAY)
        same("of days after", self.listed("--since", "2025-03-05", status=1), [])

    def test_days_that_are_none(self) -> None:
        """A clock that is wrong, one without a battery, and a text: then the day is this one."""
        for made in (datetime.datetime(2999, 1, 1), datetime.datetime(1970, 1, 1), "2025-03-04", None, 5):
            self.room.begin_anew()
            self.xcarchive("ci", image(1), made=made)
            self.room.add("ci")
            self.names(known(image(1), "Shop", *OF_SHOP))

    def test_versions(self) -> None:
        for number, version in ((1, "2.1"), (2, "2.2"), (3, "2.2")):
            stated = {"CFBundleShortVersionString": version, "CFBundleVersion": f"{number}"}
            self.xcarchive(f"ci/{number}", image(number), None, MADE, **stated)
        self.room.add("ci")
        for words, found in ((["--version", "2.2"], ["2", "3"]), (["--build", "1"], ["1"]), (["--version", "2"], []),
                             (["--version", "2.2", "--build", "3"], ["3"])):  # fmt: skip
            said = self.listed("--app", "com.example.shop", *words, status=0 if found else 1)
            same(f"of {words}", [one.split()[3] for one in said], found)
        of_shop = ["--app", "com.example.shop"]
        wanted = [f"retiring {DAY} com.example.shop 2.2 3 Shop"]
        same("dry run", self.retired("--dry-run", *of_shop, "--version", "2.2", "--build", "3"), wanted)
        same("retired", self.retired(*of_shop, "--version", "2.2", "--build", "3"), wanted)
        same("left", [one.split()[3] for one in self.listed()], ["1", "2"])
        _, errors = self.room.call("retire", *of_shop, "--version", "9", self.room.archive, status=1)
        same("none", errors[0].partition(" has ")[2], "no build of com.example.shop of version 9")
        self.room.call("retire", "--version", "2.2", self.room.archive, status=3)
        self.room.call("retire", *of_shop, "--with-inner", self.room.archive, status=3)

    def test_what_is_in_an_app_alone(self) -> None:
        """One framework is in the archives of one app, another in that of another app too, and of a third nothing is
        known, since it came in before."""
        alone, common, before = image(11), image(12), image(13)
        self.xcarchive("1", image(1), alone)
        self.xcarchive("2", image(2), common, CFBundleVersion="211")
        self.xcarchive("3", image(3), common, CFBundleIdentifier="com.example.other")
        self.room.file("4/Kit.framework/Info.plist", plistlib.dumps(KIT))
        self.room.file("4/Kit.framework/Kit", before)
        self.room.add("1", "2", "3", "4")
        kit = ("com.example.kit", "1.0", "1")
        lines = [known(alone, "Kit", *kit, day=DAY), known(common, "Kit", *kit, day=DAY), known(before, "Kit", *kit),
                 known(image(1), "Shop", *OF_SHOP, day=DAY), within(alone, *OF_SHOP, day=DAY),
                 known(image(2), "Shop", *OF_SHOP[:2], "211", day=DAY), within(common, *OF_SHOP[:2], "211", day=DAY),
                 known(image(3), "Shop", "com.example.other", *OF_SHOP[1:], day=DAY),
                 within(common, "com.example.other", *OF_SHOP[1:], day=DAY)]  # fmt: skip
        self.names(*lines)
        words = ["--app", "com.example.shop", "--before", LATER]
        shops = [f"retiring {DAY} com.example.shop 2.1 21{number} Shop" for number in (0, 1)]
        same("without", self.retired("--dry-run", *words), shops)
        wanted = [f"retiring {DAY} com.example.kit 1.0 1 Kit", *shops, f"staying {DAY} com.example.other 2.1 210 ?"]
        same("dry run", self.retired("--dry-run", "--with-inner", *words), wanted)
        same("retired", self.retired("--with-inner", *words), wanted)
        left = [slice_text(it).split()[0] for it in (image(3), common, before)]
        same("left", sorted(one.split()[4] for one in self.listed()), sorted(left))

    def test_the_other_sites_are_named(self) -> None:
        """A program of before may have one of them, so whoever retires is told which they are."""
        self.xcarchive("1", image(1), image(11))
        self.room.add("1")
        words = "retire", "--dry-run", "--app", "com.example.shop", "--before", LATER
        same("alone", len(self.room.call(*words, "--with-inner", self.room.archive)[1]), 1)
        for _ in range(2):
            for name in ("west", "south"):
                Site(self.room, name).exchange()
            self.room.call("exchange", self.room.archive, "shared", "east")
        same("without", len(self.room.call(*words, self.room.archive)[1]), 1)
        _, errors = self.room.call(*words, "--with-inner", self.room.archive)
        told = "1 of the slices to retire may be in other apps of south, west"
        same("named", errors[0], f"symarch-keep: {told}, which programs before 2.4.0 do not report")

    def test_what_was_there_before(self) -> None:
        """Who else has it is not known, so it stays, also when the archive of an app has it later."""
        kit = ("com.example.kit", "1.0", "1")
        self.room.file("0/Kit.framework/Info.plist", plistlib.dumps(KIT))
        self.room.file("0/Kit.framework/Kit", image(11))
        self.xcarchive("1", image(1), image(11))
        self.room.add("0")
        for _ in range(2):
            self.room.add("1")
            self.names(known(image(11), "Kit", *kit, day=DAY), known(image(1), "Shop", *OF_SHOP, day=DAY),
                       within(image(11), *OF_SHOP, day=DAY), within(image(11), "?", day=DAY))  # fmt: skip
        said = self.retired("--with-inner", "--app", "com.example.shop", "--before", LATER)
        same("retired", said, [f"retiring {DAY} com.example.shop 2.1 210 Shop", f"staying {DAY} ? ? ? ?"])

    def test_sites_of_before(self) -> None:
        """They have each line as one of a slice that is not there, and send it on."""
        self.xcarchive("1", image(1), image(11))
        self.room.add("1")
        lines = self.beside().read_text("ascii").splitlines()[1:-1]
        same("forms", [bool(LINE_OF_BEFORE.fullmatch(one)) for one in lines], [True] * 3)
        digests = {slice_text(it).split()[2] for it in (image(1), image(11))}
        same("slices", len([one for one in lines if one.split()[4] in digests]), 2)
