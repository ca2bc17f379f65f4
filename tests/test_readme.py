"""README's command lines, and the lines that it shows, with the packages in a root of Debian's essential packages, apt
and Python."""
import os
import re
import shutil
import subprocess
from pathlib import Path
from typing import ClassVar, List, Tuple

from .support import fresh_root
from .support.cases import Without
from .support.packages import CRASHES, PackageCase
from .support.program import TOP


def readme() -> str:
    return (TOP / "README.md").read_text(encoding="utf-8")


def found_in_readme(pattern: str, flags: int = 0) -> Tuple[str, ...]:
    """What a pattern finds in README, which has to have it."""
    found = re.search(pattern, readme().replace("\n ", ""), flags)
    if not found:
        raise AssertionError(f"README has no {pattern}")
    return found.groups()


def command_lines() -> List[str]:
    return [it for block in re.findall(r"^```sh\n(.*?)^```", readme(), re.M | re.S) for it in block.splitlines()]


# The root has no command umount.
UNMOUNT = """python3 -c 'import ctypes; ctypes.CDLL(None).umount2(b"/proc", 2)'; test ! -e /proc/self"""
WHAT_IS_THERE = "for it in rt symarch man; do command -v $it || echo no $it; done; ls -d /opt /work || true"


class InRoot(PackageCase):
    """The packages in a fresh root, after the first three command lines of README."""

    seconds = 15

    root: ClassVar[str]
    # What came of looking around before, and of the three lines.
    before: ClassVar["subprocess.CompletedProcess[str]"]
    first: ClassVar["subprocess.CompletedProcess[str]"]

    @classmethod
    def setUpClass(cls) -> None:
        super().setUpClass()
        cls.root = str(cls.room / "root")
        os.mkdir(cls.root)
        try:
            fresh_root.make(cls.root, "apt")
            cls.furnish(Path(cls.root) / "root")
            cls.before = fresh_root.run(cls.root, WHAT_IS_THERE)
            cls.first = fresh_root.run(cls.root, "\n".join(command_lines()[:3]))
        except (fresh_root.NotGranted, subprocess.CalledProcessError) as lack:
            raise Without(f"no fresh root: {lack}") from None

    @classmethod
    def furnish(cls, home: Path) -> None:
        """What README's commands find: the packages, two folders of builds, reports, and an archive of version 1."""
        for it in cls.made.names.values():
            shutil.copy(cls.made.folder / it, home)
        inside = home / "dSYMs/spool.app.dSYM/Contents/Resources/DWARF"
        inside.mkdir(parents=True)
        shutil.copy(CRASHES / "spool-1.dSYM", inside / "spool")
        (inside.parent.parent / "Info.plist").write_text("<plist/>\n")
        shutil.copy(CRASHES / "spool-1", home / "spool")
        shutil.copy(CRASHES / "arm64.ips", home / "report.ips")
        shutil.copy(CRASHES / "arm64.crash", home / "report.crash")
        (home / "others").mkdir()
        for name in ("spool-2", "spool-2.dSYM"):
            shutil.copy(CRASHES / name, home / "others")
        shutil.copy(TOP / "tests/fixtures/version-1/retired.sym", home / "site.sym")

    def said(self, script: str) -> str:
        """What a script prints, which ends well."""
        done = fresh_root.run(self.root, script)
        self.assertEqual(done.returncode, 0, f"{script}\n{done.stdout}{done.stderr}")
        return done.stdout

    def test_no_toolchain(self) -> None:
        self.assertEqual(self.before.stdout, "no rt\nno symarch\nno man\n")

    def test_three_commands(self) -> None:
        """README's first block, as it stands, in a folder that has the package, the dSYMs and the report."""
        words = [it.split()[0] for it in command_lines()[:3]]
        self.assertEqual(words, ["apt-get", "symarch-keep", "symbolicate-report"])
        self.assertEqual(self.first.returncode, 0, self.first.stderr)
        self.assertRegex(self.first.stdout, r"(?m)^0 .* copy_body \+ 12 \(spool\.c:9\)$")
        self.assertRegex(self.first.stderr, r"(?m)^[1-9][0-9]* of [0-9]+ frames named")
        (shown,) = found_in_readme(r"`(added [^`]*)`")
        beginning, end = shown.split("... ")
        self.assertRegex(self.first.stdout, f"(?m)^{re.escape(beginning)}[0-9a-f]{{56}} {re.escape(end)}$")

    def test_lines_of_a_report(self) -> None:
        """What README shows of a report is what is printed of it."""
        shown = re.search(r"^```\n(.*?)^```", readme(), re.M | re.S)
        self.assertIsNotNone(shown)
        self.assertIn(shown[1] if shown else "", self.said("symbolicate-report report.crash builds.sym"))
        (last,) = found_in_readme(r"`([0-9]+ of [0-9]+ frames named[^`]*)`")
        self.assertEqual(self.said("symbolicate-report report.crash builds.sym 2>&1 >/dev/null"), f"{last}\n")

    def test_other_lines(self) -> None:
        """README's other command lines, as they stand, one after another."""
        for line in command_lines()[3:]:
            self.said(line)
        printed = self.said("symarch-keep fold east.sym\nsymarch-keep fold west.sym\n"
                            "symarch list east.sym | grep -c dsym; cmp east.sym west.sym; head -c 8 site.sym")
        self.assertTrue(printed.endswith("4\nMSYMARC2"), "east has what west has, and site.sym is of version 2")

    def test_decimal_and_hexadecimal(self) -> None:
        """What README says of numbers: by its own words of a report's address."""
        (offset,) = found_in_readme(r'"imageOffset" : ([0-9]+)`')
        self.assertIn(f'"imageOffset" : {offset}', (CRASHES / "arm64.ips").read_text())
        (by_hand,) = found_in_readme(rf"`(symarch-keep symbolicate --offset [^`]* {offset})`")
        printed = self.said(by_hand.replace("UUID", "4c4c4419-5555-3144-a1d2-4341c97782f0"))
        self.assertEqual(printed, f"{int(offset):#018x} _copy_body + 12 (__TEXT,__text)\n")

    def test_a_name_without_its_dsym(self) -> None:
        """What README says of an address by the image alone, and by its dSYM."""
        pattern = r"`(0x[0-9a-f]+)` is `(.*)` by the image of `spool` alone, and `(.*)` with its dSYM"
        address, alone, with_dsym = found_in_readme(pattern)
        asked = f"symarch symbolicate spool.sym 4c4c441955553144a1d24341c97782f0 arm64 --load 0x104d38000 {address}"
        for path, name in (("spool", alone), ("dSYMs", with_dsym)):
            printed = self.said(f"symarch-keep add spool.sym {path} >&2\nsymarch-keep fold spool.sym >&2\n{asked}")
            self.assertIn(f" {name} (", printed)

    def test_without_root(self) -> None:
        """The other way to install, as it stands, and a tool of it."""
        (line,) = found_in_readme(r"`(mkdir -p ~/.local && tar [^`]*)`")
        self.assertEqual(self.said(f"{line}\n~/.local/bin/symarch --version"), self.said("symarch --version"))
        self.assertIn(" copy_body + 12", self.said("~/.local/bin/symbolicate-report report.crash builds.sym"))

    def test_the_tools_say_the_version_of_the_package(self) -> None:
        of_dpkg = "dpkg-query -W -f '${Version}\\n' symarch"
        printed = self.said(f"{of_dpkg}; symarch-keep --version; symbolicate-report --version")
        version = self.made.version
        self.assertEqual(printed, f"{version}\nsymarch-keep {version}\nsymbolicate-report {version}\n")

    def test_without_proc(self) -> None:
        """A report is named where /proc is not mounted."""
        printed = self.said(f"{UNMOUNT}\n/usr/bin/symbolicate-report report.crash builds.sym")
        self.assertIn(" copy_body + 12", printed)

    def test_installed(self) -> None:
        """dpkg has all files as they were packed, and takes them away again."""
        printed = self.said("dpkg -s symarch | grep ^Status; dpkg -V symarch")
        self.assertEqual(printed, "Status: install ok installed\n")
        self.said("cd /usr && sha256sum --quiet --strict -c share/doc/symarch/SHA256SUMS")
        left = self.said("dpkg -r symarch >&2; find /usr -name '*symarch*' -o -name '*symbolicate*'")
        self.said(command_lines()[0])
        self.assertEqual(left, "")
