"""The package of symarch-server: its content and needs, its manual page and unit, and the server that it has."""
import os
import re
import shutil
import stat
import subprocess
from pathlib import Path
from typing import Dict

from .support import fresh_root
from .support.cases import Without
from .support.packages import CRASHES, PackageCase, ar_members, needs, ran, said, tar_members
from .support.program import TOP, symarch
from .support.servers import SERVES, lifted, python

SOURCES = TOP / "tools" / "symarch_server"


class Package(PackageCase):
    """What is in it."""

    seconds = 20
    tree: Dict[str, bytes]

    def setUp(self) -> None:
        super().setUp()
        parts = ar_members(self.made.files[self.made.server])
        self.members = tar_members(parts["data.tar.gz"])
        self.tree = {it.name[len("./usr/") :]: data for it, data in self.members if data is not None}
        about = {it.name: data.decode() for it, data in tar_members(parts["control.tar.gz"]) if data is not None}
        self.fields = dict(re.findall(r"^([A-Z][\w-]*): (.*)$", about["./control"], re.M))

    def test_needs(self) -> None:
        version = self.made.version
        self.assertEqual((self.fields["Package"], self.fields["Version"]), ("symarch-server", version))
        self.assertEqual(self.fields["Architecture"], "all")
        wanted = f"symarch (= {version}), python3 (>= 3.8), python3-flask (>= 2.0), python3-waitress (>= 2.0)"
        self.assertEqual(self.fields["Depends"], wanted)

    def test_files(self) -> None:
        """All modules, pages and styles, and nothing of the other package."""
        every = [path for path in SOURCES.rglob("*") if path.is_file() and "__pycache__" not in path.parts]
        wanted = {f"lib/symarch/{path.relative_to(TOP / 'tools')}": path.read_bytes() for path in every}
        found = {name: data for name, data in self.tree.items() if name.startswith("lib/symarch/symarch_server/")}
        self.assertEqual(sorted(found), sorted(wanted))
        self.assertEqual([name for name in found if found[name] != wanted[name]], [])
        self.assertEqual(set(self.tree) & set(self.made.tree("deb")), set())
        programs = [it.name for it, _ in self.members if it.isfile() and it.mode & stat.S_IXUSR]
        self.assertEqual(sorted(programs), ["./usr/bin/symarch-server", "./usr/lib/symarch/symarch-server"])

    def test_manual(self) -> None:
        """OPERATING has each route that is served, and the page each option."""
        operating = (TOP / "docs" / "OPERATING.md").read_text(encoding="utf-8")
        page = self.tree["share/man/man1/symarch-server.1"].decode().replace("\\-", "-")
        routes = re.findall(r'@routes\.\w+\("([^"<]+)', "".join(it.read_text() for it in SOURCES.glob("*.py")))
        self.assertGreater(len(routes), 10)
        for route in {it.rstrip("/") for it in routes} - {"", "/search"}:
            self.assertIn(route, operating)
        for option in re.findall(r'add_argument\("(--[\w-]+)"', (SOURCES / "settings.py").read_text()):
            self.assertIn(option, page)

    def test_unit(self) -> None:
        unit = self.tree["lib/systemd/system/symarch-server.service"].decode()
        self.assertIn("ExecStart=/usr/bin/symarch-server $SERVES\n", unit)
        needs("systemd-analyze")
        path = self.room / "symarch-server.service"
        path.write_text(unit.replace("/usr/bin/symarch-server", "/bin/true"))
        done = ran("systemd-analyze", "verify", path)
        self.assertEqual([it for it in done.stderr.splitlines() if "symarch-server" in it and "Unit" not in it], [])

    def unpacked(self) -> Path:
        """A folder that has both packages."""
        folder = self.room / "both"
        if not folder.exists():
            needs("dpkg-deb")
            for name in (self.made.names["deb"], self.made.server):
                said("dpkg-deb", "--extract", self.made.folder / name, folder)
        return folder / "usr"

    def test_it_serves(self) -> None:
        """With the tools of the other package, by the program beside them."""
        usr, archive = self.unpacked(), self.room / "site.sym"
        self.assertEqual(said(usr / "bin/symarch-server", "--version"), f"symarch-server {self.made.version}\n")
        python()
        said(symarch, "new", archive)
        words = [str(usr / "bin/symarch-server"), "--listen", "127.0.0.1:0", str(archive)]
        environment = {**os.environ, "SYMARCH": lifted(self.room)}
        with subprocess.Popen(words, stdout=subprocess.PIPE, stderr=subprocess.DEVNULL, env=environment) as process:
            assert process.stdout
            line = process.stdout.readline().decode()
            process.terminate()
        self.assertRegex(line, SERVES)
        self.assertEqual(process.returncode, 0)


ASK = """import urllib.request
url = open("served").read().split()[-1]
print(urllib.request.urlopen(url + "reports", open("report.crash", "rb").read()).read().decode())
"""
SERVE = """symarch-server --listen 127.0.0.1:0 builds.sym >served 2>log &
for at in $(seq 1500); do grep -q http served && break; sleep 0.2; done
python3 ask; kill $!; wait $!; cat log >&2"""


class InRoot(PackageCase):
    """Both packages in a fresh root that has Flask and waitress of Debian."""

    seconds = 30

    def test_installed(self) -> None:
        """dpkg installs them, a report is named by HTTP, and nothing is left."""
        root = str(self.room / "root")
        os.mkdir(root)
        try:
            fresh_root.make(root, "python3-flask", "python3-waitress")
        except (fresh_root.NotGranted, subprocess.CalledProcessError) as lack:
            raise Without(f"no fresh root: {lack}") from None
        home = Path(root, "root")
        for name in (self.made.names["deb"], self.made.server):
            shutil.copy(self.made.folder / name, home)
        shutil.copy(CRASHES / "spool-1.dSYM", home)
        shutil.copy(CRASHES / "arm64.crash", home / "report.crash")
        (home / "ask").write_text(ASK)
        for script, wanted in (
            ("dpkg -i symarch_*.deb symarch-server_*.deb", ""),
            ("dpkg -s symarch-server | grep ^Status; dpkg -V symarch-server", "Status: install ok installed\n"),
            ("symarch-keep add builds.sym spool-1.dSYM", "added"),
            (SERVE, " copy_body + 12 (spool.c:9)"),
            ("ls /usr/lib/symarch/symarch_*/__pycache__ | grep -c '^\\(keep\\|app\\)[.].*pyc$'", "2\n"),
            ("dpkg -r symarch-server; find /usr /lib -name '*symarch?server*'; echo none", "\nnone\n"),
            ("dpkg -r symarch; find /usr /lib -name '*symarch*'; echo none", "\nnone\n"),
        ):
            done = fresh_root.run(root, script)
            self.assertEqual(done.returncode, 0, done.stdout + done.stderr)
            self.assertIn(wanted, done.stdout, done.stderr)
            self.assertNotIn("not compiled", done.stderr)
        self.assertNotIn("/symarch", done.stdout)
