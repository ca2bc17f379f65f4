"""Sites with keys: the files that may be in their folder, their memory, how they meet, and how a key is changed.
Expected archives are made by tests.support, from docs/FILES.md."""
import contextlib
import hashlib
import os
import pathlib
import random
import re
import shutil
import stat
import subprocess
import sys
import time
from typing import Callable, List, Sequence, Tuple

from .support.cases import Without, same
from .support.kills import Left
from .support.made_images import archive, image, slice_words, summary
from .support.program import TOP, is_done, symarch
from .support.rooms import BESIDE, bytes_of, keep
from .support.signers import LATER, SignersCase, ThreeSites, answer_name, beside, builds_name, evil, folder_of, make_key
from .support.signers import mark_name, named, one_of, question_name
from .support.sites import Site, folded, until_same
from .support.waits import wait_until


def words_of(made: bytes) -> str:
    return " ".join(slice_words(made))


class Limits(ThreeSites):
    """Files of other kinds and lengths."""

    seconds = 20

    def test_no_files(self) -> None:
        """Links, pipes, folders, sockets and devices, in the place of files and of signatures."""
        self.begin(self.east, self.west)
        makers: List[Tuple[Callable[[pathlib.Path], object], str]] = [
            (lambda path: path.symlink_to(self.folder / "outside"), "is a link"),
            (lambda path: path.symlink_to("/dev/zero"), "is a link"),
            (lambda path: path.symlink_to(path.name), "is a link"),
            (os.mkfifo, "is no file"),
            (lambda path: path.mkdir(), "is no file"),
        ]
        if is_done(["mknod", self.folder / "zero", "c", "1", "5"]):
            makers.append((lambda path: os.mknod(path, stat.S_IFCHR | 0o666, os.makedev(1, 5)), "is no file"))
        for number, (make, reason) in enumerate(makers):
            data = archive([evil(number)])
            (self.folder / "outside").write_bytes(data)
            for name in (answer_name("west", "east", data), question_name("west", data, LATER),
                         builds_name("west", data, LATER)):
                path = self.forge(name, data, "west")
                path.unlink()
                make(path)
                self.refused(self.east, path, reason)
                path = self.forge(name, data, "west")
                signature = beside(path)
                signature.unlink()
                make(signature)
                self.refused(self.east, path, f"its signature {reason}")

    def test_no_files_where_nobody_signs(self) -> None:
        east = Site(self.room, "east")
        east.add(image(0))
        east.exchange()
        data = archive([evil(0)])
        (self.folder / "outside").write_bytes(data)
        for name in (answer_name("west", "east", data), question_name("west", data), builds_name("west", data, LATER)):
            path = self.shared / name
            path.symlink_to(self.folder / "outside")
            self.refused(east, path, "is a link")
            os.mkfifo(path)
            self.refused(east, path, "is no file")

    def test_where_this_site_writes(self) -> None:
        """No link is followed there either."""
        self.begin(self.east, self.west)
        victim = self.room.file("victim", b"as it was")
        self.east.add(image(60))
        (self.shared / ".east.part").symlink_to(os.fsdecode(victim))
        self.east.exchange()
        same("victim", pathlib.Path(os.fsdecode(victim)).read_bytes(), b"as it was")
        name = one_of(self.east, "asks").name
        self.east.add(image(61))
        for at in (".east.part", name):
            with contextlib.suppress(FileNotFoundError):
                (self.shared / at).unlink()
            (self.shared / at).mkdir()
            _, errors = self.east.exchange(status=2)
            self.assertIn(str(self.shared / at), " ".join(errors))
            (self.shared / at).rmdir()
        until_same([self.east, self.west], archive([image(0), image(1), image(60), image(61)]))

    def test_files_that_are_taken_away(self) -> None:
        """Each file of a site, and each signature, is there again after the next exchange of the site."""
        self.begin(self.east, self.west)
        self.west.add(image(60))
        self.west.exchange()
        own = self.kinds_of(self.west)
        same("kinds", own, ["answers", "asks", "builds", "is"])
        for ending in (".sym", ".sum", ".txt", ".site", ".sig", "."):
            taken = [path for path in self.shared.iterdir() if path.name.startswith("west.") and ending in path.name]
            for one in taken:
                one.unlink()
            self.assertTrue(taken, ending)
            # Its own file that has no signature is named too.
            self.west.exchange(status=2 if ending == ".sig" else 0)
            same(f"kinds after {ending}", self.kinds_of(self.west), own)
        until_same([self.east, self.west], archive([image(0), image(1), image(60)]))

    def kinds_of(self, site: Site) -> List[str]:
        """The kinds of the files of a site in the folder, of which each has its signature."""
        paths = [path for path in self.shared.iterdir() if path.name.startswith(f"{site.name}.")]
        files = [path for path in paths if path.suffix != ".sig"]
        same("files without a signature", [path.name for path in files if not beside(path).exists()], [])
        return sorted(path.name.split(".")[1] for path in files)

    def test_most(self) -> None:
        """A word says how long a file may be, also where nobody signs."""
        self.begin(self.east, self.west)
        self.west.add(image(60, more=bytes(5000)))
        self.west.exchange()
        (answer,) = self.west.answers(self.east)
        words = self.east.words()
        plain = self.folder / "plain.sym"
        shutil.copytree(self.shared, self.folder / "copy")
        for number, others in (("5k", [*words[1:]]), ("4999", [plain, self.folder / "copy", "east", "--take-name"])):
            _, errors = self.room.call("exchange", "--most", number, *others, status=2)
            most = 5000 if number == "5k" else 4999
            same("named", named(errors, pathlib.Path(str(others[1])) / answer), [f"has more than {most} bytes"])
        for number in ("5", "x", "-1", "1K", "1e3", "1.5M", ""):
            status = 2 if number == "5" else 3
            _, errors = self.room.call("exchange", f"--most={number}", *words[1:], status=status)
        same("form", errors[-1], "symarch-keep: BYTES is ``: expected a number of bytes, which may end in k, M, G or T")
        self.room.call("exchange", "--most", "1M", *words[1:])
        same("east", self.east.has(), archive([image(0), image(1), image(60, more=bytes(5000))]))

    def test_a_thousand_files(self) -> None:
        """Each is named, and what is right is joined."""
        self.begin(self.east, self.west)
        self.west.add(image(60))
        self.west.exchange()
        begins = []
        for number in range(250):
            data = b"%d" % number
            begins += [answer_name("west", "east", data), question_name("west", data, LATER)]
            begins += [builds_name("west", data, LATER), mark_name("east", data, LATER)]
        for name in begins:
            self.forge(name, b"text", key="")
        for number in range(1000):
            (self.shared / f"junk.{number}\n").write_bytes(b"x")
        said, errors = self.east.exchange(status=2)
        same("joined", said[0], f"added {words_of(image(60))} west")
        for name in begins:
            same(name, named(errors, self.shared / name), ["has no signature"])
        same("last line", errors[-1], "symarch-keep: 1 added, 0 retired, 0 answered; 0 not whole, 1000 refused")
        same("calls of ssh-keygen", self.calls_of(self.east), [])

    def test_names_of_other_forms(self) -> None:
        """They are left, and never opened."""
        self.begin(self.east, self.west)
        data = archive([evil(0)])
        digest = hashlib.sha256(data).hexdigest()
        others = [f"west.answers.east.{'0' * 16}.{'0' * 16}.{digest}.sym\n", f"..answers.east.x.{digest}.sym"]
        others += [f"west.answers.East.{'0' * 16}.{'0' * 16}.{digest}.sym", "east.asks.sig", "east.sig"]
        for name in others:
            (self.shared / name).write_bytes(data)
        until_same([self.east, self.west], archive([image(0), image(1)]))
        same("left", [name for name in others if not (self.shared / name).exists()], [])


class Remembered(ThreeSites):
    """What a site remembers of signers, in a file of its own."""

    seconds = 30

    def plain(self, site: Site) -> List[object]:
        return site.words()[:4]

    def test_no_exchange_without_keys(self) -> None:
        """Once it signed; also with a damaged file."""
        self.begin(self.east, self.west)
        self.assertIn("signers", BESIDE)
        before = {path: path.read_bytes() for path in self.folder.rglob("*") if path.is_file()}
        kept = pathlib.Path(f"{self.east.archive}.signers")
        for text in (kept.read_bytes(), b"text"):
            kept.write_bytes(text)
            _, errors = self.room.call(*self.plain(self.east), status=4)
            told = f"{kept} shows that this site signs: name --key and --signers"
            same("errors", errors, [f"symarch-keep: {told}; the archive is as it was"])
            before[kept] = text
            after = {path: path.read_bytes() for path in self.folder.rglob("*") if path.is_file()}
            same("files", after, before)
        _, errors = self.east.exchange(status=4)
        self.assertIn(f"{kept} is damaged: bring it back from a backup, or remove it", errors[0])
        out, _ = self.room.call("check", self.east.archive, status=2)
        same("check", out, [f"damaged {kept}"])
        kept.unlink()
        until_same([self.east, self.west], archive([image(0), image(1)]))
        same("folder", folder_of(self.east), self.shared_id)

    def test_words_that_belong_together(self) -> None:
        for words in (self.east.keys[:2], self.east.keys[2:]):
            _, errors = self.room.call(*self.plain(self.east), *words, status=3)
            same("errors", errors, ["symarch-keep: --key and --signers are named together, or neither"])

    def test_before_anything_is_done(self) -> None:
        """Without ssh-keygen, a key or signers; and with a key that they do not have, or that does not sign."""
        self.east.add(image(0))
        before = sorted(os.listdir(self.folder))
        made = [image(0)]

        def refused(told: str, status: int, *words: object, **more: object) -> None:
            _, errors = self.room.call(*self.plain(self.east), *words, status=status, **more)
            self.assertRegex(errors[0], f"^symarch-keep: {told}")
            same("made", (sorted(os.listdir(self.folder)), os.listdir(self.shared)), (before, []))
            same("archive", self.east.has(), archive(made))

        key, signers, keys = self.keys / "east", self.signers, self.east.keys
        nowhere = {"PATH": "/nowhere"}
        refused("there is no ssh-keygen, which signs and verifies: install OpenSSH$", 126, *keys,
                environment=nowhere, before=[sys.executable, "-BIS"])
        refused("nowhere: No such file or directory; the archive", 4, "--key", "nowhere", "--signers", signers)
        refused("nowhere: No such file or directory; the archive", 4, "--key", key, "--signers", "nowhere")
        refused(f"{signers} has no line for east with the key {self.keys / 'mallory'}; ", 4, *self.words_of("mallory"))
        refused(f"{signers} has no line for east with the key {self.keys / 'north'}; ", 4, *self.words_of("north"))
        make_key(self.keys / "locked", "-C", "x")
        subprocess.run(["ssh-keygen", "-q", "-p", "-P", "", "-N", "secret", "-f", self.keys / "locked"], check=True)
        refused(f"{self.keys / 'locked'}: ssh-keygen does not sign: .*passphrase", 4, *self.words_of("locked"),
                start_new_session=True)

    def test_an_agent(self) -> None:
        """A key of which the file has the public half."""
        if not is_done(["sh", "-c", "command -v ssh-agent && command -v ssh-add"]):
            raise Without("there is no ssh-agent")
        socket, self.east.keys = self.folder / "agent", ["--key", self.keys / "east.pub", "--signers", self.signers]
        with subprocess.Popen(["ssh-agent", "-D", "-a", socket], stdout=subprocess.DEVNULL) as agent:
            try:
                wait_until(socket.exists, agent)
                environment = {"SSH_AUTH_SOCK": str(socket)}
                self.assertTrue(is_done(["env", f"SSH_AUTH_SOCK={socket}", "ssh-add", "-q", self.keys / "east"]))
                (self.keys / "east").unlink()
                self.east.add(image(0))
                self.east.exchange(environment=environment)
            finally:
                agent.terminate()
        self.west.exchange()
        self.assertEqual(len(self.west.answers(self.east)), 0)
        self.assertIn("last east ", pathlib.Path(f"{self.west.archive}.signers").read_text())

    def test_a_key_is_changed(self) -> None:
        """The new one is added at all sites, the site signs by it, and the old one is removed."""
        self.begin(self.east, self.west)
        self.east.add(image(60))
        self.east.exchange()
        (answer,) = self.east.answers(self.west)
        self.add_signer("east", make_key(self.keys / "east2"))
        old = beside(self.shared / answer).read_bytes()
        self.east.keys = self.words_of("east2")
        self.east.exchange()
        self.assertNotEqual(beside(self.shared / answer).read_bytes(), old)
        old_key = (self.keys / "east.pub").read_text().split()[1]
        lines = self.signers.read_text().splitlines(True)
        self.signers.write_text("".join(one for one in lines if one.split()[2] != old_key))
        until_same([self.east, self.west], archive([image(0), image(1), image(60)]))
        # The old one counts no more.
        path = self.forge(question_name("east", summary([]), LATER), summary([]), "east")
        self.refused(self.west, path, self.unknown("east"))

    def test_nothing_new(self) -> None:
        """Nothing is verified twice, and no file is touched."""
        self.begin(self.east, self.west)
        self.east.exchange()
        files = [*self.folder.glob("east*"), *self.shared.iterdir()]
        before = [path.stat().st_mtime_ns for path in files]
        same("calls of ssh-keygen", self.calls_of(self.east), [])
        same("times", [path.stat().st_mtime_ns for path in files], before)

    def test_restored_with_what_it_remembers(self) -> None:
        self.begin(self.east, self.west)
        backup = {path: path.read_bytes() for path in self.folder.glob("east.sym*")}
        self.east.add(image(60))
        until_same([self.east, self.west], archive([image(0), image(1), image(60)]))
        for path, data in backup.items():
            path.write_bytes(data)
        self.east.exchange(status=2)
        self.west.exchange()
        self.east.exchange()
        until_same([self.east, self.west], archive([image(0), image(1), image(60)]))


class Meeting(SignersCase):
    """How sites meet in a folder, and how they go on after kills."""

    seconds = 40

    def copy(self, sites: Sequence[Site], dice: random.Random, chance: float = 1.0, half: float = 0.0) -> None:
        """Copies files between the folders of sites, some of them, and some by half. What is whole stays."""
        for source in sites:
            for target in sites:
                for path in sorted(source.folder.iterdir()):
                    if source is not target and dice.random() < chance and not path.name.startswith("."):
                        data, to = path.read_bytes(), target.folder / path.name
                        data = data[: len(data) // 2] if dice.random() < half else data
                        if not to.exists() or to.stat().st_size < len(data):
                            to.write_bytes(data)

    def test_folders_that_are_copied(self) -> None:
        """Once all have begun with the first site's mark, files come in any order, whole or half, and never go."""
        dice = random.Random(7)
        sites = [self.site(name, f"{name}-folder") for name in ("east", "west", "north")]
        made: List[bytes] = []
        sites[0].exchange()
        self.copy(sites, dice)
        for site in sites[1:]:
            site.exchange()
        for number in range(24):
            site, act = dice.choice(sites), dice.random()
            if act < 0.3:
                made.append(image(100 + number, more=bytes([number]) * 500))
                site.add(made[-1])
            elif act < 0.6:
                self.copy(sites, dice, 0.5, 0.2)
            else:
                site.exchange(status=None)
        for _ in range(3):
            self.copy(sites, dice)
            for site in sites:
                site.exchange(status=None)
        until_same(sites, archive(made), between=lambda: self.copy(sites, dice), most=5)
        folded(sites, archive(made))

    def test_each_begins_in_an_empty_copy(self) -> None:
        """All take the folder of the earliest mark, once they meet."""
        dice = random.Random(7)
        sites = [self.site(name, f"{name}-folder") for name in ("east", "west", "north")]
        for number, site in enumerate(sites):
            site.add(image(number))
            site.exchange()
            time.sleep(1.1)
        ids = [folder_of(site) for site in sites]
        same("folders", len(set(ids)), 3)
        for _ in range(5):
            self.copy(sites, dice)
            for site in sites:
                site.exchange(status=None)
        same("folders", {folder_of(site) for site in sites}, {ids[0]})
        made = [image(number) for number in range(3)]
        until_same(sites, archive(made), between=lambda: self.copy(sites, dice), most=5)

    def test_a_site_of_another_folder(self) -> None:
        """Its files are named until it forgets its folder."""
        east, west, north, south = (self.site(name) for name in ("east", "west", "north", "south"))
        north.folder = south.folder = self.folder / "other"
        north.folder.mkdir()
        for number, site in enumerate((north, south, east, west)):
            site.add(image(number))
        until_same([north, south], archive([image(0), image(1)]))
        until_same([east, west], archive([image(2), image(3)]))
        north.folder = east.folder
        north.exchange(status=2)
        _, errors = east.exchange(status=2)
        says = f"its signature has `folder {folder_of(north)}`, and not `folder {folder_of(east)}`"
        same("named", named(errors, one_of(north, "asks")), [says])
        pathlib.Path(f"{north.archive}.signers").unlink()
        for site in (north, east, west, north):
            site.exchange(status=None)
        until_same([north, east, west], archive([image(number) for number in range(4)]))

    def test_the_earliest_mark_counts(self) -> None:
        """A mark that its site did not sign does not."""
        east, _ = self.site("east"), self.site("west")
        make_key(self.keys / "mallory")
        evil_id, real_id = "e" * 64, "a" * 64
        self.put(east.folder, mark_name("west", b"x\n", "20200101T000000Z"), b"x\n", "mallory", evil_id)
        self.put(east.folder, mark_name("west", b"y\n", "20210101T000000Z"), b"y\n")
        self.put(east.folder, mark_name("west", b"z\n", "20220101T000000Z"), b"z\n", "west", real_id)
        self.put(east.folder, mark_name("west", b"w\n", "20230101T000000Z"), b"w\n", "west", "b" * 64)
        east.add(image(1))
        east.exchange()
        same("folder", folder_of(east), real_id)
        # Once a question came with the folder it stays.
        data = summary([])
        self.put(east.folder, question_name("west", data), data, "west", real_id)
        east.exchange()
        self.put(east.folder, mark_name("west", b"v\n", "20190101T000000Z"), b"v\n", "west", "c" * 64)
        east.exchange()
        same("folder", folder_of(east), real_id)

    def test_sites_that_begin_to_sign(self) -> None:
        """What they put there before is signed, and what others do not sign is named until they do."""
        plain = [Site(self.room, "east"), Site(self.room, "west")]
        for number, site in enumerate(plain):
            site.add(image(number))
        until_same(plain, archive([image(0), image(1)]))
        east, west = self.site("east"), self.site("west")
        _, errors = east.exchange(status=2)
        same("named", named(errors, one_of(west, "asks")), ["has no signature"])
        west.exchange(status=None)
        until_same([east, west], archive([image(0), image(1)]))

    def test_killed_before_each_step(self) -> None:
        east, west = self.site("east"), self.site("west")
        old, new, more = image(1), image(2), image(3)
        east.add(old)
        west.add(new)
        east.exchange()
        west.exchange()
        east.add(more)
        with Left(self.room, *east.words()) as left:
            for step in left.each():
                self.assertIn(east.has(), (archive([old, more]), archive([old, new, more])), step)
                files = [path for path in east.folder.iterdir() if path.suffix not in (".sig", ".part")]
                lone = [path for path in files if not beside(path).exists()]
                same(f"files before their signatures at step {step}", lone, [])
                east.exchange()
                west.exchange()
                same(f"archive of west after step {step}", west.has(), archive([old, new, more]))
                signatures = {path for path in east.folder.iterdir() if path.suffix == ".sig"}
                right = {beside(path) for path in east.folder.iterdir() if path.suffix != ".sig"}
                same(f"signatures without a file after step {step}", signatures - right, set())


class Operating(SignersCase):
    """The lines of docs/OPERATING.md for two sites."""

    seconds = 10

    def test_two_sites(self) -> None:
        text = (TOP / "docs" / "OPERATING.md").read_text(encoding="utf-8")
        found = re.search(r"^### Who may send\n.*?^```\n(.*?)^```", text, re.M | re.S)
        assert found
        lines = found[1].splitlines()
        same("lines", len(lines), 3)
        others = [one.replace("east", "west") for one in lines]
        lines, last = [*lines[:2], *others[:2]], [lines[2], others[2]]
        (self.folder / "shared").mkdir()
        tools = self.folder / "bin"
        tools.mkdir()
        (tools / "symarch-keep").symlink_to(keep)
        environment = {**os.environ, "SYMARCH": symarch, "PATH": f"{tools}:{os.environ['PATH']}"}
        for name, number in (("east", 1), ("west", 2)):
            Site(self.room, name).add(image(number))
        for one in [*lines, *last, *last, *last]:
            came = subprocess.run(["sh", "-c", one], cwd=self.folder, env=environment, capture_output=True, check=False)
            same(f"{one}: {came.stderr.decode()}", came.returncode, 0)
        for name in ("east", "west"):
            same(name, bytes_of(self.folder / f"{name}.sym"), archive([image(1), image(2)]))
