"""`symarch-keep add` on trees of each kind of file: names, links, rights, full disks, kills at each step. What has to
be in the archive and what has to be printed is made by tests.support, from mach-o/loader.h, mach-o/fat.h and
docs/FILES.md."""
import fcntl
import functools
import os
import pathlib
import re
import resource
import shutil
import signal
import subprocess
import sys
import time
from typing import Any, Dict, List, Tuple

from .support.cases import Without, Wrong, is_done, powerless_over, same
from .support.made_images import EMPTY, archive, image, line, symbols_outside, thirty_two_bit, universal
from .support.made_trees import OUTSIDE, passed_over, refused_files, taken_files
from .support.program import MOST_SECONDS, Word, symarch
from .support.rooms import Gate, Room, RoomCase, bytes_of, keep, today_of
from .support.waits import has_open, wait_until

OTHER_USER = ["setpriv", "--reuid=65534", "--regid=65534", "--groups=65533"]


class Kinds(RoomCase):
    """What goes in, and what is said of each file."""

    seconds = 6

    def test_every_kind(self) -> None:
        """The kinds of files: what goes in, what is passed over, and what is refused."""
        made, wanted, over, refused = taken_files(self.room)
        over += passed_over(self.room)
        refused += refused_files(self.room)
        said, errors = self.room.add("tree", status=2, words=["--verbose"])
        self.room.has(archive(made))
        same("lines", said, wanted)
        same("errors", sorted(errors[:-1]), sorted(f"symarch-keep: {one}" for one in over + refused))
        kinds = "32-bit images 6, big-endian images 1, images without a UUID 2, links to folders 1, "
        kinds += "object files without a UUID 2, other files 5, other parts 1, static libraries 4, "
        kinds += "universal files without a part 1"
        counts = f"12 added, 0 known, 0 retired, {len(refused)} refused, passed over {len(over)} ({kinds})"
        same("last line", errors[-1], f"symarch-keep: {counts}")
        again, errors = self.room.add("tree", status=2)
        same("lines of the second add", again, [one.replace("added", "known") for one in wanted])
        same("errors of the second add", sorted(errors[:-1]), sorted(f"symarch-keep: {one}" for one in refused))

    def test_twice(self) -> None:
        """A second add of the same changes nothing, and does not touch the archive."""
        made = self.room.make_many(20)
        self.room.file("many/universal", universal(made[:3]))
        said, errors = self.room.add("many")
        same("lines", said[:2], [line("added", made[number], f"many/{number:04}") for number in range(2)])
        same("lines of known slices", said[20:], [line("known", one, "many/universal") for one in made[:3]])
        same("last line", errors, ["symarch-keep: 20 added, 3 known, 0 retired, 0 refused, passed over 0"])
        before = os.stat(self.room.archive)
        said, errors = self.room.add("many")
        self.room.has(archive(made))
        after = os.stat(self.room.archive)
        same("file and time", (after.st_ino, after.st_mtime_ns), (before.st_ino, before.st_mtime_ns))
        same("lines", said[:20], [line("known", one, f"many/{number:04}") for number, one in enumerate(made)])
        same("last line", errors, ["symarch-keep: 0 added, 23 known, 0 retired, 0 refused, passed over 0"])

    def test_batches(self) -> None:
        """What was there stays, in as many adds as there are files."""
        made = self.room.make_many(10)
        for number in range(10):
            self.room.add(f"many/{number:04}")
            self.room.has(archive(made[: number + 1]))
        same("left", self.room.left(), [])

    def test_conflicts(self) -> None:
        """Files of one UUID, and of one length, stand in the order of their bytes, whatever order they come in."""
        made = [image(1, more=bytes([number]) * 2_000_000) for number in (3, 1, 2)] + [image(1, more=b"shorter")]
        for number, one in enumerate(made):
            self.room.file(f"many/{number}", one)
        self.room.add("many")
        self.room.has(archive(made))
        self.room.begin_anew()
        self.room.add("many/2", "many/3", "many/1", "many/0")
        self.room.has(archive(made))

    def test_retired(self) -> None:
        """A slice that is retired stays out; a retirement of other bytes under its key is none of it."""
        gone, there, other = image(1), image(2), image(2, more=b"other")
        self.room.archive.write_bytes(archive([there], retired=[gone, other]))
        for name, content in (("gone", gone), ("there", there)):
            self.room.file(f"many/{name}", content)
        said, errors = self.room.add("many")
        same("lines", said, [line("retired", gone, "many/gone"), line("known", there, "many/there")])
        same("last line", errors, ["symarch-keep: 0 added, 1 known, 1 retired, 0 refused, passed over 0"])
        self.room.has(archive([there], retired=[gone, other]))
        self.room.file("many/new", image(3))
        self.room.add("many")
        self.room.has(archive([there, image(3)], retired=[gone, other]))

    def test_first_version(self) -> None:
        """An archive of version 1 is taken, and becomes one of version 2 where something is new."""
        old, covered, new = image(1), image(2), image(3)
        self.room.archive.write_bytes(archive([old, covered], retired=[covered], magic=b"MSYMARC1"))
        for name, content in (("covered", covered), ("new", new), ("old", old)):
            self.room.file(f"many/{name}", content)
        said, _ = self.room.add("many")
        wanted = (("retired", covered, "covered"), ("added", new, "new"), ("known", old, "old"))
        same("lines", said, [line(word, one, f"many/{name}") for word, one, name in wanted])
        self.room.has(archive([old, new], retired=[covered]))

    def test_nothing_found(self) -> None:
        """No archive is made where nothing is found, with status 1."""
        self.room.file("folder/text", b"text")
        said, errors = self.room.add("folder", status=1)
        last = "symarch-keep: 0 added, 0 known, 0 retired, 0 refused, passed over 1 (other files 1)"
        same("lines", (said, errors), ([], [last]))
        same("made", os.listdir(self.folder), ["folder"])

    def test_absent_path(self) -> None:
        """A path that is not there is told, and the others go in."""
        self.room.file("one", image(1))
        os.mkfifo(self.folder / "pipe")
        said, errors = self.room.add("nowhere", "pipe", "one", status=2)
        same("lines", said, [line("added", image(1), "one")])
        same("errors", errors[:-1], [
            "symarch-keep: nowhere: No such file or directory",
            "symarch-keep: pipe: neither a file nor a folder",
        ])
        self.room.has(archive([image(1)]))


class Paths(RoomCase):
    """Names, folders, links, and many files."""

    seconds = 12

    def test_names(self) -> None:
        """Names with spaces, newlines, bytes that are no UTF-8, and others, of files and of the archive."""
        shown = {
            b"a b  c": "a b  c",
            b"new\nline": "new\\x0aline",
            b"\xff\xfe": "\\xff\\xfe",
            b"\xc3\xa9t\xc3\xa9": "\u00e9t\u00e9",
            b"cut \xc3": "cut \\xc3",
            b"back\\x0a": "back\\x5cx0a",
            b"tab\tescape\x1b[2J": "tab\\x09escape\\x1b[2J",
            b"-dash": "-dash",
            b"\xe2\x80\xae turned": "\\xe2\\x80\\xae turned",
            b"\xc2\xa0 wide": "\\xc2\\xa0 wide",
            b"n" * 255: "n" * 255,
            b"'quote\"*?$(true)": "'quote\"*?$(true)",
        }
        made = {name: image(number) for number, name in enumerate(sorted(shown))}
        for name, one in made.items():
            self.room.file(b"many/" + name, one)
        said, _ = self.room.add("many")
        lines = [line("added", made[name], "many/" + shown[name]) for name in sorted(shown)]
        same("lines", said, lines)
        self.room.has(archive(made.values()))
        for number, name in enumerate((b"of \xff\n\\.sym", b"-dash", "\u00e9".encode())):
            path = os.path.join(os.fsencode(self.folder), name)
            with self.room.start("add", "--", path, b"many") as process:
                process.communicate()
            same(f"archive {number}", pathlib.Path(os.fsdecode(path)).read_bytes(), archive(made.values()))
        self.room.archive = self.folder / "dash.sym"
        self.room.file("-dash", image(99))
        same("lines of -dash", self.room.add("--", "-dash")[0], [line("added", image(99), "-dash")])
        other = dict(os.environ, LC_ALL="C", PYTHONUTF8="0", PYTHONCOERCECLOCALE="0")
        self.room.archive = self.folder / "c.sym"
        said, _ = self.room.add("many", environment=other)
        same("lines in the locale C", said, lines)

    def test_deep(self) -> None:
        """A tree of a thousand folders in one another."""
        here = os.getcwd()
        try:
            os.chdir(self.folder)
            for _ in range(1000):
                os.mkdir("d")
                os.chdir("d")
            pathlib.Path("image").write_bytes(image(1))
        finally:
            os.chdir(here)
        said, _ = self.room.add("d")
        same("lines", said, [line("added", image(1), "d/" * 1000 + "image")])
        self.room.has(archive([image(1)]))

    def test_links(self) -> None:
        """Links in circles, links that lead nowhere, and links to files and folders elsewhere."""
        self.room.file("tree/a/image", image(1))
        self.room.file("elsewhere/image", image(2))
        self.room.file("elsewhere/folder/image", image(3))
        tree = self.folder / "tree"
        places = {"a/up": "..", "a/self": "self", "one": "two", "two": "one", "gone": "nowhere", "here": "."}
        places.update({"file": "../elsewhere/image", "folder": "../elsewhere/folder", "under": "a/image/under"})
        for name, target in places.items():
            (tree / name).symlink_to(target)
        (tree / "same").symlink_to("a/image")
        os.link(tree / "a/image", tree / "hard")
        os.mkfifo(tree / "pipe")
        (self.folder / "named").symlink_to("elsewhere/folder")
        said, errors = self.room.add("tree", "named", "tree/a", "tree", words=["--verbose"])
        same("lines", said, [
            line("added", image(1), "tree/a/image"),
            line("added", image(2), "tree/file"),
            line("added", image(3), "named/image"),
        ])
        kinds = {"pipe": "devices and pipes", **dict.fromkeys(("a/up", "folder", "here"), "links to folders")}
        kinds.update(dict.fromkeys(("a/self", "one", "two", "gone", "under"), "links that lead nowhere"))
        wanted = [f"symarch-keep: tree/{name}: passed over: {kind}" for name, kind in kinds.items()]
        same("errors", sorted(errors[:-1]), sorted(wanted))
        self.room.has(archive([image(1), image(2), image(3)]))
        real = self.folder / "real.sym"
        self.room.archive.rename(real)
        self.room.archive.symlink_to("real.sym")
        self.room.file("more", image(4))
        self.room.add("more")
        same("link of the archive", os.readlink(self.room.archive), "real.sym")
        same("archive behind a link", bytes_of(real), archive([image(number) for number in (1, 2, 3, 4)]))

    def test_unreadable(self) -> None:
        """A file and a folder that may not be read are told, and the others go in."""
        self.room.file("tree/open", image(1))
        self.room.file("tree/file", image(2))
        self.room.file("tree/folder/image", image(3))
        for name in ("file", "folder"):
            os.chmod(self.folder / "tree" / name, 0)
        before = powerless_over(self.folder / "tree/file")
        said, errors = self.room.add("tree", status=2, before=before)
        os.chmod(self.folder / "tree/folder", 0o755)
        same("lines", said, [line("added", image(1), "tree/open")])
        wanted = [f"symarch-keep: tree/{name}: Permission denied" for name in ("file", "folder")]
        same("errors", sorted(errors[:-1]), wanted)
        self.room.has(archive([image(1)]))

    def test_many_files(self) -> None:
        """3,000 files where 256 may be open, and where 16 may."""
        made = self.room.make_many(3000)
        for limit in (256, 16):
            self.room.archive = self.folder / f"{limit}.sym"
            limits = (limit, limit)
            said, _ = self.room.add("many", preexec_fn=lambda: resource.setrlimit(resource.RLIMIT_NOFILE, limits))
            same("lines", said, [line("added", one, f"many/{number:04}") for number, one in enumerate(made)])
            self.room.has(archive(made))


class ManyRefused(RoomCase):
    """Hundreds of files that are refused."""

    seconds = 12

    def test_many_refused(self) -> None:
        """Hundreds of files that are refused keep no other one out, and cost no call for each of those that are not."""
        made, wanted = self.room.make_many(300), []
        for number in range(300):
            self.room.file(f"many/{number:04}.bad", symbols_outside(1000 + number))
            wanted.append(f"symarch-keep: many/{number:04}.bad: Slice(0, {OUTSIDE}")
        for number in range(100):
            self.room.file(f"many/copy-{number:04}", symbols_outside(1000))
            wanted.append(f"symarch-keep: many/copy-{number:04}: Slice(0, {OUTSIDE}")
        self.room.file("many/universal", universal([thirty_two_bit(), symbols_outside(1000)]))
        wanted.append(f"symarch-keep: many/universal: Slice(1, {OUTSIDE}")
        counting = self.room.program(f'echo "$1" >>{self.folder}/calls\nexec "$symarch" "$@"')
        said, errors = self.room.add("many", status=2, environment=counting)
        same("errors", sorted(errors[:-1]), sorted(wanted))
        same("lines", said, [line("added", one, f"many/{number:04}") for number, one in enumerate(made)])
        self.room.has(archive(made))
        calls = (self.folder / "calls").read_text().split("\n")
        same("calls of merge", calls.count("merge"), 2)
        same("calls of admit", calls.count("admit"), 1)
        same("whether there are few calls", len(calls) < 20, True)


def make_large(room: Room) -> Tuple[bytes, bytes, float]:
    """An archive of 20 MB, and as much that it lacks: the archive before and after, and the seconds of an add."""
    noise = bytes(range(256)) * 800
    old = [image(1000 + number, more=noise) for number in range(100)]
    new = room.make_many(100, more=noise)
    before, after = archive(old), archive(old + new)
    room.archive.write_bytes(before)
    began = time.monotonic()
    room.add("many")
    took = time.monotonic() - began
    room.has(after)
    return before, after, took


class Killed(RoomCase):
    """Killed at moments and at the calls of the program."""

    seconds = 15

    def test_killed(self) -> None:
        """Killed at twenty moments, it leaves the old archive or the new one, and the next add clears what was left."""
        before, after, took = make_large(self.room)
        # The first moment is an early one, also where the machine is quicker than it was.
        while not self.leaves_the_old(took / 20, before, after):
            took /= 2
        for moment in range(20):
            self.leaves_the_old(took * (moment + 1) / 20, before, after)
            if moment % 4 == 3:
                self.room.add("many")
                self.room.has(after)
                same(f"left after moment {moment}", self.room.left(), [])

    def leaves_the_old(self, seconds: float, before: bytes, after: bytes) -> bool:
        """Whether the old archive is there, and not the new one, once an add was killed after some seconds."""
        self.room.begin_anew(before)
        unheard = dict.fromkeys(("stdout", "stderr"), subprocess.DEVNULL)
        process = self.room.start("add", self.room.archive, "many", **unheard)  # type: ignore[arg-type]
        time.sleep(seconds)
        process.kill()
        process.wait()
        text = bytes_of(self.room.archive)
        if text not in (before, after):
            raise Wrong(f"killed after {seconds:.3f} s: {len(text)} bytes")
        return text == before

    def test_killed_at_steps(self) -> None:
        """Killed before, in and after each call of the program, it leaves the old archive, or none where none was."""
        made = self.room.make_many(50, more=bytes(20_000))
        old = archive([image(100)])
        for has_old in (True, False):
            for step in ("new", "merge"):
                for script in (
                    f'[ "$1" != {step} ] || kill -9 $PPID\nexec "$symarch" "$@"',
                    f'"$symarch" "$@"\nstatus=$?\n[ "$1" != {step} ] || kill -9 $PPID\nexit $status',
                    f'[ "$1" = {step} ] || exec "$symarch" "$@"\n"$symarch" "$@" & kill -9 $PPID\nwait',
                ):
                    self.room.begin_anew(old if has_old else None)
                    self.room.add("many", status=-9, environment=self.room.program(script))
                    left = bytes_of(self.room.archive) if self.room.archive.exists() else b""
                    same("archive of one killed", left, old if has_old else b"")
                    self.room.add("many")
                    self.room.has(archive(made + [image(100)] * has_old))
                    same("left", self.room.left(), [])


# Runs the tool. Once that made its folder and called a function of C, it sends SIGTERM at a call or at a return from C,
# as a signal comes. (At the return of a function it would skip what that does in the end.)
SENDS_SIGTERM = """import os, runpy, signal, sys
left, called, mkdir = int(os.environ["MOMENT"]), os.environ["CALLED"], os.mkdir
begun = called == "mkdir"
def count(_, event, function):
    global left, begun
    begun = begun or event == "c_return" and function.__name__ == called
    left -= begun and event != "return"
    if left < 0:
        sys.setprofile(None)
        os.kill(os.getpid(), signal.SIGTERM)
def watched(*words, **more):
    mkdir(*words, **more)
    sys.setprofile(count)
os.mkdir = watched
sys.argv = sys.argv[1:]
runpy.run_path(sys.argv[0], run_name="__main__")
"""


def is_going_on(process: "subprocess.Popen[bytes]") -> bool:
    """Whether a process of the session of one that ended is there."""
    try:
        os.killpg(process.pid, 0)
        return True
    except ProcessLookupError:
        return False


def end_of(process: "subprocess.Popen[bytes]") -> None:
    try:
        process.communicate(timeout=MOST_SECONDS)
    except subprocess.TimeoutExpired:
        process.kill()
        raise Wrong("the signal did not end it") from None


class Stopped(RoomCase):
    """Signals end it, and the program with it."""

    seconds = 15

    def test_stopped(self) -> None:
        """SIGINT, SIGTERM and SIGHUP leave the old archive and no other file. One that is ignored does not end it."""
        made = self.room.make_many(50, more=bytes(20_000))
        old = archive([image(100)])
        gate = Gate(self.room, "merge")
        for number in (signal.SIGINT, signal.SIGTERM, signal.SIGHUP):
            # A shell starts what runs behind it with SIGINT ignored.
            for answer, status in ((signal.SIG_DFL, -number), (signal.SIG_IGN, 0)):
                self.room.begin_anew(old)
                gate.opened.unlink(missing_ok=True)
                answering = functools.partial(signal.signal, number, answer)
                how: Dict[str, Any] = {"environment": gate.environment, "preexec_fn": answering}
                with self.room.start("add", self.room.archive, "many", **how) as process:
                    wait_until(self.room.left, process)
                    process.send_signal(number)
                    # One that is not ended by the signal does not end before.
                    if not status:
                        gate.open()
                    end_of(process)
                same("status", (number, process.returncode), (number, status))
                same("left", self.room.left(), [])
                self.room.has(old if status else archive(made + [image(100)]))

    def test_stopped_as_it_begins(self) -> None:
        """SIGTERM at twenty moments in a row after its folder was made, after a program was begun, and as the folder is
        removed, ends the tool and the program, and leaves nothing."""
        self.room.file("many/one", image(1))
        before = [sys.executable, "-BIS", "-c", SENDS_SIGTERM]
        first = self.room.program('[ "$1" != --version ] && exec sleep 5\nexec "$symarch" "$@"', "first")
        merge = self.room.program('[ "$1" = merge ] && exec sleep 5\nexec "$symarch" "$@"', "merge")
        for called, program in (("mkdir", first), ("fork_exec", first), ("listdir", merge)):
            for moment in range(20):
                self.room.begin_anew(archive([image(100)]))
                environment = {"CALLED": called, "MOMENT": str(moment), **program}
                how: Dict[str, Any] = {"environment": environment, "before": before, "start_new_session": True}
                with self.room.start("add", self.room.archive, "many", **how) as process:
                    process.communicate(timeout=MOST_SECONDS)
                where = f"{moment} moments after {called}"
                same(f"status {where}", process.returncode, -signal.SIGTERM)
                same(f"left {where}", self.room.left(), [])
                same(f"whether something goes on {where}", is_going_on(process), False)


class Several(RoomCase):
    """Several calls and several users at one archive."""

    seconds = 8

    def test_two_at_once(self) -> None:
        """Of two at once both are in; so are ten."""
        wait = '[ "$1" != merge ] || sleep 0.5'
        slow = self.room.program(f'{wait}\n"$symarch" "$@"\nstatus=$?\n{wait}\nexit $status')
        made = [image(number) for number in range(12)]
        for number, one in enumerate(made):
            self.room.file(f"many/{number}", one)
        with self.room.start("add", self.room.archive, "many/0", environment=slow) as first:
            with self.room.start("add", self.room.archive, "many/1", environment=slow) as second:
                first.communicate()
                second.communicate()
        same("statuses", (first.returncode, second.returncode), (0, 0))
        self.room.has(archive(made[:2]))
        several = [self.room.start("add", self.room.archive, f"many/{number}") for number in range(2, 12)]
        for process in several:
            process.communicate()
        same("statuses", [process.returncode for process in several], [0] * 10)
        self.room.has(archive(made))

    def test_locked(self) -> None:
        """It waits for who has the lock, also through a link to the archive, and reads the archive after that."""
        for number in (1, 3, 4):
            self.room.file(f"many/{number}", image(number))
        self.room.archive.write_bytes(archive([image(2)]))
        (self.folder / "link.sym").symlink_to("site.sym")
        with open(f"{self.room.archive}.lock", "w") as lock:
            fcntl.flock(lock, fcntl.LOCK_EX)
            process = self.room.start("add", "link.sym", "many")
            wait_until(lambda: has_open(process.pid, f"{self.room.archive}.lock"), process)
            same("status while another has the lock", process.poll(), None)
            self.room.archive.write_bytes(archive([image(3)], retired=[image(4)]))
            (self.folder / "site.sym.making-other").mkdir()
        said = process.communicate()[0].decode().split("\n")[:-1]
        same("status", process.returncode, 0)
        words = ((1, "added"), (3, "known"), (4, "retired"))
        same("lines", said, [line(word, image(number), f"many/{number}") for number, word in words])
        self.room.has(archive([image(1), image(3)], retired=[image(4)]))
        same("left", self.room.left(), [])

    def test_shared(self) -> None:
        """Users of one group add to one archive, which stays with the group."""
        if os.getuid() or not is_done([*OTHER_USER, "true"]):
            raise Without("another user takes root's rights")
        for number in range(2):
            self.room.file(f"{number}", image(number))
        os.chown(self.folder, 0, 65533)
        os.chmod(self.folder, 0o2777)
        self.room.add("0")
        os.chmod(self.room.archive, 0o660)
        self.room.add("1", before=OTHER_USER)
        self.room.has(archive([image(0), image(1)]))
        after = os.stat(self.room.archive)
        same("owner and rights", (after.st_uid, after.st_gid, oct(after.st_mode & 0o777)), (65534, 65533, oct(0o660)))
        words = [one.split(" ", 1)[1] for one in pathlib.Path(f"{self.room.archive}.log").read_text().split("\n")[:-1]]
        same("lines of the log", words, [line("added", image(number), f"{number}") for number in range(2)])


TRACE = """
import os, runpy, sys

def told(word):
    path = os.readlink(f"/proc/self/fd/{word}") if isinstance(word, int) else os.fsdecode(word)
    return os.path.basename(path)

def traced(name, call):
    def carry_out(*words):
        call(*words)
        with open(os.environ["TRACE"], "a") as file:
            print(name, *map(told, words), file=file)
    return carry_out

for name in ("fsync", "replace", "rename"):
    setattr(os, name, traced(name, getattr(os, name)))
sys.argv = sys.argv[1:]
sys.path[0] = os.path.dirname(sys.argv[0])
runpy.run_path(sys.argv[0], run_name="__main__")
"""


def steps_of(room: Room, trace: pathlib.Path) -> List[str]:
    """What was done since this was last asked, without the folder's name."""
    steps = [step for step in trace.read_text().split("\n") if step]
    trace.unlink()
    return [step.replace(f"fsync {room.path.name}", "fsync folder") for step in steps]


def put_in_place(name: str, *more: str, names: str = "", made: str = "") -> List[str]:
    """The steps by which a file takes the place of one, and those of its names, its log and its index, which is one
    that symarch made and synced, or has tables that are copied."""
    steps = [*([] if made else ["fsync new.idx"]), *laid("site.sym.log.next", *([names] if names else []))]
    steps += [f"fsync {made or 'new.idx'}", f"replace {made or 'new.idx'} {name}.idx.next"]
    steps += ["fsync folder", f"replace new {name}", "fsync folder"]
    return steps + [*more, f"replace {name}.idx.next {name}.idx"]


def laid(*names: str) -> List[str]:
    """The steps by which files are made beside an archive."""
    return [step for name in names for step in ("fsync kept", f"replace kept {name}")]


class InPlace(RoomCase):
    """How a new archive takes the place of one."""

    seconds = 4

    def test_synced(self) -> None:
        """A new file, which symarch has synced, is renamed, then its folder is synced. Who has the old one open reads
        that. The index of symarch is renamed too, if it is that of the new file. A fold empties ARCHIVE.today once
        ARCHIVE has all of it."""
        self.room.file("one", image(1))
        self.room.archive.write_bytes(archive([image(2)]))
        os.chmod(self.room.archive, 0o640)
        if os.getuid() == 0:
            os.chown(self.room.archive, 65534, 65533)
        before, trace = os.stat(self.room.archive), self.folder / "trace"
        how: Dict[str, Any] = {"before": [sys.executable, "-c", TRACE], "environment": {"TRACE": str(trace)}}
        self.room.add("one", **how)
        self.room.has(archive([image(1), image(2)]))
        builds = "site.sym.builds"
        rest = f"replace {builds}.next {builds}", "fsync folder", "fsync site.sym.log"
        steps = ["fsync main.idx", "replace main.idx site.sym.idx"]
        steps += put_in_place("site.sym.today", *rest, names=f"{builds}.next", made="came.idx")
        same("steps of add", steps_of(self.room, trace), steps)
        with open(self.room.archive, "rb") as old, open(today_of(self.room.archive), "rb") as old_today:
            self.room.call("fold", self.room.archive, **how)
            same("the old files", (old.read(), old_today.read()), (archive([image(2)]), archive([image(1)])))
        same("archives", self.room.archive.read_bytes(), archive([image(1), image(2)]))
        same("archive of today", today_of(self.room.archive).read_bytes(), EMPTY)
        steps = [*put_in_place("site.sym"), "fsync new", *put_in_place("site.sym.today")]
        same("steps of fold", steps_of(self.room, trace), steps)
        for path in (self.room.archive, today_of(self.room.archive)):
            after = os.stat(path)
            rights = [(it.st_mode, it.st_uid, it.st_gid) for it in (after, before)]
            same(f"rights of {path.name}", *rights)

    def test_read_only(self) -> None:
        """An archive that may not be written is replaced all the same, and keeps its rights."""
        before = OTHER_USER if os.getuid() == 0 else []
        if not is_done([*before, "test", "-x", symarch]):
            raise Without("another user cannot run the program")
        self.room.file("one", image(1))
        os.chmod(self.folder, 0o777)
        self.room.archive.write_bytes(archive([image(2)]))
        os.chmod(self.room.archive, 0o444)
        self.room.add("one", before=before)
        self.room.call("fold", self.room.archive, before=before)
        same("archive", self.room.archive.read_bytes(), archive([image(1), image(2)]))
        for path in (self.room.archive, today_of(self.room.archive)):
            same(f"rights of {path.name}", oct(os.stat(path).st_mode & 0o777), oct(0o444))

    def test_leftovers(self) -> None:
        """What one that was killed left is removed, also where nothing is new, and nothing else beside the archive."""
        self.room.file("one", image(1))
        others = ["site.sym.new", "site.sym.new-folder/new", "other.sym.making-1/new", "site.sym-adding/new"]
        for name in others:
            self.room.file(name, b"kept")
        for _ in range(2):
            self.room.file("site.sym.making-killed/new", b"half")
            self.room.add("one")
            same("left", self.room.left(), ["site.sym.new", "site.sym.new-folder"])
            same("of others", [name for name in others if (self.folder / name).exists()], others)
            self.room.has(archive([image(1)]))


class Changing(RoomCase):
    """Files that change while they are read."""

    seconds = 10

    def test_growing(self) -> None:
        """A file to which another program writes stays out, and the others go in."""
        made = self.room.make_many(2)
        self.room.file("many/large", image(9, more=bytes(20_000_000)))
        with subprocess.Popen(["sh", "-c", "while :; do printf more; done >>many/large"], cwd=self.folder) as writer:
            try:
                said, errors = self.room.add("many", status=2)
            finally:
                writer.kill()
        same("lines", said, [line("added", one, f"many/{number:04}") for number, one in enumerate(made)])
        same("errors", errors[:-1], ["symarch-keep: many/large: changed while it was read"])
        self.room.has(archive(made))

    def test_changing(self) -> None:
        """A file that changes, or goes away, before its bytes are given to the program stays out. The others go in, and
        so does the same slice in another file."""
        changes = {
            "grows": lambda path: path.write_bytes(path.read_bytes() + b"more"),
            "shrinks": lambda path: path.write_bytes(path.read_bytes()[:100]),
            "turns": lambda path: path.write_bytes(path.read_bytes()[:-1] + b"x"),
            "goes": lambda path: path.unlink(),
        }
        for name, change in changes.items():
            made = self.room.make_many(3, more=bytes(2_000_000))
            self.room.file("many/same", made[0])
            self.room.archive = self.folder / f"{name}.sym"
            with open(f"{self.room.archive}.lock", "w") as lock:
                fcntl.flock(lock, fcntl.LOCK_EX)
                process = self.room.start("add", self.room.archive, "many")
                assert process.stderr
                process.stderr.readline()
                change(self.folder / "many/0000")
            said, errors = (text.decode().split("\n")[:-1] for text in process.communicate())
            same("status", process.returncode, 2)
            self.room.has(archive(made))
            places = ((1, "many/0001"), (2, "many/0002"), (0, "many/same"))
            same("lines", said, [line("added", made[number], path) for number, path in places])
            reason = "No such file or directory" if name == "goes" else "changed while it was read"
            told = [f"many/0000: {reason}", f"made {self.room.archive}"]
            same("errors", errors[:-1], [f"symarch-keep: {one}" for one in told])

    def test_written(self) -> None:
        """A byte that changes in the new file, before the program reads that back, keeps its slice out. The others go
        in: as the archive is made, and next to slices that ARCHIVE.today has."""
        large, more = image(100, more=bytes(200_000)), bytes(1000)
        self.room.file("large", large)
        for before, first in ((0, 0), (1, 0), (1, 1)):
            self.room.begin_anew()
            if before:
                self.room.add("large")
                self.room.call("fold", self.room.archive)
            made = self.room.make_many(3, first=10, more=more)
            had = [image(one, more=more) for one in range(first)]
            for one in had:
                self.room.file("had", one)
                self.room.add("had")
            at = archive([*had, *made]).index(made[0]) + len(made[0]) - 1
            changing = f'printf x | dd of="$it" bs=1 seek={at} conv=notrunc status=none'
            once = f'rm "$0.next"; for it in new grown; do [ ! -e "$it" ] || {changing}; done'
            merged = f'[ "$1" != merge ] || [ ! -e "$0.next" ] || {{ {once}; }}'
            script = f'"$symarch" "$@"\nstatus=$?\n{merged}\nexit $status'
            self.room.file("program.next", b"")
            said, errors = self.room.add("many", status=2, environment=self.room.program(script))
            same("lines", said, [line("added", made[one], f"many/{one:04}") for one in (1, 2)])
            same("errors", errors[:-1], ["symarch-keep: many/0000: changed while it was read"])
            self.room.has(archive([*had, *made[1:], *[large] * before]))
            self.room.call("check", self.room.archive)


def close_all(descriptors: Tuple[int, ...]) -> None:
    for descriptor in descriptors:
        os.close(descriptor)


class Faults(RoomCase):
    """What keeps it from writing, or from saying what it wrote."""

    seconds = 8

    def test_damaged(self) -> None:
        """Where the archive is damaged, or none, it stays as it is, with status 4."""
        self.room.file("one", image(1))
        good = archive([image(2)])
        for text, said in (
            (good[:-1], f"{self.room.archive} is cut short: "),
            (good + b"x", "symarch: archive 0: Trailing at"),
            (good[:33] + b"\xff" * 8 + good[41:], "symarch: archive 0: TooLarge at 8"),
            (good[:33] + bytes(7) + b"\x39" + good[41:], "symarch: archive 0: BadTag at 98"),
            (good[:20], f"{self.room.archive} is cut short: "),
            (b"text that is none", f"{self.room.archive} is no archive"),
            (b"", f"{self.room.archive} is no archive"),
        ):
            self.room.archive.write_bytes(text)
            lines, errors = self.room.add("one", status=4)
            same("lines", lines, [])
            same("first error", errors[0].startswith(f"symarch-keep: {said}"), True)
            is_archive = text.startswith(good[:8]) and "cut short" not in said
            same("whether it is said to be as it was", errors[0].endswith("; the archive is as it was"), is_archive)
            same("other errors", errors[1:], [f"  archive 0 is {self.room.archive}"] if "symarch:" in said else [])
            self.room.has(text)
            same("left", self.room.left(), [])
        self.room.archive = self.folder / "nowhere" / "site.sym"
        same("errors", self.room.add("one", status=4)[1], [
            f"symarch-keep: {self.folder}/nowhere: No such file or directory"
        ])
        self.room.archive = self.folder
        told = f"is a folder, and ARCHIVE is first: symarch-keep add ARCHIVE {self.folder} one"
        same("errors", self.room.add("one", status=3)[1], [f"symarch-keep: {self.folder} {told}"])

    def test_full_disk(self) -> None:
        """On a full disk the archive stays as it was, with status 4, and nothing is left."""
        self.room.make_many(20, more=bytes(100_000))
        disk = self.folder / "disk"
        disk.mkdir()
        if not is_done(["mount", "-t", "tmpfs", "-o", "size=1m", "none", disk]):
            raise Without("a disk cannot be mounted")
        try:
            self.room.archive = disk / "site.sym"
            self.room.archive.write_bytes(archive([image(100)]))
            said, errors = self.room.add("many", status=4)
            same("lines", said, [])
            making = rf"{re.escape(str(self.room.archive))}\.making-[^/]+/new"
            told = (
                r"symarch-keep: symarch: output: failed after [0-9]+ bytes; the archive is as it was\n"
                rf"  output is {making}: No space left on device \(os error 28\)"
            )
            self.assertTrue(re.fullmatch(told, "\n".join(errors)), errors)
            self.room.has(archive([image(100)]))
            left = [f"site.sym.{ending}" for ending in ("idx", "lock")]
            same("left", sorted(os.listdir(disk)), ["site.sym", *left])
            self.room.add("many/0000")
            self.room.has(archive([image(100), image(0, more=bytes(100_000))]))
        finally:
            subprocess.run(["umount", disk], check=True)

    def test_limits(self) -> None:
        """A file may have no more bytes, and memory runs out: the archive is as it was, with status 4."""
        self.room.make_many(20, more=bytes(100_000))
        self.room.archive.write_bytes(archive([image(100)]))
        most = (100_000, 100_000)
        _, errors = self.room.add("many", status=4, preexec_fn=lambda: resource.setrlimit(resource.RLIMIT_FSIZE, most))
        same("errors", errors, ["symarch-keep: symarch ended by signal 25; the archive is as it was"])
        fails = '[ "$1" != merge ] || { echo symarch: out of memory >&2; exit 4; }'
        wanting = self.room.program(f'{fails}\nexec "$symarch" "$@"')
        _, errors = self.room.add("many", status=4, environment=wanting)
        same("errors", errors, ["symarch-keep: symarch: out of memory; the archive is as it was"])
        lying = self.room.program('[ "$1" != merge ] || exit 0\nexec "$symarch" "$@"')
        _, errors = self.room.add("many", status=4, environment=lying)
        same("errors", errors, [f"symarch-keep: {self.folder}/program wrote no archive; the archive is as it was"])
        self.room.has(archive([image(100)]))
        same("left", self.room.left(), [])

    def test_streams(self) -> None:
        """Standard output that is full, closed or unread: the archive has all, with status 2. Of one that is unread, as
        before `head`, nothing is said."""
        self.room.file("one", image(1))
        reader, writer = os.pipe()
        os.close(reader)
        with open("/dev/full", "wb") as full:
            counts = "1 added, 0 known, 0 retired, 0 refused, passed over 0"
            for out, reason in ((full, "standard output: No space left on device"), (writer, counts)):
                self.room.begin_anew()
                with self.room.start("add", self.room.archive, "one", stdout=out) as process:
                    errors = process.communicate()[1].decode().split("\n")
                same("status", process.returncode, 2)
                told = [one for one in errors if "made" not in one][0]
                same("errors", told, f"symarch-keep: {reason}")
                self.room.has(archive([image(1)]))
        os.close(writer)
        for closed in ((0,), (1,), (2,), (0, 1, 2)):
            self.room.begin_anew()
            how: Dict[str, Any] = {"preexec_fn": functools.partial(close_all, closed)}
            with self.room.start("add", self.room.archive, "one", **how) as process:
                process.communicate()
            same(f"status with {closed} closed", process.returncode, 2 if 1 in closed else 0)
            self.room.has(archive([image(1)]))
            same("lock", pathlib.Path(f"{self.room.archive}.lock").read_bytes(), b"")


def by_path(room: Room, tool: pathlib.Path, path: str) -> Tuple[int, bytes]:
    """The status of a tool without SYMARCH, and how its errors begin."""
    environment = {**os.environ, "PATH": f"{path}{os.path.dirname(sys.executable)}:/usr/bin:/bin", "SYMARCH": ""}
    words: List[Word] = [tool, "add", room.archive, room.path / "one"]
    done = subprocess.run(words, capture_output=True, env=environment, check=False)
    return done.returncode, done.stderr[:36]


class Words(RoomCase):
    """Programs, and other words."""

    seconds = 10

    def test_programs(self) -> None:
        """Without a program nothing is built, and SYMARCH is said where it is wrong."""
        self.room.file("one", image(1))
        built = self.folder / "built"
        for name in ("sources/packaging/build-program", "sources/symarch"):
            self.room.file(name, f"#!/bin/sh\ntouch {built}\n".encode())
            (self.folder / name).chmod(0o755)
        wrong = self.room.program("exit 0", "other")["SYMARCH"]
        script = str(self.folder / "sources" / "symarch")
        for named in ("/nowhere/symarch", wrong, script, str(self.folder)):
            _, errors = self.room.add("one", status=126, environment={"SYMARCH": named})
            same("errors", (len(errors), errors[0].startswith(f"symarch-keep: SYMARCH is {named}, ")), (1, True))
        alone = self.folder / "alone" / "tools" / "symarch-keep"
        shutil.copytree(pathlib.Path(keep).parent / "symarch_tools", alone.parent / "symarch_tools")
        shutil.copy(keep, alone)
        alone.chmod(0o755)
        for path in ("", f"{self.folder}/sources:"):
            same("without a program", by_path(self.room, alone, path), (126, b"symarch-keep: there is no program sy"))
        same("built, made", (built.exists(), self.room.archive.exists()), (False, False))
        (self.folder / "bin").mkdir()
        (self.folder / "bin/symarch").symlink_to(symarch)
        same("program in PATH", by_path(self.room, alone, f"{self.folder}/bin:")[0], 0)
        self.room.has(archive([image(1)]))

    def test_other_words(self) -> None:
        """Other words end with status 3, and help of each word with 0."""
        for words in ((), ("add",), ("add", "site.sym"), ("add", "--no", "site.sym", "one"), ("remove", "site.sym")):
            with self.room.start(*words) as process:
                said, errors = process.communicate()
            same(f"{words}", (process.returncode, said, errors[:6]), (3, b"", b"usage:"))
        each = ("add", "find", "symbolicate", "name", "fold", "retire", "exchange", "status", "check", "repair")
        for words in (("--help",), *((word, "--help") for word in each)):
            with self.room.start(*words) as process:
                said, errors = process.communicate()
            same(f"{words}", (process.returncode, said[:6], errors), (0, b"usage:", b""))
        same("made", os.listdir(self.folder), [])
