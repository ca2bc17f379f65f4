"""The draft that becomes OUT: several runs at once, signals, limits, full disks, SIGKILL at fifty moments; and the
order of calls, by `strace`."""
import contextlib
import errno
import functools
import os
import re
import resource
import signal
import sys
import time
from typing import Any, Callable, Iterator, List, Optional, Sequence, Tuple

from .support import traces
from .support.cases import Wrong, digest_of, pieces_in, same
from .support.made_images import EMPTY, admission, archive, image, number_uuid, operations
from .support.outs import BEFORE, CANNOT_CREATE, CANNOT_REPLACE, COMMANDS, INPUTS, NOTHING, OUT, RETIRED, WITH_ANOTHER
from .support.outs import OutCase, digest, mounted, replaced_by, state_of
from .support.second_lines import ARCHIVE, said_by
from .support.waits import wait_until

# A run is killed at so many moments, in an order that spreads them. On a slow disk not all have their turn.
MOMENTS, STEP, MOST_SECONDS = 50, 7, 40
MEGABYTE = bytes(range(256)) * 3906 + bytes(64)


def pieces_of(numbers: Sequence[int], megabytes: int) -> Iterator[bytes]:
    """The archive of images of these numbers, and of so many megabytes each, in pieces."""
    yield EMPTY[:8]
    for number in sorted(numbers, key=number_uuid):
        yield admission(image(number, more=MEGABYTE * megabytes))
    yield EMPTY[8:9] + len(numbers).to_bytes(8, "big")


class Drafts(OutCase):
    """The draft that becomes OUT, and what comes after it."""

    def taking(self, count: int) -> Callable[[], None]:
        """What takes so many names of drafts before the program begins."""

        def take() -> None:
            for number in range(count):
                (self.folder / f".symarch-{os.getpid()}-{number}").touch(exist_ok=False)

        return take

    def test_taken_names(self) -> None:
        """A draft takes no name of another file. Of a hundred names the last is found, and without one OUT stays."""
        for count in (99, 100):
            self.before = self.taking(count)
            self.out.write_bytes(NOTHING)
            before = state_of(self.out)
            came = self.run_program(COMMANDS["admit"][0])
            same("other files", self.sizes_of_drafts(), [0] * count)
            if count == 99:
                same("of 99", (came[0], self.out.read_bytes()), (0, COMMANDS["admit"][1]))
            else:
                told = f"symarch: {CANNOT_CREATE}\n  output is {self.out}: no name is free for its draft\n"
                same("of 100", (came, state_of(self.out)), ((2, b"", told), before))

    def test_unheard_report(self) -> None:
        """If the report fails OUT is in place."""
        for name, (words, text) in COMMANDS.items():
            with open("/dev/full", "wb") as full:
                came = self.run_program(words, stdout=full)
            told = f"symarch: report: failed after 0 bytes\n  report is standard output{said_by(errno.ENOSPC)}\n"
            same(name, came, (2, b"", told))
            same(f"{name}: OUT", (self.out.read_bytes(), self.drafts()), (text, []))
            self.out.unlink()

    def test_at_once(self) -> None:
        """Of several that write one OUT at once the text of one is there. One that finds an archive which is not below
        its own may be refused."""
        names = [name for name in COMMANDS if name != "new"] * 3
        several = [self.start(COMMANDS[name][0]) for name in names]
        told = [process.communicate()[1].decode().partition("\n")[0] for process in several]
        ends = set(zip((process.returncode for process in several), told))
        same("other ends", ends - {(0, ""), (2, f"symarch: {CANNOT_REPLACE}")}, set())
        texts = [COMMANDS[name][1] for name, process in zip(names, several) if process.returncode == 0]
        same("whether OUT is one of them", (self.out.read_bytes() in texts, self.drafts()), (True, []))


class Stopped(OutCase):
    """What stops a run: a signal, a limit, a full disk."""

    def test_signals(self) -> None:
        """A signal in the midst of a run leaves OUT as it was, and a draft, which no later run touches."""
        pipe = self.folder / "pipe"
        os.mkfifo(pipe)
        signals_heard = signal.SIGINT, signal.SIGTERM, signal.SIGHUP, signal.SIGQUIT

        def hear() -> None:
            resource.setrlimit(resource.RLIMIT_CORE, (0, 0))
            # What a shell runs in the background passes over some of them.
            for number in signals_heard:
                signal.signal(number, signal.SIG_DFL)

        self.before = hear
        for number in (*signals_heard, signal.SIGKILL):
            self.out.write_bytes(BEFORE)
            before = state_of(self.out)
            # Opened for reading too, it does not wait for the program, and has no end.
            with open(pipe, "r+b", buffering=0) as fed, self.start(["merge", "one.sym", OUT, pipe]) as process:
                fed.write(INPUTS["two.sym"][:-1])
                wait_until(self.drafts, process)
                meanwhile = state_of(self.out)
                process.send_signal(number)
                came = process.communicate()
            same("OUT meanwhile", meanwhile, before)
            same(f"signal {number}", (process.returncode, *came), (-number, b"", b""))
            same(f"signal {number}: OUT", state_of(self.out), before)
            same(f"signal {number}: drafts", self.drafts(), [f".symarch-{process.pid}-0"])
            draft = self.folder / self.drafts()[0]
            left = state_of(draft)
            same("a later run", self.run_program(COMMANDS["merge"][0])[0], 0)
            same("OUT and the draft", (self.out.read_bytes(), state_of(draft)), (COMMANDS["merge"][1], left))
            draft.unlink()

    def test_limited(self) -> None:
        """At the limit on the size of files the signal leaves one draft; if it is ignored, none, and a line says so."""

        def limit(answer: Any) -> Callable[[], None]:
            def set_limit() -> None:
                signal.signal(signal.SIGXFSZ, answer)
                resource.setrlimit(resource.RLIMIT_CORE, (0, 0))
                resource.setrlimit(resource.RLIMIT_FSIZE, (10, 10))

            return set_limit

        self.out.write_bytes(NOTHING)
        before = state_of(self.out)
        for words, _ in COMMANDS.values():
            self.before = limit(signal.SIG_IGN)
            self.keeps(words, "output: failed after 10 bytes", said_by(errno.EFBIG))
            self.before = limit(signal.SIG_DFL)
            same(f"{words}", self.run_program(words), (-signal.SIGXFSZ, b"", ""))
            same(f"{words}: OUT and draft", (state_of(self.out), self.sizes_of_drafts()), (before, [10]))

    def test_few_open(self) -> None:
        """A command takes more FILEs than may be open, since each is closed at its end, and one whose turn does not
        come is not opened; the first that cannot be opened is told."""
        slices = [image(number) for number in range(200)]
        files = [self.put(f"image-{number}", it).name for number, it in enumerate(slices)]
        archives = [self.put(f"archive-{number}.sym", archive([it])).name for number, it in enumerate(slices)]
        nowhere = [*files[:150], "nowhere", *files[150:]]
        for most in (64, 16):
            self.before = functools.partial(resource.setrlimit, resource.RLIMIT_NOFILE, (most, most))
            for name, more in (("admit", files), ("merge", archives)):
                self.out.unlink(missing_ok=True)
                status, _, told = self.run_program([name, "one.sym", OUT, *more])
                same(f"{name} with {most}", (status, told, self.out.read_bytes()), (0, "", archive(slices)))
            self.keeps(["admit", "one.sym", OUT, *nowhere], "file 150: cannot open", said_by(errno.ENOENT))
            self.keeps(["admit", "one.sym", OUT, *files, "one.sym", "nowhere"], "file 200: Unrecognised", ARCHIVE)

    def test_full_disk(self) -> None:
        """On a full disk OUT stays, and the draft goes, so that there is room again."""
        made = [image(number, more=MEGABYTE[:100_000]) for number in (5, 6)]
        for name, content in (("large", made[0]), ("large.sym", archive(made[:1])), ("large.ops", operations(made))):
            self.put(name, content)
        disk = self.folder / "disk"
        disk.mkdir()
        with mounted(disk, "-t", "tmpfs", "-o", "size=64k", "none"):
            out = self.put("disk/out.sym")
            before = state_of(out)
            for words in (
                ["admit", "one.sym", OUT, "large"],
                ["merge", "one.sym", OUT, "large.sym"],
                ["merge", "one.sym", OUT, "large.sym", "two.sym"],
                ["migrate", "large.sym", OUT],
                ["apply", "one.sym", OUT, "large.ops"],
                ["delta", "large.sym", "one.sum", OUT],
            ):
                status, printed, told = self.run_program(words, out)
                line, _, second = told.partition("\n")
                count = re.fullmatch(r"symarch: output: failed after ([0-9]+) bytes", line)
                is_so = count is not None and 0 < int(count[1]) <= 65536
                same(f"{words}: second line", second, f"  output is {out}{said_by(errno.ENOSPC)}\n")
                same(f"{words}: {told}", (status, printed, is_so), (2, b"", True))
                same(f"{words}: OUT and drafts", (state_of(out), self.drafts()), (before, []))
            with contextlib.suppress(OSError), open(disk / "rest", "wb", buffering=0) as rest:
                while rest.write(bytes(4096)):
                    pass
            self.keeps(COMMANDS["admit"][0], "output: failed after 0 bytes", said_by(errno.ENOSPC), out=out)
            (disk / "rest").unlink()
            self.places("admit", out=out)


class KilledCase(OutCase):
    """A run that is killed at fifty moments leaves the old file or the new one."""

    def killed(self, words: List[str], new: str, before: bytes = BEFORE) -> None:
        """Kills runs of a command, whose text has this digest, over a file that it replaces."""
        old = digest(before)
        for _ in range(2):
            began = time.monotonic()
            same("status", self.run_program(words)[0], 0)
            seconds = time.monotonic() - began
            same("digest", digest_of(pieces_in(self.out)), new)
        came, began = new, time.monotonic()
        # The first moment is an early one, also where the machine is quicker than it was.
        while came == new:
            self.out.write_bytes(before)
            came = self.kill(words, seconds / MOMENTS, (old, new))
            seconds /= 2 if came == new else 1
        for number in range(1, MOMENTS):
            if came == new:
                self.out.write_bytes(before)
            moment = number * STEP % MOMENTS
            came = self.kill(words, seconds * (moment + 1) / MOMENTS, (old, new))
            if time.monotonic() - began > MOST_SECONDS:
                print(f"{words[0]}: killed at {number + 1} of {MOMENTS} moments", file=sys.stderr)
                break

    def kill(self, words: List[str], seconds: float, digests: Tuple[str, str]) -> str:
        """Kills a run after some seconds, removes its draft, and returns the digest of what is at OUT."""
        with self.start(words) as process:
            time.sleep(seconds)
            process.kill()
            printed = process.communicate()[0]
        came, left = digest_of(pieces_in(self.out)), self.drafts()
        if came not in digests:
            raise Wrong(f"killed after {seconds:.3f} s: OUT has {self.out.stat().st_size} bytes")
        if left not in ([], [f".symarch-{process.pid}-0"]) or left and process.returncode == 0:
            raise Wrong(f"killed after {seconds:.3f} s: drafts {left}")
        if came == digests[0] and (printed or process.returncode == 0):
            raise Wrong(f"killed after {seconds:.3f} s: OUT is old, and there was a report")
        for name in left:
            (self.folder / name).unlink()
        return came


class KilledAdmit(KilledCase):
    """`admit` of 200 MB."""

    seconds = 40

    def test_admit(self) -> None:
        self.put("empty.sym", EMPTY)
        for number in range(4):
            self.put(f"large-{number}", image(number, more=MEGABYTE * 50))
        words = ["admit", "empty.sym", OUT, *(f"large-{number}" for number in range(4))]
        self.killed(words, digest_of(pieces_of(range(4), 50)))


class KilledMerge(KilledCase):
    """`merge` with one FILE, which writes while it reads."""

    seconds = 40

    def test_merge(self) -> None:
        for name, numbers in (("even.sym", range(0, 200, 2)), ("odd.sym", range(1, 200, 2))):
            with open(self.folder / name, "wb") as file:
                file.writelines(pieces_of(numbers, 1))
        self.killed(["merge", "even.sym", OUT, "odd.sym"], digest_of(pieces_of(range(200), 1)))


class KilledExtract(KilledCase):
    """`extract` of 100 MB."""

    seconds = 40

    def test_extract(self) -> None:
        large = image(1, more=MEGABYTE * 100)
        self.put("both.sym", archive([large]))
        self.killed(COMMANDS["extract"][0], digest(large), NOTHING)


class KilledAtCalls(OutCase):
    """A run that is killed before one of its calls, at each of them."""

    is_side_by_side = True
    seconds = 30

    def test_absent(self) -> None:
        for name in COMMANDS:
            self.killed_at_each(name, None)

    def test_there(self) -> None:
        for name in COMMANDS:
            self.killed_at_each(name, replaced_by(name)[-1])

    def killed_at_each(self, name: str, before: Optional[bytes]) -> None:
        """Before it is renamed OUT is as it was, and nothing is printed; then it is whole. In between, the draft is
        left."""
        words, text = COMMANDS[name]
        self.bring(before)
        calls = self.calls(words)
        created = next(at for at, it in enumerate(calls) if "O_EXCL" in it.line)
        renamed = next(at for at, it in enumerate(calls) if it.kind == "rename")
        same(f"{name}: calls", 0 < created < renamed < len(calls) - 2, True)
        for at, call in enumerate(calls):
            self.bring(before)
            was = state_of(self.out)
            status, printed, told = self.run_program(words, under=call.killing())
            what = f"{name}, killed before {call}"
            same(what, (status, told), (-signal.SIGKILL, ""))
            if at <= renamed:
                same(f"{what}: OUT and the report", (state_of(self.out), printed), (was, b""))
            else:
                same(f"{what}: OUT", self.out.read_bytes(), text)
            same(f"{what}: drafts", len(self.sizes_of_drafts()), int(created < at <= renamed))

    def bring(self, before: Optional[bytes]) -> None:
        self.out.unlink(missing_ok=True)
        if before is not None:
            self.out.write_bytes(before)

    def calls(self, words: List[str]) -> List[traces.Call]:
        """What a run calls, from the first call on that names OUT or an input."""
        traces.need_strace()
        trace = self.folder / "trace"
        same(f"{words}", self.run_program(words, under=["strace", "-qq", "-o", trace])[0], 0)
        calls = traces.calls_in(trace.read_text())
        first = next(at for at, it in enumerate(calls) if ".sym" in it.line and not it.line.startswith("execve"))
        return calls[first:]


class Calls(OutCase):
    """What is called of the system."""

    def test_turns(self) -> None:
        """Each input is opened at its turn, after the one before it was closed, and none behind a refused one."""
        traces.need_strace()
        for words, wanted in (
            (["admit", "one.sym", OUT, "two", "one"], ["one", "one.sym", "two"]),
            (["admit", "one.sym", OUT, "one.sym", "two"], ["one.sym", "one.sym"]),
            (["merge", "one.sym", OUT, "two.sym", "three.sym"], ["one.sym", "three.sym", "two.sym"]),
            (["apply", "one.sym", OUT, "two.ops"], ["one.sym", "two.ops"]),
            (["delta", "both.sym", "one.sum", OUT], ["both.sym", "one.sum"]),
            (["find", "one.sym", RETIRED[0]], ["one.sym"]),
            (["find", "one.sym", RETIRED[0], "--with", "two.sym"], ["one.sym", "two.sym"]),
        ):
            self.out.unlink(missing_ok=True)
            trace = self.folder / "trace"
            self.run_program(words, under=["strace", "-y", "-qq", "-o", trace, "-e", "trace=openat,open,close"])
            read = [traces.input_in(line, self.folder) for line in trace.read_text().split("\n")]
            inputs = [it for it in read if it in INPUTS]
            same(f"{words}: opened, and then closed", inputs[::2], inputs[1::2])
            same(f"{words}", sorted(inputs[::2]), wanted)

    def traced(self, words: List[str], out: Optional[str] = None) -> str:
        """What a run calls of the system that makes, changes or removes a file."""
        trace = self.folder / "trace"
        self.run_program(words, out, under=traces.words(trace))
        return " > ".join(traces.steps(trace.read_text(), self.folder))

    def test_calls(self) -> None:
        """A draft is created, written, synced and renamed, and its folder is synced, before the report. Nothing else is
        made, and what was there is opened and not written."""
        traces.need_strace()
        wanted = "create DRAFT > write DRAFT > sync DRAFT > rename DRAFT out.sym > sync . > report"
        for name, (words, _) in COMMANDS.items():
            self.out.unlink(missing_ok=True)
            same(f"{name}, OUT absent", self.traced(words), wanted)
            same(f"{name}, OUT there", self.traced(words, out="out.sym"), f"open out.sym > {wanted}")
        (self.folder / "link").symlink_to(self.put("elsewhere/real.sym"))
        wanted = "open link > create elsewhere/DRAFT > write elsewhere/DRAFT > sync elsewhere/DRAFT > "
        wanted += "rename elsewhere/DRAFT elsewhere/real.sym > sync elsewhere > report"
        same("through a link", self.traced(COMMANDS["admit"][0], out="link"), wanted)
        self.refused_calls()

    def refused_calls(self) -> None:
        """Those of runs that are refused, and of what is no regular file."""
        self.put("cut.sym", INPUTS["two.sym"][:-1])
        self.out.write_bytes(WITH_ANOTHER[0])
        for words in (["admit", "one.sym", OUT, "cut.sym"], ["merge", "one.sym", OUT, "two.sym", "cut.sym"]):
            same(f"{words}", self.traced(words), "fault")
        wanted = "open out.sym > create DRAFT > write DRAFT > remove DRAFT > fault"
        same("merge with a cut FILE", self.traced(["merge", "one.sym", OUT, "cut.sym"]), wanted)
        same("new over records", self.traced(["new", OUT]), wanted)
