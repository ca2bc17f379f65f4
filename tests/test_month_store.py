"""A month of one site, step after step: wrong arguments, locks, a long log, conflicts, cut archives, a lost disk,
unforeseen faults."""
import fcntl
import os
import pathlib
import re
import shutil
import subprocess
import sys
from typing import Any, List, Tuple

from .support.builds import BuildsCase
from .support.cases import powerless_over, same
from .support.growth import LONGER, MOST_RATIO, ratio
from .support.made_images import archive, image, line, slice_words
from .support.program import MOST_SECONDS, TOP, call
from .support.rooms import Room, RoomCase, bytes_of, changed_tool, keep, today_of
from .support.sites import Site
from .support.waits import has_open, wait_until

CRASH = TOP / "examples" / "crash"
OPERATING = TOP / "docs" / "OPERATING.md"
DSYM = 10
# Waits until a file is there, and not for ever.
UNTIL = f'for at in $(seq {10 * MOST_SECONDS}); do [ -e "$0" ] && break; sleep 0.1; done'
FAULT = r"ValueError('two\nlines \x1b[31m')"
# Completes a log of so many lines that lacks all of what is to be added to it, and prints the processor time.
COMPLETING = """
import os, sys, time

sys.path.insert(0, {folder})
from symarch_tools.store.log import Log

count = int(sys.argv[1])
lines = [b"2026-11-03T08:00:00Z added 4c4c4419-5555-3144-a1d2-4341c97782f0 arm64 %064x many/%d\\n" % (at, at)
         for at in range(2 * count)]
for ending, some in ((".log", lines[:count]), (".log.next", lines[count:])):
    with open("many.sym" + ending, "wb") as file:
        file.writelines(some)
began = time.process_time()
Log(b"many.sym.log", b"many.sym.log.next", None).add_pending()
print(time.process_time() - began)
with open("many.sym.log", "rb") as file:
    assert file.read() == b"".join(lines)
"""


def words_of(made: bytes) -> str:
    return " ".join(slice_words(made))


class Month(RoomCase):
    """A site of one team."""

    seconds = 60

    def test_month(self) -> None:
        """The steps, in their order."""
        for name in [name for name in vars(Month) if name.startswith("step_")]:
            with self.subTest(name[len("step_") :]):
                getattr(self, name)()

    def path(self, ending: str = "") -> pathlib.Path:
        return pathlib.Path(f"{self.room.archive}{ending}")

    def ends(self, *words: Any, tool: str = "", **how: Any) -> Tuple[int, List[str], List[str]]:
        """The status and the lines of a call, which does not wait for ever."""
        room = Room(self.folder)
        room.tool = tool or keep
        with room.start(*words, **how) as process:
            try:
                out, errors = process.communicate(timeout=MOST_SECONDS)
            except subprocess.TimeoutExpired:
                process.kill()
                raise
        return process.returncode, out.decode().splitlines(), errors.decode().splitlines()

    def fails(self, words: List[Any], told: str, status: int, **how: Any) -> None:
        """A word prints nothing, says this line alone, and ends with this status."""
        same(f"{words}", self.ends(*words, **how), (status, [], [f"symarch-keep: {told}"]))

    # ---- the first days

    def step_01_help_is_a_word(self) -> None:
        of_words: List[List[str]] = [[], ["add"], ["list"]]
        for words in of_words:
            came = self.ends("help", *words)
            same("status", came[0], 0)
            same(f"{words}", came, self.ends(*words, "--help"))
        self.assertIn("`ad` is no command of symarch-keep", self.ends("help", "ad")[2][-1])

    def step_02_no_archive_is_there_yet(self) -> None:
        """No word says of an archive that is not there that it is as it was."""
        told = "nofile.sym: No such file; symarch-keep add makes an archive"
        uuid = slice_words(image(1))[0]
        for words, status in (
            (["find", "nofile.sym", uuid], 2),
            (["list", "nofile.sym"], 2),
            (["name", "nofile.sym", "_a"], 2),
            (["get", "nofile.sym", uuid, "--to", "out"], 2),
            (["fold", "nofile.sym"], 4),
            (["status", "nofile.sym"], 4),
            (["check", "nofile.sym"], 4),
            (["retire", "nofile.sym", *slice_words(image(1))], 4),
        ):
            self.fails(words, told, status)
        self.fails(["exchange", "nofile.sym", "nowhere", "east"], "nowhere: No such file or directory", 4)
        same("made", [it for it in os.listdir(self.folder) if it.startswith("nofile")], [])

    def step_03_a_dsym_is_named_as_the_archive(self) -> None:
        inside = self.folder / "App.dSYM/Contents/Resources/DWARF"
        inside.mkdir(parents=True)
        (inside / "App").write_bytes(image(1, kind=DSYM))
        bundle = "App.dSYM is a dSYM: run symarch-keep add builds.sym App.dSYM, then name builds.sym"
        uuid = slice_words(image(1))[0]
        for words, status in (
            (["find", "App.dSYM", uuid], 2),
            (["symbolicate", "App.dSYM", uuid, "arm64", "0"], 2),
            (["name", "App.dSYM/", "_a"], 2),
            (["list", "App.dSYM"], 2),
            (["get", "App.dSYM", uuid, "--to", "out"], 2),
            (["fold", "App.dSYM"], 4),
            (["status", "App.dSYM"], 4),
            (["check", "App.dSYM"], 4),
            (["repair", "App.dSYM", "App.dSYM"], 4),
            (["retire", "App.dSYM", *slice_words(image(1))], 4),
        ):
            self.fails(words, bundle, status)
        path = "App.dSYM/Contents/Resources/DWARF/App"
        told = f"{path} is a dSYM: run symarch-keep add builds.sym {path}, then name builds.sym"
        self.fails(["find", path, uuid], told, 2)
        shutil.copy(CRASH / "spool-1.dSYM", self.folder / "spool.dSYM")
        told = "spool.dSYM is a dSYM: run symarch-keep add builds.sym spool.dSYM, then name builds.sym"
        self.fails(["find", "spool.dSYM", uuid], told, 2)
        for name in ("App.dSYM", "spool.dSYM"):
            told = f"{name} is a dSYM, and ARCHIVE is first: symarch-keep add new.sym {name}"
            self.fails(["add", name, "new.sym"], told, 3)

    def step_04_the_archive_is_made_and_its_lock_is_of_the_group(self) -> None:
        """Whatever rights other new files have. A lock that is there stays as it is."""
        self.room.file("many/first", image(1, more=bytes(5000)))
        self.room.call("add", self.room.archive, "many", preexec_fn=lambda: os.umask(0o077) and None)
        same("rights", oct(self.path(".lock").stat().st_mode & 0o7777), oct(0o660))
        self.path(".lock").chmod(0o644)
        self.room.call("fold", self.room.archive)
        same("rights", oct(self.path(".lock").stat().st_mode & 0o7777), oct(0o644))

    def step_05_who_may_not_open_the_lock_is_told_its_path(self) -> None:
        self.path(".lock").chmod(0)
        before = powerless_over(self.path(".lock"))
        told = f"{self.path('.lock')}: Permission denied; the archive is as it was"
        _, errors = self.room.call("fold", self.room.archive, status=4, before=before)
        same("errors", errors, [f"symarch-keep: {told}"])
        self.path(".lock").unlink()

    # ---- ARCHIVE.today

    def step_06_the_file_of_today_is_no_archive_to_write_to(self) -> None:
        """Neither by its name nor through a link, whether the archive is there yet or not; so what is printed as added
        is there after a fold."""
        for number in (2, 3, 4, 5):
            self.room.file(f"builds/{number}", image(number))
        (self.folder / "link.sym").symlink_to("site.sym.today")
        (self.folder / "elsewhere").symlink_to(".")
        self.room.call("add", self.room.archive, "builds/2")
        self.room.file("third.sym", archive([image(6)]))
        (self.folder / "third.sym.today").symlink_to("away.sym")
        for name, place in (
            ("site.sym.today", "site.sym"),
            ("third.sym.today", "third.sym"),
            ("link.sym", "site.sym"),
            ("elsewhere/site.sym.today", "site.sym"),
            ("other.sym.today", "other.sym"),
        ):
            told = f"{name} has the newest additions to {self.folder / place}: name that"
            for words in (["add", name], ["add", "--dry-run", name], ["exchange", name, "."]):
                self.fails([*words, "builds"], told, 3)
        self.assertTrue(today_of(self.room.archive).exists())
        today = "site.sym.today"
        more = (["fold", today], ["status", "--accept", today], ["repair", today, "site.sym"])
        for words in (*more, ["retire", today, *slice_words(image(2))]):
            same(f"{words}", self.ends(*words)[0], 3)
        self.room.call("add", self.room.archive, "builds")
        added = [image(number) for number in (2, 3, 4, 5)]
        self.room.call("fold", self.room.archive)
        self.room.has(archive([image(1, more=bytes(5000)), *added]))
        same("beside", sorted(path.name for path in self.folder.glob("*.sym.today.*")), ["site.sym.today.idx"])

    # ---- the log

    def step_07_a_log_of_many_lines_is_completed_in_one_pass(self) -> None:
        """It takes time in proportion to its lines."""
        self.assertLessEqual(ratio(lambda: self.completed(4000), lambda: self.completed(LONGER * 4000)), MOST_RATIO)

    def completed(self, count: int) -> float:
        """The processor time in which a log of so many lines is completed."""
        code = COMPLETING.replace("{folder}", repr(os.path.dirname(os.path.realpath(keep))))
        came = call([sys.executable, "-c", code, str(count)], cwd=self.folder)
        same("errors", came.errors, b"")
        return float(came.lines[0])

    def step_08_a_log_that_was_written_in_part_is_completed(self) -> None:
        """Lines that are equal, and the last one cut anywhere: no line is there twice, and none is missing."""
        code = COMPLETING.partition("count =")[0].replace("{folder}", repr(os.path.dirname(os.path.realpath(keep))))
        code += (
            "import itertools\n"
            "for some in itertools.product((b'a\\n', b'ab\\n'), repeat=4):\n"
            "    text = b''.join(some)\n"
            "    for before, size in itertools.product((b'', b'a\\n', b'b\\nab\\n'), range(len(text) + 1)):\n"
            "        for ending, data in (('.log', before + text[:size]), ('.log.next', text)):\n"
            "            with open('part.sym' + ending, 'wb') as file:\n"
            "                file.write(data)\n"
            "        Log(b'part.sym.log', b'part.sym.log.next', None).add_pending()\n"
            "        with open('part.sym.log', 'rb') as file:\n"
            "            made = file.read()\n"
            "        assert made.endswith(text) and made.startswith(before), (before, text, size, made)\n"
            "        assert len(made) <= len(before) + len(text), (before, text, size, made)\n"
        )
        came = call([sys.executable, "-c", code], cwd=self.folder)
        same("errors", came.errors, b"")

    # ---- locks

    def step_09_who_waits_says_after_a_while_who_has_the_lock(self) -> None:
        """At first nothing is said; a lock is free soon."""
        for patience, said in ((3600, ""), (0.5, "waiting for the lock")):
            room, free = Room(self.folder), self.folder / f"free after {patience}"
            room.tool = changed_tool(self.folder, "from symarch_tools.store import lock", f"lock.PATIENCE = {patience}")
            with subprocess.Popen(["flock", self.path(".lock"), "sh", "-c", UNTIL, free]) as holder:
                wait_until(self.is_locked, holder)
                with room.start("fold", self.room.archive) as process:
                    assert process.stderr
                    line = process.stderr.readline().decode() if said else ""
                    wait_until(lambda: has_open(process.pid, self.path(".lock")), process)
                    free.touch()
                    errors = process.communicate(timeout=MOST_SECONDS)[1].decode().splitlines()
            same("status, number of lines", (process.returncode, len(errors)), (0, 1))
            wanted = f"symarch-keep: {said} {self.path('.lock')}, which is held by process {holder.pid} "
            self.assertTrue(not said or line.startswith(wanted) and "flock" in line, line)

    def is_locked(self) -> bool:
        with open(self.path(".lock"), "rb") as file:
            try:
                fcntl.flock(file, fcntl.LOCK_EX | fcntl.LOCK_NB)
            except BlockingIOError:
                return True
        return False

    def step_10_a_word_waits_as_long_as_it_is_told(self) -> None:
        """Then it ends with 4, and says who has the lock; the archive and the lock stay."""
        before = bytes_of(self.room.archive)
        self.room.file("later/6", image(6))
        calls: List[List[Any]] = [["add", "later"], ["fold"], ["retire", *slice_words(image(1))], ["check"]]
        calls += [["exchange", ".", "east"], ["repair", self.room.archive], ["status"]]
        with open(self.path(".lock"), "r+b") as lock:
            fcntl.flock(lock, fcntl.LOCK_EX)
            for number, (word, *more) in enumerate(calls):
                seconds = "0.3" if number == 0 else "0"
                options = ["--wait", seconds, *["--accept"] * (word == "status")]
                status, out, errors = self.ends(word, *options, self.room.archive, *more)
                told = f"symarch-keep: waited {seconds} s for the lock {self.path('.lock')}, which is held by"
                same(word, (status, out, len(errors)), (4, [], 1))
                self.assertTrue(errors[0].startswith(f"{told} process {os.getpid()} "), errors)
        same("bytes", bytes_of(self.room.archive), before)
        status, _, errors = self.ends("fold", "--wait", "soon", self.room.archive)
        same("status", status, 3)
        same("errors", errors, ["symarch-keep: SECONDS is `soon`: expected a number of seconds"])

    def step_11_a_pipe_is_no_archive(self) -> None:
        """Neither as ARCHIVE, nor beside it, nor as FROM; nobody waits for what writes to it."""
        os.mkfifo(self.folder / "pipe.sym")
        for words, status in (
            (["add", "pipe.sym", "builds"], 4),
            (["list", "pipe.sym"], 2),
            (["find", "pipe.sym", slice_words(image(1))[0]], 2),
            (["fold", "pipe.sym"], 4),
            (["status", "pipe.sym"], 4),
            (["check", "pipe.sym"], 4),
            (["exchange", "pipe.sym", ".", "east"], 4),
        ):
            self.fails(words, "pipe.sym is a pipe, a socket or a device, and no archive", status)
        told = "pipe.sym is a pipe, a socket or a device, and no archive; the archive is as it was"
        self.fails(["repair", "site.sym", "pipe.sym"], told, 4)
        shutil.copy(self.room.archive, self.folder / "beside.sym")
        os.mkfifo(self.folder / "beside.sym.today")
        told = "beside.sym.today is a pipe, a socket or a device, and no archive; the archive is as it was"
        self.fails(["add", "beside.sym", "builds"], told, 4)

    # ---- asking

    def step_12_a_symbol_that_has_an_underscore_is_named(self) -> None:
        self.room.call("add", "spool.sym", CRASH / "spool-1.dSYM")
        told = "note: there is no symbol copy_body, but there is _copy_body"
        self.fails(["name", "spool.sym", "copy_body"], told, 1)
        same("found", self.ends("name", "spool.sym", "_copy_body")[0::2], (0, []))

    def step_13_a_uuid_is_there_under_another_architecture(self) -> None:
        uuid = "4c4c4419-5555-3144-a1d2-4341c97782f0"
        came = self.ends("symbolicate", "spool.sym", uuid, "arm64e", "100000410")
        told = f"symarch-keep: {uuid} is in the archive under arm64, and not under arm64e"
        same("of another", came, (1, ["0x0000000100000410 ?"], [told]))
        same("of its own", self.ends("symbolicate", "spool.sym", uuid, "arm64", "100000410")[2], [])
        none = slice_words(image(900))[0]
        same("of none", self.ends("symbolicate", "spool.sym", none, "arm64", "0")[2], [])

    def step_14_what_is_not_held_is_said(self) -> None:
        uuid = slice_words(image(900))[0]
        self.fails(["find", "spool.sym", uuid.upper().replace("-", "")], f"the archive has no {uuid}", 1)

    def step_15_a_conflict_is_named(self) -> None:
        """By `status`, in JSON too, and by `list`, which marks what other builds have not."""
        made = [image(7, kind=DSYM), image(7, kind=DSYM, more=b"another"), image(7), image(8), image(8, more=b"more")]
        for number, one in enumerate([*made, image(9)]):
            self.room.file(f"twice/{number}", one)
        self.room.call("add", "twice.sym", "twice")
        out, _ = self.room.call("status", "twice.sym")
        keys = sorted(" ".join(slice_words(one)[:2]) for one in (made[0], made[3]))
        self.assertIn("conflicts 2", out)
        same("named", [one for one in out if one.startswith("conflict ")], [f"conflict {key} 2" for key in keys])
        end = self.room.call("status", "--json", "twice.sym")[0][-1]
        for key in keys:
            uuid, arch = key.split(" ")
            self.assertIn(f'{{"uuid": "{uuid}", "arch": "{arch}", "answering": 2}}', end)
        listed = {one.split(" ")[4]: one.split(" ")[7] for one in self.room.call("list", "twice.sym")[0]}
        marks = {slice_words(image(number))[0]: mark for number, mark in ((7, "dsym!2"), (8, "image!2"), (9, "image"))}
        same("marked", listed, marks)
        objects = self.room.call("list", "--json", "twice.sym")[0][:-1]
        same("answering", sorted(re.findall(r'"answering": ([0-9]+)', "".join(objects))), ["1", "2", "2"])

    # ---- retiring

    def step_16_a_quiet_addition_prints_what_is_retired(self) -> None:
        self.room.call("retire", self.room.archive, *slice_words(image(3)))
        came = self.ends("add", "--quiet", self.room.archive, "builds")
        same("printed", came, (0, [line("retired", image(3), "builds/3")], []))
        status, out, _ = self.ends("add", "--quiet", "--json", self.room.archive, "builds")
        same("objects", (status, len(out)), (0, 5))
        self.assertTrue(out[-1].startswith('{"type": "end"'), out)
        same("nothing", self.ends("add", "--quiet", self.room.archive, "builds/2"), (0, [], []))

    # ---- damage

    def step_17_an_archive_that_is_cut_short(self) -> None:
        """With its index and without, as ARCHIVE and as a file beside it."""
        text = archive([image(number, more=bytes(300)) for number in range(5)])
        told = "is cut short: restore it from a backup or another site"
        (self.folder / "cut.sym").write_bytes(text)
        self.room.call("fold", "cut.sym")
        words = [(["find", "cut.sym", slice_words(image(1))[0]], 2), (["name", "cut.sym", "_a"], 2)]
        words += [(["list", "cut.sym"], 2), (["fold", "cut.sym"], 4), (["status", "cut.sym"], 4)]
        words += [(["add", "cut.sym", "builds/2"], 4)]
        for size in (len(text) - 1, len(text) - 400, 60, 5):
            os.truncate(self.folder / "cut.sym", size)
            for one, status in words:
                self.fails(one, f"cut.sym {told}", status)
        (self.folder / "cut.sym.idx").unlink()
        for size in (len(text) - 400, 60, 5):
            (self.folder / "cut.sym").write_bytes(text[:size])
            for one, status in words:
                self.fails(one, f"cut.sym {told}", status)
        (self.folder / "cut.sym").write_bytes(text)
        (self.folder / "cut.sym.today").write_bytes(text[:400])
        self.fails(["add", "cut.sym", "builds/2"], f"cut.sym.today {told}", 4)

    def step_18_a_lost_archive_is_not_made_anew(self) -> None:
        """What stands beside it says that it was there."""
        self.room.file("gone.sym", archive([image(1)]))
        self.room.call("fold", "gone.sym")
        (self.folder / "gone.sym").unlink()
        self.fails(["fold", "gone.sym"], "gone.sym: No such file; restore it from a backup or another site", 4)

    # ---- what nobody foresaw

    def step_19_no_exception_leaves_a_tool_as_a_traceback(self) -> None:
        """It is one line, with status 4, and --debug prints the rest; nothing of it reaches a terminal as it is."""
        report = TOP / "tests/fixtures/reports/abort.ips"
        statements = ["def fault(*_):", f"    raise {FAULT}"]
        keeping = changed_tool(
            self.folder, *statements, "from symarch_tools.commands import fold", "fold.carry_out = fault"
        )
        reading = changed_tool(
            self.folder,
            *statements,
            "from symarch_tools import symbolicate",
            "symbolicate.carry_out_or_end = fault",
            module="symbolicate",
        )
        parsing = changed_tool(self.folder, *statements, "from symarch_tools import keep", "keep.parse = fault")
        calls: List[Tuple[str, str, List[Any]]] = [
            (keeping, "symarch-keep", ["fold", self.room.archive]),
            (parsing, "symarch-keep", ["fold", self.room.archive]),
            (reading, "symbolicate-report", [report, self.room.archive]),
        ]
        for tool, name, words in calls:
            status, out, errors = self.ends(*words, tool=tool)
            same(f"{name}: status", (status, out, len(errors)), (4, [], 1))
            self.assertTrue(errors[0].startswith(f"{name}: unexpected: ValueError: two\\x0alines \\x1b[31m"), errors)
            for debugged in (["--debug", *words], [*words, "--debug"]):
                status, _, more = self.ends(*debugged, tool=tool)
                same("status and line", (status, more[:1]), (4, errors))
                self.assertIn("Traceback (most recent call last):", more)
                same("characters of control", [one for one in more if not one.isprintable()], [])

    def step_20_quiet_and_json_end_as_ever_if_something_is_not_foreseen(self) -> None:
        tool = changed_tool(
            self.folder,
            "from symarch_tools.commands import status",
            f"def fault(*_):\n    raise {FAULT}",
            "status.lost_of = fault",
        )
        status, out, errors = self.ends("status", "--json", "--quiet", self.room.archive, tool=tool)
        same("status", (status, len(out), len(errors)), (4, 1, 1))
        self.assertIn('"status": 4', out[0])


class Names(BuildsCase):
    """What `list` says of an app that it does not have."""

    seconds = 3

    def test_an_app_by_another_name(self) -> None:
        self.bundle("dSYMs", image(1, kind=DSYM), app="com.example.spool")
        self.room.add("dSYMs")
        for name, alike in (
            ("Spool", "com.example.spool"),
            ("com.exmaple.spool", "com.example.spool"),
            ("spol", "com.example.spool"),
            ("quite-other", None),
        ):
            out, errors = self.room.call("list", "--app", name, self.room.archive, status=1)
            asked = f"; did you mean {alike}?" if alike else ""
            same(name, (out, errors), ([], [f"symarch-keep: no app {name}{asked}"]))
        words = ["list", "--app", "com.example.spool", "--since", "2999-01-01", self.room.archive]
        same("an app without such a build", self.room.call(*words, status=1), ([], []))


class Restored(RoomCase):
    """A site that lost its disk: what can be known of what came in after the backup."""

    seconds = 12

    def test_after_a_lost_disk(self) -> None:
        """The log is that of the backup. `status` names what this site had asked with, the logs of others what they
        had of it; what came in after its last exchange nobody knows, and an `add` of all builds brings it."""
        east, west = (Site(self.room, name) for name in ("east", "west"))
        made = [image(number, more=bytes(50)) for number in range(4)]
        for number, one in enumerate(made):
            self.room.file(f"builds/{number}", one)
        self.room.call("add", east.archive, "builds/0")
        for site in (east, west, east, west):
            site.exchange()
        backup = self.folder / "backup"
        backup.mkdir()
        for path in self.folder.glob("east.sym*"):
            shutil.copy2(path, backup)
        self.room.call("add", east.archive, "builds/1")
        for site in (east, west, east, west):
            site.exchange()
        self.room.call("add", east.archive, "builds/2")
        east.exchange()
        self.room.call("add", east.archive, "builds/3")
        for path in self.folder.glob("east.sym*"):
            path.unlink()
        for path in backup.iterdir():
            shutil.copy2(path, self.folder)
        log = pathlib.Path(f"{east.archive}.log")
        same("names in the log", [words_of(one) in log.read_text() for one in made], [True, False, False, False])
        east.exchange(status=2)
        for site in (west, east):
            site.exchange(status=None)
        lost = [one for one in self.room.call("status", east.archive, status=2)[0] if one.startswith("lost ")]
        same("lost", lost, [f"lost {words_of(made[2])}"])
        others = pathlib.Path(f"{west.archive}.log").read_text()
        named = [f"added {words_of(one)} east\n" in others for one in made]
        same("in the log of the other site", named, [True, True, False, False])
        out, _ = self.room.call("add", east.archive, "builds")
        same("added", [one.split(" ")[0] for one in out], ["known", "known", "added", "added"])
        self.room.call("status", east.archive)
        section = OPERATING.read_text(encoding="utf-8").partition("## Backup and restore\n")[2].partition("\n## ")[0]
        self.assertNotIn("by the names in the log", section)
        for word in ("`status`", "log of another site", "`known`"):
            self.assertIn(word, " ".join(section.split()))
