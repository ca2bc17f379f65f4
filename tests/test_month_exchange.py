"""A month of sites that exchange over one folder, into which anyone may write, step after step: wrong clocks and times,
faulty and many answers, runs, limits."""
import hashlib
import os
import pathlib
import time
import zipfile
from typing import List

from .support.cases import same
from .support.made_images import archive, image, slice_words, summary
from .support.packed_files import tarred, zipped
from .support.rooms import Room, RoomCase, bytes_of, keep
from .support.signers import SignersCase, answer_name, builds_name, builds_of, mark_name, named, question_name
from .support.sites import Site, until_same

FAR, NO_DATE = "99991231T235959Z", "20269999T999999Z"
DAY = 24 * 60 * 60
# What is said of such times.
AHEAD, NONE = "its time is more than a day ahead", "its time is no date"
# Runs the tool with other clocks, limits or counts.
CHANGED = """#!/usr/bin/env -S python3 -BIS
import os, sys, time
sys.path.insert(0, {folder})
{change}
from symarch_tools.keep import main
sys.exit(main())
"""
CLOCK = """
real, real_date = time.time, time.gmtime
time.time = lambda: real() + {seconds}
time.gmtime = lambda at=None: real_date(time.time() if at is None else at)
"""
# Counts the answers in a folder each time that a file is renamed into it.
COUNTED = """
most = [0]
def look(event, words):
    if event == "os.rename" and os.fsdecode(words[1]).startswith({shared}):
        count = sum(name.startswith("east.answers.north.") and name.endswith(".sym") for name in os.listdir({shared}))
        most[0] = max(most[0], count + os.fsdecode(words[1]).endswith(".sym"))
        open({out}, "w").write(str(most[0]))
sys.addaudithook(look)
"""
LIMITED = """
from symarch_tools.formats import packed_files
packed_files.MOST_TIMES, packed_files.MOST_OF_ALL = 2, 100_000
"""


def time_at(seconds: float) -> str:
    """The time in so many seconds."""
    return time.strftime("%Y%m%dT%H%M%SZ", time.gmtime(time.time() + seconds))


def words_of(made: bytes) -> str:
    return " ".join(slice_words(made))


def keep_text(lines: List[str]) -> bytes:
    """A file that is kept beside an archive."""
    text = "".join(f"{line}\n" for line in ("symarch-keep 1", *lines)).encode()
    return text + f"sha256 {hashlib.sha256(text).hexdigest()}\n".encode()


def lines_of(path: pathlib.Path) -> List[str]:
    """The lines of such a file."""
    return path.read_text().splitlines()[1:-1]


def changed(room: Room, change: str, name: str) -> str:
    """The path of a tool that is changed so."""
    tool = room.path / name
    folder = repr(os.path.dirname(os.path.realpath(keep)))
    tool.write_text(CHANGED.replace("{folder}", folder).replace("{change}", change))
    tool.chmod(0o755)
    return str(tool)


class Month(RoomCase):
    """Two sites of a team, and what others put into their folder."""

    seconds = 60

    def test_month(self) -> None:
        """The steps, in their order."""
        for name in [name for name in vars(Month) if name.startswith("step_")]:
            with self.subTest(name[len("step_") :]):
                self.begin()
                getattr(self, name)()

    def begin(self) -> None:
        """Each day has a folder of its own."""
        self.tearDown()
        self.setUp()
        self.made = [image(number) for number in range(4)]
        self.east, self.west = Site(self.room, "east"), Site(self.room, "west")
        self.shared = self.east.folder
        self.east.add(self.made[0])
        self.west.add(self.made[1])
        self.both = [self.east, self.west]
        until_same(self.both, archive(self.made[:2]))

    def put(self, name: str, data: bytes) -> pathlib.Path:
        path = self.shared / name
        path.write_bytes(data)
        return path

    def asks_in_time(self) -> None:
        """Fails unless each question there is of this day, and east remembers none of a later one."""
        times = [name.split(".")[2] for name in os.listdir(self.shared) if ".asks." in name]
        same("times of other days", [at for at in times if not time_at(-DAY) < at < time_at(DAY)], [])
        kept = [line.split(" ") for line in lines_of(pathlib.Path(f"{self.east.archive}.asked"))]
        same("times to come", [it for it in kept if it[0] in ("asked", "gave") and it[1] > time_at(DAY // 2)], [])

    def goes_on(self) -> None:
        """The sites come to have what each of them adds."""
        self.east.add(self.made[2])
        self.west.add(self.made[3])
        until_same(self.both, archive(self.made))
        self.asks_in_time()

    def tool_of(self, clock: int) -> None:
        """East has this clock from now on, by how many seconds it is wrong."""
        room = Room(self.folder)
        room.tool = changed(self.room, CLOCK.replace("{seconds}", str(clock)), "clocked")
        self.east.room = room if clock else self.room

    # ---- times

    def step_a_time_that_another_wrote_stops_no_site(self) -> None:
        data = summary(self.made[:2])
        for name, text in ((question_name("east", data, FAR), data),
                           (builds_name("east", b"", FAR), b""),
                           (mark_name("east", b"other\n", FAR), b"other\n")):  # fmt: skip
            path = self.put(name, text)
            _, errors = self.east.exchange(status=2)
            same("named", named(errors, path), [AHEAD])
            same("is there", path.exists(), False)
            same("errors of the next call", self.east.exchange()[1][:-1], [])
        self.goes_on()

    def step_a_time_of_the_same_day_stops_no_site(self) -> None:
        """It is no fault, and is no time of this site either."""
        data = summary(self.made[:1])
        path = self.put(question_name("east", data, time_at(DAY // 2)), data)
        self.east.add(self.made[2])
        self.east.exchange()
        (asked,) = [name for name in os.listdir(self.shared) if name.startswith("east.asks.")]
        same("is later", asked.split(".")[2] < time_at(60), True)
        same("is there", path.exists(), False)
        self.west.add(self.made[3])
        until_same(self.both, archive(self.made))

    def step_times_that_do_not_count_are_named_by_all(self) -> None:
        data = summary([])
        for at, reason in ((FAR, AHEAD), (time_at(2 * DAY), AHEAD), (NO_DATE, NONE)):
            for name_of in (question_name, builds_name, mark_name):
                path = self.put(name_of("north", data, at), data)
                _, errors = self.west.exchange(status=2)
                same("named", (named(errors, path), path.exists()), ([reason], True))
                same("answers", [it for it in os.listdir(self.shared) if ".answers." in it], [])
                path.unlink()
        self.goes_on()

    def step_a_site_that_is_stopped_runs_again(self) -> None:
        """What it asked with has times that no site reads."""
        asked = pathlib.Path(f"{self.east.archive}.asked")
        for times in ([FAR], [FAR, "100000101T000000Z"], ["100000101T000001Z"]):
            lines = lines_of(asked)
            digest = next(line.split(" ")[2] for line in reversed(lines) if line.startswith("asked "))
            others = [line for line in lines if not line.startswith("asked ")]
            asked.write_bytes(keep_text([*(f"asked {at} {digest}" for at in times), *others]))
            for path in self.shared.glob("east.asks.*"):
                path.unlink()
            said, _ = self.east.exchange()
            same("asked", [line.split(" ")[0] for line in said], ["asked"])
            self.asks_in_time()
            until_same(self.both, archive(self.made[:2]))
        self.goes_on()

    def step_a_site_whose_clock_was_wrong_runs_once_it_is_right(self) -> None:
        for years in (10, -10):
            self.begin()
            self.tool_of(years * 365 * DAY)
            self.east.add(self.made[2])
            self.east.exchange(status=None)
            _, errors = self.west.exchange(status=2 if years > 0 else None)
            same("is named", any(line.endswith(AHEAD) for line in errors), years > 0)
            self.tool_of(0)
            for site in self.both:
                site.exchange(status=None)
            self.west.add(self.made[3])
            until_same(self.both, archive(self.made))
            self.asks_in_time()

    # ---- answers that come

    def runs(self, count: int) -> List[str]:
        """The commands that the program is called for by one exchange, to which so many sites have answered."""
        self.begin()
        for number in range(count):
            data = archive([image(100 + number), image(200)])
            self.put(answer_name(f"site-{number}", "east", data), data)
        counting = self.room.program(f'echo "$1" >>{self.folder}/calls\nexec "$symarch" "$@"')
        said, _ = self.east.exchange(environment=counting)
        added = [f"added {words_of(image(100 + number))} site-{number}" for number in range(count)]
        added.append(f"added {words_of(image(200))} site-0")
        same("lines", sorted(said[: count + 1]), sorted(added))
        same("east", self.east.has(), archive([*self.made[:2], image(200), *(image(100 + it) for it in range(count))]))
        same("answers that stay", [it for it in os.listdir(self.shared) if ".answers.east." in it], [])
        return (self.folder / "calls").read_text().split()

    def step_all_answers_are_joined_by_one_run(self) -> None:
        few, many = self.runs(3), self.runs(6)
        joins = [sum(command in ("merge", "delta") for command in commands) for commands in (few, many)]
        same("joins of three answers and of six", joins, [joins[0], joins[0]])
        same("calls for each answer", len(many) - len(few), 3)

    def step_an_answer_with_a_fault_keeps_no_other_out(self) -> None:
        bad = archive([image(300)]).replace(image(300), image(300)[:-1] + b"\x00")
        for name, data in (("a", archive([image(301)])), ("b", bad[:-1]), ("c", archive([image(302)]))):
            self.put(answer_name(name, "east", data), data)
        short = archive([image(303)[:40]])
        path = self.put(answer_name("d", "east", short), short)
        retired = archive([], retired=[image(301)])
        self.put(answer_name("e", "east", retired), retired)
        said, errors = self.east.exchange(status=2)
        same("lines", said[:2], [f"added {words_of(image(302))} c", f"retired {words_of(image(301))} e"])
        same("named", len(named(errors, path)), 1)
        same("east", self.east.has(), archive([*self.made[:2], image(302)], retired=[image(301)]))

    # ---- what others ask

    def step_a_question_is_read_once(self) -> None:
        """Nor are names of builds, once they are joined. By its name and length a file is what it was."""
        data, text = summary([*self.made[:2], image(9)]), builds_of(image(9), "nine")
        paths = [self.put(question_name("north", data), data), self.put(builds_name("north", text), text)]
        self.east.exchange()
        for path in paths:
            path.write_bytes(bytes(path.stat().st_size))
        _, errors = self.east.exchange()
        same("last line", errors[-1], "symarch-keep: 0 added, 0 retired, 0 answered; 0 not whole, 0 refused")
        # One of another length is read, and so is each if this site has something new.
        self.east.add(self.made[2])
        _, errors = self.east.exchange()
        same("last line", errors[-1].rpartition("; ")[2], "2 not whole, 0 refused")
        for path in paths:
            path.write_bytes(b"half")
        _, errors = self.east.exchange()
        same("last line", errors[-1].rpartition("; ")[2], "2 not whole, 0 refused")

    def step_a_question_that_was_read_is_answered(self) -> None:
        """What it lacked is known, and is sent again if the answer is lost, and with what came in since."""
        data = summary(self.made[:1])
        self.put(question_name("north", data), data)
        for number in (2, 3):
            for _ in range(2):
                self.east.exchange()
                (answer,) = self.shared.glob("east.answers.north.*.sym")
                same("answer", answer.read_bytes(), archive(self.made[1:number]))
                self.east.exchange()
                same("is the same", answer.exists(), True)
                answer.unlink()
            self.east.add(self.made[number])

    def step_one_answer_is_under_way_to_a_site(self) -> None:
        change = COUNTED.replace("{shared}", repr(str(self.shared))).replace("{out}", repr(f"{self.folder}/most"))
        room = Room(self.folder)
        room.tool = changed(self.room, change, "counting")
        self.east.room = room
        for number in range(3):
            data = summary([image(50 + it) for it in range(number)])
            self.put(question_name("north", data, time_at(number - 60)), data)
            self.east.exchange()
            same("answers", len(list(self.shared.glob("east.answers.north.*.sym"))), 1)
            same("answers at once", (self.folder / "most").read_text(), "1")

    def step_what_goes_out_has_a_limit(self) -> None:
        """Twenty questions of 17 bytes get one copy of the archive, and keep no site waiting that lacks little."""
        self.east.add(image(20, more=bytes(10_000)))
        empty, most = summary([]), 15_000
        self.west.exchange(status=None)
        paths = [self.put(question_name(f"site-{number}", empty), empty) for number in range(20)]
        lacking = summary([self.made[0], image(20, more=bytes(10_000))])
        self.put(question_name("little", lacking), lacking)
        before = {path for path in self.shared.glob("east.answers.*.sym")}
        for _ in range(2):
            _, errors = self.room.call(*self.east.words(), f"--most={most}", status=2)
            sent = [path for path in self.shared.glob("east.answers.*.sym") if path not in before]
            same("bytes", sum(path.stat().st_size for path in sent) <= most, True)
            same("little", len(list(self.shared.glob("east.answers.little.*.sym"))), 1)
            told = [reason for path in paths for reason in named(errors, path)]
            same("named", len(told), 20)
            same("reasons", {reason.partition(" has ")[0] for reason in told}, {"its answer"})
            same("limits", {reason.partition(" --most is ")[2].split(",")[0] for reason in told}, {str(most)})

    # ---- what is packed

    def step_members_have_a_limit_together(self) -> None:
        """Those before it go in. What is stored is below any limit."""
        room = Room(self.folder)
        room.tool = changed(self.room, LIMITED, "limited")
        members = {f"{number}": image(400 + number, more=bytes(30_000)) for number in range(8)}
        for name, made in (("a.zip", zipped(members)), ("b.tgz", tarred(members))):
            room.begin_anew()
            room.file(name, made)
            said, errors = room.add(name, status=2)
            most = 2 * len(made) + 100_000
            count = most // 30_056
            told = f"unpacks, with the members before it, to more than {most} bytes; the members after it were not read"
            same("named", errors[0], f"symarch-keep: {name}: {count}: {told}")
            same("members", len(said), count)
            same("archive", bytes_of(room.archive), archive([*members.values()][:count]))
        room.begin_anew()
        room.file("c.zip", zipped(members, zipfile.ZIP_STORED))
        said, _ = room.add("c.zip")
        same("members", len(said), 8)


class Signed(SignersCase):
    """Sites that sign, of which one had a wrong clock."""

    seconds = 20

    def test_a_clock_that_was_wrong(self) -> None:
        """What others remember of its questions does not keep it out."""
        east, west = self.site("east"), self.site("west")
        made = [image(number) for number in range(3)]
        east.add(made[0])
        west.add(made[1])
        until_same([east, west], archive(made[:2]))
        kept = pathlib.Path(f"{east.archive}.signers")
        far = [f"last west {FAR}" if line.startswith("last west ") else line for line in lines_of(kept)]
        kept.write_bytes(keep_text(far))
        west.add(made[2])
        until_same([east, west], archive(made))
