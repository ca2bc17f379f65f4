"""The inputs of commands that write: archives larger than memory, several faulty inputs, repeated slices, several paths
of one archive. Expected files and output are made from mach-o/loader.h, docs/FILES.md and docs/COMMANDS.md."""
import functools
import os
import random
import resource
from typing import Any, Iterable, List, Optional, Sequence, Set, Tuple

from .support.cases import ProgramCase, same
from .support.made_images import admission, archive, image, operations, records_in, retirement, slice_text, slice_words
from .support.made_images import summary, universal
from .support.program import Ended
from .support.second_lines import second_line

VERSION_1 = b"MSYMARC1"
MEGABYTE = 1 << 20
# The address space of a program that has to do without the whole archive.
LIMIT = 32 * MEGABYTE


class InputsCase(ProgramCase):
    """Cases whose commands write to `out.sym`, which is absent before each."""

    def put(self, name: str, content: bytes) -> str:
        """Writes a file, and returns its name."""
        self.file(name, content)
        return name

    def run_program(self, *words: str, limit: Optional[int] = None, **more: Any) -> Ended:
        """What comes of a command, in an address space of a limit."""
        if limit:
            more["preexec_fn"] = functools.partial(resource.setrlimit, resource.RLIMIT_AS, (limit, limit))
        if (self.folder / "out.sym").exists():
            (self.folder / "out.sym").unlink()
        return self.call(*words, **more)

    def writes(self, wanted: bytes, *words: str, notes: Iterable[str] = (), **more: Any) -> List[str]:
        """A command writes these bytes to out.sym, and ends well, with these notes. Returns its printed lines."""
        came = self.run_program(*words, **more)
        same(f"{words}", (came.status, came.error_lines), (0, [f"note: {note}" for note in notes]))
        self.has_bytes("out.sym", wanted)
        return came.lines

    def refuses(self, told: str, *words: str, hint: Optional[str] = None, **more: Any) -> None:
        """A command is refused, and writes nothing. The line after the fault is tested if its hint is given."""
        came = self.run_program(*words, **more)
        lines = came.error_lines if hint is not None else came.error_lines[:1]
        wanted = [f"symarch: {told}"]
        if hint is not None:
            wanted.append(second_line(words, told, "out.sym", hint).rstrip("\n"))
        same(f"{words}", (came.status, came.out, lines), (2, b"", wanted))
        same(f"{words}: files", sorted(path.name for path in self.folder.glob("*out.sym*")), [])


def stay_out(*made: bytes) -> List[str]:
    """The notes of images that IN retires, in the order of their records."""
    return [f"{slice_text(one)} is retired in IN, and does not come in" for one in sorted(set(made), key=admission)]


def admitted(*words: Tuple[str, bytes]) -> List[str]:
    """What `admit` prints of files of one slice each: whether it is added, and its image."""
    return [f"file {number} slice 0 {word} {slice_text(made)}" for number, (word, made) in enumerate(words)]


class Larger(InputsCase):
    """Archives that are larger than the memory which a command gets."""

    def larger(self, images: List[bytes]) -> None:
        """Each command that writes, with an archive that is larger than the memory it gets, and what comes in."""
        new, gone = image(9000, more=b"new"), images[len(images) // 2]
        others = [archive([image(9001)]), archive([new, images[0]])]
        known = [made for number, made in enumerate(images) if number % 10]
        self.put("in.sym", archive(images))
        self.put("old.sym", archive(images, retired=[gone], magic=VERSION_1))
        for name, content in (("new", new), ("new.ops", operations([new])), ("known.sum", summary(known))):
            self.put(name, content)
        for number, content in enumerate(others):
            self.put(f"other-{number}.sym", content)
        left = archive([made for made in images if made != gone], retired=[gone])
        for wanted, words in (
            (archive([*images, new]), ["merge", "in.sym", "out.sym", "other-1.sym"]),
            (archive([*images, new]), ["merge", "other-1.sym", "out.sym", "in.sym"]),
            (archive([*images, new, image(9001)]), ["merge", "in.sym", "out.sym", "other-0.sym", "other-1.sym"]),
            (left, ["migrate", "old.sym", "out.sym"]),
            (left, ["retire", "in.sym", "out.sym", *slice_words(gone)]),
            (archive(images[::10]), ["delta", "in.sym", "known.sum", "out.sym"]),
            (summary(images), ["summary", "in.sym", "out.sym"]),
            (archive([*images, new]), ["apply", "in.sym", "out.sym", "new.ops"]),
            (archive([*images, new]), ["admit", "in.sym", "out.sym", "new"]),
        ):
            self.writes(wanted, *words, limit=LIMIT)

    def test_larger_in_slices(self) -> None:
        """64 MB in slices of a megabyte."""
        self.larger([image(number, more=bytes([number]) * MEGABYTE) for number in range(64)])

    def test_larger_in_records(self) -> None:
        """64 MB in 6,400 slices."""
        self.larger([image(number, more=bytes([number % 256]) * 10_000) for number in range(6_400)])

    def test_an_answering_slice(self) -> None:
        """A slice of 24 MB that answers is held once, whatever asks for it without an index."""
        made = image(1, more=bytes(24 * MEGABYTE))
        words = slice_words(made)
        self.put("in.sym", archive([made, image(2)]))
        self.put("asked", f"{words[0]} {words[1]} - 0\n".encode())
        for command in (
            ["find", "in.sym", words[0]],
            ["symbolicate", "in.sym", *words[:2], "0"],
            ["symbolicate", "in.sym", *words[:2], "--lines", "0"],
            ["frames", "asked", "in.sym"],
            ["extract", "in.sym", *words[:2], "out.sym"],
        ):
            came = self.run_program(*command, limit=LIMIT)
            with self.subTest(command):
                self.assertIn(came.status, (0, 1))
                self.assertEqual(came.error_lines, [])

    def test_one_slice(self) -> None:
        """A slice of 24 MB, the one record that each of these commands holds, needs no more than its length."""
        made, other = image(1, more=bytes(24 * MEGABYTE)), image(2)
        self.put("in.sym", archive([made]))
        self.put("other.sym", archive([other]))
        self.put("known.sum", summary([other]))
        for wanted, words in (
            (archive([made]), ["migrate", "in.sym", "out.sym"]),
            (archive([made, other]), ["merge", "in.sym", "out.sym", "other.sym"]),
            (archive([made, other]), ["merge", "other.sym", "out.sym", "in.sym"]),
            (archive([made]), ["delta", "in.sym", "known.sum", "out.sym"]),
            (summary([made]), ["summary", "in.sym", "out.sym"]),
        ):
            self.writes(wanted, *words, limit=LIMIT)
        gone = slice_words(other)
        notes = [f"IN has no slice {' '.join(gone)}"]
        self.writes(archive([made], retired=[other]), "retire", "in.sym", "out.sym", *gone, notes=notes, limit=LIMIT)


class Faulty(InputsCase):
    """Inputs that are faulty together."""

    def test_faulty_together(self) -> None:
        """If IN is faulty at its end its own fault is reported, whether what comes in is good, faulty or absent."""
        made = [image(number) for number in range(4)]
        whole = archive(made[:2])
        end = len(whole) - 9
        for name, content in (("good.sym", archive(made[2:3])), ("one", made[3]), ("one.ops", operations(made[3:]))):
            self.put(name, content)
            self.put(f"cut-{name}", content[:-1])
        self.put("one.sum", summary(made[:1]))
        self.put("cut-one.sum", summary(made[:1])[:-1])
        for fault, content in (
            (f"Truncated at {end}", whole[:-1]),
            (f"BadCount at {end}", whole[:-1] + b"\x09"),
            (f"Trailing at {end + 9}", whole + b"\0"),
        ):
            self.put("in.sym", content)
            for state in ("", "cut-", "no-"):
                told = f"archive 0: {fault}"
                self.refuses(told, "admit", "in.sym", "out.sym", f"{state}one")
                self.refuses(told, "admit", "in.sym", "out.sym", "one", f"{state}one")
                self.refuses(told, "apply", "in.sym", "out.sym", f"{state}one.ops")
                self.refuses(told, "delta", "in.sym", f"{state}one.sum", "out.sym")
                self.refuses(told, "merge", "in.sym", "out.sym", "good.sym", f"{state}good.sym")
            self.refuses(told, "migrate", "in.sym", "out.sym")
            self.refuses(told, "retire", "in.sym", "out.sym", *slice_words(made[0]))

    def test_faulty_alone(self) -> None:
        """If IN is whole the first input after it that is refused is reported."""
        made = [image(number) for number in range(4)]
        for name, content in (
            ("in.sym", archive(made[:2])),
            ("good.sym", archive(made[2:3])),
            ("cut.sym", archive(made[2:3])[:-1]),
            ("one", made[3]),
            ("cut", made[3][:-1]),
            ("cut.ops", operations(made[3:])[:-1]),
            ("cut.sum", summary(made[:1])[:-1]),
        ):
            self.put(name, content)
        fault = "Slice(0, Image(CommandsOutside))"
        self.refuses(f"file 0: {fault}", "admit", "in.sym", "out.sym", "cut", "none")
        self.refuses(f"file 1: {fault}", "admit", "in.sym", "out.sym", "one", "cut", "none")
        self.refuses("file 1: cannot open", "admit", "in.sym", "out.sym", "one", "none", "cut")
        end = len(archive(made[2:3])) - 9
        self.refuses(f"archive 2: Truncated at {end}", "merge", "in.sym", "out.sym", "good.sym", "cut.sym", "none")
        self.refuses("archive 2: cannot open", "merge", "in.sym", "out.sym", "good.sym", "none", "cut.sym")
        self.refuses("ops: Truncated at 8", "apply", "in.sym", "out.sym", "cut.ops")
        self.refuses("summary: Truncated at 65", "delta", "in.sym", "cut.sum", "out.sym")
        self.refuses("archive 0: cannot open", "admit", "none", "out.sym", "cut", "none")


class Repeated(InputsCase):
    """What comes several times."""

    def test_repeated(self) -> None:
        """A slice that IN has, or that came before, is known, and so is one that IN retires; files are in turn."""
        made = [image(number) for number in range(4)]
        self.put("in.sym", archive(made[:1], retired=made[3:]))
        for number, one in enumerate(made):
            self.put(f"{number}", one)
        self.put("both", universal([made[0], made[2]]))
        wanted = archive(made[:3], retired=made[3:])
        printed = self.writes(wanted, "admit", "in.sym", "out.sym", *"102132300", notes=stay_out(made[3]))
        words = {0: "known", 1: "added", 2: "added", 3: "known"}
        lines: List[Tuple[str, bytes]] = []
        seen: Set[int] = set()
        for number in map(int, "102132300"):
            lines.append(("known" if number in seen else words[number], made[number]))
            seen.add(number)
        same("lines", printed[:-1], admitted(*lines))
        wanted = archive([made[0], made[2]], retired=made[3:])
        printed = self.writes(wanted, "admit", "in.sym", "out.sym", "both", "both")
        came = [" ".join(it.split()[:5]) for it in printed[:4]]
        parts = ["0 slice 0 known", "0 slice 1 added", "1 slice 0 known", "1 slice 1 known"]
        same("parts", came, [f"file {it}" for it in parts])

    def test_repeated_operations(self) -> None:
        """`apply` counts an operation as new if the content changed when its turn came."""
        made = [image(number) for number in range(4)]
        admit, retire = admission, retirement
        self.put("in.sym", archive(made[:1], retired=made[3:]))
        rest = made[3:]
        some: Sequence[Tuple[List[bytes], int, bytes]] = (
            ([admit(made[1]), retire(made[1])], 2, archive(made[:1], retired=[made[1], made[3]])),
            ([retire(made[1]), admit(made[1])], 1, archive(made[:1], retired=[made[1], made[3]])),
            ([admit(made[0]), admit(made[0])], 0, archive(made[:1], rest)),
            ([admit(made[2]), admit(made[2]), admit(made[1])], 2, archive(made[:3], rest)),
            ([admit(made[3]), retire(made[3])], 0, archive(made[:1], rest)),
            ([retire(made[0]), admit(made[0]), retire(made[0])], 1, archive([], retired=[made[0], made[3]])),
            ([], 0, archive(made[:1], rest)),
        )
        for records, new, wanted in some:
            self.put("some.ops", operations([]) + b"".join(records))
            printed = self.writes(wanted, "apply", "in.sym", "out.sym", "some.ops")
            same("first line", printed[0], f"applied: {new} new, {len(records) - new} known")

    def test_covered_in_old(self) -> None:
        """What an archive of version 1 has beside its retirement is dropped, and does not come in again."""
        made = [image(number) for number in range(3)]
        self.put("old.sym", archive(made[:2], retired=made[1:2], magic=VERSION_1))
        self.put("one", made[1])
        self.put("two", made[2])
        self.put("one.ops", operations([made[1], made[2]]))
        self.put("one.sym", archive(made[1:]))
        wanted = archive([made[0], made[2]], retired=made[1:2])
        printed = self.writes(wanted, "admit", "old.sym", "out.sym", "one", "two", notes=stay_out(made[1]))
        same("lines", printed[:-1], admitted(("known", made[1]), ("added", made[2])))
        printed = self.writes(wanted, "apply", "old.sym", "out.sym", "one.ops")
        same("first line", printed[0], "applied: 1 new, 1 known")
        self.writes(wanted, "merge", "old.sym", "out.sym", "one.sym")
        self.writes(wanted, "merge", "one.sym", "out.sym", "old.sym")
        wanted, gone = archive(made[:1], retired=made[1:2]), slice_text(made[1])
        notes = [f"IN has no slice {gone}"]
        printed = self.writes(wanted, "retire", "old.sym", "out.sym", *gone.split(), notes=notes)
        same("first line", printed[0], f"known {gone}")


class Ways(InputsCase):
    """Several ways to one archive."""

    def test_ways(self) -> None:
        """`admit` of files one by one and at once, `merge` of archives of each in any order, `apply` of operations, and
        `delta` merged: the same bytes."""
        dice = random.Random(51)
        for number in range(6):
            made = [image(dice.randrange(8), more=bytes([dice.randrange(4)]) * dice.randrange(3)) for _ in range(12)]
            retired = [dice.choice(made) for _ in range(dice.randrange(3))]
            wanted = archive([one for one in made if one not in retired], retired=retired)
            begin = archive([], retired=retired)
            self.put("begin.sym", begin)
            files = [self.put(f"{place}", one) for place, one in enumerate(made)]
            archives = [self.put(f"{place}.sym", archive([one])) for place, one in enumerate(made)]
            notes = stay_out(*(one for one in made if one in retired))
            self.writes(wanted, "admit", "begin.sym", "out.sym", *files, notes=notes)
            self.one_by_one("admit", begin, files, [stay_out(one) if one in retired else [] for one in made])
            same("one by one", (self.folder / "step.sym").read_bytes(), wanted)
            dice.shuffle(archives)
            self.writes(wanted, "merge", "begin.sym", "out.sym", *archives)
            self.writes(wanted, "merge", archives[0], "out.sym", *archives[1:], "begin.sym")
            self.one_by_one("merge", begin, archives, [[]] * len(archives))
            same("merged one by one", (self.folder / "step.sym").read_bytes(), wanted)
            self.put("some.ops", operations(made) + b"".join(map(retirement, retired)))
            self.put("empty.sym", archive([]))
            self.writes(wanted, "apply", "empty.sym", "out.sym", "some.ops")
            os.replace(self.folder / "out.sym", self.folder / "all.sym")
            part = archive([one for one in made[:5] if one not in retired], retired=retired)
            self.put("part.sym", part)
            same("summary", self.call("summary", "part.sym", "part.sum").status, 0)
            (self.folder / "delta.sym").unlink(missing_ok=True)
            same("delta", self.call("delta", "all.sym", "part.sum", "delta.sym").status, 0)
            self.writes(wanted, "merge", "part.sym", "out.sym", "delta.sym")
            missing = [one for one in records_in(wanted) if one not in records_in(part)]
            same(f"records of delta {number}", records_in((self.folder / "delta.sym").read_bytes()), missing)

    def one_by_one(self, command: str, begin: bytes, others: List[str], notes: Sequence[Sequence[str]]) -> None:
        """A command with one of others at a time, and its notes. Its last OUT is step.sym."""
        self.put("step.sym", begin)
        for other, some in zip(others, notes):
            came = self.call(command, "step.sym", "next.sym", other)
            same(f"{command} {other}", (came.status, came.error_lines), (0, [f"note: {note}" for note in some]))
            os.replace(self.folder / "next.sym", self.folder / "step.sym")
