"""symbolicate-report with files, lines and inlined functions, as `llvm-symbolizer` prints them for
tests/fixtures/lines, in the forms of reports that the system symbolicated."""
import json
import re
import sys
import uuid
from pathlib import Path
from typing import Any, Dict, List, Set, Tuple

from .model.indexes import entries_in
from .support import kept_lines
from .support.reports import CRASHES, DYLD, FIXTURES, SPOOL, ReportCase, named, program, without_lines

# A program that finds no lines in the tables of some keys, of which it has the faults.
LACKING = """import subprocess
import sys

program, *words = sys.argv[1:]
faults = {faults!r}


def lines_of(words):
    return subprocess.run([program, *words], stdout=subprocess.PIPE, text=True).stdout.splitlines()


with open({calls!r}, "a") as calls:
    print(*words, file=calls)
with open(words[1]) as file:
    asked = [line.split(" ") for line in file]
refused = [it for it in dict.fromkeys(" ".join(one[:2]) for one in asked) if "--lines" in words and it in faults]
with open(words[1], "w") as file:
    file.writelines(" ".join(one) for one in asked if " ".join(one[:2]) not in refused)
answers = [line for line in lines_of(words) if line.startswith(("0x", " "))]
with open(words[1], "w") as file:
    file.writelines(" ".join(one) for one in asked)
every = [line for line in lines_of([it for it in words if it != "--lines"]) if not line.startswith(("0x", " "))]
for *key, _, address in asked:
    if " ".join(key) in refused:
        print(f"0x{{int(address, 16):016x}} !")
        continue
    print(answers.pop(0))
    while answers and answers[0].startswith(" "):
        print(answers.pop(0))
print("\\n".join([*every, *(faults[it] for it in sorted(refused))]))
sys.exit(2 if refused else 0)
"""
FORM = {"crash": ".crash", "ips": ".ips", "sample": ".sample.txt", "spindump": ".spindump.txt",
        "metrickit": ".metrickit.json"}  # fmt: skip
COMPANION = "arm64-2-dsymutil"
# The frames that each thread of the crash has, the innermost first: offset, the address that is asked for, and name.
ASKED = [(0x33C, 0x33C, "fail + 4"), (0x3B0, 0x3AF, "start + 64"), (0x394, 0x394, "start + 36"),
         (0x374, 0x373, "start + 4")]  # fmt: skip
LINE = re.compile(r"(?P<number>\d+) +(?P<image>\S+) +\t +(?P<address>0x[0-9a-f]+) (?P<name>\S+)(?: \+ \d+)?"
                  r"(?: \((?P<source>[^()]*:\d+)\))?(?P<inlined> \[inlined\])?")  # fmt: skip
# Of a function that was inlined the offset is not known.
OFFSET = re.compile(r" \+ \d+(?=(?: \([^()]*\))? \[inlined\]$)", re.M)


def fixture(form: str) -> Path:
    return FIXTURES / f"inlined{FORM[form]}"


def said_by_llvm(address: int) -> List[str]:
    """The frames of an offset, as FUNCTION at PATH:LINE:COLUMN."""
    said = next(one.said for one in kept_lines.kept() if one.name == COMPANION)
    asked = 0x100000000 + address
    return next([line.strip() for line in lines] for first, last, lines in said.spans if first <= asked < last)


def shape(frame: str) -> Dict[str, Any]:
    found = LINE.fullmatch(frame)
    assert found, frame
    return {**found.groupdict(), "inlined": bool(found["inlined"])}


class LinesCase(ReportCase):
    """An archive of two companions: of C, and of C++."""

    def setUp(self) -> None:
        super().setUp()
        self.archive = self.folder / "lines.sym"
        kept = [kept_lines.SOURCES / f"{name}.dsym" for name in (COMPANION, "x86_64-4-dsymutil")]
        program("admit", self.archives / "empty", self.archive, *kept)

    def printed(self, *words: Any, **how: Any) -> str:
        came = self.report(*words, self.archive, **how)
        self.assertEqual((came.status, b"Traceback" in came.errors), (0, False), came.errors)
        return came.out.decode()


class Inlined(LinesCase):
    """Each form."""

    def test_what_llvm_says(self) -> None:
        """The fixture of the system has the files and lines of llvm-symbolizer."""
        frames = [shape(line) for line in (FIXTURES / "system.crash").read_text().splitlines() if "\t" in line]
        ours = [one for one in frames if one["image"] == "lines"]
        for offset, asked, _ in ASKED:
            own = [one for one in ours if int(one["address"], 16) == 0x104D38000 + offset]
            wanted = [re.sub(r"(\S+) at (?:.*/)?([^/]*):\d+$", r"\1 \2", line) for line in said_by_llvm(asked)]
            said = [f"{one['name']} {one['source']}" for one in own]
            self.assertEqual(said, wanted)
        self.assertEqual([one["number"] for one in frames], [*"0123456", *"01"])

    def test_crash(self) -> None:
        """Numbered lines, as in the translated reports of macOS 12 and later and the text that Xcode shows: a line
        ` (FILE:LINE) [inlined]` of its own for each inlined function, before that of its frame, with the image and the
        address of this; all are numbered. That the system prints an offset there too, by where the inlined code begins,
        is left out."""
        wanted = OFFSET.sub("", (FIXTURES / "system.crash").read_text())
        self.assertEqual(self.printed(fixture("crash")), wanted)

    def test_ips(self) -> None:
        """Frames of JSON, as Apple's "Interpreting the JSON format of a crash report" and .ips files of macOS 12 and
        later have them: `inline`, and `sourceFile` and `sourceLine` beside `symbol`, in objects of their own."""
        ours = json.loads(self.printed(fixture("ips")).partition("\n")[2])
        system = json.loads((FIXTURES / "system.ips").read_text().partition("\n")[2])
        for thread in system["threads"]:
            for frame in thread["frames"]:
                if frame.get("inline"):
                    del frame["symbolLocation"]
        self.assertEqual(ours, system)

    def test_ips_in_its_layout(self) -> None:
        self.assertEqual(self.printed(fixture("ips")), named("inlined-ips").decode())

    def test_sample(self) -> None:
        """`FUNCTION  (in IMAGE) + OFFSET  [ADDRESS]  FILE:LINE`, as `sample` prints it of a binary with debug info. How
        it shows inlined functions is not known from a published report: here they are nodes of the tree."""
        self.assertEqual(self.printed(fixture("sample")), named("inlined-sample").decode())
        self.has_nodes_of_the_system("sample")

    def test_spindump(self) -> None:
        """`FUNCTION + OFFSET (FILE:LINE in IMAGE + OFFSET) [ADDRESS]`, as spindump prints it. Of inlined functions the
        same holds as of `sample`."""
        self.assertEqual(self.printed(fixture("spindump")), named("inlined-spindump").decode())
        self.has_nodes_of_the_system("spindump")

    def has_nodes_of_the_system(self, form: str) -> None:
        """But for inlined functions, each line has what the system has there."""
        system = FIXTURES / f"system{FORM[form]}"
        bare = lambda said: [line.lstrip(" +!:|") for line in said.splitlines() if not line.endswith(" [inlined]")]
        self.assertEqual(bare(self.printed(fixture(form))), bare(system.read_text()))
        self.assertEqual(self.printed(system), self.printed(fixture(form)))
        self.assertEqual(self.printed("--no-lines", system), system.read_text())

    def test_metrickit(self) -> None:
        """No payload is symbolicated by the system: the members are those of an .ips, in a list `inlined`."""
        self.assertEqual(self.printed(fixture("metrickit")), named("inlined-metrickit").decode())

    def test_all_say_what_the_crash_says(self) -> None:
        """The places of the crash, in each other form."""
        wanted = {"fail + 4 a.c:9", "start + 64 a.c:16", "start + 4 a.c:13"}
        for form in ("sample", "spindump"):
            text = named(f"inlined-{form}").decode()
            found = re.findall(r"(\w+)(?:  \(in lines\))? (\+ \d+)(?:  \[\S+\]  (\S+:\d+)| \((\S+) in)", text)
            places: Set[str] = {f"{name} {offset} {one or other}" for name, offset, one, other in found}
            # The frame of `fail` has another one below it in the tree of `sample`.
            self.assertEqual(places - {"start + 64 a.c:5", "start + 36 a.c:0"}, wanted if form == "spindump" else
                             {it.replace("a.c:9", "a.c:8") for it in wanted})  # fmt: skip
            for line in said_by_llvm(0x3AF)[:-1]:
                name, place = re.sub(r" at .*/(\S+):\d+$", r" \1", line).split()
                self.assertRegex(text, rf"{name}(?:  \(in lines\)  \[0x104d383b0\]  {place}| \({place} in lines .*) ?")

    def test_as_text(self) -> None:
        for form in ("ips", "metrickit"):
            self.assertEqual(self.printed("--text", fixture(form)), named(f"text-inlined-{form}").decode())
        frames = [line for line in named("text-inlined-ips").decode().splitlines() if "\t" in line]
        system = OFFSET.sub("", (FIXTURES / "system.crash").read_text())
        self.assertEqual([shape(line)["source"] for line in frames], [
            shape(line)["source"] for line in system.splitlines() if "\t" in line])  # fmt: skip

    def test_as_text_of_what_was_printed(self) -> None:
        """Files and lines that a report states stay if the archive has none."""
        for form in ("ips", "metrickit"):
            path = self.file(f"x{FORM[form]}", self.printed(fixture(form)))
            text = self.report("--text", path, "empty").out.decode()
            ours = named(f"text-inlined-{form}").decode()
            places = lambda said: re.findall(r"(?:fail|start) \+ \d+ \(\S+:\d+", said)
            self.assertEqual(places(text), places(ours))
        path = self.file("stackshot.ips", named("stackshot"))
        self.assertIn(b" copy_body + 12 (spool.c:9)\n", self.report("--text", path, "empty").out)

    def test_again(self) -> None:
        """What was printed is a report, of which the same is printed: inlined functions come once."""
        for form in FORM:
            path = self.file(f"again{FORM[form]}", self.printed(fixture(form)))
            self.assertEqual(self.printed(path), path.read_text(), form)

    def test_of_the_system(self) -> None:
        """Reports that the system symbolicated keep its inlined functions, and without an answer all that they say."""
        for name in ("system.crash", "system.ips"):
            self.assertEqual(self.printed(FIXTURES / name), (FIXTURES / name).read_text())
        for path in FIXTURES.glob("system.*"):
            came = self.report(path, "empty")
            self.assertEqual((came.status, came.out), (1, path.read_bytes()), path.name)

    def test_by_an_index(self) -> None:
        program("index", self.archive, f"{self.archive}.idx")
        self.assertEqual(self.printed(fixture("crash")), OFFSET.sub("", (FIXTURES / "system.crash").read_text()))

    def test_a_line_of_addresses(self) -> None:
        begin = "Last Exception Backtrace:\n(0x104d3833c 0x104d383b0)\n\nThread 0 Crashed:"
        text = source_text("crash").replace("Thread 0 Crashed:", begin)
        lines = self.printed(self.file("x.crash", text)).splitlines()
        first = lines.index("Last Exception Backtrace:")
        wanted = [line for line in OFFSET.sub("", (FIXTURES / "system.crash").read_text()).splitlines() if "\t" in line]
        self.assertEqual([line.split()[3:] for line in lines[first + 1 : first + 7]], [
            line.split()[3:] for line in wanted[:6]])  # fmt: skip
        self.assertEqual([line.split()[0] for line in lines[first + 1 : first + 7]], [*"012345"])


class TooManyLines(LinesCase):
    """Slices whose lines are too many for their index."""

    c, cxx = "4c4c441e-5555-3144-a16d-bc6c720cc812", "4c4c44f0-5555-3144-a1ae-bc34a7de5360"

    def setUp(self) -> None:
        super().setUp()
        index = Path(f"{self.archive}.idx")
        program("index", self.archive, index)
        self.entries = [str(uuid.UUID(bytes=entry[1:17])) for entry in entries_in(index.read_bytes())]

    def lacking(self, *numbers: str) -> Dict[str, str]:
        """A program that finds no lines in the tables of these UUIDs."""
        archs = {self.c: "arm64", self.cxx: "x86_64"}
        faults = {f"{it.replace('-', '')} {archs[it]}": f"{it} {archs[it]} refused index 0: NoLines at entry "
                  f"{self.entries.index(it)}" for it in numbers}  # fmt: skip
        path = self.file("lacking.py", LACKING.format(faults=faults, calls=str(self.folder / "calls")))
        return {"SYMARCH": self.script("lacking", f'exec "{sys.executable}" -B "{path}" "$symarch" "$@"')}

    def test_its_names_are_printed(self) -> None:
        came = self.report(fixture("crash"), self.archive, environment=self.lacking(self.c))
        self.assertEqual((came.status, came.out.decode()), (0, self.printed("--no-lines", fixture("crash"))))
        counts = "by dSYM: lines {0}; not in the archive: dyld {1}; without lines, too many for the index: lines {0}"
        self.assertEqual(came.error_lines[-1].partition("; ")[2], counts.format(self.c, DYLD))
        self.assertEqual(len((self.folder / "calls").read_text().splitlines()), 2)

    def test_other_images_have_lines(self) -> None:
        """The program is called once more, for the slices without lines."""
        frame = "3   x   0x000000020000038a 0x200000000 + 906"
        text = source_text("crash").replace("\n\nThread 1", f"\n{frame}\n\nThread 1")
        path = self.file("both.crash", f"{text}       0x200000000 - 0x20000ffff x x86_64 <{self.cxx}> /x\n")
        of_file = {self.c: "a.c:", self.cxx: "one.cc:"}
        some: List[List[str]] = [[], [self.c], [self.cxx], [self.c, self.cxx]]
        for lacking in some:
            printed = self.printed(path, environment=self.lacking(*lacking))
            found = set(re.findall(r"\((a\.c:|one\.cc:)", printed))
            self.assertEqual(found, {of_file[it] for it in of_file if it not in lacking})
        self.assertEqual(printed, self.printed("--no-lines", path))


def source_text(form: str) -> str:
    return fixture(form).read_text()


class Numbers(LinesCase):
    """Frames after inlined functions have greater numbers."""

    def test_columns(self) -> None:
        """They stay, and a number that is longer takes a space."""
        frames = "".join(f"{number}   x   0x200000000 main + 1\n" for number in range(3, 10))
        frames += "10  x   0x200000000 main + 1\n11 lines 0x104d3833c copy + 2 [inlined] (a.c:3)\n"
        text = source_text("crash").replace("\n\nThread 1", f"\n{frames}\nThread 1")
        lines = self.printed(self.file("x.crash", text)).splitlines()
        first = lines.index("Thread 0 Crashed:") + 1
        last = lines.index("", first)
        self.assertEqual([line.split()[0] for line in lines[first:last]], [str(it) for it in range(last - first)])
        self.assertEqual(lines[last - 3 : last], [
            "13  x   0x200000000 main + 1", "14  x   0x200000000 main + 1",
            "15 lines 0x104d3833c copy + 2 [inlined] (a.c:3)"])  # fmt: skip
        self.assertTrue(lines[lines.index("Thread 1:") + 1].startswith("0   lines"))

    def test_lines_that_end_by_a_return(self) -> None:
        for form in ("crash", "sample", "spindump"):
            path = self.file("returns", source_text(form).replace("\n", "\r\n").encode())
            wanted = self.printed(fixture(form)).replace("\n", "\r\n")
            self.assertEqual(self.printed(path), wanted)

    def test_pasted(self) -> None:
        """Lines that are added begin as the others do."""
        for form in ("crash", "sample"):
            text = "".join(f"> {line}\n" for line in source_text(form).splitlines())
            wanted = "".join(f"> {line}\n" for line in self.printed(fixture(form)).splitlines())
            bare = lambda said: [line.rstrip() for line in said.splitlines()]
            self.assertEqual(bare(self.printed(self.file("mail", text))), bare(wanted))


class Words(LinesCase):
    """What is printed of files and lines, and when they are asked for."""

    def test_paths(self) -> None:
        printed = self.printed("--paths", fixture("crash"))
        self.assertEqual(re.findall(r"\((/\S+):\d+\)", printed)[:2], ["/src/shared.h", "/src/a.c"])
        self.assertEqual(re.sub(r"\(/src/", "(", printed), self.printed(fixture("crash")))

    def test_no_lines(self) -> None:
        """What stands in the report stays, and nothing comes to it."""
        printed = self.printed("--no-lines", fixture("crash"))
        every = [line for line in self.printed(fixture("crash")).splitlines() if "[inlined]" not in line]
        number = re.compile(r"^\d+", re.M)
        wanted = re.sub(r" \([^()]*:\d+\)$", "", "\n".join(every) + "\n", flags=re.M)
        self.assertEqual(number.sub("", printed), number.sub("", wanted))
        self.is_printed(self.report("--no-lines", CRASHES / "arm64.crash", "shipped"), without_lines(named("crash")))

    def test_when_lines_are_asked_for(self) -> None:
        """If a report is printed that has them, or counted by its inlined functions."""
        path = self.script("noting", f'echo "$*" >>"{self.folder}/calls"; exec "$symarch" "$@"')
        out = self.folder / "out"
        asking: List[List[Any]] = [[], ["--text"], ["--paths"], ["--group"], ["--json", "--out", out]]
        others: List[List[Any]] = [["--no-lines"], ["--missing"], ["--json"]]
        for words, has_lines in [*((it, True) for it in asking), *((it, False) for it in others)]:
            (self.folder / "calls").write_text("")
            self.report(*words, CRASHES / "arm64.crash", "shipped", environment={"SYMARCH": path})
            self.assertEqual("--lines" in (self.folder / "calls").read_text(), has_lines, words)

    def test_without_a_dsym(self) -> None:
        """An image has no lines, and its line says that it answered alone."""
        came = self.report(CRASHES / "arm64.crash", "image")
        self.assertEqual(re.findall(rb"\.c:", came.out), [])
        self.assertTrue(came.error_lines[-1].endswith(f"; without dSYM: spool {SPOOL} arm64"), came.errors)

    def test_demangled(self) -> None:
        """Functions that were inlined have their names of C++."""
        both = [re.findall(r"(\S.*?) \(\S+\) \[inlined\]", text) for text in self.of_cxx()]
        self.assertTrue(both[0])
        self.assertIn("shapes::Box::half(long)", " ".join(both[0]))
        self.assertIn("_ZN6shapes3Box4halfEl", " ".join(both[1]))

    def of_cxx(self) -> List[str]:
        """A crash at places of C++ where functions were inlined, with names that are demangled, and with others."""
        said = next(one.said for one in kept_lines.kept() if one.name == "x86_64-4-dsymutil")
        places = [first for first, _, lines in said.spans if len(lines) > 1 and "halfEl" in lines[0]][:3]
        key = "4c4c44f0-5555-3144-a1ae-bc34a7de5360"
        frames = "".join(f"0   x   0x{place - 0x100000000 + 0x10000:016x} 0x10000 + 1\n\n" for place in places)
        text = f"Code Type: X86-64\nThread 0:\n{frames}Binary Images:\n0x10000 - 0x1ffff x x86_64 <{key}> /x\n"
        path = self.file("cxx.crash", text)
        return [self.printed(path), self.printed("--no-demangle", path)]

    def test_characters_of_a_path(self) -> None:
        """Those that are printed as numbers are themselves, unless they would end the line."""
        change = r"s,/src/shared.h:,/src/a\\x20\\xc3\\xbc\\x0a.h:,; s,    clamp_low ,    ? ,"
        path = self.script("spelling", f"\"$symarch\" \"$@\" | sed '{change}'")
        printed = self.printed(fixture("crash"), environment={"SYMARCH": path})
        self.assertIn(" ??? (a\\x20\\xc3\\xbc\\x0a.h:3) [inlined]\n", printed)
        change = r"s,/src/shared.h:,/src/\\xc3\\xbc\\x5c.h:,"
        path = self.script("spelling", f"\"$symarch\" \"$@\" | sed '{change}'")
        self.assertIn(" clamp_low (\u00fc\\.h:3) [inlined]\n", self.printed(
            fixture("crash"), environment={"SYMARCH": path}))  # fmt: skip

    def test_what_is_not_known(self) -> None:
        """A line of no file is none; a file whose line is not known has the line 0, as the system prints it."""
        frame = {"imageOffset": 828, "imageIndex": 0, "symbol": "clamp_low", "inline": True}
        several: List[Tuple[str, str, Dict[str, Any]]] = [
            (r"s,/src/shared.h:3:,/src/shared.h:0:,", r" \(shared\.h:0\)", {"sourceFile": "shared.h", "sourceLine": 0}),
            (r"s,/src/shared.h:,?:,", "", {}),
        ]
        for change, text, members in several:
            path = self.script("less", f"\"$symarch\" \"$@\" | sed '{change}'")
            printed = self.printed(fixture("crash"), environment={"SYMARCH": path})
            self.assertRegex(printed, rf"0x104d3833c clamp_low{text} \[inlined\]\n")
            document = json.loads(self.printed(fixture("ips"), environment={"SYMARCH": path}).partition("\n")[2])
            self.assertEqual(document["threads"][0]["frames"][0], {**frame, **members})

    def test_companions_that_differ(self) -> None:
        """Two that have the same symbols and other files are one answer, without lines."""
        companion = (kept_lines.SOURCES / f"{COMPANION}.dsym").read_bytes()
        other = self.file("other", companion.replace(b"shared.h", b"zhared.h").replace(b"a.c\0", b"z.c\0"))
        more = self.folder / "more.sym"
        program("admit", self.archive, more, other)
        came = self.report(fixture("crash"), more)
        self.assertNotIn(b"[inlined]", came.out)
        self.assertIn(b" fail + 4\n", came.out)

    def test_a_program_that_answers_otherwise(self) -> None:
        path = self.script("frames", "\"$symarch\" \"$@\" | sed 's,    clamp_low at,    clamp_low,'")
        came = self.report(fixture("crash"), self.archive, environment={"SYMARCH": path})
        self.assertEqual((came.status, came.out), (126, b""))
        self.assertIn("does not answer as symarch does", came.error_lines[-1])
