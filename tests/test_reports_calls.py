"""Several calls of the program side by side, whose answers are those of one; and what it prints of keys and inputs."""
import os
import signal
import subprocess
import sys
import unittest
from typing import Any, List, Tuple

from .support.cases import Without, same
from .support.program import MOST_SECONDS, TOP, Ended
from .support.reports import SPOOL, SPOOL_2, TOOL, ReportCase
from .support.waits import is_running, wait_until

sys.path.insert(0, str(TOP / "tools"))
from symarch_tools.console.answer_lines import slice_in  # noqa: E402
from symarch_tools.console.program_faults import fault_on_standard_error, input_fault  # noqa: E402

LOADS = {SPOOL: 0x104D38000, SPOOL_2: 0x204D38000}
# Notes each call, and does something else in some of them.
NOTING = 'echo "$1" >>calls\n{more}\nexec "$symarch" "$@"'
REPLACED = "mkdir once 2>/dev/null && cp -p both.sym.idx new && mv new both.sym.idx"
FAILING = f'grep -q {SPOOL_2.replace("-", "")} "$2" && {{ echo "symarch: no such thing" >&2; exit 4; }}'


def crash(count: int) -> str:
    """A crash with so many frames in each of two builds."""
    places = [(load, at) for at in range(1024, 1024 + count) for load in LOADS.values()]
    lines = "".join(f"0   spool   {load + at:#018x} {load:#x} + {at}\n" for load, at in places)
    images = "".join(f"{load:#x} - {load + 0x3fff:#x} spool arm64 <{uuid}> /spool\n" for uuid, load in LOADS.items())
    return f"Process: spool\nThread 0 Crashed:\n{lines}\nBinary Images:\n{images}"


class SideBySide(ReportCase):
    """Two images, of which there are two processors to ask for."""

    def setUp(self) -> None:
        super().setUp()
        self.processors = sorted(os.sched_getaffinity(0))[:2]
        if len(self.processors) < 2:
            raise Without("there is one processor alone")
        site = self.file("both.sym", (self.archives / "both").read_bytes())
        self.assertEqual(self.call("index", site, f"{site}.idx").status, 0)
        self.file("many.crash", crash(200))

    def asked(self, more: str = "", count: int = 2, name: str = "many.crash") -> Tuple[Ended, List[str]]:
        """What comes of a report on so many processors, and the calls of the program."""
        calls = self.folder / "calls"
        calls.unlink(missing_ok=True)
        before = ["taskset", "-c", ",".join(map(str, self.processors[:count]))]
        program = self.script("noting", NOTING.format(more=more))
        came = self.report(name, "both.sym", before=before, environment={"SYMARCH": program})
        return came, calls.read_text().split()

    def test_the_answers_are_those_of_one(self) -> None:
        one, calls = self.asked(count=1)
        self.assertEqual((one.status, calls), (0, ["frames"]), one.errors)
        self.assertEqual(self.asked(), (one, ["frames"] * 2))
        self.assertIn(b"copy_body + ", one.out)

    def test_few(self) -> None:
        """They are not worth a second call."""
        self.file("few.crash", crash(20))
        self.assertEqual(self.asked(name="few.crash")[1], ["frames"])

    def test_an_index_that_is_replaced_meanwhile(self) -> None:
        """The calls may have seen two states, so one asks again for all."""
        one, _ = self.asked(count=1)
        self.assertEqual(self.asked(REPLACED), (one, ["frames"] * 3))

    def test_a_call_that_fails(self) -> None:
        for count in (1, 2):
            came, _ = self.asked(FAILING, count)
            self.assertEqual((came.status, came.out, came.error_lines), (4, b"", ["symarch: no such thing"]))

    def test_a_signal(self) -> None:
        """It ends all, and leaves no file."""
        begun, temporary = self.folder / "begun", self.folder / "temporary"
        temporary.mkdir()
        program = self.script("slow", f'echo $$ >>"{begun}"; exec sleep 6000')
        environment = {**os.environ, "SYMARCH": program, "TMPDIR": str(temporary)}
        words: List[Any] = [sys.executable, "-B", TOOL, "many.crash", "both.sym"]
        with subprocess.Popen(words, cwd=self.folder, env=environment, stderr=subprocess.PIPE) as run:
            wait_until(lambda: begun.exists() and begun.read_text().count("\n") == 2, run)
            run.send_signal(signal.SIGINT)
            self.assertEqual((run.communicate(timeout=MOST_SECONDS)[1], run.returncode), (b"", -signal.SIGINT))
        self.assertEqual(list(temporary.iterdir()), [])
        self.assertEqual([it for it in begun.read_text().split() if is_running(int(it))], [])


class Printed(unittest.TestCase):
    """What the program prints of keys, and of inputs that it refuses."""

    is_side_by_side = True
    seconds = 1

    def test_faults(self) -> None:
        for text, wanted in (
            ("index 1: Stale", ("index", 1, "Stale", "Stale", None, None)),
            ("index 0: Damaged at entry 3", ("index", 0, "Damaged at entry 3", "Damaged", None, 3)),
            ("archive 2: Truncated at 57", ("archive", 2, "Truncated at 57", "Truncated", 57, None)),
            ("archive 0: BadSlice(Image(BadUuid(0))) at 8",
             ("archive", 0, "BadSlice(Image(BadUuid(0))) at 8", "BadSlice(Image(BadUuid(0)))", 8, None)),
            ("file 7: cannot open", ("file", 7, "cannot open", "cannot open", None, None)),
            ("frames: BadFrame at line 3", None), ("out of memory", None), ("", None),
        ):  # fmt: skip
            same(text, input_fault(text), wanted)
            same(f"{text} as a line", fault_on_standard_error(f"symarch: {text}\n  more\n"), wanted)
            same(f"{text} of another program", fault_on_standard_error(text), None)

    def test_keys(self) -> None:
        digest, refused = "0" * 64, "index 0: NoLines at entry 4"
        for said, wanted in (
            (f"{SPOOL} arm64 dsym {digest}", (SPOOL, "arm64", "dsym", None)),
            (f"{SPOOL} cpu:0100000c/80000002 image {digest}", (SPOOL, "cpu:0100000c/80000002", "image", None)),
            (f"{SPOOL} x86_64 absent", (SPOOL, "x86_64", "absent", None)),
            (f"{SPOOL} arm64 refused {refused}", (SPOOL, "arm64", None, refused)),
        ):
            same(said, slice_in(f"{said}\n".encode()), wanted)
        for other in (f"dsym {digest}", "dsym\n", f"retired {digest}\n", "\xff absent\n"):
            self.assertRaises(ValueError, slice_in, f"{SPOOL} arm64 {other}".encode("latin-1"))
