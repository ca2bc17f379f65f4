"""Runs the tests, or those whose names begin with one of the words, as `python3 -B -m tests tests.test_keep.Add`:
several classes of tests at once, each by `unittest` in a process of its own. Prints what a class says if not all of it
passed, and last `N passed, M failed`. The status is 0 if M is 0.

Of a class with `is_side_by_side = True` each test has a process of its own; one with `is_alone = True` runs when no
other does. Those that take longest begin first, by their `seconds`."""
import argparse
import os
import re
import signal
import subprocess
import sys
import time
import unittest
from concurrent.futures import ThreadPoolExecutor
from typing import Iterator, List, NamedTuple, Tuple, Type

from .support.program import TOP

RAN = re.compile(r"^Ran ([0-9]+) tests? in ", re.M)
COUNTS = re.compile(r"(failures|errors|unexpected successes|skipped)=([0-9]+)")
LEFT_OUT = re.compile(r"^(\w+) \((.*)\).* \.\.\. skipped '(.*)'$", re.M)


class Came(NamedTuple):
    """What came of a class: how many of its cases passed and failed, how long it took, and what is to be shown."""

    name: str
    passed: int
    failed: int
    seconds: float
    said: str

    def show(self) -> None:
        print(f"{self.name}: {self.passed} passed, {self.failed} failed, {self.seconds:.1f} s", flush=True)
        if self.failed:
            print(self.said, flush=True)
        for method, _, reason in LEFT_OUT.findall(self.said):
            print(f"{self.name}.{method}: left out: {reason}", flush=True)


def classes_in(suite: unittest.TestSuite) -> Iterator[Tuple[str, Type[unittest.TestCase]]]:
    """The classes of the cases of a suite, by their names. A module that cannot be imported stands there by its own."""
    for one in suite:
        if isinstance(one, unittest.TestSuite):
            yield from classes_in(one)
        elif type(one).__module__ == "unittest.loader":
            yield one.id().partition("_FailedTest.")[2], type(one)
        elif getattr(one, "is_side_by_side", False):
            yield one.id(), type(one)
        else:
            yield f"{type(one).__module__}.{type(one).__qualname__}", type(one)


def run(name: str) -> Came:
    """Runs what has this name, and counts. What ends without a count, or runs nothing, has failed."""
    began = time.monotonic()
    words = [sys.executable, "-B", "-m", "unittest", "-v", name]
    how = {"stdin": subprocess.DEVNULL, "stdout": subprocess.PIPE, "stderr": subprocess.STDOUT}
    said = subprocess.run(words, cwd=TOP, check=False, **how).stdout.decode(errors="replace")  # type: ignore
    ran = RAN.findall(said)
    counts = {what: int(number) for what, number in COUNTS.findall(said.rpartition("\nRan ")[2])}
    left_out = counts.pop("skipped", 0)
    failed = sum(counts.values())
    is_well = bool(ran) and int(ran[-1]) > 0 and said.rstrip().rpartition("\n")[2].startswith("OK")
    if not is_well and not failed:
        failed = 1
    passed = max(int(ran[-1]) - left_out - failed, 0) if ran else 0
    return Came(name, passed, failed, time.monotonic() - began, said)


def chosen(words: List[str]) -> Tuple[List[str], List[str], List[str]]:
    """The names of what runs side by side, the longest first, of what runs alone, and what is given as it stands."""
    suite = unittest.defaultTestLoader.discover(str(TOP / "tests"), top_level_dir=str(TOP))
    found = dict(classes_in(suite))
    if words:
        inner = [it for it in words if not any(f"{name}.".startswith(f"{it}.") for name in found)]
        found = {name: it for name, it in found.items() if any(f"{name}.".startswith(f"{word}.") for word in words)}
    else:
        inner = []
    names = sorted(found, key=lambda name: -getattr(found[name], "seconds", 0))
    alone = [name for name in names if getattr(found[name], "is_alone", False)]
    return [name for name in names if name not in alone], alone, inner


def main() -> int:
    parser = argparse.ArgumentParser("python3 -B -m tests", description=__doc__)
    parser.add_argument("names", metavar="NAME", nargs="*", help="a module, a class or a method, as unittest has it")
    parser.add_argument("--jobs", metavar="N", type=int, default=os.cpu_count() or 1, help="classes at once")
    words = parser.parse_args()
    # Under nohup it is ignored, by all that is called here too.
    signal.signal(signal.SIGHUP, signal.SIG_DFL)
    beside, alone, inner = chosen(words.names)
    passed = failed = 0
    failures = []
    with ThreadPoolExecutor(words.jobs) as beside_each_other:
        came = list(beside_each_other.map(lambda name: shown(run(name)), beside))
    came += [shown(run(name)) for name in [*alone, *inner]]
    for one in came:
        passed, failed = passed + one.passed, failed + one.failed
        if one.failed:
            failures.append(one.name)
    if failures:
        print(f"failed: {', '.join(failures)}")
    print(f"{passed} passed, {failed} failed")
    return 0 if passed and not failed else 1


def shown(came: Came) -> Came:
    came.show()
    return came


if __name__ == "__main__":
    sys.exit(main())
