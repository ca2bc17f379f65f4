"""COMMANDS for readers with a fault: a row for each, which of several is reported, which copy of a slice is read."""
import re
import unittest
from typing import List

from .support.command_table import text_of
from .support.made_images import admission, archive, image, index, slice_words
from .test_inputs import InputsCase

QUOTED = re.compile(r"`([^`]*)`")
# The texts that a fault has at each place, apart from those of the files of `admit`.
TEXTS = {
    "archive N": ["cannot open", "KIND at B", "Device at B", "NoIndex", "OldArchive", "TooLong"],
    "file N": ["cannot open", "Device"],
    "ops": ["cannot open", "KIND at B"],
    "summary": ["cannot open", "KIND at B"],
    "index N": [
        *("cannot open", "KIND at B", "Device at B", "Stale"),
        *("Stale at entry K", "Damaged at entry K", "NoLines at entry K", "NoArchive"),
    ],
    "frames": ["cannot open", "Device", "BadFrame at line L"],
    "script": ["cannot open", "Device", "FAULT at line L"],
    "output": ["cannot create", "cannot replace", "failed after W bytes"],
    "report": ["failed after W bytes"],
}
ONE = image(1)
UUID, ARCH, DIGEST = slice_words(ONE)


def cells_of(heading: str) -> List[List[str]]:
    """The cells of the rows of the first table under a heading of COMMANDS."""
    section = text_of("docs/COMMANDS.md").partition(f"\n{heading}\n")[2].partition("\n#")[0]
    rows = re.findall(r"^\| (.*) \|$", section, re.M)
    return [row.split(" | ") for row in rows[1:]]


def places_of(cell: str) -> List[str]:
    """The lines that the first cell of a row names; a place alone has the text of the one before it."""
    found: List[str] = []
    for quoted in QUOTED.findall(cell):
        text = "" if ": " in quoted or not found else f": {found[-1].partition(': ')[2]}"
        found.append(quoted + text)
    return found


class Rows(unittest.TestCase):
    """The rows of what to do."""

    def test_each_fault_has_one(self) -> None:
        """Each text that a fault has at its place."""
        rows = [line for row in cells_of("### What to do") for line in places_of(row[0])]
        there = {line.replace("archive 0", "archive N") for line in rows}
        faults = [f"{place}: {text}" for place, texts in TEXTS.items() for text in texts]
        self.assertEqual([fault for fault in faults if fault not in there], [])


class Faults(InputsCase):
    """Which fault is reported, and which copy of a slice is read."""

    def setUp(self) -> None:
        super().setUp()
        whole = archive([ONE])
        self.put("one.sym", whole)
        self.put("one.idx", index([ONE]))
        self.put("cut.sym", whole[:-1])
        # The slice has another byte at its end.
        at = len(b"MSYMARC2") + len(admission(ONE)) - 1
        self.put("changed.sym", whole[:at] + bytes([whole[at] ^ 1]) + whole[at + 1 :])

    def test_out_comes_last(self) -> None:
        """`summary` and `extract` report their input before an OUT that cannot be, as others do not."""
        for words in (["summary", "cut.sym", "no/out"], ["extract", "cut.sym", UUID, ARCH, "no/out"]):
            self.refuses("archive 0: Truncated at 97", *words)
        self.refuses("output: cannot create", "extract", "one.sym", UUID, ARCH, "no/out")
        for words in (["index", "cut.sym", "no/out"], ["migrate", "cut.sym", "no/out"]):
            self.refuses("output: cannot create", *words)

    def test_first_copy(self) -> None:
        """By indexes `extract` reads the copy in the first archive alone, and `find` reads each."""
        indexes = ["--index", "one.idx", "--index", "one.idx"]
        extract = ["extract", "one.sym", UUID, ARCH, "out.sym", "--with", "changed.sym", *indexes]
        for words in (extract, [*extract, "--digest", DIGEST]):
            self.writes(ONE, *words)
            words[1], words[6] = words[6], words[1]
            self.refuses("index 0: Stale at entry 0", *words)
        self.refuses("index 1: Stale at entry 0", "find", "one.sym", UUID, "--with", "changed.sym", *indexes)
