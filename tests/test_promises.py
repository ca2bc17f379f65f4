"""The promises of README and COMMANDS, docs/promises.tsv: that something carries each."""
import runpy
import unittest
from typing import List

from .support.program import TOP, call

SCRIPT = TOP / "docs" / "draw-promises"
DOCUMENT = """# Title

An input is
opened **when its first byte is read**, and *closed*.

- It prints `a`.
- It prints `b`.

| Line | If |
|---|---|
| `a` | the first |
| `b` | not |

```
$ an example
```
"""


class Promises(unittest.TestCase):
    """The table, and what the script says."""

    is_side_by_side = True
    seconds = 5

    def test_each_is_carried(self) -> None:
        came = call([SCRIPT, "--check"])
        self.assertEqual((came.status, came.errors), (0, b""), came.out.decode())

    def test_list(self) -> None:
        """It has each line of the table but those that are no promise."""
        rows = [line.split("\t") for line in (TOP / "docs/promises.tsv").read_text(encoding="utf-8").splitlines()[1:]]
        wanted = [row[1] for row in rows if row[2] != "no promise"]
        came = call([SCRIPT])
        self.assertEqual((came.status, came.errors), (0, b""))
        self.assertEqual([it[2:] for it in came.lines if it[:3].strip() and it.startswith("  ")], wanted)

    def said(self, *anchors: str) -> List[str]:
        return list(runpy.run_path(str(SCRIPT), run_name="script")["faults_of"](DOCUMENT, [*anchors]))

    def test_what_a_document_lacks(self) -> None:
        """A heading, an example and the head of a table are no promises."""
        every = ["opened **when", "prints `a`", "prints `b`", "| `a`", "not |"]
        self.assertEqual(self.said(*every), [])
        self.assertEqual(self.said(*every, "elsewhere"), ["the anchor `elsewhere` is there 0 times"])
        self.assertEqual(self.said(*every, "It prints"), ["the anchor `It prints` is there 2 times"])
        self.assertEqual(self.said(*every[:1], *every[2:]), ["no anchor is in `- It prints `a`.`"])
        self.assertEqual(self.said(*every[:-1]), ["no anchor is in `| `b` | not |`"])
        self.assertEqual(self.said("*closed*", *every[1:]), ["no anchor is in `**when its first byte is read**`"])
