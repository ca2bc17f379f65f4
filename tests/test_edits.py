"""The edits: that each fits the sources, that the tables have them, and that a test has to catch each wrong body that
the prover accepts. `bench/edits`, `bench/allowed` and the gate try them."""
import hashlib
import pathlib
import re
import shutil
import sys
import unittest
from typing import Dict, List, Tuple

from .support.cases import FolderCase
from .support.named import cases, methods
from .support.program import TOP, call

sys.path.insert(0, str(TOP / "bench"))
from edit_rooms import Room, Tried, batches  # noqa: E402
from edit_texts import BadEdit, Edit, Function, crates, edits_in, function_at, in_gate  # noqa: E402

TABLE, ALLOWED = TOP / "bench" / "edits.tsv", TOP / "bench" / "allowed.tsv"
DIGEST = re.compile("[0-9a-f]{8}")
NEVER = "never tried"


def rows_of(table: str) -> List[List[str]]:
    """The cells of the rows of a table, without its head."""
    return [line.split("\t") for line in table.splitlines()[1:]]


def every(file: str) -> Dict[str, Edit]:
    return {edit.key: edit for crate in crates() for edit in edits_in(crate, file).values()}


class Edits(unittest.TestCase):
    """The edits and their tables."""

    is_side_by_side = True
    seconds = 10

    def test_each_stands(self) -> None:
        """Each text of an edit is once in its file."""
        lost = []
        found = [edit for crate in crates() for edit in in_gate(crate).values()]
        for edit in [*found, *every("edits").values(), *every("allowed").values()]:
            try:
                self.assertTrue(edit.applied(), edit.key)
            except BadEdit as bad:
                lost.append(f"{edit.key}: {bad}")
        self.assertEqual(lost, [])

    def test_rows(self) -> None:
        """A row has what its edit was tried on and what came of it, or neither. None is of one that was let through."""
        for row in rows_of(TABLE.read_text(encoding="utf-8")):
            edit, text, sources, result = row
            with self.subTest(edit):
                if "/" not in edit:
                    self.assertRegex(sources, DIGEST)
                    self.assertIn([edit in crates(), text, result], [[True, "-", "tried"], [True, "-", "left late"]])
                    continue
                self.assertTrue(DIGEST.fullmatch(text))
                self.assertEqual(sources == "-", result == NEVER)
                self.assertTrue(sources == "-" or DIGEST.fullmatch(sources))
                self.assertTrue(result == NEVER or result.startswith("refused"), result)

    def test_list(self) -> None:
        """The list counts each edit once, in the row of its crate or among the others."""
        came = call([TOP / "bench" / "edits", "--list"])
        counted = [int(it) for it in re.findall(r": ([0-9]+) edits", came.out.decode())]
        self.assertEqual(came.errors, b"")
        self.assertEqual(sum(counted), len(every("edits")) + sum(len(in_gate(crate)) for crate in crates()))

    @unittest.skipIf(shutil.which("rt") is None, "there is no rt, whose logic an edit was tried with")
    def test_touched(self) -> None:
        """No edit is late of a crate whose sources are others than when its edits were last tried, or left."""
        came = call([TOP / "bench" / "edits", "--list", "--touched"])
        self.assertEqual(came.status, 0, f"{came.out.decode()}try them by `bench/edits --late --touched`")

    def test_left(self) -> None:
        # The gate prints the reason, and so how many edits are late.
        came = call([TOP / "bench" / "edits", "--list", "--touched"])
        self.skipTest(came.lines[-1])

    def test_allowed(self) -> None:
        """Each wrong body that is let through has a test that is there, and is in no other table."""
        rows = {row[0]: row for row in rows_of(ALLOWED.read_text(encoding="utf-8"))}
        self.assertEqual(sorted(rows), sorted(every("allowed")))
        tests = methods() | cases()
        self.assertEqual([row[0] for row in rows.values() if row[3] not in tests], [])
        digests = {edit.crate + edit.digest() for edit in every("edits").values()}
        self.assertEqual([it.key for it in every("allowed").values() if it.crate + it.digest() in digests], [])


SOURCE = """impl<'a> Shown<u8> for Row<'a> {
    // Its attribute belongs to it.
    #[tactic(auto)]
    fn first(&self) -> u8
        ensures { result ≡ 1 }
    {
        1
    }

    fn second(&self) -> u8 {
        2
    }
}

const fn third() -> u8 {
    3
}
"""


class Batches(unittest.TestCase):
    """Edits of different functions in one check: what of its lines is whose."""

    is_side_by_side = True
    seconds = 1

    def function(self, old: str) -> Function:
        found = function_at(SOURCE, "src/rows.rt", old)
        assert found is not None
        return found

    def tried(self, name: str, old: str) -> Tried:
        edit = Edit("low", name, f"file: src/rows.rt\nold: {old}\nnew: 0\n")
        return Tried(edit, self.function(old), f"low::rows::RowShown::{name}")

    def shared(self, *lines: str) -> Tuple[Dict[str, str], List[str]]:
        room = Room(pathlib.Path(), "low", 1, [], {"note: src/other.rt:1:1: as it is"})
        return room.shared([self.tried("first", "        1"), self.tried("second", "        2")], [*lines])

    def test_functions(self) -> None:
        """The lines of a function, from its attributes, and where its body begins, if clauses alone show this."""
        places = [(it.first, it.body, it.end) for it in map(self.function, ("        1", "        2", "    3"))]
        self.assertEqual(places, [(2, 5, 7), (9, 9, 11), (14, 16, 16)])

    def test_names(self) -> None:
        """A check names a method after its type and its trait."""
        names = ["low::rows::RowShown::first", "low::rows::Row::first", "low::Row+u8::first", "low::rows::third"]
        self.assertEqual(self.function("        1").among(names), names[:1])
        self.assertEqual(self.function("    3").among(names), names[3:])
        inherent = self.function("        1")._replace(trait="", modules=())
        self.assertEqual(inherent.among(names), names[2:3])

    def test_batches(self) -> None:
        """A batch has no function twice."""
        first, second = self.tried("first", "        1"), self.tried("second", "        2")
        other = first._replace(edit=Edit("low", "other", "file: src/rows.rt\n"))
        self.assertEqual([*batches([first, other, second])], [[first, second], [other]])

    def test_goals(self) -> None:
        """An edit is refused by a goal where its function stands, or in its proof, and by no other."""
        goal = "note: src/rows.rt:3:1: it is not proved"
        self.assertEqual(self.shared(goal), ({"low/first": f"refused: {goal}"}, []))
        proof = "./proofs/rows/RowShown/second/Answers.antt:1:1: error: "
        self.assertEqual(self.shared(f"{proof}it differs"), ({"low/second": f"refused: {proof}it differs"}, []))
        self.assertEqual(self.shared(f"{proof}c has no field x"), ({"low/second": "refused by shape"}, []))
        self.assertEqual(self.shared(goal, "fn low::rows::RowShown::first: proved"), ({}, []))

    def test_goals_of_none(self) -> None:
        """What only rests on another proof refuses nothing, nor does what the sources as they are say too."""
        proof = "./proofs/rows/RowShown/second/Answers.antt:1:1: error: "
        self.assertEqual(self.shared(f"{proof}1 declaration that depends on `met`, which was not admitted"), ({}, []))
        self.assertEqual(self.shared("note: src/other.rt:1:1: as it is"), ({}, []))
        self.assertEqual(self.shared("note: src/rows.rt:15:1: not"), ({}, ["note: src/rows.rt:15:1: not"]))


TRIED_TOO = "1 crates changed; edits tried too:"
IS_TWO = "file: src/lib.rt\nold:     1\nnew:     2\n"


class TwoCrates(FolderCase):
    """A repository of two small crates, of one edit each."""

    scripts = ("bench/edits", "bench/sampled", "bench/edit_rooms.py", "bench/edit_texts.py", "packaging/crate_list.py")

    def setUp(self) -> None:
        super().setUp()
        for path in self.scripts:
            shutil.copymode(TOP / path, self.file(path, (TOP / path).read_bytes()))
        self.file("crates.txt", "low:\nhigh: low\n")
        for crate in ("low", "high"):
            self.file(f"crates/{crate}/src/lib.rt", f"pub fn of_{crate}() -> u8 {{\n    1\n}}\n")
            self.file(f"crates/{crate}/edits", f"# is_two\n{IS_TWO}")


@unittest.skipIf(shutil.which("git") is None, "there is no git")
class Sampled(TwoCrates):
    """`bench/sampled`: what the command that it runs meets in must-fail/."""

    is_side_by_side = True
    seconds = 5
    edit = "crates/low/must-fail/is_two.edit"

    def setUp(self) -> None:
        super().setUp()
        self.git("init", "-q")
        self.refused("is_two", "low", "high")
        self.commit("Two crates")
        self.file("crates/low/specs/Lib.antt", "-- More\n")
        self.file("crates/high/edits", f"# is_two\n{IS_TWO}# is_three\n{IS_TWO}")
        self.commit("One changed, and only edits of the other")

    def refused(self, name: str, *crates: str) -> None:
        """As the table says that these edits were, on other sources."""
        digest = hashlib.sha256(IS_TWO.strip().encode()).hexdigest()[:8]
        rows = (f"{crate}/{name}\t{digest}\t-\trefused: a goal\n" for crate in crates)
        self.file("bench/edits.tsv", "edit\ttext\tsources\tresult\n" + "".join(rows))

    def git(self, *words: str) -> None:
        who = ["-c", "user.name=nobody", "-c", "user.email=nobody@localhost"]
        self.assertEqual(call(["git", *who, *words], cwd=self.folder).status, 0)

    def commit(self, message: str) -> None:
        self.git("add", "-A")
        self.git("commit", "-q", "-m", message)

    def says(self, words: str, command: str, status: int, *lines: str) -> None:
        came = call([self.folder / "bench/sampled", *words.split(), "sh", "-c", command], cwd=self.folder)
        self.assertEqual((came.errors, came.status, came.lines), (b"", status, [*lines]), words)

    def test_a_crate_that_changed(self) -> None:
        """The last commit is the change. The edit is there until the command ends, and the status is the command's."""
        self.says("", "ls crates/*/must-fail/*; cat crates/*/must-fail/*; exit 3", 3, f"{TRIED_TOO} low/is_two",
                  self.edit, "file: src/lib.rt", "old:     1", "new:     2")  # fmt: skip
        self.assertFalse((self.folder / self.edit).parent.exists())

    def test_commits_of_a_branch(self) -> None:
        """All that the main branch has not are the change."""
        self.git("update-ref", "refs/remotes/origin/main", "HEAD~1")
        self.file("crates/high/src/more.rt", "// More\n")
        self.commit("The other changed")
        came = call([self.folder / "bench/sampled", "true"], cwd=self.folder)
        self.assertRegex(came.lines[0], "^2 crates changed; .*: (low/is_two high/is_two|high/is_two low/is_two)$")

    def test_an_edit_that_was_never_refused(self) -> None:
        """It is left to `bench/edits`, as is one whose text is another since."""
        self.refused("is_three", "low")
        self.says("", "true", 0, f"{TRIED_TOO} none")
        self.refused("is_two", "low")
        self.file("crates/low/edits", f"# is_two\n{IS_TWO.replace('2', '3')}")
        self.says("", "true", 0, f"{TRIED_TOO} none")

    def test_minutes(self) -> None:
        """A crate that takes longer than what is left has none."""
        self.says("--minutes 0", "ls crates/*", 0, f"{TRIED_TOO} none",
                  "crates/high:", "edits", "src", "", "crates/low:", "edits", "specs", "src")  # fmt: skip

    def test_first_commit(self) -> None:
        """Nothing changed where no commit is before."""
        self.git("checkout", "-q", "--orphan", "other")
        self.commit("Anew")
        self.says("", "true", 0, "0 crates changed; edits tried too: none")


class Touched(TwoCrates):
    """`bench/edits` in a repository of two small crates, where no edit is tried."""

    is_side_by_side = True
    seconds = 5

    def says(self, words: str, status: int, *lines: str) -> None:
        came = call([self.folder / "bench/edits", *words.split()], cwd=self.folder)
        self.assertEqual((came.errors, came.status, came.lines), (b"", status, [*lines]), words)

    def tried(self, crate: str) -> None:
        """As a log says of its edit, since no crate is proved here."""
        self.file("log", f"rt: must-fail {crate}/is_two.edit: refused, as it must be: the goal\n")
        self.says("--log log", 0, "1 edits in log")

    def test_a_crate_that_was_never_tried(self) -> None:
        low = ["low: 1 edits, 1 late, of which 1 were never tried", "  low/is_two: never tried"]
        high = [line.replace("low", "high") for line in low]
        self.says("--list --touched", 1, *high, *low, "0 other crates: 0 edits, 0 late, 0 of them left")
        self.tried("high")
        self.says("--list --touched", 1, *low, "1 other crates: 1 edits, 0 late, 0 of them left")
        self.tried("low")
        self.says("--list --touched", 0, "2 other crates: 2 edits, 0 late, 0 of them left")

    def test_edits_that_are_left(self) -> None:
        self.says("--leave --touched", 0, "2 crates: 2 late edits are left")
        self.says("--list --touched", 0, "2 other crates: 2 edits, 2 late, 2 of them left")
        self.says("--list low", 1, "low: 1 edits, 1 late, of which 1 were never tried", "  low/is_two: never tried",
                  "1 other crates: 1 edits, 1 late, 1 of them left")  # fmt: skip

    def test_a_crate_that_changed(self) -> None:
        """It is touched, and those above it are not, but their edits are late."""
        self.tried("low")
        self.tried("high")
        self.file("crates/low/specs/Lib.antt", "-- More\n")
        late = ["low: 1 edits, 1 late, of which 0 were never tried", "  low/is_two: refused: the goal"]
        self.says("--list --touched", 1, *late, "1 other crates: 1 edits, 1 late, 0 of them left")
        self.tried("low")
        self.says("--list --touched", 0, "2 other crates: 2 edits, 1 late, 0 of them left")

    def test_an_edit_that_changed(self) -> None:
        """It has to be tried anew, unless edits of its crate were left."""
        new = "# is_two\nfile: src/lib.rt\nold:     1\nnew:     3\n"
        late = ["low: 1 edits, 1 late, of which 1 were never tried", "  low/is_two: never tried"]
        self.says("--leave high", 0, "1 crates: 1 late edits are left")
        self.tried("low")
        self.file("crates/low/edits", new)
        self.file("crates/high/edits", new)
        self.says("--list --touched", 1, *late, "1 other crates: 1 edits, 1 late, 1 of them left")
