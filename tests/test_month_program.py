"""A month with the program: command lines with arguments in a wrong order, or repeated."""
from .support.cases import same
from .support.made_images import archive, index, summary
from .support.outs import CANNOT_REPLACE, SLICES, OutCase, state_of
from .support.second_lines import losing


class WrongOrder(OutCase):
    """An archive of another site at OUT, which no line of a colleague replaces by what has less."""

    def setUp(self) -> None:
        super().setUp()
        self.put("west.sym", archive(SLICES))

    def test_delta_over_an_archive(self) -> None:
        """`delta` with the archive of another site as OUT."""
        self.keeps(["delta", "both.sym", "one.sum", "west.sym"], CANNOT_REPLACE, losing(3), out="west.sym")

    def test_summary_and_index_over_an_archive(self) -> None:
        """`summary` and `index` with OUT and ARCHIVE exchanged."""
        self.put("west.sum", summary(SLICES))
        for command in ("summary", "index"):
            self.keeps([command, "both.sym", "west.sym"], CANNOT_REPLACE, ", there, and an archive", out="west.sym")
        self.keeps(["index", "both.sym", "west.sum"], CANNOT_REPLACE, ", there, and a summary", out="west.sum")

    def test_an_operations_file(self) -> None:
        """`merge` with an operations file in the place of OUT."""
        words = ["merge", "one.sym", "two.ops", "two.sym"]
        self.keeps(words, CANNOT_REPLACE, ", there, and an operations file", out="two.ops")

    def test_a_delta_once_more(self) -> None:
        """A rerun of `delta` replaces its own OUT, and after the other site asked anew it takes a new one."""
        words = ["delta", "west.sym", "one.sum", "west.delta"]
        for _ in range(2):
            same("status", self.run_program(words)[0], 0)
        self.put("all.sum", summary(SLICES))
        before = state_of(self.folder / "west.delta")
        words = ["delta", "west.sym", "all.sum", "west.delta"]
        self.keeps(words, CANNOT_REPLACE, losing(3), out="west.delta")
        same("OUT", state_of(self.folder / "west.delta"), before)

    def test_an_index_once_more(self) -> None:
        """`index` and `summary` replace what they wrote."""
        for command, text in (("index", index(SLICES)), ("summary", summary(SLICES))):
            self.put("out.sym", b"")
            for _ in range(2):
                same("status", self.run_program([command, "west.sym", "out.sym"])[0], 0)
            same("OUT", self.out.read_bytes(), text)
