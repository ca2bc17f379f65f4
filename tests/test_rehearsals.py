"""The scripts of fixtures/rehearsals, whose comments describe them."""
from typing import List

from .support.cases import ProgramCase, Text, text_lines
from .support.made_images import archive, digest_of
from .support.program import TOP

SCRIPTS = TOP / "tests" / "fixtures" / "rehearsals"
# The images that the scripts take: one, one with a byte more, one of another architecture, and the dSYM of the first.
IMAGE = bytes.fromhex(
    "cffaedfe070000010300000002000000010000001800000000000000000000001b0000001800000000112233445566778899aabbccddeeff"
)
LONGER = IMAGE + b"\0"
ARM64 = IMAGE[:4] + bytes.fromhex("0c00000100000000") + IMAGE[12:]
DSYM = IMAGE[:12] + b"\x0a" + IMAGE[13:]


class Rehearsals(ProgramCase):
    """What each script prints, and that its sites have the same at the end."""

    def rehearse(self, name: str, sites: int, content: bytes, events: Text) -> None:
        """Fails where a script does not print these events, or where not each site has these bytes at the end."""
        records = int.from_bytes(content[-8:], "big")
        ends: List[str] = [f"site {it} {records} {len(content)} {digest_of(content)}" for it in range(sites)]
        lines = [f"{number} {it}" for number, it in enumerate(text_lines(events))]
        self.expect(["rehearse", SCRIPTS / f"{name}.script"], prints=[*lines, *ends])

    def test_convergence(self) -> None:
        self.rehearse(
            "convergence",
            3,
            archive([DSYM], retired=[IMAGE]),
            """
            took 1 0 0
            took 1 0 0
            retired
            sent 0 106
            sent 1 106
            sent 2 74
            delivered
            delivered
            delivered
            delivered
            delivered
            sent 3 74
            sent 4 106
            delivered
            refused NoMessage
            refused Refused(BadMagic at 0)
            refused NoSite
            """,
        )

    def test_an_old_summary(self) -> None:
        self.rehearse(
            "old-summary",
            2,
            archive([LONGER, ARM64, DSYM], retired=[IMAGE]),
            """
            took 1 0 0
            sent 0 74
            took 1 0 0
            took 1 0 0
            took 1 0 0
            took 1 0 0
            retired
            sent 1 253
            took 1 0 0
            delivered
            delivered
            sent 2 342
            delivered
            sent 3 245
            sent 4 17
            delivered
            """,
        )

    def test_a_stop(self) -> None:
        self.rehearse(
            "stop",
            2,
            archive([IMAGE, ARM64]),
            """
            took 1 0 0
            took 1 0 0
            took 1 0 0
            sent 0 74
            stopped
            sent 1 106
            delivered
            stopped
            took 1 0 0
            stopped
            delivered
            saved
            stopped
            stopped
            sent 2 17
            sent 3 195
            delivered
            """,
        )
