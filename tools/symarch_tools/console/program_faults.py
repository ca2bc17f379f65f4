"""The faults of inputs, as the program prints them: on standard error, or in a report if it went on without a part."""
import re
from typing import NamedTuple, Optional

FAULT = re.compile("(archive|index|file) ([0-9]{1,9}): ((.*?)(?: at (entry )?([0-9]{1,20}))?)")
# The program begins its line on standard error so.
OWN_WORDS = "symarch: "


class InputFault(NamedTuple):
    """What is wrong with an input of the program: the kind and the number of the input, the text of the fault, the
    reason in it, and the byte or the entry at which it is."""

    kind: str
    number: int
    text: str
    reason: str
    byte: Optional[int]
    entry: Optional[int]

    def is_cut_short(self) -> bool:
        """Whether an archive ends early."""
        return self.kind == "archive" and self.reason == "Truncated"


def input_fault(text: str) -> Optional[InputFault]:
    """The fault that a text is; None if it is that of no input."""
    found = FAULT.fullmatch(text)
    if not found:
        return None
    at = int(found[6]) if found[6] else None
    places = (None, at) if found[5] else (at, None)
    return InputFault(found[1], int(found[2]), found[3], found[4], *places)


def fault_on_standard_error(said: str) -> Optional[InputFault]:
    """The fault of an input that the first line on standard error is."""
    line = said.partition("\n")[0]
    return input_fault(line[len(OWN_WORDS) :]) if line.startswith(OWN_WORDS) else None
