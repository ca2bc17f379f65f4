"""Where the program is, and what came of a call."""
import contextlib
import os
import pathlib
import signal
import subprocess
from typing import Any, List, Mapping, NamedTuple, Optional, Sequence, Union

TOP = pathlib.Path(__file__).resolve().parents[2]
# The program that the environment variable SYMARCH names, or else that of this tree.
symarch = os.path.abspath(os.environ.get("SYMARCH") or TOP / "crates" / "symarch" / "out" / "symarch")
# How root runs a command that may not read each file.
NOT_ROOT = ["setpriv", "--bounding-set=-dac_override,-dac_read_search"]
# What a shell begins in the background ignores SIGINT, and so would all that it calls.
if signal.getsignal(signal.SIGINT) == signal.SIG_IGN:
    signal.signal(signal.SIGINT, signal.default_int_handler)
# No call of a test takes longer, also where the machine has much other work.
MOST_SECONDS = 900

Word = Union[str, bytes, "os.PathLike[str]"]
Environment = Optional[Mapping[str, str]]


class Ended(NamedTuple):
    """What came of a call: its status, which is negative after a signal, and what it printed."""

    status: int
    out: bytes
    errors: bytes

    @property
    def lines(self) -> List[str]:
        """The lines of standard output."""
        return lines_of(self.out)

    @property
    def error_lines(self) -> List[str]:
        """The lines of standard error."""
        return lines_of(self.errors)


def lines_of(text: bytes) -> List[str]:
    """The lines of a text. A last one that does not end has `(no end)` after it."""
    *lines, rest = text.decode(errors="surrogateescape").split("\n")
    return lines + ([f"{rest}(no end)"] if rest else [])


def call(words: Sequence[Word], *, stdin: Any = b"", environment: Environment = None, **how: Any) -> Ended:
    """Runs words to their end. `stdin` is the bytes of standard input, or an open file; `environment` is added to the
    one of the tests."""
    given = {"input": stdin} if isinstance(stdin, bytes) else {"stdin": stdin}
    how = {"stdout": subprocess.PIPE, "stderr": subprocess.PIPE, "timeout": MOST_SECONDS, **given, **how}
    run = subprocess.run(words, env={**os.environ, **(environment or {})}, check=False, **how)
    return Ended(run.returncode, run.stdout or b"", run.stderr or b"")


def is_done(words: Sequence[Word]) -> bool:
    """Whether a command ends well. It may not be there."""
    with contextlib.suppress(OSError):
        return subprocess.run(words, capture_output=True, check=False).returncode == 0
    return False
