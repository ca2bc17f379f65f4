"""A terminal on which a tool runs: what is written to it, and what stands on it then."""
import contextlib
import fcntl
import os
import pty
import struct
import termios
import threading
from typing import List

from .program import MOST_SECONDS

WIPE = "\r\x1b[K"


class Terminal:
    """A terminal of so many columns. `writer` is what a tool has as a standard stream."""

    def __init__(self, columns: int = 80) -> None:
        self.columns = columns
        self.reader, self.writer = pty.openpty()
        fcntl.ioctl(self.writer, termios.TIOCSWINSZ, struct.pack("HHHH", 24, columns, 0, 0))
        self.text = ""
        self.thread = threading.Thread(target=self.read, daemon=True)
        self.thread.start()

    def read(self) -> None:
        # The end of a terminal is an error of the system.
        with contextlib.suppress(OSError):
            while data := os.read(self.reader, 4096):
                self.text += data.decode()

    def close(self) -> str:
        """Ends the terminal, of which no process has a stream any more, and returns what was written to it."""
        os.close(self.writer)
        self.thread.join(timeout=MOST_SECONDS)
        os.close(self.reader)
        return self.text

    def lines(self) -> List[str]:
        """What stands on it: a line that is wider than it goes on in the next one, which is not wiped with it."""
        lines, at = [""], 0
        text = self.text
        while text:
            if text.startswith("\x1b[K"):
                lines[-1], text = lines[-1][:at], text[3:]
                continue
            character, text = text[0], text[1:]
            if character == "\r":
                at = 0
            elif character == "\n":
                lines.append("")
            else:
                if at == self.columns:
                    lines.append("")
                    at = 0
                lines[-1] = lines[-1][:at] + character + lines[-1][at + 1 :]
                at += 1
        return lines[:-1] if lines[-1] == "" else lines

    def stages(self) -> List[str]:
        """What stood on the line that is wiped."""
        pieces = [it for it in self.text.split(WIPE)[1:] if it[:1] not in ("", "\r")]
        return [it.partition("\r")[0].partition("\n")[0] for it in pieces]
