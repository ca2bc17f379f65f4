"""Why the tool ends, and its statuses."""
import enum

from ..console.faults import Failed


class Status(enum.IntEnum):
    """The status with which the tool ends."""

    DONE = 0
    NONE_NAMED = 1
    REFUSED = 2
    BAD_ARGUMENTS = 3
    NO_MEMORY = 4
    NO_PROGRAM = 126


class Failure(Failed):
    """What ends the tool, or keeps a report out: the reason and the status. The reason is empty if the program gave its
    own."""


class NoReport(Failure):
    """What keeps a file out that does not begin as a report."""


class SeveralReports(Failure):
    """What ends the tool if a zip file has several reports, and one is printed."""


class NoStacks(NoReport):
    """What keeps a report out that has no stacks, as its type says."""
