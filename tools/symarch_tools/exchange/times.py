"""The times of files in a shared folder. Others may write any time there, and a clock may be wrong for a while: a time
that is no date, or is more than a day ahead, does not count."""
import contextlib
import time
from typing import Iterable, Optional

TIME = "%Y%m%dT%H%M%SZ"
DAY = 24 * 60 * 60


def seconds_of(text: str) -> Optional[int]:
    """The seconds of a time; None if it is no date."""
    import calendar

    with contextlib.suppress(ValueError):
        return calendar.timegm(time.strptime(text, TIME))
    return None


def fault_of_time(text: str) -> str:
    """Why a time does not count, if it does not."""
    seconds = seconds_of(text)
    if seconds is None:
        return "its time is no date"
    return "its time is more than a day ahead" if seconds > time.time() + DAY else ""


def time_after(times: Iterable[str]) -> str:
    """Now, or a second after the last of some times that count, if that is later."""
    last = max((seconds_of(one) or 0 for one in times if not fault_of_time(one)), default=0)
    return time.strftime(TIME, time.gmtime(max(int(time.time()), last + 1)))


def time_now() -> str:
    return time.strftime(TIME, time.gmtime())
