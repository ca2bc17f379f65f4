"""A process that works: it answers jobs one after another, each within its limits, until it has used much memory."""
from __future__ import annotations

import os
import resource
import socket
import sys
import tempfile
import traceback
from typing import List, Tuple

from symarch_tools.console import demangler
from symarch_tools.console.escapes import shown
from symarch_tools.console.faults import Failed, system_text
from symarch_tools.console.streams import noted
from symarch_tools.reports.faults import Failure, Status
from symarch_tools.store.file_names import NO_FILE, is_no_file

from . import form_jobs, jobs, profile_jobs, report_jobs
from .control import ERR, OUT, Members, close, receive, send
from .demanglers import Demanglers

JOBS = {
    "keep": jobs.keep,
    "builds": jobs.builds,
    "held": jobs.held,
    "slice": jobs.slice_of,
    "bundle": jobs.bundle,
    "dsyms": jobs.dsyms,
    "form": form_jobs.form,
    "report": report_jobs.report,
    "profile": profile_jobs.profile,
}
# One that had more KiB of memory is not asked again, so that the system has them back.
MOST_KEPT = 256 << 10


def main() -> None:
    memory, seconds = map(int, sys.argv[2:4])
    control = socket.socket(fileno=os.dup(0))
    demangler.ask = Demanglers().changed
    nothing = os.open(os.devnull, os.O_RDWR)
    log = os.dup(2)
    put_standard(nothing, nothing, log)
    resource.setrlimit(resource.RLIMIT_CORE, (0, 0))
    resource.setrlimit(resource.RLIMIT_AS, (memory, resource.getrlimit(resource.RLIMIT_AS)[1]))
    is_last = not has_sent(control, {}, [])
    while not is_last:
        received = receive(control)
        if received is None:
            break
        limit_seconds(seconds)
        members, descriptors = answered(received[0], log)
        put_standard(nothing, nothing, log)
        has_grown = resource.getrusage(resource.RUSAGE_SELF).ru_maxrss > MOST_KEPT
        is_last = has_grown or bool(members.get("is_last") or members.get("out_of_memory"))
        is_last = not has_sent(control, {**members, "is_last": is_last}, descriptors) or is_last
        close(descriptors)
    # What Python would do at its end was done by then.
    os._exit(0)


def has_sent(control: socket.socket, members: Members, descriptors: List[int]) -> bool:
    """Sends an answer, or at first that jobs may come, unless the server is gone."""
    try:
        send(control, members, descriptors)
        return True
    except OSError:
        return False


def put_standard(*descriptors: int) -> None:
    """Puts open files in place of the standard streams."""
    for place, descriptor in enumerate(descriptors):
        os.dup2(descriptor, place)


def limit_seconds(seconds: int) -> None:
    """Ends this process when it has worked so long from now on."""
    used = resource.getrusage(resource.RUSAGE_SELF)
    hard = resource.getrlimit(resource.RLIMIT_CPU)[1]
    resource.setrlimit(resource.RLIMIT_CPU, (int(used.ru_utime + used.ru_stime) + seconds + 1, hard))


def answered(job: Members, log: int) -> Tuple[Members, List[int]]:
    """What comes of a job, whose standard output and error are files of its room."""
    noted.clear()
    descriptors: List[int] = []
    try:
        os.chdir(job["room"])
        # What a kill leaves is removed with the room.
        tempfile.tempdir = os.environ["TMPDIR"] = job["room"]
        for descriptor, name in ((1, OUT), (2, ERR)):
            file = os.open(name, os.O_WRONLY | os.O_CREAT | os.O_TRUNC | os.O_CLOEXEC, 0o600)
            os.dup2(file, descriptor)
            os.close(file)
        refuse_pipe(job["archive"])
        members = JOBS[job["job"]](job, descriptors)
        sys.stdout.flush()
        sys.stderr.flush()
        return members, descriptors
    except MemoryError:
        return {"fault": "the work needs more memory than it may have", "out_of_memory": True}, []
    except Failed as failed:
        if isinstance(failed, Failure) and failed.status == Status.NO_MEMORY:
            return {"fault": "the work needs more memory than it may have", "out_of_memory": True}, []
        return {"fault": failed.text or said(), "status": failed.status}, []
    except OSError as error:
        return {"fault": system_text(error), "status": 2}, []
    except BaseException:
        os.dup2(log, 2)
        lines = traceback.format_exc().encode(errors="replace").splitlines()
        sys.stderr.writelines(f"{shown(line)}\n" for line in lines)
        return {"fault": "", "status": 2, "is_bug": True}, []


def refuse_pipe(archive: str) -> None:
    """Refuses a pipe in place of the archive, for which reports would wait, since they may come from one."""
    if is_no_file(os.fsencode(archive)):
        raise Failed(f"{shown(archive)} is {NO_FILE}, and no archive", 2)


def said() -> str:
    """The last lines that were written on standard error."""
    sys.stderr.flush()
    with open(ERR, "rb") as file:
        return file.read(10_000).decode(errors="replace").strip()
