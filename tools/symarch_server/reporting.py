"""Reports, as symbolicate-report prints them, and as pages."""
from __future__ import annotations

import os
import sys
from typing import IO, Any, Dict, List, Union

from flask import Blueprint, Response, render_template, request

from .app import site, wants_page
from .control import OUT
from .fetching import file_of_room
from .forms import file_name, flags_of
from .refusals import Refusal
from .site import Work, log

routes = Blueprint("reporting", __name__)
OPTIONS = ("text", "paths", "no-lines", "json", "raw", "no-demangle")
# How long a report may be.
MOST = 64_000_000
OTHERWISE = "report"
# A form in a room, and the report of it, which have names that no report has.
FORM, OF_FORM = ".form", ".report"
CHUNK = 1 << 20
MEMBERS = {False: "text/plain; charset=utf-8", True: "application/x-ndjson"}


@routes.post("/reports")
def reports() -> Union[str, Response]:
    options, is_page = flags_of(OPTIONS), wants_page()
    if is_page and "--json" in options:
        raise Refusal(400, "--json is no page")
    if is_page and "--text" not in options:
        options.append("--text")
    refuse_length(MOST)
    with site().rooms.room() as room:
        name = taken(room)
        with site().work("report", room, name=name, options=options, is_page=is_page) as work:
            members = work.members
            if "refused" in members:
                raise Refusal(503 if members["status"] == 126 else 422, without_tool(members["refused"]))
            site().metrics.add_frames(members["frames"])
            fault = site().missing.add(members["missing"])
            if fault:
                log(f"fault: the dSYMs that reports lack are not kept: {fault}")
            if is_page:
                return page_of(name, members)
            return answer_of(work, "--json" in options)


def answer_of(work: Work, is_json: bool) -> Response:
    """The report, with what symbolicate-report says of it in headers."""
    made = file_of_room(work.path(OUT), MEMBERS[is_json])
    made.headers["Symarch-Status"] = str(work.members["status"])
    made.headers["Symarch-Frames"] = " ".join(f"{kind}={count}" for kind, count in work.members["frames"].items())
    return made


def page_of(name: str, members: Dict[str, Any]) -> str:
    """The page: what answered for each image, those without a dSYM first, and the threads."""
    missing, page = members["missing"], members["page"]
    images = sorted(page.pop("images"), key=lambda one: (one["uuid"] not in missing, one["name"] or ""))
    uuids: Dict[str, List[str]] = {}
    for one in (it for it in images if it["answered_by"] != "absent"):
        uuids.setdefault(one["name"] or "", []).append(one["uuid"])
    links = {its: found[0] for its, found in uuids.items() if len(found) == 1}
    return render_template("report.html", name=name, images=images, missing=missing, links=links, **page)


def without_tool(line: str) -> str:
    """A line of symbolicate-report without its name."""
    return line.partition("symbolicate-report: ")[2] or line


# ---- what comes in


def refuse_length(most: int) -> None:
    if (request.content_length or 0) > most:
        raise Refusal(413, f"expected {most} bytes at most")


def taken(room: str) -> str:
    """Puts the report of a request into a file of a room, and returns its name."""
    if request.mimetype != "multipart/form-data":
        return saved(room, file_name(None, OTHERWISE), request.stream, MOST)
    body = saved(room, FORM, request.stream, MOST)
    words = {"content_type": request.content_type, "to": OF_FORM, "libraries": sys.path}
    with site().work("form", room, name=body, **words) as work:
        if "bad" in work.members:
            raise Refusal(work.members["code"], work.members["bad"])
        name = file_name(work.members["file_name"], OTHERWISE)
    os.rename(os.path.join(room, OF_FORM), os.path.join(room, name))
    return name


def saved(room: str, name: str, stream: IO[bytes], most: int) -> str:
    """Copies what comes in into a file."""
    try:
        with open(os.path.join(room, name), "xb") as written:
            size = copied(stream, written, most)
    except OSError as error:
        raise Refusal(507, f"the body could not be stored: {error.strerror or 'it was cut'}") from None
    if not size:
        raise Refusal(400, "the body is empty")
    expected = request.content_length
    if expected is not None and size != expected:
        raise Refusal(400, "the body was cut")
    return name


def copied(stream: IO[bytes], written: IO[bytes], most: int) -> int:
    """How many bytes were copied."""
    size = 0
    for chunk in iter(lambda: stream.read(CHUNK), b""):
        size += len(chunk)
        if size > most:
            raise Refusal(413, f"expected {most} bytes at most")
        written.write(chunk)
    return size
