"""Numbers: of the archive, of requests, and of the dSYMs that reports lacked."""
from __future__ import annotations

from typing import Union

from flask import Blueprint, Response, jsonify, render_template

from .app import site, text, visible, wants_json, wants_page
from .building import lines_of
from .forms import refuse_others
from .site import objects_in

routes = Blueprint("stating", __name__)
OF_PROMETHEUS = "text/plain; version=0.0.4; charset=utf-8"


@routes.get("/status")
def status() -> Response:
    refuse_others([])
    return lines_of(["status", "--", site().settings.archive])


@routes.get("/metrics")
def metrics() -> Response:
    refuse_others([])
    words = ["status", "--json", "--", site().settings.archive]
    with site().rooms.room() as room, site().keep(words, room) as work:
        ends = objects_in(work.printed())
    lines = site().metrics.lines(ends[-1] if ends else {})
    return Response("".join(f"{line}\n" for line in lines), content_type=OF_PROMETHEUS)


@routes.get("/missing")
def missing() -> Union[str, Response]:
    """Which dSYMs reports lacked, and which of these have come since."""
    refuse_others([])
    rows = site().missing.rows()
    with site().rooms.room() as room, site().work("dsyms", room, uuids=[row.uuid for row in rows]) as work:
        came = set(work.members["uuids"])
    every = [{**row._asdict(), "came": row.uuid in came} for row in rows]
    is_kept, fault = site().settings.has_missing, site().missing.fault
    if wants_page() and not wants_json():
        return render_template("missing.html", rows=every, is_kept=is_kept, fault=fault)
    lines = (f"{row.uuid} {row.reports} {row.last} {said(row.uuid in came)} {visible(row.name)}" for row in rows)
    response = jsonify(every) if wants_json() else text([line.rstrip() for line in lines])
    response.headers["Symarch-Status"] = "2" if fault else "0"
    return response


def said(has_come: bool) -> str:
    return "came" if has_come else "missing"
