"""Builds: the first page, the list of all, what an archive has of each, and in which a symbol stands."""
from __future__ import annotations

import re
from typing import Any, Dict, List, Optional, Union

from flask import Blueprint, Response, jsonify, redirect, render_template, url_for
from werkzeug.wrappers import Response as Answer

from .app import site, text, wants_json, wants_page
from .control import OUT
from .fetching import file_of_room
from .forms import argument, checked_words, refuse_others, uuid_of
from .refusals import Refusal

routes = Blueprint("building", __name__)
Page = Union[str, Response, Answer]
# So many builds stand on the first page, and on that of all.
RECENT, MOST = 20, 500
# A line of `name`.
FOUND = re.compile(r"([0-9a-f-]{36}) (\S+) ([0-9a-f]{64}) (\S+) \((.*)\)")
MOST_FOUND = 5_000


@routes.get("/")
def home() -> str:
    refuse_others([])
    with site().rooms.room() as room, builds_in(room, RECENT) as work:
        return render_template("home.html", rows=work.members["rows"], count=work.members["count"])


@routes.get("/builds")
def builds() -> Page:
    refuse_others(["app", "since", "until"])
    words = checked_words({name: argument(name) for name in ("app", "since", "until")})
    is_json = wants_json()
    with site().rooms.room() as room, builds_in(room, MOST, is_json, words) as work:
        if is_json:
            return file_of_room(work.path(OUT), "application/json")
        members = work.members
        return render_template("builds.html", rows=members["rows"], count=members["count"], asked=words, most=MOST)


def builds_in(room: str, most: int, is_written: bool = False, words: Optional[Dict[str, Optional[str]]] = None) -> Any:
    asked = words or dict.fromkeys(("app", "since", "until"))
    return site().work("builds", room, is_written=is_written, most=most, **asked)


@routes.get("/builds/<word>")
def build(word: str) -> Page:
    refuse_others([])
    number = uuid_of(word)
    with site().rooms.room() as room, site().work("held", room, uuid=number) as work:
        found = work.members
    if not found["is_there"]:
        raise Refusal(404, f"the archive has no {number}")
    if wants_json():
        return jsonify(uuid=number, architectures=found["architectures"])
    return render_template("build.html", uuid=number, architectures=found["architectures"])


@routes.get("/search")
def search() -> Answer:
    """What stands in the field of the first page: a UUID, or the name of a symbol."""
    refuse_others(["for"])
    word = (argument("for") or "").strip()
    if not word:
        return redirect(url_for("building.home"))
    try:
        return redirect(url_for("building.build", word=uuid_of(word)))
    except Refusal:
        return redirect(url_for("building.symbols", name=word))


@routes.get("/symbols/<path:name>")
def symbols(name: str) -> Page:
    """As `symarch-keep name`, which reads all slices."""
    refuse_others([])
    if "\0" in name:
        raise Refusal(400, "a name has no character 0")
    words = ["name", "--", site().settings.archive, name]
    with site().rooms.room() as room, site().keep(words, room, site().long_workers) as work:
        status = work.members["status"]
        if status not in (0, 1):
            raise work.refusal(400 if status == 3 else 503)
        if not wants_page():
            if status:
                raise Refusal(404, "no slice has a symbol of this name")
            return file_of_room(work.path(OUT), "text/plain; charset=utf-8")
        lines = work.printed().splitlines()
    rows = [one.groups() for one in map(FOUND.fullmatch, lines[:MOST_FOUND]) if one]
    page = render_template("symbols.html", name=name, rows=rows, count=len(lines))
    return Response(page, 404 if status else 200)


def lines_of(words: List[str]) -> Response:
    """What a word prints, whatever its status."""
    with site().rooms.room() as room, site().keep(words, room) as work:
        if work.members["status"] not in (0, 2):
            raise work.refusal()
        return text([*work.printed().splitlines(), *work.said()])
