"""Names for profilers, as Mozilla's symbol servers answer them in version 5."""
from __future__ import annotations

from flask import Blueprint, Response, request

from .app import OF_PROFILERS, site
from .control import OUT
from .fetching import file_of_room
from .forms import refuse_others
from .refusals import Refusal
from .reporting import refuse_length, saved

routes = Blueprint("profiling", __name__)
MOST = 16_000_000


@routes.route(OF_PROFILERS, methods=["POST", "OPTIONS"])
def symbolicate() -> Response:
    refuse_others([])
    if request.method == "OPTIONS":
        return allowed(Response(status=204))
    refuse_length(MOST)
    with site().rooms.room() as room:
        name = saved(room, "asked", request.stream, MOST)
        with site().work("profile", room, name=name) as work:
            if "bad" in work.members:
                raise Refusal(400, work.members["bad"])
            named = work.members["named"]
            site().metrics.add_frames({"profiled": named, "profiled_not_named": work.members["every"] - named})
            return allowed(file_of_room(work.path(OUT), "application/json"))


def allowed(response: Response) -> Response:
    """The answer, which a page of an origin that may ask is given by its browser."""
    origin = request.headers.get("Origin", "")
    if origin.lower() in site().settings.origins:
        response.headers["Access-Control-Allow-Origin"] = origin
        response.headers["Cross-Origin-Resource-Policy"] = "cross-origin"
        if request.method == "OPTIONS":
            response.headers["Access-Control-Allow-Methods"] = "POST"
            response.headers["Access-Control-Allow-Headers"] = "Content-Type, Authorization"
            response.headers["Access-Control-Allow-Private-Network"] = "true"
            response.headers["Access-Control-Max-Age"] = "3600"
    response.vary.add("Origin")
    return response
