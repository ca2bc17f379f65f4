"""What comes in, from those who have a token: files that `symarch-keep add` takes."""
from __future__ import annotations

import os

from flask import Blueprint, Response, g, request

from .app import refuse_token, site, token
from .control import OUT
from .fetching import file_of_room
from .forms import argument, file_name, flags_of
from .refusals import Refusal
from .reporting import refuse_length, saved
from .site import log

routes = Blueprint("uploading", __name__)
OTHERWISE = "upload"
# What a client is answered by the status of `add`.
STATUSES = {0: 200, 1: 422, 2: 422, 3: 400, 4: 503, 126: 503}


@routes.put("/images")
@routes.put("/images/<path:name>")
def images(name: str = "") -> Response:
    """Adds a file, which stands in a folder of the name of who uploads it: so that stands in the archive's log too."""
    if site().uploads is None:
        raise Refusal(403, "nobody may upload here: --uploads names those who may")
    g.name = uploader = site().uploader_of(token()) or refuse_token()
    options = flags_of(["dsyms-only"], ["name"])
    most = site().settings.most
    refuse_length(most)
    with site().rooms.room() as room:
        os.mkdir(os.path.join(room, uploader))
        its = saved(os.path.join(room, uploader), file_name(name or argument("name"), OTHERWISE), request.stream, most)
        words = ["add", "--json", *options, "--", site().settings.archive, f"{uploader}/{its}"]
        with site().keep(words, room, site().adding) as work:
            status = work.members["status"]
            for line in work.said():
                log(f"{uploader} {its}: {line}")
            response = file_of_room(work.path(OUT), "application/x-ndjson")
            response.status_code = STATUSES.get(status, 503)
            response.headers["Symarch-Status"] = str(status)
            return response
