"""The application: who may ask, by which name of the machine, and what stands in each answer."""
from __future__ import annotations

import os
import re
import threading
import time
from dataclasses import dataclass, field
from typing import Any, Dict, List, Optional, cast
from urllib.parse import urlsplit

from flask import Flask, Response, current_app, g, render_template, request
from werkzeug.exceptions import HTTPException

from symarch_tools.console.escapes import line_shown
from symarch_tools.console.faults import system_text

from .refusals import Refusal
from .settings import NAME_OF_HOST, Settings
from .site import Site, log, log_fault
from .tokens import token_in

CSP = (
    "default-src 'none'; style-src 'self'; script-src 'self'; img-src 'self'; connect-src 'self'; form-action 'self'; "
    "base-uri 'none'; frame-ancestors 'none'"
)
HEADERS = {
    "Content-Security-Policy": CSP,
    "X-Content-Type-Options": "nosniff",
    "Referrer-Policy": "same-origin",
    "X-Frame-Options": "DENY",
    "Cross-Origin-Resource-Policy": "same-origin",
    "Cross-Origin-Opener-Policy": "same-origin",
}
HOST = re.compile(f"({NAME_OF_HOST.pattern})(?::[0-9]{{1,5}})?")
CHALLENGES = 'Bearer realm="symarch"', 'Basic realm="symarch", charset="UTF-8"'
# What browsers ask before a page of elsewhere may ask this route.
OF_PROFILERS = "/symbolicate/v5"
# So many characters of a path stand in the log, and of a method.
MOST_OF_PATH, MOST_OF_METHOD = 1_000, 20
TEXT = "text/plain; charset=utf-8"


@dataclass(eq=False)
class Sites:
    """The site of each process: a server may fork after the application was made."""

    settings: Settings
    lock: threading.Lock = field(default_factory=threading.Lock)
    found: Dict[int, Site] = field(default_factory=dict)

    def site(self) -> Site:
        with self.lock:
            if os.getpid() not in self.found:
                self.found = {os.getpid(): Site(self.settings)}
            return self.found[os.getpid()]


def site() -> Site:
    return cast(Sites, current_app.extensions["symarch"]).site()


def make_app(settings: Settings) -> Flask:
    from . import building, fetching, profiling, reporting, stating, uploading

    app = Flask(__name__)
    app.extensions["symarch"] = Sites(settings)
    # The name of a symbol may have several slashes.
    app.url_map.strict_slashes = app.url_map.merge_slashes = False
    app.jinja_env.filters["visible"] = visible
    app.jinja_env.globals["version"] = version_text()
    app.before_request(begin)
    app.after_request(finish)
    app.register_error_handler(Refusal, refused)
    app.register_error_handler(HTTPException, refused_by_http)
    app.register_error_handler(OSError, failed_by_system)
    app.register_error_handler(Exception, failed)
    for module in (building, reporting, fetching, profiling, uploading, stating):
        app.register_blueprint(module.routes)
    return app


def version_text() -> str:
    from symarch_tools.console.version import version

    return version()


def visible(text: Any) -> str:
    """A text of which each character is seen, as the tools print lines. What UTF-8 has not is a question mark."""
    return line_shown(str(text)).encode(errors="replace").decode()


# ---- before a request


def begin() -> Optional[Response]:
    """Refuses whoever may not ask."""
    g.began, g.name = time.monotonic(), "-"
    refuse_host()
    refuse_origin()
    if request.method == "OPTIONS":
        return None
    if site().readers is not None and request.endpoint != "static" and not is_upload():
        g.name = site().reader_of(token()) or refuse_token()
    return None


def is_upload() -> bool:
    """Whether it is an upload, which asks for a token of its own."""
    return request.blueprint == "uploading"


def refuse_host() -> None:
    """Refuses another name of this machine, as one that a page of elsewhere has made for it."""
    found = HOST.fullmatch(request.environ.get("HTTP_HOST", "").lower())
    if not found or found[1] not in site().settings.hosts:
        raise Refusal(421, "this is no host name of this server: --host adds it")


def refuse_origin() -> None:
    """Refuses a page of elsewhere, except for those that may ask for names."""
    origin = request.headers.get("Origin", "").lower()
    is_within = request.headers.get("Sec-Fetch-Mode", "navigate") != "navigate"
    is_foreign = request.headers.get("Sec-Fetch-Site") == "cross-site" and is_within
    if is_own(origin) if origin else not is_foreign:
        return
    if request.path != OF_PROFILERS or origin not in site().settings.origins:
        raise Refusal(403, "a page of another origin may not call this: --origin names those that may")


def is_own(origin: str) -> bool:
    """Whether an origin is of the names of this server, and of the port by which it was asked."""
    try:
        return urlsplit(origin).netloc == request.environ.get("HTTP_HOST", "").lower()
    except ValueError:
        return False


def token() -> Optional[bytes]:
    """The token of the request."""
    return token_in(request.headers.get("Authorization", ""))


def refuse_token() -> str:
    raise Refusal(401, "a token is needed: Authorization: Bearer TOKEN", headers={"WWW-Authenticate": CHALLENGES[1]})


# ---- after it


def finish(response: Response) -> Response:
    for name, value in HEADERS.items():
        response.headers.setdefault(name, value)
    response.headers.setdefault("Cache-Control", "no-store")
    if response.status_code == 401:
        response.headers.add("WWW-Authenticate", CHALLENGES[0])
    seconds = time.monotonic() - g.get("began", time.monotonic())
    rule = request.url_rule.rule if request.url_rule else "none"
    if response.status_code != 421:
        site().metrics.add_request(rule, known_method(), response.status_code, seconds)
    log(f"{request.remote_addr} {g.get('name', '-')} {asked()} {response.status_code} {seconds:.3f}")
    return response


def asked() -> str:
    """The method and the path, as they stand in the log: two words, which are not long."""
    path = request.path.replace(" ", "%20")
    end = "..." if len(path) > MOST_OF_PATH else ""
    return f"{request.method[:MOST_OF_METHOD]} {path[:MOST_OF_PATH]}{end}"


def known_method() -> str:
    """The method, if it is one of those that are counted by themselves."""
    return request.method if request.method in ("GET", "HEAD", "POST", "PUT", "OPTIONS") else "other"


def wants_page() -> bool:
    """Whether a browser asks, which names HTML."""
    return "text/html" in request.headers.get("Accept", "") and request.accept_mimetypes["text/html"] > 0


def wants_json() -> bool:
    best = request.accept_mimetypes.best_match(["text/html", "application/json"], "text/html")
    return best == "application/json"


def text(lines: List[str], status: int = 200) -> Response:
    data = "".join(f"{line}\n" for line in lines).encode(errors="replace")
    return Response(data, status, content_type=TEXT)


def refused(refusal: Refusal) -> Response:
    if wants_page():
        page = render_template("refusal.html", status=refusal.status, text=refusal.text, more=refusal.more)
        response = Response(page, refusal.status)
    else:
        response = text([refusal.text, *refusal.more], refusal.status)
    response.headers.update(refusal.headers)
    return response


def refused_by_http(error: HTTPException) -> Response:
    """What the library refuses, as a path that there is not."""
    if error.code is not None and 300 <= error.code < 400:
        return cast(Response, error.get_response())
    headers = {name: value for name, value in error.get_headers() if name == "Allow"}
    return refused(Refusal(error.code or 500, (error.name or "").lower(), headers=headers))


def failed_by_system(error: OSError) -> Response:
    """What the system has no more of, as room on a disk or open files."""
    log(f"fault: {asked()}: {system_text(error)}")
    return refused(Refusal(503, f"the server could not do it: {error.strerror}", headers={"Retry-After": "10"}))


def failed(_: Exception) -> Response:
    """A fault of the server. The log has what it was, and the client a line."""
    log(f"fault: {asked()}")
    log_fault()
    return refused(Refusal(500, "the server has a fault, which its log describes"))
