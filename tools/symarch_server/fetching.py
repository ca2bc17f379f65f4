"""What can be taken of an archive: slices, as debuginfod and Symbolicator ask for them, and dSYM bundles for lldb.
They are sent out of open files, whatever their size. So a slice is not copied, and a fold does not change it. The
worker that opens the file first compares the bytes with their SHA-256; the result counts for a minute if nobody
wrote to the file."""
from __future__ import annotations

import os
from typing import List, Optional, Tuple

from flask import Blueprint, Response, request
from werkzeug.wsgi import wrap_file

from .app import site
from .control import Members
from .forms import arch_of, argument, checked_words, hex_uuid_of, refuse_others, uuid_of
from .refusals import Refusal
from .segments import BLOCK, Segments
from .site import SMALL, Work

routes = Blueprint("fetching", __name__)
BINARY = "application/octet-stream"
KINDS = "debuginfo", "executable"
TAR_BLOCK, TAR_END = 512, bytes(1024)
# To be kept by whoever has it, but by no cache between if it is for those with a token.
FOR_EVER = "max-age=31536000, immutable"


def sent(segments: Segments, content_type: str, status: int = 200, length: Optional[int] = None) -> Response:
    """An answer of bytes from where they stand now, so many of them."""
    made = Response(wrap_file(request.environ, segments, BLOCK), status, direct_passthrough=True)
    made.content_type = content_type
    made.content_length = segments.size() - segments.tell() if length is None else length
    return made


def file_of_room(path: str, content_type: str) -> Response:
    """An answer of a file, which may be removed before it is sent."""
    size = os.stat(path).st_size
    segments = counted(size)
    segments.add_file(os.open(path, os.O_RDONLY | os.O_CLOEXEC), 0, size)
    return sent(segments, content_type)


def counted(size: int) -> Segments:
    """Bytes of files of a room, which are counted until they are sent if they are many."""
    if size <= SMALL:
        return Segments()
    here = site()
    here.begin_sending(size)
    return Segments(lambda: here.end_sending(size))


# ---- slices


@routes.get("/buildid/<build_id>/<any(debuginfo, executable):kind>")
def by_build_id(build_id: str, kind: str) -> Response:
    return slice_of(hex_uuid_of(build_id), kind)


@routes.get("/<string(length=2):first>/<string(length=30):rest>/<any(debuginfo, executable):kind>")
def by_unified_layout(first: str, rest: str, kind: str) -> Response:
    return slice_of(hex_uuid_of(first + rest), kind)


def slice_of(number: str, kind: str) -> Response:
    refuse_others(["arch", "digest"])
    digest = checked_words({"digest": argument("digest")})["digest"]
    words = {"uuid": number, "kind": kind, "arch": arch_of(argument("arch")), "digest": digest and digest.lower()}
    with site().rooms.room() as room, site().work("slice", room, None, **words) as work:
        refuse_candidates(number, kind, work.members)
        segments = Segments()
        segments.add_file(work.descriptors.pop(), work.members["at"], work.members["bytes"])
        return conditional(segments, work.members["digest"], bool(digest))


def refuse_candidates(number: str, kind: str, found: Members) -> None:
    """Refuses what is not one slice: none, or several."""
    some = found.get("candidates")
    if some is None:
        return
    if not some:
        other = ", only as something else" if found["has_others"] else ""
        raise Refusal(404, f"no slice answers as {kind} of {number}{other}")
    archs = sorted({one["arch"] for one in some})
    lines = [f"{one['arch']} {one['digest']}" for one in some]
    how = "?arch= chooses one" if len(archs) == len(some) else "?digest= chooses one"
    raise Refusal(409, f"{len(some)} slices answer as {kind} of {number}: {how}", lines)


def ranges_asked(digest: str) -> List[Tuple[int, Optional[int]]]:
    """The ranges of these bytes that are asked for: where each begins, before the end if that is negative, and ends."""
    asked = request.range if is_of_range(digest) else None
    return asked.ranges if asked and asked.units == "bytes" else []


def span_of(begin: int, end: Optional[int], size: int) -> Optional[Tuple[int, int]]:
    """Where a range of so many bytes begins and ends, if it has one of them. A last part that is longer is all."""
    begin, end = max(begin + size, 0) if begin < 0 else begin, min(size if end is None else end, size)
    return (begin, end) if begin < end else None


def is_of_range(digest: str) -> bool:
    """Whether a range is asked of these bytes, and not of others that the client has the beginning of."""
    try:
        condition = request.if_range
    except OverflowError:
        # A day that no calendar has.
        return False
    return condition.date is None and condition.etag in (None, digest)


def conditional(segments: Segments, digest: str, is_named: bool) -> Response:
    """The bytes, a range of them, or that the client has them. An answer to a UUID alone may be another one later."""
    size, wanted = segments.size(), ranges_asked(digest)
    span = span_of(*wanted[0], size) if len(wanted) == 1 else None
    if request.if_none_match.contains(digest):
        segments.close()
        response = Response(status=304)
    elif len(wanted) == 1 and span is None:
        segments.close()
        response = Response(status=416)
        response.headers["Content-Range"] = f"bytes */{size}"
    elif span:
        segments.seek(span[0])
        response = sent(segments, BINARY, 206, span[1] - span[0])
        response.headers["Content-Range"] = f"bytes {span[0]}-{span[1] - 1}/{size}"
    else:
        response = sent(segments, BINARY)
        # As debuginfod has it, by which some clients say how far they are.
        response.headers["X-DEBUGINFOD-SIZE"] = str(size)
    response.set_etag(digest)
    response.headers["Accept-Ranges"] = "bytes"
    response.headers["Cache-Control"] = kept_by() if is_named else "no-cache"
    return response


def kept_by() -> str:
    """Who may keep bytes that stay as they are."""
    return f"{'private' if site().readers else 'public'}, {FOR_EVER}"


# ---- bundles


@routes.get("/builds/<word>/dsym")
def dsym(word: str) -> Response:
    """The files that `symarch-keep get` makes, as a tar."""
    refuse_others(["digest"])
    number, digests = uuid_of(word), request.args.getlist("digest")
    for digest in digests:
        checked_words({"digest": digest})
    with site().rooms.room() as room:
        with site().work("bundle", room, site().long_workers, uuid=number, digests=digests) as work:
            refuse_bundle(number, work)
            return sent(tar_of(room, work.members["pieces"]), "application/x-tar")


def refuse_bundle(number: str, work: Work) -> None:
    if work.members["status"] not in (0, 1):
        raise work.refusal()
    lines = work.printed().splitlines()
    conflicts = [line.partition(" ")[2] for line in lines if line.startswith("conflict ")]
    if conflicts:
        raise Refusal(409, f"several slices answer for {number}: ?digest= chooses one", conflicts)
    if work.members["status"] or not work.members["has_dsym"]:
        raise Refusal(404, f"the archive has no dSYM of {number}", work.said())


def tar_of(room: str, pieces: List[Members]) -> Segments:
    made = counted(sum(piece["bytes"] for piece in pieces))
    for piece in pieces:
        made.add(bytes.fromhex(piece["head"]))
        if piece["path"] is not None:
            descriptor = os.open(os.path.join(room, piece["path"]), os.O_RDONLY | os.O_CLOEXEC)
            made.add_file(descriptor, 0, piece["bytes"])
            made.add(bytes(-piece["bytes"] % TAR_BLOCK))
    made.add(TAR_END)
    return made
