"""Reports with names, as symbolicate-report makes them."""
from __future__ import annotations

import sys
from typing import List

from symarch_tools import symbolicate
from symarch_tools.console.escapes import line_shown
from symarch_tools.console.streams import noted
from symarch_tools.reports.account import members_of
from symarch_tools.reports.arguments import options_of
from symarch_tools.reports.faults import SeveralReports, Status
from symarch_tools.reports.missing import wanted_in
from symarch_tools.reports.report import Report
from symarch_tools.store.file_names import is_archive

from .control import Members
from .missing import MOST_OF_REPORT
from .report_pages import MOST_OF_LINE, blocks_of

# So many images and faults stand on a page.
MOST_IMAGES, MOST_FAULTS = 1_000, 100


def report(job: Members, _: List[int]) -> Members:
    """The report that is a file of the room, in `out`; what answered for its images; and what a page has of it."""
    name = job["name"]
    if is_archive(name):
        return {"status": int(Status.REFUSED), "refused": f"{name}: an archive, and no report"}
    options = options_of([*job["options"], "--", name, job["archive"]])
    reader = symbolicate.Reader(options)
    reader.is_printed, reader.is_one = not job["is_page"], True
    try:
        status = symbolicate.carry_out(options, reader)
    except SeveralReports:
        return {"status": int(Status.REFUSED), "refused": f"{name}: a zip file that holds several reports"}
    if not reader.found:
        return {"status": int(status), "refused": "; ".join(noted) or f"{name}: no report"}
    sys.stdout.flush()
    found = reader.found[0]
    count = found.count()
    names = {str(it.uuid): line_shown(it.name)[:MOST_OF_LINE] for it in wanted_in([found])[:MOST_OF_REPORT]}
    answer = {"status": int(status), "frames": vars(count), "missing": names}
    return {**answer, "page": {**page(found), "account": count.text()} if job["is_page"] else None}


def page(found: Report) -> Members:
    """What stands on a page: the blocks of the report, what answered for its images, and what is wrong with it."""
    pieces = (piece for part in found.parts for piece in part.pieces())
    blocks, is_cut = blocks_of(pieces)
    images = found.images.with_frames()
    some = [image_of(members_of(image)) for image in images[:MOST_IMAGES]]
    faults = [line[:MOST_OF_LINE] for line in noted[:MOST_FAULTS]]
    return {"blocks": blocks, "is_cut": is_cut, "images": some, "count": len(images), "faults": faults}


def image_of(members: Members) -> Members:
    """An image as a page has it, whose texts may be as long as a report."""
    return {name: text[:MOST_OF_LINE] if isinstance(text, str) else text for name, text in members.items()}
